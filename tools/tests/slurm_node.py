"""A Slurm of one node on this machine, in a folder of its own, which a test starts and ends."""
import getpass
import os
import pathlib
import shutil
import socket
import subprocess
import time
import unittest

# Debian keeps the daemons where a user's PATH may not look.
PATH = f"{os.environ.get('PATH', '')}:/usr/sbin"
PARTS = {
    "munged": "munge",
    "slurmctld": "slurmctld",
    "slurmd": "slurmd",
    "sbatch": "slurm-client",
    "squeue": "slurm-client",
}
MISSING = sorted({package for program, package in PARTS.items() if not shutil.which(program, path=PATH)})
# These tests depend on when Slurm runs and ends jobs, so the gate leaves them out.
LEFT_OUT = os.environ.get("LIZDROG_SLURM") == "no"
WHY = "LIZDROG_SLURM=no" if LEFT_OUT else f"apt-get install slurm-wlm munge (missing {', '.join(MISSING)})"
needs_slurm = unittest.skipIf(MISSING or LEFT_OUT, f"no Slurm: {WHY}")
PATIENCE = 60.0
CONFIGURATION = """ClusterName=lizdrog
SlurmctldHost={host}(127.0.0.1)
SlurmctldPort={controller}
SlurmdPort={node}
SlurmUser={user}
SlurmdUser={user}
AuthType=auth/munge
AuthInfo=socket={folder}/munge.socket
CredType=cred/munge
StateSaveLocation={folder}/state
SlurmdSpoolDir={folder}/spool
SlurmctldPidFile={folder}/slurmctld.pid
SlurmdPidFile={folder}/slurmd.pid
SlurmctldLogFile={folder}/slurmctld.log
SlurmdLogFile={folder}/slurmd.log
ProctrackType=proctrack/linuxproc
TaskPlugin=task/none
JobAcctGatherType=jobacct_gather/none
AccountingStorageType=accounting_storage/none
MpiDefault=none
SelectType=select/cons_tres
SelectTypeParameters=CR_Core
ReturnToService=2
KillWait=2
SchedulerParameters=sched_min_interval=100000,sched_interval=1
NodeName={host} NodeAddr=127.0.0.1 CPUs={processors} State=UNKNOWN
PartitionName=all Nodes={host} Default=YES MaxTime=INFINITE State=UP
"""


def free_port() -> int:
    """A port of this machine that nobody uses now."""
    with socket.socket() as one:
        one.bind(("127.0.0.1", 0))
        return one.getsockname()[1]


class SlurmNode:
    """Starts the daemons in a folder; `environment` lets sbatch and squeue find them."""

    def __init__(self, folder: pathlib.Path):
        self.folder, self.daemons = folder, []
        self.environment = {**os.environ, "SLURM_CONF": os.fspath(folder / "slurm.conf"), "PATH": PATH}
        for name in ("state", "spool"):
            (folder / name).mkdir(mode=0o755)
        (folder / "slurm.conf").write_text(
            CONFIGURATION.format(
                folder=folder,
                host=socket.gethostname().split(".")[0],
                user=getpass.getuser(),
                processors=os.cpu_count(),
                controller=free_port(),
                node=free_port(),
            )
        )
        key = folder / "munge.key"
        key.write_bytes(os.urandom(128))
        key.chmod(0o400)

    def start(self) -> None:
        """Starts all three and waits until the node takes jobs."""
        files = [f"--{name}={self.folder}/munge.{end}" for name, end in (("socket", "socket"), ("key-file", "key"))]
        files += [f"--{name}={self.folder}/munge.{end}" for name, end in (("pid-file", "pid"), ("log-file", "log"))]
        self.daemon("munged", "--foreground", "--force", f"--seed-file={self.folder}/munge.seed", *files)
        self.wait_for("munged", (self.folder / "munge.socket").exists)
        self.daemon("slurmctld", "-D", "-c", "-f", self.folder / "slurm.conf")
        self.daemon("slurmd", "-D", "-f", self.folder / "slurm.conf", "-N", socket.gethostname().split(".")[0])
        self.wait_for("the node", self.is_idle)

    def daemon(self, name: str, *words) -> None:
        """Starts one daemon in the foreground."""
        with open(self.folder / f"{name}.out", "wb") as out:
            command = [shutil.which(name, path=PATH), *map(str, words)]
            self.daemons.append(
                subprocess.Popen(command, stdin=subprocess.DEVNULL, stdout=out, stderr=out, env=self.environment)
            )

    def is_idle(self) -> bool:
        """Whether the node waits for jobs."""
        words = ["sinfo", "--noheader", "--format=%T"]
        ran = subprocess.run(words, env=self.environment, capture_output=True, text=True, check=False)
        return ran.stdout.strip() == "idle"

    def wait_for(self, what: str, is_there) -> None:
        """Waits for something, and fails with the daemons' last words where it does not come."""
        last = time.monotonic() + PATIENCE
        while not is_there():
            if time.monotonic() > last or any(it.poll() is not None for it in self.daemons):
                words = "\n".join(f"{it.name}: {it.read_text()[-800:]}" for it in sorted(self.folder.glob("*.out")))
                raise AssertionError(f"{what} did not start:\n{words}")
            time.sleep(0.1)

    def stop(self) -> None:
        """Ends the daemons, the last one first."""
        for daemon in reversed(self.daemons):
            daemon.terminate()
            try:
                daemon.wait(20)
            except subprocess.TimeoutExpired:
                daemon.kill()
                daemon.wait()
