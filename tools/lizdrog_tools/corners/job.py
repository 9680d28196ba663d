"""One job of one corner: a folder with what is to be run, and what became of it.

The folder of a job has `job.json` (what is to be run), `job.sh` (the file that a scheduler is given), `state.json`
(what became of it), `output` (what the run wrote, once it ended with status 0 or 1) and `log` (its errors). Each file
appears whole, by a rename, so that a machine that shares the folder reads it at any time.
"""
import dataclasses
import enum
import json
import os
import pathlib
import resource
import shlex
import signal
import socket
import subprocess
import sys
import time

from lizdrog_tools.places import TOOLS
from lizdrog_tools.run_lizdrog import FIRST_BYTES, surroundings

ANSWERED = (0, 1)
GRACE = 5.0
TIMED_OUT, STOPPED = 124, 143


class State(enum.Enum):
    """What became of a job."""

    WAITING = "waiting"
    RUNNING = "running"
    DONE = "done"
    FAILED = "failed"
    TIMED_OUT = "timed out"
    STOPPED = "stopped"
    LOST = "lost"

    def is_over(self) -> bool:
        """Whether nothing more will come."""
        return self not in (State.WAITING, State.RUNNING)


@dataclasses.dataclass(frozen=True)
class Outcome:
    """The state of a job, with the status and the cost of its run where it is over."""

    state: State
    status: int | None = None
    seconds: float = 0.0
    processor: float = 0.0
    host: str = ""


def write_whole(file: pathlib.Path, text: str) -> None:
    """Writes a file so that nobody sees a part of it."""
    part = file.with_name(f"{file.name}.{socket.gethostname()}.{os.getpid()}.part")
    part.write_text(text, encoding="latin-1")
    os.replace(part, file)


def read_json(file: pathlib.Path) -> dict:
    """What a file of ours holds, or nothing where it is not there."""
    try:
        return json.loads(file.read_text(encoding="latin-1"))
    except (OSError, ValueError):
        return {}


@dataclasses.dataclass(frozen=True)
class Job:
    """A job in its folder."""

    corner: str
    folder: pathlib.Path

    @property
    def output(self) -> pathlib.Path:
        """What the run wrote."""
        return self.folder / "output"

    @property
    def log(self) -> pathlib.Path:
        """The errors of the run."""
        return self.folder / "log"

    @property
    def launched_file(self) -> pathlib.Path:
        """The file that a scheduler is given."""
        return self.folder / "job.sh"

    def prepare(self, program: pathlib.Path, words: list[str], timeout: float | None, fingerprint: str) -> None:
        """Writes what is to be run, and takes away what an earlier run has left."""
        for name in ("state.json", "output", "log"):
            (self.folder / name).unlink(missing_ok=True)
        told = {
            "corner": self.corner,
            "program": os.fspath(program),
            "words": words,
            "timeout": timeout,
            "fingerprint": fingerprint,
        }
        write_whole(self.folder / "job.json", json.dumps(told, indent=1))
        launched = shlex.join([sys.executable, "-m", "lizdrog_tools.corners.job", os.fspath(self.folder)])
        write_whole(self.launched_file, f"#!/bin/sh\ncd {shlex.quote(os.fspath(TOOLS))} && exec {launched}\n")
        self.launched_file.chmod(0o755)

    def fingerprint(self) -> str:
        """What the job was made of."""
        return read_json(self.folder / "job.json").get("fingerprint", "")

    def scripts(self) -> int:
        """How many scripts the job runs."""
        return sum(
            it.startswith(os.fspath(self.folder)) and it.endswith(".eco")
            for it in read_json(self.folder / "job.json").get("words", [])
        )

    def outcome(self) -> Outcome:
        """What became of the job, as far as is known."""
        told = read_json(self.folder / "state.json")
        if not told or told.get("fingerprint") != self.fingerprint():
            return Outcome(State.WAITING)
        return Outcome(
            State(told["state"]),
            told.get("status"),
            told.get("seconds", 0.0),
            told.get("processor", 0.0),
            told.get("host", ""),
        )

    def note(self, fingerprint: str, outcome: Outcome) -> None:
        """Says what became of the job."""
        told = {**dataclasses.asdict(outcome), "state": outcome.state.value, "fingerprint": fingerprint}
        write_whole(self.folder / "state.json", json.dumps(told, indent=1))

    def lose(self, state: State = State.LOST) -> None:
        """Notes that the job ended without a word of its own."""
        self.note(self.fingerprint(), Outcome(state))

    def last_words(self) -> str:
        """The first line of the log."""
        try:
            lines = self.log.read_text(encoding="latin-1").splitlines()
        except OSError:
            return ""
        return next((it for it in lines if it.strip()), "")


class Stopped(Exception):
    """Somebody ends the job from outside."""


def end_group(child: subprocess.Popen) -> None:
    """Ends a child with all that it started, at first kindly."""
    for number, patience in ((signal.SIGTERM, GRACE), (signal.SIGKILL, None)):
        try:
            os.killpg(child.pid, number)
            child.wait(patience)
            return
        except ProcessLookupError:
            child.wait()
            return
        except subprocess.TimeoutExpired:
            continue


def stop(number: int, _: object) -> None:
    """Answers a signal that ends the job."""
    raise Stopped(number)


def run_program(told: dict, output: pathlib.Path, log: pathlib.Path) -> tuple[State, int]:
    """Runs the program of a job; gives its state and its status."""
    with open(output, "wb") as out, open(log, "wb") as errors:
        try:
            child = subprocess.Popen(
                [told["program"], *told["words"]],
                cwd=output.parent,
                stdin=subprocess.DEVNULL,
                stdout=out,
                stderr=errors,
                start_new_session=True,
                env=surroundings(),
            )
        except OSError as why:
            errors.write(f"{told['program']} does not start: {why.strerror}\n".encode())
            return State.FAILED, 127
        try:
            status = child.wait(told["timeout"])
        except subprocess.TimeoutExpired:
            end_group(child)
            return State.TIMED_OUT, TIMED_OUT
        except Stopped:
            end_group(child)
            return State.STOPPED, STOPPED
    return (State.DONE if status in ANSWERED else State.FAILED), status


def explain_failure(status: int, output: pathlib.Path, log: pathlib.Path, words: list[str]) -> None:
    """Writes into the log why the program refused its documents: where, and what is usually wrong there."""
    from lizdrog_tools.explain_fault import explain

    with open(output, "rb") as file:
        first = file.read(FIRST_BYTES).decode("latin-1")
    lines = explain(status, first, words) or [
        f"the program ended with status {status}: {first.splitlines()[0] if first else 'no word'}"
    ]
    with open(log, "a", encoding="latin-1", errors="replace") as file:
        file.writelines(f"{it}\n" for it in lines)


def run_job(folder: pathlib.Path) -> int:
    """Runs the job of a folder, as a scheduler starts it; gives 0 where the run has answered."""
    told = read_json(folder / "job.json")
    if not told:
        print(f"corners: {folder} is no folder of a job", file=sys.stderr)
        return 2
    job, begin = Job(told["corner"], folder), time.monotonic()
    for number in (signal.SIGTERM, signal.SIGINT, signal.SIGHUP):
        signal.signal(number, stop)
    host = socket.gethostname()
    job.note(told["fingerprint"], Outcome(State.RUNNING, host=host))
    part = folder / "output.part"
    state, status = run_program(told, part, job.log)
    if state is State.FAILED:
        explain_failure(status, part, job.log, told["words"])
    used = resource.getrusage(resource.RUSAGE_CHILDREN)
    if state is State.DONE:
        os.replace(part, job.output)
    else:
        os.replace(part, folder / "output.failed")
    job.note(
        told["fingerprint"],
        Outcome(state, status, round(time.monotonic() - begin, 3), round(used.ru_utime + used.ru_stime, 3), host),
    )
    return 0 if state is State.DONE else (status if 0 < status < 256 else 1)


if __name__ == "__main__":
    sys.exit(run_job(pathlib.Path(sys.argv[1])))
