"""`corners` on 5,000 cells at eight corners, by GNU parallel and by a real Slurm: all equal runs by hand."""
import json
import pathlib
import shutil
import signal
import subprocess
import sys
import tempfile
import time
import unittest

import common
import slurm_node

CELLS = 5000
# Each good corner: its period in ps, its late derate, and whether it has wires.
CORNERS = {
    "slow_wires": (2600, 1.05, True),
    "slow": (2600, 1.05, False),
    "typical_wires": (2900, 1.0, True),
    "typical": (2900, 1.0, False),
    "fast_wires": (3300, 0.98, True),
    "fast": (3300, 0.98, False),
}
FAILING, TIMED_OUT = "faulty", "hurried"
HEAD = 'netlist = "bench.v"\nearly = "bench.lib"\nlate = "bench.lib"\nspef = "none"\nsdc = "slow.sdc"\n'
SCRIPT = "report_worst setup 5\nreport_worst hold 5\nreport_tns setup\n"


def write_design(folder):
    """Writes the design, its wires, and the project of eight corners."""
    common.run(sys.executable, common.BENCH / "design.py", folder, CELLS)
    spef = common.run(sys.executable, common.BENCH / "spef.py", folder / "bench.lib", folder / "bench.v")[1]
    (folder / "bench.spef").write_text(spef)
    sdc, text = (folder / "bench.sdc").read_text(), HEAD
    for name, (period, derate, has_wires) in CORNERS.items():
        changed = sdc.replace("-period 3300", f"-period {period}").replace("-late 1.05", f"-late {derate}")
        (folder / f"{name}.sdc").write_text(changed)
        text += f'[corners.{name}]\nsdc = "{name}.sdc"\n' + ('spef = "bench.spef"\n' if has_wires else "")
    (folder / "faulty.sdc").write_text(sdc.replace("create_clock", "creat_clock"))
    text += f'[corners.{FAILING}]\nsdc = "faulty.sdc"\n[corners.{TIMED_OUT}]\nspef = "bench.spef"\ntimeout = 0.02\n'
    (folder / "p.toml").write_text(text)
    (folder / "s.eco").write_text(SCRIPT)
    (folder / "empty").write_text("")


@common.needs_program
class EightCorners(unittest.TestCase):
    @classmethod
    def setUpClass(cls):
        cls.folder = pathlib.Path(tempfile.mkdtemp())
        cls.addClassCleanup(shutil.rmtree, cls.folder)
        write_design(cls.folder)
        cls.by_hand = {}
        for name, (_, _, has_wires) in CORNERS.items():
            spef = "bench.spef" if has_wires else "none"
            words = ["bench.lib", "bench.lib", "bench.v", f"{name}.sdc", spef, "1", "s.eco"]
            cls.by_hand[name] = common.run(common.PROGRAM, "run", "--journal", "empty", *words, cwd=cls.folder)[1]

    def corners(self, results, *words, **how):
        words = ["p.toml", "--program", common.PROGRAM, "--results", results, *words]
        return common.tool("corners", *words, cwd=self.folder, **how)

    def check(self, results, *words, **how):
        status, out, err = self.corners(results, "s.eco", "--json", *words, **how)
        self.assertEqual(status, 3, err)
        told = json.loads(out)
        states = {it["name"]: (it["state"], it["status"]) for it in told["corners"]}
        self.assertEqual(states.pop(FAILING), ("failed", 3))
        self.assertEqual(states.pop(TIMED_OUT), ("timed out", 124))
        self.assertEqual(states, dict.fromkeys(CORNERS, ("done", 0)))
        for name in CORNERS:
            self.assertEqual((self.folder / results / "answers" / name / "output").read_text(), self.by_hand[name])
        rows = {name: text.split("\n")[4].split(" ") for name, text in self.by_hand.items()}
        pin, slack = min(rows.values(), key=lambda it: float(it[1]))
        worst = told["endpoints"]["setup"][0]
        self.assertEqual((worst["pin"], worst["slack"], worst["slacks"][worst["corner"]]), (pin, slack, slack))
        log = (self.folder / results / "answers" / FAILING / "log").read_text()
        self.assertRegex(log.split("\n")[0], r"/faulty\.sdc:4:1: S2:")
        return told

    @unittest.skipUnless(shutil.which("parallel"), "GNU parallel is not installed: apt-get install parallel")
    def test_by_parallel(self):
        self.check("by_parallel", "--quiet")

    @slurm_node.needs_slurm
    def test_by_slurm(self):
        with tempfile.TemporaryDirectory() as folder:
            node = slurm_node.SlurmNode(pathlib.Path(folder))
            self.addCleanup(node.stop)
            node.start()
            self.check("by_slurm", "--quiet", "--launch", "slurm", env=node.environment)
            first = json.loads((self.folder / "by_slurm" / "answers" / "slurm.json").read_text())
            self.assertEqual([it[0] for it in first["jobs"]], [*CORNERS, FAILING, TIMED_OUT])
            told = self.check("by_slurm", "--quiet", "--launch", "slurm", env=node.environment)
            second = json.loads((self.folder / "by_slurm" / "answers" / "slurm.json").read_text())
            self.assertNotEqual(first["number"], second["number"])
            self.assertEqual([it[0] for it in second["jobs"]], [FAILING, TIMED_OUT])
            self.assertEqual(len(told["corners"]), 8)
            node.stop()


STAND_IN = '#!/bin/sh\necho x >>"$4.runs"\nsleep 4\ncat "$4"\n'
ANSWER = (
    "journal 2 0 0\nderates 1 1 1 1\nsession 1 rows 1\n1 0 wns -1.000\nfinal 0 setup -1.000 -1.000 hold none 0.000\n"
)


@slurm_node.needs_slurm
class SlurmItself(unittest.TestCase):
    """What Slurm does beside running jobs: it outlives the call, it ends jobs, and it refuses."""

    def setUp(self):
        self.folder = pathlib.Path(tempfile.mkdtemp())
        self.addCleanup(shutil.rmtree, self.folder)
        (self.folder / "slurm").mkdir()
        self.node = slurm_node.SlurmNode(self.folder / "slurm")
        self.addCleanup(self.node.stop)
        self.node.start()
        texts = {"one.lib": ANSWER, "two.lib": ANSWER, "n.v": "", "n.sdc": "", "s.eco": "report_wns setup\n"}
        for name, text in texts.items():
            (self.folder / name).write_text(text)
        (self.folder / "program").write_text(STAND_IN)
        (self.folder / "program").chmod(0o755)
        self.write_project("")

    def write_project(self, more):
        head = 'netlist = "n.v"\nsdc = "n.sdc"\nspef = "none"\nlate = "one.lib"\n'
        tables = '[corners.one]\nearly = "one.lib"\n[corners.two]\nearly = "two.lib"\n'
        (self.folder / "p.toml").write_text(head + tables + more)
        self.words = ["p.toml", "--program", "program", "--launch", "slurm", "--json", "s.eco"]

    def call(self):
        return subprocess.Popen(
            [sys.executable, str(common.TOOLS / "corners.py"), *self.words],
            cwd=self.folder,
            env=self.node.environment,
            stdout=subprocess.PIPE,
            stderr=subprocess.PIPE,
            text=True,
            # Who starts these tests in the background may have them ignore interrupts.
            preexec_fn=lambda: signal.signal(signal.SIGINT, signal.SIG_DFL),
        )

    def wait_for_runs(self):
        last = time.monotonic() + 60
        while len(list(self.folder.glob("*.runs"))) < 2:
            self.assertLess(time.monotonic(), last)
            time.sleep(0.05)

    def states(self, out):
        return [(it["name"], it["state"]) for it in json.loads(out)["corners"]]

    def number(self):
        return json.loads((self.folder / "p.results" / "answers" / "slurm.json").read_text())["number"]

    def test_a_call_that_ends_early_is_taken_up(self):
        call = self.call()
        self.wait_for_runs()
        call.send_signal(signal.SIGINT)
        _, err = call.communicate()
        number = self.number()
        self.assertEqual(call.returncode, 130)
        self.assertIn(f"the array job {number} goes on", err)
        call = self.call()
        out, err = call.communicate()
        self.assertEqual((call.returncode, self.states(out)), (0, [("one", "done"), ("two", "done")]), err)
        self.assertEqual(self.number(), number)
        self.assertEqual([it.read_text() for it in self.folder.glob("*.runs")], ["x\n", "x\n"])

    def test_jobs_that_are_cancelled(self):
        call = self.call()
        self.wait_for_runs()
        subprocess.run(["scancel", f"{self.number()}_0"], env=self.node.environment, check=True)
        out, err = call.communicate()
        # A job that Slurm kills before it writes its last word is lost.
        ended = dict(self.states(out))
        self.assertEqual((call.returncode, ended["two"]), (3, "done"), err)
        self.assertIn(ended["one"], ("stopped", "lost"), err)

    def test_options_that_slurm_refuses(self):
        self.write_project('[slurm]\noptions = ["--partition=nosuch"]\n')
        call = self.call()
        out, err = call.communicate()
        self.assertEqual((call.returncode, out), (2, ""))
        self.assertIn("corners: sbatch refuses the array job: ", err)


if __name__ == "__main__":
    unittest.main()
