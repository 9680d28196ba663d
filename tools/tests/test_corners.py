"""`corners`: the project file, the jobs and what launches them, the one list of ECOs, and the merged answers."""
import contextlib
import io
import json
import os
import pathlib
import shutil
import stat
import subprocess
import sys
import tempfile
import unittest
from unittest import mock

import common
from lizdrog_tools.corners import command, ecos, merge, project
from lizdrog_tools.corners.job import Job, Outcome, State
from lizdrog_tools.files import InputFault, TextFault
from lizdrog_tools.importing import project as importing

# A stand-in for the program. The early library of a corner is a small script: it says what the corner's run does.
STAND_IN = '#!/bin/sh\nexec sh "$4"\n'
PROJECT = """netlist = "top.v"
sdc = "top.sdc"
spef = "none"
late = "late.lib"
ecos = "ecos.list"
{shared}
"""
ANSWERS = """cat <<'END'
journal 2 0 0
derates 1000000 1000000 1000000 1000000
session 1 rows {count}
{rows}
final {design} setup {setup} hold {hold}
END
"""


def answers(rows, setup="none 0.000", hold="none 0.000", design=0):
    """A corner that answers with these rows."""
    return ANSWERS.format(
        count=sum(it.split(" ")[0].isdigit() for it in rows),
        rows="\n".join(rows),
        setup=setup,
        hold=hold,
        design=design,
    )


class StandIn(unittest.TestCase):
    """A project whose program is a small script."""

    def setUp(self):
        self.folder = pathlib.Path(tempfile.mkdtemp())
        self.addCleanup(shutil.rmtree, self.folder)
        self.program = self.folder / "program"
        self.program.write_text(STAND_IN)
        self.program.chmod(0o755)
        for name, text in (("top.v", common.NETLIST), ("top.sdc", common.CONSTRAINTS), ("late.lib", common.LIBRARY)):
            (self.folder / name).write_text(text)
        (self.folder / "s.eco").write_text("report_wns setup\nreport_endpoint r2:D setup\nreport_worst setup 2\n")

    def project(self, corners, shared=""):
        """Writes the project: each corner with what its run does, and further lines of its table."""
        text = PROJECT.format(shared=shared)
        for name, (does, more) in corners.items():
            (self.folder / f"{name}.lib").write_text(does)
            text += f'\n[corners.{name}]\nearly = "{name}.lib"\n{more}\n'
        (self.folder / "p.toml").write_text(text)

    def corners(self, *words):
        """Calls the command in this process; gives its status, its output and its errors."""
        launch = () if "--launch" in words else ("--launch", "sh {job}")
        called = ["corners", "p.toml", "--program", str(self.program), *launch, *words]
        out, err = io.StringIO(), io.StringIO()
        with (
            mock.patch.object(sys, "argv", called),
            contextlib.chdir(self.folder),
            contextlib.redirect_stdout(out),
            contextlib.redirect_stderr(err),
        ):
            try:
                status = command.main()
            except SystemExit as ended:
                status = ended.code
        return status, out.getvalue(), err.getvalue()

    def merged(self, *words, status=0):
        got, out, err = self.corners("--json", "--quiet", *words)
        self.assertEqual(got, status, err)
        return json.loads(out)


TWO = {
    "slow": (
        answers(
            ["1 0 wns -2.500", "2 0 endpoint -2.500", "3 0 worst 2", "r2:D -2.500", "q 1.000"],
            "-2.500 -2.500",
            "3.000 0.000",
        ),
        "",
    ),
    "fast": (
        answers(
            ["1 0 wns 4.000", "2 0 endpoint 4.000", "3 0 worst 2", "r2:D 4.000", "q -0.250"],
            "-0.250 -0.250",
            "-1.125 -3.000",
        ),
        "",
    ),
}


class Merging(StandIn):
    def test_worst_of_each_endpoint_with_its_corner(self):
        self.project(TWO)
        told = self.merged("s.eco")
        self.assertEqual(
            told["endpoints"]["setup"],
            [
                {"pin": "r2:D", "slack": "-2.500", "corner": "slow", "slacks": {"slow": "-2.500", "fast": "4.000"}},
                {"pin": "q", "slack": "-0.250", "corner": "fast", "slacks": {"slow": "1.000", "fast": "-0.250"}},
            ],
        )
        self.assertEqual(
            told["worst"],
            {"setup": {"slack": "-2.500", "corner": "slow"}, "hold": {"slack": "-1.125", "corner": "fast"}},
        )
        self.assertEqual(
            [(it["name"], it["state"], it["setup"], it["hold"]) for it in told["corners"]],
            [
                ("slow", "done", {"wns": "-2.500", "tns": "-2.500"}, {"wns": "3.000", "tns": "0.000"}),
                ("fast", "done", {"wns": "-0.250", "tns": "-0.250"}, {"wns": "-1.125", "tns": "-3.000"}),
            ],
        )
        self.assertEqual(
            told["questions"][0]["answers"],
            {
                "slow": {"design": 0, "answer": "wns", "time": "-2.500"},
                "fast": {"design": 0, "answer": "wns", "time": "4.000"},
            },
        )

    def test_text(self):
        self.project(TWO)
        status, out, err = self.corners("s.eco")
        self.assertEqual(status, 0)
        lines = out.split("\n")
        self.assertRegex(lines[1], r"^slow +-2\.500 +-2\.500 +1 +3\.000 +0\.000 +- +[0-9.]+$")
        self.assertIn("worst hold slack: -1.125 ps, corner fast", lines)
        self.assertIn("setup: 2 of 2 endpoints that were asked fail in some corner", lines)
        self.assertIn("        -2.500 ps  slow  r2:D", lines)
        self.assertIn("2 done of 2 corners", err)
        self.assertEqual(
            lines[lines.index("report_wns setup") :][:3], ["report_wns setup", "  slow  -2.500 ps", "  fast  4.000 ps"]
        )

    def test_lines_below_an_answer(self):
        """Endpoints and paths stand below their corner, in a draft too; equal first lines alone make no equal answer."""
        worst = "begin_what_if\nreport_worst setup 2\nreport_path q setup\nend_what_if\n"
        (self.folder / "s.eco").write_text(f"report_worst setup 2\n{worst}")
        path = ["path setup q slack -0.250 credit 0.000 from clk rise to clk rise nodes 2", "clk rise 0.000"]
        slacks = {"slow": ["r2:D -2.500", "q 1.000"], "fast": ["q -0.250", "r2:D 4.000"]}
        rows = {it: ["1 0 worst 2", *own, "2 0 what_if 2", "worst 2", *own, *path] for it, own in slacks.items()}
        ends = {"slow": "q rise 21.000", "fast": "q rise 21.000"}
        self.project({it: (answers([*own, ends[it]]), "") for it, own in rows.items()})
        out = self.corners("s.eco", "--quiet")[1]
        listed = "  slow  2 endpoints\n    -2.500 ps  r2:D\n     1.000 ps  q\n  fast  2 endpoints\n    -0.250 ps  q\n"
        self.assertIn(f"\nreport_worst setup 2\n{listed}     4.000 ps  r2:D\n", out)
        inner = "".join(f"  {it}\n" for it in f"report_worst setup 2\n{listed}".splitlines())
        self.assertIn(f"begin_what_if (2 trials)\n{inner}", out)
        self.assertEqual(out.count("  report_path q setup -> slack -0.250 ps, credit 0.000 ps"), 1)
        self.assertEqual(out.count(" 21.000     21.000 rise q"), 1)

    def test_untested_and_failing_in_several(self):
        (self.folder / "s.eco").write_text("report_endpoint a setup\nreport_endpoint b setup\n")
        self.project(
            {
                "one": (answers(["1 0 endpoint -1.000", "2 0 endpoint none"]), ""),
                "two": (answers(["1 0 endpoint -3.000", "2 0 endpoint none"]), ""),
            }
        )
        lines = self.corners("s.eco", "--quiet")[1].split("\n")
        self.assertIn("setup: 1 of 2 endpoints that were asked fail in some corner, 1 have no tested path", lines)
        self.assertIn("        -3.000 ps  two  a  (fails in 1 more)", lines)

    def test_rows_that_do_not_answer(self):
        self.project({"one": (answers(["1 0 tns 0.000", "2 0 endpoint none", "3 0 worst 0"]), "")})
        status, out, err = self.corners("s.eco", "--quiet")
        self.assertEqual((status, out), (2, ""))
        self.assertTrue(err.endswith("output: the rows of session 1 do not answer its script\n"), err)

    def test_refused_rows_give_status_1(self):
        (self.folder / "s.eco").write_text("report_wns setup\nrepower_gate g1 NO\n")
        self.project({"one": (answers(["1 0 wns none", "2 0 refused E3 NO"]) + "exit 1\n", "")})
        self.assertEqual(
            self.merged("s.eco", status=1)["questions"][1]["answers"]["one"],
            {"design": 0, "answer": "refused", "code": "E3", "names": ["NO"]},
        )

    def test_corners_of_different_designs_are_named(self):
        (self.folder / "s.eco").write_text("repower_gate g1 NO\n")
        self.project(
            {"one": (answers(["1 1 accepted"], design=1), ""), "two": (answers(["1 0 refused E3 NO"]) + "exit 1\n", "")}
        )
        status, out, _ = self.corners("s.eco", "--quiet")
        self.assertEqual(status, 1)
        self.assertIn("accepted in some corners and refused in others, which end with designs one 1, two 0\n", out)


FAULTY = {
    "good": TWO["slow"],
    "bad": ("echo 'fault library L2 7'\necho 'late.lib:7: a word is wrong' >&2\nexit 3\n", ""),
    "slow": ("exec sleep 60\n", "timeout = 0.3"),
}


class Jobs(StandIn):
    def states(self, told):
        return [(it["name"], it["state"], it["status"]) for it in told["corners"]]

    def check_faulty(self, *words):
        self.project(FAULTY)
        told = self.merged("s.eco", *words, status=3)
        self.assertEqual(self.states(told), [("good", "done", 0), ("bad", "failed", 3), ("slow", "timed out", 124)])
        self.assertEqual(told["endpoints"]["setup"][0]["slack"], "-2.500")
        status, out, _ = self.corners("s.eco", "--quiet", *words)
        lines = out.split("\n")
        log = "p.results/answers/bad/log"
        self.assertEqual(
            (status, lines[2]), (3, f"bad     failed with status 3: late.lib:7: a word is wrong (log: {log})")
        )
        self.assertRegex(lines[3], r"^slow    timed out after \d+\.\d s \(log: .*/slow/log\)$")

    @unittest.skipUnless(shutil.which("parallel"), "GNU parallel is not installed: apt-get install parallel")
    def test_by_parallel(self):
        self.check_faulty("--launch", "local")
        self.assertTrue((self.folder / "p.results" / "answers" / "parallel.log").exists())

    def test_by_a_pool(self):
        tools = self.folder / "bin"
        tools.mkdir()
        for name in ("sh", "cat", "sleep"):
            (tools / name).symlink_to(shutil.which(name))
        self.project(FAULTY)
        with mock.patch.dict(os.environ, {"PATH": str(tools)}):
            status, out, _ = self.corners("s.eco", "--json", "--quiet", "--launch", "local")
        self.assertEqual(
            (status, self.states(json.loads(out))),
            (3, [("good", "done", 0), ("bad", "failed", 3), ("slow", "timed out", 124)]),
        )
        self.assertFalse((self.folder / "p.results" / "answers" / "parallel.log").exists())

    def test_by_a_command(self):
        self.check_faulty("--launch", "sh -c '$0 >{log} 2>&1' {job}")

    def test_a_command_that_does_not_run_the_job(self):
        self.project(TWO)
        told = self.merged("s.eco", "--launch", "true {job} {corner}", "--timeout", "5", status=3)
        self.assertEqual(self.states(told), [("slow", "lost", None), ("fast", "lost", None)])

    def test_a_job_that_is_killed_is_lost(self):
        killer = r"""pid=$$
while [ "$(tr '\0' ' ' </proc/$pid/cmdline | grep -c corners.job)" = 0 ]; do pid=$(cut -d' ' -f4 /proc/$pid/stat); done
kill -9 $pid
"""
        self.project({"one": (killer, "")})
        self.assertEqual(self.states(self.merged("s.eco", status=3)), [("one", "lost", None)])

    def test_only_what_is_missing_runs_again(self):
        count = f"echo x >>{self.folder}/runs.{{0}}\n"
        self.project(
            {"good": (count.format("good") + TWO["slow"][0], ""), "bad": (count.format("bad") + "exit 3\n", "")}
        )
        self.merged("s.eco", status=3)
        self.merged("s.eco", status=3)
        runs = {name: (self.folder / f"runs.{name}").read_text().count("x") for name in ("good", "bad")}
        self.assertEqual(runs, {"good": 1, "bad": 2})
        self.project(
            {"good": (count.format("good") + TWO["slow"][0], ""), "bad": (count.format("bad") + TWO["fast"][0], "")}
        )
        os.utime(self.folder / "good.lib", (1000, 1000))
        self.merged("s.eco")
        os.utime(self.folder / "good.lib", (1000, 1000))
        self.merged("s.eco")
        self.assertEqual((self.folder / "runs.good").read_text().count("x"), 2)
        self.merged("s.eco", "--again")
        self.assertEqual((self.folder / "runs.good").read_text().count("x"), 3)

    def test_a_changed_script_runs_all_again(self):
        self.project(TWO)
        self.merged("s.eco")
        first = (self.folder / "p.results" / "answers" / "slow" / "state.json").stat().st_mtime_ns
        (self.folder / "s.eco").write_text("report_wns setup\n\nreport_endpoint r2:D setup\nreport_worst setup 2\n")
        self.merged("s.eco")
        self.assertNotEqual((self.folder / "p.results" / "answers" / "slow" / "state.json").stat().st_mtime_ns, first)

    def test_two_calls_do_not_share_a_folder(self):
        self.project({"one": ("sleep 3\n" + TWO["slow"][0], "")})
        words = [sys.executable, common.TOOLS / "corners.py", "p.toml", "--program", self.program, "s.eco"]
        other = subprocess.Popen(words, cwd=self.folder, stdout=subprocess.DEVNULL, stderr=subprocess.DEVNULL)
        self.addCleanup(other.wait)
        while not (self.folder / "p.results" / "answers" / "one" / "state.json").exists():
            self.assertIsNone(other.poll())
        status, out, err = self.corners("s.eco")
        self.assertEqual((status, out), (2, ""))
        self.assertIn("another call works in", err)

    def test_output_is_whole_or_not_there(self):
        self.project(FAULTY)
        self.merged("s.eco", status=3)
        answers_folder = self.folder / "p.results" / "answers"
        self.assertEqual([(answers_folder / it / "output").exists() for it in FAULTY], [True, False, False])
        self.assertEqual(list(answers_folder.glob("*/*.part")), [])
        self.assertTrue((answers_folder / "good" / "job.sh").stat().st_mode & stat.S_IXUSR)


class Words(StandIn):
    def test_words_that_do_not_fit(self):
        self.project(TWO)
        for words, said in (
            ([], "a script is missing"),
            (["--launch", "nosuch {job}", "s.eco"], "there is no program nosuch"),
            (["--launch", "bsub", "s.eco"], "local, slurm, or a command with {job} in it"),
            (["--commit", "s.eco", "s.eco"], "--commit takes one script"),
            (["--commit", "s.eco", "--endpoints"], "--commit goes with neither"),
            (["--commit", "s.eco"], "s.eco has no edit"),
            (["no.eco"], "no.eco: No such file or directory"),
            (["--jobs", "0", "s.eco"], "a number from 1"),
            (["--timeout", "nan", "s.eco"], "a number of seconds above 0"),
            (["--program", "top.v", "s.eco"], "this is no program"),
            (["--endpoints", *["s.eco"] * 16], "16 sessions at most"),
        ):
            status, out, err = self.corners(*words)
            self.assertEqual((status, out), (2, ""), words)
            self.assertIn(said, err)
            self.assertNotIn("Traceback", err)

    def test_endpoints_want_a_design_that_stays(self):
        self.project(TWO)
        (self.folder / "edit.eco").write_text("repower_gate g1 BUF\n")
        status, _, err = self.corners("--endpoints", "edit.eco")
        self.assertEqual(status, 2)
        self.assertIn("has edits: commit them first", err)


class Project(StandIn):
    def fault(self, text):
        (self.folder / "p.toml").write_text(text)
        with self.assertRaises(InputFault) as caught:
            project.read_project(self.folder / "p.toml")
        return str(caught.exception)

    def test_a_corner_overrides_what_is_shared(self):
        self.project(
            {
                "one": ("", ""),
                "two": ("", 'sdc = "s.eco"\nspef = "top.sdc"\nworkers = 4\ntimeout = 1.5\nlate = ["one.lib"]'),
            },
            "workers = 2\ntimeout = 9",
        )
        one, two = project.read_project(self.folder / "p.toml").corners
        self.assertEqual([it.name for it in one.documents()], ["one.lib", "late.lib", "top.v", "top.sdc"])
        self.assertEqual([it.name for it in two.documents()], ["two.lib", "one.lib", "top.v", "s.eco", "top.sdc"])
        self.assertEqual((one.words()[4:], two.workers, one.timeout, two.timeout), (["none", "2"], 4, 9.0, 1.5))

    def test_the_file_is_that_of_other_commands(self):
        """`library` is both, no `spef` is none, a list of one is that one, and keys of `import` are passed over."""
        text = 'top = "t"\naccept = []\nnetlist = ["top.v"]\nsdc = ["top.sdc"]\nlibrary = "late.lib"\n[corners.a]\n'
        (self.folder / "p.toml").write_text(text + 'early = "s.eco"\n[corners.b]\nlibrary = ["top.v"]\n')
        a, b = project.read_project(self.folder / "p.toml").corners
        self.assertEqual([it.name for it in a.documents()], ["s.eco", "late.lib", "top.v", "top.sdc"])
        self.assertEqual([it.name for it in b.documents()], ["top.v", "top.v", "top.v", "top.sdc"])
        self.assertEqual(a.words()[4:], ["none", "1"])

    def test_an_import_reads_the_same_file(self):
        self.project({"one": ("", "workers = 2")}, 'early = "late.lib"\nresults = "r"\ntimeout = 3\nslurm.options = []')
        read = importing.read_project(str(self.folder / "p.toml"))
        self.assertEqual((read.early, read.late, read.netlist), (["late.lib"], ["late.lib"], ["top.v"]))

    def test_without_corners_it_is_one(self):
        (self.folder / "p.toml").write_text(PROJECT.format(shared='early = "late.lib"'))
        self.assertEqual(project.read_project(self.folder / "p.toml").names(), ["p"])

    def test_faults_name_the_key(self):
        whole = PROJECT.format(shared='early = "late.lib"')
        for text, said in (
            (whole.replace('sdc = "top.sdc"\n', ""), "sdc: the key is missing"),
            (whole + 'library = "late.lib"', "library: this is both early and late"),
            (whole.replace('ecos = "ecos.list"', 'journal = "saved"'), "journal: corners write the journal of each"),
            (whole + "workers = 33", "workers: a number from 1 to 32"),
            (whole + "workers = true", "workers: a number from 1 to 32"),
            (whole + "timeout = -1", "timeout: a number of seconds"),
            (whole + 'netlst = "a"', "netlst: there is no such key"),
            (whole + '[corners.a]\nnetlist = "top.v"', "corners.a.netlist: there is no such key"),
            (whole + '[corners."a/b"]', "corners.a/b: a corner's name"),
            (whole + "corners = 3", "corners: each corner is a table"),
            (whole + "[corners.a]\nsdc = 3", "corners.a.sdc: the name of a file"),
            (
                whole + '[corners.a]\nlate = ["late.lib", "late.lib"]',
                "corners.a.late: a run reads one file here, and these are 2",
            ),
            (whole + '[corners.a]\nsdc = "no.sdc"', "corner a: there is no file"),
            (whole + "[corners.all]", "corners.all: this name"),
            ("netlist = [", "this is no TOML"),
            (whole + "[slurm]\noptions = 3", "slurm.options: a list of words"),
        ):
            self.assertIn(said, self.fault(text))


class ListOfEcos(unittest.TestCase):
    NAMES = ["slow", "fast"]

    def test_lines_of_corners(self):
        text = (
            "repower_gate a B\nbegin_eco\n@slow set_parasitics n c #1 5\n"
            "@fast,slow set_parasitics m none\n@all set_parasitics k none\ncommit_eco\n"
        )
        self.assertEqual(
            ecos.script_for(text, "slow", self.NAMES).split("\n"),
            [
                "repower_gate a B",
                "begin_eco",
                "set_parasitics n c #1 5",
                "set_parasitics m none",
                "set_parasitics k none",
                "commit_eco",
                "",
            ],
        )
        self.assertEqual(ecos.script_for(text, "fast", self.NAMES).split("\n")[2:4], ["", "set_parasitics m none"])

    def test_what_is_refused(self):
        for text, line, said in (
            ("set_parasitics n none", 1, "names the corners that it is for"),
            ("\n@slow repower_gate a B", 2, "before a set_parasitics alone"),
            ("@mid set_parasitics n none", 1, "there is no corner mid; the corners are slow, fast"),
            ("@slow", 1, "before a set_parasitics alone"),
            ("begin_eco\n@slow set_parasitics n none\ncommit_eco", 1, "no edit in the corner fast"),
            ("\n@slow set_parasitics n none", 2, "no edit in the corner fast"),
        ):
            with self.assertRaises(TextFault) as caught:
                ecos.script_for(text, "fast", self.NAMES)
            self.assertEqual(caught.exception.line, line)
            self.assertIn(said, caught.exception.message)

    def test_one_corner_needs_no_names(self):
        self.assertEqual(ecos.script_for("set_parasitics n none", "only", ["only"]), "set_parasitics n none")

    def test_derates(self):
        sdc = (
            "set_timing_derate -late 1.05\nset_timing_derate -early 0.95 -net_delay\n"
            "set_timing_derate 1.0000005 -late -net_delay # no\n"
        )
        self.assertEqual(
            ecos.derates_of(sdc),
            {("early", "cell"): 1000000, ("late", "cell"): 1050000, ("early", "net"): 950000, ("late", "net"): 1000001},
        )

    def test_journal(self):
        text = ecos.journal_of(
            [["repower_gate a B"], ["insert_net n", ecos.ordered("set_parasitics  n r a b 3 c a 4 r b d 5 c b 6")]],
            "set_timing_derate -late 1.1\n",
        )
        self.assertEqual(
            text,
            "journal 2 0 2\nderates 1000000 1100000 1000000 1100000\nentry 1 session 1 edits 1\nrepower_gate a B\n"
            "entry 2 session 1 edits 2\ninsert_net n\nset_parasitics n c a 4 c b 6 r a b 3 r b d 5\n",
        )
        self.assertEqual(ecos.journal_of([], "set_timing_derate -late 1.1\n"), "")


class Committing(StandIn):
    ACCEPTED = answers(["1 1 accepted", "2 1 wns 3.000"], design=1)

    def commit(self, one, two, text="repower_gate g1 BUF\nreport_wns setup\n"):
        (self.folder / "e.eco").write_text(text)
        self.project({"one": (one, ""), "two": (two, "")})
        return self.corners("--commit", "e.eco", "--quiet")

    def ecos(self):
        file = self.folder / "ecos.list"
        return [it for it in file.read_text().split("\n") if not it.startswith("#")] if file.exists() else None

    def test_all_accept(self):
        status, out, err = self.commit(self.ACCEPTED, self.ACCEPTED)
        self.assertEqual((status, self.ecos()), (0, ["repower_gate g1 BUF", ""]))
        self.assertIn("1 ECO is accepted in one, two", err)
        self.assertIn("report_wns setup -> 3.000 ps (all corners)", out)
        status, _, err = self.commit(
            self.ACCEPTED,
            self.ACCEPTED,
            "begin_eco\nremove_net n9\n@all set_parasitics n1 none\ncommit_eco\nreport_wns setup\n",
        )
        self.assertEqual(
            self.ecos(),
            ["repower_gate g1 BUF", "begin_eco", "remove_net n9", "@all set_parasitics n1 none", "commit_eco", ""],
        )
        self.assertEqual(
            (self.folder / "p.results" / "commit" / "two" / "journal").read_text(),
            "journal 2 0 1\nderates 1000000 1000000 1000000 1000000\nentry 1 session 1 edits 1\nrepower_gate g1 BUF\n",
        )

    def test_one_refuses(self):
        status, _, err = self.commit(self.ACCEPTED, answers(["1 0 refused E3 BUF", "2 0 wns 3.000"]) + "exit 1\n")
        self.assertEqual((status, self.ecos()), (1, None))
        self.assertIn("refused in two: line 1, repower_gate g1 BUF: E3 BUF: ", err)
        self.assertIn("nothing is appended", err)

    def test_one_does_not_answer(self):
        status, _, err = self.commit(self.ACCEPTED, "exit 3\n")
        self.assertEqual((status, self.ecos()), (3, None))
        self.assertIn("some corner has not answered, so nothing is appended", err)

    def test_wires_without_a_corner(self):
        status, _, err = self.commit(self.ACCEPTED, self.ACCEPTED, "set_parasitics n1 none\n")
        self.assertEqual((status, self.ecos()), (2, None))
        self.assertIn("e.eco:1: a set_parasitics names the corners that it is for", err)

    def test_a_list_with_questions(self):
        (self.folder / "ecos.list").write_text("repower_gate g1 BUF\nreport_wns setup\n")
        status, _, err = self.commit(self.ACCEPTED, self.ACCEPTED)
        self.assertEqual(status, 2)
        self.assertIn("ecos.list:2: the list has edits alone, and this is `report_wns`", err)


class Outcomes(unittest.TestCase):
    def test_a_state_of_another_job_does_not_count(self):
        with tempfile.TemporaryDirectory() as folder:
            job = Job("one", pathlib.Path(folder))
            job.prepare(pathlib.Path("true"), ["run"], None, "first")
            job.note("first", Outcome(State.DONE, 0))
            self.assertEqual(job.outcome().state, State.DONE)
            job.note("other", Outcome(State.DONE, 0))
            self.assertEqual(job.outcome().state, State.WAITING)

    def test_worst_is_by_value_and_the_first_of_equals(self):
        end = merge.Endpoint("p", {"a": "-10.000", "b": "-9.500", "c": "-10.000"})
        self.assertEqual((end.worst(), end.fails()), (("-10.000", "a"), True))


@common.needs_program
class WithTheProgram(unittest.TestCase):
    """The accumulator of the examples at three corners: answers equal runs by hand."""

    PROJECT = """netlist = "accumulator.v"
spef = "accumulator.spef"
early = "sizes.lib"
late = "sizes.lib"
sdc = "accumulator.sdc"
ecos = "ecos.list"
[corners.slow]
[corners.fast]
sdc = "fast.sdc"
[corners.nowire]
spef = "none"
"""

    def setUp(self):
        self.folder = pathlib.Path(tempfile.mkdtemp())
        self.addCleanup(shutil.rmtree, self.folder)
        for file in (common.TOP / "examples" / "closing-setup").iterdir():
            shutil.copy(file, self.folder)
        (self.folder / "fast.sdc").write_text(
            (self.folder / "accumulator.sdc").read_text().replace("700", "900").replace("1.05", "1.00")
        )
        (self.folder / "p.toml").write_text(self.PROJECT)

    def corners(self, *words):
        return common.tool("corners", "p.toml", "--program", common.PROGRAM, "--quiet", *words, cwd=self.folder)

    def by_hand(self, sdc, spef, script, journal=None):
        before = ["--journal", journal] if journal else []
        return common.run(
            common.PROGRAM,
            "run",
            *before,
            "sizes.lib",
            "sizes.lib",
            "accumulator.v",
            sdc,
            spef,
            "1",
            script,
            cwd=self.folder,
        )[1]

    def test_answers_equal_runs_by_hand(self):
        status, out, err = self.corners("look.eco", "--json")
        self.assertEqual((status, err), (0, ""))
        documents = {
            "slow": ("accumulator.sdc", "accumulator.spef"),
            "fast": ("fast.sdc", "accumulator.spef"),
            "nowire": ("accumulator.sdc", "none"),
        }
        (self.folder / "empty").write_text("")
        for corner in json.loads(out)["corners"]:
            self.assertEqual(
                pathlib.Path(corner["output"]).read_text(),
                self.by_hand(*documents[corner["name"]], "look.eco", "empty"),
            )

    def test_one_list_of_ecos(self):
        status, _, err = self.corners("--commit", "close.eco")
        self.assertEqual(status, 0, err)
        (self.folder / "wires.eco").write_text(
            "begin_eco\n@slow set_parasitics s_5 c #1 900\n@fast,nowire set_parasitics s_5 none\ncommit_eco\n"
        )
        self.assertEqual(self.corners("--commit", "wires.eco")[0], 0)
        (self.folder / "no.eco").write_text("repower_gate carry_1 NAND2_X9\n")
        status, _, err = self.corners("--commit", "no.eco")
        self.assertEqual(status, 1)
        self.assertEqual(err.count("E3 NAND2_X9"), 3)
        told = json.loads(self.corners("look.eco", "--json")[1])
        (self.folder / "all.eco").write_text(
            "begin_eco\nrepower_gate carry_1 NAND2_X4\nrepower_gate carry_2 NAND2_X4\n"
            "repower_gate pass_2 NAND2_X2\ncommit_eco\n"
            "set_parasitics s_5 c #1 900\nreport_wns setup\n"
        )
        last = self.by_hand("accumulator.sdc", "accumulator.spef", "all.eco").strip().split("\n")[-1].split(" ")
        slow = told["corners"][0]
        self.assertEqual((slow["design"], slow["setup"]), (2, {"wns": last[3], "tns": last[4]}))

    def test_every_endpoint_and_the_worst_paths(self):
        status, out, err = self.corners("--paths", "2", "--json")
        self.assertEqual((status, err), (0, ""))
        told = json.loads(out)
        # Twelve registers' data pins and six output ports.
        self.assertEqual(
            (
                len(told["endpoints"]["setup"]) + told["untested"]["setup"],
                len(told["endpoints"]["hold"]) + told["untested"]["hold"],
            ),
            (18, 18),
        )
        rows = (self.folder / "p.results" / "paths" / "slow" / "output").read_text()
        self.assertIn("path setup sum_5:D slack -63.822", rows)


if __name__ == "__main__":
    unittest.main()
