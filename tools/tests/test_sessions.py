"""The checker of several sessions, on rows written by hand and, where there is a program, on its runs."""
import pathlib
import re
import shutil
import tempfile
import unittest

import common
from lizdrog_tools import check_sessions
from lizdrog_tools import read_answers

EXAMPLE = common.TOP / "examples" / "two-engineers"
ONE = "report_wns setup\nrepower_gate g1 BUF\nreport_wns setup\n"
TWO = (
    "repower_gate g1 BUFX\nbegin_eco\nremove_gate b1\nremove_gate b2\ncommit_eco\nawait 2 10\ntake\nreport_path q"
    " setup\n"
)
OUTPUT = """journal 1 2
entry 1 session 2 edits 2
remove_gate b1
remove_gate b2
entry 2 session 1 edits 1
repower_gate g1 BUF
session 1 rows 3
1 0 wns 5.000
2 2 accepted
3 2 wns 7.000
session 2 rows 5
1 0 refused E3 BUFX
2 1 accepted
3 2 reached
4 2 taken
5 2 path setup q slack 7.000 credit 0.000 from clk rise to clk rise nodes 1
q rise 3.000
final 2 setup 7.000 0.000 hold none 0.000
"""
ALONE = """journal 1 2
entry 1 session 1 edits 2
remove_gate b1
remove_gate b2
entry 2 session 1 edits 1
repower_gate g1 BUF
session 1 rows 6
1 0 wns 5.000
2 0 refused E3 BUFX
3 1 accepted
4 2 accepted
5 2 wns 7.000
6 2 path setup q slack 7.000 credit 0.000 from clk rise to clk rise nodes 1
q rise 3.000
final 2 setup 7.000 0.000 hold none 0.000
"""


def behind(text, first):
    """The same output of a run that goes on from so many saved entries."""
    text = re.sub(r"(?m)^(\d+|entry|final) (\d+)", lambda it: f"{it[1]} {int(it[2]) + first}", text)
    return text.replace("journal 1 ", f"journal 2 {first} ").replace("\n",
                                                                     "\nderates 1000000 1000000 1000000 1000000\n", 1)


def faults_of(output=OUTPUT, alone=ALONE, scripts=(ONE, TWO)):
    """What is wrong with an output, and the script that was run alone."""
    asked = []

    def run(text):
        asked.append(text)
        return read_answers.Output(alone)

    sessions = check_sessions.Sessions([read_answers.read_script(it) for it in scripts], read_answers.Output(output))
    sessions.look()
    if not sessions.faults:
        sessions.compare(run)
    return sessions.faults, "".join(asked)


class Checker(unittest.TestCase):
    def test_what_agrees(self):
        faults, asked = faults_of()
        self.assertEqual(faults, [])
        self.assertEqual(asked, "report_wns setup\nrepower_gate g1 BUFX\nbegin_eco\nremove_gate b1\nremove_gate "
                         "b2\ncommit_eco\nrepower_gate g1 BUF\nreport_wns setup\nreport_path q setup\n")

    def test_saved_entries_before(self):
        scripts = (ONE, TWO.replace("await 2", "await 7"))
        faults, asked = faults_of(behind(OUTPUT, 5), behind(ALONE, 5), scripts)
        self.assertEqual((faults, asked), ([], faults_of()[1]))
        output = read_answers.Output(behind(OUTPUT, 5))
        self.assertEqual((output.first, len(output.ecos), output.sessions[0][1].design), (5, 2, 7))
        faults, _ = faults_of(behind(OUTPUT, 5).replace("1 5 wns", "1 4 wns"), behind(ALONE, 5), scripts)
        self.assertIn("the design 4 after None, of 7", faults[0])

    def test_what_does_not(self):
        for old, new, said in (("3 2 wns 7.000", "3 2 wns 7.001",
                                "session 1, command 3: wns 7.001, and one session says wns 7.000 at design 2"),
                               ("3 2 wns", "3 1 wns", "session 1, command 3: the design 1 after 2"),
                               ("3 2 reached", "3 2 not_yet 10",
                                "session 2, command 3: await 2 10 has the answer not_yet 10 (design 2)"),
                               ("session 2 edits 2", "session 1 edits 2",
                                "its rows accept [2], and its entries are [1, 2]"), ("q rise 3.000", "q rise 3.001",
                                                                                     "session 2, command 5"),
                               ("4 2 taken", "4 2 reached", "take has the answer reached"),
                               ("repower_gate g1 BUF\nsession", "repower_gate g2 BUF\nsession",
                                "repower_gate g1 BUF has the answer accepted"),
                               ("final 2 setup 7.000", "final 2 setup 7.001", "the last line")):
            faults, _ = faults_of(OUTPUT.replace(old, new))
            self.assertTrue(any(said in it for it in faults), (new, faults))

    def test_questions_about_paths(self):
        path = "path setup q slack 7.000 credit 0.000 from clk rise to clk rise nodes 1\nq rise 3.000\n"
        rows = f"session 1 rows 2\n1 0 paths 1\n{path}2 0 {path}"
        output = f"journal 1 0\n{rows}final 0 setup 7.000 0.000 hold none 0.000\n"
        script = "report_paths q setup 5\nreport_through q setup b1:A b1:Z\n"
        self.assertEqual(faults_of(output, output, (script,)), ([], script))
        faults, _ = faults_of(output, output.replace("q rise 3.000", "q rise 3.001", 1), (script,))
        self.assertEqual(faults, ["session 1, command 1: paths 1, and one session says paths 1 at design 0"])
        faults, _ = faults_of(output.replace("2 0 path ", "2 0 endpoint "), output, (script,))
        self.assertIn("report_through q setup b1:A b1:Z has the answer endpoint", faults[0])

    def test_drafts_and_advice(self):
        draft = "begin_what_if\nrepower_gate g1 BUF\nreport_path q setup\ndrop_last\nend_what_if\n"
        path = "path setup q slack 7.000 credit 0.000 from clk rise to clk rise nodes 1\nq rise 3.000\n"
        rows = f"session 1 rows 3\n1 0 what_if 3\ntried\n{path}dropped\n2 0 advice g1 BUF 7.000\n3 0 taken\n"
        output = f"journal 1 0\n{rows}final 0 setup 7.000 0.000 hold none 0.000\n"
        asked = draft + "advise setup g1 BUF\n"
        script = asked.replace("repower", "# a comment\n  repower") + "take\n"
        self.assertEqual(faults_of(output, output, (script,)), ([], asked))
        faults, _ = faults_of(output, output.replace("q rise 3.000", "q rise 3.001"), (script,))
        self.assertEqual(faults, ["session 1, command 1: what_if 3, and one session says what_if 3 at design 0"])
        faults, _ = faults_of(output.replace("advice g1", "advice g2"), output, (script,))
        self.assertEqual(faults,
                         ["session 1, command 2: advice g2 BUF 7.000, and one session says advice g1 BUF 7.000 at "
                          "design 0"])
        faults, _ = faults_of(output.replace("2 0 advice g1", "2 0 wns g1"), output, (script,))
        self.assertIn("advise setup g1 BUF has the answer wns", faults[0])

    def test_parasitics_are_written_in_order(self):
        self.assertEqual(check_sessions.in_order("set_parasitics n r a b 5 c a 1 r b d 7 c d 2"),
                         "set_parasitics n c a 1 c d 2 r a b 5 r b d 7")
        self.assertEqual(check_sessions.in_order("set_parasitics n none"), "set_parasitics n none")

    def test_an_entry_that_is_refused_alone(self):
        faults, _ = faults_of(alone=ALONE.replace("3 1 accepted", "3 0 refused E1 b1"))
        self.assertIn("an entry of the journal is refused E1 b1: begin_eco", faults)

    def told(self, *words, program="exit 70"):
        """What the tool says where its program is a small script."""
        with tempfile.TemporaryDirectory() as folder:
            for name, text in (("out", OUTPUT), ("one", ONE), ("two", TWO), ("program", f"#!/bin/sh\n{program}\n")):
                pathlib.Path(folder, name).write_text(text)
            pathlib.Path(folder, "program").chmod(0o755)
            return common.tool("check_sessions", *words, cwd=folder)

    def test_the_words_of_a_run_that_fails(self):
        words = ["--program", "./program", "out", "run", *"elncs1", "one", "two"]
        for program, told in (
            ("echo lizdrog: step 1 >&2; echo lizdrog: no program >&2; exit 70", "status 70: lizdrog: no program"),
            ("echo fault shelf e failed; echo e: gone >&2; exit 4", "status 4: fault shelf e failed; e: gone"),
            ("echo fault words; exit 2", "status 2: fault words"),
            ("exit 70", "status 70: it said nothing"),
        ):
            status, out, err = self.told(*words, program=program)
            self.assertEqual((status, out), (1, ""))
            self.assertEqual(err.splitlines()[-1], f"check_sessions: the run of one session ended with {told}")
        self.assertIn("lizdrog: step 1\n", self.told(*words, program="echo lizdrog: step 1 >&2; exit 70")[2])
        err = self.told("--program", "./absent", *words[2:])[2]
        self.assertEqual(err, "check_sessions: ./absent does not start: No such file or directory\n")

    def test_the_program_behind_the_output(self):
        words = ["run", *"elncs1", "one", "two"]
        for front in (["out", "--program", "./program"], ["out", "--program=./program"]):
            self.assertIn("ended with status 70: it said nothing", self.told(*front, *words)[2])
        for wrong in (["out"], ["out", *words[:-2]], ["out", *words[1:]]):
            status, _, err = self.told("--program", "./program", *wrong)
            self.assertEqual(status, 2)
            self.assertIn("the words of the run are missing: run [--journal NAME] EARLY", err)

    def test_other_scripts(self):
        self.assertEqual(faults_of(scripts=(ONE,))[0], ["1 scripts, and 2 sessions"])
        self.assertIn("session 1: 4 commands", faults_of(scripts=(ONE + "take\n", TWO))[0][0])


@common.needs_program
class Runs(unittest.TestCase):
    def setUp(self):
        self.folder = pathlib.Path(tempfile.mkdtemp())
        self.addCleanup(shutil.rmtree, self.folder)

    def check(self, words, folder):
        """Runs these words and checks the output; gives it."""
        status, out, _ = common.run(common.PROGRAM, *words, cwd=folder)
        self.assertIn(status, (0, 1))
        (self.folder / "out").write_text(out)
        told = common.tool("check_sessions", "--program", common.PROGRAM, self.folder / "out", *words, cwd=folder)
        self.assertEqual(told[0], 0, told[1:])
        return read_answers.Output(out)

    def test_two_engineers(self):
        page = (EXAMPLE / "README.md").read_text()
        words = re.search(r"lizdrog (run .*) >two\.out", page).group(1).split()
        self.assertEqual(sorted(self.check(words, EXAMPLE).makers), [1, 2])
        shown = re.search(r"^```\n(journal 1 2\n.*?)^```", page, re.S | re.M).group(1)
        (self.folder / "shown").write_text(shown)
        told = common.tool("check_sessions", "--program", common.PROGRAM, self.folder / "shown", *words, cwd=EXAMPLE)
        self.assertEqual(told, (0, re.search(r"^```\n(check_sessions: .*?)^```", page, re.S | re.M).group(1), ""))

    def test_sixteen_sessions(self):
        words = common.write_documents(self.folder)
        names = [f"s{number}.eco" for number in range(1, 17)]
        for number, name in enumerate(names):
            made = (
                f"insert_gate b{number // 2} BUF\nreport_worst setup 2\ntake\nreport_path r2:D setup\ninsert_buffer n2"
                f" x{number} m{number} BUF r2:D\nreport_wns hold\n"
            )
            tried = (
                f"begin_what_if\ninsert_gate b{number // 2} BUF\nreport_path r2:D setup\nend_what_if\nadvise hold g1"
                f" BUF x{number} BUF\n"
            )
            (self.folder / name).write_text((made + tried) * 2)
        output = self.check([*words[:7], *names], self.folder)
        self.assertGreaterEqual(len(output.ecos), 9)


if __name__ == "__main__":
    unittest.main()
