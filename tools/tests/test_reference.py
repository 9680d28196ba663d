"""The plain timer in Python: questions for closing timing, by rows that are summed by hand."""
import pathlib
import random
import re
import shutil
import sys
import tempfile
import unittest

import common
from lizdrog_dev import closing_scripts, draft_scripts, reference_scripts, reference_timer, small_design, trials

TREE = "set_parasitics n2 r g1:Z g2:A 1000000 r g2:A g3:A 500000 c g2:A 9000 c g3:A 19000"
# Rows as a page shows them: questions, and behind each its answer, in which `..` stands for what is left out.
NETS = """\
report_net n2
  2 1 net n2 driver g1:Z load 30.000 30.000 parasitics tree nodes 3 resistance 1500.000 sinks 2 edits 1
  g2:A 1.000 1.000 30.000 30.000
  g3:A 1.000 1.000 40.000 40.000
  set_parasitics n2 c g2:A 9000 c g3:A 19000 r g1:Z g2:A 1000000 r g2:A g3:A 500000
report_at g1:Z late rise
  3 1 at 1 clk rise 104.000
report_at g2:A late rise
  4 1 at 1 clk rise 134.000
report_at g3:A late rise
  5 1 at 1 clk rise 144.000
"""
PLAIN_NETS = """\
report_net c1
  1 0 net c1 driver cb:Z load 2.000 2.000 parasitics none sinks 2 edits 1
  r1:CK 1.000 1.000 0.000 0.000
  r2:CK 1.000 1.000 0.000 0.000
  set_parasitics c1 none
report_net g
  2 0 net g driver a1:Z load 0.000 0.000 parasitics none sinks 0 edits 1
  set_parasitics g none
report_net zz
  3 0 no Q4 zz
"""
INSTANCES = """\
report_instance a1
  2 1 instance a1 AND2 pins 3
  a1:A input net clk
  a1:B input net d
  a1:Z output net g
report_instance s1
  3 1 instance s1 BUF_X1 pins 2
  s1:A input open
  s1:Z output open
"""
SIZES = """\
report_sizes g1
  1 0 sizes g1 BUF_X1 cells 5
  AND2 other inputs 2 A 1.000 B 1.000
  BUF_T alike inputs 1 A 1.000
  BUF_X1 alike inputs 1 A 1.000
  BUF_X4 alike inputs 1 A 4.000
  SLW alike inputs 1 A 1.000
"""
SETUP = """\
report_timing r2:D setup
  1 0 timing setup r2:D slack 939.000 credit 4.000 from clk rise to clk rise nodes 10 capture 4 parts 8
  clk rise 0.000 none 0.000 net clk 2.000 2
  cb:A rise 0.000 0.000 0.000
  cb:Z rise 14.000 14.000 9.000 net c1 2.000 2
  r1:CK rise 14.000 0.000 9.000
  r1:Q rise 34.000 20.000 10.000 net n1 1.000 1
  g1:A rise 34.000 0.000 10.000
  g1:Z rise 48.000 14.000 9.000 net n2 2.000 2
  g2:A rise 48.000 0.000 9.000
  g2:Z rise 60.000 12.000 7.000 net n3 1.000 1
  r2:D rise 60.000 0.000 7.000
  clk rise 0.000 none 0.000 net clk 2.000 2
  cb:A rise 0.000 0.000 0.000
  cb:Z rise 10.000 10.000 9.000 net c1 2.000 2
  r2:CK rise 10.000 0.000 9.000
  capture_edge clk rise 1000.000
  capture_arrival 10.000
  setup_time -15.000
  uncertainty 0.000
  credit 4.000
  required 999.000
  arrival 60.000
  slack 939.000
"""
HOLD_AND_PORT = """\
report_timing r2:D hold
  1 0 timing hold r2:D slack 34.000 credit 4.000 .. nodes 10 capture 4 parts 8
  ..
  capture_edge clk rise 0.000
  capture_arrival 14.000
  hold_time 3.000
  uncertainty 0.000
  credit -4.000
  required 13.000
  arrival 47.000
  slack 34.000
report_timing o setup
  2 0 timing setup o slack 937.500 credit 0.000 .. nodes 10 capture 0 parts 8
  ..
  o rise 62.500 0.000 5.000
  capture_edge clk rise 1000.000
  capture_arrival 0.000
  output_delay 0.000
  uncertainty 0.000
  credit 0.000
  required 1000.000
  arrival 62.500
  slack 937.500
"""
WORST_PATHS = """\
report_worst_paths setup 2
  1 0 worst_paths 2
  path setup r1:D slack -45.000 credit 0.000 from clk rise to clk rise nodes 2
  d rise 100.000
  r1:D rise 100.000
  path setup o slack -2.500 credit 0.000 from clk rise to clk rise nodes 10
  ..
  o rise 62.500
report_worst_paths setup 3 each 2
  2 0 worst_paths 3
  path setup r1:D slack -45.000 credit 0.000 from clk rise to clk rise nodes 2
  d rise 100.000
  r1:D rise 100.000
  path setup r1:D slack -45.000 credit 0.000 from clk rise to clk rise nodes 2
  d fall 100.000
  r1:D fall 100.000
  path setup o slack -2.500 credit 0.000 from clk rise to clk rise nodes 10
  ..
  o rise 62.500
report_worst_paths setup 100
  3 0 worst_paths 4
  path setup r1:D slack -45.000 ..
  ..
  path setup o slack -2.500 ..
  ..
  path setup r2:D slack -1.000 ..
  ..
  path setup q slack 26.000 ..
  ..
  q rise 34.000
"""
FAILING = """\
report_failing setup
  1 0 failing 3 listed 3
  r1:D -45.000
  o -2.500
  r2:D -1.000
report_summary setup
  2 0 summary setup clocks 1 untested 0
  clk tested 4 failing 3 worst -45.000 total -48.500
report_failing hold
  3 0 failing 0 listed 0
"""
SKEW = """\
report_skew
  1 0 skew 2
  clk rise 4.000 late r1:CK rise 14.000 early r1:CK rise 10.000
  clk fall 4.000 late r1:CK fall 14.000 early r1:CK fall 10.000
insert_buffer c1 cb2 c2 BUF_X1 r2:CK
  2 1 accepted
report_skew
  3 1 skew 2
  clk rise 16.000 late r2:CK rise 26.000 early r1:CK rise 10.000
  clk fall 16.000 late r2:CK fall 26.000 early r1:CK fall 10.000
"""
RESIZES = """\
advise_sizes setup tns g1 g2
  1 0 resizes 1 tried 6 refused 0 setup -45.000 -48.500 hold 28.000 0.000
  g1 BUF_X4 setup -45.000 -45.000 hold 28.000 0.000
advise_sizes setup wns g1 g2
  2 0 resizes 0 tried 6 refused 0 setup -45.000 -48.500 hold 28.000 0.000
advise_tns setup g1 SLW g2 AND2 g1 AND2 g1 BUF_X4 g1 DFF
  3 0 resizes 3 tried 5 refused 1 setup -45.000 -48.500 hold 28.000 0.000
  g1 AND2 setup -45.000 -45.000 hold 28.000 0.000
  g1 BUF_X4 setup -45.000 -45.000 hold 28.000 0.000
  g2 AND2 setup -45.000 -47.500 hold 28.000 0.000
advise_sizes setup tns g1 zz
  4 0 no Q4 zz
"""
# Each row: what it is about, the period of its clock, the edits before it, and what it shows.
ROWS = [
    ("a net with a tree", 1000, [TREE], NETS), ("nets without parasitics and without a sink", 1000, [], PLAIN_NETS),
    ("instances", 1000, ["insert_gate s1 BUF_X1"], INSTANCES), ("sizes", 1000, [], SIZES),
    ("setup, stage by stage", 1000, [], SETUP), ("hold, and setup at a port", 1000, [], HOLD_AND_PORT),
    ("worst paths of the design", 60, [], WORST_PATHS), ("what fails, and by clock", 60, [], FAILING),
    ("skew before and after a buffer", 1000, [], SKEW), ("advice by totals", 60, [], RESIZES),
]
WRONG = [
    "report_net", "report_net n1 n2", "report_instance", "report_sizes g1 g2", "report_timing o",
    "report_timing o late", "report_timing o setup g1:Z", "report_timing_through o setup",
    "report_timing_through o setup" + " g1:Z" * 17,
    "report_worst_paths setup", "report_worst_paths setup 0", "report_worst_paths setup 101",
    "report_worst_paths setup 3 each", "report_worst_paths setup 3 each 0", "report_worst_paths setup 3 each 4",
    "report_worst_paths setup 3 Each 2", "report_worst_paths setup 3 2", "report_worst_paths late 3",
    "report_failing", "report_failing setup 3", "report_summary late", "report_skew setup", "advise_tns setup",
    "advise_tns setup g1", "advise_tns g1 BUF_X4", "advise_tns setup" + " g1 SLW" * 101, "advise_sizes setup tns",
    "advise_sizes setup g1", "advise_sizes tns setup g1", "report_skews",
]
RIGHT = [
    "report_net zz", " report_instance\t a1 ", "report_sizes g1", "report_timing zz hold",
    "report_worst_paths hold 100", "report_timing_through o setup" + " g1:Z" * 16,
    "report_worst_paths setup 003 each 03", "report_worst_paths setup 100 each 100", "report_failing hold",
    "report_summary setup", "report_skew",
    "advise_tns hold" + " g1 SLW" * 100, "advise_sizes hold wns" + " g1" * 500,
]
FURTHER = ["report_paths o setup 2", "report_through o setup g1:Z", "advise setup g1 SLW"]


def documents():
    """The documents of the example, by the names of their files."""
    texts = trials.shared_texts()
    return {name: texts[name].decode() for name in ("early.lib", "late.lib", "b.v", "b.sdc")}


def shown_rows(text):
    """The questions of a text of rows, and the lines of their answers."""
    lines = text.splitlines()
    return [it for it in lines if it[:1] != " "], [it[2:] for it in lines if it[:1] == " "]


def form(lines):
    """What fits some lines, `..` in the place of other lines or of words."""
    return "".join("(?:.*\\n)*" if it == ".." else re.escape(it).replace(r"\.\.", ".*") + "\\n" for it in lines)


class Example(unittest.TestCase):
    """The example's documents in a folder of a test."""
    maxDiff = None

    def setUp(self):
        self.folder = pathlib.Path(tempfile.mkdtemp())
        self.addCleanup(shutil.rmtree, self.folder)

    def design(self, period=1000, **changed):
        texts = documents()
        texts["b.sdc"] = texts["b.sdc"].replace("-period 1000", f"-period {period}")
        for name, change in changed.items():
            for at in {"netlist": ["b.v"], "sdc": ["b.sdc"], "libraries": ["early.lib", "late.lib"]}[name]:
                texts[at] = change(texts[at])
        for name, text in texts.items():
            (self.folder / name).write_text(text)
        return reference_timer.read_design(*(str(self.folder / it) for it in texts), "none")


class Questions(Example):
    def rows(self, lines, *how, **more):
        """The lines of the rows of a script on the example."""
        session = reference_timer.Session(self.design(*how, **more))
        session.run(reference_scripts.read("".join(f"{it}\n" for it in lines), True))
        return "\n".join(session.rows).split("\n")

    def answers(self, lines, *how, **more):
        """The same of questions of one line each, without numbers."""
        return [it.split(" ", 2)[2] if re.match(r"\d+ \d+ ", it) else it for it in self.rows(lines, *how, **more)]

    def test_rows(self):
        for about, period, before, text in ROWS:
            with self.subTest(about):
                questions, lines = shown_rows(text)
                told = self.rows(before + questions, period)[len(before):]
                if ".." in text:
                    self.assertRegex("".join(f"{it}\n" for it in told), f"^{form(lines)}$")
                else:
                    self.assertEqual(told, lines)

    def test_switch(self):
        """The lines are answered by the word --closing alone."""
        self.design(60)
        (self.folder / "s").write_text("report_skew\n")
        words = ["run", "early.lib", "late.lib", "b.v", "b.sdc", "none", "1", "s"]
        timer = [sys.executable, common.BENCH / "reference_timer.py"]
        self.assertEqual(common.run(*timer, *words, cwd=self.folder), (3, "fault script1 C1 1\n", ""))
        status, out, err = common.run(*timer, "--closing", *words, cwd=self.folder)
        self.assertEqual((status, err), (0, ""))
        self.assertIn("\n1 0 skew 2\nclk rise 4.000 late r1:CK rise 14.000 early r1:CK rise 10.000\n", out)

    def test_lines_that_are_none(self):
        for line in WRONG:
            for before in ([], ["begin_what_if"]):
                with self.subTest(line), self.assertRaises(reference_scripts.Fault) as told:
                    reference_scripts.read("".join(f"{it}\n" for it in [*before, line, "end_what_if"]), True)
                self.assertEqual(told.exception.args, ("C1", len(before) + 1))

    def test_lines_and_drafts(self):
        draft = ["begin_what_if", *RIGHT, *FURTHER, "end_what_if"]
        script = "".join(f"{it}\n" for it in [*RIGHT, *FURTHER, *draft])
        commands = reference_scripts.read(script, True)
        self.assertEqual((len(commands), len(commands[-1][1])), (len(RIGHT) + 4, len(RIGHT) + 3))
        self.assertEqual(list(commands[:-1]), list(commands[-1][1]))
        for line in RIGHT:
            with self.subTest(line), self.assertRaises(reference_scripts.Fault):
                reference_scripts.read(f"{line}\n")
        for line in (*FURTHER, "take", "await 0 1", "begin_what_if"):
            with self.subTest(line), self.assertRaises(reference_scripts.Fault) as told:
                reference_scripts.read(f"begin_what_if\ndrop_last\n{line}\nend_what_if\n", line not in FURTHER)
            self.assertEqual(told.exception.args, ("C1", 3))

    def test_random_lines(self):
        """What random scripts ask is a command, and what they have as lines that are none is C1."""
        rand, sorts = random.Random(5), set()
        small = small_design.Small(rand)
        drawer = closing_scripts.Drawer(rand, draft_scripts.Names.of_small(rand, small), small.walk, 100)
        for _ in range(400):
            line = drawer.question(True)
            sorts.add(line.split()[0])
            self.assertEqual(len(reference_scripts.read(f"{line}\n", True)), 1, line)
        self.assertEqual(len(sorts), len({it.split()[0] for it in [*RIGHT, *FURTHER]}))
        for line in closing_scripts.WRONG:
            with self.subTest(line), self.assertRaises(reference_scripts.Fault):
                reference_scripts.read(f"{line}\n", True)

    def test_trials_speak_of_what_is_shown(self):
        lines = ["begin_what_if", "repower_gate g1 BUF_X4", "report_sizes zz", "report_instance g1",
                 "advise setup g2 BUF_X4 g1 SLW", "advise_sizes setup tns g1", "report_failing setup",
                 "report_paths r2:D setup 1", "drop_last", "report_failing setup", "end_what_if"]
        told = self.answers(lines, 60)
        self.assertEqual(told[:4], ["what_if 9", "tried", "no Q4 zz", "instance g1 BUF_X4 pins 2"])
        self.assertEqual(told[6:8], ["advice g2 BUF_X4 -45.000",
                                     "resizes 0 tried 3 refused 0 setup -45.000 -45.000 hold 28.000 0.000"])
        self.assertEqual(told[8:11], ["failing 1 listed 1", "r1:D -45.000", "paths 1"])
        self.assertIn(" slack 4.000 ", told[11])
        self.assertEqual(told[-5:], ["dropped", "failing 3 listed 3", "r1:D -45.000", "o -2.500", "r2:D -1.000"])

    def test_questions_without_an_answer(self):
        asked = {
            "report_net g1": "no Q4 g1", "report_instance n1": "no Q4 n1", "report_sizes BUF_X1": "no Q4 BUF_X1",
            "report_timing zz setup": "no Q1 zz", "report_timing g1:A setup": "no Q2 g1:A",
            "report_timing_through r2:D setup g1:Z zz zy": "no Q1 zz", "report_timing_through zz setup zy": "no Q1 zz",
            "report_timing_through g1:A setup g1:Z zy": "no Q1 zy", "report_timing_through clk hold g1:Z": "no Q2 clk",
            "report_timing_through r2:D setup g3:A": "timing none",
            "advise_tns setup g1 NO zz SLW": "no Q4 NO", "advise_tns setup zz NO": "no Q4 zz",
            "advise_sizes setup wns" + " g1" * 20 + " zz": "no Q4 zz",
            "advise_sizes setup wns" + " g1" * 21: "no Q5 instances",
            "advise_sizes setup wns" + " g1" * 20: "resizes 0 tried 3 refused 0 setup 895.000 0.000 hold 28.000 0.000",
            "advise_sizes hold tns r1": "resizes 0 tried 0 refused 0 setup 895.000 0.000 hold 28.000 0.000",
            "advise_tns hold g1 SLW g1 SLW": "resizes 0 tried 1 refused 0 setup 895.000 0.000 hold 28.000 0.000",
        }
        self.assertEqual(dict(zip(asked, self.answers(asked))), asked)

    def test_too_many_sizes(self):
        """Buffers of eleven other sizes: 18 of them have 198, and 19 have 209."""
        def netlist(text):
            return text.replace("endmodule", "".join(f"BUF_X1 x{at} (.A(d)); " for at in range(19)) + "endmodule")

        def libraries(text):
            cell = re.search(r"(?s) cell \(BUF_T\).*?(?= cell \(SLW\))", text)[0]
            return text.replace(cell, "".join(cell.replace("BUF_T", f"BUF_T{at}") for at in range(9)))
        names = [f"x{at}" for at in range(19)]
        asked = [f"advise_sizes setup tns {' '.join(it)}" for it in (names, [*names[:18], "x0", "x1"])]
        told = "resizes 0 tried 198 refused 0 setup 895.000 0.000 hold 28.000 0.000"
        self.assertEqual(self.answers(asked, netlist=netlist, libraries=libraries), ["no Q5 candidates", told])

    def test_pins_without_a_net(self):
        """Ties and empty connections, a net without a driver, and one that is lumped."""
        def change(text):
            return text.replace("endmodule", "wire u; AND2 a2 (.A(1'b0), .Z()); AND2 a3 (.B(u)); endmodule")
        told = self.answers(["report_instance a2", "report_net u", "set_parasitics n3 c #4 700 c g2:Z 50",
                             "report_net n3"], netlist=change)
        self.assertEqual(told, [
            "instance a2 AND2 pins 3", "a2:A input tied", "a2:B input open", "a2:Z output tied",
            "net u driver none load 1.000 1.000 parasitics none sinks 1 edits 1", "a3:B 1.000 1.000 none none",
            "set_parasitics u none", "accepted",
            "net n3 driver g2:Z load 1.750 1.750 parasitics lumped sinks 1 edits 1", "r2:D 1.000 1.000 0.000 0.000",
            "set_parasitics n3 c #4 700 c g2:Z 50",
        ])

    def test_edits_give_nets_what_they_have(self):
        """The last line about a net, as an edit, leaves it as it is; so it does where a SPEF has lumped it."""
        texts = {name: text.decode() for name, text in trials.shared_texts().items() if name.startswith("e.")}
        lumped = re.sub(r"(?s)\*RES.*?\*END", "*END", texts["e.spef"])
        for spef in (texts["e.spef"], lumped):
            for name, text in {**texts, "e.spef": spef}.items():
                (self.folder / name).write_text(text)
            files = [str(self.folder / it) for it in ("e.lib", "e.lib", "e.v", "e.sdc", "e.spef")]
            design = reference_timer.read_design(*files)
            asked = [f"report_net {net}" for net in design.nets] + ["report_worst setup 100", "report_worst hold 100"]
            before = reference_timer.Session(design)
            before.run(reference_scripts.read("".join(f"{it}\n" for it in asked), True))
            edits = [line for row in before.rows for line in row.split("\n") if line.startswith("set_parasitics")]
            self.assertIn(" c ", "".join(edits))
            after = reference_timer.Session(design)
            script = "".join(f"{it}\n" for it in ["begin_eco", *edits, "commit_eco", *asked])
            after.run(reference_scripts.read(script, True))
            self.assertEqual([it.split(" ", 2)[2] for it in after.rows[1:]],
                             [it.split(" ", 2)[2] for it in before.rows])

    def test_clocks_and_exceptions(self):
        """A clock without endpoints, an endpoint without a tested path, uncertainty and a multicycle."""
        def change(text):
            return text + ("create_clock -name v -period 500\nset_false_path -to [get_ports q]\n"
                           "set_clock_uncertainty 7 [get_clocks clk]\n"
                           "set_multicycle_path 2 -setup -to [get_pins r2/D]\n")
        told = self.answers(["report_summary setup", "report_timing q setup", "report_timing r2:D setup",
                             "report_timing r2:D hold"], sdc=change)
        self.assertEqual(told[:4], ["summary setup clocks 2 untested 1",
                                    "clk tested 3 failing 0 worst 888.000 total 0.000",
                                    "v tested 0 failing 0 worst none total 0.000", "timing none"])
        self.assertEqual(told[19:27], ["capture_edge clk rise 2000.000", "capture_arrival 10.000", "setup_time -15.000",
                                       "uncertainty -7.000", "credit 4.000", "required 1992.000", "arrival 60.000",
                                       "slack 1932.000"])
        self.assertEqual(told[-8:], ["capture_edge clk rise 1000.000", "capture_arrival 14.000", "hold_time 3.000",
                                     "uncertainty 7.000", "credit -4.000", "required 1020.000", "arrival 47.000",
                                     "slack -973.000"])


if __name__ == "__main__":
    unittest.main()
