"""The readers of answers, the converters and the set-up checker, on small documents."""
import json
import pathlib
import shutil
import tempfile
import types
import unittest

import common
from common import CONSTRAINTS, LIBRARY, NETLIST, SPEF
from lizdrog_tools import check_setup
from lizdrog_tools.liberty import Library
from lizdrog_tools.sdc import read_commands
from lizdrog_tools.verilog import Netlist
from lizdrog_tools import explain_fault
from lizdrog_dev import plant_over_kept
from lizdrog_tools import read_answers
import test_faults

OUTPUT = """journal 1 2
entry 1 session 1 edits 1
repower_gate g1 BUF
entry 2 session 1 edits 2
insert_buffer n2 b1 n3 BUF r2:D
set_parasitics n3 c #1 1000
session 1 rows 6
1 0 endpoint -2.350
2 0 worst 3
r2:D -2.350
q 75.000
r1:D 75.000
3 0 path setup r2:D slack -2.350 credit 0.000 from clk rise to clk rise nodes 3
r1:Q rise 20.000
g1:A rise 20.000
g1:Z rise 39.000
4 1 accepted
5 2 refused E6 b1
6 2 no Q1 zz
final 2 setup 39.000 0.000 hold none 0.000
"""


class Answers(unittest.TestCase):
    def setUp(self):
        self.folder = pathlib.Path(tempfile.mkdtemp())
        self.addCleanup(shutil.rmtree, self.folder)
        self.words = common.write_documents(self.folder)
        (self.folder / "out").write_text(OUTPUT)

    def read(self, *words):
        status, out, err = common.tool("read_answers", "s.eco", "out", *words, cwd=self.folder)
        self.assertEqual((status, err), (0, ""))
        return out

    def test_lines(self):
        lines = self.read().split("\n")
        self.assertEqual(lines[0], "report_endpoint r2:D setup -> -2.350 ps (design 0)")
        self.assertIn("report_worst setup 5 -> 3 endpoints (design 0)", lines)
        self.assertIn("repower_gate g1 BUF -> accepted (design 1)", lines)
        self.assertTrue(any(it.startswith("begin_eco (2 edits) -> refused E6 b1: the new cell lacks") for it in lines))
        self.assertIn("report_wns hold -> no answer, Q1 zz: there is no such pin (design 2)", lines)
        self.assertEqual(lines[-2],
                         "at the end, design 2: setup worst 39.000 ps, total 0.000 ps; hold worst none, total 0.000 ps")

    def test_path_has_cells_and_nets(self):
        out = self.read("--netlist", "top.v", "--library", "late.lib")
        self.assertRegex(out, r"20\.000 +rise r1:Q +DFF +net n1, 1 sink\n +20\.000 +0\.000 rise g1:A +BUF\n +39\.000 "
                         r"+19\.000 rise g1:Z +BUF +net n2, 1 sink\n")

    def test_data(self):
        data = json.loads(self.read("--json", "--netlist", "top.v", "--library", "late.lib"))
        self.assertEqual(data["final"], {"design": 2, "setup": {"wns": "39.000", "tns": "0.000"},
                                         "hold": {"wns": "none", "tns": "0.000"}})
        self.assertEqual(data["rows"][2]["path"][2], {"pin": "g1:Z", "edge": "rise", "time": "39.000",
                                                      "stage": "19.000", "cell": "BUF", "net": "n2", "fanout": 1})
        self.assertEqual((data["rows"][4]["line"], len(data["rows"][4]["question"])), (7, 4))
        rows = self.read("--csv").split("\n")
        self.assertEqual(rows[:2], ["command,design,question,answer,pin,edge,time",
                                    "1,0,report_endpoint r2:D setup,endpoint,,,-2.350"])

    def test_csv_has_each_row(self):
        (self.folder / "s.eco").write_text("report_at a:Z late rise\nreport_rat a:Z late rise\nreport_worst hold "
                                           "3\nreport_path a:D hold\n")
        rows = "1 0 at 0\n2 0 rat 2 clk rise 1.000 clk fall 2.000\n3 0 worst 0\n4 0 path none\n"
        (self.folder / "out").write_text(f"journal 1 0\nsession 1 rows 4\n{rows}final 0 setup none 0.000 hold none "
                                         "0.000\n")
        self.assertEqual([it.split(",")[0] for it in self.read("--csv").split("\n")[1:-1]], ["1", "2", "2", "3", "4"])

    def test_paths(self):
        (self.folder / "s.eco").write_text("report_paths r2:D setup 3\nreport_through r2:D setup g1:A "
                                           "g1:Z\nreport_paths r1:D hold 2\nreport_wns setup\n")
        first, second = (
            "path setup r2:D slack -2.350 credit 0.000 from clk rise to clk rise nodes 1\nr2:D rise 97.350\n",
            (
                "path setup r2:D slack 1.000 credit 0.500 from clk rise to clk rise nodes 2\ng1:Z rise 90.000\nr2:D"
                " fall 94.000\n"
            ),
        )
        rows = f"1 0 paths 2\n{first}{second}2 0 {second}3 0 paths 0\n4 0 wns -2.350\n"
        (self.folder / "out").write_text(f"journal 1 0\nsession 1 rows 4\n{rows}final 0 setup -2.350 -2.350 hold none "
                                         "0.000\n")
        lines = self.read().split("\n")
        self.assertEqual(lines[:2], ["report_paths r2:D setup 3 -> 2 paths (design 0)",
                                     "  path 1: slack -2.350 ps, credit 0.000 ps, from clk rise to clk rise"])
        self.assertEqual([it for it in lines if "->" in it][1:],
                         ["report_through r2:D setup g1:A g1:Z -> slack 1.000 ps, credit 0.500 ps, from clk rise to "
                          "clk rise (design 0)", "report_paths r1:D hold 2 -> 0 paths (design 0)",
                          "report_wns setup -> -2.350 ps (design 0)"])
        self.assertIn("       95.000 is the latest time that the setup test allows, with credit", lines)
        told = json.loads(self.read("--json"))["rows"]
        self.assertEqual([(it["slack"], len(it["path"])) for it in told[0]["paths"]], [("-2.350", 1), ("1.000", 2)])
        self.assertEqual((told[0]["paths"][1]["path"], told[2]["paths"]), (told[1]["path"], []))
        self.assertEqual([it.split(",")[3:] for it in self.read("--csv").split("\n")[1:-1]],
                         [["path 1", "r2:D", "rise", "97.350"], ["path 2", "g1:Z", "rise", "90.000"],
                          ["path 2", "r2:D", "fall", "94.000"], ["path", "g1:Z", "rise", "90.000"],
                          ["path", "r2:D", "fall", "94.000"], ["paths", "none", "", ""], ["wns", "", "", "-2.350"]])

    def write_drafts(self):
        """A script with a draft and advice, and its answers."""
        (self.folder / "s.eco").write_text("take\nbegin_what_if\n# slower\nrepower_gate g1 BUF\n  report_path r2:D "
                                           "setup\nbegin_eco\ninsert_net n9\ninsert_buffer n2 b1 n3 BUF "
                                           "r2:D\ncommit_eco\nreport_path r2:D setup\nreport_worst setup "
                                           "2\ndrop_last\n\nrepower_gate g1 NO\nreport_endpoint zz "
                                           "hold\ndrop_last\ndrop_last\nend_what_if\nadvise setup g1 BUF g2 "
                                           "BUF\nadvise hold g1 NO\nreport_wns setup\n")
        path = (
            "path setup r2:D slack {} credit 0.000 from clk rise to clk rise nodes 2\n{} rise 90.000\nr2:D fall"
            " 94.000\n"
        )
        rows = ["1 0 taken\n2 0 what_if 10\ntried\n", path.format("-2.350", "g1:Z"), "tried\n",
                path.format("-3.000", "b1:Z"), "worst 2\nr2:D -3.000\nq 4.000\ndropped\n",
                "refused E3 NO\nno Q1 zz\ndropped\nno_draft\n",
                "3 0 advice g1 BUF -1.000\n4 0 advice none\n5 0 wns -2.350\n"]
        (self.folder / "out").write_text(f"journal 1 0\nsession 1 rows 5\n{''.join(rows)}final 0 setup -2.350 -2.350 "
                                         "hold none 0.000\n")

    def test_drafts_and_advice(self):
        self.write_drafts()
        lines = self.read().split("\n")
        self.assertEqual([it for it in lines if "->" in it], ["take -> taken (design 0)",
                                                              "begin_what_if (10 trials) -> 10 answers (design 0)",
                                                              "  repower_gate g1 BUF -> tried",
                                                              "  report_path r2:D setup -> slack -2.350 ps, credit "
                                                              "0.000 ps, from clk rise to clk rise",
                                                              "  begin_eco (2 edits) -> tried",
                                                              "  report_path r2:D setup -> slack -3.000 ps, credit "
                                                              "0.000 ps, from clk rise to clk rise",
                                                              "  report_worst setup 2 -> 2 endpoints",
                                                              "  drop_last -> dropped",
                                                              "  repower_gate g1 NO -> refused E3 NO: "
                                                              + explain_fault.sentence("E3"),
                                                              "  report_endpoint zz hold -> no answer, Q1 zz: there "
                                                              "is no such pin", "  drop_last -> dropped",
                                                              "  drop_last -> nothing to drop",
                                                              "advise setup g1 BUF g2 BUF -> g1 to BUF, worst slack "
                                                              "-1.000 ps (design 0)",
                                                              "advise hold g1 NO -> no resize (design 0)",
                                                              "report_wns setup -> -2.350 ps (design 0)"])
        self.assertIn("    -3.000 ps  r2:D", lines)

    def test_drafts_and_advice_for_programs(self):
        self.write_drafts()
        told = json.loads(self.read("--json", "--netlist", "top.v", "--library", "late.lib"))["rows"]
        answers = told[1]["answers"]
        self.assertEqual([(it["line"], it["answer"]) for it in answers][:4], [(4, "tried"), (5, "path"), (6, "tried"),
                                                                              (10, "path")])
        self.assertEqual([[it[key] for key in ("pin", "cell", "net")] for at in (1, 3)
                          for it in answers[at]["path"][:1]], [["g1:Z", "BUF", "n2"], ["b1:Z", "BUF", "n3"]])
        self.assertEqual([(it["answer"], it["code"], it["names"]) for it in answers[6:8]], [("refused", "E3", ["NO"]),
                                                                                            ("no", "Q1", ["zz"])])
        self.assertEqual([it["advice"] for it in told[2:4]], [{"instance": "g1", "cell": "BUF", "wns": "-1.000"}, None])
        written = [it.split(",") for it in self.read("--csv").split("\n")[1:-1]]
        self.assertEqual(written[1], ["2", "0", "> repower_gate g1 BUF", "tried", "", "", ""])
        self.assertEqual(written[-3], ["3", "0", "advise setup g1 BUF g2 BUF", "advice", "g1 BUF", "", "-1.000"])
        self.assertEqual({it[0] for it in written}, set("12345"))
        self.assertIn("no report_endpoint was asked", self.read("--failing"))

    def test_failing_and_histogram(self):
        out = self.read("--failing", "--histogram", "--svg", "bars.svg")
        self.assertIn("setup, design 0: 1 of 3 endpoints that were asked fail\n        -2.350 ps  r2:D\n", out)
        self.assertIn("setup slack of 3 endpoints, design 0", out)
        self.assertIn("<rect", (self.folder / "bars.svg").read_text())

    def test_other_script(self):
        (self.folder / "s.eco").write_text("take\n")
        self.assertEqual(common.tool("read_answers", "s.eco", "out", cwd=self.folder)[0], 2)

    def test_script_of_other_questions(self):
        """As many commands as rows, and rows that cannot be their answers."""
        for old, new in (("report_endpoint r2:D setup", "report_wns setup"), ("report_path r2:D setup",
                                                                              "report_path r2:D hold"),
                         ("report_path r2:D setup", "report_path r1:D setup"),
                         ("repower_gate g1 BUF", "report_tns setup")):
            (self.folder / "s.eco").write_text(common.SCRIPT.replace(old, new, 1))
            status, out, err = common.tool("read_answers", "s.eco", "out", cwd=self.folder)
            self.assertEqual((status, out), (2, ""), new)
            self.assertIn(f"is no answer to `{new}`", err)

    def test_several_sessions_ask_for_one(self):
        (self.folder / "s.eco").write_text("report_wns setup\n")
        (self.folder / "out").write_text("journal 1 0\nsession 1 rows 1\n1 0 wns 5.000\nsession 2 rows 1\n1 0 wns "
                                         "7.000\nfinal 0 setup 5.000 0.000 hold none 0.000\n")
        status, out, err = common.tool("read_answers", "s.eco", "out", cwd=self.folder)
        self.assertEqual((status, out), (2, ""))
        self.assertIn("out: it has 2 sessions: --session N", err)
        self.assertIn("report_wns setup -> 7.000 ps", self.read("--session", "2"))

    def test_journal(self):
        script = common.tool("convert_journal", "out", cwd=self.folder)[1]
        self.assertEqual([it.lines for it in read_answers.read_script(script)], [["repower_gate g1 BUF"],
                                                                                 ["begin_eco",
                                                                                  "insert_buffer n2 b1 n3 BUF r2:D",
                                                                                  "set_parasitics n3 c #1 1000",
                                                                                  "commit_eco"]])
        tcl = common.tool("convert_journal", "out", "--to", "tcl", "--first", "2", cwd=self.folder)[1]
        self.assertIn("\n# entry 2 of the journal\ninsert_buffer n2 b1 n3 BUF {r2/D}\n# set_parasitics n3 c #1 1000\n",
                      tcl)
        self.assertNotIn("replace_cell", tcl.split("# entry")[1])

    def test_saved_journal_to_script(self):
        block = (
            "journal 2 2 1\nderates 1000000 1000000 1000000 1000000\nentry 3 session 2 edits 1\nrepower_gate g1 BUFX\n"
        )
        (self.folder / "saved").write_text(OUTPUT.split("session 1 rows")[0] + block)
        script = common.tool("convert_journal", "saved", "--first", "2", cwd=self.folder)[1]
        self.assertEqual([len(it.lines) for it in read_answers.read_script(script)], [4, 1])
        self.assertTrue(script.endswith("# entry 3 of the journal\nrepower_gate g1 BUFX\n"))
        status, _, err = common.tool("convert_journal", "saved", cwd=self.folder)
        self.assertEqual((status, err), (0, ""))
        (self.folder / "saved").write_text("journal 3 0\n")
        self.assertIn("this begins with no journal", common.tool("convert_journal", "saved", cwd=self.folder)[2])

    def test_edited_design(self):
        edited = read_answers.Edited(Netlist(NETLIST), Library(LIBRARY), read_answers.Output(OUTPUT).ecos)
        self.assertEqual(edited.at(1).nets["n2"].sinks, ["r2:D"])
        self.assertEqual((edited.at(2).nets["n2"].sinks, edited.at(2).nets["n3"].sinks), (["b1:A"], ["r2:D"]))

    def test_endpoints(self):
        out = common.tool("endpoint_questions", "late.lib", "top.v", "--kind", "hold", cwd=self.folder)[1]
        self.assertEqual(out, "report_endpoint q hold\nreport_endpoint r1:D hold\nreport_endpoint r2:D hold\n")

    @common.needs_program
    def test_script_and_output_of_a_run(self):
        status, out, _ = common.run(common.PROGRAM, *self.words, cwd=self.folder)
        (self.folder / "out").write_text(out)
        self.assertEqual(status, 0)
        self.assertEqual(len(self.read().split("report_")), 5)

    @common.needs_program
    def test_parasitics_of_a_net_are_those_of_the_spef(self):
        line = common.tool("net_parasitics", "top.spef", "n2", cwd=self.folder)[1]
        asked = "".join(f"report_at r2:D {split} {edge}\nreport_slew r2:D {split} {edge}\n"
                        for split in ("early", "late") for edge in ("rise", "fall"))
        (self.folder / "s.eco").write_text(asked + line + asked)
        _, out, _ = common.run(common.PROGRAM, *self.words, cwd=self.folder)
        rows = [it.split(" ", 2)[2] for it in out.split("\n") if it[:1].isdigit()]
        self.assertEqual((rows[8], rows[:8]), ("accepted", rows[9:]), out)

    @common.needs_program
    def test_a_buffer_keeps_its_wires(self):
        kept = common.tool("net_parasitics", "top.spef", "n2", "--rename", "r2:D=b1:A", cwd=self.folder)[1]
        behind = common.tool("net_parasitics", "top.spef", "n2", "--as", "n3", "--rename", "g1:Z=b1:Z",
                             cwd=self.folder)[1]
        (self.folder / "s.eco").write_text(f"begin_eco\ninsert_buffer n2 b1 n3 BUF r2:D\n{kept}{behind}commit_eco\n")
        self.assertIn("\n1 1 accepted\n", common.run(common.PROGRAM, *self.words, cwd=self.folder)[1])

    def test_parasitics_with_an_inner_node(self):
        line = common.tool("net_parasitics", "top.spef", "n2", "--as", "n3", "--inner", "r2:D", cwd=self.folder)[1]
        self.assertEqual(line, "set_parasitics n3 c #1 2500 c #2 1000 r g1:Z #1 100000 r #1 #2 50000\n")
        status, _, err = common.tool("net_parasitics", "top.spef", "n2", "--inner", "r3:D", cwd=self.folder)
        self.assertEqual(status, 2)
        self.assertIn("and not r3:D", err)


WHOLE = CONSTRAINTS
FINDINGS = [("a clock that is missing", {"sdc": ""}, "design without a clock", "2 registers without a clock"),
            ("all lines that are not read",
             {"sdc": WHOLE + "set_max_delay 1\nfoo\nset_load 1 $x\nset_false_path -through r1/D\n"},
             "4 commands or options of the SDC that are not read", "top.sdc:4: set_max_delay (S3)",
             "top.sdc:5: foo (S2)", "top.sdc:6: set_load $x (S3)", "top.sdc:7: set_false_path -through (S3)"),
            ("a list in brackets over two lines",
             {"sdc": WHOLE + "set_false_path -to [list [get_pins r2/D]\\\n [get_cells r1]]\n"},
             "1 commands or options of the SDC that are not read\n"
             "  top.sdc:4: set_false_path [list [get_pins r2/D] [get_cells r1]] (S1)"),
            ("most arcs exchanged",
             {"early": LIBRARY.replace('"10, 30"', '"11, 31"').replace('values ("20")', 'values ("21")')},
             "4 arcs are slower in the early library, and 0 faster"),
            ("numbers in another unit", {"sdc": WHOLE.replace("-period 100", "-period 0.1") + "set_load 4000 q\n"},
             "a period of 0.1 ps, where a gate takes 30 ps", "a load of 4000 fF, where tables end at 10 fF"),
            ("a load beyond the tables", {"sdc": WHOLE + "set_load 11 q\n"},
             "a load of 11 fF, where tables end at 10 fF"),
            ("a mistyped attribute",
             {"late": LIBRARY.replace("capacitance : 1; }\n  pin (Z)", "\ncapacitence : 1; }\n  pin (Z)")},
             "late.lib that look mistyped, passed over\n  line 4: capacitence: is capacitance meant?"),
            ("an input without a delay", {"sdc": WHOLE.replace("set_input_delay 10", "set_input_delay -max 10")},
             "1 inputs without a set_input_delay", "d: early"), ("an output without a delay",
                                                                 {"sdc": WHOLE.replace("set_output", "# set_output")},
                                                                 "q: early and late"),
            ("an undriven net", {"netlist": NETLIST.replace(".Z(n2)", ".Z(n22)")},
             "1 nets without a driver\n  n2 (r2:D)"), ("an open input", {"netlist": NETLIST.replace(".D(n2), ", "")},
                                                       "1 inputs of instances that are left open\n  r2:D"),
            ("an input that is open by words", {"netlist": NETLIST.replace(".D(n2)", ".D()")},
             "1 inputs of instances that are left open\n  r2:D"), ("a register without a clock",
                                                                   {"netlist": NETLIST.replace("r2 (.D(n2), .CK(clk)",
                                                                                               "r2 (.D(n2), .CK(nc)")},
                                                                   "1 registers without a clock", "r2 (DFF)"),
            ("parasitics of another netlist", {"spef": SPEF.replace("*3 r2", "*3 r9")}, "n2: r9:D not on the net"),
            ("parasitics that are no tree", {"spef": SPEF.replace("1 *1:1 2.5", "1 *1:7 2.5")},
             "n2: no resistor ends at the node #7"),
            ("a mistyped section", {"spef": SPEF.replace("*D_NET", "*PORTS\nclk I\n*d_net")},
             "words of the SPEF that begin with * and fit no section (P1)", "*d_net after *PORTS"),
            ("a mistyped type of a test", {"early": LIBRARY.replace("setup_rising", "setup_risng"),
                                           "late": LIBRARY.replace("setup_rising", "setup_risng")},
             "setup_risng in 1 cells, first DFF"),
            ("libraries exchanged", {"early": LIBRARY.replace('"10, 30"', '"11, 31"')},
             "arcs whose early delay exceeds the late one", "BUF A rise Z rise"),
            ("derates crossed", {"sdc": WHOLE + "set_timing_derate -early 1.1\nset_timing_derate -late 0.9\n"},
             "cell delays: early 1.1, late 0.9"), ("a false path from a register's output",
                                                   {"sdc": WHOLE
                                                    + "set_false_path -from [get_pins r1/Q]\nset_false_path -to "
                                                    "[get_pins g1/A]\n"},
                                                   "top.sdc:4: set_false_path -from r1/Q: no path is launched there",
                                                   "top.sdc:5: set_false_path -to g1/A: no endpoint"),
            ("a pin that is not there", {"sdc": WHOLE + "set_false_path -to [get_pins r9/D] -from [get_pins d]\n"},
             "-to r9/D: not there (E13)", "-from d: a pin is instance/pin (S1)"), ("a port that is not there",
                                                                                   {"sdc": WHOLE + "set_load 1 zz\n"},
                                                                                   "top.sdc:4: set_load: zz"),]


class SetUp(unittest.TestCase):
    def setUp(self):
        self.folder = pathlib.Path(tempfile.mkdtemp())
        self.addCleanup(shutil.rmtree, self.folder)

    def check(self, *words, **changed):
        common.write_documents(self.folder, **changed)
        return common.tool("check_setup", "early.lib", "late.lib", "top.v", "top.sdc", "top.spef", *words,
                           cwd=self.folder)

    def test_what_is_found(self):
        for name, changed, *said in FINDINGS:
            with self.subTest(name):
                status, out, err = self.check(**changed)
                self.assertEqual((status, err), (1, ""))
                for words in said:
                    self.assertIn(words, out)

    def test_lines_of_constraints(self):
        """What the program refuses is listed, and nothing else is."""
        for code, lines in test_faults.LINES.items():
            for line in lines:
                text = CONSTRAINTS + line + "\n"
                found = list(check_setup.sdc_faults(text, read_commands(text), "top.sdc"))
                self.assertEqual(bool(found), bool(code), f"{line}: {found}")
        example = (common.TOP / "examples" / "pulse-width" / "pulse_width.sdc").read_text()
        self.assertEqual(list(check_setup.sdc_faults(example, read_commands(example), "x")), [])

    def test_nothing_but_nets_without_wires(self):
        status, out, _ = self.check()
        self.assertEqual((status, out),
                         (1, "4 nets without parasitics\n  clk\n  d\n  n1\n  q\ncheck_setup: 4 findings\n"))

    def test_options_that_come_twice(self):
        said = "1 options that come twice in a command, of which the last counts\n  top.sdc:4: set_false_path -from\n"
        self.assertIn(said, self.check(sdc=CONSTRAINTS + "set_false_path -from d -from [get_clocks clk] -to q\n")[1])
        self.assertNotIn("twice", self.check(sdc=CONSTRAINTS + "set_false_path -from {d clk} -to q\n")[1])

    def test_a_tied_input_is_not_open(self):
        self.assertNotIn("left open", self.check(netlist=NETLIST.replace(".D(n2)", ".D(1'b0)"))[1])

    def test_nothing(self):
        common.write_documents(self.folder)
        status, out, _ = common.tool("check_setup", "early.lib", "late.lib", "top.v", "top.sdc", "none",
                                     cwd=self.folder)
        self.assertEqual((status, out), (0, "check_setup: nothing found\n"))

    @common.needs_program
    def test_endpoints_that_the_program_does_not_test(self):
        status, out, _ = self.check("--program", common.PROGRAM, sdc=WHOLE
                                    + "set_false_path -to [get_pins r2/D] -setup\n")
        self.assertEqual(status, 1)
        self.assertIn("1 endpoints without a tested setup path, by the program\n  r2:D\n", out)
        self.assertNotIn("tested hold path", out)


class Plants(unittest.TestCase):
    def test_tokens_are_read_once_for_each_text(self):
        folder, asked = pathlib.Path(tempfile.mkdtemp()), []
        self.addCleanup(shutil.rmtree, folder)

        def tokens(source, file):
            asked.append(file)
            return [(1, 0, 5, "Literal", "/// One"), (2, 6, 8, "Code", "fn")], (folder / file).read_bytes()

        read = plant_over_kept.with_kept_tokens(tokens, folder / "kept")
        source = types.SimpleNamespace(folder=str(folder))
        (folder / "a.rt").write_text("/// One\nfn")
        (folder / "b.rt").write_text("/// One\nfn")
        for file in ("a.rt", "b.rt", "a.rt"):
            self.assertEqual(read(source, file), ([(2, 6, 8, "Code", "fn")], b"/// One\nfn"))
        self.assertEqual(asked, ["a.rt"])
        (folder / "b.rt").write_text("/// Two\nfn")
        self.assertEqual(read(source, "b.rt")[1], b"/// Two\nfn")
        self.assertEqual(asked, ["a.rt", "b.rt"])


class Helps(unittest.TestCase):
    def test_files_that_are_not_there(self):
        folder = tempfile.mkdtemp()
        self.addCleanup(shutil.rmtree, folder)
        for tool, *words in [("check_setup", *"abcde"), ("read_answers", *"ab"), ("convert_journal", "a"),
                             ("net_parasitics", *"ab"), ("endpoint_questions", *"ab")]:
            with self.subTest(tool):
                status, _, err = common.tool(tool, *words, cwd=folder)
                self.assertEqual(status, 2)
                self.assertRegex(err, f"^{tool}: [a-e]: No such file or directory\n$")

    def test_each_tool_has_help(self):
        for folder in (common.TOOLS, common.DEV):
            for tool in sorted(folder.glob("*.py")):
                with self.subTest(tool.name):
                    status, out, err = common.run(tool, "--help")
                    self.assertEqual(status, 0, err)
                    self.assertGreater(len(out + err), 200)
