"""From a refusal to its cause: damaged documents, what the program says, and what is said beside it."""
import gzip
import pathlib
import shutil
import tempfile
import unittest

import common
from common import CONSTRAINTS, LIBRARY, NETLIST, SPEF

PADDED = NETLIST.replace("\n", " ") + " " * 10000
# name, what is changed, the program's line, and words of what is said
DAMAGES = [
    (
        "CR LF",
        {"script": "report_wns setup\r\n"},
        "fault script1 C1 1",
        "s.eco:1:1: C1: a line that is no command",
        "ends with CR LF",
    ),
    ("comment behind a command", {"script": "take # now\n"}, "fault script1 C1 1", "after a command # begins none"),
    ("byte above 127", {"script": "# gr\xfc\xdfe\n"}, "fault script1 C1 1", "a byte above 127"),
    (
        "mistyped command",
        {"script": "take\nreport_wsn setup\n"},
        "fault script1 C1 2",
        "s.eco:2:1",
        "no command report_wsn",
    ),
    ("number above 100", {"script": "report_worst setup 101\n"}, "fault script1 C1 1", "from 1 to 100"),
    (
        "number of paths above 100",
        {"script": "report_paths q setup 101\n"},
        "fault script1 C1 1",
        "report_paths takes a number from 1 to 100",
    ),
    (
        "seventeen pins",
        {"script": "report_through q setup" + " g1:A" * 17 + "\n"},
        "fault script1 C1 1",
        "then 1 to 16 pins that the path passes",
    ),
    (
        "pins before the kind",
        {"script": "report_through q g1:A setup\n"},
        "fault script1 C1 1",
        "report_through takes setup or hold, in small letters",
    ),
    ("max for setup", {"script": "report_wns max\n"}, "fault script1 C1 1", "setup or hold"),
    ("a word too few", {"script": "report_slew r2:D late\n"}, "fault script1 C1 1", "takes 3 words, and here are 2"),
    (
        "report in a group",
        {"script": "begin_eco\nreport_wns setup\ncommit_eco\n"},
        "fault script1 C1 2",
        "stands between begin_eco and commit_eco",
    ),
    (
        "draft without its end",
        {"script": "take\nbegin_what_if\nreport_wns setup\n"},
        "fault script1 C1 2",
        "a draft has 1 to 100 trials and its end",
    ),
    (
        "draft without trials",
        {"script": "begin_what_if\n# none\nend_what_if\n"},
        "fault script1 C1 1",
        "a draft has 1 to 100 trials and its end",
    ),
    (
        "take in a draft",
        {"script": "begin_what_if\nreport_wns setup\ntake\nend_what_if\n"},
        "fault script1 C1 3",
        "take may not be in a draft",
    ),
    (
        "await in a draft",
        {"script": "begin_what_if\nreport_wns setup\nawait 0 1\nend_what_if\n"},
        "fault script1 C1 3",
        "await may not be in a draft",
    ),
    (
        "more paths of an endpoint than in all",
        {"script": "report_worst_paths setup 2 each 3\n"},
        "fault script1 C1 1",
        "report_worst_paths takes setup or hold, a number K from 1 to 100, and perhaps each",
    ),
    (
        "a net too many",
        {"script": "report_net n1 n2\n"},
        "fault script1 C1 1",
        "report_net takes 1 word, and here are 2",
    ),
    (
        "pair without a cell",
        {"script": "advise_tns setup g1\n"},
        "fault script1 C1 1",
        "advise_tns takes setup or hold, then 1 to 100 pairs",
    ),
    (
        "path through no pins",
        {"script": "report_timing_through q setup\n"},
        "fault script1 C1 1",
        "then 1 to 16 pins that the path passes",
    ),
    (
        "end of a draft in a group",
        {"script": "begin_what_if\nbegin_eco\nrepower_gate g1 BUF\nend_what_if\n"},
        "fault script1 C1 4",
        "end_what_if is in a group of edits",
    ),
    ("drop outside a draft", {"script": "drop_last\n"}, "fault script1 C1 1", "drop_last may only be in a draft"),
    (
        "101 trials",
        {"script": "begin_what_if\n" + "drop_last\n" * 101 + "end_what_if\n"},
        "fault script1 C2 102",
        "100 trials of the draft are before it",
    ),
    (
        "candidate without a cell",
        {"script": "advise setup g1 BUF r1\n"},
        "fault script1 C1 1",
        "1 to 100 pairs of an instance and a cell",
    ),
    (
        "compressed",
        {"spef": gzip.compress(SPEF.encode()).decode("latin-1")},
        "fault spef P1 0",
        "top.spef:1:1",
        "compressed",
    ),
    ("byte order mark", {"sdc": "\xef\xbb\xbf" + CONSTRAINTS}, "fault sdc S1 0", "byte order mark"),
    ("empty", {"netlist": ""}, "fault netlist V5 0", "top.v:1:1", "the file is empty"),
    (
        "documents in the wrong order",
        {"netlist": "# by hand\n" + CONSTRAINTS, "sdc": NETLIST},
        "fault netlist V1 0",
        "looks like constraints",
        "EARLY LATE NETLIST",
    ),
    ("time unit", {"late": LIBRARY.replace('"1ps"', '"1us"')}, "fault late L4 30", "late.lib:1:31: L4:"),
    (
        "no number in a table",
        {"early": LIBRARY.replace('"10, 30"', '"10, nan"', 1)},
        "fault early L6",
        "the word `nan` is no number",
    ),
    (
        "bracket lost",
        {"late": LIBRARY.replace("} } } }\n cell (DFF)", "} } }\n cell (DFF)")},
        "fault late L1",
        "the text ends here",
        "closing bracket is missing: cell (BUF) of line 3",
    ),
    (
        "assign",
        {"netlist": NETLIST.replace("endmodule", " assign n1 = n2;\nendmodule")},
        "fault netlist V2",
        "top.v:6:2: V2: a construct that is not read",
        "  assign n1 = n2;",
    ),
    (
        "semicolon lost",
        {"netlist": NETLIST.replace(".Z(n2));", ".Z(n2))")},
        "fault netlist V1",
        "top.v:5:2",
        "the fault may be before it",
    ),
    ("a long line", {"netlist": PADDED.replace("endmodule", "x " * 9000 + "assign")}, "fault netlist V", " .. "),
    (
        "cell that a library lacks",
        {"early": LIBRARY.replace("(BUF)", "(BUF1)")},
        "fault design E3 BUF",
        "the early library, has no cell BUF",
        "1 instance is of this cell, first g1",
        "top.v:4:2: E3 BUF: the cell is not",
    ),
    (
        "cells that differ",
        {"late": LIBRARY.replace("hold_rising", "hold_falling")},
        "fault design E3 DFF",
        "library alone has the tests D fall CK",
    ),
    (
        "unknown pin",
        {"netlist": NETLIST.replace(".A(n1)", ".B(n1)")},
        "fault design E4 g1:B",
        "top.v:4:2: E4 g1:B: ",
        "BUF has the pins A, Z",
    ),
    (
        "netlist with a directive first",
        {"early": "`timescale 1ns/1ps\n" + NETLIST},
        "fault early L2 0",
        "looks like a netlist",
    ),
    (
        "module without its end",
        {"netlist": NETLIST.replace("endmodule", "")},
        "fault netlist V1",
        "an endmodule, or a ; or ) before it, is missing",
    ),
    (
        "concatenation",
        {"netlist": NETLIST.replace(".A(n1)", ".A({n1})")},
        "fault netlist V2",
        "a concatenation: name each bit",
    ),
    (
        "index that falls",
        {"late": LIBRARY.replace('"0, 10"', '"10, 0"')},
        "fault late L8",
        "index_1 of the template ld, line 2, is 10, 0",
    ),
    ("small letters of a unit", {"spef": SPEF.replace("1 FF", "1 ff")}, "fault spef P1", "in capitals"),
    (
        "net without its end",
        {"spef": SPEF.replace("*END\n", "")},
        "fault spef P1",
        "the *END of the net before it may be missing",
    ),
    (
        "port of the wrong direction",
        {"sdc": CONSTRAINTS + "set_output_delay 1 -clock clk [get_ports d]\n"},
        "fault design E13 d",
        "top.sdc:4:42: E13 d: ",
        "d is an input port",
    ),
    ("two drivers", {"netlist": NETLIST.replace(".Q(n1)", ".Q(n2)")}, "fault design E10 n2", "driven by r1:Q, g1:Z"),
    (
        "loop",
        {
            "netlist": NETLIST.replace(".A(n1)", ".A(n2)"),
            "spef": SPEF.replace("*I *3:D I *L 1", "*I *3:D I *L 1\n*I *2:A I"),
        },
        "fault design E11 g1:A g1:Z",
        "a loop of gates",
    ),
    ("variable of Tcl", {"sdc": "set p 100\n" + CONSTRAINTS}, "fault sdc S1 4", "Tcl is not run"),
    ("expression of Tcl", {"sdc": CONSTRAINTS.replace("100", "[expr 100]")}, "fault sdc S1", "Tcl is not run"),
    (
        "all_inputs",
        {"sdc": CONSTRAINTS.replace("[get_ports d]", "[all_inputs]")},
        "fault sdc S3",
        "name the ports",
        "docs/INPUT.md",
    ),
    (
        "pattern",
        {"sdc": CONSTRAINTS + "set_false_path -to [get_ports q*]\n"},
        "fault sdc S3",
        "top.sdc:4:31",
        "no patterns",
    ),
    (
        "clock groups",
        {"sdc": CONSTRAINTS + "set_clock_groups -asynchronous\n"},
        "fault sdc S2",
        "there are no clock groups",
        "check_setup.py lists all",
    ),
    (
        "delay without a clock",
        {"sdc": CONSTRAINTS + "set_input_delay 1 [get_ports d]\n"},
        "fault sdc S3",
        "a delay needs -clock",
    ),
    (
        "second clock on a port",
        {"sdc": CONSTRAINTS + "create_clock -name c2 -period 9 [get_ports clk]\n"},
        "fault sdc S3",
        "no other clock has its name or its port",
    ),
    ("no period", {"sdc": "create_clock -period 0 [get_ports clk]\n"}, "fault sdc S4 21", "top.sdc:1:22: S4"),
    (
        "port that is not there",
        {"sdc": CONSTRAINTS + "set_load 1 [get_ports zz]\n"},
        "fault design E13 zz",
        "top.sdc:4:23: E13 zz: ",
        "  set_load 1 [get_ports zz]\n                        ^\n",
    ),
    (
        "net of another netlist",
        {"spef": SPEF.replace("*1 n2", "*1 n9")},
        "fault design E2 n9",
        "top.spef:14:1: E2 n9: ",
        "usual causes: in the SPEF: that of another netlist",
    ),
    (
        "wrong row of the name map",
        {"spef": SPEF.replace("*2 g1", "*2 r1")},
        "fault design E14 n2",
        "top.spef:14:1: E14 n2: ",
        "its parasitics name r1:Z, which is not on the net",
        "no resistor ends at g1:Z",
    ),
    (
        "loop of resistors",
        {"spef": SPEF.replace("*END", "3 *2:Z *3:D 5\n*END")},
        "fault design E14 n2",
        "a loop of resistors",
    ),
    (
        "a capacitance at a node of its own",
        {"spef": SPEF.replace("1 *1:1 2.5", "1 *1:7 2.5")},
        "fault design E14 n2",
        "no resistor ends at the node #7",
    ),
    (
        "a node that is not reached",
        {"spef": SPEF.replace("2 *1:1 *3:D", "2 *1:2 *3:D")},
        "fault design E14 n2",
        "2 resistors cannot join 4 nodes",
    ),
    (
        "a bracket too many",
        {"late": LIBRARY.replace("capacitance : 1; }", "capacitance : 1; } } }", 1)},
        "fault late L2",
        "own group ends before this place",
    ),
    (
        "a sink more",
        {"netlist": NETLIST.replace("endmodule", " BUF g2 (.A(n2), .Z());\nendmodule")},
        "fault design E15 n2",
        "no resistor ends at g2:A",
    ),
    (
        "capacitance unit",
        {
            "spef": (
                SPEF.replace("*C_UNIT 1 FF", "*C_UNIT 1000 PF")
                .replace("1:1 2.5", "1:1 900")
                .replace("2 *3:D 1\n", "2 *3:D 900\n")
            )
        },
        "fault design E16 net n2",
        "*C_UNIT 1000 PF",
        "wrong by a thousand",
    ),
    (
        "capacitance without a value",
        {"spef": SPEF.replace("1 *1:1 2.5", "1 *1:1 abc")},
        "fault spef P1",
        "ends with abc",
    ),
    (
        "number out of range in a table",
        {"late": LIBRARY.replace('"10, 30"', '"10, 1e99"', 1)},
        "fault late L6",
        "the number 1e99 is out of range",
    ),
    (
        "no number in an index",
        {"late": LIBRARY.replace('"0, 10"', '"0, x"', 1)},
        "fault late L6",
        "in index_1 the word `x` is no number",
    ),
    (
        "a value too many",
        {"late": LIBRARY.replace('"10, 30"', '"10, 30, 4"', 1)},
        "fault late L6",
        "has 3 values, and its template ld with the indexes asks for 2",
    ),
    (
        "variable of a template",
        {"late": LIBRARY.replace(": total_output_net_capacitance", ": load", 1)},
        "fault late L6",
        "the variable_1 load, which is not read",
    ),
    (
        "name in quotes",
        {"sdc": CONSTRAINTS.replace("-name clk", '-name "clk"')},
        "fault sdc S5",
        'before this place: "clk" (a " is a part',
    ),
    ("UTF-16", {"sdc": "\xff\xfe" + CONSTRAINTS}, "fault sdc S1 0", "the file is UTF-16"),
    (
        "journal as a script",
        {"script": "journal 1 0\n"},
        "fault script1 C1 1",
        "tools/convert_journal.py makes a script",
    ),
    (
        "parasitics in fractions",
        {"script": "set_parasitics n2 c #1 1.5\n"},
        "fault script1 C1 1",
        "whole numbers up to 10^12",
    ),
    (
        "a long line in a script",
        {"script": "# " + "a; " * 30000 + "\n"},
        "fault script1 C2 1",
        "this line has 90002 bytes",
    ),
    (
        "last capacitance without a value",
        {"spef": SPEF.replace("2 *3:D 1\n", "2 *3:D abc\n")},
        "fault spef P4",
        "ends with abc",
    ),
]

# Lines of constraints with their codes, none for those that are accepted.
LINES = {
    "S3": [
        "create_generated_clock -name g",
        "set_clock_latency 1 clk",
        "set_clock_transition 1 clk",
        "set_max_delay 1",
        "set_min_delay 1",
        "set_driving_cell -lib_cell x",
        "set_disable_timing x",
        "set_case_analysis 0 d",
        "set_input_delay 1 -clock clk [all_inputs]",
        "set_false_path -to [get_nets x]",
        "set_false_path -through d",
        "set_input_delay 1 -clock clk -clock_fall d",
        "set_input_delay 1 -clock clk -add_delay d",
        "set_clock_uncertainty 1 -from clk -to clk",
        "set_load 1 $x",
        "create_clock -period 9 {d q}",
        "set_multicycle_path 2 -setup -hold -to q",
        "set_timing_derate 1 -cell_check",
        "set_timing_derate 1 2",
    ],
    "S2": [
        "set_clock_groups -a",
        "set_ideal_network x",
        "set_sense x",
        "set_min_pulse_width 1",
        "set_fanout_load 1 x",
        "set_resistance 1 x",
        "if 1",
        "source x",
        "puts x",
    ],
    "S1": [
        "create_clock -period 9 [get_pins r1/CK]",
        "set_multicycle_path 2 -setup -start -to q",
        "set_load 1 -foo q",
        "set_load 1",
        "set x 1",
        "set_units -time fs",
        "set_units -capacitance ff",
        "create_clock -name b -period 9 -waveform {1}",
        "create_clock -name b -period 9 -waveform 1",
    ],
    "S4": [
        "set_timing_derate 11",
        "create_clock -name b -period 9 -waveform {0 9}",
        "create_clock -name b -period 9 -waveform {2 1}",
        "set_load -1 q",
        "set_multicycle_path 0 -to q",
        "set_input_transition -1 d",
    ],
    "S5": ["set_clock_uncertainty 1 nope", "set_output_delay 1 -clock nope q"],
    "": [
        "set_max_fanout 3 d",
        "set_max_transition 3",
        "set_max_capacitance 3",
        "set_max_area 0",
        "set_propagated_clock clk",
        "group_path -name x",
        "current_design top",
        "set sdc_version 2.1",
        "set_operating_conditions x",
        "set_wire_load_mode top",
        "set_wire_load_model -name x",
        "set_timing_derate 0.9 -early -net_delay",
        "set_units -time 10ps -capacitance 1.0fF -resistance kOhm",
        "set_load 1 -pin_load -min -fall q",
        "set_multicycle_path 2 -setup -end -from clk -to [get_pins r2/D]",
        "set_false_path -hold -from [get_cells r1] -to {q r2/D}",
        "set_input_transition 1 -clock clk -max -rise d",
        "set_false_path -from d -from clk -to q",
        "create_clock -name v -period 7 -waveform {1 3}",
    ],
}


@common.needs_program
class Damages(unittest.TestCase):
    def setUp(self):
        self.folder = pathlib.Path(tempfile.mkdtemp())
        self.addCleanup(shutil.rmtree, self.folder)

    def lizdrog(self, words):
        return common.run(common.TOP / "lizdrog", "--program", common.PROGRAM, *words, cwd=self.folder)

    def test_whole_documents(self):
        status, out, err = self.lizdrog(common.write_documents(self.folder))
        self.assertEqual((status, err), (0, ""), out)

    def test_damages(self):
        for name, changed, line, *said in DAMAGES:
            with self.subTest(name):
                status, out, err = self.lizdrog(common.write_documents(self.folder, **changed))
                self.assertEqual(status, 3, out)
                self.assertTrue(out.startswith(line), out)
                for words in said:
                    self.assertIn(words, err)
                self.assertLess(max(map(len, err.split("\n"))), 400)

    def test_caret_stands_below_the_fault(self):
        words = common.write_documents(self.folder, sdc="create_clock -period 0 [get_ports clk]\n")
        lines = self.lizdrog(words)[2].split("\n")
        self.assertEqual(lines[1].index("0 [get"), lines[2].index("^"))

    def test_files_that_cannot_be_fetched(self):
        words = common.write_documents(self.folder)
        (self.folder / "folder").mkdir()
        for name, said in (("gone.sdc", "gone.sdc: No such file"), ("folder", "folder: is a directory")):
            status, out, err = self.lizdrog([*words[:4], name, *words[5:]])
            self.assertEqual((status, out), (4, f"fault shelf {name} failed\n"))
            self.assertIn(said, err)

    def test_saved_journals(self):
        words = common.write_documents(self.folder, spef="", script="take\n")
        block = "journal 2 {} 1\nderates {} 1000000 1000000 1000000\nentry {} session 1 edits 1\nrepower_gate g1 {}\n"
        good, next_one = block.format(0, 1000000, 1, "BUF"), block.format(1, 1000000, 2, "NOCELL")
        for text, line, *said in [
            (
                good + next_one,
                "fault journal J4 2 E3 NOCELL\n",
                "saved:7: J4: entry 2 is refused",
                "  repower_gate g1 NOCELL\n",
            ),
            (good + good, f"fault journal J1 {len(good)}\n", "saved:5:1: J1:", "comes twice"),
            (good + "session 1 rows 0\n", f"fault journal J1 {len(good)}\n", "the rows of an output begin"),
            (
                block.format(0, 900000, 1, "BUF"),
                "fault journal J5 0\n",
                "saved:1:1: J5: a block that was written under other derates",
                "under `derates 900000 1000000 1000000 1000000`",
            ),
            ("journal 3 0\n", "fault journal J3 8\n", "saved:1:9: J3:"),
            ("take\n", "fault journal J1 0\n", "looks like a script, and is in the place of journal"),
            ("", ""),
            (good, ""),
            ("journal 1 1\n" + good.split("\n", 2)[2], ""),
        ]:
            with self.subTest(line):
                (self.folder / "saved").write_text(text)
                status, out, err = self.lizdrog(["run", "--journal", "saved", *words[1:5], "none", *words[6:]])
                self.assertEqual(status, 3 if line else 0, out)
                self.assertTrue(out.startswith(line or f"journal 2 {text.count('entry')} 0\n"), out)
                for it in said:
                    self.assertIn(it, err)

    def test_pipes(self):
        common.write_documents(self.folder, sdc="foo\n")
        line = (
            f"{common.TOP / 'lizdrog'} --program {common.PROGRAM} run early.lib late.lib top.v <(cat top.sdc) none 1"
            " s.eco"
        )
        status, out, err = common.run("bash", "-c", line, cwd=self.folder)
        self.assertEqual((status, out), (3, "fault sdc S2 0\n"))
        self.assertIn("byte 0: S2: ", err)
        self.assertIn("no file that can be read again", err)

    # What docs/INPUT.md says of constraints.
    def test_constraints_as_the_page_says(self):
        for code, lines in LINES.items():
            for line in lines:
                with self.subTest(line):
                    words = common.write_documents(self.folder, sdc=CONSTRAINTS + line + "\n", script="take\n")
                    _, out, _ = common.run(common.PROGRAM, *words, cwd=self.folder)
                    self.assertTrue(out.startswith(f"fault sdc {code} " if code else "journal"), out)

    def check(self, role, code, text):
        words = common.write_documents(self.folder, script="take\n", **{role: text})
        _, out, _ = common.run(common.PROGRAM, *words, cwd=self.folder)
        self.assertTrue(out.startswith(f"fault {role} {code} " if code else "journal"), out)

    # What docs/INPUT.md says of libraries: what is put in the place of a line.
    def test_libraries_as_the_page_says(self):
        head, template = 'time_unit : "1ps"; capacitive_load_unit (1, ff);', ' lu_table_template (ld)'
        for code, old, new in [
            ("L4", '"1ps"', '"1fs"'),
            ("L4", "(1, ff)", "(2, ff)"),
            ("L4", " capacitive_load_unit (1, ff);", ""),
            ("L4", "(1, ff)", "(1, nf)"),
            ("", "(1, ff)", "(0.001, pf)"),
            ("", ' time_unit : "1ps";', ' time_unit : "10ps"; delay_model : table_lookup;'),
            ("L9", head, head + " delay_model : cmos2;"),
            ("L7", template, ' lu_table_template (ld) { }' + template),
            ("L7", " cell (BUF)", " cell (DFF) { }\n cell (BUF)"),
            ("L5", "cell_rise (ld)", "cell_rise (xx)"),
            (
                "L6",
                "total_output_net_capacitance;",
                "total_output_net_capacitance; variable_2 : input_net_transition; variable_3 : x;",
            ),
            ("L6", '"10, 30"', '"10, 30, 40"'),
            ("L8", 'index_1 ("0, 10")', 'index_1 ("10, 0")'),
            ("L2", "direction : input", "direction : sideways"),
            ("L2", "capacitance : 1;", "capacitance : -1;"),
            ("L2", head, head + ' include_file ("x");'),
            ("", "timing_sense :", 'when : "A"; timing_sense :'),
            (
                "",
                " cell (BUF)",
                " cell (BUS) { bus (B) { } }\n cell (PAD) { pin (P) { direction : inout; } }\n cell (BUF)",
            ),
            ("", "capacitance : 1;", "capacitance : 1; rise_capacitance : x; max_transition : y;"),
            (
                "",
                "direction : output;",
                'direction : output; timing () { related_pin : "A"; timing_type : three_state_disable; }',
            ),
        ]:
            with self.subTest(f"{old} -> {new}"):
                self.assertIn(old, LIBRARY)
                self.check("late", code, LIBRARY.replace(old, new, 1))

    # What it says of netlists.
    def test_netlists_as_the_page_says(self):
        for code, line in [
            ("V2", "assign n1 = n2;"),
            ("V2", "inout x;"),
            ("V2", "reg x;"),
            ("V2", "supply0 x;"),
            ("V2", "parameter x = 1;"),
            ("V2", "always x;"),
            ("V2", "BUF #(1) g9 (.A(n1), .Z());"),
            ("V2", "wire [1:0] v; BUF g9 (.A(v[1:0]), .Z());"),
            ("V2", "BUF g9 (.A({n1}), .Z());"),
            ("V2", "wire [1:0] v; BUF g9 (.A(v), .Z());"),
            ("V2", "BUF g9 (n1, n2);"),
            ("V2", "endmodule module m2 ();"),
            ("V1", "wire wire a;"),
            ("V1", "BUF g9 (.A(1'bx), .Z());"),
            ("V3", "BUF g9 (.A(v[3]), .Z());"),
            ("V4", "wire n1;"),
            ("V6", "wire [999999:0] w;"),
            ("", "BUF g9 (.A(1'b0), .Z());"),
            ("", "BUF g9 (.A(), .Z(free));"),
            ("", "wire [0:3] v; BUF g9 (.A(v[3]), .Z());"),
            ("", "(* keep *) BUF \\g/9 (.A(n1), .Z(\\x[3] ));\n`define A b"),
            ("", "BUF g9 (.A(n1)); // and so on"),
        ]:
            with self.subTest(line):
                self.check(
                    "netlist",
                    code,
                    (
                        NETLIST.replace("endmodule", line + "\nendmodule")
                        if "endmodule" not in line
                        else NETLIST.replace("endmodule", line + " endmodule")
                    ),
                )
        self.check(
            "netlist",
            "",
            NETLIST.replace("(clk, d, q);\n input clk, d; output q;", "(input clk, input wire d, output q);"),
        )

    # What it says of parasitics.
    def test_parasitics_as_the_page_says(self):
        for code, old, new in [
            ("P1", "*SPEF", "*SPEFX"),
            ("P1", "*DELIMITER :\n", ""),
            ("P1", "1 FF", "1 UF"),
            ("P1", "1 OHM", "2 OHM"),
            ("", "1 OHM", "0.001 KOHM"),
            ("P3", "*D_NET", "*R_NET"),
            ("P3", "*D_NET", "*DEFINE x\n*D_NET"),
            ("P3", "*RES", "*INDUC\n*RES"),
            ("P4", "1 *1:1 2.5", "1 *1:1 -2.5"),
            ("P4", "*3:D 50", "*3:D 1e30"),
            ("P2", "*2:Z O", "*9:Z O"),
            ("P5", "*END\n", "*END\n*D_NET *1 1\n*END\n"),
            ("", "3.5", "3.5 *V 1"),
            ("", "1 *1:1 2.5", "1 *1:1 2:2.5:3"),
            ("", "2 *3:D 1", "2 *3:D r1:Q 1"),
            ("", "*I *2:Z O *D BUF", "*I r9:Z O *D BUF"),
            ("", "*1 3.5", "*1 999"),
            ("", "*D_NET", "*PORTS\nclk I\n*1 O *D *2\n*D_NET"),
            ("P1", "*D_NET", "*PORTS\nclk I\n*d_net"),
            ("", "*D BUF", "*C 1 2 *S 1 2 *D BUF"),
        ]:
            with self.subTest(f"{old} -> {new}"):
                self.assertIn(old, SPEF)
                self.check("spef", code, SPEF.replace(old, new, 1))
