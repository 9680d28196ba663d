"""The importer: libraries and parasitics, several of each as one."""
import re
import shutil
import unittest

import common
from import_cases import CLOCK, Project

needs_yosys = unittest.skipUnless(shutil.which("yosys"), "no yosys is here: apt-get install yosys")
# The same register in ns and pF, with its setup test of 15 ps.
NANO = """library (nano) { time_unit : "1ns"; capacitive_load_unit (0.5, pf);
 lu_table_template (mine) { variable_1 : total_output_net_capacitance; index_1 ("0, 0.02"); }
 cell (REG) { pin (D) { direction : input; capacitance : 0.004;
   timing () { related_pin : "CK"; timing_type : setup_rising;
   rise_constraint (scalar) { values ("0.015"); } fall_constraint (scalar) { values ("0.0155"); } } }
  pin (CK) { direction : input; capacitance : 0.002; }
  pin (Q) { direction : output; max_capacitance : 0.2; timing () { related_pin : "CK"; timing_type : rising_edge;
   cell_rise (mine) { values ("0.02, 0.04"); } cell_fall (mine) { index_1 ("0, 0.03"); values ("0.02, 0.05"); }
   rise_transition (scalar) { values ("0.01"); } fall_transition (scalar) { values ("0.01"); } } } } }
"""
MACRO = """library (macro) { time_unit : "1ps"; capacitive_load_unit (1, ff);
 type (two) { base_type : array; data_type : bit; bit_width : 2; bit_from : 1; bit_to : 0; }
 cell (MEM) { pin (CK) { direction : input; capacitance : 3; }
  bus (A) { bus_type : two; direction : input; capacitance : 2;
   timing () { related_pin : "CK"; timing_type : setup_rising;
   rise_constraint (scalar) { values ("9"); } fall_constraint (scalar) { values ("9"); } }
   pin (A[1]) { capacitance : 5; } }
  bus (Q) { bus_type : two; direction : output;
   timing () { related_pin : "A"; timing_sense : positive_unate;
   cell_rise (scalar) { values ("7"); } rise_transition (scalar) { values ("4"); } } }
  bundle (E) { members (E0, E1); direction : input; capacitance : 1; } } }
"""


def cell_of(text, name):
    """The part of a library that is one cell, blanks made one."""
    return re.sub(r"\s+", " ", text.partition(f'cell ("{name}")')[2].partition("  cell (")[0])


# What a library has in the place of other words, and what the import says of it.
BAD_LIBRARIES = (
    ('"1ps";', '"1ps"; slew_derate_from_library : x;', "cells.lib:1: slew_derate_from_library is no number: x"),
    ("(1, ff)", "(1, xx)", "cells.lib:1: the library has no capacitive_load_unit"),
    ('"1ps"', '"1 hour"', "cells.lib:1: the time unit 1 hour is not read"),
    (
        'values ("10, 30"); } cell_fall',
        'values ("10"); } cell_fall',
        "cells.lib:5: cell_rise of Z has 1 values, and its template asks for 2",
    ),
    (
        'values ("10, 30"); } cell_fall',
        'values ("10, x"); } cell_fall',
        "cells.lib:5: an entry of cell_rise of Z is no number: x",
    ),
    ("cell_rise (ld)", "cell_rise (lx)", "cells.lib:5: the table template lx is not there"),
    (
        "direction : output; timing",
        "direction : inout; timing",
        "cells.lib:7: the cell DFF cannot be read: its pin Q is an inout",
    ),
    ("library (small)", "libraries (small)", "cells.lib:1: this is no library (Liberty)"),
    (
        " cell (BUF) {",
        " cell (BUF) { {",
        "cells.lib:7: cell (DFF) begins inside the group cell (BUF) of line 3: a closing bracket is missing",
    ),
    (
        "} } } }\n cell (DFF)",
        "} } }\n cell (DFF)",
        "cells.lib:7: cell (DFF) begins inside the group cell (BUF) of line 3",
    ),
    ('values ("10"); } } } } }', 'values ("10"); } } } } } }', "cells.lib:13: the library ends before"),
    (
        "library (small) {",
        "library (small) { delay_model : polynomial;",
        "the delay model polynomial is not read",
    ),
)


class Libraries(Project):
    def test_two_libraries_in_two_units(self):
        self.write({"nano.lib": NANO, "top.v": common.NETLIST.replace("DFF r2", "REG r2")})
        self.assertEqual(self.run_import(library=["cells.lib", "nano.lib"]), (0, ""))
        text = self.made("late.lib")
        cell = cell_of(text, "REG")
        self.assertIn('time_unit : "1ps";\n  capacitive_load_unit (1, ff);', text)
        for said in (
            'pin ("D") { direction : input; capacitance : 2;',
            'rise_constraint (scalar) { values ("15"); }',
            'fall_constraint (scalar) { values ("15.5"); }',
            'values ("20, 40")',
            'values ("20, 50")',
            "max_capacitance : 100;",
            'pin ("CK") { direction : input; capacitance : 1; }',
        ):
            self.assertIn(said, cell)
        self.assertEqual(sorted(set(re.findall(r'index_1 \("(.*?)"\)', text))), ["0, 10", "0, 15"])
        self.assertIn('cell ("DFF")', text)

    def test_only_what_is_used_or_kept_is_written(self):
        self.write({"nano.lib": NANO})
        self.assertEqual(self.run_import(library=["cells.lib", "nano.lib"]), (0, ""))
        self.assertNotIn("REG", self.made("late.lib"))
        self.assertEqual(self.run_import(library=["cells.lib", "nano.lib"], keep=["RE*"]), (0, ""))
        self.assertIn('cell ("REG")', self.made("late.lib"))

    def test_a_cell_of_two_libraries(self):
        self.write({"more.lib": common.LIBRARY.replace('values ("15")', 'values ("16")')})
        status, errors = self.run_import(library=["cells.lib", "more.lib"])
        self.assertEqual(status, 2)
        self.assertRegex(
            errors, r"more.lib:(3: the cell BUF|7: the cell DFF) is in cells.lib and in more.lib: prefer = "
        )
        for file, value in (("cells.lib", "15"), ("more.lib", "16"), ("first", "15")):
            self.assertEqual(self.run_import(library=["cells.lib", "more.lib"], prefer={"*": file}), (0, ""))
            self.assertIn(f'rise_constraint (scalar) {{ values ("{value}"); }}', self.made("late.lib"))
            self.assertEqual(self.kinds("changed"), {"cell-clash"})

    @needs_yosys
    def test_buses_become_pins(self):
        self.write(
            {
                "macro.lib": MACRO,
                "top.v": "module top (input clk, input [1:0] d, e, output [1:0] q);\n MEM m (.CK(clk), .A({d[0], "
                "d[1]}), .Q(q), .E0(e[0]), .E1(1'b0));\nendmodule\n",
            }
        )
        self.assertEqual(self.run_import(library=["cells.lib", "macro.lib"]), (0, ""))
        self.assertIn(
            "  MEM m (.\\A[0] (d[1]), .\\A[1] (d[0]), .CK(clk), .E0(e[0]), .E1(1'b0), .\\Q[0] (q[0]), .\\Q[1] (q[1]));",
            self.made("netlist.v"),
        )
        cell = cell_of(self.made("late.lib"), "MEM")
        for said in (
            'pin ("A[1]") { direction : input; capacitance : 5; timing () { related_pin : "CK"; timing_type : '
            "setup_rising;",
            'pin ("A[0]") { direction : input; capacitance : 2; timing ()',
            'pin ("Q[1]") { direction : output; capacitance : 0; timing () { related_pin : "A[1]";',
            'pin ("Q[0]") { direction : output; capacitance : 0; timing () { related_pin : "A[0]";',
            'pin ("E0") { direction : input; capacitance : 1; }',
        ):
            self.assertIn(said, cell)

    def test_senses_and_edges(self):
        text = common.LIBRARY.replace("timing_sense : positive_unate;", "").replace(
            "pin (Z) { direction : output;", 'pin (Z) { direction : output; function : "!A";'
        )
        self.write({"cells.lib": text})
        self.assertEqual(self.run_import(), (0, ""))
        self.assertIn("timing_sense : negative_unate;", cell_of(self.made("late.lib"), "BUF"))
        self.write(
            {
                "cells.lib": common.LIBRARY.replace(
                    "timing_sense : positive_unate;", "timing_sense : positive_unate; timing_type : combinational_rise;"
                )
            }
        )
        self.assertEqual(self.run_import(), (0, ""))
        cell = cell_of(self.made("late.lib"), "BUF")
        self.assertIn("timing_type : combinational;", cell)
        self.assertIn("cell_rise", cell)
        self.assertNotIn("cell_fall", cell)

    def test_what_changes_slacks_is_refused(self):
        for old, new, said in (
            (
                "capacitance : 1; }\n  pin (Z)",
                "capacitence : 1; }\n  pin (Z)",
                "cells.lib:3: mistyped: capacitence is passed over: is capacitance meant?",
            ),
            (
                "capacitance : 1; }\n  pin (Z)",
                "capacitance : 1; rise_capacitance : 1.1; }\n  pin (Z)",
                "cells.lib:3: pin-capacitance: cell BUF: rise_capacitance or fall_capacitance of A differ from the "
                "capacitance, which alone is read, by up to 0.1 fF",
            ),
            (
                "timing_sense : positive_unate;",
                "timing_sense : positive_unate; timing_type : three_state_enable;",
                "cells.lib:4: three-state: cell BUF: three_state_enable of Z",
            ),
            (
                "timing_sense : positive_unate;",
                "timing_sense : positive_unate; timing_type : combinatorial;",
                "cells.lib:4: timing-type: cell BUF: the timing_type combinatorial",
            ),
            (
                'related_pin : "A"',
                'related_pin : "B"',
                "cells.lib:4: related-pin: cell BUF: the related_pin B of Z is no pin",
            ),
            (
                "variable_1 : total_output_net_capacitance",
                "variable_1 : related_out_total_output_net_capacitance",
                "cells.lib:5: table: cell BUF: a table of Z over related_out_total",
            ),
            ('time_unit : "1ps";', 'time_unit : "1ps"; slew_derate_from_library : 0.5;', "cells.lib:1: slew-derate: "),
        ):
            with self.subTest(new):
                self.write({"cells.lib": common.LIBRARY.replace(old, new)})
                status, errors = self.run_import()
                self.assertEqual(status, 2, errors)
                self.assertIn(said, errors)

    def test_libraries_that_cannot_be_read(self):
        for old, new, said in BAD_LIBRARIES:
            with self.subTest(new):
                self.write({"cells.lib": common.LIBRARY.replace(old, new)})
                status, errors = self.run_import()
                self.assertEqual(status, 2, errors)
                self.assertIn(said, errors)

    def test_both_sides_have_the_same_cells(self):
        for old, new, said in (
            ("cell (BUF)", "cell (BAF)", "top.v:4: the cell BUF is in no early library"),
            ("hold_rising", "hold_falling", "the cell DFF has other arcs or tests than in"),
        ):
            self.write({"early.lib": common.LIBRARY.replace(old, new)})
            status, errors = self.run_import(library=None, early="early.lib", late="cells.lib")
            self.assertEqual(status, 2)
            self.assertIn(said, errors)


class Doubts(Project):
    def test_loads_beyond_the_tables(self):
        """They are read, since tables are extended; the report counts them with their place."""
        self.write({"top.sdc": CLOCK + "set_load 12 q\n", "top.spef": common.SPEF.replace("2.5", "12.5")})
        self.assertEqual(self.run_import(spef="top.spef")[0], 0)
        found = [it for it in self.report()["left_out_without_effect"] if it["kind"] == "load-beyond"]
        self.assertEqual([it["line"] for it in found], [3, 14])
        self.assertIn("1 ports such as q have loads beyond the last entry of each table, 10 fF", found[0]["text"])
        self.assertIn("1 nets such as n2 have loads beyond", found[1]["text"])
        self.write({"top.sdc": CLOCK + "set_load 10 q\n"})
        self.assertEqual(self.run_import()[0], 0)
        self.assertNotIn("load-beyond", self.kinds("left_out_without_effect"))

    def test_what_is_hardly_meant(self):
        slow = common.LIBRARY.replace('"10, 30"', '"12, 36"').replace('values ("20")', 'values ("24")')
        self.write({"slow.lib": slow, "far.spef": common.SPEF.replace("*C_UNIT 1 FF", "*C_UNIT 1 PF")})
        for sdc, changed, said in (
            (
                CLOCK,
                {"library": None, "early": "slow.lib", "late": "cells.lib"},
                "slow.lib: early-late: 4 arcs are slower here than in the late library cells.lib, and 0 faster",
            ),
            (
                CLOCK.replace("100", "0.1"),
                {},
                "top.sdc:1: period: the clock clk has a period of 0.1 ps, where a gate takes 30 ps",
            ),
            (
                CLOCK + "set_load 4000 q\n",
                {},
                "top.sdc:3: load: 1 ports such as q have a load of 4000 fF, and the tables end at 10",
            ),
            ("set_load 4 q\n", {}, "top.sdc: no-clock: the constraints create no clock"),
            (
                CLOCK,
                {"spef": "far.spef"},
                "far.spef:14: wire-load: 1 nets such as n2 have 3.5e+03 fF, and the tables end at 10 fF",
            ),
            (CLOCK + "current_design chip\n", {}, "top.sdc:3: current-design: current_design chip: the design is top"),
        ):
            with self.subTest(said):
                self.write({"top.sdc": sdc})
                status, errors = self.run_import(**changed)
                self.assertEqual(status, 2, errors)
                self.assertIn(said, errors)


STAGE_SPEF = """*SPEF "IEEE 1481-1998"
*DESIGN "leaf"
*DIVIDER /
*DELIMITER :
*BUS_DELIMITER [ ]
*T_UNIT 1 PS
*C_UNIT 1 PF
*R_UNIT 1 KOHM
*L_UNIT 1 HENRY
*NAME_MAP
*1 a
*2 b0
*3 m
*4 b1
*D_NET *1 0.003
*CONN
*P a I
*I *2:A I
*CAP
1 *1:1 0.001
2 *2:A 0.002
*RES
1 a *1:1 0.02
2 *1:1 *2:A 0.03
*END
*D_NET *3 0.0045
*END
"""
TOP_SPEF = (
    STAGE_SPEF.partition("*NAME_MAP")[0].replace("PF", "FF").replace("KOHM", "OHM").replace("leaf", "top")
    + """*D_NET d 2
*CONN
*P d I
*I u1:a I
*CAP
1 d:7 0.5
2 u1:a 1.5
3 d:7 other:1 0.25
*RES
1 d d:7 10
2 d:7 u1:a 15
*END
"""
)
LEAVES = """module leaf (input a, output y);
 wire m;
 BUF b0 (.A(a), .Z(m));
 BUF b1 (.A(m), .Z(y));
endmodule
module top (clk, d, q);
 input clk, d; output q; wire n1;
 leaf u1 (.a(d), .y(n1));
 DFF r1 (.D(n1), .CK(clk), .Q(q));
endmodule
"""


def rows_of(text, net):
    """The rows of a net in a file of parasitics, with the names that its map has."""
    names = dict(re.findall(r"^\*(\d+) (\S+)$", text.partition("*D_NET")[0], re.M))
    nets = [
        it.partition("*END")[0]
        for it in re.sub(r"\*(\d+)\b", lambda it: names.get(it[1], it[0]), text).split("*D_NET ")[1:]
    ]
    found = next(it for it in nets if it.split()[0] == net)
    return [line.split() for line in found.splitlines()[1:] if not line.startswith("*")], found.split()[1]


class Parasitics(Project):
    def test_one_file_is_written_as_it_is(self):
        self.write({"top.spef": common.SPEF})
        self.assert_noted(
            "top.spef: 4 of 5 driven nets have no parasitics here, such as clk, d, q, n1", spef="top.spef"
        )
        rows, total = rows_of(self.made("parasitics.spef"), "n2")
        self.assertEqual(
            rows, [["1", "n2:1", "2.5"], ["2", "r2:D", "1"], ["1", "g1:Z", "n2:1", "100"], ["2", "n2:1", "r2:D", "50"]]
        )
        self.assertEqual(total, "3.5")

    @needs_yosys
    def test_blocks_are_joined_to_the_nets_above(self):
        self.write({"top.v": LEAVES, "top.spef": TOP_SPEF, "leaf.spef": STAGE_SPEF})
        self.assert_noted(
            "top.spef: 3 of 5 driven nets", top="top", spef=["top.spef", {"file": "leaf.spef", "instance": "u1"}]
        )
        rows, total = rows_of(self.made("parasitics.spef"), "d")
        end = next(row[2] for row in rows if row[-1] == "15")
        self.assertRegex(end, r"d:\d+")
        self.assertEqual(sorted(row[2] for row in rows if len(row) == 3), ["0.25", "0.5", "1", "1.5", "2"])
        self.assertEqual(total, "5.25")
        ress = {frozenset(row[1:3]): row[3] for row in rows if len(row) == 4}
        inner = {value: set(key) - {"d", "u1/b0:A", end} for key, value in ress.items()}
        self.assertEqual(ress[frozenset({"d", *inner["10"]})], "10")
        self.assertEqual(ress[frozenset({end, *inner["20"]})], "20")
        self.assertEqual(ress[frozenset({"u1/b0:A", *inner["30"]})], "30")
        self.assertEqual(rows_of(self.made("parasitics.spef"), "u1/m"), ([], "4.5"))

    @needs_yosys
    def test_a_level_without_wires(self):
        self.write({"top.v": LEAVES, "leaf.spef": STAGE_SPEF})
        self.assert_noted(
            "leaf.spef: 3 of 5 driven nets", top="top", spef=[{"file": "leaf.spef", "instance": "u1"}]
        )
        rows, _ = rows_of(self.made("parasitics.spef"), "d")
        self.assertEqual(sorted(row[3] for row in rows if len(row) == 4), ["0", "20", "30"])
        self.assertIn("spef-join", self.kinds("changed"))

    @needs_yosys
    def test_the_parasitics_of_a_block_have_its_instance(self):
        self.write({"top.v": LEAVES, "top.spef": TOP_SPEF, "leaf.spef": STAGE_SPEF})
        status, errors = self.run_import(top="top", spef=["top.spef", "leaf.spef"])
        self.assertEqual(status, 2, errors)
        self.assertTrue(
            errors.startswith(
                "import: leaf.spef:2: spef-design: *DESIGN is leaf, as the block u1 is, and the project names no "
                "instance\n"
            ),
            errors,
        )

    def test_a_file_in_the_place_of_another(self):
        self.write({"top.spef": common.SPEF})
        for key, file, kind in (
            ("library", "top.v", "a netlist (Verilog)"),
            ("netlist", "cells.lib", "a library (Liberty)"),
            ("sdc", "top.v", "a netlist (Verilog)"),
            ("sdc", "top.spef", "parasitics (SPEF)"),
            ("spef", "top.sdc", "constraints (SDC)"),
        ):
            with self.subTest(key):
                named = "a library" if key == "library" else key
                self.assertEqual(
                    self.run_import(**{key: file}),
                    (2, f"import: {file}: the file looks like {kind}, and the project names it as {named}\n"),
                )

    def test_what_is_wrong_with_parasitics(self):
        for old, new, said in (
            (
                "*1 n2",
                "*1 n9",
                "top.spef:14: spef-net: 1 of 1 nets are not in the netlist: n9; is this the SPEF of this design?",
            ),
            ("*3 r2", "*3 r1", "top.spef:14: spef-pin: the parasitics of n2 name r1/D, which is not on the net"),
            ("2 *1:1 *3:D 50", "2 *1:1 *3:D 50\n3 *2:Z *3:D 9", "spef-loop: the resistors of n2 form a loop"),
            ("2 *1:1 *3:D 50\n", "", "spef-tree: the resistors of n2 do not reach r2/D"),
            ("*END", "*INDUC\n1 *1:1 3\n*END", "inductance: the inductances of n2 are not read"),
        ):
            with self.subTest(new):
                self.write({"top.spef": common.SPEF.replace(old, new)})
                status, errors = self.run_import(spef="top.spef")
                self.assertEqual(status, 2, errors)
                self.assertIn(said, errors)

    def test_files_that_cannot_be_read(self):
        for old, new, said in (
            ("1 FF", "1 XF", "a unit that is not read"),
            ("*1:1 2.5", "*1:1 x", "is of this net, or a value that is no number"),
            ("*1:1 2.5", "*1:1 -2.5", "-2.5 is no value of parasitics"),
            ("*D_NET *1", "*D_NET *9", "*9 is not in the *NAME_MAP"),
            ("*END", "", "the net n2 has no *END"),
            ("*D_NET", "*R_NET", "*R_NET is not read"),
            ("*DELIMITER :\n", "", "the header lacks *DELIMITER, *C_UNIT or *R_UNIT"),
            ('*SPEF "', '*SPFE "', "does not begin with *SPEF"),
        ):
            with self.subTest(new):
                self.write({"top.spef": common.SPEF.replace(old, new)})
                status, errors = self.run_import(spef="top.spef")
                self.assertEqual(status, 2, errors)
                self.assertIn("import: top.spef:", errors)
                self.assertIn(said, errors)
        status, errors = self.run_import(spef=[{"file": "top.spef", "instance": "u9"}])
        self.assertIn("there is no block u9 in the netlist", errors)
