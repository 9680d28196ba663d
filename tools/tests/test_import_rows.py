"""What stands in constraints that tools and people write, kind by kind: each is exact, that is all endpoints are as in
OpenSTA on the original, or it is refused with file and line and nothing is written."""
import contextlib
import io
import pathlib
import re
import shutil
import tempfile
import unittest

import common
from lizdrog_dev import import_check, import_designs
from lizdrog_tools.importing import command

CLOCKS = """create_clock -name clk -period 600 [get_ports clk]
create_clock -name clk2 -period 600 -waveform {100 400} [get_ports clk2]
set_propagated_clock [all_clocks]
"""
DELAYS = """set_input_delay 50 -clock clk [get_ports {a[*] c d sel}]
set_input_delay 60 -clock clk2 [get_ports b[*]]
set_output_delay 70 -clock clk [get_ports {y[*] z w}]
set_input_transition 40 [all_inputs]
"""
BASE = CLOCKS + DELAYS
# Variables, expr, foreach, list, all_inputs, all_outputs, patterns and remove_from_collection, which OpenSTA lacks.
TCL = (
    CLOCKS
    + """if {[info commands remove_from_collection] eq ""} {
  proc remove_from_collection {from gone} {
    set names {}
    foreach it [concat {*}$gone] { lappend names [get_full_name $it] }
    set kept {}
    foreach it $from { if {[lsearch -exact $names [get_full_name $it]] < 0} { lappend kept $it } }
    return $kept
  }
}
set PERIOD 600.0
set others [list [get_ports clk] [get_ports clk2] [get_ports b*]]
foreach {side share} {max 0.15 min 0.05} {
  set_input_delay -$side [expr $PERIOD * $share] -clock clk [remove_from_collection [all_inputs] $others]
}
set_input_delay 60 -clock clk2 [get_ports b*]
set_output_delay [expr {$PERIOD / 8}] -clock clk [all_outputs]
foreach port {c d} { set_input_transition 33 [get_ports $port] }
"""
)
VECTORS = CLOCKS + DELAYS.replace("a[*]", "a").replace("b[*]", "b").replace("{y[*] z w}", "{y z w}")
# For a netlist whose registers all have this clock.
ONE_CLOCK = """create_clock -name clk -period 600 [get_ports clk]
create_clock -name io -period 600
set_propagated_clock [get_clocks clk]
set_clock_latency -source 45 [get_clocks clk]
set_input_delay 50 -clock clk [get_ports {a c d sel}]
set_input_delay 35 -clock io [get_ports b]
set_output_delay 70 -clock io [get_ports {y z w}]
"""
# Each by its name: the constraints, and the kind of the refusal of its last line, or none where it is exact.
ROWS = {
    "variables, control, lists, patterns": (TCL, None),
    "a vector by its name": (VECTORS, None),
    "-add_delay of the port's one clock": (
        BASE + "set_input_delay -max 95 -clock clk -add_delay [get_ports c]\n"
        "set_output_delay 90 -clock clk -add_delay [get_ports z]\n",
        None,
    ),
    "-add_delay of a second clock at an input": (
        BASE + "set_input_delay 20 -clock clk2 -add_delay [get_ports c]\n",
        "add-delay",
    ),
    "-add_delay of a second clock at an output": (
        BASE + "set_output_delay 20 -clock clk2 -add_delay [get_ports z]\n",
        "add-delay",
    ),
    "set_clock_groups": (BASE + "set_clock_groups -asynchronous -group {clk} -group {clk2}\n", None),
    "set_clock_latency -source of a single clock": (ONE_CLOCK, None),
    "set_clock_latency -source of one of two clocks": (
        BASE + "set_clock_latency -source 45 [get_clocks clk2]\n",
        "latency",
    ),
    "create_generated_clock": (
        BASE + "create_generated_clock -name half -source [get_ports clk] -divide_by 2 [get_pins r1/Q]\n",
        "create_generated_clock",
    ),
    "set_driving_cell": (BASE + "set_driving_cell -lib_cell BUF [get_ports {b c}]\n", None),
    "set_driving_cell at a clock's port": (
        BASE + "set_driving_cell -lib_cell BUF [get_ports clk]\n",
        "driving-clock",
    ),
    "set_case_analysis": (BASE + "set_case_analysis 0 [get_ports sel]\n", None),
    "set_disable_timing": (BASE + "set_disable_timing -from A -to Y [get_cells g2]\n", None),
    "set_disable_timing of a tested pin": (BASE + "set_disable_timing [get_pins r2/D]\n", "disable-end"),
    "-through": (BASE + "set_false_path -through [get_pins g5/A]\n", None),
    "-through beside a clock": (BASE + "set_false_path -from clk -through [get_pins g1/A]\n", "through"),
    "set_max_delay": (BASE + "set_max_delay 200 -from [get_ports c]\n", "set_max_delay"),
    "set_min_delay": (BASE + "set_min_delay 20 -to [get_ports z]\n", "set_min_delay"),
    "a derate of a cell": (BASE + "set_timing_derate -late 1.1 [get_cells g1]\n", "derate-objects"),
    "an uncertainty between clocks": (
        BASE + "set_clock_uncertainty -setup 31 -from clk -to clk2\n"
        "set_clock_uncertainty -setup 31 -from clk2 -to clk2\n",
        None,
    ),
    "an uncertainty between clocks, and another from others": (
        BASE + "set_clock_uncertainty -setup 31 -from clk -to clk2\n",
        "uncertainty",
    ),
}
EXACT = {name: text for name, (text, kind) in ROWS.items() if kind is None}
REFUSED = {name: (text, kind) for name, (text, kind) in ROWS.items() if kind is not None}


class Rows(unittest.TestCase):
    def setUp(self):
        self.folder = pathlib.Path(tempfile.mkdtemp())
        self.addCleanup(shutil.rmtree, self.folder)
        self.case = import_designs.modes(self.folder)

    def test_refused_with_file_and_line(self):
        for name, (text, kind) in REFUSED.items():
            with self.subTest(name):
                (self.folder / self.case.sdc).write_text(text)
                said, errors = io.StringIO(), io.StringIO()
                with contextlib.redirect_stdout(said), contextlib.redirect_stderr(errors):
                    status = command.called(["-o", f"{self.folder}/made", f"{self.folder}/{self.case.project}"])
                self.assertEqual((status, said.getvalue()), (2, ""), errors.getvalue())
                place = re.escape(f"{self.folder}/{self.case.sdc}")
                found = re.findall(rf"^import: {place}:(\d+): ([\w-]+): ", errors.getvalue(), re.M)
                self.assertEqual(found, [(str(len(text.splitlines())), kind)])
                self.assertFalse((self.folder / "made").exists())

    @unittest.skipUnless(shutil.which("sta"), "no sta is here: apt-get install opensta")
    @common.needs_program
    def test_exact(self):
        for name, text in EXACT.items():
            with self.subTest(name):
                clocked = import_designs.MODES_V.replace(".CK(ckx)", ".CK(ck0)")
                netlist = clocked if text == ONE_CLOCK else import_designs.MODES_V
                (self.folder / self.case.netlist[0]).write_text(netlist)
                (self.folder / self.case.sdc).write_text(text)
                theirs = import_check.slacks_of_opensta(self.case)
                ours = import_check.slacks_of_lizdrog(import_check.imported(self.case), common.PROGRAM)
                self.assertGreater(len(theirs), 10)
                self.assertEqual(import_check.differing(theirs, ours), [])
