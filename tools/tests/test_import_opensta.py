"""The importer against OpenSTA, construct by construct: OpenSTA reads the constraints as they are, the program what is
imported of them."""
import pathlib
import shutil
import tempfile
import unittest

import common
from lizdrog_dev import import_check, import_designs

needs_opensta = unittest.skipUnless(shutil.which("sta"), "no sta is here: apt-get install opensta")
IDEAL = """create_clock -name clk -period 600 [get_ports clk]
create_clock -name clk2 -period 600 -waveform {100 400} [get_ports clk2]
set_input_delay 50 -clock clk [get_ports {a[*] c d sel}]
set_input_delay 30 -min -clock clk [get_ports {a[*] c d sel}]
set_input_delay 60 -clock clk2 [get_ports b]
set_output_delay 70 -clock clk [get_ports {y z w}]
set_output_delay -min -10 -clock clk [get_ports {y z w}]
set_input_transition 40 [all_inputs]
set_load 4 [all_outputs]
"""
BASE = IDEAL + "set_propagated_clock [all_clocks]\n"
VIRTUAL = "create_clock -name io -period 600\n"
CASES = {
    "nothing more": "",
    "uncertainties": "set_clock_uncertainty 20 [all_clocks]\nset_clock_uncertainty -hold 7 [get_clocks clk]\n",
    "an uncertainty between clocks": "set_clock_uncertainty -setup 31 -from clk -to clk2\nset_clock_uncertainty "
    "-setup 31 -from clk2 -to clk2\n",
    "a latency of a virtual clock": VIRTUAL
    + "set_clock_latency 33 [get_clocks io]\nset_input_delay 20 -clock io [get_ports c]\n"
    "set_output_delay 40 -clock io [get_ports z]\n",
    "a latency of all clocks": VIRTUAL
    + "set_clock_latency -source 25 [all_clocks]\nset_clock_latency -source 11 [get_clocks io]\n"
    "set_input_delay 20 -clock io [get_ports c]\n"
    "set_output_delay -max 40 -clock io [get_ports z]\nset_output_delay -min 10 -clock io [get_ports z]\n",
    "a latency that is included": "set_clock_latency -source 25 [all_clocks]\nset_input_delay 20 -clock clk "
    "-source_latency_included [get_ports c]\n"
    "set_output_delay 40 -clock clk -source_latency_included [get_ports z]\n",
    "delays beside others": "set_input_delay 90 -clock clk -add_delay [get_ports c]\nset_input_delay 10 -clock clk "
    "-add_delay [get_ports d]\n"
    "set_output_delay 20 -max -add_delay -clock clk [get_ports z]\n",
    "a delay in the place of others": "set_input_delay -max 20 -clock clk2 [get_ports c]\nset_input_delay -min 10 "
    "-clock clk2 [get_ports c]\n",
    "clock groups": "set_clock_groups -asynchronous -group clk -group clk2\n",
    "a clock group alone": "set_clock_groups -logically_exclusive -group [get_clocks clk2]\n",
    "false paths": "set_false_path -from [list [get_clocks clk2] [get_ports a]] -to [get_cells r4]\nset_false_path "
    "-hold -to [get_pins r2/D]\n",
    "false paths of registers": "set_false_path -from [all_registers -clock_pins] -to [all_registers -data_pins "
    "-clock clk2]\n",
    "multicycles": "set_multicycle_path 2 -from [get_clocks clk] -to [get_cells r2]\nset_multicycle_path 3 -setup "
    "-from [get_clocks clk]\nset_multicycle_path -hold 1 -from [get_cells r2]\n",
    "multicycles, special ones first": "set_multicycle_path 4 -from [get_cells r1]\nset_multicycle_path 2 -to "
    "[get_cells r2]\nset_multicycle_path 3 -to [get_clocks clk]\n",
    "multicycles of equal rank": "set_multicycle_path 2 -from [get_cells r1]\nset_multicycle_path 3 -from [get_cells "
    "{r1 r2}]\n",
    "multicycle of the start": "set_multicycle_path 2 -setup -start -from [get_clocks clk2] -to [get_clocks clk]\n",
    "a path through a gate": "set_false_path -through [get_pins g2/Y]\n",
    "a path through a net": "set_multicycle_path 2 -through [get_nets n5]\n",
    "a path through two gates": "set_false_path -setup -through [get_pins g1/B] -through [get_pins g4/A]\n",
    "a path through a register's output": "set_false_path -through [get_pins r2/QN]\n",
    "a path from a start through a gate": "set_false_path -from [get_cells ra_1] -through [get_pins x1/A]\n",
    "a path through a gate to an end": "set_false_path -through [get_pins g3/A] -to [get_cells r2]\n",
    "derates": "set_timing_derate -early 0.9\nset_timing_derate -late 1.1 -cell_delay\n",
    "a constant that selects": "set_case_analysis 0 [get_ports sel]\n",
    "the other constant": "set_case_analysis 1 [get_ports sel]\n",
    "a constant at an exclusive or": "set_case_analysis 1 c\n",
    "a constant at an input pin": "set_case_analysis 0 [get_pins g1/B]\n",
    "a constant at an output pin": "set_case_analysis 1 [get_pins g1/Y]\n",
    "a constant at a register": "set_case_analysis 1 [get_pins r2/QN]\n",
    "a constant up to ports": "set_case_analysis 1 [get_pins r4/Q]\n",
    "arcs of an instance": "set_disable_timing -from A -to Y [get_cells g3]\n",
    "an instance": "set_disable_timing [get_cells g4]\n",
    "the test of a register": "set_disable_timing -from CK -to D [get_cells r2]\n",
    "an input pin": "set_disable_timing [get_pins g2/B]\n",
    "an output pin": "set_disable_timing [get_pins g5/Y]\n",
    "a library cell": "set_disable_timing -from B -to Y [get_lib_cells */XOR2]\n",
    "an input port": "set_disable_timing [get_ports c]\n",
    "a driving cell": "set_driving_cell -lib_cell BUF [get_ports {a c}]\nset_driving_cell -lib_cell INV "
    "-input_transition_rise 33 -input_transition_fall 44 [get_ports d]\n",
    "a driving cell behind a transition": "set_driving_cell -lib_cell BUF [get_ports c]\n",
    "a driving cell by its pins": "set_driving_cell -lib_cell NAND2 -from_pin A -pin Y [get_ports {a d}]\n",
    "a driving cell with derates": "set_driving_cell -lib_cell BUF [get_ports {a c}]\nset_timing_derate -early "
    "0.9\nset_timing_derate -late 1.2\n",
}
# OpenSTA gives ideal clocks a credit for the delays of their buffers, which they do not have; so it is asked for none.
IDEAL_CASES = {
    "an ideal clock": "",
    "an ideal clock with a transition": "set_clock_transition 35 [all_clocks]\nset_clock_transition -min -rise 12 "
    "[get_clocks clk]\n",
    "an ideal clock with latencies": "set_clock_latency 80 [all_clocks]\nset_clock_latency -source 20 [all_clocks]\n",
    "an ideal clock beside a propagated one": "set_propagated_clock [get_clocks clk2]\n",
    "an ideal clock that is selected": "set_case_analysis 0 [get_ports sel]\nset_clock_uncertainty -setup 12 "
    "[all_clocks]\n",
}
# What is asked of fan-ins and fan-outs; the same constraints write the names that they get, in both timers.
TELL = """proc tell {found} {
  set names {}
  foreach it $found { lappend names [get_full_name $it] }
  set out [open names a]
  puts $out [lsort -unique $names]
  close $out
}
"""
FANS = {
    "modes": """fanin -to [get_pins r2/D]
fanin -to [get_pins r2/D] -startpoints_only
fanin -to [get_ports z]
fanin -to [get_ports {z w}] -startpoints_only
fanin -to [get_pins {r2/Q r2/CK}]
fanin -to [get_nets n3]
fanin -to [get_nets n3] -trace_arcs timing -only_cells
fanin -to [get_ports z] -trace_arcs all
fanout -from [get_pins r1/Q]
fanout -from [get_pins r1/Q] -endpoints_only
fanout -from [get_ports clk]
fanout -from [get_ports clk] -endpoints_only
fanout -from [get_pins {r2/CK r2/D}]
fanout -from [get_nets n1]
fanout -from [get_ports sel] -only_cells
fanout -from [get_pins g8/A] -endpoints_only
fanout -from [get_pins r4/Q] -trace_arcs all""",
    "blocks": """fanin -flat -to [get_ports out[1]]
fanin -flat -to [get_ports par]
fanin -flat -to [get_pins u2/r1/D] -startpoints_only
fanout -flat -from [get_ports clk]
fanout -flat -from [get_ports in[1]] -endpoints_only""",
    "macro": """fanin -to [get_ports ok]
fanin -to [get_pins ram/D[1]] -startpoints_only
fanout -from [get_ports clk] -endpoints_only
fanout -from [get_pins ram/CK]
fanin -to [get_pins ram/Q[1]]""",
}
LIVE = (
    "",
    "set_case_analysis 0 [get_ports sel]\nset_disable_timing -from A -to Y [get_cells g1]\n",
    "set_disable_timing [get_pins g4/A]\nset_disable_timing [get_ports c]\nset_case_analysis 1 [get_pins g1/B]\n",
    "set_disable_timing -from B -to Y [get_lib_cells */XOR2]\nset_disable_timing [get_cells g4]\n",
)


@needs_opensta
@unittest.skipUnless(shutil.which("yosys"), "no yosys is here: apt-get install yosys")
class FansAgainstOpenSta(unittest.TestCase):
    def setUp(self):
        self.folder = pathlib.Path(tempfile.mkdtemp())
        self.addCleanup(shutil.rmtree, self.folder)

    def names(self, design, more):
        """The names that each timer gets for each question about a design."""
        case = import_designs.MAKERS[design](self.folder / design)
        told = case.folder / "names"
        asked = "".join(f"tell [get_{it}]\n" for it in FANS[design].splitlines())
        sdc = case.folder / case.sdc
        base, tell = BASE if design == "modes" else sdc.read_text(), TELL.replace("names a", f"{told} a")
        sdc.write_text(base + more + tell + asked)
        import_check.opensta(case, "")
        theirs = told.read_text().splitlines()
        told.unlink()
        import_check.imported(case)
        ours = told.read_text().splitlines()
        shutil.rmtree(case.folder)
        # Of cells OpenSTA also gives the design itself, which has no name.
        return [it.removeprefix("{}").strip() for it in theirs], ours

    def test_fans(self):
        for design, asked in FANS.items():
            for more in LIVE if design == "modes" else LIVE[:1]:
                theirs, ours = self.names(design, more)
                self.assertEqual(len(theirs), len(asked.splitlines()))
                self.assertGreater(max(map(len, theirs)), 50)
                for question, one, other in zip(asked.splitlines(), theirs, ours, strict=True):
                    with self.subTest(question, more=more):
                        self.assertEqual(one, other)


@needs_opensta
@common.needs_program
class AgainstOpenSta(unittest.TestCase):
    def setUp(self):
        self.folder = pathlib.Path(tempfile.mkdtemp())
        self.addCleanup(shutil.rmtree, self.folder)
        self.case = import_designs.modes(self.folder)

    def check(self, text, has_credit=True):
        """All endpoints of both, within the tolerance; there are some."""
        (self.folder / self.case.sdc).write_text(text)
        theirs = import_check.slacks_of_opensta(self.case, has_credit)
        ours = import_check.slacks_of_lizdrog(import_check.imported(self.case), common.PROGRAM)
        self.assertGreater(len(theirs), 10)
        self.assertEqual(theirs.keys(), ours.keys())
        self.assertEqual(
            [(it, theirs[it], ours[it]) for it in theirs if abs(theirs[it] - ours[it]) > import_check.TOLERANCE], []
        )
        return theirs

    def test_each_construct(self):
        plain = self.check(BASE)
        for name, text in CASES.items():
            with self.subTest(name):
                self.assertNotEqual(self.check(BASE + text), plain if text else None)

    def test_ideal_clocks(self):
        for name, text in IDEAL_CASES.items():
            with self.subTest(name):
                self.check(IDEAL + text, has_credit=False)

    def test_the_designs_of_the_benchmark(self):
        for name, make in import_designs.MAKERS.items():
            with self.subTest(name):
                self.case = make(self.folder / name)
                theirs = import_check.slacks_of_opensta(self.case)
                ours = import_check.slacks_of_lizdrog(import_check.imported(self.case), common.PROGRAM)
                self.assertTrue(import_check.agrees(theirs, ours))
