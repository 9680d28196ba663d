"""The importer: what comes of constraints, command by command."""
import shutil
import unittest
import unittest.mock

import common
from import_cases import CLOCK, Project
from lizdrog_dev import import_designs
from lizdrog_tools.importing import tcl

NETLIST = """module top (clk, d, e, q, v);
 input clk, e; input [2:0] d; output q; output [1:0] v; wire n1, n2, n3;
 DFF r1 (.D(d[0]), .CK(clk), .Q(n1));
 BUF g1 (.A(n1), .Z(n2));
 DFF \\core/r2 (.D(n2), .CK(clk), .Q(q));
 DFF \\core/r3 (.D(e), .CK(clk), .Q(n3));
 BUF g2 (.A(n3), .Z(v[0]));
 BUF g3 (.A(d[2]), .Z(v[1]));
endmodule
"""


def names(line):
    """The words of a line without their order."""
    return sorted(line.replace("{", " ").replace("}", " ").split())


VIRTUAL = "create_clock -name io -period 50\n"


class Constraints(Project):
    def setUp(self):
        super().setUp()
        self.write({"top.v": NETLIST})

    def ports_of(self, getter):
        """The ports that a command gives, by the line of a load or a slew."""
        lines = self.sdc_lines(f"set_input_transition 7 {getter}\n")
        return lines[0].partition("{")[2].removesuffix("}]").split() if lines else []


class Objects(Constraints):
    def test_ports(self):
        for getter, ports in (
            ("[get_ports d]", "d[2] d[1] d[0]"),
            ("[get_ports d[*]]", "d[2] d[1] d[0]"),
            ("{d[1]}", "d[1]"),
            ("[get_ports {e d[0]}]", "e d[0]"),
            ("[get_ports -regexp {d.[01].}]", "d[1] d[0]"),
            ("[get_ports -filter {direction == in && full_name =~ d*}]", "d[2] d[1] d[0]"),
            ("[get_ports -filter {direction == out || name == e} *]", "e"),
            ("[all_inputs]", "clk e d[2] d[1] d[0]"),
            ("[all_inputs -no_clocks]", "e d[2] d[1] d[0]"),
            ("[remove_from_collection [all_inputs] [get_ports clk]]", "e d[2] d[1] d[0]"),
            ("[remove_from_collection [all_inputs] {clk d[0]}]", "e d[2] d[1]"),
            ("[add_to_collection [get_ports e] [get_ports d[0]]]", "e d[0]"),
            ("[index_collection [get_ports d] 1]", "d[1]"),
            ("[filter_collection [all_inputs] {name !~ d*}]", "clk e"),
            ("[get_ports -of_objects [get_nets d[1]]]", "d[1]"),
            ("[list [get_ports e] [get_ports clk]]", "e clk"),
            ("[get_ports -nocase E]", "e"),
            ("[lindex [get_ports d] 0]", "d[2]"),
            ("[get_ports [get_object_name [get_ports e]]]", "e"),
            ("[sort_collection [get_ports d] full_name]", "d[0] d[1] d[2]"),
        ):
            with self.subTest(getter):
                self.assertEqual(sorted(self.ports_of(getter)), sorted(ports.split()))

    def false_path(self, text):
        return self.sdc_lines(f"set_false_path {text}\n")

    def test_cells_and_pins(self):
        for words, line in (
            ("-from [get_cells core/*]", "-from [get_cells {core/r2 core/r3}]"),
            ("-to [get_cells -hierarchical *r2]", "-to [get_cells {core/r2}]"),
            ("-from [get_pins core/r*/CK]", "-from [get_pins {core/r2/CK core/r3/CK}]"),
            ("-to [get_pins -of_objects [get_cells r1] -filter {lib_pin_name == D}]", "-to [get_pins {r1/D}]"),
            ("-from [all_registers -clock_pins -clock clk]", "-from [get_pins {r1/CK core/r2/CK core/r3/CK}]"),
            ("-to [all_registers -data_pins]", "-to [get_pins {r1/D core/r2/D core/r3/D}]"),
            ("-to [all_registers]", "-to [get_cells {r1 core/r2 core/r3}]"),
            ("-from r1", "-from [get_cells {r1}]"),
            ("-to core/r2/D", "-to [get_pins {core/r2/D}]"),
            ("-to [get_cells -filter {ref_name == DFF && is_sequential}]", "-to [get_cells {r1 core/r2 core/r3}]"),
            ("-to [get_cells -of_objects [get_pins {core/r3/D}]]", "-to [get_cells {core/r3}]"),
            ("-from clk", "-from [get_clocks {clk}]"),
        ):
            with self.subTest(words):
                self.assertEqual(self.false_path(words), [f"set_false_path {line}"])

    def test_fans(self):
        """Each answer follows from the definition: back to ports and clock pins, on to ports and data pins."""
        for words, line in (
            ("-to [all_fanin -to core/r2/D]", "-to [get_pins {core/r2/D g1/Z g1/A r1/Q r1/CK}]"),
            ("-from [all_fanin -to core/r2/D -startpoints_only -flat]", "-from [get_pins {r1/CK}]"),
            ("-to [all_fanout -from r1/Q -endpoints_only]", "-to [get_pins {core/r2/D}]"),
            ("-from [all_fanin -to v[0] -startpoints_only]", "-from [get_pins {core/r3/CK}]"),
            ("-from [all_fanin -to [get_nets v[1]] -startpoints_only]", "-from [get_ports {d[2]}]"),
            ("-to [all_fanin -to core/r2/D -only_cells]", "-to [get_cells {core/r2 g1 r1}]"),
            ("-from [all_fanout -clock_tree -endpoints_only]", "-from [get_pins {core/r3/CK core/r2/CK r1/CK}]"),
        ):
            with self.subTest(words):
                found = self.false_path(words)
                self.assertEqual([names(it) for it in found], [names(f"set_false_path {line}")])

    def test_a_fan_by_constants(self):
        case = "set_case_analysis 1 e\n"
        asked = "set_false_path -from [all_fanin -to v[0] -startpoints_only {}] -to v[0]\n"
        self.assertIn("[get_pins {core/r3/CK}]", self.sdc_lines(case + asked.format(""))[0])
        stopped = "set_case_analysis 1 core/r3/Q\n"
        self.assertIn("-from [get_pins {g2/Z}]", self.sdc_lines(stopped + asked.format(""))[0])
        self.assertIn("[get_pins {core/r3/CK}]", self.sdc_lines(stopped + asked.format("-trace_arcs all"))[0])

    def test_fans_that_are_not_read(self):
        for text, said in (
            ("all_fanin -to v[0] -levels 2", "all_fanin -levels is not read"),
            ("all_fanout -from e -pin_levels 2", "all_fanout -pin_levels is not read"),
            ("all_fanin -to v[0] -trace_arcs enabled", "all_fanin -trace_arcs takes one of timing, all"),
            ("all_fanin -from e", "all_fanin -from is not read"),
            ("all_fanout", "all_fanout needs -from"),
            ("all_inputs -edge_triggered", "all_inputs -edge_triggered is not read"),
        ):
            with self.subTest(text):
                self.assertIn(f"import: top.sdc:4: {said}", self.refusal(f"\nset found [{text}]\n"))

    def test_ports_of_a_clock(self):
        """Those that have a delay against the clock at that line."""
        text = (
            VIRTUAL + "set_input_delay 9 -clock clk {e d[1]}\nset_input_delay 4 -clock io d[0]\n"
            "set_output_delay 3 -clock io q\n"
        )
        for getter, port in (
            ("all_inputs -clock clk", "e d[1]"),
            ("all_inputs -clock [get_clocks io]", "d[0]"),
            ("all_inputs -clock *", "e d[1] d[0]"),
        ):
            lines = self.sdc_lines(f"{text}set_input_transition 7 [{getter}]\n")
            found = next(it for it in lines if it.startswith("set_input_transition"))
            self.assertEqual(sorted(found.partition("{")[2].removesuffix("}]").split()), sorted(port.split()))
        self.assertIn("set_load 2 [get_ports {q}]", self.sdc_lines(f"{text}set_load 2 [all_outputs -clock io]\n"))
        lines = self.sdc_lines(f"set_load 2 [all_outputs -clock clk]\n{text}")
        self.assertEqual([it for it in lines if "set_load" in it], [])

    def test_an_end_of_several_kinds(self):
        lines = self.false_path(
            "-from [list [get_clocks clk] [get_ports e]] -to [list [get_pins r1/D] [get_cells core/r2]]"
        )
        self.assertEqual(
            lines,
            [
                f"set_false_path -from {one} -to {other}"
                for one in ("[get_clocks {clk}]", "[get_ports {e}]")
                for other in ("[get_pins {r1/D}]", "[get_cells {core/r2}]")
            ],
        )

    def test_what_is_not_there(self):
        self.assertIn("top.sdc:3: not-found: get_ports: there is no port x", self.refusal("set_load 3 [get_ports x]\n"))
        self.assertIn(
            "top.sdc:4: not-found: set_false_path: there is no clock or port or pin or cell",
            self.refusal("\nset_false_path -to x\n"),
        )
        for words in ("-from [get_cells x*]", "-from [get_cells -quiet x]"):
            self.assertEqual(self.false_path(words), [])
            self.assertEqual(self.kinds("left_out_without_effect"), {"no-match", "empty-objects"})

    def test_mistakes_have_their_line(self):
        for text, line, said in (
            ("\nset_load x [all_outputs]\n", 4, "set_load: x is no number"),
            ("set_input_delay -clok clk 3 e\n", 3, "set_input_delay has no option -clok"),
            ("get_ports -filter {size > 3}\n", 3, "asks for size, which is not known"),
            ("if {1} {\n set_units -time 1h\n}\n", 4, "set_units -time 1h is not read"),
            ("proc p {} {\n  create_clock -name x\n}\n\np\n", 4, "create_clock needs a -period"),
            ("set x {\n", 3, "missing close-brace"),
            ("foreach p $nothing {}\n", 3, 'can\'t read "nothing": no such variable'),
            ("get_cells -of_objects [get_clocks clk]\n", 3, "-of_objects of a clock gives no cell"),
            ("index_collection [get_ports d] 3\n", 3, "the collection has 3 objects"),
            ("get_ports -regexp {(}\n", 3, "is no regular expression"),
            ("source gone.tcl\n", 3, "source: there is no file gone.tcl"),
            ("set_clock_uncertainty 3 -from clk\n", 3, "set_clock_uncertainty takes -from and -to together"),
            ("set_clock_uncertainty 3\n", 3, "set_clock_uncertainty needs clocks"),
            ("set_clock_latency 3\n", 3, "set_clock_latency needs clocks"),
            ("set_propagated_clock\n", 3, "set_propagated_clock needs clocks"),
            ("set_clock_groups -asynchronous\n", 3, "set_clock_groups needs a -group"),
            ("set_driving_cell -library small e\n", 3, "set_driving_cell needs a -lib_cell"),
            ("set_case_analysis 0\n", 3, "set_case_analysis needs ports or pins"),
            ("set_disable_timing\n", 3, "set_disable_timing needs objects"),
            ("set_false_path\n", 3, "set_false_path needs -from, -to or -through"),
            ("set_multicycle_path 2 -hold\n", 3, "set_multicycle_path needs -from, -to or -through"),
            (VIRTUAL + "set_input_delay 3 -clock [all_clocks] e\n", 4, "-clock takes one clock, and these are 2"),
        ):
            with self.subTest(text):
                self.write({"top.sdc": CLOCK + text})
                status, errors = self.run_import()
                self.assertEqual(status, 2)
                self.assertIn(f"import: top.sdc:{line}: ", errors)
                self.assertIn(said, errors)


class Tcl(Constraints):
    TEXT = """set period 80.5
set names {}
foreach bit {0 2} { lappend names d[$bit] }
proc half {value} { return [expr {$value / 2}] }
while {[llength $names] < 3} { lappend names "e" }
if {[info exists names] && $period > 80} {
  set_input_transition [half $period] [get_ports $names]
} else { set_load 1 q }
foreach_in_collection port [get_ports d] {
  if {[get_attribute $port full_name] eq "d\\[1\\]"} { continue }
  append_to_collection kept $port
}
set_input_transition -min [expr [sizeof_collection $kept] + 0.1 + 0.2] [get_ports d[1]]; # a comment
switch -glob $period { 80* { set_load -max 2.5 [get_ports v\\[0\\]] } }
"""
    LINES = [
        "set_input_transition 40.25 [get_ports {e d[2] d[0]}]",
        "set_input_transition -min 2.3000000000000003 [get_ports {d[1]}]",
        "set_load -max 2.5 [get_ports {v[0]}]",
    ]

    def test_control_and_collections(self):
        self.assertEqual([sorted(it) for it in self.sdc_lines(self.TEXT)], [sorted(it) for it in self.LINES])

    @unittest.skipUnless(shutil.which("tclsh"), "no tclsh is here: apt-get install tcl")
    def test_both_interpreters_say_the_same(self):
        def in_python(commands, answer):
            return tcl.InPython(commands, answer)

        first = self.sdc_lines(self.TEXT)
        with unittest.mock.patch("lizdrog_tools.importing.run_sdc.find_tcl", in_python):
            try:
                self.assertEqual(self.sdc_lines(self.TEXT), first)
            except ImportError:
                self.skipTest("this Python has no tkinter")
            self.assertIn("top.sdc:4: not-found", self.refusal("\nset_load 3 [get_ports x]\n"))

    def test_files_that_are_read_by_others(self):
        self.write({"more.tcl": "set load 4\nset_load $load q\nsource last.tcl\n", "last.tcl": "\nset_max_delay 3\n"})
        self.assertIn("last.tcl:2: set_max_delay: ", self.refusal("source -echo more.tcl\n"))
        self.assertEqual(self.run_import(sdc=["top.sdc", "more.tcl"], accept=["set_max_delay"])[0], 1)
        self.assertIn("set_load 4 [get_ports {q}]", self.made("constraints.sdc"))

    def test_tcl_that_ends_by_itself(self):
        """What comes before `exit` counts, as in other tools; another end is an error."""
        self.assertEqual(self.sdc_lines("set_load 3 q\nexit\nset_load 4 q\n"), ["set_load 3 [get_ports {q}]"])
        if shutil.which("tclsh"):
            self.write({"top.sdc": CLOCK + "exit 3\n"})
            status, errors = self.run_import()
            self.assertEqual(status, 2)
            self.assertIn("import: top.sdc: tclsh ended with 3", errors)

    def test_lists(self):
        for text, words in (
            ('a {b c} "d e" f\\ g', ["a", "b c", "d e", "f g"]),
            ("{} {a {b c}}", ["", "a {b c}"]),
            ("\\{ a\\nb", ["{", "a\nb"]),
            (" ", []),
        ):
            self.assertEqual(tcl.split_list(text), words)
        for words in (["a", "b c", "{", "x\\", "", "$d[0]", '"', "é"],):
            self.assertEqual(tcl.split_list(tcl.joined(words)), words)


class Timing(Constraints):
    def test_units(self):
        self.assertEqual(
            self.sdc_lines(
                "set_units -time ns -capacitance pF\nset_load 0.0035 q\nset_input_transition 0.02 e\nset_units -time "
                "10ps\nset_input_transition -min 1 e\n"
            ),
            [
                "set_input_transition -min 10 [get_ports {e}]",
                "set_input_transition -max 20 [get_ports {e}]",
                "set_load 3.5 [get_ports {q}]",
            ],
        )

    def test_clock_groups_are_false_paths_both_ways(self):
        more = VIRTUAL + "create_clock -name x -period 60\n"
        lines = self.sdc_lines(more + "set_clock_groups -asynchronous -group clk -group {io x}\n")
        self.assertEqual(
            lines[2:],
            [
                "set_false_path -from [get_clocks {clk}] -to [get_clocks {io x}]",
                "set_false_path -from [get_clocks {io x}] -to [get_clocks {clk}]",
            ],
        )
        lines = self.sdc_lines(more + "set_clock_groups -exclusive -group io\n")
        self.assertEqual(
            lines[2:],
            [
                "set_false_path -from [get_clocks {io}] -to [get_clocks {clk x}]",
                "set_false_path -from [get_clocks {clk x}] -to [get_clocks {io}]",
            ],
        )
        self.assertEqual(
            self.sdc_lines(more + "set_clock_groups -asynchronous -allow_paths -group clk -group io\n")[2:], []
        )

    def test_delays_of_a_port(self):
        base = VIRTUAL + "set_input_delay 9 -clock clk e\n"
        self.assertEqual(
            self.sdc_lines(base + "set_input_delay 11 -clock clk -add_delay -max -rise e\n")[1:],
            [
                "set_input_delay -min -clock clk 9 [get_ports {e}]",
                "set_input_delay -max -fall -clock clk 9 [get_ports {e}]",
                "set_input_delay -max -rise -clock clk 11 [get_ports {e}]",
            ],
        )
        self.assertEqual(
            self.sdc_lines(base + "set_input_delay 4 -clock io e\n")[1:],
            ["set_input_delay -clock io 4 [get_ports {e}]"],
        )
        self.assertEqual(self.kinds("left_out_without_effect"), {"delay-replaced"})
        self.assertIn(
            "top.sdc:5: add-delay: the input e has a delay against clk, and here one against io beside it",
            self.refusal(base + "set_input_delay 4 -clock io -add_delay e\n"),
        )
        self.assertEqual(
            self.sdc_lines(
                VIRTUAL + "set_input_delay -max 9 -clock clk e\nset_input_delay -min 4 -clock io -add_delay e\n"
            )[1:],
            ["set_input_delay -max -clock clk 9 [get_ports {e}]", "set_input_delay -min -clock io 4 [get_ports {e}]"],
        )

    def test_multicycles_general_ones_first(self):
        text = (
            "set_multicycle_path 3 -to [get_cells r1]\nset_multicycle_path 2 -from [get_clocks clk]\n"
            "set_multicycle_path 4 -from [get_pins r1/CK]\nset_multicycle_path 5 -to [get_cells r1]\n"
        )
        self.assertEqual(
            self.sdc_lines(text),
            [
                "set_multicycle_path -setup 2 -from [get_clocks {clk}]",
                "set_multicycle_path -setup 5 -to [get_cells {r1}]",
                "set_multicycle_path -setup 4 -from [get_pins {r1/CK}]",
            ],
        )

    def test_latencies_move_the_delays_of_other_clocks(self):
        text = (
            VIRTUAL + "set_clock_latency -source 30 clk\nset_clock_latency 12 io\nset_input_delay 5 -clock io e\n"
            "set_output_delay 7 -clock io q\n"
        )
        self.assertEqual(
            self.sdc_lines(text)[1:],
            ["set_input_delay -clock io -13 [get_ports {e}]", "set_output_delay -clock io 25 [get_ports {q}]"],
        )
        self.assertIn(
            "top.sdc:3: latency: the clock clk has a latency of 5 ps (late rise), and another of 0 ps",
            self.refusal("set_clock_latency -source -late 5 clk\n"),
        )
        self.assertIn(
            "top.sdc:5: latency: the clock c2 has a latency of 0 ps (early rise), and another of 5 ps",
            self.refusal(
                "create_clock -name c2 -period 100 e\nset_propagated_clock c2\nset_clock_latency -source 5 clk\n"
            ),
        )

    def test_uncertainties_between_clocks(self):
        both = "set_clock_uncertainty -setup 9 -from clk -to io\nset_clock_uncertainty -setup 9 -from io -to io\n"
        self.assertIn("set_clock_uncertainty -setup 9 [get_clocks {io}]", self.sdc_lines(VIRTUAL + both))
        self.assertIn(
            "top.sdc:4: uncertainty: the setup uncertainty towards io differs by the launching clock",
            self.refusal(VIRTUAL + both.splitlines()[0] + "\n"),
        )

    def test_a_constant_takes_the_arcs(self):
        self.assertEqual(
            self.sdc_lines("set_input_delay 3 -clock clk {e d[2]}\nset_case_analysis 1 d[2]\n"),
            ["set_input_delay -clock clk 3 [get_ports {e}]"],
        )
        self.assertIn("  BUF__1 g3 (.A(d[2]), .Z(v[1]));", self.made("netlist.v"))
        cell = self.made("late.lib").partition('cell ("BUF__1")')[2].partition("  cell (")[0]
        self.assertNotIn("timing ()", cell)
        self.assertIn("timing ()", self.made("late.lib").partition('cell ("BUF")')[2].partition("  cell (")[0])

    def test_an_ideal_clock_takes_the_delays(self):
        self.write(
            {
                "top.v": NETLIST.replace("wire n1", "wire c, n1").replace(
                    " DFF r1 (.D(d[0]), .CK(clk)", " BUF cb (.A(clk), .Z(c));\n DFF r1 (.D(d[0]), .CK(c)"
                ),
                "top.sdc": CLOCK.splitlines()[0] + "\nset_clock_transition 12 clk\n",
            }
        )
        self.assertEqual(self.run_import(), (0, ""))
        self.assertIn("set_input_transition 12 [get_ports {clk}]", self.made("constraints.sdc"))
        cell = self.made("late.lib").partition('cell ("BUF__1")')[2]
        self.assertIn('cell_rise (scalar) { values ("0"); }', cell)
        self.assertIn('rise_transition (scalar) { values ("12"); }', cell)

    def test_a_driving_cell_by_its_table(self):
        # BUF at the port of e: the load is 1 fF of core/r3:D, so the slew is 5 + 20 * 1 / 10 = 7 ps, and the delay 12 -
        # 10 = 2 ps more than without a load.
        lines = self.sdc_lines("set_input_delay 20 -clock clk e\nset_driving_cell -lib_cell BUF e\n")
        self.assertEqual(
            lines, ["set_input_transition 7 [get_ports {e}]", "set_input_delay -clock clk 22 [get_ports {e}]"]
        )

    def test_a_driving_cell_behind_a_transition_counts(self):
        lines = self.sdc_lines("set_input_transition 50 e\nset_driving_cell -lib_cell BUF e\n")
        self.assertEqual(lines, ["set_input_transition 7 [get_ports {e}]"])

    def test_what_changes_slacks_is_refused(self):
        for text, kind in (
            ("create_generated_clock -name g -source clk -divide_by 2 [get_pins r1/Q]", "create_generated_clock"),
            ("set_max_delay 3 -from e", "set_max_delay"),
            ("set_min_delay 1 -to q", "set_min_delay"),
            ("set_false_path -from clk -through [get_pins g1/A]", "through"),
            ("set_false_path -rise_from clk", "set_false_path-rise_from"),
            ("set_multicycle_path 2 -fall_to q", "set_multicycle_path-fall_to"),
            ("create_clock -name c2 -period 9 [get_pins g1/Z]", "clock-target"),
            ("create_clock -name c2 -period 90 -add [get_ports clk]", "two-clocks"),
            ("create_clock -name c2 -period 90 {e d[0]}", "clock-target"),
            ("set_input_delay 3 e", "no-clock"),
            ("set_input_delay 3 -clock clk -clock_fall e", "set_input_delay-clock_fall"),
            ("set_load 3 [get_nets n1]", "set_load-net"),
            ("set_timing_derate -late 1.1 [get_cells g1]", "derate-objects"),
            ("set_timing_derate -late 1.1 -clock", "set_timing_derate-clock"),
            ("set_ideal_network n1", "set_ideal_network"),
            ("set_sense -stop_propagation -clocks clk g1/Z", "set_sense"),
            ("set_disable_timing [get_pins r1/D]", "disable-end"),
            ("set_annotated_delay -net 3", "set_annotated_delay"),
            ("no_such_command 1", "unknown-command"),
            ("current_design other", "current-design"),
            ("set_case_analysis rising e", "case-edge"),
            ("set_operating_conditions -analysis_type single", "analysis-type"),
            ("set_data_check -from r1/D -to r1/D 1", "set_data_check"),
            ("set_false_path -from [get_ports clk]", "from-clock-port"),
            ("set_driving_cell -lib_cell DFF e", "driving-cell"),
            ("set_driving_cell -lib_cell BUF e; set_input_transition 3 e", "transition-beside-drive"),
            ("create_clock -name c2 -period 90 -waveform {0 10 20 30}", "waveform"),
            ("set_clock_latency -source 3 clk; create_clock -period 100 -name c2 e", "latency"),
            ("set_input_delay 3 -clock [get_clocks x*] e", "not-found"),
            ("set_multicycle_path 0 -to q", "range"),
            ("set_multicycle_path -hold -1 -to q", "range"),
            ("set_timing_derate -late 11", "range"),
            ("set_load -3 q", "range"),
            ("set_input_transition -3 e", "range"),
        ):
            with self.subTest(text):
                self.assertIn(f"import: top.sdc:3: {kind}: ", self.refusal(text + "\n"))

    def test_what_changes_no_slack_is_listed(self):
        for text in (
            "set_max_fanout 3 [current_design]",
            "group_path -name g -to q",
            "set_dont_touch [get_cells g1]",
            "set_max_area 0",
            "set_wire_load_mode top",
            "set_disable_clock_gating_check [get_cells g1]",
            "set_operating_conditions typical",
        ):
            self.assertEqual(self.sdc_lines(text + "\n"), [], text)
            self.assertEqual([it["line"] for it in self.report()["left_out_without_effect"]], [3], text)

    def test_paths_beside_those_that_pass(self):
        """What passes a gate is told by starts and ends only where all paths between them pass it."""
        kind = import_designs.Kind("cells", 1.0)
        self.write(
            {
                "cells.lib": import_designs.standard_cells(kind),
                "top.v": "module top (input clk, d, output q);\n wire a, b, c;\n"
                " DFF r1 (.D(d), .CK(clk), .Q(a));\n"
                " BUF g1 (.A(a), .Y(b));\n AND2 g2 (.A(a), .B(b), .Y(c));\n"
                " DFF r2 (.D(c), .CK(clk), .Q(q));\nendmodule\n",
            }
        )
        clock = CLOCK.replace("100", "1000")
        for pin, line in (
            ("g2/Y", "set_false_path -from [get_pins {r1/CK}] -to [get_pins {r2/D}]"),
            ("g1/A", None),
            ("g2/B", None),
        ):
            self.write({"top.sdc": f"{clock}set_false_path -through [get_pins {pin}]\n"})
            status, errors = self.run_import()
            self.assertEqual(status, 0 if line else 2)
            if line:
                self.assertIn(line, self.made("constraints.sdc").splitlines())
            else:
                self.assertIn("top.sdc:3: through: -through: other paths lead to r2/D from the same starts", errors)

    def test_a_slew_in_another_unit_has_its_line(self):
        self.write({"cells.lib": import_designs.standard_cells(import_designs.Kind("cells", 1.0))})
        self.write({"top.v": NETLIST.replace(".Z(", ".Y(")})
        self.assertIn(
            "import: top.sdc:4: slew: 1 ports such as e have a slew of 7000 ps, and the tables end at 200",
            self.refusal("set_input_transition 4 e\nset_input_transition 7000 e\n"),
        )

    def test_a_clock_in_the_place_of_another(self):
        """The later one counts; where something was said of the earlier one, timers differ in what becomes of it."""
        later = "create_clock -name io -period 70\n"
        lines = self.sdc_lines(VIRTUAL + later)
        self.assertEqual(lines, ["create_clock -name io -period 70 -waveform {0 35}"])
        self.assertEqual(self.kinds("left_out_without_effect"), {"clock-replaced"})
        for text in (
            "set_clock_uncertainty 3 io",
            "set_clock_latency 3 io",
            "set_input_delay 3 -clock io e",
            "set_output_delay 3 -clock io q",
            "set_false_path -from io",
            "set_multicycle_path 2 -to io",
            "set_clock_groups -asynchronous -group io",
            "set_clock_uncertainty 3 -from io -to clk",
        ):
            with self.subTest(text):
                self.assertIn("import: top.sdc:5: clock-replaced: ", self.refusal(f"{VIRTUAL}{text}\n{later}"))

    @common.needs_program
    def test_the_program_reads_what_is_written(self):
        self.sdc_lines(
            VIRTUAL + "set_clock_uncertainty 3 [all_clocks]\nset_input_delay 10 -clock io [get_ports {d e}]\n"
            "set_output_delay -clock clk 9 [all_outputs]\nset_load 3 [all_outputs]\n"
            "set_timing_derate -early 0.9\nset_input_transition 4 [all_inputs]\nset_false_path -hold -from r1 -to "
            "core/r2\nset_multicycle_path 2 -to core/r3/D\nset_case_analysis 0 d[2]\n"
        )
        self.write({"s.eco": "report_wns setup\n"})
        status, out, errors = common.run(
            common.TOP / "lizdrog",
            "--program",
            common.PROGRAM,
            "run",
            "p.import/lizdrog.toml",
            "s.eco",
            cwd=self.folder,
        )
        self.assertEqual((status, errors), (0, ""))
        self.assertIn("1 0 wns ", out)
