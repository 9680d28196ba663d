"""The comparison of the questions for closing timing with OpenSTA: a small design, and answers that are wrong."""
import contextlib
import io
import pathlib
import shutil
import sys
import tempfile
import unittest
from unittest import mock

import common
from lizdrog_dev import closing_check, import_designs
from lizdrog_dev.closing_check import Path, Stage

needs_opensta = unittest.skipUnless(shutil.which("sta"), "no sta is here: apt-get install opensta")
NETLIST = """module top (clk, d, s, q, o); input clk, d, s; output q, o; wire c0, c1, n1, n2, n3, n4;
  CKBUF cb0 (.A(clk), .Y(c0));
  CKBUF cb1 (.A(c0), .Y(c1));
  DFF r1 (.D(d), .CK(c0), .Q(n1));
  NAND2 g1 (.A(n1), .B(s), .Y(n2));
  BUF g2 (.A(n2), .Y(n3));
  XOR2 g3 (.A(n3), .B(n1), .Y(n4));
  DFF r2 (.D(n4), .CK(c1), .Q(q));
  BUF g4 (.A(n3), .Y(o));
endmodule
"""
SDC = """create_clock -name clk -period 220 [get_ports clk]
set_propagated_clock [get_clocks clk]
set_clock_uncertainty -setup 12 [get_clocks clk]
set_clock_uncertainty -hold 4 [get_clocks clk]
set_input_transition 40 [get_ports {clk d s}]
set_input_delay 50 -clock clk [get_ports {d s}]
set_output_delay -max 70 -clock clk [get_ports {q o}]
set_output_delay -min -10 -clock clk [get_ports {q o}]
"""
WIRES = {
    "clk": ["clk 1", "1 cb0/A"],
    "c0": ["cb0/Y 1", "1 cb1/A", "1 r1/CK"],
    "n1": ["r1/Q 1", "1 g1/A", "1 2", "2 g3/B"],
    "n3": ["g2/Y 1", "1 g3/A", "1 g4/A"],
    "o": ["g4/Y 1", "1 o"],
}
QUESTIONS = 10


def made(folder):
    """The files of the design, for slews and for wires."""
    for name, has_slews in (("", True), ("flat_", False)):
        for side, factor in (("early", 0.8), ("late", 1.0)):
            kind = import_designs.Kind(f"{name}{side}", factor, has_slews=has_slews)
            (folder / f"{name}{side}.lib").write_text(import_designs.standard_cells(kind))
    (folder / "top.v").write_text(NETLIST)
    (folder / "top.sdc").write_text(SDC + "set_load 4 [get_ports {q o}]\n")
    (folder / "top.wires.sdc").write_text(SDC)
    (folder / "top.spef").write_text(import_designs.spef("top", import_designs.drawn(WIRES, 1), ("FF", "OHM")))


@needs_opensta
@common.needs_program
class AgainstOpenSta(unittest.TestCase):
    def setUp(self):
        self.folder = pathlib.Path(tempfile.mkdtemp())
        self.addCleanup(shutil.rmtree, self.folder)
        made(self.folder)

    def check(self, *words):
        """The status of a comparison, and its lines."""
        said = io.StringIO()
        given = ["closing_check.py", str(self.folder), "--program", str(common.PROGRAM), *words]
        with mock.patch.object(sys, "argv", given), contextlib.redirect_stdout(said):
            status = closing_check.main()
        return status, said.getvalue().splitlines()

    def test_both_agree(self):
        status, lines = self.check()
        self.assertEqual((status, len(lines)), (0, 2 * QUESTIONS), lines)
        for line in lines:
            self.assertRegex(line, r"^top (slews|wires): report_.*: compared \d+, differ 0, greatest ")

    def test_each_wrong_answer_is_told(self):
        def wrong(asked, rows):
            found = true(asked, rows)
            found.nets["n3"].wires["g3:A"] = (0.0, 1.0)
            found.paths["setup", "r2:D"].parts["credit"] += 0.02
            found.paths["hold", "o"].nodes[-1].time += 0.02
            found.worst["setup", 3].pop()
            found.worst["hold", 1][0].nodes[0].edge = "neither"
            found.skews["clk", "rise"][0] -= 0.02
            found.slacks["setup", "q"] = -1.0
            return found

        true = closing_check.of_lizdrog
        with mock.patch.object(closing_check, "of_lizdrog", wrong):
            status, lines = self.check("--sort", "wires")
        self.assertEqual(status, 1)
        counts = [line.split("differ ")[1].split(",")[0] for line in lines if not line.startswith("  ")]
        self.assertEqual(counts, ["1", "1", "1", "0", "1", "1", "0", "1", "0", "1"], lines)


class Parts(unittest.TestCase):
    def test_a_path_comes_once_and_an_endpoint_so_often(self):
        paths = [Path(end, slack, [Stage(pin, "rise", 0.0, None, 0.0)]) for end, slack, pin in (
            ("a", 3.0, "x"), ("a", 1.0, "y"), ("a", 1.0, "y"), ("a", 2.0, "z"), ("b", 4.0, "x"),
        )]
        self.assertEqual([it.slack for it in closing_check.worst_of(paths, 2)], [1.0, 2.0, 4.0])

    def test_names_of_pins(self):
        for pin in ("a", "a[3]", "u/v.w:D", "x:y:D"):
            self.assertEqual(closing_check.word(closing_check.name_of(pin)), pin)

    def test_files_that_are_missing(self):
        with tempfile.TemporaryDirectory() as name:
            folder = pathlib.Path(name)
            self.assertEqual(closing_check.cases_of(folder, "top"), [])
            made(folder)
            self.assertEqual([it.sort for it in closing_check.cases_of(folder, "top")], closing_check.SORTS)
            (folder / "top.spef").unlink()
            self.assertEqual([it.sort for it in closing_check.cases_of(folder, "top")], ["slews"])
