"""The importer: project files, files of all kinds, and what is said of each."""
import gzip
import lzma
import os
import pathlib
import re
import shutil
import subprocess
import tempfile
import unittest
from unittest import mock

import common
from import_cases import CLOCK, Project
from lizdrog_tools.importing.boolean import Function, NoFunction, sense_word
from lizdrog_tools.importing.mistyped import meant

needs_yosys = unittest.skipUnless(shutil.which("yosys"), "no yosys is here: apt-get install yosys")

HIERARCHY = """module leaf (input [1:0] a, output y);
 wire m;
 BUF b0 (a[0], m);
 BUF b1 (.A(m), .Z(y));
endmodule
module top (clk, d, q);
 input clk; input [1:0] d; output q; wire n1, n2;
 leaf u1 (.a({d[0], d[1]}), .y(n1));
 assign n2 = n1;
 DFF r1 (.D(n2), .CK(clk), .Q(q));
endmodule
"""


class ProjectFile(Project):
    def test_a_plain_project_is_imported(self):
        self.write(
            {
                "top.spef": common.SPEF,
                "top.sdc": CLOCK + "set_input_delay 10 -clock clk d\nset_output_delay 5 -clock clk [get_ports q]\n",
            }
        )
        self.assert_noted("top.spef: 4 of 5 driven nets have no parasitics here", spef="top.spef")
        names = {it.name for it in (self.folder / "p.import").iterdir()}
        self.assertEqual(
            names,
            {
                "early.lib",
                "late.lib",
                "netlist.v",
                "constraints.sdc",
                "parasitics.spef",
                "lizdrog.toml",
                "import.txt",
                "import.json",
            },
        )
        self.assertEqual(self.report()["status"], 0)

    def test_what_is_wrong_with_a_project(self):
        for changed, said in (
            ({"netlist": None}, "p.toml: the key netlist is missing"),
            ({"library": None}, "p.toml: the key early is missing (or library, for both early and late)"),
            ({"early": "cells.lib"}, "library gives both early and late; write either library, or early and late"),
            ({"libary": "x"}, "there is no such key: libary; the keys are accept, corners, early, "),
            ({"spef": [{"files": "x"}]}, "spef is a list of names or of { file = "),
            ({"netlist": "gone.v"}, "gone.v: No such file or directory"),
            ({"top": "other"}, "top.v: there is no module other: the one module is top"),
        ):
            with self.subTest(changed):
                status, errors = self.run_import(**changed)
                self.assertEqual(status, 2)
                self.assertIn(said, errors)
        self.write({"p.toml": "netlist = [\n"})
        status, _, errors = common.tool("import_design", "p.toml", cwd=self.folder)
        self.assertEqual(status, 2)
        self.assertIn("import: p.toml: this is no TOML", errors)

    def test_a_folder_of_another_kind_is_left_alone(self):
        self.write_project()
        status, _, errors = common.tool("import_design", "-o", ".", "p.toml", cwd=self.folder)
        self.assertEqual(status, 2)
        self.assertIn("no earlier import made it", errors)
        self.assertEqual((self.folder / "top.v").read_text(), common.NETLIST)

    def test_compressed_files(self):
        self.assertEqual(self.run_import()[0], 0)
        plain = self.made("netlist.v"), self.made("late.lib"), self.made("constraints.sdc")
        packers = {"gz": gzip.compress, "xz": lzma.compress}
        if shutil.which("zstd"):
            packers["zst"] = lambda data: subprocess.run(
                ["zstd", "-cq"], input=data, capture_output=True, check=True
            ).stdout
        for end, pack in packers.items():
            self.write(
                {f"{it}.{end}": pack((self.folder / it).read_bytes()) for it in ("cells.lib", "top.v", "top.sdc")}
            )
            self.assertEqual(
                self.run_import(library=f"cells.lib.{end}", netlist=f"top.v.{end}", sdc=f"top.sdc.{end}"), (0, "")
            )
            self.assertEqual((self.made("netlist.v"), self.made("late.lib"), self.made("constraints.sdc")), plain)

    def test_rubbish_is_told_with_its_file(self):
        for name in ("cells.lib", "top.v", "top.sdc"):
            kept = (self.folder / name).read_bytes()
            for data, said in ((b"\x00\x01", "the file is no text"), (gzip.compress(b"x" * 99)[:-4], "and damaged")):
                self.write({name: data})
                status, errors = self.run_import()
                self.assertEqual(status, 2)
                self.assertIn(f"import: {name}", errors)
                self.assertIn(said, errors)
            self.write({name: kept})

    def test_what_is_accepted_is_listed(self):
        self.write({"top.sdc": CLOCK + "set_max_delay 5 -to [get_ports q]\n"})
        status, errors = self.run_import()
        self.assertEqual(status, 2)
        self.assertIn("import: top.sdc:3: set_max_delay: set_max_delay has no counterpart", errors)
        self.assertIn('write accept = ["set_max_delay"] into the project', errors)
        self.assertFalse((self.folder / "p.import").exists())
        for word in ("set_max_delay", f"set_max_delay {self.folder}/top.sdc:3"):
            self.assertEqual(self.run_import(accept=[word, "other"]), (1, ""))
            self.assertEqual(
                [(it["line"], it["kind"]) for it in self.report()["left_out_and_accepted"]], [(3, "set_max_delay")]
            )
            self.assertEqual(self.report()["accept_unused"], ["other"])
        self.assertEqual(self.run_import(accept=["set_max_delay other.sdc:3"])[0], 2)

    def test_the_command_of_the_wrapper(self):
        self.write_project()
        status, out, errors = common.run(common.TOP / "lizdrog", "import", "p.toml", cwd=self.folder)
        self.assertEqual((status, errors), (0, ""))
        self.assertIn("import: p.import: ", out)

    @common.needs_program
    def test_run_by_a_project(self):
        self.write({"top.sdc": CLOCK + "set_input_delay 10 -clock clk d\n", "s.eco": "report_endpoint r1:D setup\n"})
        self.assertEqual(self.run_import(), (0, ""))
        self.write({"saved.journal": ""})
        words = ["--program", common.PROGRAM, "run"]
        for more in (
            ["p.import/lizdrog.toml"],
            ["p.import/lizdrog.toml", "2"],
            ["--journal", "saved.journal", "p.import/lizdrog.toml", "1"],
        ):
            status, out, errors = common.run(common.TOP / "lizdrog", *words, *more, "s.eco", cwd=self.folder)
            self.assertEqual((status, errors), (0, ""))
            self.assertIn("1 0 endpoint 75.000", out)
        status, out, errors = common.run(common.TOP / "lizdrog", *words, "p.toml", cwd=self.folder)
        self.assertEqual((status, out), (2, "fault words\n"))
        self.write_project(netlist=["a.v", "b.v"])
        _, _, errors = common.run(common.TOP / "lizdrog", *words, "p.toml", "s.eco", cwd=self.folder)
        self.assertIn("netlist is no single file: `lizdrog import p.toml`", errors)


@needs_yosys
@common.needs_program
class Example(unittest.TestCase):
    def test_the_page_of_the_example(self):
        """Its commands, one after the other, print what the page says."""
        page = common.TOP / "examples" / "as-tools-write-it" / "README.md"
        top = pathlib.Path(tempfile.mkdtemp())
        self.addCleanup(shutil.rmtree, top)
        shutil.copytree(page.parent, top / "examples" / page.parent.name)
        (top / "tools").symlink_to(common.TOP / "tools")
        (top / "lizdrog").write_text(
            f'#!/bin/sh\n[ "$1" = import ] || set -- --program "{common.PROGRAM}" "$@"\nexec "{common.TOP}/lizdrog" '
            '"$@"\n'
        )
        (top / "lizdrog").chmod(0o755)
        given = [it.strip("\n") for it in re.findall(r"^```\n(.*?)^```", page.read_text(), re.S | re.M)]
        commands = [it for it in given if it.startswith(("cd ", "sed ", "../"))]
        ran = subprocess.run(["bash", "-c", "\n".join(commands)], cwd=top, capture_output=True, text=True, check=False)
        texts = ran.stdout + ran.stderr + (page.parent / "chip.toml").read_text()
        for block in given:
            if block not in commands:
                self.assertIn(block + "\n", texts)
        self.assertEqual(len(commands), 3)


class Verilog(Project):
    def test_a_flat_netlist_needs_no_yosys(self):
        self.write(
            {"top.v": common.NETLIST.replace("wire n1, n2;", "wire n1;\n wire \\n/2 ;").replace("n2)", "\\n/2 )")}
        )
        with mock.patch.dict(os.environ, {"PATH": self.path_without("yosys")}):
            self.assertEqual(self.run_import(), (0, ""))
        self.assertIn("  BUF g1 (.A(n1), .Z(\\n/2 ));", self.made("netlist.v"))

    @staticmethod
    def path_without(program):
        """A path on which all programs of this one are but the one."""
        folder = pathlib.Path(tempfile.mkdtemp())
        for name in ("tclsh", "zstd"):
            if shutil.which(name) and name != program:
                (folder / name).symlink_to(shutil.which(name))
        return str(folder)

    def test_without_yosys_a_hierarchy_is_refused(self):
        self.write({"top.v": HIERARCHY})
        with mock.patch.dict(os.environ, {"PATH": self.path_without("yosys")}):
            status, errors = self.run_import()
        self.assertEqual(status, 2)
        self.assertIn(
            "top.v: this netlist has to be flattened by yosys, and there is no yosys here: apt-get install yosys",
            errors,
        )

    @needs_yosys
    def test_a_hierarchy_is_flattened(self):
        self.write({"top.v": HIERARCHY})
        self.assertEqual(self.run_import(top="top"), (0, ""))
        text = self.made("netlist.v")
        for line in (
            "  input [1:0] d;",
            "  BUF \\u1/b0  (.A(d[1]), .Z(\\u1/m ));",
            "  BUF \\u1/b1  (.A(\\u1/m ), .Z(n1));",
            "  DFF r1 (.CK(clk), .D(n1), .Q(q));",
        ):
            self.assertIn(line, text.splitlines())
        self.assertEqual(text.count("module"), 2)

    @needs_yosys
    def test_parameters_part_selects_and_vectors(self):
        self.write(
            {
                "top.v": "module wide #(parameter N = 1) (input [N-1:0] a, output [N-1:0] y);\n wire [N-1:0] m;\n"
                " assign m[N-1:1] = a[N-2:0];\n assign m[0] = a[N-1];\n"
                " BUF b0 (m[0], y[0]);\n BUF b1 (.A(m[1]), .Z(y[1]));\nendmodule\n"
                "module top (input clk, input [3:0] d, output [1:0] q);\n wire [1:0] n;\n"
                " wide #(.N(2)) u (.a(d[2:1]), .y(n));\n"
                " DFF r0 (.D(n[0]), .CK(clk), .Q(q[0]));\n DFF r1 (.D(n[1]), .CK(clk), .Q(q[1]));\nendmodule\n"
            }
        )
        self.assertEqual(self.run_import(top="top"), (0, ""))
        for line in ("  BUF \\u/b0  (.A(d[2]), .Z(n[0]));", "  BUF \\u/b1  (.A(d[1]), .Z(n[1]));"):
            self.assertIn(line, self.made("netlist.v").splitlines())

    @needs_yosys
    def test_a_connection_of_another_width_has_its_line(self):
        self.write({"top.v": HIERARCHY.replace(".a({d[0], d[1]})", ".a({d[0], d})")})
        status, errors = self.run_import(top="top")
        self.assertEqual(status, 2)
        self.assertIn(
            "import: top.v:8: width: a connection has another width than its port: Resizing cell port top.u1.a from 3 "
            "bits to 2 bits\n",
            errors,
        )

    @needs_yosys
    def test_ports_that_are_one_net(self):
        self.write(
            {
                "top.v": "module top (input clk, d, output q, p, z);\n DFF r1 (.D(d), .CK(clk), .Q(q));\n assign p = "
                "q;\n assign z = 1'b0;\nendmodule\n",
                "top.sdc": CLOCK + "set_load 3 q\nset_load 4 p\n",
            }
        )
        self.assertEqual(self.run_import(), (0, ""))
        self.assertIn("  LIZDROG_WIRE p__wire (.A(q), .Y(p));", self.made("netlist.v"))
        self.assertIn("set_load 7 [get_ports {q}]", self.made("constraints.sdc"))
        self.assertEqual(self.kinds("left_out_without_effect"), {"constant-port"})

    @needs_yosys
    def test_what_yosys_refuses_has_its_line(self):
        for text, line, said in (
            ("module top (input a, output y);\n BUF g (.A(a), .Z(y))\nendmodule\n", 3, "syntax error"),
            ("module top (input a, output y);\n NONE g (.A(a), .Z(y));\n assign y = a;\nendmodule\n", None, "NONE"),
        ):
            self.write({"top.v": text})
            status, errors = self.run_import()
            self.assertEqual(status, 2)
            self.assertIn(f"top.v:{line}: yosys refuses it" if line else "top.v: yosys refuses it", errors)
            self.assertIn(said, errors)

    @needs_yosys
    def test_logic_is_no_netlist(self):
        self.write({"top.v": "module top (input a, b, output y);\n assign y = a & b;\nendmodule\n"})
        status, errors = self.run_import()
        self.assertEqual(status, 2)
        self.assertIn("is no instance of a cell", errors)
        self.assertIn("top.v:2", errors)

    def test_more_than_is_read(self):
        """The limits of the readers, here as small ones: what is past one is told with its document."""
        for name, most, said in (
            ("MOST_NETS", 4, "top.v: the flat design has 5 nets (V6), and 4 are read"),
            ("MOST_INSTANCES", 2, "top.v: the flat design has 3 instances (V6), and 2 are read"),
            ("MOST_PINS", 10, "top.v: the flat design has 11 pins with the ports (E17), and 10 are read"),
            ("MOST_CELLS", 1, "p.toml: 2 cells are in use or named by keep, and 1 are read (L10)"),
            ("MOST_BYTES", 400, "cells.lib: the early.lib that comes of it has "),
        ):
            with self.subTest(name), mock.patch(f"lizdrog_tools.importing.limits.{name}", most):
                status, errors = self.run_import()
                self.assertEqual(status, 2, errors)
                self.assertIn(f"import: {said}", errors)
        self.assertEqual(self.run_import(), (0, ""))

    def test_cells_and_pins_that_are_not_there(self):
        for old, new, said in (
            (" BUF g1", " BUFF g1", "top.v:4: the cell BUFF is in no early library"),
            (".A(n1)", ".AA(n1)", "top.v:4: the instance g1 has a pin AA, and its cell BUF has none (E4)"),
        ):
            self.write({"top.v": common.NETLIST.replace(old, new)})
            status, errors = self.run_import()
            self.assertEqual(status, 2)
            self.assertIn(said, errors)


class Functions(unittest.TestCase):
    def test_functions_of_libraries(self):
        cases = {
            "!(A B)+C'": ({"A": True, "B": True, "C": True}, False),
            "A*B|C": ({"A": False, "B": True, "C": False}, False),
            "A^B": ({"A": True, "B": False}, True),
            "(A !S)+(B S)": ({"A": True, "S": False}, True),
            "(A !S)+(B S) ": ({"A": True, "B": True}, True),
            "A B": ({"B": None}, None),
            "A&!A": ({}, False),
            "1": ({}, True),
        }
        for text, (known, value) in cases.items():
            self.assertEqual(Function(text).value(known), value, text)
        for text in ("", "A+", "(A", "A)", "A $ B"):
            with self.assertRaises(NoFunction, msg=text):
                Function(text)

    def test_senses(self):
        for text, name, known, sense in (
            ("!(A B)", "A", {}, "negative_unate"),
            ("A^B", "A", {}, "non_unate"),
            ("A^B", "A", {"B": True}, "negative_unate"),
            ("(A !S)+(B S)", "B", {"S": False}, None),
            ("(A !S)+(B S)", "S", {"A": False, "B": True}, "positive_unate"),
        ):
            self.assertEqual(sense_word(Function(text).senses(name, known)), sense, text)

    def test_words_that_look_mistyped(self):
        for word, wanted in (
            ("capacitence", "capacitance"),
            ("relatd_pin", "related_pin"),
            ("timing_typ", "timing_type"),
            ("cell_rize", "cell_rise"),
            ("rise_capacitance", None),
            ("max_capacitance", None),
            ("capacitance", None),
            ("index_3", None),
            ("pin", None),
        ):
            self.assertEqual(meant(word), wanted, word)
