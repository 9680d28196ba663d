"""The one way in which the tools open files: compressed texts, and what is no text or no whole one."""
import gzip
import lzma
import pathlib
import shutil
import subprocess
import tempfile
import unittest

import common
from lizdrog_tools import files, verilog
from test_tools import OUTPUT

HIERARCHY = common.NETLIST + "module second (a);\n input a;\nendmodule\n"
ASKED = ["top.v", "early.lib", "late.lib", "top.sdc", "top.spef", "s.eco", "out"]


def zstd(data):
    return subprocess.run(["zstd", "-cq"], input=data, capture_output=True, check=True).stdout


class Files(unittest.TestCase):
    def setUp(self):
        self.folder = pathlib.Path(tempfile.mkdtemp())
        self.addCleanup(shutil.rmtree, self.folder)
        common.write_documents(self.folder)
        (self.folder / "out").write_text(OUTPUT)

    def commands(self, end=""):
        """A command of each tool, on files whose names have this end."""
        name = {it: f"{it}{end}" for it in ASKED}
        setup = [name[it] for it in ("early.lib", "late.lib", "top.v", "top.sdc", "top.spef")]
        return [("check_setup", *setup), ("endpoint_questions", name["late.lib"], name["top.v"]),
                ("net_parasitics", name["top.spef"], "n2"), ("convert_journal", name["out"]),
                ("read_answers", name["s.eco"], name["out"], "--netlist", name["top.v"], "--library", name["late.lib"])]

    def run_all(self, end=""):
        """What each command writes, without the end of the files' names."""
        ran = [common.tool(*words, cwd=self.folder) for words in self.commands(end)]
        return [(status, out.replace(end, "") if end else out, err) for status, out, err in ran]

    def test_compressed_files_are_read_as_plain_ones(self):
        plain = self.run_all()
        self.assertTrue(all(out and not err for _, out, err in plain))
        packers = {".gz": gzip.compress, ".xz": lzma.compress}
        if shutil.which("zstd"):
            packers[".zst"] = zstd
        for end, pack in packers.items():
            for name in ASKED:
                (self.folder / (name + end)).write_bytes(pack((self.folder / name).read_bytes()))
            with self.subTest(end):
                self.assertEqual(self.run_all(end), plain)

    def test_damaged_packs(self):
        for data, sort in ((gzip.compress(b"x" * 100)[:-9], "gzip"), (lzma.compress(b"x" * 100)[:40], "xz"),
                           (b"\x1f\x8b\x07", "gzip")):
            (self.folder / "top.v").write_bytes(data)
            status, out, err = common.tool("endpoint_questions", "late.lib", "top.v", cwd=self.folder)
            self.assertEqual((status, out), (2, ""))
            self.assertIn(f"endpoint_questions: top.v: the file is compressed ({sort}), and damaged", err)

    def refused(self, name, data, *words):
        """Every tool that reads this file says so with status 2 and these words."""
        file = self.folder / name
        before = file.read_bytes()
        file.write_bytes(data.encode("latin-1") if isinstance(data, str) else data)
        asked = [command for command in self.commands() if name in command]
        self.assertTrue(asked)
        for command in asked:
            with self.subTest(command):
                status, out, err = common.tool(*command, cwd=self.folder)
                self.assertEqual(status, 2, out)
                self.assertTrue(err.startswith(f"{command[0]}: {name}:"), err)
                self.assertEqual(err.count("\n"), 1, err)
                for word in words:
                    self.assertIn(word, err)
        file.write_bytes(before)

    def test_hierarchical_netlist(self):
        self.refused("top.v", HIERARCHY, "top.v:7: a second module, second", "flatten")

    def test_netlists_that_are_none(self):
        self.refused("top.v", common.SPEF, "no module is found")
        self.refused("top.v", common.NETLIST.replace("endmodule", ""), "has no endmodule")
        self.refused("top.v", "", "the file is empty")

    def test_libraries_without_cells(self):
        self.refused("late.lib", common.NETLIST, "no cell is found")
        self.refused("late.lib", "\n \n", "the file is empty")

    def test_parasitics_that_are_none(self):
        self.refused("top.spef", common.NETLIST, "no *SPEF and no *D_NET is found")

    def test_binary_files(self):
        for name in ("top.v", "late.lib", "top.sdc", "top.spef", "out", "s.eco"):
            self.refused(name, b"one\ntwo\n\x7fELF\x02\x01\x00", f"{name}:3: the file is no text")
        self.refused("top.sdc", "create_clock".encode("utf-16"), "UTF-16")

    def test_outputs_that_are_cut_short(self):
        lines = OUTPUT.splitlines(keepends=True)
        for count in range(1, len(lines)):
            (self.folder / "out").write_text("".join(lines[:count]))
            status, out, err = common.tool("read_answers", "s.eco", "out", cwd=self.folder)
            self.assertEqual((status, out), (2, ""), count)
            self.assertTrue(err.startswith("read_answers: out:"), err)
        (self.folder / "out").write_text("".join(lines[:2]))
        err = common.tool("convert_journal", "out", cwd=self.folder)[2]
        self.assertIn("convert_journal: out:2: the entry 1 has not all of its 1 edits", err)

    def test_an_output_of_another_design(self):
        (self.folder / "out").write_text(OUTPUT.replace("repower_gate g1", "repower_gate g7"))
        (self.folder / "s.eco").write_text(common.SCRIPT.replace("repower_gate g1", "repower_gate g7"))
        words = ("s.eco", "out", "--netlist", "top.v", "--library", "late.lib")
        status, _, err = common.tool("read_answers", *words, "--json", cwd=self.folder)
        self.assertEqual((status, err), (0, ""))
        (self.folder / "out").write_text(OUTPUT.replace("repower_gate g1", "repower_gate g7").replace("3 0 path",
                                                                                                      "3 2 path"))
        status, out, err = common.tool("read_answers", *words, cwd=self.folder)
        self.assertEqual(status, 2, out)
        self.assertIn("names what neither the netlist nor the library has", err)

    def test_empty_journals(self):
        (self.folder / "empty").write_text("")
        self.assertEqual(common.tool("convert_journal", "empty", cwd=self.folder), (0, "", ""))
        words = ("s.eco", "out", "--netlist", "top.v", "--library", "late.lib")
        with_journal = common.tool("read_answers", *words, "--journal", "empty", cwd=self.folder)
        self.assertEqual(with_journal, common.tool("read_answers", *words, cwd=self.folder))
        self.assertEqual(with_journal[0], 0)

    def test_lines_of_faults(self):
        fault = files.InputFault("a.v", 3, "it is wrong")
        self.assertEqual(str(fault), "a.v:3: it is wrong")
        self.assertEqual(str(files.InputFault("a.v", None, "it is wrong")), "a.v: it is wrong")
        with self.assertRaises(files.TextFault) as caught:
            verilog.parse_netlist(HIERARCHY)
        self.assertEqual(caught.exception.line, 7)

    def test_a_reader_that_goes_away(self):
        line = f"{common.TOOLS}/endpoint_questions.py late.lib top.v | true"
        self.assertEqual(common.run("bash", "-c", line, cwd=self.folder)[2], "")


if __name__ == "__main__":
    unittest.main()
