"""The examples print what their pages say."""
import os
import pathlib
import re
import shutil
import subprocess
import tempfile
import unittest

import common

EXAMPLES = common.TOP / "examples"
LIBRARY = pathlib.Path("/usr/share/qflow/tech/osu018/osu018_stdcells.lib")


def blocks(page):
    return [it.strip("\n") for it in re.findall(r"^```\n(.*?)^```", page.read_text(), re.S | re.M)]


@common.needs_program
class Pages(unittest.TestCase):
    def setUp(self):
        self.top = pathlib.Path(tempfile.mkdtemp())
        self.addCleanup(shutil.rmtree, self.top)
        for name in ("examples", "tools", "dev", "docs", "bench"):
            left_out = shutil.ignore_patterns("__pycache__", "*.lib.gz", "*.out", "must-fail")
            shutil.copytree(common.TOP / name, self.top / name, ignore=left_out)
        (self.top / "lizdrog").write_text(f'#!/bin/sh\nexec "{common.PROGRAM}" "$@"\n')
        (self.top / "lizdrog").chmod(0o755)

    def run_blocks(self, commands, folder):
        """What a shell prints for these blocks of commands, one after the other."""
        ran = subprocess.run(
            ["bash", "-c", "\n".join(commands)],
            cwd=self.top / folder,
            stdin=subprocess.DEVNULL,
            capture_output=True,
            text=True,
            check=False,
            env={**os.environ, "PYTHONDONTWRITEBYTECODE": "1"},
        )
        self.assertEqual(ran.stderr, "")
        return ran.stdout

    def test_first_page(self):
        """What a run prints; test_live_example.py looks at the prompt."""
        text = re.sub(r"(?m)^\.\./\.\./lizdrog (serve|connect) .*\n", "", (common.TOP / "README.md").read_text())
        given = [it.strip("\n") for it in re.findall(r"^```\n(.*?)^```", text, re.S | re.M)]
        commands = [it for it in given if it.startswith(("cd ", "../"))]
        self.assertEqual(len(commands), 2)
        out = self.run_blocks(commands, "")
        for block in given[given.index(commands[0]):]:
            if block not in commands and not block.startswith("ann> "):
                self.assertIn(block + "\n", out)

    def test_two_inverters(self):
        given = blocks(EXAMPLES / "two-inverters" / "README.md")
        commands = [it for it in given if it.startswith(("cd ", "../"))]
        out = self.run_blocks(commands, "")
        for block in given:
            if block not in commands:
                self.assertIn(block + "\n", out)

    def test_command_line(self):
        line = next(it for it in blocks(common.TOP / "docs" / "COMMANDS.md") if it.startswith("generated "))
        self.assertEqual(common.run(common.PROGRAM, "generate", "7", "400", "40"), (0, line + "\n", ""))

    def test_two_engineers(self):
        """What does not hang on the order of the sessions; test_sessions.py looks at the rest."""
        given = blocks(EXAMPLES / "two-engineers" / "README.md")
        commands = [it for it in given if it.startswith(("cd ", "../"))]
        out = self.run_blocks(commands, "")
        for block in given:
            if block not in commands and not block.startswith("journal"):
                self.assertIn(block + "\n", out)

    def test_saved_journal(self):
        given = blocks(EXAMPLES / "saved-journal" / "README.md")
        commands = [it for it in given if not it.startswith(("journal ", "fault ", "final "))]
        out = self.run_blocks(commands, "")
        for block in given:
            if block not in commands:
                self.assertIn(block + "\n", out)

    def test_closing_setup(self):
        given = blocks(EXAMPLES / "closing-setup" / "README.md")
        commands = [it for it in given if it.startswith(("cd ", "../", "grep "))]
        out = self.run_blocks(commands, "")
        for block in given:
            if block not in commands:
                self.assertIn(block + "\n", out)

    @unittest.skipUnless(LIBRARY.exists(), "no library for examples/pulse-width: apt-get install qflow-tech-osu018")
    def test_walk(self):
        given = blocks(EXAMPLES / "README.md")
        commands = [it for it in given if it.startswith(("cd ", "../", "keep() "))]
        out = self.run_blocks(commands, "")
        for block in given:
            if block not in commands and not block.startswith("report_wns setup\nreport_tns"):
                self.assertIn(block + "\n", out)
        self.assertIn("1 1 accepted\n2 1 endpoint 88.058\n", out)
        self.assertIn("\nreplace_cell _140_ INVX2\n", out)
        self.assertEqual(
            blocks(EXAMPLES / "README.md")[3],
            (EXAMPLES / "pulse-width" / "report.eco").read_text().split("\n", 1)[1].strip(),
        )

    @unittest.skipUnless(LIBRARY.exists(), "no library for examples/pulse-width: apt-get install qflow-tech-osu018")
    def test_scripts_page(self):
        shutil.copy(LIBRARY, self.top / "examples" / "pulse-width")
        self.check_scripts_page(
            "pulse-width", "osu018_stdcells.lib osu018_stdcells.lib netlist.v pulse_width.sdc netlist.spef"
        )

    def test_scripts_page_of_drafts(self):
        self.check_scripts_page("closing-setup", "sizes.lib sizes.lib accumulator.v accumulator.sdc accumulator.spef")

    def check_scripts_page(self, name, documents):
        """The rows of docs/SCRIPTS.md are those of its commands, after "From `examples/NAME`" on the documents of that
        example."""
        parts = re.split(r"(?m)^From `examples/([\w-]+)`:\n", (common.TOP / "docs" / "SCRIPTS.md").read_text())
        compared = 0
        for example, text in zip(parts[1::2], parts[2::2]):
            for block in re.findall(r"^```\n(.*?)\n```", text, re.S | re.M):
                if example == name and re.search(r" {3,}1 \d ", block):
                    lines = [re.split(r" {3,}", line) for line in block.split("\n")]
                    script, rows = [it[0] for it in lines if it[0]], [it[1] for it in lines if len(it) > 1]
                    (self.top / "s.eco").write_text("\n".join(script) + "\n")
                    out = self.run_blocks([f"../../lizdrog run {documents} 1 ../../s.eco"], f"examples/{name}")
                    self.assertIn("\n".join(rows) + "\n", out)
                    compared += 1
        self.assertTrue(compared)
