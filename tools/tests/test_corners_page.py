"""docs/CORNERS.md, tried as a reader tries it: its commands print what it shows, and its wires by corner are
accepted."""
import importlib.util
import os
import pathlib
import re
import shutil
import subprocess
import sys
import tempfile
import unittest

import common

LIZDROG = """#!/bin/sh
top=$(dirname "$(readlink -f "$0")") command=$1
shift
case $command in
  corners) exec "{python}" "$top/tools/corners.py" --quiet --program "{program}" "$@" ;;
  report) exec "{python}" "$top/tools/report.py" "$@" ;;
esac
exit 70
"""


def without_seconds(text):
    """A text whose lines of corners have no seconds."""
    return re.sub(r"(?m)^(\w+ .* )[0-9]+\.[0-9]$", r"\1S", text)


@common.needs_program
class Page(unittest.TestCase):
    def setUp(self):
        self.top = pathlib.Path(tempfile.mkdtemp())
        self.addCleanup(shutil.rmtree, self.top)
        for name in ("examples", "tools", "docs"):
            left_out = shutil.ignore_patterns("__pycache__", "tests", "*.results")
            shutil.copytree(common.TOP / name, self.top / name, ignore=left_out)
        (self.top / "lizdrog").write_text(LIZDROG.format(python=sys.executable, program=common.PROGRAM))
        (self.top / "lizdrog").chmod(0o755)
        self.page = (common.TOP / "docs" / "CORNERS.md").read_text()
        self.blocks = [it.strip("\n") for it in re.findall(r"^```\n(.*?)^```", self.page, re.S | re.M)]

    def run_lines(self, lines):
        """What a shell prints for these lines."""
        ran = subprocess.run(
            ["bash", "-c", "\n".join(lines)],
            cwd=self.top,
            stdin=subprocess.DEVNULL,
            capture_output=True,
            text=True,
            check=False,
            env={**os.environ, "PYTHONDONTWRITEBYTECODE": "1"},
        )
        self.assertEqual(ran.stderr, "")
        return ran.stdout

    @unittest.skipUnless(importlib.util.find_spec("jinja2"), "no Jinja2: apt-get install python3-jinja2")
    def test_commands_print_what_the_page_shows(self):
        commands = [it for it in self.blocks if it.startswith(("cd ", "../", "tail "))]
        self.assertEqual(len(commands), 5)
        out = without_seconds(self.run_lines(commands))
        project = (self.top / "examples" / "four-corners" / "design.toml").read_text().strip("\n")
        for block in self.blocks:
            if block not in commands and block != project:
                self.assertIn(without_seconds(block) + "\n", out)
        self.assertIn(project, self.blocks)
        self.assertIn("</html>", (self.top / "examples" / "four-corners" / "timing.html").read_text())

    def test_wires_by_corner(self):
        indented = re.findall(r"(?m)^    (.*)$", self.page)
        script = indented[indented.index("begin_eco") : indented.index("commit_eco") + 1]
        folder = self.top / "examples" / "four-corners"
        (folder / "wires.eco").write_text("\n".join(script) + "\n")
        out = self.run_lines(["cd examples/four-corners", "../../lizdrog corners design.toml --commit wires.eco 2>&1"])
        self.assertIn("corners: 1 ECO is accepted in slow_cmax, slow_cmin, fast_cmax, fast_cmin", out)
        journals = {it.parent.name: it.read_text() for it in folder.glob("design.results/commit/*/output")}
        self.assertEqual(
            ["c #1 5200" in journals[it] for it in ("slow_cmax", "slow_cmin", "fast_cmax")], [True, False, True]
        )


if __name__ == "__main__":
    unittest.main()
