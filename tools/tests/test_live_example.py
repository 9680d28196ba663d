"""Pages that show a prompt: people at one server hear what they say. Of each page the first block with `lizdrog serve`
starts the server, and the talks follow each other.
"""
import pathlib
import re
import shutil
import subprocess
import sys
import tempfile
import unittest

import common
from live_serving import REAL, SECONDS, STAND_IN, Serving

EXAMPLE = common.TOP / "examples" / "live" / "README.md"
PROMPT = re.compile(r"(?m)^(?:(ann|ben)(?: \d+(?: of \d+)?)?>|\.\.) (.*)$")
SERVE = re.compile(
    r"(?m)^\.\./\.\./lizdrog serve (\S+) --listen unix:socket(?: --sessions (\d+))?(?: --journal (\S+))?(?: 2>\S+ &)?$"
)


def blocks(page):
    return [it.strip("\n") for it in re.findall(r"^```\n(.*?)^```", page.read_text(), re.S | re.M)]


@common.needs_program
class Prompts(unittest.TestCase):
    def setUp(self):
        self.folder = pathlib.Path(tempfile.mkdtemp())
        self.addCleanup(shutil.rmtree, self.folder)
        for name in ("live", "closing-setup"):
            shutil.copytree(
                common.TOP / "examples" / name,
                self.folder / name,
                ignore=shutil.ignore_patterns("*.out", "*.journal", "socket"),
            )

    def start(self, place, block):
        """The server that a block starts, in a folder of the examples; and its journal."""
        words, count, journal = SERVE.search(block).groups()
        documents = re.search(r'(?m)^D="(.*)"$', block)[1].split() if words == "$D" else [words]
        if journal:
            (place / journal).write_text("")
        option = ["--journal", journal] if journal else []
        serving = Serving(place, documents, *option, sessions=int(count or 4))
        self.addCleanup(serving.close)
        return serving, journal

    def talk(self, serving, place, block):
        """Says what a block says, and compares what is heard."""
        name, lines = PROMPT.match(block)[1], [it[1] for it in PROMPT.findall(block)]
        ran = subprocess.run(
            [sys.executable, common.TOOLS / "connect_live.py", serving.address(), "--name", name],
            cwd=place,
            input="".join(f"{it}\n" for it in lines),
            capture_output=True,
            text=True,
            check=False,
            timeout=SECONDS,
        )
        wanted = re.sub(r"\n\n+", "\n", PROMPT.sub("", block)).strip("\n")
        self.assertEqual(ran.stdout.rstrip("\n"), wanted)

    def page(self, page, folder, count):
        """The server's end behind all talks of a page; and its journal."""
        given, place = blocks(page), self.folder / folder
        serving, journal = self.start(place, next(it for it in given if SERVE.search(it)))
        talks = [it for it in given if PROMPT.match(it)]
        self.assertEqual(len(talks), count)
        for it in talks:
            self.talk(serving, place, it)
        return serving.end()[1], (place / journal).read_text() if journal else ""

    def test_the_example(self):
        final, journal = self.page(EXAMPLE, "live", 3)
        self.assertEqual(final, blocks(EXAMPLE)[-1] + "\n")
        self.assertEqual(journal.count("\nentry "), 4)

    def test_the_first_page(self):
        self.assertRegex(self.page(common.TOP / "README.md", "closing-setup", 1)[0], "^final 1 setup -39.053 ")

    def test_the_page_of_the_server(self):
        page = common.TOP / "docs" / "LIVE.md"
        final, journal = self.page(page, "live", 3)
        self.assertRegex(final, "^final 2 setup 9.371 ")
        self.assertEqual(journal.count("\nentry "), 2)
        block = next(it for it in blocks(page) if it.startswith("$ printf"))
        line, wanted = block.split("\n", 1)
        line = line.removeprefix("$ ").replace("../../lizdrog", f"{common.TOP}/lizdrog --program {REAL or STAND_IN}")
        surroundings = {"PATH": "/usr/bin:/bin", "LIZDROG_STAND_IN_PROGRAM": str(common.PROGRAM)}
        how = {"capture_output": True, "text": True, "check": False}
        ran = subprocess.run(["bash", "-c", line], cwd=self.folder / "live", env=surroundings, **how)
        self.assertEqual((ran.returncode, ran.stdout), (1, wanted + "\n"), ran.stderr)


if __name__ == "__main__":
    unittest.main()
