"""What `lizdrog --help` says of the commands of scripts: the page has the same ones, and the program takes each
example."""
import pathlib
import re
import shutil
import tempfile
import unittest

import common
from lizdrog_tools import command_line, help_text

ROWS = [*help_text.QUESTIONS, *help_text.CLOSING, *help_text.EDITS, *help_text.OTHERS]


class Help(unittest.TestCase):
    def test_commands_are_those_of_the_page(self):
        page = (common.TOP / "docs" / "SCRIPTS.md").read_text()
        told = set(re.findall(r"^\| `([a-z]+(?:_[a-z]+)*)[ `]", page, re.M)) - {"accepted", "refused"}
        told |= set(re.findall(r"`(begin_\w+|commit_eco|end_what_if)`", page))
        told |= set(re.findall(r"`((?:report|advise)_[a-z_]+)", (common.TOP / "docs" / "QUESTIONS.md").read_text()))
        helped = {word for words, _, _ in ROWS for word in re.findall(r"(?:^|\.\. )([a-z]+(?:_[a-z]+)*)", words)}
        self.assertEqual(helped - {"r"}, told)

    @common.needs_program
    def test_examples_are_commands(self):
        folder = pathlib.Path(tempfile.mkdtemp())
        self.addCleanup(shutil.rmtree, folder)
        examples = [example.replace(" / ", "\n") for _, example, _ in ROWS]
        self.assertIn("drop_last", examples)
        script = "\n".join(f"begin_what_if\n{it}\nend_what_if" if it == "drop_last" else it for it in examples) + "\n"
        status, out, _ = common.run(common.PROGRAM, *common.write_documents(folder, script=script), cwd=folder)
        self.assertEqual(status, 1, out)
        self.assertIn(f"session 1 rows {len(examples)}\n", out)

    def test_all_of_it_is_narrow(self):
        for command in ("", "run", "live", "generate", "install", "test"):
            for line in help_text.of(command).split("\n"):
                self.assertLessEqual(len(line), 120, line)

    def test_which_help_is_asked(self):
        asked = command_line.asked_help
        for words, command in ((["--help"], ""), (["-h"], ""), (["help"], ""), (["help", "run"], "run"),
                               (["run", "-h"], "run"), (["generate", "--help"], "generate"),
                               (["live", "--help"], "live"), (["run", "help"], None), ([], None)):
            self.assertEqual(asked(words), command, words)


if __name__ == "__main__":
    unittest.main()
