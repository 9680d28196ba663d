"""What the tests of the importer share: a project in a folder of its own, and what the import of it says."""
import contextlib
import io
import json
import pathlib
import shutil
import tempfile
import unittest

import common
from lizdrog_tools.importing import command

CLOCK = "create_clock -name clk -period 100 [get_ports clk]\nset_propagated_clock [all_clocks]\n"


class Project(unittest.TestCase):
    """A test with a project: the small design of the other tests, of which parts are changed."""

    def setUp(self):
        self.folder = pathlib.Path(tempfile.mkdtemp())
        self.addCleanup(shutil.rmtree, self.folder)
        self.write({"cells.lib": common.LIBRARY, "top.v": common.NETLIST, "top.sdc": CLOCK})
        self.project = {"library": "cells.lib", "netlist": "top.v", "sdc": "top.sdc"}

    def write(self, texts):
        for name, text in texts.items():
            (self.folder / name).write_bytes(text if isinstance(text, bytes) else text.encode("latin-1"))

    def write_project(self, **changed):
        lines = [f"{key} = {toml(value)}" for key, value in {**self.project, **changed}.items() if value is not None]
        self.write({"p.toml": "\n".join(lines) + "\n"})

    def run_import(self, **changed):
        """The status of an import and what it says on standard error; keys of the project may be changed."""
        self.write_project(**changed)
        shutil.rmtree(self.folder / "p.import", ignore_errors=True)
        said, errors = io.StringIO(), io.StringIO()
        with contextlib.redirect_stdout(said), contextlib.redirect_stderr(errors):
            status = command.called([str(self.folder / "p.toml")])
        return status, errors.getvalue().replace(f"{self.folder}/", "")

    def assert_noted(self, note, **changed):
        """All is expressed, and one note is printed beside it."""
        status, errors = self.run_import(**changed)
        self.assertEqual(status, 0, errors)
        self.assertEqual(errors.count("\n"), 1, errors)
        self.assertIn(f"import: note: {note}", errors)

    def made(self, name):
        """A file that the import wrote."""
        return (self.folder / "p.import" / name).read_text()

    def report(self):
        return json.loads(self.made("import.json"))

    def kinds(self, part):
        return {it["kind"] for it in self.report()[part]}

    def sdc_lines(self, text, **changed):
        """The lines that come of constraints behind those of a propagated clock, which all have to be expressed."""
        self.write({"top.sdc": CLOCK + text})
        status, errors = self.run_import(**changed)
        self.assertEqual((status, errors), (0, ""))
        lines = self.made("constraints.sdc").replace("\\\n   ", "").splitlines()
        return [
            it
            for it in lines
            if not it.startswith(
                ("set sdc_version", "current_design", "set_units", "create_clock -name clk ", "set_propagated")
            )
        ]

    def refusal(self, text, **changed):
        """What is said of constraints, from the third line on, that change slacks: then nothing is written."""
        self.write({"top.sdc": CLOCK + text})
        status, errors = self.run_import(**changed)
        self.assertEqual(status, 2, errors)
        self.assertFalse((self.folder / "p.import").exists())
        return errors


def toml(value):
    """A value as TOML writes it."""
    if isinstance(value, dict):
        return "{ " + ", ".join(f'"{key}" = {toml(it)}' for key, it in value.items()) + " }"
    return json.dumps(value) if isinstance(value, str) else "[" + ", ".join(map(toml, value)) + "]"
