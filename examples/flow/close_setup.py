#!/usr/bin/env python3
"""A flow to copy: run, read, resize, run. close_setup.py EARLY LATE NETLIST SDC SPEF ACCEPTED [--rounds N] [--lizdrog
COMMAND]

Each round asks for the worst setup paths, tries other sizes of the gates along them, each by itself, and keeps the one
that helps most, if it harms no hold slack. ACCEPTED is a script: the edits that are there already (none in the first
run), to which the new ones are added. A trial is an edit, a question and the edit back, in a run whose journal is
thrown away; so ACCEPTED has no trial in it, and the run on it is the change order: its journal goes to the layout by
tools/convert_journal.py.

What a team will want to change: which gates are tried (candidates), what counts as better (is_better), and which names
are sizes of one cell (SIZE: here a cell's name ends with X and a number, as in INVX2).
"""
import argparse
import copy
import pathlib
import re
import subprocess
import sys
import tempfile

from lizdrog_tools import read_answers
from lizdrog_tools.files import tool
from lizdrog_tools.liberty import read_library
from lizdrog_tools.places import TOP
from lizdrog_tools.verilog import read_netlist

SIZE = re.compile(r"X\d+$")
PATHS, TRIALS = 3, 24


class Lizdrog:
    """Runs scripts on the documents of a design."""

    def __init__(self, command, files):
        self.command, self.files = command, files

    def run(self, lines):
        """The rows of a script, and its output."""
        with tempfile.NamedTemporaryFile("w", suffix=".eco") as script:
            script.write("\n".join(lines) + "\n")
            script.flush()
            ran = subprocess.run([self.command, "run", *self.files, "4", script.name], stdout=subprocess.PIPE,
                                 text=True, check=False)
        if ran.returncode not in (0, 1):
            sys.exit(f"close_setup: the run ended with status {ran.returncode}: {ran.stdout.strip()}")
        output = read_answers.Output(ran.stdout)
        return output.sessions[0], output


def measures(rows):
    """Worst and total negative slack of setup and worst hold slack, of three rows."""
    return [read_answers.thousandths(it.words[0]) if it.words[0] != "none" else 0 for it in rows]


ASKED = ["report_wns setup", "report_tns setup", "report_wns hold"]


def is_better(new, old):
    """Whether three measures are better: less negative slack in total, or a better worst one, and hold no worse than it
    may be."""
    return (new[1], new[0]) > (old[1], old[0]) and new[2] >= min(old[2], 0)


def candidates(row, edited):
    """Gates of a path with their other sizes: the slowest stages first."""
    lines = [it for it in read_answers.path_lines(row, edited) if it["net"] and it["stage"]]
    for line in sorted(lines, key=lambda it: -read_answers.thousandths(it["stage"])):
        cell = edited.library.cells.get(line["cell"])
        family = SIZE.sub("", line["cell"])
        if cell and not cell.tests:
            for other in sorted(edited.library.cells):
                same_pins = {name: way for name, (way, _) in edited.library.cells[other].pins.items()} == {
                    name: way for name, (way, _) in cell.pins.items()
                }
                if other != line["cell"] and SIZE.sub("", other) == family and same_pins:
                    yield line["pin"].rpartition(":")[0], line["cell"], other


def one_round(lizdrog, accepted, design):
    """The edit that helps most, with the measures before and after; none where no edit helps."""
    rows, output = lizdrog.run([*accepted, *ASKED, f"report_worst setup {PATHS}"])
    before, ends = measures(rows[-4:-1]), [pin for pin, time in rows[-1].below if time.startswith("-")]
    if not ends:
        return before, None, before
    rows, output = lizdrog.run([*accepted, *(f"report_path {pin} setup" for pin in ends)])
    edited = read_answers.Edited(*design(), output.ecos)
    edited.at(len(output.ecos))
    tried = list(dict.fromkeys(it for row in rows[-len(ends):] for it in candidates(row, edited)))[:TRIALS]
    trials = [line for gate, old, new in tried for line in (f"repower_gate {gate} {new}", *ASKED,
                                                            f"repower_gate {gate} {old}")]
    rows, _ = lizdrog.run([*accepted, *trials])
    best, after = None, before
    for number, (gate, _, new) in enumerate(tried):
        row, *asked = rows[len(rows) - len(trials) + 5 * number:][:4]
        if row.sort == "accepted" and is_better(measures(asked), after):
            best, after = f"repower_gate {gate} {new}", measures(asked)
    return before, best, after


@tool("close_setup")
def main():
    parser = argparse.ArgumentParser(description=__doc__, formatter_class=argparse.RawDescriptionHelpFormatter)
    for name in ("early", "late", "netlist", "sdc", "spef", "accepted"):
        parser.add_argument(name)
    parser.add_argument("--rounds", type=int, default=10)
    parser.add_argument("--lizdrog", default=str(TOP / "lizdrog"))
    given = parser.parse_args()
    lizdrog = Lizdrog(given.lizdrog, [given.early, given.late, given.netlist, given.sdc, given.spef])
    library, netlist = read_library(given.late), read_netlist(given.netlist)
    file = pathlib.Path(given.accepted)
    accepted = [it for it in file.read_text().split("\n") if it.strip()
                and not it.startswith("#")] if file.exists() else []
    for number in range(1, given.rounds + 1):
        before, edit, after = one_round(lizdrog, accepted, lambda: (copy.deepcopy(netlist), library))
        worst, total, hold = map(read_answers.picoseconds, before)
        print(f"round {number}: setup worst {worst} ps, total {total} ps; hold worst {hold} ps")
        if edit is None:
            print("  met" if before[0] >= 0 else "  no size that was tried helps: try a buffer, or another place")
            return 0 if before[0] >= 0 else 1
        print(f"  {edit}: setup worst {read_answers.picoseconds(after[0])} ps, total "
              f"{read_answers.picoseconds(after[1])} ps")
        accepted.append(edit)
        file.write_text("\n".join(accepted) + "\n")
    return 1


if __name__ == "__main__":
    sys.exit(main())
