#!/usr/bin/env python3
"""Times drafts and advice beside ECOs: drafts.py [--cells N] [--pairs P] [--each E] [--candidates C] [--workers W]
[--program FILE]

A design of N cells (default: 50000) is made by bench/design.py with parasitics by bench/spef.py. Each of P rounds
(default: 9) draws a gate of the data path and makes four runs, one after the other, in another order each time:

  alone   report_wns setup
  eco     and E times (default: 40) a resize of the gate, to the stronger cell or back, with report_wns setup behind it
  draft   and E times a draft of that resize and report_wns setup: begin_what_if, repower_gate, report_wns, end_what_if
  advice  and a quarter of E times `advise setup` with C (default: 20) other gates, each to its stronger cell

The milliseconds of an ECO, a draft and an advice are the difference to the run alone, by how many there are. It prints
for each the median and the range of the rounds, the median and the range of a draft by an ECO of the same round, and
the same of an advice by C ECOs. FILE is the program to run (default: the one that the gate has proved and built). Where
other programs run, the numbers say little.
"""
import argparse
import os
import pathlib
import random
import re
import statistics
import tempfile

from lizdrog_dev import ecos


def scripts(name, others, each):
    """The scripts of a round, by the names of its runs."""
    sizes = [2 - at % 2 for at in range(each)]
    draft = f"begin_what_if\nrepower_gate {name} NAND2_X2\n{ecos.REPORT}end_what_if\n"
    return {"alone": "", "eco": "".join(f"repower_gate {name} NAND2_X{size}\n{ecos.REPORT}" for size in sizes),
            "draft": draft * each,
            "advice": f"advise setup {' '.join(f'{it} NAND2_X2' for it in others)}\n" * max(1, each // 4)}


def told(what, values, unit=" ms"):
    print(f"{what:30} median {statistics.median(values):8.2f}{unit} ({min(values):.2f} to {max(values):.2f})",
          flush=True)


def main():
    words = argparse.ArgumentParser(description=__doc__, formatter_class=argparse.RawDescriptionHelpFormatter)
    for name, value in (("--cells", 50000), ("--pairs", 9), ("--each", 40), ("--candidates", 20), ("--workers", 1)):
        words.add_argument(name, type=int, default=value)
    words.add_argument("--program", type=pathlib.Path, default=ecos.TOP / "crates/timing_shell/out/timing_shell")
    words = words.parse_args()
    program, rand = os.path.realpath(words.program), random.Random(7)
    with tempfile.TemporaryDirectory() as name:
        folder = pathlib.Path(name)
        names = re.findall(r"^  NAND2_X1 \\?(\S+) ", ecos.made(folder, words.cells), re.M)
        took = {"eco": [], "draft": [], "advice": []}
        for _ in range(words.pairs):
            gate, *others = rand.sample(names, 1 + words.candidates)
            asked = scripts(gate, others, words.each)
            order = list(asked)
            rand.shuffle(order)
            seconds = {run: ecos.spent(program, folder, ecos.REPORT + asked[run], words.workers) for run in order}
            for run, count in (("eco", words.each), ("draft", words.each), ("advice", max(1, words.each // 4))):
                took[run].append(1000 * (seconds[run] - seconds["alone"]) / count)
    print(f"{words.cells} cells, {words.workers} worker{'s' * (words.workers > 1)}, {words.pairs} rounds")
    told("an ECO with its report", took["eco"])
    told("a draft of the same", took["draft"])
    told(f"an advice of {words.candidates}", took["advice"])
    told("a draft by an ECO", [a / b for a, b in zip(took["draft"], took["eco"])], " times")
    told(f"an advice by {words.candidates} ECOs", [a / b / words.candidates for a,
                                                   b in zip(took["advice"], took["eco"])], " times")


if __name__ == "__main__":
    main()
