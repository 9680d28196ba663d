#!/usr/bin/env python3
"""Times the replay of a saved journal: replay.py [--cells N] [--entries E] [--pairs P] [--workers W] [--folder DIR]
[--program FILE]

A design of N cells (default: 50000) is made by bench/design.py with parasitics by bench/spef.py, and a journal of E
entries (default: 10000), each the resize of a gate of the data path, to the stronger cell or back. P pairs of runs with
an empty script are made (default: 3): one on the saved journal, one on an empty one. The seconds of the replay are the
difference, the reading of the journal among them; the processor's seconds are given beside. Both last lines have to
agree with E. With --folder the design is kept there, and taken from there where it is there already. FILE is the
program to run (default: the one that the gate has proved and built).
"""
import argparse
import os
import pathlib
import random
import re
import resource
import statistics
import subprocess
import sys
import tempfile
import time

from lizdrog_dev import ecos

STRONGER = {"NAND2_X1": "NAND2_X2", "NAND2_X2": "NAND2_X1", "INV_X1": "INV_X4", "INV_X4": "INV_X1", "BUF_X2": "BUF_X4",
            "BUF_X4": "BUF_X2"}


def journal(text, entries, derates):
    """A saved journal of resizes of drawn gates, each to the other cell than the one that it has."""
    cells = {name: cell for cell, name in re.findall(r"^  (\w+) \\?(\S+) +\(", text, re.M) if cell in STRONGER}
    drawn, rand = [], random.Random(11)
    while len(drawn) < entries:
        round_of_all = sorted(cells)
        rand.shuffle(round_of_all)
        drawn += round_of_all
    lines = [f"journal 2 0 {entries}\n{derates}\n"]
    for number, name in enumerate(drawn[:entries], 1):
        cells[name] = STRONGER[cells[name]]
        lines.append(f"entry {number} session 1 edits 1\nrepower_gate {name} {cells[name]}\n")
    return "".join(lines)


def spent(program, folder, name, workers, count):
    """The seconds and the processor's seconds of a run on a saved journal with so many entries, and the derates of its
    block."""
    words = [program, "run", "--journal", name, "bench.lib", "bench.lib", "bench.v", "bench.sdc", "bench.spef",
             str(workers), "empty.eco"]
    before, began = resource.getrusage(resource.RUSAGE_CHILDREN), time.monotonic()
    done = subprocess.run(words, cwd=folder, capture_output=True, text=True, check=False)
    seconds, after = time.monotonic() - began, resource.getrusage(resource.RUSAGE_CHILDREN)
    if done.returncode or f"\nfinal {count} " not in done.stdout:
        sys.exit(f"replay.py: a run ended with {done.returncode}: {done.stdout[:300]}{done.stderr[:300]}")
    return seconds, after.ru_utime - before.ru_utime + after.ru_stime - before.ru_stime, done.stdout.split("\n")[1]


def timed(folder, words):
    program = os.path.realpath(words.program)
    text = (folder / "bench.v").read_text() if (folder / "bench.v").exists() else ecos.made(folder, words.cells)
    (folder / "empty.eco").write_text("")
    (folder / "empty.journal").write_text("")
    alone, whole = [], []
    for _ in range(words.pairs):
        alone.append(spent(program, folder, "empty.journal", words.workers, 0))
        (folder / "saved.journal").write_text(journal(text, words.entries, alone[0][2]))
        whole.append(spent(program, folder, "saved.journal", words.workers, words.entries))
    for place, what in ((0, "seconds"), (1, "seconds of processors")):
        took = [x[place] - y[place] for x, y in zip(whole, alone)]
        print(f"{words.cells} cells, {words.entries} entries: {what}: replayed in {statistics.median(took):.2f} "
              f"(pairs {min(took):.2f} to {max(took):.2f}), beside a run without entries of "
              f"{statistics.median(it[place] for it in alone):.2f}")
    print(f"greatest memory: {resource.getrusage(resource.RUSAGE_CHILDREN).ru_maxrss // 1000} MB")


def main():
    words = argparse.ArgumentParser(description=__doc__, formatter_class=argparse.RawDescriptionHelpFormatter)
    words.add_argument("--cells", type=int, default=50000)
    words.add_argument("--entries", type=int, default=10000)
    words.add_argument("--pairs", type=int, default=3)
    words.add_argument("--workers", type=int, default=1)
    words.add_argument("--folder", type=pathlib.Path)
    words.add_argument("--program", type=pathlib.Path, default=ecos.TOP / "crates/timing_shell/out/timing_shell")
    words = words.parse_args()
    if words.folder:
        words.folder.mkdir(parents=True, exist_ok=True)
        timed(words.folder, words)
        return
    with tempfile.TemporaryDirectory() as name:
        timed(pathlib.Path(name), words)


if __name__ == "__main__":
    main()
