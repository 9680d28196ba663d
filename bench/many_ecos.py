#!/usr/bin/env python3
"""Tells the memory of many ECOs: bench/many_ecos.py PROGRAM [CELLS [SESSIONS [ECOS [WORKERS]]]]

A design of CELLS cells (50,000 where none are given) is made by design.py, with wires by spef.py. SESSIONS sessions
(16) run beside each other with WORKERS workers (1), each of ECOS resizes (1,000) of gates that no other session has,
every tenth followed by `report_wns setup`. It prints the most memory that the
run had, the seconds of all processors, and how many entries the journal has. The status is 1 where one is missing."""
import os
import pathlib
import random
import re
import subprocess
import sys
import tempfile

from lizdrog_dev import pairs

SIZES = ["NAND2_X1", "NAND2_X2"]


def script(gates, count, draw):
    """So many resizes of some gates, from the one size to the other and back."""
    size, lines = dict.fromkeys(gates, 0), []
    for number in range(1, count + 1):
        gate = draw.choice(gates)
        size[gate] = 1 - size[gate]
        lines.append(f"repower_gate {gate} {SIZES[size[gate]]}\n")
        if number % 10 == 0:
            lines.append("report_wns setup\n")
    return "".join(lines)


def main():
    if len(sys.argv) < 2 or sys.argv[1] in ("-h", "--help"):
        print(__doc__)
        return 0
    program = pathlib.Path(sys.argv[1]).resolve()
    cells, sessions, count, workers = [int(it) for it in sys.argv[2:6]] + [50000, 16, 1000, 1][len(sys.argv) - 2 :]
    with tempfile.TemporaryDirectory() as name:
        folder = pathlib.Path(name)
        pairs.made(folder, cells)
        gates = re.findall(rf"^  {SIZES[0]} \\?(\S+) ", (folder / "bench.v").read_text(), re.M)
        draw = random.Random(1)
        draw.shuffle(gates)
        scripts = [f"session_{number}.eco" for number in range(1, sessions + 1)]
        for place, file in enumerate(scripts):
            (folder / file).write_text(script(gates[place::sessions], count, draw))
        words = [program, "run", "bench.lib", "bench.lib", "bench.v", "bench.sdc", "bench.spef", str(workers), *scripts]
        with open(folder / "answers", "w+", encoding="utf-8") as answers:
            child = subprocess.Popen(words, cwd=folder, stdout=answers)
            _, status, used = os.wait4(child.pid, 0)
            answers.seek(0)
            entries = sum(line.startswith("entry ") for line in answers)
    print(f"{cells} cells, {sessions} sessions of {count} ECOs, {workers} worker{'' if workers == 1 else 's'}: "
          f"{entries} entries, {used.ru_maxrss // 1024:,} MB at most, {used.ru_utime + used.ru_stime:.0f} s of "
          f"processors, wait status {status}")
    return 0 if status == 0 and entries == sessions * count else 1


if __name__ == "__main__":
    sys.exit(main())
