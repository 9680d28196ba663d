"""Times the corners of a design in a pool and one by one, in pairs: corners.py [--program FILE] [--cells N] [--corners
C] [--jobs J] [--pairs P]

A design of N cells (default: 5000) is made by bench/design.py with parasitics by bench/spef.py; C corners (default: 8)
have constraints of their own. `lizdrog corners --endpoints` runs them anew, J at a time (default: the processors here)
and one at a time, P times (default: 5), the one or the other first. It prints for both the median of the seconds and of
the seconds of processors, of all processes of a call; and the median and the range of the pool's as a part of the
other's in the same pair. All calls have to give the same slacks. Its status is 1 where that median is above 1.15.
Seconds of processors are the measure where other programs run; they grow a little where these use the same caches.
"""
import argparse
import json
import os
import pathlib
import statistics
import subprocess
import sys
import tempfile
import time

from lizdrog_dev.pairs import made
from lizdrog_tools.places import TOP, find_program

MOST = 1.15


def write_project(folder: pathlib.Path, corners: int) -> None:
    """A project whose corners differ in their constraints."""
    sdc = (folder / "bench.sdc").read_text()
    lines = ['library = "bench.lib"', 'netlist = "bench.v"', 'spef = "bench.spef"', 'sdc = "bench.sdc"']
    for number in range(1, corners + 1):
        (folder / f"c{number}.sdc").write_text(f"{sdc}\nset_timing_derate -late 1.0{number}\n")
        lines += [f"[corners.c{number}]", f'sdc = "c{number}.sdc"']
    (folder / "bench.toml").write_text("\n".join(lines) + "\n")


def spent(program: pathlib.Path, folder: pathlib.Path, jobs: int) -> tuple[float, float, dict]:
    """Seconds and seconds of processors of a call, and the slacks that it gives."""
    words = [sys.executable, TOP / "tools" / "corners.py", "bench.toml", "--endpoints", "--again", "--quiet", "--json"]
    out = folder / "answers.json"
    with open(out, "wb") as sink:
        began = time.monotonic()
        child = subprocess.Popen([*words, "--jobs", str(jobs), "--program", program], cwd=folder, stdout=sink)
        _, status, used = os.wait4(child.pid, 0)
        seconds = time.monotonic() - began
    if status:
        sys.exit(f"corners.py: lizdrog corners ended with the wait status {status}")
    return seconds, used.ru_utime + used.ru_stime, json.loads(out.read_text())["endpoints"]


def line(runs: list[tuple[float, float, dict]]) -> str:
    seconds, processors = (statistics.median(it[at] for it in runs) for at in (0, 1))
    return f"{seconds:.2f} s, {processors:.2f} s of processors"


def timed(given: argparse.Namespace, folder: pathlib.Path) -> dict[int, list[tuple[float, float, dict]]]:
    """The calls with J runs at a time and with one, in turn."""
    runs = {given.jobs: [], 1: []}
    for at in range(given.pairs):
        for jobs in list(runs) if at % 2 == 0 else list(runs)[::-1]:
            runs[jobs].append(spent(given.program, folder, jobs))
    return runs


def main() -> int:
    parser = argparse.ArgumentParser(description=__doc__, formatter_class=argparse.RawDescriptionHelpFormatter)
    parser.add_argument("--program", type=pathlib.Path, default=find_program())
    for name, default in (("--cells", 5000), ("--corners", 8), ("--jobs", os.cpu_count() or 2), ("--pairs", 5)):
        parser.add_argument(name, type=int, default=default)
    given = parser.parse_args()
    if given.program is None or given.jobs < 2 or given.pairs < 1:
        parser.error("a program, --jobs of 2 at least and --pairs of 1 at least are needed")
    given.program = given.program.resolve()
    with tempfile.TemporaryDirectory() as name:
        folder = pathlib.Path(name)
        made(folder, given.cells)
        write_project(folder, given.corners)
        runs = timed(given, folder)
    if any(it[2] != runs[1][0][2] for those in runs.values() for it in those):
        sys.exit("corners.py: two calls gave other slacks")
    ratios = [pool[1] / single[1] for pool, single in zip(runs[given.jobs], runs[1], strict=True)]
    ratio = statistics.median(ratios)
    print(f"{given.corners} corners of {given.cells} cells, {given.jobs} at a time: {line(runs[given.jobs])}")
    print(f"one at a time: {line(runs[1])}")
    print(f"processors: {ratio:.3f} ({min(ratios):.3f} to {max(ratios):.3f}) of one at a time, in {given.pairs} pairs")
    return 1 if ratio > MOST else 0
