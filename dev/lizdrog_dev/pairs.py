"""Times whole runs of one program, or of two beside each other, in pairs: pairs.py PROGRAM [PROGRAM] [--cells N]
[--pairs P] [--workers W ..]

A design of N cells (default: 50000) is made by bench/design.py with parasitics by bench/spef.py. Each script of
design.py that makes no ECO (load: nothing is asked; first: the worst slack; reports: more of them) runs with each
number of workers (default: 1 and 4) and each program P times (default: 9), the programs in turn and the one or the
other first. It prints a line for each: the median and the range of the seconds, the median of the seconds of all
processors, the peak memory; with two programs also the median and the range of the second's seconds as a part of the
first's in the same pair. The outputs of both have to be the same. Where other programs run, the numbers say little.
"""
import argparse
import dataclasses
import os
import pathlib
import statistics
import subprocess
import sys
import tempfile
import time

from lizdrog_tools.places import BENCH

SCRIPTS = ("load", "first", "reports")


@dataclasses.dataclass(frozen=True)
class Spent:
    """What a run took: seconds, seconds of all processors, MB at most; and its output."""

    seconds: float
    processors: float
    megabytes: float
    output: bytes


def made(folder: pathlib.Path, cells: int) -> None:
    """A design of so many cells with its parasitics and scripts in a folder."""
    subprocess.run([sys.executable, BENCH / "design.py", folder, str(cells)], check=True)
    with open(folder / "bench.spef", "w", encoding="ascii") as out:
        subprocess.run([sys.executable, BENCH / "spef.py", "bench.lib", "bench.v"], cwd=folder, stdout=out, check=True)


def words_of(program: str | pathlib.Path, script: str, workers: int) -> list[str]:
    """The words of a run on such a design."""
    return [str(program), "run", "bench.lib", "bench.lib", "bench.v", "bench.sdc", "bench.spef", str(workers),
            f"{script}.eco"]


def run(words: list, folder: pathlib.Path, env: dict[str, str] | None = None) -> Spent:
    """Runs a program in a folder; a run of which a row is no answer ends this one."""
    with tempfile.TemporaryFile() as sink:
        began = time.monotonic()
        child = subprocess.Popen([str(it) for it in words], cwd=folder, stdout=sink, env=env)
        _, status, used = os.wait4(child.pid, 0)
        seconds = time.monotonic() - began
        child.returncode = os.waitstatus_to_exitcode(status)
        if status:
            sys.exit(f"a run of {words[0]} ended with status {child.returncode}")
        sink.seek(0)
        return Spent(seconds, used.ru_utime + used.ru_stime, used.ru_maxrss / 1000, sink.read())


def line(runs: list[Spent]) -> str:
    """The figures of some runs as words."""
    seconds, processors = [it.seconds for it in runs], [it.processors for it in runs]
    return (f"{statistics.median(seconds):6.2f} s ({min(seconds):.2f} to {max(seconds):.2f}), "
            f"{statistics.median(processors):6.2f} s of processors, {max(it.megabytes for it in runs):4.0f} MB")


def timed(programs: list[str], folder: pathlib.Path, script: str, workers: int, pairs: int) -> list[list[Spent]]:
    """The runs of each program, in turn."""
    runs = [[] for _ in programs]
    for at in range(pairs):
        order = range(len(programs)) if at % 2 == 0 else reversed(range(len(programs)))
        for which in order:
            runs[which].append(run(words_of(programs[which], script, workers), folder))
        if len({of[at].output for of in runs}) > 1:
            sys.exit(f"pairs.py: the outputs of {script} differ")
    return runs


def main():
    words = argparse.ArgumentParser(description=__doc__, formatter_class=argparse.RawDescriptionHelpFormatter)
    words.add_argument("program", nargs="+", help="one or two built programs")
    words.add_argument("--cells", type=int, default=50000)
    words.add_argument("--pairs", type=int, default=9)
    words.add_argument("--workers", type=int, nargs="+", default=[1, 4])
    words.add_argument("--script", choices=SCRIPTS, nargs="+", default=list(SCRIPTS))
    words = words.parse_args()
    if len(words.program) > 2:
        words.error("at most two programs")
    programs = [os.path.realpath(it) for it in words.program]
    with tempfile.TemporaryDirectory() as name:
        folder = pathlib.Path(name)
        made(folder, words.cells)
        for script in words.script:
            for workers in words.workers:
                runs = timed(programs, folder, script, workers, words.pairs)
                for program, own in zip(words.program, runs):
                    print(f"{script:7} {workers} workers  {line(own)}  {program}", flush=True)
                if len(runs) == 2:
                    parts = [new.seconds / old.seconds for old, new in zip(*runs, strict=True)]
                    print(f"{script:7} {workers} workers  the second in {statistics.median(parts):.2f} of the first's "
                          f"seconds ({min(parts):.2f} to {max(parts):.2f})", flush=True)
