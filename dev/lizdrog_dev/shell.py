"""Times the whole program on a generated design: bench/shell.py [--cells N] [--program FILE]

N is 50,000 where none is given, and at most some 65,000. FILE is a built program; without it the proved one, or else
the one without proof. For 1, 2 and 4 workers it prints the seconds, the seconds of all processors together, and the
peak memory of a run that only loads the design, of one that also asks for the worst slack, of one with more reports,
and of one with an ECO and with ten after them; then the seconds that an ECO takes, a ninth of what ten take beyond one.
It checks that all rows are answers, and the same for each number of workers.
"""
import argparse
import pathlib
import sys
import tempfile

from lizdrog_dev import pairs, trials

SCRIPTS = ("load", "first", "reports", "eco1", "eco10")
WORKERS = (1, 2, 4)


def timed(program: pathlib.Path, folder: pathlib.Path, workers: int) -> dict[str, pairs.Spent]:
    """A run of each script with so many workers, told as it ends."""
    runs = {}
    for script in SCRIPTS:
        runs[script] = it = pairs.run(pairs.words_of(program, script, workers), folder)
        print(f"{workers} workers, {script:7} {it.seconds:7.2f} s, {it.processors:7.2f} s of processors, "
              f"{it.megabytes:4.0f} MB", flush=True)
    one, ten = runs["eco1"], runs["eco10"]
    print(f"{workers} workers, an ECO {(ten.seconds - one.seconds) / 9:.2f} s, "
          f"{(ten.processors - one.processors) / 9:.2f} s of processors", flush=True)
    return runs


def main() -> int:
    parser = argparse.ArgumentParser(description=__doc__, formatter_class=argparse.RawDescriptionHelpFormatter)
    parser.add_argument("--cells", type=int, default=50000, metavar="N")
    parser.add_argument("--program", metavar="FILE")
    given = parser.parse_args()
    program = trials.find_program(given.program)
    with tempfile.TemporaryDirectory() as name:
        folder = pathlib.Path(name)
        pairs.made(folder, given.cells)
        pairs.run(pairs.words_of(program, "load", 1), folder)
        runs = [timed(program, folder, workers) for workers in WORKERS]
    for script in SCRIPTS:
        if len({of[script].output for of in runs}) > 1:
            sys.exit(f"shell: the output of {script} is not the same for each number of workers")
    print(runs[0]["eco10"].output.decode().splitlines()[-1])
    return 0
