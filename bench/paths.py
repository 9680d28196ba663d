#!/usr/bin/env python3
"""Times questions about paths to the deepest endpoint: paths.py [--cells N ..] [--rounds R] [--times T] [--workers W]
[--program FILE ..]

A design of N cells (default: 50000; several N one after the other) is made by bench/design.py with parasitics by
bench/spef.py; its deepest endpoint is the data pin of a register with the most gates before it, on the way that has
most. Each question is asked many times in a run of its own, a run without questions is made beside it, and what a
question takes is the difference by the number of questions: seconds of processors (of user and system) since the
session's thread began, and page faults. So reading and the first analysis are left out (since_thread.c beside this
script, compiled and loaded before the C library, tells the time since the last thread began), and what is written and
given up at a run's end is in. The questions are

  report_path PIN setup           the worst path, 20 T times
  report_paths PIN setup K        the K worst paths, for K of 1 (20 T times), 10 (5 T times) and 100 (T times; default:
                                  200)
  report_through PIN setup P ..   with --through: the worst path through pins of the worst path, 1, 4 and 16 of them,
                                  spread over it (10 T times)

A round has a run of each question and one without; the first in turn is another one in each round. It prints for each
question the median and the range of R rounds (default: 7) in milliseconds, page faults, the paths that were told, and
how many times report_path of the same round it takes. FILE is the program to run (default: the one that the gate has
proved and built); of several the questions run beside each other, and their answers have to be the same. Where other
programs run, the numbers say little, and the ratio says more than the milliseconds.
"""
import argparse
import os
import pathlib
import statistics
import subprocess
import sys
import tempfile

from lizdrog_dev import design
from lizdrog_dev import ecos
from lizdrog_dev import trials

MOST = 10000


def deepest(cells):
    """The data pin with the most gates before it on some way, and their number."""
    netlist, _ = design.build(cells)
    read = {pins[-1][1]: [net for _, net in pins[:-1]] for cell, _, pins in netlist.instances if cell != "DFF_X1"}
    gates = {}
    for first in read:
        todo = [first]
        while todo:
            net = todo[-1]
            missing = [it for it in read[net] if it in read and it not in gates]
            if missing:
                todo += missing
            else:
                gates[todo.pop()] = 1 + max(gates.get(it, 0) for it in read[net])
    ends = [(gates.get(pins[0][1], 0), f"{name}:D") for cell, name, pins in netlist.instances if cell == "DFF_X1"]
    return max(ends)


def run(program, folder, question, times, workers):
    """The output of a run with a question so many times, its seconds of processors since its session began, its page
    faults and its MB."""
    (folder / "asked.eco").write_text((question + "\n") * times)
    words = [program, "run", "bench.lib", "bench.lib", "bench.v", "bench.sdc", "bench.spef", str(workers), "asked.eco"]
    out, since = folder / "output", folder / "since"
    since.unlink(missing_ok=True)
    with open(out, "wb") as sink:
        child = subprocess.Popen(
            words,
            cwd=folder,
            stdout=sink,
            env={**os.environ, "LD_PRELOAD": str(folder / "since_thread.so"), "SINCE_FILE": str(since)},
        )
        _, status, used = os.wait4(child.pid, 0)
    if status:
        sys.exit(f"paths.py: a run of {program} ended with the wait status {status}: {out.read_bytes()[:300]}")
    return out.read_bytes(), int(since.read_text().split()[0]) / 1e9, used.ru_minflt, used.ru_maxrss / 1000


def spread(pins, count):
    """So many pins of a list, spread evenly over it."""
    count = min(count, len(pins))
    return [pins[(2 * k + 1) * len(pins) // (2 * count)] for k in range(count)]


def questions(program, folder, pin, words):
    """The questions about a pin, each with the times that it is asked."""
    shown = run(program, folder, f"report_path {pin} setup", 1, words.workers)[0].decode().split("\n")
    pins = [line.split(" ")[0] for line in shown[3:-2]]
    asked = {f"report_path {pin} setup": 20 * words.times}
    for count, times in ((1, 20), (10, 5), (100, 1)):
        asked[f"report_paths {pin} setup {count}"] = times * words.times
    for count in (1, 4, 16) if words.through else ():
        asked[f"report_through {pin} setup {' '.join(spread(pins, count))}"] = 10 * words.times
    return {question: min(times, MOST) for question, times in asked.items()}


def name_of(question):
    """A question as it is printed."""
    name, _, _, *more = question.split(" ")
    of = (
        ""
        if name == "report_path"
        else f" {more[0]}" if name == "report_paths" else f", {len(more)} pin{'s' * (len(more) > 1)}"
    )
    return name + of


def told(output, times):
    """The paths of each answer."""
    return sum(line.startswith(b"path setup ") or b" path setup " in line for line in output.split(b"\n")) // times


def one_round(programs, folder, asked, turn, workers):
    """What each question takes in a round, for each program: milliseconds, page faults, paths told and MB of the
    run."""
    todo = [(program, question) for question in [None, *asked] for program in programs]
    todo = todo[turn % len(todo):] + todo[:turn % len(todo)]
    took, outputs = {}, {}
    for program, question in todo:
        output, seconds, faults, memory = run(program, folder, question or "", asked.get(question, 0), workers)
        if outputs.setdefault(question, output) != output:
            sys.exit(f"paths.py: the programs answer {question or 'nothing'} in two ways")
        took[program, question] = seconds, faults, told(output, asked.get(question, 1)), memory
    return {
        (program, question): (
            1000 * (took[program, question][0] - took[program, None][0]) / times,
            (took[program, question][1] - took[program, None][1]) / times,
            *took[program, question][2:],
        )
        for program in programs
        for question, times in asked.items()
    }


def printed(rounds, program, question, first, times):
    """The line of a question."""
    took = [it[program, question] for it in rounds]
    spent = [it[0] for it in took]
    parts = [it[program, question][0] / it[program, first][0] for it in rounds]
    return (
        f"{name_of(question):22} median {statistics.median(spent):7.3f} ms ({min(spent):.3f} to {max(spent):.3f}),"
        f" {statistics.median(parts):5.1f} times report_path ({min(parts):.1f} to {max(parts):.1f}),"
        f" {statistics.median(it[1] for it in took):6.1f} page faults;"
        f" {took[0][2]} path{'' if took[0][2] == 1 else 's'} told; {times} questions in"
        f" {max(it[3] for it in took):.0f} MB"
    )


def main():
    words = argparse.ArgumentParser(description=__doc__, formatter_class=argparse.RawDescriptionHelpFormatter)
    words.add_argument("--cells", type=int, nargs="+", default=[50000])
    words.add_argument("--rounds", type=int, default=7)
    words.add_argument("--times", type=int, default=200)
    words.add_argument("--workers", type=int, default=1)
    words.add_argument("--through", action="store_true")
    words.add_argument(
        "--program", type=pathlib.Path, nargs="+", default=[ecos.TOP / "crates/timing_shell/out/timing_shell"]
    )
    words = words.parse_args()
    programs = [os.path.realpath(it) for it in words.program]
    for cells in words.cells:
        gates, pin = deepest(cells)
        with tempfile.TemporaryDirectory() as name:
            folder = pathlib.Path(name)
            ecos.made(folder, cells)
            trials.compiled("since_thread.c", folder)
            asked = questions(programs[0], folder, pin, words)
            print(f"{cells} cells, {pin}: at most {gates} gates before it; {words.rounds} rounds, {words.workers} "
                  f"worker{'' if words.workers == 1 else 's'}; per question, of processors", flush=True)
            rounds = [one_round(programs, folder, asked, at, words.workers) for at in range(words.rounds)]
            for program in programs:
                if len(programs) > 1:
                    print(program)
                for question, times in asked.items():
                    print(printed(rounds, program, question, next(iter(asked)), times), flush=True)


if __name__ == "__main__":
    main()
