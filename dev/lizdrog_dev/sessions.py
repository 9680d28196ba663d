"""Times sessions beside each other against one session that does all of their work: bench/sessions.py PROGRAM [CELLS
[PAIRS [WORKERS [TIMES]]]]

PROGRAM is a built program, which takes several scripts. A design of CELLS cells (7,000 where none are given) is made by
design.py, with wires by spef.py. Two kinds of work are timed, in PAIRS pairs of runs (5) of which each begins with the
other form in turn, with WORKERS workers (1); TIMES (1) is how many times of the following each session does:

  questions  four sessions, each of 40 report_path and 2 ECOs, against one session of 160 report_path and 8 ECOs
  edits      four sessions, each of 5 ECOs, against one session of 20

From each time that of a run with an empty script is taken away, which reads the design and analyses it once. It prints
the medians, their ratio (above 1: the four sessions are faster) and that of the pairs, the same of the seconds of all
processors, and how many preparations were made again. An ECO is prepared again where another session published since it
looked; a take stands before each ECO, so the entries of others between the two rows tell: where there are some, it was
prepared again once at least and as often as they are at most (several may have come during one preparation; and none is
owed to one that came between the take and the ECO's own look). Where there are ECOs alone, the seconds of processors
tell it, too: what four sessions spend beyond one, in ECOs of that one. Nobody can tell from the output how long a
session waited, nor which ECO was prepared how often. It needs as many processors as sessions: where other programs run,
its ratios of seconds say nothing.
"""
import pathlib
import random
import resource
import statistics
import subprocess
import sys
import tempfile
import time

from lizdrog_tools.files import read_text
from lizdrog_tools.liberty import Library
from lizdrog_tools.verilog import Joined, Netlist
from lizdrog_tools import read_answers
from lizdrog_tools.places import BENCH

SESSIONS, QUESTIONS, FEW, MANY = 4, 40, 2, 5
OTHER_SIZE = {"INV_X1": "INV_X4", "INV_X4": "INV_X1", "BUF_X2": "BUF_X4", "BUF_X4": "BUF_X2", "NAND2_X1": "NAND2_X2",
              "NAND2_X2": "NAND2_X1"}


def make_design(folder, cells):
    """Writes the design; gives its endpoints, and the resizes that it allows, both shuffled."""
    subprocess.run([sys.executable, BENCH / "design.py", folder, str(cells)], check=True, stdout=subprocess.DEVNULL)
    with open(folder / "bench.spef", "w", encoding="ascii") as out:
        subprocess.run([sys.executable, BENCH / "spef.py", folder / "bench.lib", folder / "bench.v"], check=True,
                       stdout=out)
    library = Library(read_text(folder / "bench.lib"))
    netlist = Netlist(read_text(folder / "bench.v"))
    ends = Joined(netlist, library).endpoints()
    resizes = [f"repower_gate {it.name} {OTHER_SIZE[it.cell]}" for it in netlist.instances.values()
               if it.cell in OTHER_SIZE]
    rand = random.Random(1)
    rand.shuffle(ends)
    rand.shuffle(resizes)
    return ends, resizes


def scripts_of(ends, resizes, questions, ecos):
    """The scripts of all sessions: their questions in as many parts as they have ECOs and one more, an ECO behind each
    but the last."""
    scripts = []
    for session in range(SESSIONS):
        lines, asked = [], [ends[(session * questions + k) % len(ends)] for k in range(questions)]
        part = -(-questions // (ecos + 1))
        for k in range(ecos + 1):
            lines += [f"report_path {pin} setup" for pin in asked[k * part:(k + 1) * part]]
            if k < ecos:
                lines += ["take", resizes[(session * ecos + k) % len(resizes)]]
        scripts.append(lines)
    return scripts


def run(program, folder, workers, names):
    """The output of a run, its seconds, and those of all processors."""
    words = ["run", "bench.lib", "bench.lib", "bench.v", "bench.sdc", "bench.spef", str(workers), *names]
    before, begin = resource.getrusage(resource.RUSAGE_CHILDREN), time.monotonic()
    ran = subprocess.run([program, *words], cwd=folder, stdout=subprocess.PIPE, text=True, check=False)
    took, after = time.monotonic() - begin, resource.getrusage(resource.RUSAGE_CHILDREN)
    if ran.returncode != 0:
        sys.exit(f"sessions.py: status {ran.returncode}: {ran.stdout[:300]}")
    return ran.stdout, took, after.ru_utime - before.ru_utime + after.ru_stime - before.ru_stime


def prepared_again(text):
    """At least and at most how many preparations were made again."""
    least = most = 0
    for rows in read_answers.Output(text).sessions:
        for before, row in zip(rows, rows[1:]):
            if row.sort == "accepted":
                others = row.design - 1 - before.design
                least, most = least + (others > 0), most + others
    return least, most


def timed(program, folder, workers, pairs, name, scripts):
    """Times scripts beside each other against all of them in one."""
    names = []
    for number, lines in enumerate(scripts, 1):
        names.append(f"{name}{number}.eco")
        (folder / names[-1]).write_text("".join(f"{line}\n" for line in lines))
    (folder / f"{name}.eco").write_text("".join(f"{line}\n" for lines in scripts for line in lines))
    forms, again = {"beside": [], "alone": []}, []
    for pair in range(pairs):
        for form in sorted(forms, reverse=pair % 2 == 1):
            text, took, spent = run(program, folder, workers, names if form == "beside" else [f"{name}.eco"])
            _, empty, spent_empty = run(program, folder, workers, ["none.eco"])
            forms[form].append((took - empty, spent - spent_empty))
            if form == "beside":
                again.append(prepared_again(text))
    report(name, forms, again, sum(line.startswith("repower") for lines in scripts for line in lines))


def report(name, forms, again, ecos):
    beside, alone = forms["beside"], forms["alone"]
    for place, what in ((0, "seconds"), (1, "seconds of processors")):
        one, four = ([it[place] for it in form] for form in (alone, beside))
        ratios = sorted(x / y for x, y in zip(one, four) if y > 0)
        told = (
            f"pairs {ratios[0]:.2f} to {ratios[-1]:.2f}, {statistics.median(ratios):.2f} in the median"
            if ratios
            else "no pair could be timed"
        )
        a, b = statistics.median(one), statistics.median(four)
        print(f"{name}: {what}: one session {a:.3f}, {SESSIONS} beside each other {b:.3f}: ratio "
              f"{a / b if b > 0 else 0:.2f} ({told})")
    print(f"{name}: of {ecos} ECOs, prepared again in each run: " + ", ".join(f"{x}" if x == y else f"{x} to {y}" for x,
                                                                              y in again))
    if name == "edits" and a > 0:
        print(f"{name}: by the seconds of processors some {(b - a) * ecos / a:.0f} were prepared again in each run")


def main():
    if len(sys.argv) < 2 or sys.argv[1].startswith("-"):
        sys.exit(__doc__)
    program = pathlib.Path(sys.argv[1]).resolve()
    cells, pairs, workers, times = [int(it) for it in sys.argv[2:6]] + [7000, 5, 1, 1][len(sys.argv[2:6]):]
    with tempfile.TemporaryDirectory() as name:
        folder = pathlib.Path(name)
        ends, resizes = make_design(folder, cells)
        (folder / "none.eco").write_text("")
        print(f"{cells} cells, {len(ends)} endpoints, {workers} workers, {pairs} pairs", flush=True)
        timed(program, folder, workers, pairs, "questions", scripts_of(ends, resizes, times * QUESTIONS, times * FEW))
        timed(program, folder, workers, pairs, "edits", scripts_of(ends, resizes, 0, times * MANY))
