"""Measures Lizdrog beside OpenSTA on real netlists, in alternating runs: bench/real.py FOLDER [--design NAME ..]
[--work WORK ..] [--pairs N] [--quick] [--program FILE]

FOLDER has early.lib and late.lib, and for each design NAME (little, medium and wide where none is said):
  NAME.v, NAME.sdc, NAME.spef   the netlist with its top NAME_top, constraints, parasitics, as both programs read them
  NAME.eco, NAME.clkeco         resizes, and resizes of clock buffers: lines INSTANCE CELL
  NAME.bufeco                   buffers: lines NET INSTANCE PIN BUFFER NEW_NET, a BUFX2 before one sink
Such designs are made with yosys from sources in Verilog and the cells of qflow-tech-osu018.

The works, each of both programs on the same list, with one worker where nothing else is said:
  load          read, analyse, ask for the worst slack; with one worker and with four
  resize        a gate is resized, and the worst slack asked for; with one worker and with four
  buffer, clock a buffer is inserted; a clock buffer is resized; the worst slack is asked for; the clock with four, too
  silent        resizes without a question but one at the end
  path, paths   the worst path, and the 20 worst paths, of each of the 100 worst endpoints in turn
  sessions      the resizes by four sessions beside each other (OpenSTA: one after the other)
  instructions  what load, resize, buffer and clock take by instructions (those of them that are asked for, all where
                none is), which other programs do not disturb, so that runs go beside each other: by `perf stat` where
                the machine counts them, else by valgrind's cachegrind, some 30 times slower

Each of N pairs (7; with --quick 3, on a fourth of each list) runs a work with the one or the other program first. Times
are seconds of processors since the program had loaded and analysed (the load's own: of the whole run): of Lizdrog those
since its sessions began, less those of a run with one question, of OpenSTA what the kernel counts around its list. The
settings of the C library that `./lizdrog` asks for are Lizdrog's alone. It prints a table of medians, with the ratio of
each pair (below 1: Lizdrog is faster) in median and range, also by the clock, and the greatest memory, which the kernel
never counts below this measuring process's own (some 26 MB). Where other programs run, seconds by the clock say nothing
and those of processors little: it prints how busy the machine was. The worst slacks that it prints for both are not the
same, since OpenSTA's wires and slews go by the library's thresholds.
"""
import argparse
import concurrent.futures
import dataclasses
import os
import pathlib
import re
import shutil
import statistics
import subprocess
import sys
import tempfile

from lizdrog_dev import pairs, trials
from lizdrog_tools import places, run_lizdrog

DESIGNS = ("little", "medium", "wide")
SUFFIXES = {"resize": "eco", "silent": "eco", "sessions": "eco", "buffer": "bufeco", "clock": "clkeco"}
# How many lines of its list a work takes: of a measure in seconds, and of one in instructions.
MOST = {"resize": 1000, "silent": 1000, "sessions": 1000, "buffer": 300, "clock": 40, "path": 2000, "paths": 400}
COUNTED = {"resize": 100, "buffer": 100, "clock": 8}
# The works, each with its numbers of workers and the words that the table has for one of it.
WORKS = {
    "load": ((1, 4), "load, one question"),
    "resize": ((1, 4), "a gate resized"),
    "buffer": ((1,), "a buffer inserted"),
    "clock": ((1, 4), "a clock buffer resized"),
    "silent": ((1,), "a gate resized, nothing asked"),
    "path": ((1,), "`report_path`"),
    "paths": ((1,), "`report_paths` of 20"),
    "sessions": ((1,), "a gate resized, by four sessions"),
}
QUESTION = "report_wns setup"
PEER = ["sta", "-no_splash", "-exit", str(places.BENCH / "beside_opensta.tcl")]
CACHEGRIND = ["valgrind", "--tool=cachegrind", "--cache-sim=no", "--cachegrind-out-file=/dev/null"]
PERF = ["perf", "stat", "-x", ",", "-e", "instructions:u"]


@dataclasses.dataclass(frozen=True)
class Took:
    """What a list took: seconds of processors, seconds by the clock, MB of the run; the worst slack in ps; and how many
    threads were begun."""

    processors: float
    seconds: float
    megabytes: float
    slack: float
    threads: int = 0

    def less(self, other: "Took", count: int) -> "Took":
        """What one of so many took, without what another run took."""
        return dataclasses.replace(self, processors=(self.processors - other.processors) / count,
                                   seconds=(self.seconds - other.seconds) / count)


@dataclasses.dataclass(frozen=True)
class Place:
    """Where a design is, which program runs, and a folder for scripts and what runs tell."""

    folder: pathlib.Path
    name: str
    program: pathlib.Path
    scratch: pathlib.Path


def commands(work: str, lines: list[str]) -> list[str]:
    """The commands of a list's lines for Lizdrog, with their questions."""
    asked, found = [] if work == "silent" else [QUESTION], []
    for line in lines:
        words = line.split()
        if work == "buffer":
            net, inst, pin, new, of_new = words
            found += [f"insert_buffer {net} {new} {of_new} BUFX2 {inst}:{pin}", *asked]
        elif work in ("path", "paths"):
            pin = ":".join(words[0].rsplit("/", 1))
            found.append(f"report_path {pin} setup" if work == "path" else f"report_paths {pin} setup 20")
        else:
            found += [f"repower_gate {words[0]} {words[1]}", *asked]
    return found


def parts(work: str, lines: list[str]) -> list[list[str]]:
    """The lines of each session's script."""
    return [lines[at::4] for at in range(4)] if work == "sessions" else [lines]


def peer_work(work: str) -> str:
    """What OpenSTA does for a work: it has one session."""
    return "resize" if work == "sessions" else work


# ------------------------------------------------------------------------------------------------------ runs

def words_of_ours(at: Place, work: str, lines: list[str], workers: int) -> list[str]:
    """Writes the scripts of a work; gives the words of the run."""
    scripts = []
    for number, some in enumerate(parts(work, lines), 1):
        scripts.append(str(at.scratch / f"{work}{number}"))
        ends = [QUESTION] if work in ("load", "silent") else []
        pathlib.Path(scripts[-1]).write_text("".join(f"{it}\n" for it in [*commands(work, some), *ends]))
    documents = ["early.lib", "late.lib", *(f"{at.name}.{it}" for it in ("v", "sdc", "spef"))]
    return [str(at.program), "run", *documents, str(workers), *scripts]


def last_slack(output: str) -> float:
    """The last worst slack that a run told, in ps; none is no number."""
    found = re.findall(r"^\d+ \d+ wns (-?[0-9.]+)$", output, re.M)
    return float(found[-1]) if found else float("nan")


def ours(at: Place, work: str, lines: list[str], workers: int, first: int = 0) -> tuple[Took, Took]:
    """A run of Lizdrog: what the whole of it took, and what was taken since it began the thread of this number: its
    first session's. Where no number is given it is the last one, which is so where no ECO is made."""
    since = at.scratch / "since"
    since.unlink(missing_ok=True)
    env = {**run_lizdrog.surroundings(), "LD_PRELOAD": str(at.scratch / "since_thread.so"), "SINCE_FILE": str(since)}
    if first:
        env["SINCE_THREAD"] = str(first)
    spent = pairs.run(words_of_ours(at, work, lines, workers), at.folder, env)
    slack = last_slack(spent.output.decode())
    processors, seconds, threads = map(int, since.read_text().split())
    return (Took(spent.processors, spent.seconds, spent.megabytes, slack, threads),
            Took(processors / 1e9, seconds / 1e9, spent.megabytes, slack, threads))


def peer_env(at: Place, work: str, lines: list[str]) -> dict[str, str]:
    """Writes the list of a work for OpenSTA; gives what it finds in its surroundings."""
    listed = at.scratch / f"{work}.list"
    listed.write_text("".join(f"{it}\n" for it in lines))
    library = re.search(r"\blibrary\s*\(\s*\"?(\w+)", (at.folder / "early.lib").read_text())
    return {**os.environ, "FOLDER": str(at.folder), "NAME": at.name, "LIBRARY": library[1] if library else "",
            "WORK": peer_work(work), "LIST": str(listed)}


def theirs(at: Place, work: str, lines: list[str]) -> tuple[Took, Took]:
    """A run of OpenSTA: what the whole of it took, and what its list did."""
    spent = pairs.run(PEER, at.folder, peer_env(at, work, lines))
    told = re.search(r"^spent (\d+) (\d+) (-?[0-9.]+)$", spent.output.decode(), re.M)
    if not told:
        sys.exit(f"real.py: OpenSTA told of {work} on {at.name}: {spent.output.decode()[-400:]}")
    processors, seconds, slack = int(told[1]) / 1e9, int(told[2]) / 1e9, 1000 * float(told[3])
    return (Took(spent.processors, spent.seconds, spent.megabytes, slack),
            Took(processors, seconds, spent.megabytes, slack))


# ------------------------------------------------------------------------------------------------------ lists

def needed(folder: pathlib.Path, names: list[str]) -> None:
    """Ends with a word where something is missing."""
    if not shutil.which("sta"):
        sys.exit("real.py: there is no OpenSTA (sta) here: `apt-get install opensta`")
    wanted = [f"{name}.{it}" for name in names for it in ("v", "sdc", "spef", "eco", "clkeco", "bufeco")]
    missing = [it for it in ["early.lib", "late.lib", *wanted] if not (folder / it).is_file()]
    if missing:
        sys.exit(f"real.py: {folder} has no {', '.join(missing[:6])}{' and more' * (len(missing) > 6)}: designs are "
                 "made with `apt-get install yosys qflow-tech-osu018`; --help says what they consist of")


def worst_ends(at: Place) -> list[str]:
    """The worst endpoints at instances, as OpenSTA writes them."""
    script = at.scratch / "worst"
    script.write_text("report_worst setup 100\n")
    words = words_of_ours(at, "load", [], 1)
    output = pairs.run([*words[:-1], script], at.folder, run_lizdrog.surroundings()).output.decode()
    return re.findall(r"^(?:1 0 worst \d+\n)?([^ \n:\[]+):([^ \n:\[]+) -?[0-9.]+$", output, re.M)


def lists_of(at: Place, works: list[str], share: float, most: dict[str, int]) -> dict[str, list[str]]:
    """The lines of each work's list."""
    ends = [f"{inst}/{pin}" for inst, pin in worst_ends(at)] if {"path", "paths"} & {*works} else []
    found = {}
    for work in works:
        count = max(int(most.get(work, 0) * share), 4) if work != "load" else 0
        if work in SUFFIXES:
            found[work] = (at.folder / f"{at.name}.{SUFFIXES[work]}").read_text().splitlines()[:count]
        else:
            found[work] = [ends[place % len(ends)] for place in range(count)] if count else []
    return found


# ------------------------------------------------------------------------------------------------------ seconds

def one_pair(at: Place, lists: dict[str, list[str]], turn: int) -> dict[tuple[str, int], tuple[Took, Took]]:
    """What one of each work takes, of Lizdrog and of OpenSTA, by work and workers."""
    loads = {workers: ours(at, "load", [], workers) for workers in (1, 4)} if turn % 2 else {}
    peer_load = theirs(at, "load", [])
    loads = loads or {workers: ours(at, "load", [], workers) for workers in (1, 4)}
    found = {}
    for work, lines in lists.items():
        if work == "load":
            found |= {(work, workers): (loads[workers][0], peer_load[0]) for workers in (1, 4)}
            continue
        peer = None if turn % 2 else theirs(at, work, lines)
        mine = {it: ours(at, work, lines, it, loads[it][0].threads)[1] for it in WORKS[work][0]}
        peer = peer or theirs(at, work, lines)
        for workers, took in mine.items():
            one = took.less(loads[workers][1], len(lines)), peer[1].less(peer_load[1], len(lines))
            found[work, workers] = one
    return found


def time_of(seconds: float) -> str:
    """Seconds, or milliseconds where they are few."""
    return f"{seconds:.2f} s" if seconds >= 1 else f"{1000 * seconds:.{2 if seconds < 0.02 else 0}f} ms"


def ratio_of(ratios: list[float]) -> str:
    """The median of ratios, with their range."""
    return f"{statistics.median(ratios):.2f} ({min(ratios):.2f} to {max(ratios):.2f})"


def row_of(work: str, workers: int, runs: list[tuple[Took, Took]]) -> str:
    """The line of a work in the table."""
    spent = [statistics.median(it[side].processors for it in runs) for side in (0, 1)]
    ratios = ratio_of([mine.processors / peer.processors for mine, peer in runs])
    clock = ratio_of([mine.seconds / peer.seconds for mine, peer in runs])
    memory = [max(it[side].megabytes for it in runs) for side in (0, 1)]
    words = WORKS[work][1] if workers == 1 else f"the same, {workers} workers"
    return (f"| {words} | {time_of(spent[0])} | {time_of(spent[1])} | {ratios} | {clock} | {memory[0]:.0f} MB | "
            f"{memory[1]:.0f} MB |")


def slacks_of(work: str, runs: list[tuple[Took, Took]]) -> str:
    """The worst slacks that both told last, in ps."""
    mine, peer = runs[0]
    return f"{work} {mine.slack:.1f} and {peer.slack:.1f}"


def seconds_table(at: Place, lists: dict[str, list[str]], count: int) -> None:
    """Measures the works in so many pairs, and prints their table."""
    before, rounds = os.getloadavg()[0], []
    for turn in range(count):
        rounds.append(one_pair(at, lists, turn))
        print(f"real.py: {at.name}: pair {turn + 1} of {count} is done", file=sys.stderr, flush=True)
    print("\n| Work | Lizdrog | OpenSTA | Ratio | by the clock | Memory | OpenSTA's |\n|---|---|---|---|---|---|---|")
    for work, workers in rounds[0]:
        print(row_of(work, workers, [it[work, workers] for it in rounds]))
    told = [slacks_of(work, [it[work, workers] for it in rounds]) for work, workers in rounds[0]
            if workers == 1 and work not in ("path", "paths")]
    counts = ", ".join(f"{len(it)} of {work}" for work, it in lists.items() if it)
    print(f"\n{count} pair{'s' * (count > 1)}; {counts}. Worst slacks at the end, of Lizdrog and OpenSTA, in ps: "
          f"{'; '.join(told)}.\nThe load of the machine (1 is a processor; it has {os.cpu_count()}) was {before:.1f} "
          f"before, {os.getloadavg()[0]:.1f} at the end, of which these runs are 1 to 4.", flush=True)


# ------------------------------------------------------------------------------------------------------ instructions

def count_of(text: str) -> int | None:
    """The instructions that perf stat or cachegrind tells of a run, or none."""
    by_perf = re.search(r"^(\d+),[^,\n]*,instructions:u", text, re.M)
    by_valgrind = re.search(r"==\d+== I\s+refs:\s+([\d,]+)", text)
    found = by_perf or by_valgrind
    return int(found[1].replace(",", "")) if found else None


def counter() -> tuple[list[str], str] | None:
    """The words before a run that is counted, and what is said of them; none where nothing can count."""
    if shutil.which("perf"):
        tried = subprocess.run([*PERF, "true"], capture_output=True, text=True, check=False)
        if count_of(tried.stderr):
            return PERF, "perf stat -e instructions:u"
    if shutil.which("valgrind"):
        return CACHEGRIND, "valgrind's cachegrind; perf stat counts no instructions on this machine"
    return None


def counted(words: list[str], at: Place, env: dict[str, str]) -> int:
    """The instructions of a run."""
    ran = subprocess.run(words, cwd=at.folder, env=env, capture_output=True, text=True, check=False)
    count = count_of(ran.stderr)
    if ran.returncode or count is None:
        sys.exit(f"real.py: {words[0]} ended with {ran.returncode}: {ran.stderr[-400:]}")
    return count


def counted_beside(at: Place, how: list[str], lists: dict[str, list[str]]) -> dict[str, tuple[int, int]]:
    """The instructions of each work, of Lizdrog and of OpenSTA; as many runs beside each other as there are
    processors."""
    def both(item: tuple[str, list[str]]) -> tuple[int, int]:
        work, lines = item
        mine = counted([*how, *words_of_ours(at, work, lines, 1)], at, run_lizdrog.surroundings())
        peer = counted([*how, *PEER], at, peer_env(at, work, lines))
        print(f"real.py: {at.name}: instructions of {work} are counted", file=sys.stderr, flush=True)
        return mine, peer
    with concurrent.futures.ThreadPoolExecutor(os.cpu_count()) as pool:
        return dict(zip(lists, pool.map(both, lists.items()), strict=True))


def instructions_table(at: Place, works: list[str], share: float) -> None:
    """Counts the instructions of works, and prints their table."""
    how = counter()
    if not how:
        print("\nInstructions were not counted: there is neither a perf that counts them nor valgrind.")
        return
    chosen = [it for it in COUNTED if it in works] or [*COUNTED]
    lists = lists_of(at, ["load", *chosen], share, COUNTED)
    found = counted_beside(at, how[0], lists)
    print(f"\nMillions of instructions, by {how[1]}:\n\n| Work | Lizdrog | OpenSTA | Ratio |\n|---|---|---|---|")
    for work, lines in lists.items():
        base = (0, 0) if work == "load" else found["load"]
        mine, peer = ((it - less) / max(len(lines), 1) / 1e6 for it, less in zip(found[work], base, strict=True))
        print(f"| {WORKS[work][1]} | {mine:,.2f} | {peer:,.2f} | {mine / peer:.2f} |", flush=True)


# ------------------------------------------------------------------------------------------------------

def kind_of(program: pathlib.Path) -> str:
    """Which program runs, in words."""
    names = {places.PROVED: "the proved program", places.QUICK: "the program of the quick build"}
    return names.get(program, str(program))


def measured(at: Place, works: list[str], count: int, share: float) -> None:
    """Measures one design."""
    version = subprocess.run(["sta", "-version"], capture_output=True, text=True, check=False).stdout.split()
    cells = len(re.findall(r"^  \w+ \S+ +\(", (at.folder / f"{at.name}.v").read_text(), re.M))
    peer = f"OpenSTA {version[0]}" if version else "OpenSTA"
    print(f"\n{at.name}, {cells:,} cells: {kind_of(at.program)} and {peer}", flush=True)
    timed = [it for it in works if it in WORKS]
    if timed:
        seconds_table(at, lists_of(at, timed, share, MOST), count)
    if "instructions" in works:
        instructions_table(at, works, share)


def main() -> int:
    words = argparse.ArgumentParser(description=__doc__, formatter_class=argparse.RawDescriptionHelpFormatter)
    words.add_argument("folder", type=pathlib.Path, metavar="FOLDER")
    words.add_argument("--design", nargs="+", default=list(DESIGNS), metavar="NAME")
    words.add_argument("--work", nargs="+", choices=[*WORKS, "instructions"], default=[*WORKS, "instructions"],
                       metavar="WORK")
    words.add_argument("--pairs", type=int, metavar="N")
    words.add_argument("--quick", action="store_true")
    words.add_argument("--program", metavar="FILE")
    given = words.parse_args()
    folder, count = given.folder.resolve(), given.pairs or (3 if given.quick else 7)
    needed(folder, given.design)
    program = trials.find_program(given.program)
    with tempfile.TemporaryDirectory() as name:
        trials.compiled("since_thread.c", pathlib.Path(name))
        for design in given.design:
            measured(Place(folder, design, program, pathlib.Path(name)), given.work, count, 0.25 if given.quick else 1)
    return 0
