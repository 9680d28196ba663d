"""Puts `version_board` under stress: board_stress.py [--calls N] [--seats K] [--rounds R] [--keep DIR] [--program FILE]

K seats (default: 16, the most of a board), each in a thread of its own, make N calls of `take` and `publish` in all
(default: 1,000,000), a take in three; R boards (1) one after the other. It builds the program board_stress.rt.txt over
the crates `sta_units` and `version_board` as they stand, without proof and in the manner of dev/quick_build.py, in a
folder of its own. Its history is checked here, by a clock that all seats read before and after each call:
  - the last value has the entries 1, 2, 3 .. once each; of each seat they are those that it was told `Ok` for, in its
    order, and no others;
  - `Ok` gives one more than the count that the value was made from, at a number of its own: a publication was over the
    newest count;
  - each value that a seat was given is the beginning of the last one by its count (by a mark of all its entries), and
    no seat's counts fall;
  - `Moved` comes with another count than the one that the value was made from, and with the value that was not
    published;
  - what ended before another call began stands no later: no call is given less than an earlier one was given or added.
It prints one line with counts, and ends with 1 at the first thing amiss; the history is then kept in DIR (default:
board-stress of the caller's folder).
--program takes a program that was built before, --save FILE keeps the one that is built.
"""
import argparse
import collections
import os
import pathlib
import shutil
import subprocess
import sys
import tempfile
import time

from lizdrog_tools import quick_build
from lizdrog_tools.places import TOP, BENCH

CRATES = ("sta_units", "version_board")
MASK = 2**64 - 1


class Amiss(Exception):
    """Says what is wrong with a history."""


Call = collections.namedtuple("Call", "kind seat began ended base count mark")
Entry = collections.namedtuple("Entry", "count seat number mark")


# ------------------------------------------------------------------------------------------------ the program

def build(out):
    """Builds the program of the stress, without proof."""
    kit, work = quick_build.find_kit(), pathlib.Path(tempfile.mkdtemp(prefix="lizdrog-board-stress-"))
    try:
        source = work / "repository/crates/board_stress/src"
        source.mkdir(parents=True)
        shutil.copy(BENCH / "board_stress.rt.txt", source / "main.rt")
        uses = (TOP / "crates.txt").read_text().splitlines()
        kept = [line for line in uses if line.split(":")[0] in CRATES]
        for name in CRATES:
            shutil.copytree(TOP / "crates" / name, work / "repository/crates" / name,
                            ignore=shutil.ignore_patterns("out", "must-fail"))
        (work / "repository/crates.txt").write_text("".join(f"{line}\n"
                                                            for line in [*kept, f"board_stress: {' '.join(CRATES)}"]))
        shutil.copy(TOP / "HANDLES", work / "repository/HANDLES")
        (work / "tools").mkdir()
        quick_build.compile_program(kit, source.parent, work / "tools", out, work / "log", lambda line: None)
    finally:
        shutil.rmtree(work, ignore_errors=True)


# ------------------------------------------------------------------------------------------------ the history

def read(path):
    """The calls and the entries of a history, the entries from the first on."""
    calls, entries = [], []
    with open(path, encoding="ascii") as lines:
        for line in lines:
            kind, *words = line.split()
            numbers = list(map(int, words))
            if kind == "entry":
                entries.append(Entry(*numbers))
            elif kind == "take":
                calls.append(Call(kind, *numbers[:3], numbers[3], *numbers[3:]))
            elif kind in ("published", "moved"):
                calls.append(Call(kind, *numbers))
            else:
                raise Amiss(f"the history has the line {line.strip()[:80]!r}")
    return calls, entries[::-1]


def mark_after(mark, seat, number):
    mixed = (mark * 6364136223846793005 + (seat << 32) + number + 1442695040888963407) & MASK
    return mixed ^ (mixed >> 29)


def check_list(entries):
    """The last value is 0, 1, 2 .. with the marks of its entries, of each seat in order from 0. Gives the marks."""
    marks, added = [], collections.Counter()
    for at, it in enumerate(entries):
        if it.count != at:
            raise Amiss(f"the last value has the entry {it.count} at the place {at}")
        if at and it.number != added[it.seat]:
            raise Amiss(f"entry {at}: number {it.number} of seat {it.seat}, of which {added[it.seat]} stand before")
        added[it.seat] += at > 0
        if it.mark != (mark_after(marks[-1], it.seat, it.number) if at else 0):
            raise Amiss(f"entry {at}: its mark is not that of the entries up to it")
        marks.append(it.mark)
    return marks


def check_seat(calls, marks, entries):
    """One seat's calls in its order."""
    ended, last, added = -1, 0, 0
    for it in calls:
        if not ended < it.began < it.ended:
            raise Amiss(f"{it}: the clock went back")
        if it.count < last:
            raise Amiss(f"{it}: the seat saw {last} before")
        ended, last = it.ended, it.count
        if it.count >= len(marks) or marks[it.count] != it.mark:
            raise Amiss(f"{it}: that value is no beginning of the last one")
        if it.kind == "moved" and it.count <= it.base:
            raise Amiss(f"{it}: moved, and nothing was published since")
        if it.kind == "published":
            entry = entries[it.count]
            if it.count != it.base + 1 or (entry.seat, entry.number) != (it.seat, added):
                raise Amiss(f"{it}: the last value has {entry} there, and {added} of this seat were published before")
            added += 1
    return added


def check_time(calls):
    """What ended before a call began was given no more than the call, and less where the call published."""
    ends = sorted(calls, key=lambda it: it.ended)
    most, at, overlaps = 0, 0, 0
    for it in sorted(calls, key=lambda it: it.began):
        while ends[at].ended < it.began:
            most = max(most, ends[at].count)
            at += 1
        if it.count < most + (it.kind == "published"):
            raise Amiss(f"{it}: a call that ended before it began had the count {most}")
        overlaps += it.ended != it.began + 1
    return overlaps


def check(calls, entries, count):
    """Counts of a history, once nothing is amiss in it."""
    if len(calls) != count:
        raise Amiss(f"{len(calls)} calls in place of {count}")
    marks = check_list(entries)
    seats = collections.defaultdict(list)
    for it in calls:
        seats[it.seat].append(it)
    added = sum(check_seat(its, marks, entries) for its in seats.values())
    if added != len(entries) - 1:
        raise Amiss(f"{added} were published, and the last value has {len(entries) - 1} entries")
    kinds = collections.Counter(it.kind for it in calls)
    return kinds, check_time(calls), len(seats)


def run_one(program, seats, each, keep):
    """Runs one board and checks its history; gives counts and seconds."""
    with tempfile.TemporaryDirectory() as folder:
        history, begun = pathlib.Path(folder, "history"), time.monotonic()
        with open(history, "wb") as out:
            ran = subprocess.run([program, str(seats), str(each)], stdin=subprocess.DEVNULL, stdout=out,
                                 stderr=subprocess.PIPE, check=False)
        seconds = time.monotonic() - begun
        try:
            if ran.returncode or ran.stderr:
                raise Amiss(f"the program ended with status {ran.returncode}: {ran.stderr[:300]!r}")
            return *check(*read(history), seats * each), seconds
        except Amiss as why:
            keep.mkdir(parents=True, exist_ok=True)
            shutil.copy(history, keep / "history")
            sys.exit(f"board_stress.py: {why}\nkept in {keep}")


def main():
    parser = argparse.ArgumentParser(description=__doc__, formatter_class=argparse.RawDescriptionHelpFormatter)
    for name, number in (("calls", 1000000), ("seats", 16), ("rounds", 1)):
        parser.add_argument(f"--{name}", type=int, default=number)
    parser.add_argument("--keep", type=pathlib.Path, default=pathlib.Path("board-stress"))
    parser.add_argument("--program", type=pathlib.Path)
    parser.add_argument("--save", type=pathlib.Path)
    given = parser.parse_args()
    if not 1 <= given.seats <= 16 or given.calls < given.seats:
        parser.error("a board has 1 to 16 seats, and each makes a call")
    each, total, overlaps, seconds, seats = -(-given.calls // given.seats), collections.Counter(), 0, 0, 0
    with tempfile.TemporaryDirectory() as folder:
        program = given.program or given.save or pathlib.Path(folder, "board_stress")
        program = program.resolve()
        if not given.program:
            try:
                build(program)
            except quick_build.CannotBuild as why:
                sys.exit(f"board_stress.py: {why}")
        for _ in range(given.rounds):
            kinds, beside, seats, took = run_one(program, given.seats, each, given.keep)
            total, overlaps, seconds = total + kinds, overlaps + beside, seconds + took
    print(f"{sum(total.values())} calls of {seats} seats on {given.rounds} boards, {os.cpu_count()} processors, "
          f"{seconds:.1f} s: {total['take']} takes, {total['published']} publications, {total['moved']} refused as "
          f"moved; {overlaps} calls had others beside them; each history is that of one list that grew")
    return 0
