#!/usr/bin/env python3
"""Refuses memory to a program, one call after the other: refused_memory.py [--program FILE] [--first A] [--last B]
[--step N] [--most M]
                                                            [--fresh F] [--seed S] [--only NAME] [--at K]

Runs, each with documents of the gate's worked rows or of the examples (--only NAME takes one, and may come again):
  row-1      two inverters, one question         row-9      two registers, a resize and reports, 2 workers
  row-15     ECOs that are refused               drafts     edits that are tried, dropped and asked about
  advice     resizes to choose from              beside     two sessions with an ECO each behind a saved journal
             (--journal)
  generated  `generate 1 4 4`                    commands   each command once, with buffers, parasitics, groups, a draft
             and an advice
  contest    parasitics, escaped names           journal    one session behind a saved journal
  sessions   two sessions with an ECO each
The Kth call for memory is refused, for each K from A (1) to B, or until a run makes fewer (with --step N, each Nth K,
the first drawn by the seed S; with --most M, M of them at most, evenly); then the Kth and all behind it, for a tenth as
many K; then the Kth new thread, and that and all behind it. Each run has to give its normal output or status 6 with
nothing written, within 60 s. With several sessions a normal output is one that tools/check_sessions.py passes. It
prints how many were tried and what came, and ends with 1 at the first that deviates;
--only NAME --at 'memory K' (or 'from K', 'threads K', 'no-threads K') repeats it, as far as threads come in the same
order.

How far this reaches: refuse_memory.c beside this script is compiled into a temporary folder and loaded before the C
library (LD_PRELOAD). The program, proved or not, gets all of its memory by malloc and realloc of the C library, and its
threads by pthread_create, so each call is reached, also those of the C library itself; `ulimit -v` reaches what the
kernel refuses (real_devices.py). One run is copied (fork) at each call, the copy is refused it and goes on, which takes
far less time than a run from its beginning; behind the first thread, copies begin before that thread. F refusals of
each run (20), evenly, are made in runs of their own besides. `rt try --fail-alloc` does not serve here: it refuses in a
program that it builds itself, and ends after 2,000 runs, where the least of these makes some 38,000 calls. That objects
which outlive a refusal are as before cannot be seen from outside, since each refusal ends the run.
"""
import argparse
import collections
import dataclasses
import os
import pathlib
import random
import signal
import struct
import subprocess
import sys
import tempfile
import time

from lizdrog_dev import trials

from lizdrog_tools import check_sessions
from lizdrog_tools import read_answers

GENERATED = ["generate", "1", "4", "4"]
RECORD = struct.Struct("<QqQQQ")
COLUMNS = [(word, ended) for word in ("memory", "from", "threads", "no-threads") for ended in ("status 6", "normal")]
DRAFTS = trials.one_script("begin_what_if", "repower_gate g2 BUF_X4", "report_endpoint r2:D setup", "drop_last",
                           "report_endpoint r2:D setup", "repower_gate g2 NOCELL", "drop_last", "end_what_if", "take")
ADVICE = trials.one_script("advise setup cb BUF_X4 g2 BUF_X4", "advise hold cb BUF_X4 cb NOCELL",
                           "advise setup cb NOCELL", "advise setup g2 BUF_X1 g2 BUF_X4")
SAVED = b"journal 1 1\nentry 1 session 1 edits 1\nrepower_gate g1 BUF_X4\n"


class Refusing:
    """A design whose runs are refused memory."""

    def __init__(self, program, shim, design, folder):
        self.program, self.shim, self.design, self.folder = program, shim, design, folder
        self.legal, self.is_saved = set(), "--journal" in design.words
        if design.files:
            design.write(folder)
        first, self.calls, self.threads, _ = self.run("memory 0")
        if first.status not in (0, 1):
            sys.exit(f"{design.name}: the run without a refusal ended with {first.ended()}: {first.out[:200]!r} "
                     f"{first.err[:200]!r}")
        self.normal = first

    def environment(self, refuse):
        """What the library is told; its tally begins anew."""
        tally = self.folder / "tally"
        tally.write_bytes(bytes(24))
        return {**os.environ, "LD_PRELOAD": str(self.shim), "REFUSE": refuse, "REFUSE_TALLY": str(tally)}

    def run(self, refuse):
        """A run with a refusal: how it ended, and how many calls, threads and refusals there were."""
        ran = trials.run(self.program, self.design.words, self.folder, env=self.environment(refuse))
        return ran, *struct.unpack("<3Q", (self.folder / "tally").read_bytes())

    def copies(self, kind, numbers):
        """Copies of one run with a refusal each, of these calls, and of those behind the last call of the first run
        that a copy reaches: the
        call, how the copy ended, and how many refusals there were."""
        read, write = os.pipe()
        refuse = f"{kind} {numbers.start} {numbers.step} {self.calls} {write}"
        with open(self.folder / "out", "w+b") as out, open(self.folder / "err", "w+b") as err, open(
            read, "rb"
        ) as records, subprocess.Popen(
            [self.program, *self.design.words],
            cwd=self.folder,
            stdin=subprocess.DEVNULL,
            stdout=out,
            stderr=err,
            pass_fds=[write],
            env=self.environment(refuse),
        ) as child:
            os.close(write)
            try:
                while record := records.read(RECORD.size):
                    number, status, refused, *sizes = RECORD.unpack(record)
                    texts = [records.read(size) for size in sizes]
                    if numbers.stop <= min(number, self.calls):
                        return
                    yield number, trials.Ran(None if status < 0 else os.waitstatus_to_exitcode(status), *texts,
                                             60), refused
            finally:
                child.kill()
        if child.returncode not in (0, self.normal.status, -signal.SIGKILL):
            sys.exit(f"{self.design.name}: the run that is copied ended with status {child.returncode}")

    def sessions(self):
        return sum(role.startswith("script") for role, _ in self.design.roles()) if self.design.files else 1

    def is_normal(self, ran):
        """Whether this is the one output, or one that several sessions may give."""
        if self.sessions() == 1:
            return (ran.status, ran.out) == (self.normal.status, self.normal.out)
        if ran.out not in self.legal and self.is_legal(ran):
            self.legal.add(ran.out)
        return ran.out in self.legal

    def is_legal(self, ran):
        """Whether each answer is that of one session alone."""
        scripts = [read_answers.read_script(self.design.files[it].decode()) for role, it in self.design.roles()
                   if role.startswith("script")]
        try:
            trials.check_answer(ran, {}, len(scripts), self.is_saved)
            checked = check_sessions.Sessions(scripts, read_answers.Output(ran.out.decode()))
        except (trials.Deviates, ValueError):
            return False
        checked.look()
        if not checked.faults:
            checked.compare(self.alone)
        return not checked.faults

    def alone(self, text):
        (self.folder / "alone").write_text(text)
        ran = trials.run(self.program, [*self.design.words[:-self.sessions()], "alone"], self.folder)
        return read_answers.Output(ran.out.decode())

    def judge(self, ran, refused):
        """`normal`, `status 6` or `not reached`; or a sentence that begins with an asterisk."""
        if ran.err or ran.status not in (0, 1, 6) or ran.status == 6 and ran.out:
            return f"* {ran.ended()}, {ran.out[:120]!r} {ran.err[:200]!r}"
        if ran.status == 6:
            return "status 6" if refused else "* status 6, and nothing was refused"
        if not self.is_normal(ran):
            return f"* another output, {ran.ended()}: {ran.out[:200]!r}"
        return "normal" if refused else "not reached"

    def judge_one(self, word):
        ran, _, _, refused = self.run(word)
        return self.judge(ran, refused)


class Found(Exception):
    """The refusal that deviates, and how."""


class Tried:
    """What came of the refusals of a run."""

    def __init__(self, it):
        self.it, self.counts, self.fresh = it, collections.Counter(), 0

    def add(self, word, ended):
        if ended[0] == "*":
            raise Found(word, ended[2:])
        self.counts[word.split()[0], ended] += 1

    def copies(self, kind, numbers):
        """Each call of some numbers is refused in a copy."""
        want = numbers.start
        for number, ran, refused in self.it.copies(kind, numbers):
            if number != want:
                raise Found(f"{kind} {number}", f"the call {want} was left out")
            self.add(f"{kind} {number}", self.it.judge(ran, refused))
            want += numbers.step
        if want < min(numbers.stop, self.it.calls + 1):
            raise Found(f"{kind} {want}", "the run that is copied ended before it")

    def runs(self, words):
        """Refusals in runs of their own."""
        for word in words:
            self.add(word, self.it.judge_one(word))
            self.fresh += 1


def numbers(first, last, step, most, rand):
    """Which calls are refused."""
    step = max(step, -(-(last - first + 1) // most) if most else 1)
    return range(first + (rand.randrange(step) if step > 1 else 0), last + 1, step)


def try_all(it, given, rand):
    """All refusals of a run; gives what came, or raises the first that deviates."""
    tried = Tried(it)
    if given.at:
        tried.runs([given.at])
        return tried
    first, last = given.first, min(given.last or it.calls, it.calls)
    whole = numbers(first, last, given.step, given.most, rand)
    tried.copies("memory", whole)
    tried.copies("from", numbers(first, last, 10 * whole.step, given.most, rand))
    if given.fresh:
        tried.runs(f"memory {k}" for k in numbers(first, last, 1, given.fresh, rand))
        tried.runs(f"{word} {k}" for word in ("threads", "no-threads") for k in range(1, it.threads + 1))
    return tried


def designs():
    """The runs: documents, and words of their own."""
    it = {design.name: design for design in trials.gate_designs()}
    base = it["registers"]
    saved = {**it["sessions"].files, "j1": SAVED}
    words = it["sessions"].words
    return [
        dataclasses.replace(it["inverters"], name="row-1"),
        dataclasses.replace(base, name="row-9"),
        dataclasses.replace(it["refusals"], name="row-15"),
        dataclasses.replace(base, name="drafts", files={**base.files, "s1": DRAFTS}),
        dataclasses.replace(base, name="advice", files={**base.files, "s1": ADVICE}),
        dataclasses.replace(it["sessions"], name="beside", files=saved, words=["run", "--journal", "j1", *words[1:]]),
        trials.Design("generated", {}, GENERATED),
        *(it[name] for name in ("commands", "contest", "journal", "sessions")),
    ]


def main():
    parser = argparse.ArgumentParser(description=__doc__, formatter_class=argparse.RawDescriptionHelpFormatter)
    parser.add_argument("--program")
    for number, default in (("first", 1), ("last", None), ("step", 1), ("most", None), ("fresh", 20), ("seed", 1)):
        parser.add_argument(f"--{number}", type=int, default=default)
    parser.add_argument("--only", action="append")
    parser.add_argument("--at")
    given = parser.parse_args()
    program, rows = trials.find_program(given.program), []
    with tempfile.TemporaryDirectory() as name:
        shim = trials.compiled("refuse_memory.c", pathlib.Path(name))
        for design in designs():
            if given.only and design.name not in given.only:
                continue
            folder, begun = pathlib.Path(name, design.name), time.monotonic()
            folder.mkdir()
            it = Refusing(program, shim, design, folder)
            try:
                tried = try_all(it, given, random.Random(f"{given.seed}-{design.name}"))
            except Found as found:
                word, why = found.args
                print(f"{design.name}, {word}: {why}\nagain: bench/refused_memory.py --only {design.name} --at "
                      f"'{word}'")
                return 1
            rows.append([design.name, it.calls, it.threads, tried.fresh, *counted(tried.counts)])
            print(f"  {design.name}: {sum(rows[-1][5:])} refusals in {time.monotonic() - begun:.0f} s", flush=True)
    trials.table("refusals, and how runs ended", ["run", "calls", "threads", "in runs", "not reached",
                                                  *(f"{word}: {ended}" for word, ended in COLUMNS)], rows)
    print(f"{sum(sum(row[5:]) for row in rows)} refusals, each with its normal output or status 6 and nothing written")
    return 0


def counted(counts):
    """How many were not reached, and how many ended in which way."""
    return [sum(n for (_, ended), n in counts.items() if ended == "not reached"), *(counts[key] for key in COLUMNS)]


if __name__ == "__main__":
    sys.exit(main())
