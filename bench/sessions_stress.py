#!/usr/bin/env python3
"""Runs sessions beside each other under stress: sessions_stress.py [--program FILE] [--seed S] [--small N] [--cells C]
[--sessions K] [--ecos E] [--workers W]
                                                      [--samples M] [--folder DIR]

Many small runs come first: N of them (default: 1000) by the seed S (default: 1), on two registers with gates between
them, of 2 to 16 sessions with 1, 4 or 32 workers. Each script has up to eight resizes of the same four gates,
questions, looks and refused ECOs. Of each output it is checked that numbers never fall, that each accepted ECO is its
session's entry of the journal, and that each answer is that of a fresh run of one script, which resizes the gates as
the entries up to its row's number leave them, and asks.

Then comes one large run: a design of C cells (7000) by design.py with wires, K sessions (16) of E ECOs each (600), W
workers (32). ECOs are resizes of gates that all sessions choose from, buffers for sinks that other sessions take away,
nets of names that only one can have, and parasitics that are dropped. tools/check_sessions.py compares all questions
and refused ECOs with a run of one session over the journal. M numbers (20) are drawn besides: a fresh script with all
edits up to there, in ECOs of a thousand, has to answer that number's questions in the same way.
--cells 0 leaves the large run out; with --folder it is kept there. It prints what was tried, and ends with 1 at the
first output that is not
legal, which is kept in stress-S-NUMBER of the caller's folder. Runs beside each other do not repeat: the output that is
kept is the witness.
"""
import argparse
import collections
import pathlib
import random
import shutil
import sys
import tempfile

from lizdrog_dev import sessions as timings
from lizdrog_dev import trials

from lizdrog_tools import check_sessions
from lizdrog_tools import read_answers

GATES = {"cb": "BUF_X1", "g1": "BUF_X1", "g2": "BUF_X1", "g3": "SLW"}
SIZES = ["BUF_X1", "BUF_X4", "BUF_T", "SLW"]
QUESTIONS = ["report_endpoint r2:D setup", "report_endpoint o setup", "report_endpoint r2:D hold", "report_wns hold",
             "report_tns setup", "report_path o setup", "report_path r2:D hold", "report_worst setup 3",
             "report_slew g1:Z late rise", "report_at r2:D late rise", "report_slack g3:A early fall",
             "advise setup g1 BUF_X4 g2 BUF_T g3 BUF_X4", "advise hold cb BUF_X4 g1 BUF_T", "report_paths o setup 5",
             "report_through o setup g1:Z",
             "begin_what_if\nrepower_gate g2 BUF_X4\nreport_path r2:D setup\nrepower_gate g3 BUF_T\nreport_wns "
             "hold\ndrop_last\nreport_wns setup\nend_what_if"]
EACH = 25          # an ECO in so many has a question behind it
MOST_EDITS = 1000  # of one ECO


class NotLegal(Exception):
    """Says what is wrong with an output."""


def checked(ran, scripts):
    """The output of a run, once its form, numbers and entries are legal."""
    try:
        trials.check_answer(ran, {}, len(scripts), False)
    except trials.Deviates as why:
        raise NotLegal(str(why)) from why
    if ran.status not in (0, 1):
        raise NotLegal(f"{ran.ended()}: {ran.out[:200]!r}")
    found = check_sessions.Sessions([read_answers.read_script(it) for it in scripts],
                                    read_answers.Output(ran.out.decode()))
    found.look()
    if found.faults:
        raise NotLegal(found.faults[0])
    return found


# ------------------------------------------------------------------------------------------------ small runs

class Small:
    """Small runs on two registers, and the answers of fresh runs by the cells of the gates."""

    def __init__(self, program, folder):
        design = next(it for it in trials.gate_designs() if it.name == "registers")
        design.write(folder)
        self.program, self.folder, self.words, self.known = program, folder, design.words, {}
        self.rows = collections.Counter()

    def script(self, r):
        lines = []
        for _ in range(r.randrange(1, 9)):
            kind = r.random()
            if kind < 0.45:
                lines.append(f"repower_gate {r.choice(list(GATES))} {r.choice(SIZES)}")
            elif kind < 0.85:
                lines.append(r.choice(QUESTIONS))
            else:
                lines.append(r.choice(["take", "await 2 1000", "await 5 3", "repower_gate g1 NOCELL", "remove_gate g2",
                                       "begin_eco\nrepower_gate g1 BUF_X4\nrepower_gate g2 BUF_T\ncommit_eco"]))
        return "".join(f"{it}\n" for it in lines)

    def ask(self, cells, words):
        """The answer of a fresh run where the gates have these cells."""
        if (cells, words) not in self.known:
            edits = [f"repower_gate {gate} {cell}" for gate, cell in zip(GATES, cells)]
            (self.folder / "fresh").write_text("".join(f"{it}\n" for it in [*check_sessions.lines_of(edits), *words]))
            ran = trials.run(self.program, [*self.words[:6], "1", "fresh"], self.folder)
            self.known[cells, words] = check_sessions.answer(read_answers.Output(ran.out.decode()).sessions[0][1])
        return self.known[cells, words]

    def states(self, output):
        """The cells of the gates at each number."""
        cells = dict(GATES)
        found = [tuple(cells.values())]
        for edits in output.ecos:
            for edit in edits:
                _, gate, cell = edit.split()
                cells[gate] = cell
            found.append(tuple(cells.values()))
        return found

    def judge(self, found):
        states = self.states(found.output)
        for session, (commands, rows) in enumerate(zip(found.scripts, found.output.sessions), 1):
            for command, row in zip(commands, rows):
                self.rows[row.sort] += 1
                if row.sort in found.told_elsewhere:
                    continue
                told = self.ask(states[row.design], tuple(check_sessions.asked_again(command)))
                if check_sessions.answer(row) != told:
                    raise NotLegal(f"session {session}, row {row.command}: {check_sessions.answer(row)}, and a fresh "
                                   f"run says {told} at design {row.design}")

    def one(self, seed, number):
        """A run by a seed and its number."""
        r = random.Random(f"{seed}-{number}")
        scripts = [self.script(r) for _ in range(r.choice([2, 3, 4, 8, 16]))]
        names = [f"t{at}" for at in range(len(scripts))]
        for name, text in zip(names, scripts):
            (self.folder / name).write_text(text)
        ran = trials.run(self.program, [*self.words[:6], r.choice(["1", "4", "32"]), *names], self.folder)
        try:
            self.judge(checked(ran, scripts))
        except NotLegal:
            (self.folder / "got").write_bytes(ran.out + ran.err)
            raise


def small_runs(program, seed, count):
    with tempfile.TemporaryDirectory() as name:
        it = Small(program, pathlib.Path(name))
        for number in range(count):
            try:
                it.one(seed, number)
            except NotLegal as why:
                kept = shutil.copytree(name, f"stress-{seed}-{number}", dirs_exist_ok=True)
                sys.exit(f"small run {number}: {why}\nkept in {kept}")
        trials.table(f"small runs (seed {seed}): rows by their answers", ["answer", "rows"], sorted(it.rows.items()))
        print(f"{count} small runs, each row legal; {len(it.known)} fresh runs to compare with", flush=True)


# ------------------------------------------------------------------------------------------------ a large run

def wide_nets(folder):
    """Nets of the data path with several sinks, by their names."""
    netlist = timings.documents.Netlist(timings.documents.read_text(folder / "bench.v"))
    sinks = collections.defaultdict(list)
    for it in netlist.instances.values():
        for pin, net in it.nets.items():
            if net and "/n" in net and pin not in ("Y", "Q"):
                sinks[net].append(f"{it.name}:{pin}")
    return {net: pins for net, pins in sorted(sinks.items()) if len(pins) > 2}


def large_script(r, session, ecos, ends, resizes, nets):
    """So many ECOs, a question behind each twenty-fifth."""
    lines = []
    for at in range(ecos):
        kind = r.random()
        if kind < 0.9:
            lines.append(r.choice(resizes))
        elif kind < 0.94:
            lines.append(f"insert_net contested_{r.randrange(200)}")
        elif kind < 0.97:
            lines.append(f"set_parasitics {r.choice(list(nets))} none")
        else:
            net = r.choice(list(nets))
            lines.append(f"insert_buffer {net} stress_{session}_{at} stress_net_{session}_{at} BUF_X4 "
                         f"{r.choice(nets[net])}")
        if at % EACH == EACH - 1:
            lines.append(r.choice([f"report_path {r.choice(ends)} setup", f"report_endpoint {r.choice(ends)} hold",
                                   "report_tns setup", "report_worst setup 10"]))
    return "".join(f"{it}\n" for it in lines)


def grouped(edits):
    return [line for at in range(0, len(edits), MOST_EDITS)
            for line in check_sessions.lines_of(edits[at:at + MOST_EDITS])]


def sampled(found, run, numbers):
    """Compares the questions of some numbers with fresh scripts that make all edits up to there in few ECOs; gives how
    many."""
    asked, compared = found.asked(), 0
    for number in numbers:
        edits = [edit for eco in found.output.ecos[:number] for edit in eco]
        here = [(lines, rows) for (design, lines), rows in asked.items() if design == number]
        fresh = run("".join(f"{line}\n" for line in [*grouped(edits), *(line for lines, _ in here for line in lines)]))
        told = fresh.sessions[0][-len(here):]
        if any(row.sort != "accepted" for row in fresh.sessions[0][:-len(here)]):
            raise NotLegal(f"the edits up to {number} are refused as few ECOs")
        for (_, rows), row in zip(here, told):
            for session, it in rows:
                compared += 1
                if check_sessions.answer(it) != check_sessions.answer(row):
                    raise NotLegal(f"session {session}, row {it.command}: {check_sessions.answer(it)}, and a fresh "
                                   f"run says {check_sessions.answer(row)}")
    return compared


def large_run(program, given, folder):
    ends, resizes = timings.make_design(folder, given.cells)
    r, nets = random.Random(given.seed), wide_nets(folder)
    pool = resizes[:400]
    pool += [" ".join([*it.split()[:2], timings.OTHER_SIZE[it.split()[2]]]) for it in pool]
    scripts = [large_script(r, at, given.ecos, ends, pool, nets) for at in range(1, given.sessions + 1)]
    names = [f"stress{at}.eco" for at in range(1, given.sessions + 1)]
    for name, text in zip(names, scripts):
        (folder / name).write_text(text)
    words = ["run", "bench.lib", "bench.lib", "bench.v", "bench.sdc", "bench.spef", str(given.workers), *names]
    ran = trials.run(program, words, folder, 7200)
    (folder / "out").write_bytes(ran.out)
    print(f"large run: {ran.ended()} after {ran.seconds:.0f} s", flush=True)
    found = checked(ran, scripts)

    def alone(text):
        (folder / "alone.eco").write_text(text)
        one = trials.run(program, [*words[:6], "4", "alone.eco"], folder, 7200)
        if one.status not in (0, 1):
            raise NotLegal(f"a run of one session ended with {one.ended()}: {one.out[:200]!r}")
        return read_answers.Output(one.out.decode())
    numbers = sorted({design for (design, _), _ in found.asked().items()})
    compared = sampled(found, alone, sorted(r.sample(numbers, min(given.samples, len(numbers)))))
    commands = found.compare(alone)
    if found.faults:
        raise NotLegal(found.faults[0])
    rows = collections.Counter(row.sort for session in found.output.sessions for row in session)
    again = timings.prepared_again(ran.out.decode())
    trials.table("large run: rows by their answers", ["answer", "rows"], sorted(rows.items()))
    print(f"{given.cells} cells, {given.sessions} sessions, {given.workers} workers: {len(found.output.ecos)} ECOs in "
          f"the journal, {again[1]} entries of others between an ECO and the row before it; {commands} commands of "
          f"one session and {compared} rows by fresh scripts agree")


def main():
    parser = argparse.ArgumentParser(description=__doc__, formatter_class=argparse.RawDescriptionHelpFormatter)
    parser.add_argument("--program")
    for name, number in (("seed", 1), ("small", 1000), ("cells", 7000), ("sessions", 16), ("ecos", 600),
                         ("workers", 32), ("samples", 20)):
        parser.add_argument(f"--{name}", type=int, default=number)
    parser.add_argument("--folder", type=pathlib.Path)
    given = parser.parse_args()
    program = trials.find_program(given.program)
    small_runs(program, given.seed, given.small)
    if not given.cells:
        return 0
    with tempfile.TemporaryDirectory() as name:
        folder = given.folder or pathlib.Path(name)
        folder.mkdir(parents=True, exist_ok=True)
        try:
            large_run(program, given, folder)
        except NotLegal as why:
            kept = shutil.copytree(folder, f"stress-{given.seed}-large", dirs_exist_ok=True)
            print(f"large run: {why}\nkept in {kept}")
            return 1
    return 0


if __name__ == "__main__":
    sys.exit(main())
