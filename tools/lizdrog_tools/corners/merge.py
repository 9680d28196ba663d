"""Merges the answers of several corners.

Each number is one corner's own answer, as it was printed; nothing is computed anew.
"""
import dataclasses
import os
from collections.abc import Iterator

from lizdrog_tools.corners.job import Job, Outcome, State
from lizdrog_tools.files import InputFault
from lizdrog_tools.read_answers import (
    Command,
    Output,
    Row,
    answer_text,
    asked_slacks,
    draft_rows,
    lines_of_row,
    may_answer,
    read_output,
    read_script,
    row_value,
    thousandths,
)

KINDS = ("setup", "hold")
NONE = "none"


@dataclasses.dataclass(frozen=True)
class Answer:
    """A command of a script with the row of one corner."""

    session: int
    command: Command
    row: Row


@dataclasses.dataclass
class CornerAnswers:
    """What one corner has answered: its rows, its last line, and what its run cost."""

    job: Job
    outcome: Outcome
    answers: list[Answer]
    output: Output | None

    @property
    def name(self) -> str:
        """The corner."""
        return self.job.corner

    def is_there(self) -> bool:
        """Whether the corner has answered."""
        return self.output is not None

    def total(self, kind: str) -> tuple[str, str]:
        """Worst and total negative slack of a kind, as the last line has them."""
        at = 1 if kind == "setup" else 4
        return self.output.final[at + 1], self.output.final[at + 2]

    def design(self) -> int:
        """The number of the last design."""
        return int(self.output.final[0])


def answers_of(script: str, rows: list[Row], session: int) -> list[Answer] | None:
    """The commands of a script with their rows, or none where these rows do not answer it."""
    commands = read_script(script)
    if len(commands) != len(rows) or not all(may_answer(it.words, row) for it, row in zip(commands, rows)):
        return None
    return [Answer(session, command, row) for command, row in zip(commands, rows)]


def read_corner(job: Job, scripts: list[str]) -> CornerAnswers:
    """The answers of a job to its scripts, or none where it has not answered."""
    outcome = job.outcome()
    if outcome.state is not State.DONE:
        return CornerAnswers(job, outcome, [], None)
    output = read_output(job.output)
    if output.final is None or len(output.sessions) != len(scripts):
        raise InputFault(job.output, None, "this is no whole output of a run")
    answers = []
    for session, (text, rows) in enumerate(zip(scripts, output.sessions), 1):
        found = answers_of(text, rows, session)
        if found is None:
            raise InputFault(job.output, None, f"the rows of session {session} do not answer its script")
        answers += found
    return CornerAnswers(job, outcome, answers, output)


@dataclasses.dataclass(frozen=True)
class Endpoint:
    """An endpoint with the slacks of the corners in which it has one, as they were printed."""

    pin: str
    slacks: dict[str, str]

    def worst(self) -> tuple[str, str]:
        """The least slack and the corner that has it; of several corners the first."""
        corner = min(self.slacks, key=lambda it: thousandths(self.slacks[it]))
        return self.slacks[corner], corner

    def fails(self) -> bool:
        """Whether it fails in some corner."""
        return thousandths(self.worst()[0]) < 0


def endpoint_slacks(corner: CornerAnswers) -> dict[str, dict[str, str]]:
    """The slacks of endpoints by kind, from the rows of the last design that has such rows."""
    by_design: dict[int, dict[str, dict[str, str]]] = {}
    for answer in corner.answers:
        asked = asked_slacks(answer.command.words, answer.row)
        if asked is not None:
            by_design.setdefault(answer.row.design, {it: {} for it in KINDS})[asked[0]].update(asked[1])
    return by_design[max(by_design)] if by_design else {it: {} for it in KINDS}


class Merged:
    """The answers of all corners beside each other."""

    def __init__(self, corners: list[CornerAnswers]):
        self.corners = corners
        self.there = [it for it in corners if it.is_there()]
        self.endpoints: dict[str, list[Endpoint]] = {it: [] for it in KINDS}
        self.untested: dict[str, int] = {}
        found = {it.name: endpoint_slacks(it) for it in self.there}
        for kind in KINDS:
            pins = list(dict.fromkeys(pin for slacks in found.values() for pin in slacks[kind]))
            ends = [
                Endpoint(
                    pin,
                    {
                        corner: slacks[kind][pin]
                        for corner, slacks in found.items()
                        if slacks[kind].get(pin, NONE) != NONE
                    },
                )
                for pin in pins
            ]
            self.untested[kind] = sum(not it.slacks for it in ends)
            self.endpoints[kind] = sorted(
                (it for it in ends if it.slacks), key=lambda it: (thousandths(it.worst()[0]), it.pin)
            )

    def failing(self, kind: str) -> list[Endpoint]:
        """The endpoints that fail in some corner, worst first."""
        return [it for it in self.endpoints[kind] if it.fails()]

    def failing_in(self, kind: str, corner: str) -> int:
        """How many endpoints that were asked fail in one corner."""
        return sum(thousandths(it.slacks[corner]) < 0 for it in self.endpoints[kind] if corner in it.slacks)

    def worst(self, kind: str) -> tuple[str, str] | None:
        """The worst slack over all corners and the corner that has it."""
        pairs = [(it.total(kind)[0], it.name) for it in self.there if it.total(kind)[0] != NONE]
        return min(pairs, key=lambda it: thousandths(it[0])) if pairs else None

    def differ_in_design(self) -> bool:
        """Whether an ECO was accepted in some corners and refused in others, as the numbers of designs tell."""
        return len({it.design() for it in self.there}) > 1

    def status(self) -> int:
        """0 where all is answered, 1 where some row is refused, no or not_yet, 3 where some corner has no answer."""
        if len(self.there) < len(self.corners):
            return 3
        return max((it.outcome.status or 0 for it in self.there), default=0)

    def questions(self) -> Iterator[tuple[Command, list[tuple[str, Row]]]]:
        """Each command with the rows of all corners; those that ask one endpoint's slack are left out."""
        for place in zip(*(it.answers for it in self.there)):
            if place[0].row.sort != "endpoint" and place[0].command.words[0] != "report_endpoint":
                yield place[0].command, [(corner.name, answer.row) for corner, answer in zip(self.there, place)]


# ------------------------------------------------------------------------------------------------ lines for people


def state_text(corner: CornerAnswers) -> str:
    """What became of the run of a corner."""
    outcome, log = corner.outcome, os.path.relpath(corner.job.log)
    if outcome.state is State.FAILED:
        return f"failed with status {outcome.status}: {corner.job.last_words() or 'no word'} (log: {log})"
    if outcome.state is State.TIMED_OUT:
        return f"timed out after {outcome.seconds:.1f} s (log: {log})"
    return f"{outcome.state.value} (log: {log})"


def summary_lines(merged: Merged) -> Iterator[str]:
    """A line for each corner, and the worst of all."""
    width = max(6, *(len(it.name) for it in merged.corners))
    titles = [f"{kind + ' worst':>12} {'total':>14} {'failing':>7}" for kind in KINDS]
    yield f"{'corner':{width}}  {'  '.join(titles)}  {'seconds':>7}"
    for corner in merged.corners:
        if not corner.is_there():
            yield f"{corner.name:{width}}  {state_text(corner)}"
            continue
        parts = []
        for kind in KINDS:
            worst, total = corner.total(kind)
            count = merged.failing_in(kind, corner.name) if merged.endpoints[kind] else "-"
            parts.append(f"{worst:>12} {total:>14} {count:>7}")
        yield f"{corner.name:{width}}  {'  '.join(parts)}  {corner.outcome.seconds:>7.1f}"
    for kind in KINDS:
        if worst := merged.worst(kind):
            yield f"worst {kind} slack: {worst[0]} ps, corner {worst[1]}"
    if merged.differ_in_design():
        designs = ", ".join(f"{it.name} {it.design()}" for it in merged.there)
        yield f"note: an ECO was accepted in some corners and refused in others, which end with designs {designs}"


def failing_lines(merged: Merged, most: int) -> Iterator[str]:
    """The endpoints that fail in some corner, with the corner in which they are worst."""
    width = max((len(it.name) for it in merged.there), default=0)
    for kind in KINDS:
        failing, ends = merged.failing(kind), merged.endpoints[kind]
        if not ends:
            continue
        untested = f", {merged.untested[kind]} have no tested path" if merged.untested[kind] else ""
        count = f"{len(failing)} of {len(ends) + merged.untested[kind]}"
        yield f"{kind}: {count} endpoints that were asked fail in some corner{untested}"
        for end in failing[:most]:
            slack, corner = end.worst()
            others = sum(thousandths(it) < 0 for it in end.slacks.values()) - 1
            yield f"  {slack:>12} ps  {corner:{width}}  {end.pin}" + (f"  (fails in {others} more)" if others else "")
        if len(failing) > most:
            yield f"  .. and {len(failing) - most} more (--all)"


def question_lines(merged: Merged) -> Iterator[str]:
    """Each question with the answers of the corners, and the trials of a draft one by one."""
    for command, rows in merged.questions():
        if all(row.sort == "what_if" for _, row in rows):
            yield command.text()
            trials = [[(corner, answer) for _, answer, _ in draft_rows(command, row, None)] for corner, row in rows]
            for trial, answers in zip(command.trials(), zip(*trials)):
                yield from (f"  {it}" for it in answer_lines(trial, list(answers)))
        else:
            yield from answer_lines(command, rows)


def answer_lines(command: Command, rows: list[tuple[str, Row]]) -> Iterator[str]:
    """A question with the answers of the corners and what stands below them, once where they are the same."""
    told = [(answer_text(row), list(lines_of_row(command, row, None))) for _, row in rows]
    if len(told) > 1 and all(it == told[0] for it in told):
        yield f"{command.text()} -> {told[0][0]} (all corners)"
        yield from told[0][1]
        return
    width = max(len(corner) for corner, _ in rows)
    yield command.text()
    for (corner, _), (text, below) in zip(rows, told):
        yield f"  {corner:{width}}  {text}"
        yield from (f"  {line}" for line in below)


def text_of(merged: Merged, most: int) -> str:
    """All of it as text."""
    parts = [list(summary_lines(merged)), list(failing_lines(merged, most)), list(question_lines(merged))]
    return "\n\n".join("\n".join(it) for it in parts if it) + "\n"


# ------------------------------------------------------------------------------------------------ data for programs


def corner_value(corner: CornerAnswers) -> dict:
    """A corner as data."""
    outcome = corner.outcome
    told = {
        "name": corner.name,
        "state": outcome.state.value,
        "status": outcome.status,
        "seconds": outcome.seconds,
        "processor": outcome.processor,
        "host": outcome.host,
        "log": str(corner.job.log),
    }
    if corner.is_there():
        totals = {kind: dict(zip(("wns", "tns"), corner.total(kind))) for kind in KINDS}
        told.update(output=str(corner.job.output), design=corner.design(), **totals)
    return told


def endpoint_value(end: Endpoint) -> dict:
    """An endpoint as data."""
    slack, corner = end.worst()
    return {"pin": end.pin, "slack": slack, "corner": corner, "slacks": end.slacks}


def data_of(merged: Merged) -> dict:
    """All of it as data; times are texts in picoseconds, as each corner wrote them."""
    worst = {kind: merged.worst(kind) for kind in KINDS}
    questions = [
        {
            "question": command.lines,
            "answers": {
                corner: {"design": row.design, "answer": row.sort, **row_value(command, row, None)}
                for corner, row in rows
            },
        }
        for command, rows in merged.questions()
    ]
    return {
        "corners": [corner_value(it) for it in merged.corners],
        "worst": {kind: {"slack": it[0], "corner": it[1]} if it else None for kind, it in worst.items()},
        "endpoints": {kind: [endpoint_value(it) for it in merged.endpoints[kind]] for kind in KINDS},
        "untested": merged.untested,
        "questions": questions,
    }
