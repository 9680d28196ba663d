"""Joins a script with the output of its run: read_answers.py SCRIPT OUTPUT [options]

It prints a line for each row with its question, as `report_endpoint r2:D setup -> 936.500 ps (design 1)`, and paths and
lists below it.

  --netlist NETLIST --library LIBRARY   beside each pin of a path its cell, the net that it drives and its number of
                                        sinks, as they are in the design of the row (ECOs of the journal included); and
                                        the pins for which the parasitics of an ECO are refused (E14, E15)
  --journal SAVED                       for these: the saved journal that the run went on from
  --json, --csv                         the rows for programs, in place of the lines; in CSV each sort of answer for
                                        closing timing has a table of its own behind that of all rows
  --failing                             the endpoints of negative slack, counted and listed, worst first
  --histogram                           how many endpoints have which slack, as text
  --svg FILE                            the same as a picture
  --design N                            for the three above: the design whose rows count (default: the last one with
                                        endpoints)
  --session N                           the session whose script it is; an output of several sessions asks for it

Endpoints are those of the script's report_endpoint, report_worst and report_failing; tools/endpoint_questions.py writes
a script that asks all. The paths of a report_paths are one below the other, worst first; below a draft is each of its
trials with its answer.
"""
import argparse
import csv
import json
import os
import sys
from collections.abc import Iterable, Iterator

from lizdrog_tools import closing_answers, closing_tables, convert_journal, explain_fault, refused_parasitics
from lizdrog_tools.files import InputFault, TextFault, parsed, tool
from lizdrog_tools.liberty import Library, read_library
from lizdrog_tools.reporting.histogram import bins_of, endpoints_text, histograms, picoseconds
from lizdrog_tools.verilog import Instance, Joined, Netlist, read_netlist

QUESTIONS = {
    "Q1": "there is no such pin",
    "Q2": "it is no endpoint",
    "Q3": "the register has no test of this kind that a clock reaches",
    "Q4": "there is no such net, instance, or cell of both libraries",
    "Q5": "there are too many of them",
}


# ------------------------------------------------------------------------------------------------ the script and the
# output

Numbered = tuple[int, str]
# Slacks of endpoints in fs by kind; none where no path is tested.
Slacks = dict[str, dict[str, int | None]]


class Command:
    """A command of a script: its number, its lines with their numbers, where it begins, and its words."""

    def __init__(self, number: int, numbered: list[Numbered]):
        self.number, self.numbered = number, numbered
        self.line, self.lines = numbered[0][0], [line for _, line in numbered]
        self.words = self.lines[0].split()

    def text(self) -> str:
        if len(self.lines) == 1:
            return " ".join(self.words)
        return (
            f"begin_eco ({len(self.lines) - 2} edits)"
            if self.words[0] == "begin_eco"
            else f"begin_what_if ({len(self.trials())} trials)"
        )

    def trials(self) -> list["Command"]:
        """The trials of a draft, groups of edits as one."""
        return commands_of(self.numbered[1:-1], "begin_eco") if self.words[0] == "begin_what_if" else []

    def edits(self) -> list[str]:
        """The edits of an ECO, alone or as a group, by their words."""
        return self.lines[1:-1] if self.words[0] == "begin_eco" else [" ".join(self.words)]


ENDS = {"begin_eco": "commit_eco", "begin_what_if": "end_what_if"}


def commands_of(numbered: Iterable[Numbered], *begins: str) -> list[Command]:
    """The commands of some lines with their numbers: what these words begin is one, up to its end."""
    commands, group, end = [], None, None
    for number, line in numbered:
        words = line.split()
        if not words or words[0].startswith("#"):
            continue
        if group is not None:
            group.append((number, " ".join(words)))
            if words[0] == end:
                commands.append(Command(len(commands) + 1, group))
                group = None
        elif words[0] in begins:
            group, end = [(number, words[0])], ENDS[words[0]]
        else:
            commands.append(Command(len(commands) + 1, [(number, line)]))
    return commands


def read_script(text: str) -> list[Command]:
    """The commands of a script, groups of edits and drafts as one."""
    return commands_of(enumerate(text.split("\n"), 1), *ENDS)


ANSWERS = {
    "take": ("taken",),
    "await": ("reached", "not_yet"),
    "advise": ("advice",),
    "begin_what_if": ("what_if",),
    "report_through": ("path", "no"),
    **{name: (sort, "no") for name, sort in closing_answers.OF_LINES.items()},
}


def may_answer(words: list[str], row: "Row") -> bool:
    """Whether a row may answer a command: its first word fits, and where it is a path it is one of that kind to that
    pin."""
    name = words[0]
    sorts = ANSWERS.get(name) or (
        (name[len("report_") :], "no") if name.startswith("report_") else ("accepted", "refused")
    )
    if row.sort == "path" and row.words[:1] != ["none"]:
        return row.sort in sorts and row.words[:2] == [words[2], words[1]]
    return row.sort in sorts and closing_answers.is_asked(words, row.sort, row.words)


class Row:
    """A row of a session: command, design, what it is, and what belongs to it."""

    def __init__(self, words: list[str], below: list[list[str]]):
        self.command, self.design, self.sort = int(words[0]), int(words[1]), words[2]
        self.words, self.below = words[3:], below

    def check(self) -> None:
        """A ValueError where an answer for closing timing is not as the program writes it."""
        closing_answers.check(self.sort, self.words, self.below)
        for it in self.parts() if self.sort == "what_if" else ():
            it.check()

    def parts(self) -> list["Row"]:
        """Each path of a row of several, or each answer of a draft, as a row of its own."""
        found, at = [], 0
        while at < len(self.below):
            head = self.below[at]
            end = at + 1 + lines_below(head, self.below, at + 1)
            found.append(Row([str(self.command), str(self.design), *head], self.below[at + 1:end]))
            at = end
        return found


def lines_below(answer: list[str], lines: list[list[str]], at: int) -> int:
    """How many lines of paths, of a list of endpoints, of a net and so on, or of the answers of a draft belong to an
    answer; they begin at this line."""
    if answer[0] == "worst":
        return int(answer[1])
    if answer[0] in ("paths", "worst_paths", "what_if"):
        end = at
        for _ in range(int(answer[1])):
            end += 1 + lines_below(lines[end], lines, end + 1)
        return end - at
    if answer[0] in closing_answers.SORTS:
        return closing_answers.lines_below(answer)
    return int(answer[-1]) if answer[0] == "path" and answer[1] != "none" else 0


class Output:
    """The output of a run: how many saved entries stand before, the ECOs of its journal with the sessions that made
    them, the rows of its sessions, and its last line."""

    def __init__(self, text: str):
        self.first, self.ecos, self.makers, self.sessions, self.final, self.rows = 0, [], [], [], None, []
        self.lines, self.at = [it.split(" ") for it in text.split("\n")], 0
        if not self.lines[0][0].startswith("journal"):
            raise TextFault(1, f"this is no output of a run: {' '.join(self.lines[0])[:60]}")
        while self.at < len(self.lines):
            line = self.at
            try:
                self.step(self.lines[line])
            except (ValueError, IndexError) as why:
                said = " ".join(self.lines[line])[:60]
                raise TextFault(
                    line + 1, f"this is no line of an output, or what belongs to it is cut short: {said}"
                ) from why

    def step(self, words: list[str]) -> None:
        """Reads what begins at this line."""
        self.at += 1
        if words[:2] == ["journal", "2"] and self.at == 1:
            self.first = int(words[2])
        elif words[0] == "entry":
            self.ecos.append([" ".join(it) for it in self.taken(int(words[5]))])
            self.makers.append(int(words[3]))
        elif words[0] == "session":
            self.sessions.append([])
        elif words[0] == "final":
            self.final = words[1:]
            _, *totals = self.final
            if len(totals) != 6:
                raise ValueError("a last line has both kinds")
        elif self.sessions and words[0].isdecimal():
            row = Row(words, self.taken(lines_below(words[2:], self.lines, self.at)))
            row.check()
            self.sessions[-1].append(row)

    def taken(self, count: int) -> list[list[str]]:
        """So many lines from here, which are passed."""
        lines = self.lines[self.at:self.at + count]
        if len(lines) < count:
            raise IndexError("lines are missing")
        self.at += count
        return lines


def read_output(name: str | os.PathLike) -> Output:
    """The output of a run in a file."""
    return parsed(name, Output)


def read_script_file(name: str | os.PathLike) -> list[Command]:
    """The commands of a script in a file."""
    return parsed(name, read_script, may_be_empty=True)


# ------------------------------------------------------------------------------------------------ the design of a row

class Edited:
    """A netlist with its library, taken through the ECOs of a journal one after the other, and through those of a draft
    and back."""

    def __init__(self, netlist: Netlist, library: Library, ecos: list[list[str]]):
        self.netlist, self.library, self.ecos, self.number, self.joined = netlist, library, ecos, 0, None
        self.tried: list[str] = []
        self.before: list[tuple[str, Instance | None]] = []

    def at(self, number: int, tried: list[str] | None = None) -> Joined:
        """The design of this number, with the edits of a draft; numbers may not fall. It stands until the next one is
        asked for."""
        if self.tried != (tried or []) or self.number < number:
            self.go_back()
        while self.number < min(number, len(self.ecos)):
            for edit in self.ecos[self.number]:
                self.edit_of(edit)
            self.number, self.before = self.number + 1, []
        if self.joined is None:
            self.joined = Joined(self.netlist, self.library)
        if tried and not self.tried:
            self.tried, self.before = tried, []
            for edit in tried:
                self.edit_of(edit)
        return self.joined

    def go_back(self) -> None:
        """Undoes the edits of a draft."""
        for name, made in reversed(self.before if self.tried else []):
            self.put(name, made)
        self.tried, self.before = [], []

    def drafted(self, edits: list[str]) -> "Drafted":
        """The designs after edits that are tried."""
        return Drafted(self, edits)

    def put(self, name: str, made: Instance | None) -> None:
        """Puts an instance in the place of the one of its name, or takes that away."""
        old = self.netlist.instances.get(name)
        self.before.append((name, old))
        if made is None:
            self.netlist.instances.pop(name, None)
        else:
            self.netlist.instances[name] = made
        if self.joined is not None:
            self.joined.exchange(old, made)

    def pin(self, word: str) -> tuple[Instance, str]:
        instance, _, pin = word.rpartition(":")
        return self.netlist.instances[instance], pin

    def edit_of(self, edit: str) -> None:
        """Takes the design through an edit; one that names what is not there is of another design."""
        try:
            self.edit(edit.split())
        except (KeyError, IndexError) as why:
            raise TextFault(
                None, f"the edit `{edit[:80]}` of the journal names what neither the netlist nor the library has"
            ) from why

    def connect(self, word: str, net: str | None) -> None:
        """Connects a pin with a net, or opens it."""
        instance, pin = self.pin(word)
        made = instance.copied()
        made.nets[pin] = net
        self.put(made.name, made)

    def edit(self, words: list[str]) -> None:
        name, instances = words[0], self.netlist.instances
        if name == "repower_gate":
            made = instances[words[1]].copied()
            made.cell = words[2]
            self.put(made.name, made)
        elif name == "insert_gate":
            self.put(words[1], Instance(words[1], words[2], 0))
        elif name == "remove_gate":
            self.put(instances[words[1]].name, None)
        elif name in ("connect_pin", "disconnect_pin"):
            self.connect(words[1], words[2] if name == "connect_pin" else None)
        elif name == "insert_buffer":
            net, inst, fresh, cell = words[1:5]
            buffer = Instance(inst, cell, 0)
            for pin, (way, _) in self.library.cells[cell].pins.items():
                buffer.nets[pin] = net if way == "input" else fresh
            self.put(inst, buffer)
            for sink in words[5:]:
                self.connect(sink, fresh)


class Drafted:
    """The designs of a journal with the edits of a draft."""

    def __init__(self, edited: Edited, edits: list[str]):
        self.edited, self.edits = edited, edits

    def drafted(self, edits: list[str]) -> "Drafted":
        """The designs after further edits that are tried."""
        return Drafted(self.edited, [*self.edits, *edits])

    def at(self, number: int) -> Joined:
        """The design of this number with these edits; it stands until the next one is asked for."""
        return self.edited.at(number, self.edits)


Designs = Edited | Drafted | None


def beside(design: Joined, pin: str, direction: str) -> dict[str, str | int | None]:
    """What is beside a pin of a path: its cell, and where it drives a net that net with its number of sinks."""
    net = design.nets.get(design.net_of.get(pin))
    cell = design.cell_of(pin) or f"{direction} port"
    drives = net is not None and pin in net.drivers
    return {"cell": cell, "net": net.name if drives else None, "fanout": len(net.sinks) if drives else None}


def cells_beside(row: Row, edited: Designs) -> closing_answers.Cells:
    """What tells the cell of a pin in the design of a row; none where no design is known."""
    if edited is None or row.sort != "timing":
        return None
    design = edited.at(row.design)
    return lambda pin, way: design.cell_of(pin) or f"{way} port"


def causes(command: Command, row: Row, edited: Designs) -> list[str]:
    """What is seen of the cause of a refused ECO."""
    edits = command.edits()
    tried = (lambda: edited.drafted(edits).at(row.design)) if edited else None
    return refused_parasitics.lines(row.words, edits, tried)


def draft_rows(command: Command, row: Row, edited: Designs) -> Iterator[tuple[Command, Row, Designs]]:
    """Each trial of a draft with its answer, and the design that it speaks of where designs are there."""
    tried, shown = [], edited
    for trial, answer in zip(command.trials(), row.parts()):
        yield trial, answer, shown
        if answer.sort == "tried":
            tried.append(trial.edits())
        elif answer.sort == "dropped":
            tried.pop()
        if edited and answer.sort in ("tried", "dropped"):
            shown = edited.drafted([edit for edits in tried for edit in edits]) if tried else edited


def path_lines(row: Row, edited: Designs) -> list[dict]:
    """The pins of a path with the delay of each stage, and what is beside them."""
    design, before, found = edited.at(row.design) if edited else None, None, []
    for pin, edge, time in row.below:
        value = thousandths(time)
        line = {
            "pin": pin,
            "edge": edge,
            "time": time,
            "stage": None if before is None else picoseconds(value - before),
        }
        if design:
            line.update(beside(design, pin, "input" if before is None else "output"))
        found.append(line)
        before = value
    return found


def thousandths(time: str) -> int:
    """A printed time as a whole number of femtoseconds."""
    return int(time.replace(".", ""))


# ------------------------------------------------------------------------------------------------ lines for people

def answer_text(row: Row) -> str:
    """The answer of a row, in a line."""
    words = row.words
    if row.sort in ("taken", "reached", "accepted", "tried", "dropped"):
        return row.sort
    if row.sort == "no_draft":
        return "nothing to drop"
    if row.sort == "what_if":
        return f"{words[0]} answer{'' if words[0] == '1' else 's'}"
    if row.sort == "advice":
        return "no resize" if words[0] == "none" else f"{words[0]} to {words[1]}, worst slack {words[2]} ps"
    if row.sort == "not_yet":
        return f"not yet, after {words[0]} looks"
    if row.sort == "refused":
        return f"refused {' '.join(words)}: {explain_fault.sentence(words[0])}"
    if row.sort == "no":
        return f"no answer, {' '.join(words)}: {QUESTIONS.get(words[0], '')}"
    if row.sort in ("at", "rat"):
        edges = [f"{words[i]} {words[i + 1]} {words[i + 2]} ps" for i in range(1, len(words) - 2, 3)]
        return ", ".join(edges) or ("no arrival" if row.sort == "at" else "no required time")
    if row.sort == "worst":
        return f"{words[0]} endpoints"
    if row.sort in ("paths", "worst_paths"):
        return f"{words[0]} path{'' if words[0] == '1' else 's'}"
    if row.sort in closing_answers.SORTS:
        return closing_answers.text(row.sort, words)
    if row.sort == "path":
        return (
            "no tested path"
            if words[0] == "none"
            else f"slack {words[3]} ps, credit {words[5]} ps, from {words[7]} {words[8]} to {words[10]} {words[11]}"
        )
    return words[0] if words[0] == "none" else f"{words[0]} ps"


def bound_text(row: Row) -> str:
    """What the test of a path asks of its time."""
    time, slack = thousandths(row.below[-1][2]), thousandths(row.words[3])
    if row.words[0] == "setup":
        return f"  {picoseconds(time + slack):>11} is the latest time that the setup test allows, with credit"
    return f"  {picoseconds(time - slack):>11} is the earliest time that the hold test allows, with credit"


def path_text(row: Row, edited: Designs) -> Iterator[str]:
    """The lines of a path in columns."""
    lines = path_lines(row, edited)
    width = max(len(it["pin"]) for it in lines)
    yield f"  {'time':>11} {'stage':>10} edge {'pin':{width}}" + (
        "  cell, and the net that the pin drives" if edited else ""
    )
    for line in lines:
        text = f"  {line['time']:>11} {line['stage'] or '':>10} {line['edge']:4} {line['pin']:{width}}"
        if edited:
            net = (
                f"  net {line['net']}, {line['fanout']} sink{'' if line['fanout'] == 1 else 's'}" if line["net"] else ""
            )
            text += f"  {line['cell']}{net}"
        yield text.rstrip()
    yield bound_text(row)


def lines_of_row(command: Command, row: Row, edited: Designs) -> Iterator[str]:
    """What is below the line of a row."""
    if row.sort == "worst":
        width = max((len(time) for _, time in row.below), default=0)
        for pin, time in row.below:
            yield f"  {time:>{width}} ps  {pin}"
    elif row.sort == "path" and row.below:
        yield from path_text(row, edited)
    elif row.sort in ("paths", "worst_paths"):
        for place, path in enumerate(row.parts(), 1):
            to = f" to {path.words[1]}" if row.sort == "worst_paths" else ""
            yield f"  path {place}{to}: {answer_text(path)}"
            yield from path_text(path, edited)
    elif row.sort in closing_answers.SORTS:
        yield from closing_answers.lines_of(row.sort, row.words, row.below, cells_beside(row, edited))
    elif row.sort == "refused":
        yield from (f"  {it}" for it in causes(command, row, edited))
    elif row.sort == "what_if":
        for trial, answer, shown in draft_rows(command, row, edited):
            yield f"  {trial.text()} -> {answer_text(answer)}"
            yield from (f"  {line}" for line in lines_of_row(trial, answer, shown))


def print_lines(commands: list[Command], output: Output, edited: Designs) -> None:
    for row in output.rows:
        command = commands[row.command - 1]
        print(f"{command.text()} -> {answer_text(row)} (design {row.design})")
        for line in lines_of_row(command, row, edited):
            print(line)
    number, *totals = output.final
    kinds = [
        f"{kind} worst {worst if worst == 'none' else worst + ' ps'}, total {total} ps"
        for kind, worst, total in (totals[:3], totals[3:])
    ]
    print(f"at the end, design {number}: {'; '.join(kinds)}")


# ------------------------------------------------------------------------------------------------ rows for programs

def row_value(command: Command, row: Row, edited: Designs) -> dict:
    """The answer of a row as data; times are texts in picoseconds."""
    words = row.words
    if row.sort == "what_if":
        return {
            "answers": [
                {"line": trial.line, "question": trial.lines, "answer": answer.sort, **row_value(trial, answer, shown)}
                for trial, answer, shown in draft_rows(command, row, edited)
            ]
        }
    if row.sort == "advice":
        return {"advice": None if words[0] == "none" else {"instance": words[0], "cell": words[1], "wns": words[2]}}
    if row.sort in ("refused", "no"):
        found = causes(command, row, edited) if edited else []
        return {"code": words[0], "names": words[1:], **({"causes": found} if found else {})}
    if row.sort in ("at", "rat"):
        return {
            "edges": [
                {"clock": words[i], "edge": words[i + 1], "time": words[i + 2]} for i in range(1, len(words) - 2, 3)
            ]
        }
    if row.sort == "worst":
        return {"endpoints": [{"pin": pin, "slack": time} for pin, time in row.below]}
    if row.sort == "path":
        if words[0] == "none":
            return {"path": None}
        return {
            "slack": words[3],
            "credit": words[5],
            "launch": words[7:9],
            "capture": words[10:12],
            "path": path_lines(row, edited),
        }
    if row.sort == "paths":
        return {"paths": [row_value(command, path, edited) for path in row.parts()]}
    if row.sort == "worst_paths":
        return {"paths": [{"endpoint": it.words[1], **row_value(command, it, edited)} for it in row.parts()]}
    if row.sort in closing_answers.SORTS:
        return closing_answers.value(row.sort, words, row.below, cells_beside(row, edited))
    if row.sort == "not_yet":
        return {"looks": int(words[0])}
    return {"time": None if words[0] == "none" else words[0]} if words else {}


def as_data(commands: list[Command], output: Output, edited: Designs) -> dict:
    rows = [
        {
            "command": row.command,
            "line": commands[row.command - 1].line,
            "question": commands[row.command - 1].lines,
            "design": row.design,
            "answer": row.sort,
            **row_value(commands[row.command - 1], row, edited),
        }
        for row in output.rows
    ]
    number, _, setup, setup_total, _, hold, hold_total = output.final
    final = {
        "design": int(number),
        "setup": {"wns": setup, "tns": setup_total},
        "hold": {"wns": hold, "tns": hold_total},
    }
    return {"first": output.first, "journal": output.ecos, "rows": rows, "final": final}


def csv_rows(commands: list[Command], output: Output, edited: Designs) -> Iterator[tuple[list, Row, Designs]]:
    """Each row, and each trial of a draft: how its lines begin, the answer, and the designs that it speaks of. Trials
    of a draft have a > before them."""
    for row in output.rows:
        command = commands[row.command - 1]
        if row.sort != "what_if":
            yield [row.command, row.design, command.text()], row, edited
        for trial, answer, shown in draft_rows(command, row, edited):
            yield [row.command, row.design, f"> {trial.text()}"], answer, shown


def print_csv(commands: list[Command], output: Output, edited: Designs) -> None:
    """A line for each row and each trial of a draft, or for each edge or line below it: command, design, question,
    answer, pin or clock, edge, time. Behind them each sort of the answers for closing timing has a table of its own."""
    out, tables = csv.writer(sys.stdout, lineterminator="\n"), closing_tables.Tables()
    out.writerow([*closing_tables.HEAD, "pin", "edge", "time"])
    for head, row, shown in csv_rows(commands, output, edited):
        out.writerows(csv_lines([*head, row.sort], row))
        if row.sort in closing_answers.SORTS:
            tables.take(head, row.sort, row.words, row.below, cells_beside(row, shown))
    out.writerows(tables.lines())


def csv_lines(head: list, row: Row) -> Iterator[list]:
    """The lines of a row, which begin with its head."""
    if row.sort in ("at", "rat") and len(row.words) > 1:
        for i in range(1, len(row.words) - 2, 3):
            yield [*head, row.words[i], row.words[i + 1], row.words[i + 2]]
    elif row.sort == "paths" and row.below:
        for place, path in enumerate(row.parts(), 1):
            for line in path.below:
                yield [*head[:3], f"path {place}", *line]
    elif row.sort in closing_answers.SORTS:
        yield [*head, *closing_tables.in_short(row.sort, row.words, row.below)]
    elif row.sort == "advice" and row.words[0] != "none":
        yield [*head, " ".join(row.words[:2]), "", row.words[2]]
    elif row.below:
        for line in row.below:
            yield [*head, line[0], line[1] if len(line) == 3 else "", line[-1]]
    else:
        is_time = row.sort in ("slew", "slack", "endpoint", "wns", "tns") and row.words[0] != "none"
        said = "" if is_time else "none" if row.words == ["0"] else " ".join(row.words)
        yield [*head, said, "", row.words[0] if is_time else ""]


# ------------------------------------------------------------------------------------------------ slacks of endpoints

def asked_slacks(words: list[str], row: Row) -> tuple[str, list[list[str]]] | None:
    """The kind and the pairs of an endpoint and its slack that a row tells; none where it tells of no endpoints."""
    if row.sort == "endpoint":
        return words[2], [[words[1], row.words[0]]]
    return (words[1], row.below) if row.sort in ("worst", "failing") else None


def slacks_of(commands: list[Command], output: Output, design: int | None) -> tuple[int, Slacks]:
    """The slacks of endpoints by kind, in fs, from the rows of one design, and the number of that design."""
    found = {}
    for row in output.rows:
        asked = asked_slacks(commands[row.command - 1].words, row)
        if asked is None:
            continue
        by_kind = found.setdefault(row.design, {"setup": {}, "hold": {}})[asked[0]]
        by_kind.update((pin, None if time == "none" else thousandths(time)) for pin, time in asked[1])
    number = design if design is not None else max(found, default=0)
    return number, found.get(number, {"setup": {}, "hold": {}})


def failing_counts(commands: list[Command], output: Output, design: int) -> dict[str, int]:
    """How many endpoints fail by kind, where report_failing asked it of a design."""
    rows = [it for it in output.rows if it.sort == "failing" and it.design == design]
    return {commands[it.command - 1].words[1]: int(it.words[0]) for it in rows}


def failing_head(ends: dict[str, int | None], failing: int, count: int | None) -> str:
    """How many endpoints of a kind fail, in words: the program's own count is that of all, else it is of those that
    were asked."""
    if count is not None:
        return f"{count} endpoints fail" + (f", of which {failing} are listed" if failing < count else "")
    if not ends:
        return "no report_endpoint was asked, and no report_worst or report_failing"
    untested = sum(slack is None for slack in ends.values())
    said = f", {untested} have no tested path" if untested else ""
    return f"{failing} of {len(ends)} endpoints that were asked fail{said}"


def print_failing(number: int, slacks: Slacks, counts: dict[str, int]) -> None:
    for kind, ends in slacks.items():
        failing = sorted((slack, pin) for pin, slack in ends.items() if slack is not None and slack < 0)
        print(f"{kind}, design {number}: {failing_head(ends, len(failing), counts.get(kind))}")
        for slack, pin in failing:
            print(f"  {picoseconds(slack):>12} ps  {pin}")


def note_unlisted(slacks: Slacks, counts: dict[str, int]) -> None:
    """Says where report_failing has counted more endpoints than it lists."""
    for kind, count in counts.items():
        listed = sum(it is not None and it < 0 for it in slacks[kind].values())
        if listed < count:
            said = f"{count} endpoints fail for {kind}, and {listed} of them are here"
            print(f"read_answers: note: {said}", file=sys.stderr)


def print_histogram(number: int, slacks: Slacks) -> None:
    for kind, ends in slacks.items():
        values = [it for it in ends.values() if it is not None]
        if not values:
            continue
        print(f"{kind} slack of {endpoints_text(values)}, design {number}, in ps")
        bins = bins_of(values)
        most = max(count for _, _, count in bins)
        for low, high, count in bins:
            bar = "#" * -(-count * 50 // most)
            print(f"  {picoseconds(low):>12} to {picoseconds(high):>12} {count:6} {bar}".rstrip())


# ------------------------------------------------------------------------------------------------ the command

def arguments() -> argparse.Namespace:
    parser = argparse.ArgumentParser(description=__doc__, formatter_class=argparse.RawDescriptionHelpFormatter)
    parser.add_argument("script")
    parser.add_argument("output")
    for name in ("--netlist", "--library", "--journal", "--svg"):
        parser.add_argument(name)
    for name in ("--json", "--csv", "--failing", "--histogram"):
        parser.add_argument(name, action="store_true")
    parser.add_argument("--design", type=int)
    parser.add_argument("--session", type=int)
    return parser.parse_args()


def rows_of_session(given: argparse.Namespace, commands: list[Command], output: Output) -> list[Row]:
    """The rows that answer the commands of the script."""
    count, name = len(output.sessions), given.output
    if given.session is None and count > 1:
        raise InputFault(
            name, None, f"it has {count} sessions: --session N says whose script {given.script} is, from 1"
        )
    session = given.session or 1
    rows = output.sessions[session - 1] if 1 <= session <= count else []
    if output.final is None or [row.command for row in rows] != [command.number for command in commands]:
        of = f" of session {session} of {count}" if count > 1 else ""
        raise InputFault(
            name, None, f"it is no whole output of {given.script}: {len(commands)} commands, {len(rows)} rows{of}"
        )
    for command, row in zip(commands, rows):
        if not may_answer(command.lines[0].split(), row):
            raise InputFault(
                name,
                None,
                (
                    f"it is of another script: `{' '.join([row.sort, *row.words])[:80]}` is no answer to "
                    f"`{command.lines[0][:80]}`, command {row.command} of {given.script}"
                ),
            )
    return rows


def edited_design(given: argparse.Namespace, output: Output) -> Edited | None:
    """The design that the ECOs of the journal edit, where the netlist and the library are given; else none."""
    if not (given.netlist and given.library):
        return None
    saved = parsed(given.journal, convert_journal.read_journal, may_be_empty=True) if given.journal else {}
    if any(number not in saved for number in range(1, output.first + 1)):
        raise InputFault(
            given.output,
            None,
            f"it goes on from {output.first} saved entries: --journal names the journal that has them",
        )
    ecos = [saved[number] for number in range(1, output.first + 1)] + output.ecos
    return Edited(read_netlist(given.netlist), read_library(given.library), ecos)


def show(given: argparse.Namespace, commands: list[Command], output: Output, edited: Designs) -> None:
    """Prints what the options ask for."""
    number, slacks = slacks_of(commands, output, given.design)
    if given.json:
        json.dump(as_data(commands, output, edited), sys.stdout, indent=1)
        print()
    elif given.csv:
        print_csv(commands, output, edited)
    elif not (given.failing or given.histogram or given.svg):
        print_lines(commands, output, edited)
    if given.failing:
        print_failing(number, slacks, failing_counts(commands, output, number))
    if given.histogram or given.svg:
        note_unlisted(slacks, failing_counts(commands, output, number))
    if given.histogram:
        print_histogram(number, slacks)
    if given.svg:
        with open(given.svg, "w", encoding="ascii") as file:
            file.write(histograms(number, slacks).file())


@tool("read_answers")
def main() -> None:
    given = arguments()
    commands, output = read_script_file(given.script), read_output(given.output)
    output.rows = rows_of_session(given, commands, output)
    edited = edited_design(given, output)
    try:
        show(given, commands, output, edited)
    except TextFault as why:
        raise InputFault(given.output, why.line, why.message) from why
    except (LookupError, ValueError) as why:
        raise InputFault(given.output, None, "the words of some row are not those that the program writes") from why
