"""Checks what several sessions wrote by a run of one: check_sessions.py [--program FILE] OUTPUT run [--journal NAME]
EARLY LATE NETLIST SDC SPEF WORKERS SCRIPT ..

OUTPUT is the output of that run. The order in which sessions publish is free, so two runs of the same words may differ;
but each row has the number of a design, and the journal says which ECOs made it. This tool writes one script of its
own: the ECOs of the journal, and between them each question and each refused ECO at its number. It runs that script
alone and compares the answers. It looks, too, whether the numbers of a session never fall, whether each accepted ECO is
its session's entry of the journal, and whether the journal has no other. The status is 0 where all agrees, else 1. FILE
is the program to run (default: lizdrog of this repository); a live program has that script as its one session.
"""
import argparse
import collections
import pathlib
import shutil
import subprocess
import sys
import tempfile
from collections.abc import Callable

from lizdrog_tools import closing_answers, explain_fault, read_answers
from lizdrog_tools.files import InputFault, tool
from lizdrog_tools.places import TOP

MOST = 10000
MOST_SHOWN = 200
WRONG_WORDS = "fault words\n"
WORDS = "run [--journal NAME] EARLY LATE NETLIST SDC SPEF WORKERS SCRIPT .."
# A question or a refused ECO at a design: its number, and the lines that ask it.
Asked = tuple[int, tuple[str, ...]]


def in_order(edit: str) -> str:
    """An edit as the journal writes it: of parasitics the capacitances come before the resistors."""
    name, *words = edit.split()
    if name != "set_parasitics":
        return edit
    items, at = {"c": [], "r": []}, 1
    while at < len(words) and words[at] in items:
        end = at + (3 if words[at] == "c" else 4)
        items[words[at]] += words[at:end]
        at = end
    return " ".join([name, words[0], *items["c"], *items["r"], *words[at:]])


SORTS = {"report_through": "path", "begin_what_if": "what_if", "advise": "advice", **closing_answers.OF_LINES}


def edits_of(command: read_answers.Command) -> list[str]:
    """The edits of an ECO's command, each by its words, or none where it is no ECO."""
    name = command.words[0]
    is_other = name in ("take", "await") or name in SORTS or name.startswith("report_")
    return [] if is_other else [in_order(it) for it in command.edits()]


def sort_of(question: str) -> str:
    """What the answer to a question begins with."""
    return SORTS.get(question, question.removeprefix("report_"))


def lines_of(edits: list[str]) -> list[str]:
    return edits if len(edits) == 1 else ["begin_eco", *edits, "commit_eco"]


def asked_again(command: read_answers.Command) -> list[str]:
    """The lines that ask a command again: those of an ECO with its edits in the order of the journal."""
    edits = edits_of(command)
    return lines_of(edits) if edits else [" ".join(it.split()) for it in command.lines]


def answer(row: read_answers.Row) -> tuple[list[str], list[list[str]]]:
    return [row.sort, *row.words], row.below


class Sessions:
    """Scripts with the rows of their sessions, and what is wrong with these; refusals can be left out of the run of one
    session."""

    def __init__(self, scripts: list[list[read_answers.Command]], output: read_answers.Output, refusals: bool = True):
        self.scripts, self.output = scripts, output
        self.faults: list[str] = []
        self.newest = output.first + len(output.ecos)
        self.told_elsewhere = {"accepted", "taken", "reached", "not_yet"} | (set() if refusals else {"refused", "no"})

    def say(self, session: int, row: read_answers.Row, what: str) -> None:
        self.faults.append(f"session {session}, command {row.command}: {what}")

    def eco(self, number: int) -> list[str]:
        """The ECO that made the design of this number."""
        return self.output.ecos[number - self.output.first - 1]

    def look(self) -> None:
        """Looks at what needs no run: the numbers, and who made which entry."""
        if len(self.output.sessions) != len(self.scripts):
            self.faults.append(f"{len(self.scripts)} scripts, and {len(self.output.sessions)} sessions")
            return
        for number, (commands, rows) in enumerate(zip(self.scripts, self.output.sessions), 1):
            if [it.command for it in rows] != [it.number for it in commands]:
                self.faults.append(f"session {number}: {len(commands)} commands, and the rows are those of others")
                continue
            self.look_at_rows(number, commands, rows)

    def look_at_rows(
        self, session: int, commands: list[read_answers.Command], rows: list[read_answers.Row]
    ) -> None:
        last, made = None, []
        for command, row in zip(commands, rows):
            if last is not None and row.design < last or not self.output.first <= row.design <= self.newest:
                self.say(session, row, f"the design {row.design} after {last}, of {self.newest}")
            self.look_at_row(session, command, row, last)
            if row.sort == "accepted":
                made.append(row.design)
            last = row.design
        entries = [number for number, maker in enumerate(self.output.makers, self.output.first + 1) if maker == session]
        if made != entries:
            self.faults.append(f"session {session}: its rows accept {made}, and its entries are {entries}")

    def look_at_row(
        self, session: int, command: read_answers.Command, row: read_answers.Row, last: int | None
    ) -> None:
        """Whether the sort of the answer is that of the command, and its number fits."""
        name, edits = command.words[0], edits_of(command)
        if name == "take":
            fits = row.sort == "taken"
        elif name == "await":
            number, looks = map(int, command.words[1:3])
            reached = row.sort == "reached" and row.design >= number
            fits = reached or row.sort == "not_yet" and row.design < number and row.words == [str(looks)]
        elif not edits:
            fits = row.sort in (sort_of(name), "no") and last in (None, row.design)
        elif row.sort == "accepted":
            fits = (
                self.output.first < row.design <= self.newest and self.eco(row.design) == edits and row.design != last
            )
        else:
            fits = row.sort == "refused"
        if not fits:
            self.say(
                session, row, f"{command.text()} has the answer {row.sort} {' '.join(row.words)} (design {row.design})"
            )

    def asked(self) -> dict[Asked, list[tuple[int, read_answers.Row]]]:
        """The questions and refused ECOs of each design, each once, with the rows that have them."""
        found = {}
        for session, (commands, rows) in enumerate(zip(self.scripts, self.output.sessions), 1):
            for command, row in zip(commands, rows):
                if row.sort not in self.told_elsewhere:
                    found.setdefault((row.design, tuple(asked_again(command))), []).append((session, row))
        return found

    def compare(self, run: Callable[[str], read_answers.Output]) -> int:
        """Compares with what one session answers; `run` runs a script. Gives how many commands it had."""
        asked, script, places = self.asked(), [], []
        for number in range(self.output.first, self.newest + 1):
            if number > self.output.first:
                script.append(lines_of(self.eco(number)))
                places.append(None)
            for (design, lines), rows in asked.items():
                if design == number:
                    script.append(list(lines))
                    places.append(rows)
        if len(script) > MOST:
            sys.exit(f"check_sessions: {len(script)} commands are needed, and a script has at most {MOST}")
        alone = run("".join(f"{line}\n" for lines in script for line in lines))
        if alone.final != self.output.final:
            self.faults.append(
                f"the last line is final {' '.join(self.output.final)}, and of one session final"
                f" {' '.join(alone.final)}"
            )
        for lines, rows, told in zip(script, places, alone.sessions[0]):
            if rows is None and told.sort != "accepted":
                self.faults.append(f"an entry of the journal is {told.sort} {' '.join(told.words)}: {lines[0]}")
            for session, row in rows or []:
                if answer(row) != answer(told):
                    self.say(
                        session,
                        row,
                        (
                            f"{' '.join(answer(row)[0])}, and one session says {' '.join(answer(told)[0])} at design"
                            f" {row.design}"
                        ),
                    )
        return len(script)


def ran(words: list[str]) -> tuple[int, str, str]:
    """The status of a program, what it wrote, and the last line of what it said beside that, which is passed on."""
    last: collections.deque[str] = collections.deque(maxlen=1)
    with tempfile.TemporaryFile("w+", encoding="latin-1") as output:
        try:
            child = subprocess.Popen(words, stdout=output, stderr=subprocess.PIPE, text=True, errors="replace")
        except OSError as why:
            sys.exit(f"check_sessions: {words[0]} does not start: {why.strerror}")
        with child:
            for line in child.stderr:
                sys.stderr.write(line)
                last.append(line.strip())
        output.seek(0)
        return child.returncode, output.read(), "".join(last)


def ran_live(program: str, journal: str | None, documents: list[str], script: str) -> tuple[int, str, str]:
    """The same of a live program, which has a script as its one session; it adds to a copy of the saved journal."""
    with tempfile.TemporaryDirectory() as folder:
        option = ["--journal", shutil.copy(journal, f"{folder}/journal")] if journal else []
        rows = pathlib.Path(folder, "rows")
        status, output, said = ran([program, "live", *option, *documents, script, str(rows)])
        if status in (0, 1):
            output = f"journal 1 0\nsession 1\n{rows.read_text(encoding='latin-1')}{output}"
    return status, output, said


def runner(program: str, words: list[str], journal: str | None) -> Callable[[str], read_answers.Output]:
    """Runs a script on the documents of the words of a run, and on its saved journal."""
    option = ["--journal", journal] if journal else []

    def run(text: str) -> read_answers.Output:
        with tempfile.NamedTemporaryFile("w", suffix=".eco") as script:
            script.write(text)
            script.flush()
            status, output, said = ran([program, "run", *option, *words[1:7], script.name])
            if (output, said) == (WRONG_WORDS, ""):
                status, output, said = ran_live(program, journal, words[1:7], script.name)
        if status not in (0, 1):
            told = "; ".join(it for it in (output.strip()[:MOST_SHOWN], said) if it) or "it said nothing"
            sys.exit(f"check_sessions: the run of one session ended with status {status}: {told}")
        return read_answers.Output(output)
    return run


def arguments() -> argparse.Namespace:
    """The options and OUTPUT, in any order, and behind them the words of the run."""
    parser = argparse.ArgumentParser(
        description=__doc__,
        formatter_class=argparse.RawDescriptionHelpFormatter,
        usage=f"check_sessions.py [--program FILE] OUTPUT {WORDS}",
    )
    parser.add_argument("--program", default=str(TOP / "lizdrog"), help=argparse.SUPPRESS)
    parser.add_argument("output", help=argparse.SUPPRESS)
    parser.add_argument("other", nargs="*", help=argparse.SUPPRESS)
    said = sys.argv[1:]
    at = said.index("run", 1) if "run" in said[1:] else len(said)
    given = parser.parse_intermixed_args(said[:at])
    given.words, given.journal = explain_fault.without_journal(said[at:])
    if given.other or len(given.words) < 8:
        parser.error(f"the words of the run are missing: {WORDS}")
    return given


@tool("check_sessions")
def main() -> int:
    given = arguments()
    output = read_answers.read_output(given.output)
    if output.final is None:
        raise InputFault(given.output, None, "it has no last line")
    sessions = Sessions([read_answers.read_script_file(it) for it in given.words[7:]], output)
    sessions.look()
    if not sessions.faults:
        sessions.compare(runner(given.program, given.words, given.journal))
    for fault in sessions.faults:
        print(f"check_sessions: {fault}")
    if sessions.faults:
        return 1
    rows = sum(map(len, output.sessions))
    print(
        f"check_sessions: {rows} rows of {len(output.sessions)} sessions, {len(output.ecos)} ECOs: each answer is that"
        " of one session alone"
    )
    return 0
