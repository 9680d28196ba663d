"""A prompt at a live server: lizdrog connect ADDRESS [--name WHO] [--json]

ADDRESS is unix:PATH, or PATH alone, or tcp:127.0.0.1:PORT, as `lizdrog serve` says it. The server answers each line at
once. The prompt sends a group of edits or a draft once it is complete. `help` lists the commands; besides those of
scripts the prompt knows

  who, journal [COUNT]    who sits where; who made which ECO
  undo [N] [yes]          takes your last ECO back, or entry N of anybody; shown first
  keep [yes]              makes the edits that your last draft kept, as one ECO; shown first
  source FILE             says the lines of a script
  quit, leave             ends, and the seat stays yours; ends and gives the seat up

  --name WHO    the seat to take: who comes back by a name has the same session again (default: the user's name)
  --take-over   cuts off another client that sits there
  --json        an object a row, and one for each note, which standard error has in plain, too
  --plain       no prompt: lines of standard input, as where it is no terminal

Ctrl-C drops what you type, or leaves where you wait for an answer; the server goes on, and keeps the answer. The status
is 0 where each reply was an answer, 1 where one was refused, no, not_yet or an error, 2 for wrong words, 4 where the
server is not there or has ended.
"""
import argparse
import getpass
import json
import os
import re
import sys

from lizdrog_tools import explain_fault, help_text, read_answers
from lizdrog_tools.files import InputFault, TextFault, read_text
from lizdrog_tools.live import completion, prompts, wire
from lizdrog_tools.live.client import Connection, Refused
from lizdrog_tools.live.completion import OF_PROMPT
from lizdrog_tools.live.design import MOST_EDITS, CannotUndo, standing_undo
from lizdrog_tools.live.replies import Reply
from lizdrog_tools.live.shown import Documents
from lizdrog_tools.read_answers import ENDS, Command, Row, commands_of
from lizdrog_tools.refused_parasitics import CODES

WRONG_WORDS, LOST, INTERRUPTED = 2, 4, 130
NO_ANSWERS = ("refused", "no", "not_yet")
PATHS = ("path", "paths", "worst_paths", "timing")
SHOWN_ENTRIES = 20
SHOWN_EDITS = 3
MOST_DIGITS = 10
MOST_SHOWN = 120
# With a word more such a line is wrong, and the edits behind it would act one by one.
ALONE = {*ENDS, *ENDS.values()}


def say(line: str) -> None:
    print(f"lizdrog connect: {line}", file=sys.stderr, flush=True)


def command_of(lines: list[str]) -> Command:
    """The command that some lines make."""
    return commands_of(enumerate(lines, 1), *ENDS)[0]


def row_of(text: str) -> Row:
    """The row of a reply."""
    first, *below = text.removesuffix("\n").split("\n")
    return Row(first.split(" "), [it.split(" ") for it in below])


def standing_edits(command: Command, row: Row) -> list[str]:
    """The edits of a draft that were accepted and not dropped, in order."""
    tried: list[list[str]] = []
    for trial, answer in zip(command.trials(), row.parts(), strict=True):
        if answer.sort == "tried":
            tried.append(trial.edits())
        elif answer.sort == "dropped":
            tried.pop()
    return [edit for edits in tried for edit in edits]


def as_group(edits: list[str]) -> list[str]:
    return edits if len(edits) == 1 else ["begin_eco", *edits, "commit_eco"]


class Lines:
    """Collects lines to commands: a group or a draft is one once it is complete."""

    def __init__(self) -> None:
        self.open: list[str] = []

    def take(self, line: str) -> list[str] | None:
        """The command that this line ends, if it ends one."""
        words = line.replace("\t", " ").split(" ")
        words = [it for it in words if it]
        if not words or words[0].startswith("#"):
            return None
        if not self.open and words[0] not in ENDS or len(words) > 1 and not self.open:
            return [line]
        self.open.append(line)
        if len(self.open) > 1 and words == [ENDS[self.open[0].split()[0]]]:
            lines, self.open = self.open, []
            return lines
        return None


class Talk:
    """A person or a script at a connection."""

    def __init__(self, connection: Connection, given: argparse.Namespace):
        self.connection, self.is_json = connection, given.json
        self.seat = connection.sit(given.name, given.take_over)
        self.documents = Documents(self.seat.documents, self.seat.journal, self.seat.first)
        self.known, self.last_own, self.undone = self.seat.first, self.seat.own, {}
        self.draft, self.kept, self.own_line = None, None, ""
        self.design, self.newest, self.status = self.seat.design, self.seat.newest, 0
        self.prompt = prompts.prompt_of(
            lambda line: completion.complete(line, self.documents.names_now), given.plain or given.json
        )
        self.lines = Lines()

    # ------------------------------------------------------------------------------------------------ showing

    def greet(self) -> None:
        """Says which seat it is."""
        if self.is_json or not self.prompt.is_person:
            return
        again = "yours again" if self.seat.is_again else "yours"
        held = f", at design {self.design}" if self.design is not None else ""
        print(
            f"session {self.seat.number} is {again}, {self.seat.name}{held}; the newest design is {self.newest}. "
            "`help` lists the commands."
        )

    def show_beside(self) -> None:
        """Shows what came besides answers: ECOs of others, late replies, other words."""
        connection = self.connection
        for it in connection.late:
            data = it["reply"].encode("latin-1")
            self.show(it["question"], Reply(data, data.split(b"\n")[0].split(b" ")), None, True)
        for it in connection.entries:
            self.newest = max(self.newest, it["number"])
            if self.prompt.is_person:
                print(f"  {it['who']} made design {it['number']}: {edits_text(it['edits'])}")
        for it in connection.notices:
            say(it)
        connection.late, connection.entries, connection.notices = [], [], []

    def show(self, lines: list[str], reply: Reply, wrong: int | None, is_late: bool = False) -> None:
        """Shows a reply with its question."""
        text = reply.data.decode("latin-1")
        if not reply.is_row:
            self.status = 1
            self.show_error(lines, reply, wrong)
            return
        command, row = command_of(lines), row_of(text)
        command.number = row.command
        if row.sort in NO_ANSWERS:
            self.status = 1
        self.design, self.newest = row.design, max(self.newest, row.design)
        if row.sort == "accepted":
            self.last_own = row.design
        if row.sort == "what_if":
            self.draft, self.kept = (command, row), None
        edited = self.beside(row)
        if self.is_json:
            head = {"command": row.command, "design": row.design, "question": command.lines, "answer": row.sort}
            self.put({**head, **read_answers.row_value(command, row, edited)})
            return
        late = "(late) " if is_late else ""
        print(f"{late}{command.text()} -> {read_answers.answer_text(row)} (design {row.design})")
        for line in read_answers.lines_of_row(command, row, edited):
            print(line)
        sys.stdout.flush()

    @staticmethod
    def put(what: dict) -> None:
        """An object in a line."""
        print(json.dumps(what), flush=True)

    def beside(self, row: Row) -> read_answers.Edited | None:
        """What tells of the pins of the paths in a row, or of refused parasitics; none where it has none."""
        answers = row.below if row.sort == "what_if" else [[row.sort, *row.words]]
        is_told = any(it[0] in PATHS or it[0] == "refused" and it[1] in CODES for it in answers)
        # A person is not kept waiting while a large netlist is read.
        if not is_told or self.prompt.is_person and not self.documents.is_read or not self.documents.wait():
            return None
        self.know(row.design)
        return self.documents.beside(row.design)

    def show_error(self, lines: list[str], reply: Reply, wrong: int | None) -> None:
        """Shows an error with the line that it names."""
        code = reply.words[1].decode("latin-1") if len(reply.words) > 1 else ""
        place = wrong if wrong is not None and 0 <= wrong < len(lines) else 0
        if self.is_json:
            question = [" ".join(it.split()) for it in lines]
            self.put({"question": question, "error": code, "line": place + 1, "text": lines[place]})
            return
        text = f"`{lines[place][:MOST_SHOWN]}`"
        if len(lines) > 1:
            whole = "group" if lines[0].strip() == "begin_eco" else "draft"
            text = f"line {place + 1} of the {whole}, {text}: all of it is given up"
        print(f"error {code}: {text}")
        for hint in explain_fault.script_hints(code, lines[place], lines[:place]):
            print(f"  {hint}")
        sys.stdout.flush()

    # ------------------------------------------------------------------------------------------------ the journal

    def know(self, number: int) -> None:
        """Asks for the ECOs up to a number that are not known yet."""
        while self.known < number:
            found = self.connection.ask("journal", ask="journal", first=self.known + 1)
            entries = found["journal"]
            if not entries or not all(entries):
                break
            self.documents.take(entries)
            self.known = entries[-1]["number"]

    def entries(self) -> tuple[list[dict], int]:
        """All ECOs since the server began, and the number of the last."""
        found, first = [], self.seat.first
        while True:
            part = self.connection.ask("journal", ask="journal", first=first + len(found) + 1)
            found += part["journal"]
            if not part["journal"]:
                return [it for it in found if it], part["newest"]

    def journal(self, words: list[str]) -> None:
        """Shows who made which ECO."""
        numbers = numbers_of(words)
        if len(words) != len(numbers):
            self.note("journal [COUNT]")
            return
        entries = self.with_undos(self.entries()[0])
        count = numbers[0] if numbers else len(entries) if self.is_json else SHOWN_ENTRIES
        shown = entries[max(0, len(entries) - count):]
        if self.is_json:
            self.put({"saved": self.seat.first, "journal": shown})
            return
        if self.seat.first:
            print(f"  {self.seat.first} saved entries were there before")
        if len(entries) > count:
            print(f"  .. {len(entries) - count} more")
        for it in shown:
            undo = f" (takes entry {it['takes_back']} back)" if "takes_back" in it else ""
            print(f"  {it['number']} {it['who']} (session {it['session']}): {edits_text(it['edits'])}{undo}")
        sys.stdout.flush()

    def with_undos(self, entries: list[dict]) -> list[dict]:
        """Entries with what they take back, where the documents are there; a person is not kept waiting for these."""
        documents = self.documents
        if not entries or self.prompt.is_person and not documents.is_read or not documents.wait():
            return entries
        self.know(entries[-1]["number"])
        known = documents.design.changes if documents.design else {}
        backs = {it["number"]: known[it["number"]].took_back for it in entries if it["number"] in known}
        return [
            it if backs.get(it["number"]) is None else {**it, "takes_back": backs[it["number"]]} for it in entries
        ]

    def who(self, _: list[str]) -> None:
        """Shows who sits where."""
        seats = self.connection.ask("who", ask="who")["who"]
        if self.is_json:
            self.put({"who": seats})
            return
        for it in seats:
            where = "over" if it["over"] else "free" if it["name"] is None else "here" if it["here"] else "away"
            design = "" if it["design"] is None else f", at design {it['design']}"
            print(f"  session {it['seat']}: {it['name'] or '-'} ({where}), {it['rows']} rows{design}")
        sys.stdout.flush()

    # ------------------------------------------------------------------------------------------------ undo and keep

    def last_standing(self) -> int | None:
        """The last ECO of one's own that was not taken back here, and takes none back."""
        own = [it["number"] for it in self.entries()[0] if it["who"] == self.seat.name]
        stands = [it for it in own if it not in self.undone.values() and standing_undo(self.undone, it) is None]
        return stands[-1] if stands else None

    def undo(self, words: list[str]) -> None:
        """Takes an ECO back, the last one of one's own where none is named."""
        numbers = numbers_of(words)
        if words[len(numbers):] not in ([], ["yes"]):
            self.note("undo [ENTRY] [yes]")
            return
        number = numbers[0] if numbers else self.last_standing()
        if number is None:
            self.note("you have made no ECO that stands")
            return
        if not self.documents.is_read and self.prompt.is_person:
            print("  the documents are still being read: waiting for them")
        if not self.documents.wait():
            self.note(f"entry {number} cannot be taken back: {self.documents.why}")
            return
        self.know(self.entries()[1])
        try:
            if self.documents.design is None:
                raise CannotUndo(self.documents.why)
            edits, notes = self.documents.design.undo(number)
        except CannotUndo as why:
            self.note(f"entry {number} cannot be taken back: {why}")
            return
        for it in notes:
            self.note(it)
        if not edits:
            self.note(f"entry {number} changed nothing that could be taken back")
        elif self.send_shown(edits, words, f"takes entry {number} back", {"undo": number}):
            self.undone[number] = self.design

    def keep(self, words: list[str]) -> None:
        """Makes the edits of the last draft that stand."""
        if self.draft is None:
            self.note("there was no draft here")
            return
        if self.kept is not None and standing_undo(self.undone, self.kept) is None:
            self.note(f"the last draft was kept already, as design {self.kept}: only a new draft is kept again")
            return
        edits = standing_edits(*self.draft)
        if not edits or len(edits) > MOST_EDITS:
            many = f"{len(edits)} edits of the last draft stand, and an ECO has {MOST_EDITS} at most"
            self.note(many if edits else "no edit of the last draft stands")
            return
        number = self.draft[1].design
        if self.send_shown(edits, words, f"keeps what stands of the draft of design {number}", {"keep": number}):
            self.kept = self.design

    def send_shown(self, edits: list[str], words: list[str], what: str, told: dict) -> bool:
        """Shows edits and sends them where that is wanted; whether they were accepted."""
        lines = as_group(edits)
        out = sys.stderr if self.is_json else sys.stdout
        if self.is_json:
            self.put({"question": [self.own_line], **told, "edits": edits})
        print(f"  {what}:", *(f"    {it}" for it in lines), sep="\n", file=out, flush=True)
        if "yes" not in words and not self.agrees():
            self.note("it was not sent" + ("" if self.prompt.is_person else ": a `yes` behind the command sends it"))
            return False
        before = self.last_own
        self.command(lines)
        return self.last_own != before

    def agrees(self) -> bool:
        """Whether a person says yes."""
        try:
            return self.prompt.is_person and self.prompt.read("send it? [y/N] ").strip().lower() in ("y", "yes")
        except (KeyboardInterrupt, EOFError):
            return False

    def note(self, text: str) -> None:
        """A word of the prompt's own; in a script it counts as no answer."""
        if not self.prompt.is_person:
            self.status = 1
        if self.is_json:
            self.put({"question": [self.own_line], "note": text})
        print(f"  {text}", file=sys.stderr if self.is_json else sys.stdout, flush=True)

    # ------------------------------------------------------------------------------------------------ lines

    def command(self, lines: list[str]) -> None:
        """Says a command and shows its reply."""
        reply, wrong = self.connection.say(lines)
        self.show(lines, reply, wrong)

    def source(self, words: list[str]) -> None:
        """Says the lines of a script, if each of its commands has a known name and each group an end."""
        if len(words) != 1:
            self.note("source FILE")
            return
        try:
            text = read_text(words[0], may_be_empty=True)
        except (InputFault, OSError) as why:
            self.note(str(why) if isinstance(why, InputFault) else f"{words[0]}: {why.strerror}")
            return
        lines, commands = Lines(), []
        for number, line in enumerate(text.removesuffix("\n").split("\n"), 1):
            name, *more = line.split() or ["#"]
            if not name.startswith("#") and name not in completion.TEMPLATES:
                self.note(f"{words[0]}:{number}: there is no command {name[:60]}: nothing was sent")
                return
            if more and name in ALONE:
                self.note(f"{words[0]}:{number}: {name} stands alone in its line: nothing was sent")
                return
            command = lines.take(line)
            commands += [command] if command else []
        if lines.open:
            self.note(f"{words[0]}: `{lines.open[0]}` has no end: nothing was sent")
            return
        for it in commands:
            self.command(it)

    def help(self, words: list[str]) -> None:
        """Lists the commands, or explains one."""
        if words:
            rows = [
                *help_text.QUESTIONS,
                *help_text.CLOSING,
                *help_text.EDITS,
                *help_text.OTHERS,
                *((name, name, what) for name, what in OF_PROMPT.items()),
            ]
            found = [it for it in rows if words[0] in re.findall(r"\w+", it[0])[:1] + it[0].split()]
            text = help_text.table("", found).removeprefix(":\n") if found else f"there is no command {words[0]}"
        else:
            text = (
                help_text.script_commands()
                + "\n\nAt the prompt:\n"
                + "\n".join(f"  {it:52} {what}" for it, what in OF_PROMPT.items())
            )
        print(text, file=sys.stderr if self.is_json else sys.stdout, flush=True)

    def leave(self, _: list[str]) -> None:
        """Gives the seat up."""
        self.connection.ask("left", ask="leave")
        raise EOFError

    def line(self, line: str) -> None:
        """One line of a person or a script."""
        words = line.split()
        self.own_line = " ".join(words)
        work = (
            {
                "who": self.who,
                "journal": self.journal,
                "undo": self.undo,
                "keep": self.keep,
                "source": self.source,
                "help": self.help,
                "leave": self.leave,
            }.get(words[0])
            if words and not self.lines.open
            else None
        )
        if words == ["quit"] and not self.lines.open:
            raise EOFError
        if work:
            work(words[1:])
            return
        if "\n" in line or not line.isascii():
            self.note("a line is ASCII: it was not sent")
            return
        command = self.lines.take(line)
        if command:
            self.command(command)

    def text(self) -> str:
        """The prompt: who, the design that the session holds, and the newest one where that is another."""
        if self.lines.open:
            return ".. "
        if self.design is None:
            return f"{self.seat.name}> "
        return f"{self.seat.name} {self.design}{f' of {self.newest}' if self.newest != self.design else ''}> "

    def run(self) -> int:
        """Reads and answers until there are no more lines."""
        self.greet()
        while True:
            self.connection.drain()
            self.show_beside()
            try:
                line = self.prompt.read(self.text())
            except KeyboardInterrupt:
                if not self.prompt.is_person:
                    raise
                print("\n  what was typed is dropped; `quit` ends, and the server goes on")
                self.lines.open = []
                continue
            except EOFError:
                if self.prompt.is_person:
                    print()
                break
            try:
                self.line(line)
            except EOFError:
                break
        if self.lines.open:
            self.own_line = self.lines.open[0]
            self.note(f"`{self.lines.open[0]}` has no end: it was not sent")
        return self.status


def numbers_of(words: list[str]) -> list[int]:
    """The number that words begin with, if they do."""
    return [int(it) for it in words[:1] if it.isascii() and it.isdecimal() and len(it) < MOST_DIGITS]


def edits_text(edits: list[str]) -> str:
    """Some edits in a line."""
    shown = "; ".join(it if len(it) <= 100 else f"{it[:97]}.." for it in edits[:SHOWN_EDITS])
    return shown + (f"; and {len(edits) - SHOWN_EDITS} more" if len(edits) > SHOWN_EDITS else "")


def user_name() -> str:
    try:
        name = getpass.getuser()
    except (KeyError, OSError):
        name = "guest"
    return name if wire.NAME.fullmatch(name) else "guest"


def arguments() -> argparse.Namespace:
    parser = argparse.ArgumentParser(
        prog="lizdrog connect",
        description=__doc__,
        formatter_class=argparse.RawDescriptionHelpFormatter,
        usage="lizdrog connect ADDRESS [--name WHO] [--take-over] [--json] [--plain]",
    )
    parser.add_argument("address", help=argparse.SUPPRESS)
    parser.add_argument("--name", default=user_name(), help=argparse.SUPPRESS)
    for name in ("--take-over", "--json", "--plain"):
        parser.add_argument(name, action="store_true", help=argparse.SUPPRESS)
    given = parser.parse_args()
    if not wire.NAME.fullmatch(given.name):
        parser.error("a name has letters, digits, _, . and -, at most 32 of them")
    return given


def main() -> int:
    given = arguments()
    try:
        connection = Connection(wire.address_of(given.address), say)
    except wire.WrongAddress as why:
        say(str(why))
        return WRONG_WORDS
    except Refused as why:
        say(str(why))
        return LOST
    try:
        return Talk(connection, given).run()
    except Refused as why:
        say(str(why))
        return LOST
    except TextFault as why:
        say(why.message)
        return LOST
    except KeyboardInterrupt:
        say("left; the server goes on, and keeps the seat and its answers")
        return INTERRUPTED
    except BrokenPipeError:
        os.dup2(os.open(os.devnull, os.O_WRONLY), 1)
        return 1
    finally:
        connection.close()
