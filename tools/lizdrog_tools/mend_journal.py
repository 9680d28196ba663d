"""Tells whether a saved journal is torn at its end: mend_journal.py JOURNAL [--cut]

A crash or a full disk may leave a part of the last block. This tool tells at which line and byte such a part begins.
With --cut it cuts it off, and keeps the file as it was beside it, as JOURNAL.torn. No session has heard of an entry of
a torn block, since the live server tells of an entry only when the whole block is on disk. A fault at any other place
comes of something else: the tool names it and never cuts it.

The status is 0 where the journal is whole (or was cut), 1 where it is torn, 2 where it cannot be used.
"""
import argparse
import fcntl
import os
import re

from lizdrog_tools.files import InputFault, line_of, tool

NUMBER = "[0-9]{1,20}"
HEADS = (re.compile(f"journal 1 ({NUMBER})"), re.compile(f"journal 2 ({NUMBER}) ({NUMBER})"))
DERATES = re.compile(f"derates( {NUMBER}){{4}}")
ENTRY = re.compile(f"entry ({NUMBER}) session {NUMBER} edits ({NUMBER})")
EDIT = re.compile(r"[a-z]+(_[a-z]+)+ [!-~ ]+")
# What a part of a line may be, where the text ends in it.
PARTS = {
    "head": re.compile(r"journal( ([12]( [0-9]*){0,2})?)?"),
    "derates": re.compile(r"derates( [0-9]*){0,4}"),
    "entry": re.compile(r"entry( [0-9]*( session( [0-9]*( edits( [0-9]*)?)?)?)?)?"),
    "edit": re.compile(r"[!-~ ]*"),
}
WORDS = ("journal", "derates", "entry", "session", "edits")
SEEN = 60


class Fault(Exception):
    """A line that stands in no journal: its place in the text, and what is wrong."""

    def __init__(self, place: int, why: str):
        super().__init__(why)
        self.place, self.why = place, why


class Torn(Exception):
    """The text ends inside a block."""


def is_part(sort: str, line: str) -> bool:
    """Whether a line may be the beginning of one of this sort."""
    if PARTS[sort].fullmatch(line):
        return True
    last = line.split(" ")[-1]
    return any(PARTS[sort].fullmatch(line[: len(line) - len(last)] + it) for it in WORDS if it.startswith(last))


class Blocks:
    """The blocks of a journal: up to where they are whole, how many entries these have, and whether the rest is a part
    of one.
    """

    def __init__(self, text: str):
        self.text, self.at, self.whole, self.entries, self.blocks, self.is_torn = text, 0, 0, 0, 0, False
        self.fault: Fault | None = None
        try:
            while self.at < len(text):
                self.block()
                self.whole, self.blocks = self.at, self.blocks + 1
        except Torn:
            self.is_torn = True
        except Fault as why:
            self.fault = why

    def line(self, sort: str, *forms: re.Pattern[str]) -> re.Match[str]:
        """The next line, which has one of these forms."""
        end, begin = self.text.find("\n", self.at), self.at
        line = self.text[begin:] if end < 0 else self.text[begin:end]
        found = next((it for form in forms if (it := form.fullmatch(line))), None)
        if end < 0 and (found or is_part(sort, line)):
            raise Torn
        if found is None:
            raise Fault(begin, f"this is no line of a journal here: {line[:SEEN]}")
        self.at = end + 1
        return found

    def block(self) -> None:
        begin, first = self.at, self.entries
        head = self.line("head", *HEADS)
        if head.re is HEADS[1]:
            self.line("derates", DERATES)
        count, before = int(head.groups()[-1]), int(head[1]) if head.re is HEADS[1] else 0
        if before != first:
            raise Fault(begin, f"this block says that {before} entries come before it, and {first} do")
        for number in range(first + 1, first + count + 1):
            place = self.at
            entry = self.line("entry", ENTRY)
            if int(entry[1]) != number:
                raise Fault(place, f"this is not the entry {number}")
            for _ in range(int(entry[2])):
                self.line("edit", EDIT)
        self.entries = first + count


def cut(name: str, data: bytes, whole: int) -> str:
    """Cuts the file off behind its whole blocks; gives the name of the copy of what it was."""
    copy = next(it for it in (f"{name}.torn{number or ''}" for number in range(1000)) if not os.path.lexists(it))
    with open(copy, "xb") as file:
        file.write(data)
        os.fsync(file.fileno())
    with open(name, "r+b") as file:
        file.truncate(whole)
        os.fsync(file.fileno())
    return copy


def mend(name: str, wants_cut: bool) -> int:
    """Tells of a journal, and cuts it where that is wanted and right."""
    with open(name, "r+b" if wants_cut else "rb") as file:
        if wants_cut:
            try:
                fcntl.flock(file, fcntl.LOCK_EX | fcntl.LOCK_NB)
            except BlockingIOError as why:
                raise InputFault(name, None, "a server that runs holds it: nothing was changed") from why
        data = file.read()
        text = data.decode("latin-1")
        found = Blocks(text)
        if found.fault:
            raise InputFault(
                name,
                line_of(text, found.fault.place),
                f"{found.fault.why} (byte {found.fault.place}): the journal is not torn at "
                "its end, and nothing is cut",
            )
        so_far = f"{found.blocks} block{'' if found.blocks == 1 else 's'} with {found.entries} entries"
        if not found.is_torn:
            print(f"{name}: whole: {so_far}")
            return 0
        print(
            f"{name}:{line_of(text, found.whole)}: torn: behind {so_far} a part of a block begins at byte "
            f"{found.whole}, of {len(data) - found.whole} "
            "bytes"
        )
        if not wants_cut:
            print(f"  `mend_journal.py {name} --cut` cuts it off and keeps the file as it is beside it")
            return 1
        print(f"{name}: it was cut off; {cut(name, data, found.whole)} has the file as it was")
        return 0


@tool("mend_journal")
def main() -> int:
    parser = argparse.ArgumentParser(description=__doc__, formatter_class=argparse.RawDescriptionHelpFormatter)
    parser.add_argument("journal")
    parser.add_argument("--cut", action="store_true")
    given = parser.parse_args()
    return mend(given.journal, given.cut)
