"""The one list of ECOs of all corners, and what each corner is given of it.

The list is written as scripts are: an ECO is an edit in a line, or a group from `begin_eco` to `commit_eco`. Wires
differ from corner to corner, so a line `set_parasitics` names those that it is for: `@slow set_parasitics ..`,
`@slow,fast set_parasitics ..`, or `@all set_parasitics ..`. All other lines are for all corners. Each ECO has an edit
in each corner, so that ECO N is the same one in all.
"""
import dataclasses
import decimal
import os
import pathlib

from lizdrog_tools.corners.project import ALL
from lizdrog_tools.files import InputFault, TextFault, read_text
from lizdrog_tools.read_answers import Command, read_script
from lizdrog_tools.sdc import read_commands

EDITS = {
    "repower_gate",
    "insert_gate",
    "remove_gate",
    "insert_net",
    "remove_net",
    "connect_pin",
    "disconnect_pin",
    "insert_buffer",
    "set_parasitics",
    "begin_eco",
}
MILLION = 1_000_000


def line_for(line: str, number: int, corner: str, names: list[str]) -> str:
    """A line as a corner is given it: without its mark, or empty where it is for other corners alone."""
    words = line.split(maxsplit=1)
    if not words or not words[0].startswith("@"):
        if words and words[0] == "set_parasitics" and len(names) > 1:
            raise TextFault(
                number,
                f"a set_parasitics names the corners that it is for: `@{names[0]} set_parasitics ..`, "
                "or @all where the wires are the same in all",
            )
        return line
    asked = words[0][1:].split(",")
    rest = words[1] if len(words) > 1 else ""
    if rest.split(maxsplit=1)[:1] != ["set_parasitics"]:
        raise TextFault(number, f"{words[0]} goes before a set_parasitics alone: every other line is for all corners")
    for name in asked:
        if name not in (*names, ALL):
            raise TextFault(
                number, f"there is no corner {name or 'without a name'}; the corners are {', '.join(names)}"
            )
    return rest if corner in asked or ALL in asked else ""


def script_for(text: str, corner: str, names: list[str]) -> str:
    """A script as a corner is given it; each line keeps its number."""
    lines = [line_for(line, number, corner, names) for number, line in enumerate(text.split("\n"), 1)]
    check_whole(text, lines, corner)
    return "\n".join(lines)


def check_whole(text: str, lines: list[str], corner: str) -> None:
    """Refuses a command of which nothing is left in a corner."""
    of_corner = {line for command in read_script("\n".join(lines)) for line, _ in command.numbered}
    for command in read_script(text):
        marked = [number for number, line in command.numbered if line.startswith("@")]
        plain = [
            number
            for number, line in command.numbered
            if not line.startswith("@") and line.split()[0] not in ("begin_eco", "commit_eco")
        ]
        if marked and not plain and not of_corner.intersection(marked):
            raise TextFault(command.line, f"this ECO has no edit in the corner {corner}: an ECO has one in each corner")


def ordered(edit: str) -> str:
    """An edit as a journal has it: words parted by one blank, the capacitances of parasitics before the resistors."""
    words = edit.split()
    if words[0] != "set_parasitics" or words[2:3] == ["none"]:
        return " ".join(words)
    caps, ress, at = [], [], 2
    while at < len(words):
        size = 3 if words[at] == "c" else 4
        (caps if words[at] == "c" else ress).extend(words[at : at + size])
        at += size
    return " ".join([*words[:2], *caps, *ress])


def ecos_of(commands: list[Command]) -> list[list[str]]:
    """The ECOs among some commands, each by its edits as a journal has them."""
    return [[ordered(it) for it in command.edits()] for command in commands if command.words[0] in EDITS]


def derates_of(sdc: str) -> dict[tuple[str, str], int]:
    """The factors of the constraints in millionths, by split and sort: the last that is written counts."""
    factors = {(split, sort): MILLION for split in ("early", "late") for sort in ("cell", "net")}
    for command in read_commands(sdc):
        if command.name != "set_timing_derate":
            continue
        value = next((it.text for it in command.words if not it.text.startswith("-")), "1")
        try:
            millionths = int((decimal.Decimal(value) * MILLION).to_integral_value(decimal.ROUND_HALF_UP))
        except (ArithmeticError, ValueError):
            continue
        splits = [it for it in ("early", "late") if command.has(f"-{it}")] or ["early", "late"]
        sorts = [it for it in ("cell", "net") if command.has(f"-{it}_delay")] or ["cell", "net"]
        factors.update({(split, sort): millionths for split in splits for sort in sorts})
    return factors


def journal_of(ecos: list[list[str]], sdc: str) -> str:
    """The saved journal of a corner: one block with the corner's own derates."""
    if not ecos:
        return ""
    factors = derates_of(sdc)
    order = [("early", "cell"), ("late", "cell"), ("early", "net"), ("late", "net")]
    lines = [f"journal 2 0 {len(ecos)}", f"derates {' '.join(str(factors[it]) for it in order)}"]
    for number, edits in enumerate(ecos, 1):
        lines += [f"entry {number} session 1 edits {len(edits)}", *edits]
    return "\n".join(lines) + "\n"


@dataclasses.dataclass
class EcoList:
    """The list of ECOs in its file; a list whose file is not there yet is empty."""

    file: pathlib.Path | None
    text: str

    @classmethod
    def read(cls, file: pathlib.Path | None) -> "EcoList":
        """The list of a file."""
        is_there = file is not None and file.exists()
        return cls(file, read_text(file, may_be_empty=True) if is_there else "")

    def commands(self, corner: str, names: list[str]) -> list[Command]:
        """The ECOs as a corner is given them."""
        try:
            commands = read_script(script_for(self.text, corner, names))
        except TextFault as why:
            raise InputFault(self.file, why.line, why.message) from why
        for command in commands:
            if command.words[0] not in EDITS:
                raise InputFault(self.file, command.line, f"the list has edits alone, and this is `{command.words[0]}`")
        return commands

    def append(self, note: str, commands: list[Command]) -> None:
        """Writes the ECOs of commands behind the others; refuses where somebody has changed the file meanwhile."""
        if EcoList.read(self.file).text != self.text:
            raise InputFault(self.file, None, "the list has changed since the corners were asked: call again")
        lines = [f"# {note}"] + [line for command in commands for line in command.lines]
        gap = "" if not self.text or self.text.endswith("\n") else "\n"
        part = self.file.with_name(f"{self.file.name}.part")
        part.write_text(self.text + gap + "\n".join(lines) + "\n", encoding="latin-1")
        os.replace(part, self.file)
