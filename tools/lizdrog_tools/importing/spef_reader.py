"""Goes over a file of parasitics, line by line: its nets, with names from the top of the design."""
import dataclasses
import re
from collections.abc import Iterator
from decimal import Decimal, InvalidOperation

from lizdrog_tools.files import InputFault, line_of
from lizdrog_tools.importing.project import read_as
from lizdrog_tools.importing.report import Place, Report

HEADER = 10000
DESIGN = re.compile(r'^\*DESIGN\s+"([^"]*)"', re.M)
WORD = re.compile(r'"[^"]*"|//.*|[^\s"]+')
SECTIONS = {"*NAME_MAP", "*PORTS", "*PHYSICAL_PORTS", "*POWER_NETS", "*GROUND_NETS"}
REFUSED = {"*R_NET", "*D_PNET", "*R_PNET", "*DEFINE", "*PDEFINE", "*VARIATION_PARAMETERS"}
PARTS = {"*CONN", "*CAP", "*RES", "*INDUC"}
VALUE = re.compile(r"[-+]?[\d.][\d.eE:+-]*")
UNITS = {
    "PF": Decimal(1000),
    "FF": Decimal(1),
    "NF": Decimal(10) ** 6,
    "UF": Decimal(10) ** 9,
    "OHM": Decimal(1),
    "KOHM": Decimal(1000),
    "MOHM": Decimal(10) ** 6,
}
Node = tuple[str, str | int]


@dataclasses.dataclass(slots=True)
class Section:
    """One *D_NET as it stands in a file, in fF and ohm."""

    net: str
    total: Decimal
    line: int
    pins: list[Node] = dataclasses.field(default_factory=list)
    caps: list[tuple[list[Node], Decimal]] = dataclasses.field(default_factory=list)
    ress: list[tuple[Node, Node, Decimal]] = dataclasses.field(default_factory=list)


class Words:
    """The words of a text, one ahead, with the line of each."""

    def __init__(self, text: str):
        self.rows = text.split("\n")
        self.line, self.row, self.at, self.in_comment = 0, [], 0, False
        self.word = ""
        self.next_row()

    def next_row(self) -> None:
        """Goes to the next line that has words."""
        while self.line < len(self.rows):
            row = self.rows[self.line]
            self.line += 1
            special = self.in_comment or "/*" in row or "//" in row or '"' in row
            self.row = self.words_of(row) if special else row.split()
            if self.row:
                self.at, self.word = 0, self.row[0]
                return
        self.row, self.at, self.word = [], 0, ""

    def words_of(self, row: str) -> list[str]:
        """The words of a line with comments or quoted texts."""
        if self.in_comment:
            _, ended, row = row.partition("*/")
            self.in_comment = not ended
            if not ended:
                return []
        row = re.sub(r"/\*.*?\*/", " ", row)
        begun = re.search(r"/\*", row)
        if begun:
            self.in_comment, row = True, row[: begun.start()]
        return [it for it in WORD.findall(row) if not it.startswith(('"', "//"))]

    def step(self) -> str:
        """Passes a word, and gives it."""
        passed = self.word
        self.at += 1
        if self.at < len(self.row):
            self.word = self.row[self.at]
        else:
            self.next_row()
        return passed


class SpefReader:
    """Reads the sections of one file; those of a block get the block's name before theirs."""

    def __init__(self, name: str, instance: str | None, report: Report):
        self.file, self.report = name, report
        text = read_as(name, "spef", "spef")
        self.words = Words(text)
        self.prefix = f"{instance}/" if instance else ""
        said = DESIGN.search(text, 0, HEADER)
        self.design = said[1] if said else None
        self.design_line = line_of(text, said.start()) if said else 0
        self.divider, self.delimiter, self.bus = "/", None, ""
        self.cap_unit = self.res_unit = None
        self.map: dict[str, str] = {}
        self.names: dict[str, str] = {}
        self.triplets = self.couplings = 0

    def fault(self, message: str) -> InputFault:
        return InputFault(self.file, min(self.words.line, len(self.words.rows)), message)

    # ------------------------------------------------------------------------------------------ names and values

    def spelled(self, word: str) -> str:
        """A name without its escapes, bus delimiters as brackets."""
        if "\\" not in word and self.bus in ("", "[]"):
            return word
        if word not in self.names:
            self.names[word] = self.unescaped(word)
        return self.names[word]

    def unescaped(self, word: str) -> str:
        said, at = [], 0
        while at < len(word):
            if word[at] == "\\" and at + 1 < len(word):
                at += 1
                said.append(word[at])
            else:
                mark = self.bus.find(word[at])
                said.append("[" if mark == 0 else "]" if mark == 1 else word[at])
            at += 1
        return "".join(said)

    def name(self, word: str) -> str:
        """A name from the top of the design, its index in the map looked up."""
        if not word:
            raise self.fault("the file ends where a name is expected")
        found = self.map.get(word)
        if found is not None:
            return found
        if word.startswith("*") and word[1:].isdigit():
            raise self.fault(f"{word} is not in the *NAME_MAP")
        return self.prefix + self.spelled(word)

    def value(self, word: str) -> Decimal:
        parts = word.split(":")
        if len(parts) == 3:
            self.triplets += 1
        try:
            found = Decimal(parts[1] if len(parts) == 3 else word)
        except InvalidOperation:
            raise self.fault(f"{word} is no number") from None
        if not found.is_finite() or found < 0:
            raise self.fault(f"{word} is no value of parasitics")
        return found

    def unit(self) -> Decimal:
        try:
            count = Decimal(self.words.step())
            return count * UNITS[self.words.step().upper()]
        except (InvalidOperation, KeyError):
            raise self.fault("a unit that is not read") from None

    # ------------------------------------------------------------------------------------------ sections

    def sections(self) -> Iterator[Section]:
        words = self.words
        if words.step() != "*SPEF":
            raise InputFault(self.file, 1, "the file does not begin with *SPEF")
        section = None
        while words.word:
            line, word = words.line, words.step()
            if word in REFUSED or word == "*SPEF":
                why = f"{word} is not read" if word in REFUSED else "a second *SPEF: a file of parasitics has one"
                raise InputFault(self.file, line, why)
            if word == "*D_NET":
                if None in (self.delimiter, self.cap_unit, self.res_unit):
                    raise InputFault(self.file, line, "the header lacks *DELIMITER, *C_UNIT or *R_UNIT")
                section = None
                yield self.section(line)
            elif word in SECTIONS:
                section = word
            elif section == "*NAME_MAP":
                self.map[word] = self.prefix + self.spelled(words.step())
            elif section is None:
                self.header(word)

    def header(self, word: str) -> None:
        words = self.words
        if word == "*DIVIDER":
            self.divider = words.step()
        elif word == "*DELIMITER":
            self.delimiter = words.step()
        elif word == "*BUS_DELIMITER":
            self.bus = words.step() + (words.step() if not words.word.startswith("*") else "")
        elif word == "*C_UNIT":
            self.cap_unit = self.unit()
        elif word == "*R_UNIT":
            self.res_unit = self.unit()

    def section(self, line: int) -> Section:
        """A net, of which *D_NET was passed."""
        words = self.words
        made = Section(self.name(words.step()), self.value(words.step()) * self.cap_unit, line)
        part = None
        while words.word != "*END":
            if not words.word or words.word == "*D_NET":
                raise self.fault(f"the net {made.net} has no *END")
            if words.word in PARTS:
                part = words.step()
                if part == "*INDUC":
                    self.report.lose(
                        "inductance", Place(self.file, line), f"the inductances of {made.net} are not read"
                    )
            elif part == "*CONN":
                if words.step() in ("*P", "*I"):
                    made.pins.append(self.node(words.step(), made.net))
            elif part in ("*CAP", "*RES"):
                self.row(made, part)
            else:
                words.step()
        words.step()
        return made

    def row(self, made: Section, part: str) -> None:
        words = self.words
        words.step()
        nodes = [self.node(words.step(), made.net)]
        if part == "*RES" or not VALUE.fullmatch(words.word):
            nodes.append(self.node(words.step(), made.net))
        value = self.value(words.step())
        if part == "*RES":
            made.ress.append((nodes[0], nodes[1], value * self.res_unit))
        else:
            made.caps.append((nodes, value * self.cap_unit))

    def node(self, word: str, net: str) -> Node:
        """A node: an inner one of the net, a pin, or a port of the design or of the block."""
        head, mark, tail = word.rpartition(self.delimiter)
        if not mark or not head:
            return ("port", self.name(word))
        name = self.name(head)
        if tail.isdigit():
            return ("inner", f"{name}\0{tail}") if name != net else ("inner", int(tail))
        return ("pin", f"{name}/{self.spelled(tail)}")
