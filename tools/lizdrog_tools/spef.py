"""Reads parasitics (SPEF) in a plain, forgiving way; the nets are found at once, and read when they are asked for."""
import decimal
import functools
import itertools
import os
import re
from collections.abc import Iterable, Iterator, Mapping

from lizdrog_tools.files import TextFault, parsed

# What is no word where one may begin: comments and quoted texts, also several that touch.
NO_WORDS = re.compile(r'(?://[^\n]*|/\*.*?\*/|"[^"]*")+', re.S)
WORD = re.compile(r"\S+")
NET = re.compile(r"\*D_NET(?!\S)")
SECTIONS = {"*NAME_MAP", "*PORTS", "*PHYSICAL_PORTS", "*POWER_NETS", "*GROUND_NETS", "*D_NET", "*R_NET", "*D_PNET",
            "*R_PNET", "*DEFINE", "*PDEFINE", "*VARIATION_PARAMETERS"}
PASSED_OVER = {"*PORTS", "*PHYSICAL_PORTS", "*POWER_NETS", "*GROUND_NETS"}
PARTS = {"*CONN", "*CAP", "*RES", "*END", "*INDUC"}
ATTRIBUTES = {"*C", "*L", "*S", "*D"}
REFERENCE = re.compile(r"\*\d+|[^*].*", re.S)
SPEF_VALUE = re.compile(r"[-+]?[\d.][\d.eE:+-]*")
ESCAPE = re.compile(r"\\([\W_])")
CAP_UNITS, RES_UNITS = {"PF": 1000000, "FF": 1000}, {"OHM": 1000, "KOHM": 1000000}
# Words that are in no row.
UNUSUAL = SECTIONS | PARTS
HALF = decimal.Decimal("0.5")


class SpefNet:
    """The parasitics of a net: pins of *CONN, capacitances and resistors between node words, in aF and milliohm."""

    def __init__(self, name, offset, total):
        self.name, self.offset, self.total = name, offset, total
        self.pins, self.caps, self.ress = [], [], []

    def nodes(self) -> set[str]:
        return {node for row in self.ress for node in row[:2]} | {node for node, _ in self.caps}

    def named_pins(self) -> set[str]:
        return {node for node in self.nodes() if not node.startswith("#")}

    def ends(self) -> set[str]:
        """The nodes at which a resistor ends."""
        return {node for row in self.ress for node in row[:2]}

    def misshape(self) -> str | None:
        """Why the resistors cannot be a tree, as far as counts tell; none where they may be one, or where there are
        none."""
        count, ends = len(self.ress), self.ends()
        bare = self.nodes() - ends
        if not count:
            return None
        if bare:
            said = "no resistor ends at the node" if len(bare) == 1 else "no resistors end at the nodes"
            return f"{said} {', '.join(sorted(bare)[:6])}"
        if count >= len(ends):
            return f"{count} resistors join {len(ends)} nodes, so there is a loop of resistors"
        return (
            f"{count} resistors cannot join {len(ends)} nodes, so some are not reached from the driver"
            if count < len(ends) - 1
            else None
        )


class Words:
    """The words of a part of the text, one after the other."""

    def __init__(self, words: list[str], at: int = 0):
        self.words, self.at = words, at

    def word(self, ahead: int = 0) -> str:
        at = self.at + ahead
        return self.words[at] if at < len(self.words) else ""


class Nets(Mapping):
    """The nets of a SPEF by name; each is read where it is asked for."""

    def __init__(self, spef: "Spef"):
        self.spef, self.places = spef, {}

    def __getitem__(self, name: str) -> SpefNet:
        return self.spef.net(self.places[name])

    def __contains__(self, name: object) -> bool:
        return name in self.places

    def __iter__(self) -> Iterator[str]:
        return iter(self.places)

    def __len__(self) -> int:
        return len(self.places)


class Spef:
    """The nets of a SPEF text by name, and how much of each passed-over section there was."""

    def __init__(self, text: str):
        self.text = text
        self.plain = blanked(text)
        self.map, self.nets, self.passed_over = {}, Nets(self), {}
        self.odd_words = []
        self.delimiter, self.bus, self.cap_unit, self.res_unit = ":", "", 1000, 1000
        first = WORD.search(self.plain)
        self.first_word = first.group() if first else ""
        self.find_nets()

    # ------------------------------------------------------------------------------------------ sections

    def find_nets(self) -> None:
        """Finds where each net begins, and reads all that is outside of nets."""
        plain = self.plain
        places = [it.start() for it in NET.finditer(plain) if not it.start() or plain[it.start() - 1].isspace()]
        self.outside(0, places[0] if places else len(plain))
        for start, end in zip(places, [*places[1:], len(plain)], strict=False):
            named = WORD.search(plain, start + len("*D_NET"), end)
            self.nets.places[self.name(named.group() if named else "")] = (start, end)
            last = plain.find("*END", start, end)
            if last < 0 or plain[last + len("*END") : end].strip():
                self.behind(start, end)

    def behind(self, start: int, end: int) -> None:
        """Reads what comes behind a net and before the next one."""
        for found in WORD.finditer(self.plain, start + len("*D_NET"), end):
            if found.group() == "*END" or found.group() in SECTIONS:
                place = found.end() if found.group() == "*END" else found.start()
                self.outside(place, end)
                return

    def outside(self, start: int, end: int) -> None:
        """Reads a stretch without nets: the header, the name map, and sections that are passed over."""
        words = Words(self.plain[start:end].split())
        places = [at for at, word in enumerate(words.words) if word in SECTIONS]
        for at in range(places[0] if places else len(words.words)):
            words.at = at
            self.header(words.word(), words)
        for at, behind in zip(places, [*places[1:], len(words.words)], strict=False):
            if words.words[at] == "*NAME_MAP":
                self.read_map(words.words[at + 1 : behind])
            elif words.words[at] in PASSED_OVER:
                self.pass_over(words.words, at, behind, start)

    def read_map(self, words: list[str]) -> None:
        """Reads pairs of an index and a name; other words are passed over."""
        words = iter(words)
        is_plain = self.bus in ("", "[]")
        for word in words:
            if word.startswith("*"):
                name = next(words, "")
                self.map[word] = name if is_plain and "\\" not in name else self.spelled(name)

    def pass_over(self, words: list[str], first: int, behind: int, start: int) -> None:
        """Counts the words of a section, and keeps those that begin as an index and are none."""
        section = words[first]
        for at in range(first + 1, behind):
            word = words[at]
            self.passed_over[section] = self.passed_over.get(section, 0) + 1
            if word not in ATTRIBUTES and word.startswith("*") and not all(map(REFERENCE.fullmatch,
                                                                               word.rsplit(self.delimiter, 1))):
                found = next(itertools.islice(WORD.finditer(self.plain, start), at, None))
                self.odd_words.append((word, found.start(), section))

    def header(self, word: str, words: Words) -> None:
        if word == "*DELIMITER":
            self.delimiter = words.word(1)
        elif word == "*BUS_DELIMITER":
            self.bus = words.word(1) + (words.word(2) if not words.word(2).startswith("*") else "")
        elif word in ("*C_UNIT", "*R_UNIT"):
            units = CAP_UNITS if word == "*C_UNIT" else RES_UNITS
            try:
                value = decimal.Decimal(words.word(1)) * units.get(words.word(2), 1000)
            except ArithmeticError:
                return
            if word == "*C_UNIT":
                self.cap_unit = value
            else:
                self.res_unit = value

    # ------------------------------------------------------------------------------------------ names and values

    def spelled(self, word: str) -> str:
        """A name without its escapes, the bus delimiters as brackets."""
        if self.bus in ("", "[]"):
            return ESCAPE.sub(r"\1", word) if "\\" in word else word
        said, at = [], 0
        while at < len(word):
            if word[at] == "\\" and at + 1 < len(word) and not word[at + 1].isalnum():
                said.append(word[at + 1])
                at += 2
                continue
            mark = self.bus.find(word[at]) if self.bus else -1
            said.append("[" if mark == 0 else "]" if mark == 1 else word[at])
            at += 1
        return "".join(said)

    def name(self, word: str) -> str:
        found = self.map.get(word)
        return self.spelled(word) if found is None else found

    def node(self, word: str, net: str) -> str:
        """A node as scripts write it: a pin word, or # and a number."""
        before, mark, behind = word.rpartition(self.delimiter)
        if not mark or not before:
            return self.name(word)
        name = self.name(before)
        return (
            f"#{behind.lstrip('0') or 0}"
            if name == net and re.fullmatch("[0-9]+", behind)
            else f"{name}:{self.spelled(behind)}"
        )

    def value(self, word: str, unit) -> int:
        """A number or triplet times its unit, rounded to the nearest, halves upward; 0 where it is none."""
        parts = word.split(":")
        try:
            exact = decimal.Decimal(parts[1] if len(parts) == 3 else word) * decimal.Decimal(unit)
            return int((exact + HALF).to_integral_value(decimal.ROUND_FLOOR))
        except (ArithmeticError, ValueError):
            return 0

    # ------------------------------------------------------------------------------------------ nets

    @functools.cached_property
    def indexes(self) -> dict[str, str]:
        """The index of each name of the name map."""
        return {name: index for index, name in self.map.items()}

    def words_for(self, pins: Iterable[str]) -> set[str]:
        """How this text may write pin words and ports."""
        known, mark = self.indexes.get, self.delimiter
        parts = (it.rpartition(":") for it in pins)
        return {f"{known(head, head)}{mark}{tail}" if colon else known(tail, tail) for head, colon, tail in parts}

    def surely_fits(self, name: str, pins: Iterable[str]) -> bool:
        """Whether the parasitics of a net are a tree over just these pins, as its words alone tell; where they do not
        tell it, as of other ways to write the pins, it is not sure."""
        words = self.words_of(name)
        try:
            caps, ress, end = words.index("*CAP"), words.index("*RES"), words.index("*END")
        except ValueError:
            return False
        rows = words[3:caps], words[caps + 1 : ress], words[ress + 1 : end]
        if not 2 < caps < ress < end or (end - ress) % 4 != 1 or words[2] != "*CONN":
            return False
        if not all(map(UNUSUAL.isdisjoint, rows)):
            return False
        ends, asked = {*words[ress + 2 : end : 4], *words[ress + 3 : end : 4]}, self.words_for(pins)
        if len(ends) != (end - ress) // 4 + 1 or not asked <= ends:
            return False
        start = words[0] + self.delimiter
        if not all(it.startswith(start) and it[len(start) :].isdecimal() for it in ends - asked):
            return False
        return ends.issuperset(cap_nodes(rows[1], {*ends, *rows[0]}, start))

    def words_of(self, name: str) -> list[str]:
        """The words of a net from its name on, with its *END, and with what may come behind that."""
        start, end = self.nets.places[name]
        return self.plain[start + len("*D_NET") : end].split()

    def net(self, place: tuple[int, int]) -> SpefNet:
        """The net that begins at a place."""
        start, end = place
        words = Words(self.plain[start + len("*D_NET") : end].split())
        name = self.name(words.word())
        net = SpefNet(name, start, self.value(words.word(1), self.cap_unit))
        words.at = 2
        part = None
        while words.at < len(words.words) and words.word() != "*END" and words.word() not in SECTIONS:
            if words.word() in PARTS:
                part = words.word()
                words.at += 1
            else:
                self.row(net, part, words)
        own = {*net.pins, *(it for row in net.ress for it in row[:2])}
        net.caps = [(next((it for it in nodes if it in own or it.startswith("#")), nodes[0]), value) for nodes,
                    value in net.caps]
        return net

    def row(self, net: SpefNet, part: str | None, words: Words) -> None:
        """One row of a part of a net."""
        word = words.word
        if part == "*CONN":
            if word() in ("*P", "*I"):
                net.pins.append(self.node(word(1), net.name))
            words.at += 1
        elif part == "*RES":
            net.ress.append((self.node(word(1), net.name), self.node(word(2), net.name),
                             self.value(word(3), self.res_unit)))
            words.at += 4
        elif part == "*CAP":
            two = not SPEF_VALUE.fullmatch(word(2))
            nodes = [self.node(word(it), net.name) for it in ((1, 2) if two else (1,))]
            net.caps.append((nodes, self.value(word(3 if two else 2), self.cap_unit)))
            words.at += 4 if two else 3
        else:
            words.at += 1


def cap_nodes(rows: list[str], own: set[str], start: str) -> list[str]:
    """The node of each capacitance: of two the first that is this net's, by its words or by how inner nodes begin."""
    at, last, nodes = 0, len(rows) - 2, []
    while at < last:
        node, other = rows[at + 1], rows[at + 2]
        if other[0] != "*" and SPEF_VALUE.fullmatch(other):
            nodes.append(node)
            at += 3
        else:
            nodes.append(node if node in own or node.startswith(start) or other not in own else other)
            at += 4
    return nodes if at == len(rows) else [""]


def blanked(text: str) -> str:
    """The text with spaces in the place of comments and of quoted texts, each line at its place."""
    parts, done = [], 0
    for at in marks(text):
        if at >= done and not text[max(at - 1, 0) : at].strip():
            found = NO_WORDS.match(text, at)
            if found:
                parts += [text[done:at], re.sub(r"[^\n]", " ", found.group())]
                done = found.end()
    return "".join([*parts, text[done:]]) if parts else text


def marks(text: str) -> Iterator[int]:
    """Where comments and quoted texts may begin, in order."""
    found = {it: text.find(it) for it in ('"', "//", "/*")}
    while found := {it: at for it, at in found.items() if at >= 0}:
        mark = min(found, key=found.get)
        yield found[mark]
        found[mark] = text.find(mark, found[mark] + 1)


def parse_spef(text: str) -> Spef:
    """The parasitics of a text that has some, or at least the head of a SPEF."""
    parasitics = Spef(text)
    if not parasitics.nets and parasitics.first_word not in ("", "*SPEF"):
        raise TextFault(None, "no *SPEF and no *D_NET is found: these are no parasitics (SPEF)")
    return parasitics


def read_spef(name: str | os.PathLike) -> Spef:
    """The parasitics of a file."""
    return parsed(name, parse_spef)
