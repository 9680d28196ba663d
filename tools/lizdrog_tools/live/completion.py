"""What may stand next in a line at the prompt: commands, pins, instances, nets, cells, and the words of each place."""
import bisect
from collections.abc import Callable, Iterable

from lizdrog_tools import help_text
from lizdrog_tools.live.design import Design

OF_PROMPT = {
    "who": "who sits where",
    "journal": "who made which ECO: journal [COUNT]",
    "undo": "takes your last ECO back, or an entry of anybody: undo [ENTRY] [yes]",
    "keep": "makes the edits that the last draft kept: keep [yes]",
    "source": "says the lines of a file: source FILE",
    "help": "help [COMMAND]",
    "leave": "gives the seat up and ends",
    "quit": "ends; the seat is kept for your name",
}
FIXED = {"SPLIT": ["early", "late"], "EDGE": ["rise", "fall"], "KIND": ["setup", "hold"], "AIM": ["wns", "tns"],
         "each": ["each"]}
FURTHER = ["begin_eco", "commit_eco", "begin_what_if", "end_what_if"]
ENDPOINTS = ("report_endpoint", "report_path", "report_paths", "report_through", "report_timing",
             "report_timing_through")
MOST = 500


def templates() -> dict[str, list[str]]:
    """The words of each command, by what `lizdrog --help` says of it."""
    found = {}
    for words, _, _ in [*help_text.QUESTIONS, *help_text.CLOSING, *help_text.EDITS, *help_text.OTHERS]:
        name, *rest = words.split()
        found[name] = max(found.get(name, []), rest, key=len)
    return {**found, "set_parasitics": ["NET", "ITEM", ".."], **{it: [] for it in FURTHER}}


TEMPLATES = templates()
COMMANDS = sorted(TEMPLATES)


def sort_at(command: str, place: int) -> str:
    """What stands at a place of a command, from 0; nothing known is empty."""
    words = TEMPLATES.get(command, [])
    if words[-1:] == [".."] and place >= len(words) - 1:
        if command in ("advise", "advise_tns"):
            return words[1 + (place - 1) % 2]
        return words[-2]
    return words[place] if place < len(words) else ""


class Names:
    """The names of a design, each sort in order."""

    def __init__(self, design: Design, libraries: Iterable[dict]):
        self.design, self.libraries = design, list(libraries)
        self.alike: dict[str, list[str]] = {}
        self.instances, self.nets = sorted(design.parts), sorted(design.wires)
        self.ports, self.cells = sorted(design.ports), sorted({it for cells in self.libraries for it in cells})
        self.ends = sorted([*(it for it, way in design.ports.items() if way == "output"), *self.data_pins()])

    def data_pins(self) -> Iterable[str]:
        known = {name: sorted(cell.data_pins()) for name, cell in self.design.library.cells.items()}
        for name, part in self.design.parts.items():
            for pin in known.get(part.cell, ()):
                yield f"{name}:{pin}"

    def pins(self, prefix: str) -> list[str]:
        """The ports and instances that begin so; the pins of an instance that is named, or is the only one."""
        instance, mark, _ = prefix.rpartition(":")
        if mark and instance in self.design.parts:
            return begins(self.pins_of(instance), prefix)
        found = begins(self.instances, prefix)
        inner = self.pins_of(found[0]) if len(found) == 1 else [f"{it}:" for it in found]
        return [*begins(self.ports, prefix), *inner]

    def pins_of(self, instance: str) -> list[str]:
        part = self.design.parts[instance]
        cell = self.design.library.cells.get(part.cell)
        return sorted(f"{instance}:{it}" for it in (cell.pins if cell else part.nets))

    def sizes(self, instance: str, prefix: str) -> list[str]:
        """The cells that begin so and are alike that of an instance, in all libraries; all cells where there is none.
        """
        part = self.design.parts.get(instance)
        if part is not None and part.cell not in self.alike:
            self.alike[part.cell] = [it for it in self.cells if self.is_size(it, part.cell)]
        return begins(self.alike[part.cell] if part else [], prefix) or begins(self.cells, prefix)

    def is_size(self, name: str, present: str) -> bool:
        """Whether a cell is another one that is alike, in all libraries."""
        pairs = [(cells.get(name), cells.get(present)) for cells in self.libraries]
        return name != present and all(one and other and one.is_alike(other) for one, other in pairs)

    def of(self, sort: str, prefix: str) -> list[str]:
        """The names of a sort that begin so."""
        if sort == "PIN":
            return self.pins(prefix)
        if sort == "ITEM":
            return [*begins(["c", "none", "r"], prefix), *(self.pins(prefix) if prefix else [])]
        return begins(
            {"INSTANCE": self.instances, "NET": self.nets, "CELL": self.cells, "END": self.ends}.get(sort, []), prefix
        )


def begins(names: list[str], prefix: str) -> list[str]:
    """Those of names in order that begin so, some of them where there are many."""
    at = bisect.bisect_left(names, prefix)
    found = []
    while at < len(names) and names[at].startswith(prefix) and len(found) < MOST:
        found.append(names[at])
        at += 1
    return found


def complete(line: str, names: Callable[[], Names | None]) -> tuple[str, list[str]]:
    """The word that is begun at the end of a line, and what it may become."""
    words = line.split()
    prefix = "" if not words or line[-1:] in (" ", "\t") else words.pop()
    if not words:
        return prefix, [it for it in sorted([*COMMANDS, *OF_PROMPT]) if it.startswith(prefix)]
    command, place = words[0], len(words) - 1
    if command == "help":
        return prefix, [it for it in COMMANDS if it.startswith(prefix)]
    sort = sort_at(command, place)
    if sort in FIXED:
        return prefix, [it for it in FIXED[sort] if it.startswith(prefix)]
    known = names()
    if known is None or not sort:
        return prefix, []
    if sort == "CELL" and sort_at(command, place - 1) == "INSTANCE":
        return prefix, known.sizes(words[-1], prefix)
    return prefix, known.of("END" if sort == "PIN" and place == 0 and command in ENDPOINTS else sort, prefix)
