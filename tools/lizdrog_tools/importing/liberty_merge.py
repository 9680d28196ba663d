"""Several libraries as one: the cells that a design uses, in one set of units and templates."""
import copy
import fnmatch
from collections.abc import Callable, Iterable
from decimal import Decimal

from lizdrog_tools.files import InputFault
from lizdrog_tools.importing.liberty_model import WRITTEN, Cell, CellReader, Frame, Pin, Table, as_decimal, plain
from lizdrog_tools.importing.liberty_tree import Group, Part, read_library
from lizdrog_tools.importing.mistyped import mistyped
from lizdrog_tools.importing.project import read_as
from lizdrog_tools.importing.report import Place, Report
from lizdrog_tools.importing.verilog_hierarchy import LibraryPins

TIMES = {Decimal(1): "1ps", Decimal(10): "10ps", Decimal(100): "100ps", Decimal(1000): "1ns"}
LOADS = {Decimal(10) ** it: (plain(Decimal(10) ** it), "ff") for it in range(-3, 4)}
LOADS |= {Decimal(10) ** it: (plain(Decimal(10) ** (it - 3)), "pf") for it in range(4, 7)}
THRESHOLDS = [
    f"{side}_threshold_pct_{edge}"
    for side in ("input", "output", "slew_lower", "slew_upper")
    for edge in ("rise", "fall")
]
SLEW_DERATE = "slew_derate_from_library"
FIRST = "first"


class Shelf:
    """The frames of library files, each read once."""

    def __init__(self) -> None:
        self.frames: dict[str, Frame] = {}

    def frame(self, name: str) -> Frame:
        if name not in self.frames:
            self.frames[name] = Frame(read_library(read_as(name, "a library", "late"), name))
        return self.frames[name]


class LibrarySet:
    """The cells of a list of libraries; a cell is read when it is asked for."""

    def __init__(self, files: list[str], prefer: dict[str, str], shelf: Shelf, report: Report):
        self.frames = [shelf.frame(it) for it in files]
        self.prefer, self.report = prefer, report
        self.where: dict[str, list[tuple[Frame, Part]]] = {}
        for frame in self.frames:
            for part in frame.library.parts:
                if part.name == "cell" and part.args:
                    self.where.setdefault(part.args[0], []).append((frame, part))
        self.cells: dict[str, Cell] = {}

    def choose(self, name: str) -> tuple[Frame, Part]:
        """The one place of a cell, or the one that the project prefers."""
        places = self.where[name]
        if len(places) == 1:
            return places[0]
        files = [it.file for it, _ in places]
        wish = next((file for pattern, file in self.prefer.items() if fnmatch.fnmatchcase(name, pattern)), None)
        chosen = [it for it in places if wish == FIRST or wish is not None and it[0].file.endswith(wish)]
        if not chosen:
            frame, part = places[1]
            raise InputFault(
                frame.file,
                frame.library.line(part),
                f"the cell {name} is in {' and in '.join(files)}: "
                f'prefer = {{ "{name}" = "{files[0]}" }} in the project says which counts',
            )
        frame, part = chosen[0]
        self.report.change(
            "cell-clash",
            Place(frame.file, frame.library.line(part)),
            f"the cell {name} of {', '.join(files)} is that of {frame.file}",
        )
        return frame, part

    def get(self, name: str) -> Cell | None:
        if name not in self.cells:
            if name not in self.where:
                return None
            frame, part = self.choose(name)
            group = frame.library.group(part)
            mistyped(group, frame.file, self.report)
            self.cells[name] = CellReader(frame, group, self.report).read()
        return self.cells[name]

    def ports(self, name: str) -> LibraryPins | None:
        """A cell as a module, for yosys."""
        cell = self.get(name)
        if cell is None:
            return None
        ports = []
        for port, span in cell.spans.items():
            first = port if span is None else f"{port}[{span[0]}]"
            if first in cell.pins:
                ports.append((port, cell.pins[first].direction, span))
        return LibraryPins(name, ports)

    def vary(self, name: str, new_name: str, change: Callable[[Cell], None]) -> None:
        """A new cell that is another one but for a change."""
        if new_name not in self.cells:
            made = copy.deepcopy(self.get(name))
            made.name = new_name
            change(made)
            self.cells[new_name] = made


def check_frames(frames: Iterable[Frame], report: Report) -> None:
    """What holds for whole libraries and has no counterpart."""
    first: dict[str, tuple[Decimal, str]] = {}
    for frame in frames:
        for name in (*THRESHOLDS, SLEW_DERATE):
            text, line = frame.library.frame.text(name), frame.line(name) or 0
            if text is None:
                continue
            value, place = as_decimal(text, frame.file, line, name), Place(frame.file, line)
            before, file = first.setdefault(name, (value, frame.file))
            if name == SLEW_DERATE and value != 1:
                report.lose("slew-derate", place, f"{name} {text} is not read")
            elif before != value:
                report.lose("thresholds", place, f"{name} is {text}, and {before} in {file}")


def differences(early: Cell, late: Cell) -> str | None:
    """How a cell differs between the libraries in what has to be the same (E3); none where it does not."""
    if {(it.name, it.direction) for it in early.pins.values()} != {
        (it.name, it.direction) for it in late.pins.values()
    }:
        return "pins"

    def shape(cell: Cell) -> set[tuple]:
        return {
            (pin.name, timing.kind, timing.sense, word, source)
            for pin, timing in cell.timed()
            for source in timing.related
            for word in timing.tables
        }

    return "arcs or tests" if shape(early) != shape(late) else None


class LibraryWriter:
    """Writes cells as one library."""

    def __init__(self, time: Decimal, load: Decimal):
        self.time, self.load = (time if time in TIMES else Decimal(1)), (load if load in LOADS else Decimal(1))
        self.templates: dict[tuple, str] = {}

    def number(self, text: str, scale: Decimal, unit: Decimal) -> str:
        return text if scale == unit else plain(Decimal(text) * scale / unit)

    def entries(self, axis: str, table: Table, texts: list[str]) -> str:
        unit = self.load if axis == "load" else self.time
        return ", ".join(self.number(it, table.scale(axis), unit) for it in texts)

    def table(self, word: str, table: Table) -> list[str]:
        rows = [table.values]
        if len(table.axes) == 2:
            width = len(table.axes[1][1])
            rows = [table.values[it : it + width] for it in range(0, len(table.values), width)]
        said = ", \\\n          ".join(f'"{self.entries("time", table, row)}"' for row in rows)
        return [f"        {word} ({self.template(table)}) {{ values ({said}); }}"]

    def template(self, table: Table) -> str:
        """The name of the template with these axes."""
        if not table.axes:
            return "scalar"
        key = (table.kind, *((axis, self.entries(axis, table, texts)) for axis, texts in table.axes))
        return self.templates.setdefault(key, f"{table.kind}_{len(self.templates) + 1}")

    def pin(self, pin: Pin) -> list[str]:
        lines = [
            f'    pin ("{pin.name}") {{',
            f"      direction : {pin.direction};",
            f"      capacitance : {plain(pin.capacitance / self.load)};",
        ]
        lines += ["      clock : true;"] if pin.is_clock else []
        lines += [f'      function : "{pin.function}";'] if pin.function else []
        for word, limit in pin.limits.items():
            unit = {"max_capacitance": self.load, "max_transition": self.time}.get(word, Decimal(1))
            lines.append(f"      {word} : {plain(limit / unit)};")
        for timing in pin.timings:
            lines += [
                "      timing () {",
                f'        related_pin : "{" ".join(timing.related)}"; timing_type : {timing.kind};',
            ]
            lines += [f"        timing_sense : {timing.sense};"] if timing.sense else []
            lines += [f'        when : "{timing.when}";'] if timing.when else []
            for word, table in timing.tables.items():
                lines += self.table(word, table)
            lines.append("      }")
        return [*lines, "    }"]

    def state(self, group: Group) -> list[str]:
        said = " ".join(f'{it.name} : "{it.values[0]}";' for it in group.attributes if not it.is_complex and it.values)
        return [f"    {group.name} ({', '.join(group.args)}) {{ {said} }}"]

    def cell(self, cell: Cell) -> list[str]:
        lines = [f'  cell ("{cell.name}") {{']
        for group in cell.states:
            lines += self.state(group)
        for pin in cell.pins.values():
            lines += self.pin(pin)
        return [*lines, "  }"]

    def text(self, name: str, cells: Iterable[Cell]) -> str:
        body = [line for cell in cells for line in self.cell(cell)]
        count, unit = LOADS[self.load]
        lines = [
            f"library ({name}) {{",
            f'  delay_model : table_lookup;\n  time_unit : "{TIMES[self.time]}";',
            f"  capacitive_load_unit ({count}, {unit});",
        ]
        for key, template in self.templates.items():
            lines.append(f"  lu_table_template ({template}) {{")
            for number, (axis, entries) in enumerate(key[1:], 1):
                lines.append(f'    variable_{number} : {WRITTEN[key[0], axis]}; index_{number} ("{entries}");')
            lines.append("  }")
        return "\n".join([*lines, *body, "}"]) + "\n"


def kept_cells(early: LibrarySet, late: LibrarySet, patterns: list[str]) -> list[str]:
    """The cells of both libraries that the project wants to keep, for edits that change to them."""
    names = [it for it in late.where if it in early.where]
    return [it for it in names if any(fnmatch.fnmatchcase(it, pattern) for pattern in patterns)]


def check_cell(name: str, early: LibrarySet, late: LibrarySet, user: Place) -> None:
    """A cell has to be in both libraries, with the same pins, arcs and tests."""
    both = early.get(name), late.get(name)
    for cell, side in zip(both, ("early", "late"), strict=True):
        if cell is None:
            raise InputFault(user.file, user.line or None, f"the cell {name} is in no {side} library")
        if cell.misfit:
            raise InputFault(cell.place.file, cell.place.line, f"the cell {name} cannot be read: {cell.misfit}")
    why = differences(*both)
    if why:
        raise InputFault(
            both[0].place.file, both[0].place.line, f"the cell {name} has other {why} than in {both[1].place} (E3)"
        )


def write_libraries(names: list[str], early: LibrarySet, late: LibrarySet) -> tuple[str, str]:
    """The texts of both libraries, in the units of the first late one."""
    unit = late.frames[0]
    texts = []
    for side, cells in (("early", early), ("late", late)):
        writer = LibraryWriter(unit.time, unit.load)
        texts.append(writer.text(f"imported_{side}", [cells.cells[it] for it in names]))
    return texts[0], texts[1]
