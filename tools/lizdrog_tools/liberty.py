"""Reads libraries (Liberty) in a plain, forgiving way: what it does not know it passes over.

It is no check, and nothing of it is proved: the program alone says whether a library is accepted, and what it means.
"""
import os
import re
from collections.abc import Iterator

from lizdrog_tools.files import TextFault, parsed

RISE, FALL = "rise", "fall"

LIBERTY_TOKEN = re.compile(r'/\*.*?\*/|\\\r?\n|"([^"]*)"|([{}();:,])|((?:[^\s{}();:,"/]|/(?!\*))+)|(\n)', re.S)
TIME_UNITS = {"1ps": 1e3, "10ps": 1e4, "100ps": 1e5, "1ns": 1e6}
LOAD_UNITS = {"ff": 1e3, "pf": 1e6}
SENSES = {"positive_unate": [(RISE, RISE), (FALL, FALL)], "negative_unate": [(FALL, RISE), (RISE, FALL)]}
BOTH_SENSES = [(one, other) for other in (RISE, FALL) for one in (RISE, FALL)]
EDGES = {"rising_edge": RISE, "falling_edge": FALL}
TESTS = {f"{kind}_{edge}": (kind, tran) for kind in ("setup", "hold") for edge, tran in (("rising", RISE),
                                                                                         ("falling", FALL))}
READ_TYPES = {"combinational", *EDGES, *TESTS}


class Group:
    """A group of a Liberty text: its simple attributes, its complex ones, and its groups in order."""

    def __init__(self, name: str, args: list[str], offset: int):
        self.name, self.args, self.offset = name, args, offset
        self.simple: dict[str, str] = {}
        self.complex: dict[str, list[str]] = {}
        self.groups: list[Group] = []

    def named(self, name: str) -> list["Group"]:
        return [it for it in self.groups if it.name == name]


def liberty_tokens(text: str) -> Iterator[tuple[str, str, int]]:
    """Each token as its sort (quoted, mark, word, end) with its text and its place."""
    sorts = (None, "quoted", "mark", "word", "end")
    for found in LIBERTY_TOKEN.finditer(text):
        if found.lastindex:
            yield sorts[found.lastindex], found.group(found.lastindex), found.start()
    yield "stop", "", len(text)


class LibertyReader:
    """Goes over the tokens of a Liberty text, one ahead."""

    def __init__(self, text: str):
        self.tokens = liberty_tokens(text)
        self.step()

    def step(self) -> None:
        self.sort, self.text, self.offset = next(self.tokens, ("stop", "", 0))

    def skip_ends(self) -> None:
        while self.sort == "end":
            self.step()

    def arguments(self) -> list[str]:
        """The words up to the closing bracket, which is passed."""
        self.step()
        args = []
        while self.sort != "stop" and (self.sort, self.text) != ("mark", ")"):
            if self.sort in ("quoted", "word"):
                args.append(self.text)
            self.step()
        self.step()
        return args

    def value(self) -> str:
        """The words of a simple attribute, up to its end."""
        self.step()
        words = []
        while self.sort not in ("end", "stop") and not (self.sort == "mark" and self.text in ";}"):
            words.append(self.text)
            self.step()
        return " ".join(words)

    def statement(self, open_groups: list[Group]) -> None:
        """Reads one statement into the innermost open group."""
        name, offset, inner = self.text, self.offset, open_groups[-1]
        self.step()
        self.skip_ends()
        if (self.sort, self.text) == ("mark", ":"):
            inner.simple[name] = self.value()
        elif (self.sort, self.text) == ("mark", "("):
            args = self.arguments()
            self.skip_ends()
            if (self.sort, self.text) == ("mark", "{"):
                group = Group(name, args, offset)
                inner.groups.append(group)
                open_groups.append(group)
                self.step()
            else:
                inner.complex[name] = [re.sub(r"\\\r?\n", "", it) for it in args]


def read_groups(text: str) -> Group:
    """The outermost group of a text, as the only one in a group without a name."""
    reader, open_groups = LibertyReader(text), [Group("", [], 0)]
    while reader.sort != "stop":
        if reader.sort in ("quoted", "word"):
            reader.statement(open_groups)
            continue
        if (reader.sort, reader.text) == ("mark", "}") and len(open_groups) > 1:
            open_groups.pop()
        reader.step()
        if reader.sort == "stop":
            break
    first = open_groups[0]
    return first.groups[0] if first.groups else first


class Table:
    """Values over axes of slew and load, or of two slews; an axis that a table lacks has one entry."""

    def __init__(self, xs: list[float], ys: list[float], values: list[float]):
        self.xs, self.ys, self.values = xs, ys, values

    def at(self, x: float, y: float) -> float | None:
        """The value between the entries, as a float; none where the table is not whole."""
        if len(self.values) != len(self.xs) * len(self.ys):
            return None
        columns = [line(self.xs, [self.values[i * len(self.ys) + j] for i in range(len(self.xs))], x)
                   for j in range(len(self.ys))]
        return line(self.ys, columns, y)


def line(axis: list[float], values: list[float], x: float) -> float:
    if len(axis) == 1:
        return values[0]
    i = max((k for k in range(len(axis) - 1) if axis[k] <= x), default=0)
    width = axis[i + 1] - axis[i]
    return values[i] if not width else values[i] + (values[i + 1] - values[i]) * (x - axis[i]) / width


def numbers(words: list[str], unit: float) -> list[float]:
    """The numbers of some words times a unit; none where one of them is no number."""
    try:
        return [float(it) * unit for word in words for it in re.split(r"[,\s]+", word) if it]
    except ValueError:
        return []


# An arc: where it begins, with the edge, where it ends, with the edge, and `edge` or `comb`. A test: the data pin with
# the edge, the clock pin with the edge, and its kind.
Arc = tuple[str, str, str, str, str]
Test = tuple[str, str, str, str, str]


class Cell:
    """A cell: its pins with direction and load in aF; its arcs and tests by their nodes, each with its tables."""

    def __init__(self, name: str, offset: int):
        self.name, self.offset = name, offset
        self.pins: dict[str, tuple[str, float]] = {}
        self.arcs: dict[Arc, list[tuple[Table, Table]]] = {}
        self.tests: dict[Test, list[Table]] = {}
        self.passed_over: dict[str, int] = {}
        self.left_out: str | None = None
        self.is_register = False
        self.footprint: str | None = None
        self.functions: dict[str, str] = {}

    def is_alike(self, other: "Cell") -> bool:
        """Whether it may stand in the place of another cell and do the same, as far as both tell: the same pins, arcs
        and tests, and no other footprint or function."""
        prints = {it.footprint for it in (self, other)} - {None}
        shared = self.functions.keys() & other.functions.keys()
        is_same = all(self.functions[it] == other.functions[it] for it in shared)
        return is_same and len(prints) < 2 and self.parts() == other.parts()

    def clock_pins(self) -> set[str]:
        return {arc[0] for arc in self.arcs if arc[4] == "edge"} | {test[2] for test in self.tests}

    def data_pins(self) -> set[str]:
        return {test[0] for test in self.tests}

    def parts(self) -> dict[str, set]:
        """What has to be the same in both libraries."""
        return {"pin": {(name, way) for name, (way, _) in self.pins.items()}, "arc": set(self.arcs),
                "test": set(self.tests)}


class Library:
    """The cells of a Liberty text by name, with the units in fs and aF."""

    def __init__(self, text: str):
        root = read_groups(text)
        self.time_unit = TIME_UNITS.get(root.simple.get("time_unit", "1ns"), 1e6)
        self.load_unit, self.load_words = 1e3, root.complex.get("capacitive_load_unit")
        if self.load_words and len(self.load_words) == 2 and numbers(self.load_words[:1], 1):
            self.load_unit = numbers(self.load_words[:1], 1)[0] * LOAD_UNITS.get(self.load_words[1].lower(), 1e3)
        self.templates = {it.args[0]: it for it in reversed(root.named("lu_table_template")) if it.args}
        self.cells: dict[str, Cell] = {}
        self.left_out: dict[str, Cell] = {}
        for group in root.named("cell"):
            if group.args:
                cell = self.cell(group)
                (self.left_out if cell.left_out else self.cells)[cell.name] = cell

    def cell(self, group: Group) -> Cell:
        cell = Cell(group.args[0], group.offset)
        pins = [(name, pin) for pin in group.named("pin") for name in pin.args]
        for name, pin in pins:
            way = pin.simple.get("direction")
            if way == "inout":
                cell.left_out = f"its pin {name} is an inout"
            if ":" in name:
                cell.left_out = f"its pin {name} has a colon in its name"
            if way in ("input", "output"):
                load = numbers([pin.simple.get("capacitance", "0")], self.load_unit)
                cell.pins[name] = (way, load[0] if load else 0)
            if "function" in pin.simple:
                cell.functions[name] = "".join(pin.simple["function"].split())
        if group.named("bus") or group.named("bundle"):
            cell.left_out = "it has a bus or a bundle"
        cell.footprint = group.simple.get("cell_footprint")
        cell.is_register = bool(group.named("ff") or group.named("latch"))
        for name, pin in pins:
            for timing in pin.named("timing"):
                if name in cell.pins:
                    self.timing(cell, name, timing)
        return cell

    def timing(self, cell: Cell, pin: str, group: Group) -> None:
        kind = group.simple.get("timing_type", "combinational")
        related = [it for it in group.simple.get("related_pin", "").split() if it in cell.pins]
        if kind not in READ_TYPES:
            cell.passed_over[kind] = cell.passed_over.get(kind, 0) + 1
        for clock in related:
            if cell.pins[pin][0] == "output" and kind in ("combinational", *EDGES):
                self.arcs(cell, pin, clock, kind, group)
            elif cell.pins[pin][0] == "input" and kind in TESTS:
                for tran in (RISE, FALL):
                    for table in group.named(f"{tran}_constraint"):
                        test = (pin, tran, clock, TESTS[kind][1], TESTS[kind][0])
                        cell.tests.setdefault(test, []).append(self.table(table, "related_pin_transition"))

    def arcs(self, cell: Cell, pin: str, clock: str, kind: str, group: Group) -> None:
        edge = EDGES.get(kind)
        nodes = [(edge, it) for it in (RISE, FALL)] if edge else SENSES.get(group.simple.get("timing_sense"),
                                                                            BOTH_SENSES)
        for before, tran in nodes:
            delays, slews = group.named(f"cell_{tran}"), group.named(f"{tran}_transition")
            if delays and slews:
                arc = (clock, before, pin, tran, "edge" if edge else "comb")
                cell.arcs.setdefault(arc, []).append((self.table(delays[-1], "input_net_transition"),
                                                      self.table(slews[-1], "input_net_transition")))

    def table(self, group: Group, first: str) -> Table:
        """A table with the variable `first` along xs."""
        template = self.templates.get(group.args[0] if group.args else "scalar")
        axes = {}
        for number in (1, 2):
            variable = template.simple.get(f"variable_{number}") if template else None
            if variable:
                words = group.complex.get(f"index_{number}") or template.complex.get(f"index_{number}") or []
                axes[variable] = numbers(words, self.load_unit if variable == "total_output_net_capacitance"
                                         else self.time_unit)
        values = numbers(group.complex.get("values", []), self.time_unit)
        xs, others = axes.get(first, [0.0]), [it for name, it in axes.items() if name != first]
        ys = others[0] if others else [0.0]
        if len(axes) == 2 and next(iter(axes)) != first and len(values) == len(xs) * len(ys):
            values = [values[j * len(xs) + i] for i in range(len(xs)) for j in range(len(ys))]
        return Table(xs, ys, values)


def parse_library(text: str) -> Library:
    """The library of a text that has one."""
    library = Library(text)
    if not library.cells and not library.left_out:
        raise TextFault(None, "no cell is found: this is no library (Liberty)")
    return library


def read_library(name: str | os.PathLike) -> Library:
    """The library of a file."""
    return parsed(name, parse_library)
