"""What Lizdrog reads of library cells, in the units of one library, with each bit of a bus as a pin of its own."""
import dataclasses
import fractions
import re
from collections.abc import Callable, Iterator
from decimal import Decimal, InvalidOperation

from lizdrog_tools.files import InputFault
from lizdrog_tools.importing.boolean import Function, NoFunction, sense_word
from lizdrog_tools.importing.liberty_tree import Group, LibraryText
from lizdrog_tools.importing.report import Place, Report

TIME_WORD = re.compile(r"\s*([0-9.]+)\s*(s|ms|us|ns|ps|fs)\s*")
TIME_UNITS = {
    "s": Decimal(10) ** 12,
    "ms": Decimal(10) ** 9,
    "us": Decimal(10) ** 6,
    "ns": Decimal(1000),
    "ps": Decimal(1),
    "fs": Decimal("0.001"),
}
CAP_UNITS = {
    "ff": Decimal(1),
    "pf": Decimal(1000),
    "nf": Decimal(10) ** 6,
    "uf": Decimal(10) ** 9,
    "f": Decimal(10) ** 15,
}
COMBINATIONAL = {"combinational": ("rise", "fall"), "combinational_rise": ("rise",), "combinational_fall": ("fall",)}
EDGES = {"rising_edge", "falling_edge"}
TESTS = {f"{kind}_{edge}" for kind in ("setup", "hold") for edge in ("rising", "falling")}
UNTESTED = (
    "recovery",
    "removal",
    "min_pulse_width",
    "minimum_period",
    "non_seq",
    "nochange",
    "skew",
    "clock_gating",
    "max_clock_tree_path",
    "min_clock_tree_path",
    "preset",
    "clear",
    "retain",
)
DELAY_VARIABLES = {
    "input_net_transition": "slew",
    "input_transition_time": "slew",
    "total_output_net_capacitance": "load",
}
TEST_VARIABLES = {"related_pin_transition": "clock_slew", "constrained_pin_transition": "slew"}
WRITTEN = {
    ("delay", "slew"): "input_net_transition",
    ("delay", "load"): "total_output_net_capacitance",
    ("test", "clock_slew"): "related_pin_transition",
    ("test", "slew"): "constrained_pin_transition",
}
MOST_ENTRIES = 64


@dataclasses.dataclass(slots=True)
class Table:
    """Values over axes; the numbers are texts in the library's own units, and the scales lead to ps and fF."""

    kind: str
    axes: list[tuple[str, list[str]]]
    values: list[str]
    time_scale: Decimal
    load_scale: Decimal

    def scale(self, axis: str) -> Decimal:
        return self.load_scale if axis == "load" else self.time_scale

    def numbers(self) -> tuple[list[list[fractions.Fraction]], list[fractions.Fraction]]:
        """The axes and the values in ps and fF."""
        axes = [
            [fractions.Fraction(it) * fractions.Fraction(self.scale(name)) for it in entries]
            for name, entries in self.axes
        ]
        return axes, [fractions.Fraction(it) * fractions.Fraction(self.time_scale) for it in self.values]


@dataclasses.dataclass(slots=True)
class Timing:
    """A timing group of a pin: arcs from related pins, or tests against them."""

    related: list[str]
    kind: str
    sense: str | None
    when: str | None
    tables: dict[str, Table]
    line: int


@dataclasses.dataclass(slots=True)
class Pin:
    """A pin, with its capacitance in fF as an exact decimal."""

    name: str
    direction: str
    capacitance: Decimal
    function: str | None = None
    timings: list[Timing] = dataclasses.field(default_factory=list)
    limits: dict[str, Decimal] = dataclasses.field(default_factory=dict)
    is_clock: bool = False


@dataclasses.dataclass(slots=True)
class Cell:
    """A cell as Lizdrog reads it."""

    name: str
    place: Place
    pins: dict[str, Pin] = dataclasses.field(default_factory=dict)
    spans: dict[str, tuple[int, int] | None] = dataclasses.field(default_factory=dict)
    states: list[Group] = dataclasses.field(default_factory=list)
    clocked_on: set[str] = dataclasses.field(default_factory=set)
    misfit: str | None = None

    @property
    def is_register(self) -> bool:
        return bool(self.states)

    def outputs(self) -> set[str]:
        return {it.name for it in self.pins.values() if it.direction == "output"}

    def timed(self) -> Iterator[tuple[Pin, Timing]]:
        return ((pin, timing) for pin in self.pins.values() for timing in pin.timings)

    def clock_pins(self) -> set[str]:
        """The pins that edges of arcs or tests refer to."""
        return {
            it for _, timing in self.timed() if timing.kind in EDGES or timing.kind in TESTS for it in timing.related
        }

    def data_pins(self) -> set[str]:
        return {pin.name for pin, timing in self.timed() if timing.kind in TESTS}


def as_decimal(text: str, file: str, line: int, what: str) -> Decimal:
    try:
        value = Decimal(text.strip())
    except InvalidOperation:
        raise InputFault(file, line, f"{what} is no number: {text}") from None
    if not value.is_finite():
        raise InputFault(file, line, f"{what} is no number: {text}")
    return value


class Frame:
    """What holds for all cells of a library: units, templates, bus types, defaults."""

    def __init__(self, library: LibraryText):
        self.library, self.file, frame = library, library.file, library.frame
        self.time = self.time_unit(frame)
        self.load = self.load_unit(frame)
        model = frame.text("delay_model")
        if model not in (None, "table_lookup"):
            raise InputFault(
                self.file, self.line("delay_model"), f"the delay model {model} is not read: table_lookup alone is"
            )
        self.templates = {it.args[0]: it for it in library.named("lu_table_template") if it.args}
        self.types = {it.args[0]: bus_span(it) for it in library.named("type") if it.args}
        self.defaults = {way: frame.text(f"default_{way}_pin_cap") for way in ("input", "output", "inout")}

    def line(self, name: str) -> int | None:
        return next((it.line for it in self.library.frame.attributes if it.name == name), None)

    def time_unit(self, frame: Group) -> Decimal:
        text = frame.text("time_unit") or "1ns"
        found = TIME_WORD.fullmatch(text)
        if not found:
            raise InputFault(self.file, self.line("time_unit"), f"the time unit {text} is not read")
        return Decimal(found.group(1)) * TIME_UNITS[found.group(2)]

    def load_unit(self, frame: Group) -> Decimal:
        words = frame.values("capacitive_load_unit")
        if len(words) == 1:
            words = re.split(r"[,\s]+", words[0].strip())
        if len(words) != 2 or words[1].lower() not in CAP_UNITS:
            raise InputFault(
                self.file,
                self.line("capacitive_load_unit"),
                "the library has no capacitive_load_unit (number, ff or pf)",
            )
        return (
            as_decimal(words[0], self.file, self.line("capacitive_load_unit"), "the capacitive_load_unit")
            * CAP_UNITS[words[1].lower()]
        )


def bus_span(group: Group) -> tuple[int, int] | None:
    """The range of a bus type."""
    try:
        return int(group.text("bit_from")), int(group.text("bit_to"))
    except (TypeError, ValueError):
        return None


def bits_of(name: str, span: tuple[int, int]) -> list[str]:
    step = 1 if span[1] >= span[0] else -1
    return [f"{name}[{it}]" for it in range(span[0], span[1] + step, step)]


class CellReader:
    """Reads one cell of a library."""

    def __init__(self, frame: Frame, group: Group, report: Report):
        self.frame, self.group, self.report = frame, group, report
        self.cell = Cell(group.args[0], Place(frame.file, group.line))
        self.types = {**frame.types, **{it.args[0]: bus_span(it) for it in group.named("type") if it.args}}
        self.buses: dict[str, list[str]] = {}
        self.pin_groups: list[tuple[str, Group, list[str]]] = []
        self.internal: set[str] = set()
        self.uneven: dict[str, int] = {}
        self.unlike = Decimal(0)

    def place(self, line: int) -> Place:
        return Place(self.frame.file, line)

    def lose(self, kind: str, line: int, text: str) -> None:
        self.report.lose(kind, self.place(line), f"cell {self.cell.name}: {text}")

    def read(self) -> Cell:
        for sort in ("ff", "latch", "ff_bank", "latch_bank", "statetable"):
            for state in self.group.named(sort):
                self.cell.states.append(state)
                for word in ("clocked_on", "enable"):
                    self.cell.clocked_on |= set(re.findall(r"[A-Za-z_]\w*(?:\[\d+\])?", state.text(word) or ""))
        for group in self.group.groups:
            if group.name == "pin":
                for name in group.args:
                    self.pin(name, group, None, [name])
            elif group.name == "bus":
                self.bus(group)
            elif group.name == "bundle":
                self.bundle(group)
        for name, group, bits in self.pin_groups:
            for timing in group.named("timing"):
                self.timing(name, bits, timing)
        self.lose_uneven()
        return self.cell

    def bus(self, group: Group) -> None:
        """Each bit of a bus as a pin, with what inner groups say of single bits."""
        name, kind = group.args[0] if group.args else "", group.text("bus_type") or ""
        span = self.types.get(kind)
        if not name or span is None:
            raise InputFault(
                self.frame.file,
                group.line,
                f"the bus {name} has the bus_type {kind}, which the library does not describe by bit_from and bit_to",
            )
        self.members(name, group, bits_of(name, span))
        self.cell.spans[name] = span

    def bundle(self, group: Group) -> None:
        members = [it for word in group.values("members") for it in re.split(r"[,\s]+", word) if it]
        self.members(group.args[0] if group.args else "", group, members)
        self.cell.spans.update(dict.fromkeys(members))

    def members(self, name: str, group: Group, bits: list[str]) -> None:
        self.buses[name] = bits
        inner = {}
        for pin in group.named("pin"):
            for word in pin.args:
                inner.update(dict.fromkeys(self.expanded(word), pin))
        for bit in bits:
            self.pin(bit, inner.get(bit), group, [bit])
        self.pin_groups.append((name, group, bits))

    @staticmethod
    def expanded(word: str) -> list[str]:
        """The bits that `A[3:0]` names."""
        found = re.fullmatch(r"(.+)\[(\d+):(\d+)\]", word)
        return bits_of(found.group(1), (int(found.group(2)), int(found.group(3)))) if found else [word]

    def pin(self, name: str, group: Group | None, around: Group | None, bits: list[str]) -> None:
        """A pin by its own group, and where that says nothing by the group of its bus."""
        both = [it for it in (group, around) if it is not None]

        def said(word: str) -> str | None:
            return next((text for it in both if (text := it.text(word)) is not None), None)

        way, line = said("direction"), both[0].line
        if around is None:
            self.cell.spans[name] = None
        if way == "internal" or way is None:
            self.internal.add(name)
            return
        if way not in ("input", "output", "inout"):
            raise InputFault(self.frame.file, line, f"the pin {name} of {self.cell.name} has the direction {way}")
        if name in self.cell.pins:
            raise InputFault(self.frame.file, line, f"the pin {name} is there twice in the cell {self.cell.name}")
        if way == "inout" or ":" in name:
            self.cell.misfit = f"its pin {name} {'is an inout' if way == 'inout' else 'has a colon in its name'}"
        self.cell.pins[name] = self.made_pin(name, way, said, line)
        if group is not None:
            self.pin_groups.append((name, group, bits))

    def made_pin(self, name: str, way: str, said: Callable[[str], str | None], line: int) -> Pin:
        """A pin by what its group says of it: its capacitance, its function, its limits."""
        load = said("capacitance") or self.frame.defaults[way] or "0"
        load = as_decimal(load, self.frame.file, line, f"the capacitance of {name}") * self.frame.load
        made = Pin(name, way, load, said("function"), is_clock=said("clock") == "true")
        self.capacitances(name, load, said, line)
        units = {"max_capacitance": self.frame.load, "max_transition": self.frame.time, "max_fanout": Decimal(1)}
        for word, unit in units.items():
            if said(word) is not None:
                made.limits[word] = as_decimal(said(word), self.frame.file, line, word) * unit
        return made

    def capacitances(self, name: str, load: Decimal, said: Callable[[str], str | None], line: int) -> None:
        """Notes a pin whose loads of its edges are other than its capacitance."""
        for edge in ("rise", "fall"):
            word = f"{edge}_capacitance"
            text = said(word)
            edge_load = as_decimal(text, self.frame.file, line, word) * self.frame.load if text is not None else load
            if edge_load != load:
                self.uneven.setdefault(name, line)
                self.unlike = max(self.unlike, abs(edge_load - load))

    def lose_uneven(self) -> None:
        """Tells of the pins whose edges have loads of their own."""
        if self.uneven:
            names = ", ".join(self.uneven)
            text = (
                f"rise_capacitance or fall_capacitance of {names} differ from the capacitance, which alone is read, "
                f"by up to {float(self.unlike):.2g} fF"
            )
            self.lose("pin-capacitance", next(iter(self.uneven.values())), text)

    def related(self, group: Group, bits: list[str]) -> list[tuple[list[str], list[str]]]:
        """Pairs of related pins and pins: bit by bit where both are buses of one width, else each to each."""
        found = []
        for word in (group.text("related_pin") or "").split():
            sources = self.buses.get(word, [word])
            if len(sources) == len(bits) and len(bits) > 1:
                found += [([one], [other]) for one, other in zip(sources, bits, strict=True)]
            else:
                found.append((sources, bits))
        for word in (group.text("related_bus_pins") or "").split():
            found.append((self.buses.get(word, [word]), bits))
        return found

    def timing(self, name: str, bits: list[str], group: Group) -> None:
        kind = group.text("timing_type") or "combinational"
        output = self.cell.pins[bits[0]].direction == "output" if bits[0] in self.cell.pins else None
        if output is None:
            return
        if kind in COMBINATIONAL or kind in EDGES:
            wanted = output
        elif kind in TESTS:
            wanted = not output
        elif kind.startswith(UNTESTED):
            self.report.drop(
                "test-type",
                self.place(group.line),
                f"cell {self.cell.name}: {kind} of {name}: there is no such test in Lizdrog",
            )
            return
        elif kind.startswith("three_state"):
            self.lose("three-state", group.line, f"{kind} of {name} is not read")
            return
        else:
            self.lose("timing-type", group.line, f"the timing_type {kind} of {name} is not known")
            return
        if not wanted:
            self.lose("timing-type", group.line, f"{kind} is at the {'output' if output else 'input'} {name}")
            return
        self.add_timing(name, bits, group, kind)

    def add_timing(self, name: str, bits: list[str], group: Group, kind: str) -> None:
        tables = self.tables(name, group, kind)
        if not tables:
            return
        for sources, pins in self.related(group, bits):
            known = [it for it in sources if it in self.cell.pins]
            for source in sources:
                if source in self.internal:
                    self.lose("internal-pin", group.line, f"an arc from the internal pin {source} to {name}")
                elif source not in self.cell.pins:
                    self.lose("related-pin", group.line, f"the related_pin {source} of {name} is no pin of the cell")
            for pin in pins:
                for source in known:
                    sense = self.sense(group, kind, pin, source)
                    written = "combinational" if kind in COMBINATIONAL else kind
                    self.cell.pins[pin].timings.append(
                        Timing([source], written, sense, group.text("when"), tables, group.line)
                    )
        if kind in ("combinational_rise", "combinational_fall"):
            self.report.change(
                "timing-type",
                self.place(group.line),
                f"cell {self.cell.name}: {kind} of {name} as combinational with the tables of one edge",
            )

    def sense(self, group: Group, kind: str, pin: str, source: str) -> str | None:
        """The sense that is written, or the one that the pin's function has."""
        said = group.text("timing_sense")
        if said is not None or kind not in COMBINATIONAL:
            return said
        try:
            function = Function(self.cell.pins[pin].function or "")
        except NoFunction:
            return None
        found = sense_word(function.senses(source, {})) if source in function.inputs else None
        if found and found != "non_unate":
            self.report.change(
                "sense", self.place(group.line), f"cell {self.cell.name}: {source} to {pin} is {found} by its function"
            )
        return found

    def tables(self, name: str, group: Group, kind: str) -> dict[str, Table]:
        """The tables that are read of a timing group; an output edge needs both of its tables."""
        found = {}
        edges = COMBINATIONAL.get(kind, ("rise", "fall"))
        for edge in edges:
            words = [f"{edge}_constraint"] if kind in TESTS else [f"cell_{edge}", f"{edge}_transition"]
            groups = [group.named(word) for word in words]
            if all(groups):
                for word, tables in zip(words, groups, strict=True):
                    found[word] = self.table(name, tables[-1], "test" if kind in TESTS else "delay")
            elif any(groups):
                self.report.drop(
                    "half-an-arc",
                    self.place(group.line),
                    f"cell {self.cell.name}: {name} has one of {' and '.join(words)}: no arc comes of it",
                )
        return {word: table for word, table in found.items() if table is not None}

    def table(self, name: str, group: Group, kind: str) -> Table | None:
        word = group.args[0] if group.args else "scalar"
        template = self.frame.templates.get(word)
        if template is None and word != "scalar":
            raise InputFault(self.frame.file, group.line, f"the table template {word} is not there")
        variables = DELAY_VARIABLES if kind == "delay" else TEST_VARIABLES
        axes, count = [], 1
        for number in (1, 2, 3):
            variable = template.text(f"variable_{number}") if template else None
            if variable is None:
                continue
            entries = numbers_of(group.values(f"index_{number}") or template.values(f"index_{number}"))
            if variable not in variables or len(axes) == 2 or len(entries) > MOST_ENTRIES:
                self.lose(
                    "table", group.line, f"a table of {name} over {variable} ({len(entries)} entries) is not read"
                )
                return None
            axes.append((variables[variable], entries))
            count *= len(entries)
        values = numbers_of(group.values("values"))
        if len(values) != count:
            raise InputFault(
                self.frame.file,
                group.line,
                f"{group.name} of {name} has {len(values)} values, and its template asks for {count}",
            )
        for text in (*values, *(it for _, entries in axes for it in entries)):
            as_decimal(text, self.frame.file, group.line, f"an entry of {group.name} of {name}")
        return Table(kind, axes, values, self.frame.time, self.frame.load)


def numbers_of(words: list[str]) -> list[str]:
    return [it for word in words for it in re.split(r"[,\s]+", word) if it]


def plain(value: Decimal) -> str:
    """A decimal without an exponent and without zeros that say nothing."""
    text = format(value, "f")
    return (text.rstrip("0").rstrip(".") or "0") if "." in text else text
