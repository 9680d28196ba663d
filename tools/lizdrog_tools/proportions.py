"""What is hardly meant in the documents of a run: libraries exchanged, and units that are wrong by a thousand."""
import re
from collections.abc import Iterator

from lizdrog_tools.importing.mistyped import meant

# A period of fewer gates than this, or of more, is one in another unit; so is a slew so far beyond the tables.
FEWEST_GATES, MOST_GATES = 1, 100_000
FAR_BEYOND = 30
NAME = re.compile(r"^[ \t]*([A-Za-z_]\w*)\s*[:(]", re.M)
UNIT_WORD = re.compile(r"([0-9.]*)\s*([munpf]?)[sF]")
POWERS = {"": 15, "m": 12, "u": 9, "n": 6, "p": 3, "f": 0}


def middle(table) -> float:
    return table.values[len(table.values) // 2] if table.values else 0.0


def delays(library, used: list[str]) -> Iterator[tuple[tuple, float]]:
    """The delay in the middle of the first table of each arc of the used cells, in fs."""
    for name in used:
        cell = library.cells.get(name)
        for arc, tables in (cell.arcs if cell else {}).items():
            yield (name, *arc), middle(tables[0][0])


def exchanged(early, late, used: list[str]) -> list[str]:
    """Whether most arcs are slower in the early library, as one sentence; nothing where they are not."""
    others = dict(delays(late, used))
    pairs = [(delay, others[arc]) for arc, delay in delays(early, used) if arc in others]
    slower, faster = sum(one > other for one, other in pairs), sum(one < other for one, other in pairs)
    return [f"{slower} arcs are slower in the early library, and {faster} faster"] if slower > faster else []


class Units:
    """The units of the constraints at each command, in fs and aF."""

    def __init__(self, library):
        self.time, self.load = library.time_unit, library.load_unit

    def read(self, command) -> None:
        """Takes over what `set_units` says."""
        for option in ("-time", "-capacitance"):
            word = command.after(option)
            found = UNIT_WORD.fullmatch(word.text) if word else None
            if not found:
                continue
            value = float(found.group(1) or 1) * 10.0 ** POWERS[found.group(2)]
            if option == "-time":
                self.time = value
            else:
                self.load = value * 1000


def number_of(text: str) -> float | None:
    try:
        return float(text)
    except ValueError:
        return None


def first_number(command) -> float | None:
    """The first plain word of a command that is a number."""
    return next((value for word in command.words if (value := number_of(word.text)) is not None), None)


def last_entries(library, used: list[str]) -> tuple[float, float]:
    """The greatest entries of slews (fs) and loads (aF) in the delay tables of the used cells."""
    cells = [library.cells[name] for name in used if name in library.cells]
    tables = [pair[0] for cell in cells for those in cell.arcs.values() for pair in those]
    slews = max((it.xs[-1] for it in tables if it.xs), default=0.0)
    return slews, max((it.ys[-1] for it in tables if it.ys), default=0.0)


def out_of_proportion(commands, library, used: list[str]) -> Iterator[str]:
    """Periods and slews of constraints that are far from the tables, and loads beyond the last entry of each."""
    units, (last_slew, last_load) = Units(library), last_entries(library, used)
    gates = sorted(delay for _, delay in delays(library, used) if delay > 0)
    gate = gates[len(gates) // 2] if gates else 0.0
    for command in commands:
        if command.name == "set_units":
            units.read(command)
        elif command.name == "create_clock" and gate and (word := command.after("-period")) is not None:
            period = (number_of(word.text) or 0.0) * units.time
            if period and not FEWEST_GATES * gate <= period <= MOST_GATES * gate:
                yield f"a period of {period / 1000:g} ps, where a gate takes {gate / 1000:.3g} ps"
        elif command.name == "set_input_transition" and last_slew:
            slew = (first_number(command) or 0.0) * units.time
            if slew > FAR_BEYOND * last_slew:
                yield f"a transition of {slew / 1000:g} ps, where tables end at {last_slew / 1000:.3g} ps"
        elif command.name == "set_load" and last_load:
            load = (first_number(command) or 0.0) * units.load
            if load > last_load:
                yield f"a load of {load / 1000:g} fF, where tables end at {last_load / 1000:.3g} fF"


def mistyped(text: str) -> list[str]:
    """The attributes of a library that look like a mistyped one, each once with its first line."""
    first: dict[str, int] = {}
    for found in NAME.finditer(text):
        first.setdefault(found.group(1), found.start(1))
    lines = ((word, text.count("\n", 0, place) + 1, wanted) for word, place in first.items() if (wanted := meant(word)))
    return [f"line {line}: {word}: is {wanted} meant?" for word, line, wanted in lines]
