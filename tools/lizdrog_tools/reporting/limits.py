"""Loads of nets, and the limits that libraries and constraints set: a plain reading outside the proof.

Limits are the least of what the pin, its library's default and the constraints say. Loads are whole attofarads: the
wires of the parasitics and the pins of the late library; slews are asked from the program.
"""
import dataclasses
import os
import re
from collections.abc import Iterator

from lizdrog_tools.files import read_text
from lizdrog_tools.liberty import LOAD_UNITS, TIME_UNITS, Group, numbers, read_groups
from lizdrog_tools.read_answers import Edited
from lizdrog_tools.sdc import SdcCommand, Word, pin_word, read_commands
from lizdrog_tools.spef import Spef, SpefNet
from lizdrog_tools.verilog import Joined, Net

TRANSITION, CAPACITANCE, FANOUT = "max_transition", "max_capacitance", "max_fanout"
SORTS = (TRANSITION, CAPACITANCE, FANOUT)
DEFAULT_TIME, DEFAULT_LOAD = 1e6, 1e3
TIME = re.compile(r"(?:(10|100|1|1\.0)?ps|(?:1|1\.0)?ns)")


@dataclasses.dataclass
class CellLimits:
    """What a cell's pins and its library say: limits by pin, and how much of a fan-out a pin counts."""

    limits: dict[str, dict[str, float]]
    fanout_loads: dict[str, float]


def attribute(simple: dict[str, str], name: str, unit: float) -> float | None:
    """A number of a group times a unit, or none."""
    found = numbers([simple[name]], unit) if name in simple else []
    return found[0] if found else None


class LibraryLimits:
    """The limits of a library by cell and pin, in femtoseconds, attofarads and pins."""

    def __init__(self, text: str):
        root = read_groups(text)
        self.time_unit = TIME_UNITS.get(root.simple.get("time_unit", "1ns"), DEFAULT_TIME)
        words = root.complex.get("capacitive_load_unit", [])
        first = numbers(words[:1], 1)
        self.load_unit = (
            first[0] * LOAD_UNITS.get(words[1].lower(), DEFAULT_LOAD) if len(words) == 2 and first else DEFAULT_LOAD
        )
        self.units = {TRANSITION: self.time_unit, CAPACITANCE: self.load_unit, FANOUT: 1.0}
        self.defaults = {it: attribute(root.simple, f"default_{it}", self.units[it]) for it in SORTS}
        self.fanout_load = attribute(root.simple, "default_fanout_load", 1.0) or 1.0
        self.cells = {group.args[0]: self.cell(group) for group in root.named("cell") if group.args}

    def cell(self, group: Group) -> CellLimits:
        """The limits of a cell."""
        limits, loads = {}, {}
        for pin in group.named("pin"):
            for name in pin.args:
                limits[name] = {
                    it: value for it in SORTS if (value := attribute(pin.simple, it, self.units[it])) is not None
                }
                loads[name] = attribute(pin.simple, "fanout_load", 1.0) or self.fanout_load
        return CellLimits(limits, loads)

    def limit(self, cell: str, pin: str, sort: str) -> float | None:
        """The limit of a pin of a cell, or the library's default."""
        own = self.cells[cell].limits.get(pin, {}).get(sort) if cell in self.cells else None
        return self.defaults[sort] if own is None else own


class Constraints:
    """The limits and loads of the constraints: of the whole design, or of ports and pins."""

    def __init__(self, text: str, library: LibraryLimits):
        self.time_unit, self.load_unit = library.time_unit, library.load_unit
        self.of_design: dict[str, float] = {}
        self.of_pins: dict[tuple[str, str], float] = {}
        self.port_loads: dict[str, float] = {}
        self.not_looked_at: list[str] = []
        for command in read_commands(text):
            self.command(command)

    def command(self, command: SdcCommand) -> None:
        """Reads one command, where it is one of these."""
        if command.name == "set_units":
            self.units(command)
        elif command.name.removeprefix("set_") in SORTS:
            self.limit(command, command.name.removeprefix("set_"))
        elif command.name == "set_load" and not (command.has("-min") and not command.has("-max")):
            value, objects = self.value_and_objects(command, self.load_unit)
            for word in objects if value is not None else ():
                self.port_loads.update(dict.fromkeys(word.names, value))

    def units(self, command: SdcCommand) -> None:
        """The units of the commands that follow."""
        time, load = command.after("-time"), command.after("-capacitance")
        if time and TIME.fullmatch(time.text):
            factor = re.match(r"[0-9.]*", time.text)[0] or "1"
            self.time_unit = float(factor) * (1e3 if time.text.endswith("ps") else 1e6)
        if load:
            self.load_unit = 1e6 if load.text.lower().endswith("pf") else 1e3

    def value_and_objects(self, command: SdcCommand, unit: float) -> tuple[float | None, list[Word]]:
        """The number of a command times a unit, and its objects."""
        plain = [it for it in command.words if not it.text.startswith("-")]
        found = numbers([plain[0].text], unit) if plain else []
        return (found[0] if found else None), plain[1:]

    def limit(self, command: SdcCommand, sort: str) -> None:
        """A limit for what the command names."""
        unit = {TRANSITION: self.time_unit, CAPACITANCE: self.load_unit, FANOUT: 1.0}[sort]
        value, objects = self.value_and_objects(command, unit)
        if value is None:
            return
        for word in objects:
            if word.sort == "current_design":
                self.of_design[sort] = min(value, self.of_design.get(sort, value))
            elif word.sort in ("get_ports", "get_pins"):
                self.of_pins.update({(pin_word(name), sort): value for name in word.names})
            else:
                self.not_looked_at.append(f"{command.name} {word.text}")

    def limits(self, pin: str, sort: str) -> Iterator[float]:
        """The limits that hold for a pin."""
        if sort in self.of_design:
            yield self.of_design[sort]
        if (pin, sort) in self.of_pins:
            yield self.of_pins[(pin, sort)]


@dataclasses.dataclass(frozen=True)
class Checked:
    """A pin with what it has and what it may have."""

    pin: str
    value: float
    limit: float

    def excess(self) -> float:
        """How much it has too much; below 0 there is room."""
        return self.value - self.limit


def changed_net(edited: Edited, words: list[str]) -> str | None:
    """The net whose connections an edit changes; the edit has not been made yet."""
    if words[0] == "insert_buffer":
        return words[1]
    if words[0] == "connect_pin":
        return words[2]
    if words[0] == "disconnect_pin":
        instance, pin = edited.pin(words[1])
        return instance.nets.get(pin)
    return words[1] if words[0] == "remove_net" else None


def wires_after(edited: Edited, spef: Spef | None) -> dict[str, int]:
    """The capacitance of each net's wires after all ECOs: an edit that changes a net's connections drops its wires."""
    wires = {name: wire_of(net) for name, net in spef.nets.items()} if spef else {}
    for edits in edited.ecos:
        for edit in edits:
            words = edit.split()
            if words[0] == "set_parasitics":
                caps = [int(words[at + 2]) for at, word in enumerate(words[2:], 2) if word == "c"]
                wires[words[1]] = sum(caps)
            else:
                wires.pop(changed_net(edited, words), None)
                edited.edit(words)
    return wires


class Loads:
    """The loads of nets: their wires, and the pins of the late library or the constraints' loads of ports."""

    def __init__(self, joined: Joined, wires: dict[str, int], constraints: Constraints):
        self.joined, self.wires, self.constraints = joined, wires, constraints

    def load(self, net: Net) -> float:
        """The load of a net in attofarads."""
        return self.wires.get(net.name, 0) + sum(map(self.pin_load, net.sinks))

    def pin_load(self, pin: str) -> float:
        """The load of a sink."""
        cell = self.joined.cell_of(pin)
        if cell is None:
            return self.constraints.port_loads.get(pin, 0.0)
        return self.joined.library.cells[cell].pins[pin.rpartition(":")[2]][1]


def wire_of(net: SpefNet) -> int:
    """The capacitance of a net's wires: the sum of its rows, or its total where it has none."""
    return sum(value for _, value in net.caps) if net.caps or net.ress else net.total


class Checks:
    """All pins of a design with a limit, by sort."""

    def __init__(self, joined: Joined, limits: LibraryLimits, constraints: Constraints, loads: Loads):
        self.joined, self.limits, self.constraints, self.loads = joined, limits, constraints, loads

    def limit(self, pin: str, sort: str) -> float | None:
        """The least limit of a pin, or none where nothing sets one."""
        found = list(self.constraints.limits(pin, sort))
        cell = self.joined.cell_of(pin)
        own = self.limits.limit(cell, pin.rpartition(":")[2], sort) if cell else None
        if own is not None:
            found.append(own)
        return min(found, default=None)

    def of_nets(self, sort: str) -> Iterator[Checked]:
        """The loads or the fan-outs of all drivers with a limit."""
        for net in self.joined.nets.values():
            for pin in net.drivers:
                limit = self.limit(pin, sort)
                if limit is not None:
                    yield Checked(pin, self.loads.load(net) if sort == CAPACITANCE else self.fanout(net), limit)

    def fanout(self, net: Net) -> float:
        """The fan-out of a net, as its sinks count."""
        total = 0.0
        for pin in net.sinks:
            cell = self.joined.cell_of(pin)
            own = self.limits.cells[cell].fanout_loads if cell in self.limits.cells else {}
            total += own.get(pin.rpartition(":")[2], 1.0)
        return total

    def pins_with_transition(self) -> list[str]:
        """The pins whose slew has a limit."""
        pins = [pin for net in self.joined.nets.values() for pin in (*net.drivers, *net.sinks)]
        return [pin for pin in pins if self.limit(pin, TRANSITION) is not None]


def read_limits(name: str | os.PathLike) -> LibraryLimits:
    """The limits of a library in a file."""
    return LibraryLimits(read_text(name))
