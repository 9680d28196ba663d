"""What lies before and behind pins: all_fanin, all_fanout and get_fanin, get_fanout."""
import dataclasses
from collections.abc import Callable, Iterable

from lizdrog_tools.importing.case_analysis import Carrier
from lizdrog_tools.importing.constraints import Constraints
from lizdrog_tools.importing.design import Design, Object
from lizdrog_tools.importing.liberty_model import COMBINATIONAL, EDGES, TESTS, Cell
from lizdrog_tools.importing.netlist import Instance
from lizdrog_tools.importing.session import Session, Words
from lizdrog_tools.importing.tcl import CommandFault
from lizdrog_tools.importing.variants import Change, Constants, Cut, varied

NAMES = ("all_fanin", "all_fanout", "get_fanin", "get_fanout")
OPTIONS = {
    "-to": 1,
    "-from": 1,
    "-flat": 0,
    "-startpoints_only": 0,
    "-endpoints_only": 0,
    "-only_cells": 0,
    "-clock_tree": 0,
    "-levels": 1,
    "-pin_levels": 1,
    "-trace_arcs": 1,
}
NOT_READ = ("-levels", "-pin_levels")
TRACES = ("timing", "all")
KINDS = ("pin", "port", "net")


@dataclasses.dataclass(slots=True)
class Arcs:
    """The live arcs of a cell: on from an input, back from an output, and its pins with tests and with clocks."""

    on: dict[str, list[str]] = dataclasses.field(default_factory=dict)
    back: dict[str, list[str]] = dataclasses.field(default_factory=dict)
    tested: set[str] = dataclasses.field(default_factory=set)
    clocks: set[str] = dataclasses.field(default_factory=set)


def arcs_of(cell: Cell) -> Arcs:
    """A signal goes on through gates and not through registers; backwards a register's output leads to its clock."""
    found = Arcs()
    for pin, timing in cell.timed():
        if timing.kind in TESTS:
            found.tested.add(pin.name)
        if timing.kind in EDGES:
            found.clocks.update(timing.related)
        for source in timing.related if timing.kind in COMBINATIONAL or timing.kind in EDGES else ():
            found.back.setdefault(pin.name, []).append(source)
            if timing.kind in COMBINATIONAL:
                found.on.setdefault(source, []).append(pin.name)
    return found


class Fans:
    """The pins before and behind others, by what constants and cuts leave alive at this command."""

    def __init__(self, design: Design, constraints: Constraints, trace: str):
        self.design = design
        self.stops: set[str] = set()
        self.changes: dict[str, list[Change]] = {}
        self.known: dict[tuple, Arcs] = {}
        if trace == "timing":
            self.set_constants(constraints)
        if trace != "all":
            self.set_cuts(constraints)

    def set_constants(self, constraints: Constraints) -> None:
        """Constants stop signals, and take away arcs."""
        carrier = Carrier(self.design)
        carrier.tied()
        carrier.cases(constraints)
        carrier.carry()
        self.stops |= {it for it in carrier.nets if it in self.design.netlist.ports}
        for name, pins in carrier.pins.items():
            self.stops |= {f"{name}/{it}" for it in pins}
            self.changes[name] = [Constants(tuple(sorted(pins.items())))]

    def set_cuts(self, constraints: Constraints) -> None:
        """Disabled pins stop signals, and disabled arcs go."""
        for item in constraints.disabled:
            kind, name = item.made.kind, item.made.name
            cell, _, pin = name.partition("/")
            if kind in ("port", "pin"):
                self.stops.add(name)
            elif kind == "cell":
                self.cut(name, Cut(item.from_pin, item.to_pin))
            elif kind == "lib_pin":
                self.stops |= {f"{it}/{pin}" for it in self.instances_of(cell)}
            elif kind == "lib_cell":
                for it in self.instances_of(name):
                    self.cut(it, Cut(item.from_pin, item.to_pin))

    def cut(self, name: str, change: Cut) -> None:
        self.changes.setdefault(name, []).append(change)

    def instances_of(self, cell: str) -> list[str]:
        return [it.name for it in self.design.netlist.instances.values() if it.cell == cell]

    def arcs(self, instance: Instance) -> Arcs:
        changes = self.changes.get(instance.name, ())
        key = (instance.cell, tuple(changes))
        if key not in self.known:
            cell = self.design.cell_of(instance)
            if any(it.name.startswith("latch") for it in cell.states):
                raise CommandFault(f"the latch {instance.name} is met: fans through latches are not read")
            self.known[key] = arcs_of(varied(cell, changes) if changes else cell)
        return self.known[key]

    def before(self, name: str) -> list[str]:
        """The pins from which a signal comes to a pin or a port."""
        parts = self.design.pin_parts(name)
        if parts is not None and self.design.cell_of(parts[0]).pins[parts[1]].direction == "output":
            return self.alive(f"{parts[0].name}/{it}" for it in self.arcs(parts[0]).back.get(parts[1], ()))
        net = parts[0].nets.get(parts[1]) if parts else name
        is_start = parts is None and self.design.netlist.ports[name] == "input"
        return [] if is_start or net not in self.design.ends else self.ends(self.design.ends[net].drivers)

    def after(self, name: str) -> list[str]:
        """The pins to which a signal goes on from a pin or a port."""
        parts = self.design.pin_parts(name)
        if parts is not None and self.design.cell_of(parts[0]).pins[parts[1]].direction == "input":
            return self.alive(f"{parts[0].name}/{it}" for it in self.arcs(parts[0]).on.get(parts[1], ()))
        net = parts[0].nets.get(parts[1]) if parts else name
        is_end = parts is None and self.design.netlist.ports[name] == "output"
        return [] if is_end or net not in self.design.ends else self.ends(self.design.ends[net].sinks)

    def ends(self, terminals: Iterable) -> list[str]:
        return self.alive(it.word() for it in terminals)

    def alive(self, names: Iterable[str]) -> list[str]:
        return [it for it in names if it not in self.stops]

    def is_clock_pin(self, name: str) -> bool:
        """Whether this is the clock pin of a register."""
        parts = self.design.pin_parts(name)
        return parts is not None and parts[1] in self.arcs(parts[0]).clocks

    def is_tested(self, name: str) -> bool:
        parts = self.design.pin_parts(name)
        return parts is not None and parts[1] in self.arcs(parts[0]).tested

    def reached(self, starts: list[str], step: Callable[[str], list[str]]) -> list[str]:
        """These pins and all that are reached from them, in the order in which they are met."""
        found, todo = dict.fromkeys(starts), list(starts)
        while todo:
            name = todo.pop()
            for other in step(name) if name not in self.stops else ():
                if other not in found:
                    found[other] = None
                    todo.append(other)
        return list(found)

    def fanin(self, ends: list[str], only_starts: bool) -> list[str]:
        """All before some pins, up to ports and the clock pins of registers; or these starts alone."""
        def step(name: str) -> list[str]:
            return [] if self.is_clock_pin(name) else self.before(name)

        found = self.reached(ends, step)
        return [it for it in found if self.is_clock_pin(it) or not self.before(it)] if only_starts else found

    def fanout(self, starts: list[str], only_ends: bool) -> list[str]:
        """All behind some pins, up to ports and the inputs of registers; or these ends alone."""
        found = self.reached(starts, self.after)
        if not only_ends:
            return found
        return [it for it in found if self.before(it) and (self.is_tested(it) or not self.after(it))]


class FanQueries:
    """Answers the commands by name."""

    def __init__(self, session: Session, constraints: Constraints):
        self.session, self.design, self.constraints = session, session.design, constraints
        self.commands = dict.fromkeys(NAMES, self.answer)

    def answer(self, words: list[str]) -> str:
        name, said = self.session.command, self.session.parse(words, OPTIONS)
        goes_back = name.endswith("in")
        self.check(said, goes_back)
        fans = Fans(self.design, self.constraints, said.value("-trace_arcs") or "timing")
        asked = self.asked(said, goes_back)
        if goes_back:
            found = fans.fanin(asked, said.has("-startpoints_only"))
        else:
            found = fans.fanout(asked, said.has("-endpoints_only"))
        return self.session.tokens(self.objects(found, said.has("-only_cells")))

    def check(self, said: Words, goes_back: bool) -> None:
        """What is not read is an error."""
        name, other = self.session.command, "-endpoints_only" if goes_back else "-startpoints_only"
        wrong = [it for it in (*NOT_READ, other, "-from" if goes_back else "-to") if said.has(it)]
        if goes_back and said.has("-clock_tree"):
            wrong.append("-clock_tree")
        if wrong or said.plain:
            raise CommandFault(f"{name} {wrong[0] if wrong else said.plain[0]} is not read")
        if said.value("-trace_arcs") not in (None, *TRACES):
            raise CommandFault(f"{name} -trace_arcs takes one of {', '.join(TRACES)}")
        if self.design.netlist.blocks and not said.has("-flat"):
            raise CommandFault(f"{name} without -flat stays on a level of hierarchy, which is not read")

    def asked(self, said: Words, goes_back: bool) -> list[str]:
        """The pins and ports where the search begins."""
        if said.has("-clock_tree"):
            return [it for it in self.design.clocks.values() if it]
        option = "-to" if goes_back else "-from"
        if not said.has(option):
            raise CommandFault(f"{self.session.command} needs {option}")
        found: dict[str, None] = {}
        for made in (it for text in said.values[option] for it in self.session.objects(text, KINDS)):
            if made.kind == "net":
                ends = self.design.ends[made.name]
                found.update(dict.fromkeys(it.word() for it in (ends.drivers if goes_back else ends.sinks)))
            else:
                found[made.name] = None
        return list(found)

    def objects(self, names: list[str], only_cells: bool) -> list[Object]:
        """The pins and ports, or the cells of the pins; a cell that stands for a wire is none."""
        ports, wires = self.design.netlist.ports, set(self.design.netlist.wire_cells.values())
        pins = [it for it in names if it not in ports and it.rpartition("/")[0] not in wires]
        if only_cells:
            return list(dict.fromkeys(Object("cell", it.rpartition("/")[0]) for it in pins))
        kept = set(pins)
        return [Object("pin" if it in kept else "port", it) for it in names if it in kept or it in ports]

