"""Exceptions by the pins that paths pass, as ones by their starts and ends, where these say the same."""
import itertools
from collections.abc import Callable, Iterable

from lizdrog_tools.importing.constraints import Constraints, PathEnd, PathException
from lizdrog_tools.importing.design import Design, Object
from lizdrog_tools.importing.liberty_model import EDGES
from lizdrog_tools.importing.report import Report

SHOWN = 3


class PathGraph:
    """The pins of a design, and how paths go from one to the next."""

    def __init__(self, design: Design):
        self.design = design

    def node(self, name: str):
        return self.design.pin_parts(name)

    def after(self, name: str) -> list[str]:
        """The pins to which a path goes on from a pin or a port."""
        parts = self.node(name)
        if parts is None:
            return [it.word() for it in self.design.ends[name].sinks] if self.is_input(name) else []
        instance, pin = parts
        cell = self.design.cell_of(instance)
        if cell.pins[pin].direction == "output":
            net = instance.nets.get(pin)
            return [it.word() for it in self.design.ends[net].sinks] if net in self.design.ends else []
        return [
            f"{instance.name}/{it.name}"
            for it, timing in cell.timed()
            if it.direction == "output" and pin in timing.related
        ]

    def before(self, name: str) -> list[str]:
        """The pins from which a path comes to a pin or a port; none at the start of paths."""
        parts = self.node(name)
        if parts is None:
            return [] if self.is_input(name) else [it.word() for it in self.design.ends[name].drivers]
        instance, pin = parts
        cell = self.design.cell_of(instance)
        if cell.pins[pin].direction == "output":
            return [f"{instance.name}/{it}" for timing in cell.pins[pin].timings for it in timing.related]
        net = instance.nets.get(pin)
        is_start = self.is_start(name)
        return [it.word() for it in self.design.ends[net].drivers] if net in self.design.ends and not is_start else []

    def is_input(self, name: str) -> bool:
        return self.design.netlist.ports.get(name) == "input"

    def is_start(self, name: str) -> bool:
        """Whether paths begin here: an input port, or the clock pin of a register."""
        parts = self.node(name)
        if parts is None:
            return self.is_input(name)
        return any(
            timing.kind in EDGES and parts[1] in timing.related for _, timing in self.design.cell_of(parts[0]).timed()
        )

    def is_end(self, name: str) -> bool:
        parts = self.node(name)
        if parts is None:
            return self.design.netlist.ports.get(name) == "output"
        return parts[1] in self.design.cell_of(parts[0]).data_pins()

    def reached(self, starts: Iterable[str], step: Callable[[str], list[str]], without: set[str]) -> set[str]:
        """All that is reached from some pins, these too, by paths that do not pass others."""
        todo = [it for it in starts if it not in without]
        found = set(todo)
        while todo:
            for name in step(todo.pop()):
                if name not in found and name not in without:
                    found.add(name)
                    todo.append(name)
        return found


def passed_pins(objects: list[Object], design: Design) -> set[str] | None:
    """The pins by which paths pass objects; none where that is not clear."""
    found = set()
    for made in objects:
        if made.kind in ("pin", "port"):
            found.add(made.name)
        elif made.kind == "net":
            found |= {it.word() for it in design.ends[made.name].drivers}
        elif made.kind == "cell":
            found |= {it.name for it in design.pins_of(made)}
        else:
            return None
    return found


def allowed(end: PathEnd | None, graph: PathGraph, names: set[str]) -> set[str] | None:
    """Those of some starts or ends that an end of the exception names; none where it names clocks."""
    if end is None:
        return names
    if end.clocks:
        return None
    cells = set(end.cells)
    return {
        it for it in names if it in end.pins or it in end.ports or graph.node(it) and graph.node(it)[0].name in cells
    }


def as_end(names: set[str], design: Design) -> PathEnd:
    end = PathEnd()
    for name in sorted(names):
        (end.ports if name in design.netlist.ports else end.pins).append(name)
    return end


def why_not(made: PathException, design: Design, graph: PathGraph) -> str | None:
    """Puts starts and ends in the place of what paths pass; says why where that would be another exception."""
    groups = [passed_pins(it, design) for it in made.through]
    if None in groups or not all(groups):
        return "what it passes is a block, or not there"
    backward = graph.reached(groups[0], graph.before, set())
    forward = groups[0]
    for group in groups[1:]:
        forward = graph.reached(forward, graph.after, set()) & group
    for one, other in itertools.pairwise(groups):
        if graph.reached(other, graph.after, set()) & one - other:
            return "paths pass the objects in another order, too"
    starts = allowed(made.start, graph, {it for it in backward if graph.is_start(it)})
    ends = allowed(made.end, graph, {it for it in graph.reached(forward, graph.after, set()) if graph.is_end(it)})
    if starts is None or ends is None:
        return "it names clocks beside what paths pass"
    for group in groups:
        others = graph.reached(starts, graph.after, group) & ends
        if others:
            return f"other paths lead to {', '.join(sorted(others)[:SHOWN])} from the same starts"
    made.rank = made.priority()
    made.start, made.end = as_end(starts, design), as_end(ends, design)
    return None


def express_through(constraints: Constraints, design: Design, report: Report) -> None:
    """Each exception by what paths pass, by the starts and ends of these paths."""
    graph = PathGraph(design)
    for made in [it for it in constraints.exceptions if it.through]:
        why = why_not(made, design, graph)
        if why:
            report.lose("through", made.place, f"-through: {why}")
            constraints.exceptions.remove(made)
        elif not made.start.parts() or not made.end.parts():
            report.drop("no-path", made.place, "-through: no path passes there")
            constraints.exceptions.remove(made)
        else:
            count = len(made.start.pins) + len(made.start.ports), len(made.end.pins) + len(made.end.ports)
            report.change(
                "through",
                made.place,
                f"-through as the paths from {count[0]} starts to {count[1]} ends, all of which pass there",
            )
