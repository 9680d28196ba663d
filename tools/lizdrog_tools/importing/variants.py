"""Cells of single instances that differ from those of the library: arcs cut, turned, or without delay."""
import copy
import dataclasses
import functools
from collections.abc import Iterable
from decimal import Decimal

from lizdrog_tools.importing.boolean import Function, NoFunction, Value, sense_word
from lizdrog_tools.importing.constraints import CORNERS, Corner
from lizdrog_tools.importing.design import Design
from lizdrog_tools.importing.liberty_merge import LibrarySet
from lizdrog_tools.importing.liberty_model import TESTS, Cell, Pin, Table, Timing

TURNED = {"positive_unate": "negative_unate", "negative_unate": "positive_unate"}


@dataclasses.dataclass(frozen=True, slots=True)
class Cut:
    """Arcs and tests that are taken away: from a pin, to a pin, or both; none is any pin."""

    start: str | None
    end: str | None

    def apply(self, cell: Cell, split: str) -> None:
        for pin in cell.pins.values():
            if self.end in (None, pin.name):
                pin.timings = [it for it in pin.timings if not self.takes(it)]

    def takes(self, timing: Timing) -> bool:
        """Whether arcs of a pin go: all of an instance are its arcs without its tests."""
        if self.start is not None:
            return self.start in timing.related
        return self.end is not None or timing.kind not in TESTS


@dataclasses.dataclass(frozen=True, slots=True)
class Undelayed:
    """Arcs from a pin without delay, whose outputs have the given slews (late and early, rise and fall)."""

    pin: str
    slews: tuple[tuple[Corner, Decimal], ...]

    def apply(self, cell: Cell, split: str) -> None:
        slews = dict(self.slews)
        for _, timing in cell.timed():
            if timing.kind != "combinational" or self.pin not in timing.related:
                continue
            for edge in ("rise", "fall"):
                if f"cell_{edge}" in timing.tables:
                    timing.tables[f"cell_{edge}"] = fixed(Decimal(0))
                    timing.tables[f"{edge}_transition"] = fixed(slews[split, edge])


@dataclasses.dataclass(frozen=True, slots=True)
class Constants:
    """Pins with constant values: arcs from and to them are cut, and others follow what the functions become."""

    pins: tuple[tuple[str, bool], ...]

    def apply(self, cell: Cell, split: str) -> None:
        known: dict[str, Value] = dict(self.pins)
        for pin in cell.pins.values():
            pin.timings = (
                []
                if pin.name in known
                else [it for it in pin.timings if not known.keys() & set(it.related) and not is_false(it.when, known)]
            )
            self.turn(pin, known)

    def matters(self, cell: Cell, tied: set[str]) -> bool:
        """Whether arcs or tests change by which an arrival could go on: none does from a tied pin."""
        made = varied(cell, [self])

        def live(one: Cell) -> list[tuple]:
            return [
                (pin.name, it.related, it.kind, it.sense, it.line)
                for pin, it in one.timed()
                if not set(it.related) <= tied
            ]

        return live(made) != live(cell)

    @staticmethod
    def turn(pin: Pin, known: dict[str, Value]) -> None:
        """Takes away arcs that the output does not follow any more, and narrows the sense of the others."""
        function = function_of(pin.function)
        if function is None:
            return
        kept = []
        for timing in pin.timings:
            source = timing.related[0]
            if timing.kind != "combinational" or source not in function.inputs:
                kept.append(timing)
                continue
            found = sense_word(function.senses(source, known))
            if found is None:
                continue
            if found != "non_unate" and timing.sense in (None, "non_unate"):
                timing.sense = found
            if timing.sense in ("non_unate", None, found):
                kept.append(timing)
        pin.timings = kept


Change = Cut | Undelayed | Constants


def varied(cell: Cell, changes: Iterable[Change]) -> Cell:
    """A copy of a cell with changes; its times are those of the late side."""
    made = copy.deepcopy(cell)
    for it in changes:
        it.apply(made, "late")
    return made


def fixed(value: Decimal) -> Table:
    """A table of one value in ps."""
    return Table("delay", [], [str(value)], Decimal(1), Decimal(1))


@functools.cache
def function_of(text: str | None) -> Function | None:
    try:
        return Function(text) if text else None
    except NoFunction:
        return None


def is_false(when: str | None, known: dict[str, Value]) -> bool:
    """Whether a condition cannot hold under what is known."""
    function = function_of(when)
    return function is not None and function.value(known) is False


class Variants:
    """The changes of instances, gathered and then made as cells of their own."""

    def __init__(self, design: Design, early: LibrarySet, late: LibrarySet):
        self.design, self.early, self.late = design, early, late
        self.changes: dict[str, list[Change]] = {}

    def add(self, instance: str, change: Change) -> None:
        kept = self.changes.setdefault(instance, [])
        if change not in kept:
            kept.append(change)

    def make(self) -> int:
        """Gives each changed instance its cell, one for all instances that are changed alike; tells how many cells are
        new."""
        made: dict[tuple, str] = {}
        for name, changes in self.changes.items():
            instance = self.design.netlist.instances[name]
            key = (instance.cell, frozenset(changes))
            if key not in made:
                made[key] = self.cell(instance.cell, changes, len(made) + 1)
            instance.cell = made[key]
        return len(made)

    def cell(self, name: str, changes: list[Change], number: int) -> str:
        new_name = f"{name}__{number}"
        while any(new_name in it for it in (self.late.where, self.early.where, self.late.cells)):
            number += 1
            new_name = f"{name}__{number}"
        for split, cells in (("early", self.early), ("late", self.late)):

            def change(cell: Cell, split: str = split) -> None:
                for it in changes:
                    it.apply(cell, split)

            cells.vary(name, new_name, change)
        return new_name


def every_slew(values: dict[Corner, Decimal]) -> tuple[tuple[Corner, Decimal], ...]:
    """The slews of all splits and edges, 0 where nothing is said."""
    return tuple((corner, values.get(corner, Decimal(0))) for corner in CORNERS)
