"""The constraints of a design, as the commands have set them; times in ps and capacitances in fF."""
import dataclasses
from decimal import Decimal

from lizdrog_tools.importing.design import Object
from lizdrog_tools.importing.report import Place

SPLITS, EDGES, KINDS = ("early", "late"), ("rise", "fall"), ("setup", "hold")
Corner = tuple[str, str]
CORNERS = [(split, edge) for split in SPLITS for edge in EDGES]


@dataclasses.dataclass(slots=True)
class Clock:
    """A clock at a port, or at none; its edges are the rise and the fall within a period."""

    name: str
    port: str | None
    period: Decimal
    rise: Decimal
    fall: Decimal
    place: Place
    is_propagated: bool = False
    source_latency: dict[Corner, Decimal] = dataclasses.field(default_factory=dict)
    network_latency: dict[Corner, Decimal] = dataclasses.field(default_factory=dict)
    transition: dict[Corner, Decimal] = dataclasses.field(default_factory=dict)
    uncertainty: dict[str, Decimal] = dataclasses.field(default_factory=dict)
    ideal_places: list[Place] = dataclasses.field(default_factory=list)


@dataclasses.dataclass(slots=True)
class Delay:
    """A delay of a port against a clock, for one split and edge."""

    value: Decimal
    place: Place
    has_source_latency: bool = False
    has_network_latency: bool = False


@dataclasses.dataclass(slots=True)
class PortDelays:
    """The delays of a port by clock, and of each clock by split and edge."""

    by_clock: dict[str, dict[Corner, Delay]] = dataclasses.field(default_factory=dict)


@dataclasses.dataclass(slots=True)
class PathEnd:
    """The objects at one end of an exception, by kind: clock, port, pin or cell."""

    clocks: list[str] = dataclasses.field(default_factory=list)
    ports: list[str] = dataclasses.field(default_factory=list)
    pins: list[str] = dataclasses.field(default_factory=list)
    cells: list[str] = dataclasses.field(default_factory=list)

    def add(self, made: Object) -> None:
        getattr(self, f"{made.kind}s").append(made.name)

    def parts(self) -> list[tuple[str, list[str]]]:
        return [(kind, names) for kind in ("clocks", "ports", "pins", "cells") if (names := getattr(self, kind))]


@dataclasses.dataclass(slots=True)
class PathException:
    """A false path or a multicycle; an end that is none is free."""

    kinds: tuple[str, ...]
    cycles: int | None
    start: PathEnd | None
    end: PathEnd | None
    place: Place
    through: list[list[Object]] = dataclasses.field(default_factory=list)
    rank: int | None = None

    def priority(self) -> int:
        """The rank by which other timers choose among multicycles: pins count before clocks, starts before ends."""
        if self.rank is not None:
            return self.rank
        rank = 8 if self.through else 0
        for end, objects, clocks in ((self.start, 32, 4), (self.end, 16, 2)):
            if end is not None:
                rank += clocks if end.clocks and not (end.ports or end.pins or end.cells) else objects
        return rank


@dataclasses.dataclass(slots=True)
class ClockGroups:
    groups: list[list[str]]
    place: Place


@dataclasses.dataclass(slots=True)
class Uncertainty:
    """An uncertainty between two clocks."""

    value: Decimal
    place: Place


@dataclasses.dataclass(slots=True)
class Constraints:
    clocks: dict[str, Clock] = dataclasses.field(default_factory=dict)
    inputs: dict[str, PortDelays] = dataclasses.field(default_factory=dict)
    outputs: dict[str, PortDelays] = dataclasses.field(default_factory=dict)
    slews: dict[str, dict[Corner, Decimal]] = dataclasses.field(default_factory=dict)
    loads: dict[str, dict[str, Decimal]] = dataclasses.field(default_factory=dict)
    exceptions: list[PathException] = dataclasses.field(default_factory=list)
    groups: list[ClockGroups] = dataclasses.field(default_factory=list)
    derates: dict[Corner, Decimal] = dataclasses.field(default_factory=dict)
    between: dict[tuple[str, str, str], Uncertainty] = dataclasses.field(default_factory=dict)
    cases: dict[Object, tuple[str, Place]] = dataclasses.field(default_factory=dict)
    drives: dict[str, "Drive"] = dataclasses.field(default_factory=dict)
    disabled: list["Disabled"] = dataclasses.field(default_factory=list)
    wire_loads: list[tuple[Place, str]] = dataclasses.field(default_factory=list)
    # Where the slew or the load of a port was set last.
    places: dict[tuple[str, str], Place] = dataclasses.field(default_factory=dict)

    def is_named(self, clock: Clock) -> bool:
        """Whether something was said of a clock behind its creation."""
        name = clock.name
        ends = [it for made in self.exceptions for it in (made.start, made.end) if it is not None]
        return (
            clock.is_propagated
            or bool(clock.ideal_places or clock.uncertainty)
            or any(name in it.by_clock for table in (self.inputs, self.outputs) for it in table.values())
            or any(name in it.clocks for it in ends)
            or any(name in group for it in self.groups for group in it.groups)
            or any(name in pair[:2] for pair in self.between)
        )


@dataclasses.dataclass(slots=True)
class Drive:
    """The cell that drives an input port, for a slew at its own input."""

    cell: str
    from_pin: str | None
    pin: str | None
    slews: dict[str, Decimal]
    place: Place


@dataclasses.dataclass(slots=True)
class Disabled:
    """Arcs that are disabled: of an instance, a pin, a port, or a library cell or pin."""

    made: Object
    from_pin: str | None
    to_pin: str | None
    place: Place
