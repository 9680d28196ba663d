"""Expresses by the constraints that Lizdrog reads what others say: clock groups, latencies, delays of several clocks,
orders of exceptions."""
from decimal import Decimal

from lizdrog_tools.importing.constraints import (
    CORNERS,
    KINDS,
    Clock,
    Constraints,
    Corner,
    Delay,
    PathEnd,
    PathException,
    PortDelays,
)
from lizdrog_tools.importing.design import Design
from lizdrog_tools.importing.report import Place, Report

OTHER_SPLIT = {"early": "late", "late": "early"}


def expand_groups(constraints: Constraints, report: Report) -> None:
    """Clock groups are false paths, both ways, between the clocks of each two groups; a group alone is cut from all
    other clocks."""
    for item in constraints.groups:
        groups = [list(it) for it in item.groups]
        if len(groups) == 1:
            groups.append([it for it in constraints.clocks if it not in groups[0]])
        for one in groups:
            others = [name for other in groups if other is not one for name in other if name not in one]
            if one and others:
                ends = PathEnd(clocks=one), PathEnd(clocks=others)
                constraints.exceptions.append(PathException(KINDS, None, *ends, item.place))
        report.change(
            "clock-groups", item.place, f"set_clock_groups of {len(item.groups)} groups as false paths both ways"
        )


def latency(clock: Clock, corner: Corner) -> Decimal:
    """How late the clock is, before its network (source) and, for an ideal one, in it."""
    source = clock.source_latency.get(corner, Decimal(0))
    return source if clock.is_propagated else source + clock.network_latency.get(corner, Decimal(0))


def common_latency(constraints: Constraints, report: Report) -> Decimal:
    """The one latency of all clocks at ports, by which all times may be shifted."""
    common = None
    for clock in (it for it in constraints.clocks.values() if it.port):
        if clock.is_propagated and clock.network_latency:
            report.drop(
                "network-latency",
                clock.ideal_places[-1],
                f"the clock {clock.name} is propagated: its network has the delays of its cells",
            )
        for corner in CORNERS:
            value = latency(clock, corner)
            common = value if common is None else common
            if value != common:
                report.lose(
                    "latency",
                    latency_place(constraints, clock),
                    f"the clock {clock.name} has a latency of {value} ps ({' '.join(corner)}), and another of "
                    f"{common} ps: one latency of all clocks is read",
                )
                return common
    return common or Decimal(0)


def latency_place(constraints: Constraints, clock: Clock) -> Place:
    """Where the latency of a clock is said, or that of another, from which it differs."""
    places = [it.ideal_places[-1] for it in (clock, *constraints.clocks.values()) if it.ideal_places]
    return places[0] if places else clock.place


def shift_by_latencies(constraints: Constraints, report: Report) -> None:
    """Counts all times from the common latency: delays of ports against clocks that have another are moved."""
    common = common_latency(constraints, report)
    for kind, table in (("input", constraints.inputs), ("output", constraints.outputs)):
        for port, delays in table.items():
            for name, corners in delays.by_clock.items():
                for corner, delay in corners.items():
                    moved = moved_delay(kind, constraints.clocks[name], corner, delay, common)
                    if moved:
                        report.change(
                            "latency",
                            delay.place,
                            f"the {kind} delay of {port} against {name} ({' '.join(corner)}) is moved by {moved} ps",
                        )
                        delay.value += moved
    if common:
        report.change(
            "latency",
            next(it.ideal_places[-1] for it in constraints.clocks.values() if it.ideal_places),
            f"all clocks at ports are {common} ps late: that moves all times, and no slack",
        )


def moved_delay(kind: str, clock: Clock, corner: Corner, delay: Delay, common: Decimal) -> Decimal:
    """By how much a delay changes where times count from the common latency."""
    split = corner[0] if kind == "input" else OTHER_SPLIT[corner[0]]
    own = Decimal(0) if delay.has_source_latency else clock.source_latency.get((split, "rise"), Decimal(0))
    if not clock.is_propagated and not delay.has_network_latency:
        own += clock.network_latency.get((split, "rise"), Decimal(0))
    return own - common if kind == "input" else common - own


def one_clock_a_port(constraints: Constraints, report: Report) -> None:
    """A port has one clock for each split and edge; a second one cannot be told."""
    for kind, table in (("input", constraints.inputs), ("output", constraints.outputs)):
        for port, delays in table.items():
            single_clock(kind, port, delays, report)


def single_clock(kind: str, port: str, delays: PortDelays, report: Report) -> None:
    taken: dict[Corner, str] = {}
    told = set()
    for name, corners in delays.by_clock.items():
        for corner in list(corners):
            other = taken.setdefault(corner, name)
            if other == name:
                continue
            if (name, other) not in told:
                report.lose(
                    "add-delay",
                    corners[corner].place,
                    f"the {kind} {port} has a delay against {other}, and here one against {name} beside it; accepted, "
                    "the second is left out",
                )
                told.add((name, other))
            del corners[corner]


def between_clocks(constraints: Constraints, report: Report) -> None:
    """An uncertainty between clocks is one of the capturing clock, where all clocks have the same against it."""
    for kind in KINDS:
        for clock in constraints.clocks.values():
            pairs = {
                one: it
                for (one, other, which), it in constraints.between.items()
                if other == clock.name and which == kind
            }
            if not pairs:
                continue
            values = {
                pairs[one].value if one in pairs else clock.uncertainty.get(kind, Decimal(0))
                for one in constraints.clocks
            }
            place = next(iter(pairs.values())).place
            if len(values) == 1:
                clock.uncertainty[kind] = values.pop()
                report.change(
                    "uncertainty", place, f"the {kind} uncertainty of all clocks towards {clock.name} is its own"
                )
            else:
                report.lose(
                    "uncertainty",
                    place,
                    f"the {kind} uncertainty towards {clock.name} differs by the launching clock: one of the clock "
                    "alone is read",
                )


def same_end(one: PathEnd | None, other: PathEnd | None) -> bool:
    if one is None or other is None:
        return one is other
    return all(set(a) == set(b) for (_, a), (_, b) in zip(all_parts(one), all_parts(other), strict=True))


def all_parts(end: PathEnd) -> list[tuple[str, list[str]]]:
    return [(kind, getattr(end, kind)) for kind in ("clocks", "ports", "pins", "cells")]


def order_multicycles(constraints: Constraints, report: Report) -> None:
    """The last multicycle that matches a path counts: general ones are written first, and of equal rank the tighter
    last."""
    cycles: list[PathException] = []
    for made in constraints.exceptions:
        if made.cycles is None:
            continue
        for before in [
            it
            for it in cycles
            if it.kinds == made.kinds and same_end(it.start, made.start) and same_end(it.end, made.end)
        ]:
            cycles.remove(before)
        cycles.append(made)
    ordered = sorted(cycles, key=lambda it: (it.priority(), -it.cycles))
    if ordered != cycles:
        report.change(
            "multicycle-order",
            cycles[0].place,
            "multicycles are written general ones first, since the last that matches counts",
        )
    constraints.exceptions = ordered + [it for it in constraints.exceptions if it.cycles is None]


def check_ends(constraints: Constraints, design: Design, report: Report) -> None:
    """Objects of exceptions at which no path begins or ends."""
    clock_ports = {it.port for it in constraints.clocks.values()}
    for made in constraints.exceptions:
        for end, option in ((made.start, "-from"), (made.end, "-to")):
            if end is None:
                continue
            for port in [it for it in end.ports if option == "-from" and it in clock_ports]:
                report.lose(
                    "from-clock-port",
                    made.place,
                    f"-from the port {port}, at which a clock begins: timers differ; name the clock, or leave the "
                    "port out ([all_inputs -no_clocks])",
                )
            for pin in end.pins:
                instance, word = design.pin_parts(pin)
                cell = design.cell_of(instance)
                fits = word in cell.clock_pins() if option == "-from" else word in cell.data_pins()
                if not fits:
                    report.drop(
                        "no-path",
                        made.place,
                        f"{option} {pin}: no path {'begins' if option == '-from' else 'ends'} there",
                    )


def resolve(constraints: Constraints, design: Design, report: Report) -> None:
    """All that can be said by the constraints themselves."""
    expand_groups(constraints, report)
    shift_by_latencies(constraints, report)
    one_clock_a_port(constraints, report)
    between_clocks(constraints, report)
    check_ends(constraints, design, report)
    order_multicycles(constraints, report)
