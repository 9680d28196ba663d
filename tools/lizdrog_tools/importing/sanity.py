"""What is hardly meant although it can be read: libraries exchanged, units wrong by a thousand, no clock, nets without
wires."""
from collections.abc import Iterator
from decimal import Decimal
from fractions import Fraction

from lizdrog_tools.importing.constraints import Constraints
from lizdrog_tools.importing.design import Design
from lizdrog_tools.importing.liberty_merge import LibrarySet
from lizdrog_tools.importing.liberty_model import Cell, Table
from lizdrog_tools.importing.report import Place, Report
from lizdrog_tools.importing.spef_merge import Merger

# A period of fewer gates than this, or of more, is one in another unit; so is a slew or a load so far beyond the
# tables.
FEWEST_GATES, MOST_GATES = 1, 100_000
FAR_BEYOND = 30
SHOWN = 5
MOST_OF = Fraction(1, 2)


def delays(cell: Cell) -> Iterator[tuple[tuple, Table]]:
    """The delay tables of a cell, each with what tells it from the others."""
    for pin, timing in cell.timed():
        for word, table in timing.tables.items():
            if word.startswith("cell_"):
                yield (pin.name, *timing.related, timing.kind, timing.sense, timing.when, word), table


def middle(table: Table) -> Fraction:
    """The entry in the middle of a table, in ps."""
    return Fraction(table.values[len(table.values) // 2]) * Fraction(table.time_scale)


def check_order(names: list[str], early: LibrarySet, late: LibrarySet, report: Report) -> None:
    """Most arcs slower in the early library than in the late one: the two were exchanged."""
    slower = faster = 0
    for name in names:
        others = {key: middle(table) for key, table in delays(late.cells[name])}
        for key, table in delays(early.cells[name]):
            if key in others:
                slower += middle(table) > others[key]
                faster += middle(table) < others[key]
    if slower > faster:
        file = early.frames[0].file
        report.lose(
            "early-late",
            Place(file),
            f"{slower} arcs are slower here than in the late library {late.frames[0].file}, and {faster} faster: are "
            "the two exchanged?",
        )


def check_periods(names: list[str], constraints: Constraints, late: LibrarySet, report: Report) -> None:
    """Periods out of all proportion to the delays of gates."""
    gates = sorted(middle(table) for name in names for _, table in delays(late.cells[name]) if middle(table) > 0)
    if not gates:
        return
    gate = gates[len(gates) // 2]
    for clock in constraints.clocks.values():
        if not FEWEST_GATES * gate <= Fraction(clock.period) <= MOST_GATES * gate:
            report.lose(
                "period",
                clock.place,
                f"the clock {clock.name} has a period of {clock.period.normalize():f} ps, where a gate takes "
                f"{float(gate):.3g} ps: is the unit right?",
            )


def last_entries(names: list[str], cells: LibrarySet) -> dict[str, Fraction]:
    """The greatest entry of all axes of slews and of loads."""
    found = {"slew": Fraction(0), "load": Fraction(0)}
    for name in names:
        for _, table in delays(cells.cells[name]):
            for axis, entries in table.axes:
                found[axis] = max(found[axis], Fraction(entries[-1]) * Fraction(table.scale(axis)))
    return found


def check_ports(constraints: Constraints, last: dict[str, Fraction], report: Report, place: Place) -> None:
    """Slews and loads of ports far beyond all tables."""
    for word, table, unit in (("slew", constraints.slews, "ps"), ("load", constraints.loads, "fF")):
        far = {
            port: max(values.values())
            for port, values in table.items()
            if max(values.values(), default=Decimal(0)) > FAR_BEYOND * last[word] > 0
        }
        if far:
            port, value = next(iter(far.items()))
            report.lose(
                word,
                constraints.places.get((word, port), place),
                f"{len(far)} ports such as {port} have a {word} of {value.normalize():f} {unit}, and the tables end "
                f"at {float(last[word]):.3g}: is the unit right?",
            )


def note_loads(
    constraints: Constraints, wires: Merger | None, last: dict[str, Fraction], report: Report, place: Place
) -> None:
    """Loads of ports and of wires beyond the last entry of each table: what the tables say there is extended."""
    most = last["load"]
    ports = {
        it: constraints.places.get(("load", it), place)
        for it, values in constraints.loads.items()
        if max(values.values(), default=Decimal(0)) > most > 0
    }
    nets = {it: made.place for it, made in wires.nets.items() if made.load() > most > 0} if wires else {}
    for what, found in (("ports", ports), ("nets", nets)):
        if found:
            first, where = next(iter(found.items()))
            text = f"{len(found)} {what} such as {first} have loads beyond the last entry of each table"
            report.drop("load-beyond", where, f"{text}, {float(most):.3g} fF: tables are extended in a straight line")


def check_wires(wires: Merger | None, design: Design, last: dict[str, Fraction], report: Report) -> None:
    """Loads of wires far beyond all tables, and nets without any."""
    if wires is None:
        return
    driven = [net for net, ends in design.ends.items() if ends.drivers and ends.sinks]
    far = [net for net, it in wires.nets.items() if it.load() > FAR_BEYOND * last["load"] > 0]
    if Fraction(len(far)) > MOST_OF * len(wires.nets):
        report.lose(
            "wire-load",
            wires.nets[far[0]].place,
            f"{len(far)} nets such as {far[0]} have {float(wires.nets[far[0]].load()):.3g} fF, and the tables end at "
            f"{float(last['load']):.3g} fF: is the unit right?",
        )
    bare = [net for net in driven if net not in wires.nets]
    if bare:
        report.drop(
            "no-wires",
            Place(wires.files[0]),
            f"{len(bare)} of {len(driven)} driven nets have no parasitics here, such as {', '.join(bare[:SHOWN])}",
        )


def check_wire_loads(constraints: Constraints, wires: Merger | None, design: Design, report: Report) -> None:
    """Wire load models matter where nets have no parasitics."""
    bare = [
        net
        for net, ends in design.ends.items()
        if ends.drivers and ends.sinks and (wires is None or net not in wires.nets)
    ]
    models = [frame for frame in design.cells.frames if any(it.name == "wire_load" for it in frame.library.parts)]
    for place, text in constraints.wire_loads:
        if bare and models:
            report.lose(
                "wire-load-model",
                place,
                f"{text}: {len(bare)} nets have no parasitics, and the model's capacitance is not added",
            )
        else:
            report.drop(
                "wire-load-model",
                place,
                f"{text}: {'all nets have parasitics' if models else 'no library has a model'}",
            )
    for frame in models:
        name = frame.library.frame.text("default_wire_load")
        if bare and name and not constraints.wire_loads:
            report.lose(
                "wire-load-model",
                Place(frame.file, frame.line("default_wire_load") or 0),
                f"default_wire_load {name}: {len(bare)} nets have no parasitics, "
                "and the model's capacitance is not added",
            )


def check_all(
    names: list[str],
    sides: tuple[LibrarySet, LibrarySet],
    constraints: Constraints,
    wires: Merger | None,
    design: Design,
    report: Report,
    place: Place,
) -> None:
    """All of these; a project accepts what is meant."""
    early, late = sides
    if [it.file for it in early.frames] != [it.file for it in late.frames]:
        check_order(names, early, late, report)
    check_periods(names, constraints, late, report)
    last = last_entries(names, late)
    check_ports(constraints, last, report, place)
    note_loads(constraints, wires, last, report, place)
    check_wires(wires, design, last, report)
    check_wire_loads(constraints, wires, design, report)
    if not constraints.clocks:
        report.lose("no-clock", place, "the constraints create no clock: nothing is tested")
