"""Driving cells of input ports, as the transition and the added delay that their tables give at the port's load."""
from decimal import Decimal
from fractions import Fraction

from lizdrog_tools.importing.constraints import EDGES, SPLITS, Constraints, Drive
from lizdrog_tools.importing.design import Design
from lizdrog_tools.importing.liberty_merge import LibrarySet
from lizdrog_tools.importing.liberty_model import Cell, Table, Timing
from lizdrog_tools.importing.report import Report
from lizdrog_tools.importing.spef_merge import Merger

SENSES = {"positive_unate": {"rise": "rise", "fall": "fall"}, "negative_unate": {"rise": "fall", "fall": "rise"}}
STEP = Fraction(1, 10**9)


def between(axis: list[Fraction], values: list[Fraction], at: Fraction) -> Fraction:
    """The value on the straight line between two entries, or beyond the last ones."""
    if len(axis) == 1:
        return values[0]
    low = max((it for it in range(len(axis) - 1) if axis[it] <= at), default=0)
    return values[low] + (values[low + 1] - values[low]) * (at - axis[low]) / (axis[low + 1] - axis[low])


def looked_up(table: Table, slew: Fraction, load: Fraction) -> Fraction:
    """What a delay table says for a slew and a load."""
    axes, values = table.numbers()
    at = [slew if name == "slew" else load for name, _ in table.axes]
    if not axes:
        return values[0]
    if len(axes) == 1:
        return between(axes[0], values, at[0])
    width = len(axes[1])
    rows = [between(axes[1], values[it : it + width], at[1]) for it in range(0, len(values), width)]
    return between(axes[0], rows, at[0])


def net_load(
    net: str, split: str, design: Design, cells: LibrarySet, wires: Merger | None, constraints: Constraints
) -> Fraction:
    """The load of a net: its wires, the pins of its sinks, and the loads of output ports that are one net with it."""
    shared = [port for port, other in design.netlist.shared.items() if other == net]
    load = Fraction(wires.nets[net].load()) if wires and net in wires.nets else Fraction(0)
    for end in design.ends[net].sinks:
        if end.instance is not None:
            load += Fraction(cells.get(design.netlist.instances[end.instance].cell).pins[end.pin].capacitance)
    return load + sum(
        (Fraction(loads[split]) for port in shared if (loads := constraints.loads.get(port, {})) and split in loads),
        Fraction(0),
    )


def driving_arc(drive: Drive, cell: Cell) -> Timing | str:
    """The one arc by which the cell drives the port, or why there is none."""
    outputs = [drive.pin] if drive.pin else sorted(cell.outputs())
    if len(outputs) != 1 or outputs[0] not in cell.outputs():
        return f"its output is not clear: {', '.join(outputs)}"
    arcs = [
        it
        for it in cell.pins[outputs[0]].timings
        if it.kind == "combinational" and drive.from_pin in (None, *it.related)
    ]
    if len(arcs) != 1 or arcs[0].sense not in SENSES:
        return f"it has {len(arcs)} arcs to {outputs[0]}, and one that is unate is asked: name its -from_pin"
    return arcs[0]


def as_decimal(value: Fraction) -> Decimal:
    steps = round(value / STEP)
    return Decimal(steps) * Decimal("1e-9")


def express_drives(
    constraints: Constraints, design: Design, sides: tuple[LibrarySet, LibrarySet], wires: Merger | None, report: Report
) -> None:
    """Each driven port gets the slew of its driver, and its input delays the delay that the load adds to the driver, as
    a delay of the net."""
    clock_ports = {it.port: it for it in constraints.clocks.values() if it.port}
    for port, drive in constraints.drives.items():
        for split, cells in zip(SPLITS, sides, strict=True):
            arc = driving_arc(drive, cells.get(drive.cell)) if cells.get(drive.cell) else "it is not in both libraries"
            if isinstance(arc, str):
                report.lose("driving-cell", drive.place, f"the driving cell {drive.cell} of {port}: {arc}")
                break
            drive_port(port, split, drive, arc, net_load(port, split, design, cells, wires, constraints), constraints)
        else:
            report.change(
                "driving-cell",
                drive.place,
                f"the driving cell {drive.cell} of {port} as its transition and delay at the load of the port's net",
            )
            if port in clock_ports and clock_ports[port].is_propagated:
                report.lose(
                    "driving-clock",
                    drive.place,
                    f"the delay of the driving cell of the clock port {port} (its slew is kept)",
                )


def drive_port(port: str, split: str, drive: Drive, arc: Timing, load: Fraction, constraints: Constraints) -> None:
    for edge in EDGES:
        slew = Fraction(drive.slews[SENSES[arc.sense][edge]])
        table = arc.tables[f"cell_{edge}"]
        derate = Fraction(constraints.derates.get((split, "net"), Decimal(1)))
        added = (looked_up(table, slew, load) - looked_up(table, slew, Fraction(0))) * derate
        constraints.slews.setdefault(port, {})[split, edge] = as_decimal(
            looked_up(arc.tables[f"{edge}_transition"], slew, load)
        )
        for corners in constraints.inputs[port].by_clock.values() if port in constraints.inputs else ():
            if (split, edge) in corners:
                corners[split, edge].value += as_decimal(added)
