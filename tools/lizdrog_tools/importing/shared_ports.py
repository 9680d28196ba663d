"""Output ports that are one net with another port: each gets a cell of its own that hands on times and slews as they
are."""
from decimal import Decimal

from lizdrog_tools.importing.constraints import SPLITS, Constraints
from lizdrog_tools.importing.liberty_merge import LibrarySet
from lizdrog_tools.importing.liberty_model import Cell, Pin, Table, Timing
from lizdrog_tools.importing.netlist import Instance, Netlist
from lizdrog_tools.importing.report import Place, Report

CELL = "LIZDROG_WIRE"
SUFFIX = "__wire"


def wire_cell() -> Cell:
    """A cell without load and delay, whose output has the slew of its input."""
    made = Cell(CELL, Place(CELL))
    made.pins["A"] = Pin("A", "input", Decimal(0))
    made.pins["Y"] = Pin("Y", "output", Decimal(0), "A")
    delay = Table("delay", [], ["0"], Decimal(1), Decimal(1))
    slew = Table("delay", [("slew", ["0", "1"])], ["0", "1"], Decimal(1), Decimal(1))
    tables = {"cell_rise": delay, "rise_transition": slew, "cell_fall": delay, "fall_transition": slew}
    made.pins["Y"].timings.append(Timing(["A"], "combinational", "positive_unate", None, tables, 0))
    return made


def part_ports(netlist: Netlist, sides: tuple[LibrarySet, LibrarySet], report: Report) -> None:
    """Gives each such port a net of its own behind a wire cell."""
    for port, net in netlist.shared.items():
        name = f"{port}{SUFFIX}"
        while name in netlist.instances or name in netlist.nets:
            name += "_"
        netlist.instances[name] = Instance(name, CELL, {"A": net, "Y": port}, 0)
        netlist.wire_cells[port] = name
        for cells in sides:
            cells.cells[CELL] = wire_cell()
        report.change(
            "shared-port",
            netlist.place,
            f"the ports {net} and {port} are one net: the cell {name} without delay and load is between them",
        )


def share_loads(netlist: Netlist, constraints: Constraints) -> None:
    """The load of such a port counts where its net is driven."""
    for port, net in netlist.shared.items():
        for split in SPLITS:
            load = constraints.loads.get(port, {}).get(split)
            if load and netlist.ports.get(net) == "output":
                kept = constraints.loads.setdefault(net, {})
                kept[split] = kept.get(split, Decimal(0)) + load
