"""How much the proved readers take of each document; what is past a limit is told with it."""
from lizdrog_tools.files import InputFault
from lizdrog_tools.importing.design import Design
from lizdrog_tools.importing.project import Project

MOST_CELLS = 10_000
MOST_PINS = MOST_NETS = MOST_INSTANCES = 200_000
MOST_BYTES = 1 << 26
SOURCES = {"early.lib": "early", "late.lib": "late", "netlist.v": "netlist", "constraints.sdc": "sdc"}


def check_design(design: Design) -> None:
    """Nets, instances and pins of the flat design; pins count whether connected or not, and ports with them."""
    netlist = design.netlist
    sizes = {it: len(design.cells.get(it).pins) for it in {it.cell for it in netlist.instances.values()}}
    pins = len(netlist.ports) + sum(sizes[it.cell] for it in netlist.instances.values())
    for count, most, what in (
        (len(netlist.nets), MOST_NETS, "nets (V6)"),
        (len(netlist.instances), MOST_INSTANCES, "instances (V6)"),
        (pins, MOST_PINS, "pins with the ports (E17)"),
    ):
        if count > most:
            raise InputFault(netlist.place.file, None, f"the flat design has {count:,} {what}, and {most:,} are read")


def check_cells(names: list[str], project: Project) -> None:
    """The cells that the libraries get: those in use, and those of `keep`."""
    if len(names) > MOST_CELLS:
        raise InputFault(
            project.file,
            None,
            f"{len(names):,} cells are in use or named by keep, and {MOST_CELLS:,} are read (L10): keep fewer",
        )


def check_sizes(texts: dict[str, str], project: Project) -> None:
    """The length of each document."""
    for name, text in texts.items():
        if len(text) > MOST_BYTES:
            files = getattr(project, SOURCES.get(name, ""), None) or [it.file for it in project.spef]
            raise InputFault(
                str(project.path(files[0])),
                None,
                f"the {name} that comes of it has {len(text):,} bytes, and {MOST_BYTES:,} are read",
            )
