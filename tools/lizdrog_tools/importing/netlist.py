"""A flat netlist: ports, nets and instances, with the names of the hierarchy that it came from."""
import dataclasses

from lizdrog_tools.importing.report import Place

ZERO, ONE = "1'b0", "1'b1"
CONSTANTS = (ZERO, ONE)
SEPARATOR = "/"
# Parts a level of hierarchy from the next in the keys of names, where a name may itself have a slash.
LEVEL = "\0"


@dataclasses.dataclass(slots=True)
class Instance:
    """An instance of a library cell: the net of each pin, a constant, or none where the pin is open."""

    key: str
    cell: str
    nets: dict[str, str | None]
    line: int = 0

    @property
    def name(self) -> str:
        return self.key.replace(LEVEL, SEPARATOR)


@dataclasses.dataclass(slots=True)
class Vector:
    """The bits of a vector, from its left end to its right."""

    bits: list[str]


@dataclasses.dataclass(slots=True)
class Netlist:
    """A design without hierarchy. Nets that several names stand for have one of them here, the others in `aliases`."""

    name: str
    place: Place
    ports: dict[str, str] = dataclasses.field(default_factory=dict)
    nets: dict[str, str] = dataclasses.field(default_factory=dict)
    instances: dict[str, Instance] = dataclasses.field(default_factory=dict)
    aliases: dict[str, str] = dataclasses.field(default_factory=dict)
    vectors: dict[str, Vector] = dataclasses.field(default_factory=dict)
    blocks: dict[str, str] = dataclasses.field(default_factory=dict)
    block_pins: dict[str, str] = dataclasses.field(default_factory=dict)
    # Output ports that are one net with another port, and the cell that was put between them.
    shared: dict[str, str] = dataclasses.field(default_factory=dict)
    wire_cells: dict[str, str] = dataclasses.field(default_factory=dict)

    def net_called(self, name: str) -> str | None:
        """The net that a name stands for; none where there is no such net."""
        return name if name in self.nets else self.aliases.get(name)


@dataclasses.dataclass(frozen=True, slots=True)
class Terminal:
    """An end of a net: a port (no instance), or the pin of an instance."""

    instance: str | None
    pin: str

    def word(self, mark: str = "/") -> str:
        return self.pin if self.instance is None else f"{self.instance}{mark}{self.pin}"


@dataclasses.dataclass(slots=True)
class Ends:
    """The drivers and the sinks of a net."""

    drivers: list[Terminal] = dataclasses.field(default_factory=list)
    sinks: list[Terminal] = dataclasses.field(default_factory=list)


def ends_of_nets(netlist: Netlist, outputs: dict[str, set[str]]) -> dict[str, Ends]:
    """The ends of each net, by the output pins of each cell."""
    ends = {net: Ends() for net in netlist.nets}
    for port, way in netlist.ports.items():
        side = ends[port].drivers if way == "input" else ends[port].sinks
        side.append(Terminal(None, port))
    for instance in netlist.instances.values():
        driving = outputs.get(instance.cell, set())
        for pin, net in instance.nets.items():
            if net is not None and net not in CONSTANTS:
                side = ends[net].drivers if pin in driving else ends[net].sinks
                side.append(Terminal(instance.name, pin))
    return ends
