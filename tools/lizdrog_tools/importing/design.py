"""The objects of a design that constraints name: ports, cells, pins, nets, clocks, and those of the libraries."""
import dataclasses
import functools
import re
from collections.abc import Callable, Iterable

from lizdrog_tools.importing.liberty_merge import LibrarySet
from lizdrog_tools.importing.liberty_model import Cell
from lizdrog_tools.importing.netlist import CONSTANTS, LEVEL, Ends, Instance, Netlist, Terminal, ends_of_nets
from lizdrog_tools.importing.tcl import CommandFault

WILD = re.compile(r"[*?]")
ESCAPED = re.compile(r"\\(.)")


@dataclasses.dataclass(frozen=True, slots=True)
class Object:
    """An object by its kind and its name: port, cell, pin, net, clock, block, block_pin, lib, lib_cell, lib_pin or
    design."""

    kind: str
    name: str


@dataclasses.dataclass(frozen=True, slots=True)
class Search:
    """How patterns are meant."""

    is_hierarchical: bool = False
    is_regexp: bool = False
    is_exact: bool = False
    has_case: bool = True


def translated(pattern: str) -> str:
    """A pattern as a regular expression over keys: wildcards stay on one level of hierarchy, and a slash is a slash or
    a level."""
    said, at = [], 0
    while at < len(pattern):
        letter = pattern[at]
        if letter == "\\" and at + 1 < len(pattern):
            at += 1
            said.append(re.escape(pattern[at]))
        elif letter == "*":
            said.append(f"[^{LEVEL}]*")
        elif letter == "?":
            said.append(f"[^{LEVEL}]")
        elif letter == "/":
            said.append(f"[/{LEVEL}]")
        else:
            said.append(re.escape(letter))
        at += 1
    return "".join(said)


def matcher(pattern: str, how: Search) -> Callable[[str], bool]:
    """Whether a key is meant by a pattern."""
    flags = 0 if how.has_case else re.I
    try:
        if how.is_regexp:
            compiled = re.compile(pattern, flags)
            return lambda key: compiled.fullmatch(key.replace(LEVEL, "/")) is not None
        below = f"(?:.*{LEVEL})?" if how.is_hierarchical else ""
        compiled = re.compile(below + translated(pattern), flags)
    except re.error as why:
        raise CommandFault(f"{pattern} is no regular expression that is read: {why}") from None
    return lambda key: compiled.fullmatch(key) is not None


def is_plain(pattern: str, how: Search) -> bool:
    """Whether a pattern is a name and nothing more."""
    return how.is_exact or how.has_case and not how.is_regexp and not how.is_hierarchical and not WILD.search(pattern)


class Design:
    """A netlist with its cells, and what was asked of them."""

    def __init__(self, netlist: Netlist, cells: LibrarySet):
        self.netlist, self.cells = netlist, cells
        self.clocks: dict[str, str | None] = {}
        self.divider = "/"
        self.lib_names = [it.library.name for it in cells.frames]

    @functools.cached_property
    def ends(self) -> dict[str, Ends]:
        used = {it.cell for it in self.netlist.instances.values()}
        return ends_of_nets(self.netlist, {it: self.cells.get(it).outputs() for it in used if self.cells.get(it)})

    @functools.cached_property
    def cell_keys(self) -> dict[str, Object]:
        keys = {it.key: Object("cell", it.name) for it in self.netlist.instances.values()}
        return keys | {key: Object("block", key.replace(LEVEL, "/")) for key in self.netlist.blocks}

    @functools.cached_property
    def net_names(self) -> dict[str, str]:
        return {**{it: it for it in self.netlist.nets}, **self.netlist.aliases}

    @functools.cached_property
    def block_pin_names(self) -> dict[str, str]:
        return {key.replace(LEVEL, "/"): net for key, net in self.netlist.block_pins.items()}

    @functools.cached_property
    def block_names(self) -> dict[str, str]:
        return {key.replace(LEVEL, "/"): module for key, module in self.netlist.blocks.items()}

    def cell_of(self, instance: Instance) -> Cell | None:
        return self.cells.get(instance.cell)

    def pin_parts(self, name: str) -> tuple[Instance, str] | None:
        """The instance and the pin that a name of a pin stands for."""
        head, _, pin = name.rpartition("/")
        instance = self.netlist.instances.get(head)
        cell = self.cell_of(instance) if instance else None
        return (instance, pin) if cell and pin in cell.pins else None

    def terminal(self, made: Object) -> Terminal | None:
        if made.kind == "port":
            return Terminal(None, made.name)
        parts = self.pin_parts(made.name) if made.kind == "pin" else None
        return Terminal(parts[0].name, parts[1]) if parts else None

    def net_at(self, made: Object) -> str | None:
        """The net at a port or a pin."""
        if made.kind == "port":
            return made.name
        if made.kind == "block_pin":
            return self.block_pin_names.get(made.name)
        parts = self.pin_parts(made.name)
        net = parts[0].nets.get(parts[1]) if parts else None
        return None if net in CONSTANTS else net

    def clocked_pins(self, clocks: Iterable[str]) -> set[str]:
        """The pins that these clocks reach."""
        return {pin for name in clocks if (port := self.clocks.get(name)) for pin in trace(self, port).pins}

    # ------------------------------------------------------------------------------------------ by name

    def find(self, kind: str, pattern: str, how: Search) -> list[Object]:
        """The objects of a kind that a pattern means, in the order of the design."""
        if self.divider != "/":
            pattern = pattern.replace(self.divider, "/")
        finders = {
            "port": self.ports,
            "cell": self.find_cells,
            "pin": self.pins,
            "net": self.nets,
            "clock": self.find_clocks,
            "lib_cell": self.lib_cells,
            "lib_pin": self.lib_pins,
            "lib": self.libs,
        }
        return finders[kind](pattern, how)

    def among(self, kind: str, names: Iterable[str], pattern: str, how: Search) -> list[Object]:
        if is_plain(pattern, how):
            name = ESCAPED.sub(r"\1", pattern)
            return [Object(kind, name)] if name in names else []
        fits = matcher(pattern, how)
        return [Object(kind, it) for it in names if fits(it)]

    def with_vectors(self, kind: str, names: Iterable[str], pattern: str, how: Search) -> list[Object]:
        found = self.among(kind, names, pattern, how)
        if not found and pattern in self.netlist.vectors:
            found = [Object(kind, it) for it in self.netlist.vectors[pattern].bits if it in names]
        return found

    def ports(self, pattern: str, how: Search) -> list[Object]:
        return self.with_vectors("port", self.netlist.ports, pattern, how)

    def find_clocks(self, pattern: str, how: Search) -> list[Object]:
        return self.among("clock", self.clocks, pattern, how)

    def nets(self, pattern: str, how: Search) -> list[Object]:
        found = self.with_vectors("net", self.net_names, pattern, how)
        return list(dict.fromkeys(Object("net", self.net_names[it.name]) for it in found))

    def find_cells(self, pattern: str, how: Search) -> list[Object]:
        if is_plain(pattern, how):
            name = ESCAPED.sub(r"\1", pattern)
            if name in self.netlist.instances:
                return [Object("cell", name)]
            return [Object("block", name)] if name in self.block_names else []
        fits = matcher(pattern, how)
        return [made for key, made in self.cell_keys.items() if fits(key)]

    def pins(self, pattern: str, how: Search) -> list[Object]:
        if is_plain(pattern, how):
            name = ESCAPED.sub(r"\1", pattern)
            if self.pin_parts(name):
                return [Object("pin", name)]
            return [Object("block_pin", name)] if name in self.block_pin_names else []
        if how.is_regexp:
            fits = matcher(pattern, how)
            return [it for made in self.cell_keys.values() for it in self.pins_of(made) if fits(it.name)]
        head, slash, tail = pattern.rpartition("/")
        instances = (
            self.find_cells(head, how) if slash else list(self.cell_keys.values()) if how.is_hierarchical else []
        )
        fits = matcher(tail, dataclasses.replace(how, is_hierarchical=False))
        return [it for made in instances for it in self.pins_of(made) if fits(it.name.rpartition("/")[2])]

    def pins_of(self, made: Object) -> list[Object]:
        """The pins of a cell or a block."""
        if made.kind == "block":
            start = f"{made.name}/"
            return [
                Object("block_pin", it)
                for it in self.block_pin_names
                if it.startswith(start) and "/" not in it[len(start) :]
            ]
        cell = self.cell_of(self.netlist.instances[made.name])
        return [Object("pin", f"{made.name}/{it}") for it in cell.pins] if cell else []

    # ------------------------------------------------------------------------------------------ of the libraries

    def libs(self, pattern: str, how: Search) -> list[Object]:
        return self.among("lib", self.lib_names, pattern, how)

    def lib_cells(self, pattern: str, how: Search) -> list[Object]:
        library, _, name = pattern.rpartition("/")
        if library and not self.libs(library, how):
            return []
        return self.among("lib_cell", self.cells.where, name, how)

    def lib_pins(self, pattern: str, how: Search) -> list[Object]:
        head, _, name = pattern.rpartition("/")
        found = []
        for made in self.lib_cells(head, how) if head else []:
            cell = self.cells.get(made.name)
            found += self.among("lib_pin", [f"{made.name}/{it}" for it in cell.pins], f"{made.name}/{name}", how)
        return found

    # ------------------------------------------------------------------------------------------ of other objects

    def related(self, kind: str, made: Object) -> list[Object]:
        """The objects of a kind that belong to another object (-of_objects)."""
        way = {
            ("pin", "cell"): self.pins_of,
            ("pin", "block"): self.pins_of,
            ("cell", "pin"): self.owner,
            ("cell", "block_pin"): self.owner,
            ("pin", "net"): self.pins_on,
            ("port", "net"): self.ports_on,
            ("cell", "net"): self.cells_on,
            ("net", "pin"): self.net_of,
            ("net", "port"): self.net_of,
            ("net", "block_pin"): self.net_of,
            ("net", "cell"): self.nets_of,
            ("clock", "port"): self.clocks_at,
            ("lib_cell", "cell"): self.kind_of,
            ("lib_cell", "lib_pin"): self.owner_in_library,
            ("lib_pin", "lib_cell"): self.pins_in_library,
            ("lib_pin", "pin"): self.pin_in_library,
        }.get((kind, made.kind))
        if way is None:
            raise CommandFault(f"-of_objects of a {made.kind} gives no {kind}")
        return way(made)

    def owner(self, made: Object) -> list[Object]:
        head = made.name.rpartition("/")[0]
        return [Object("cell" if made.kind == "pin" else "block", head)]

    def pins_on(self, made: Object) -> list[Object]:
        ends = self.ends[made.name]
        return [Object("pin", it.word()) for it in (*ends.drivers, *ends.sinks) if it.instance is not None]

    def ports_on(self, made: Object) -> list[Object]:
        ends = self.ends[made.name]
        return [Object("port", it.pin) for it in (*ends.drivers, *ends.sinks) if it.instance is None]

    def cells_on(self, made: Object) -> list[Object]:
        return list(dict.fromkeys(self.owner(it)[0] for it in self.pins_on(made)))

    def net_of(self, made: Object) -> list[Object]:
        net = self.net_at(made)
        return [Object("net", net)] if net else []

    def nets_of(self, made: Object) -> list[Object]:
        return list(dict.fromkeys(net for pin in self.pins_of(made) for net in self.net_of(pin)))

    def clocks_at(self, made: Object) -> list[Object]:
        return [Object("clock", name) for name, port in self.clocks.items() if port == made.name]

    def kind_of(self, made: Object) -> list[Object]:
        return [Object("lib_cell", self.netlist.instances[made.name].cell)]

    def owner_in_library(self, made: Object) -> list[Object]:
        return [Object("lib_cell", made.name.rpartition("/")[0])]

    def pins_in_library(self, made: Object) -> list[Object]:
        return [Object("lib_pin", f"{made.name}/{it}") for it in self.cells.get(made.name).pins]

    def pin_in_library(self, made: Object) -> list[Object]:
        instance, pin = self.pin_parts(made.name)
        return [Object("lib_pin", f"{instance.cell}/{pin}")]

    # ------------------------------------------------------------------------------------------ attributes

    def attribute(self, made: Object, name: str) -> str | None:
        """An attribute as text: none where an object of this kind does not have it."""
        if name in ("full_name", "name", "object_name"):
            return made.name
        if name == "base_name":
            return made.name.rpartition("/")[2]
        if name in ("object_class", "object_type"):
            return {"block": "cell", "block_pin": "pin"}.get(made.kind, made.kind)
        reader = {
            "port": self.port_attribute,
            "cell": self.cell_attribute,
            "block": self.block_attribute,
            "pin": self.pin_attribute,
            "lib_pin": self.lib_pin_attribute,
            "lib_cell": self.lib_cell_attribute,
        }.get(made.kind)
        return reader(made, name) if reader else None

    def port_attribute(self, made: Object, name: str) -> str | None:
        return self.netlist.ports[made.name] if name in ("direction", "port_direction", "pin_direction") else None

    def block_attribute(self, made: Object, name: str) -> str | None:
        flags = {"is_hierarchical": "true", "is_sequential": "false", "is_combinational": "false"}
        return self.block_names[made.name] if name in ("ref_name", "cell_name") else flags.get(name)

    def cell_attribute(self, made: Object, name: str) -> str | None:
        instance = self.netlist.instances[made.name]
        if name == "is_hierarchical":
            return "false"
        return self.lib_cell_attribute(Object("lib_cell", instance.cell), name)

    def lib_cell_attribute(self, made: Object, name: str) -> str | None:
        cell = self.cells.get(made.name)
        if name in ("ref_name", "cell_name", "lib_cell"):
            return made.name
        flags = {"is_sequential": is_sequential(cell), "is_combinational": not is_sequential(cell)} if cell else {}
        return str(flags[name]).lower() if name in flags else None

    def pin_attribute(self, made: Object, name: str) -> str | None:
        instance, pin = self.pin_parts(made.name)
        return self.lib_pin_attribute(Object("lib_pin", f"{instance.cell}/{pin}"), name)

    def lib_pin_attribute(self, made: Object, name: str) -> str | None:
        cell_name, _, pin = made.name.rpartition("/")
        cell = self.cells.get(cell_name)
        if name in ("direction", "pin_direction", "port_direction"):
            return cell.pins[pin].direction
        if name in ("lib_pin_name", "pin_name"):
            return pin
        flags = {
            "is_clock_pin": pin in cell.clock_pins(),
            "is_data_pin": pin in cell.data_pins(),
            "is_clock": pin in cell.clock_pins(),
        }
        return str(flags[name]).lower() if name in flags else None


@dataclasses.dataclass(slots=True)
class Reached:
    """What a clock reaches: pins by name, the instances with the pins at which it passes them, and ends that are no
    clock pins."""

    pins: set[str] = dataclasses.field(default_factory=set)
    passed: dict[str, set[str]] = dataclasses.field(default_factory=dict)
    data: list[str] = dataclasses.field(default_factory=list)


def passes(cell: Cell, pin: str) -> list[str]:
    """The outputs to which plain arcs lead from a pin."""
    return [it.name for it, timing in cell.timed() if timing.kind == "combinational" and pin in timing.related]


def trace(design: Design, port: str) -> Reached:
    """Follows a clock from its port through gates to the pins that it clocks."""
    found, nets, done = Reached(), [port], set()
    while nets:
        net = nets.pop()
        if net in done or net not in design.ends:
            continue
        done.add(net)
        for end in design.ends[net].sinks:
            if end.instance is None:
                found.data.append(end.pin)
                continue
            instance = design.netlist.instances[end.instance]
            cell = design.cell_of(instance)
            found.pins.add(end.word())
            if end.pin in cell.data_pins():
                found.data.append(end.word())
            outputs = passes(cell, end.pin)
            if outputs:
                found.passed.setdefault(instance.name, set()).add(end.pin)
            nets += [instance.nets[it] for it in outputs if instance.nets.get(it)]
    return found


def is_sequential(cell: Cell) -> bool:
    return cell.is_register or bool(cell.clock_pins())
