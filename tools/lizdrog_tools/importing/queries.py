"""The commands that ask for objects, and those that handle collections."""
from lizdrog_tools.importing.constraints import Constraints
from lizdrog_tools.importing.design import Object, Search, is_sequential
from lizdrog_tools.importing.filters import Filter
from lizdrog_tools.importing.session import Session, Words
from lizdrog_tools.importing.tcl import CommandFault, joined

GET = {
    "get_ports": ("port",),
    "get_cells": ("cell",),
    "get_pins": ("pin",),
    "get_nets": ("net",),
    "get_clocks": ("clock",),
    "get_lib_cells": ("lib_cell",),
    "get_lib_pins": ("lib_pin",),
    "get_libs": ("lib",),
    "get_instances": ("cell",),
}
GET_OPTIONS = {
    "-hierarchical": 0,
    "-regexp": 0,
    "-nocase": 0,
    "-exact": 0,
    "-quiet": 0,
    "-filter": 1,
    "-of_objects": 1,
    "-leaf": 0,
    "-segments": 0,
    "-top_net_of_hierarchical_group": 0,
    "-hsc": 1,
    "-include_generated_clocks": 0,
}
REGISTER_OPTIONS = {
    "-clock": 1,
    "-clock_pins": 0,
    "-data_pins": 0,
    "-cells": 0,
    "-output_pins": 0,
    "-edge_triggered": 0,
    "-level_sensitive": 0,
    "-rise_clock": 1,
    "-fall_clock": 1,
    "-async_pins": 0,
    "-no_hierarchy": 0,
}
PORT_OPTIONS = {"-clock": 1, "-no_clocks": 0, "-edge_triggered": 0, "-level_sensitive": 0, "-exclude_clock_ports": 0}


class Queries:
    """Answers get_, all_ and the commands on collections; a collection is a Tcl list of tokens."""

    def __init__(self, session: Session, constraints: Constraints):
        self.session, self.design, self.constraints = session, session.design, constraints
        self.commands = {name: self.get for name in GET} | {
            "all_inputs": self.all_ports,
            "all_outputs": self.all_ports,
            "all_clocks": self.all_clocks,
            "all_registers": self.all_registers,
            "add_to_collection": self.add,
            "remove_from_collection": self.remove,
            "sizeof_collection": self.size,
            "index_collection": self.index,
            "copy_collection": self.whole,
            "flatten": self.whole,
            "query_objects": self.names,
            "get_object_name": self.names,
            "get_full_name": self.names,
            "get_name": self.names,
            "sort_collection": self.sort,
            "filter_collection": self.filter,
            "compare_collections": self.compare,
            "get_attribute": self.attribute,
            "get_property": self.attribute,
            "object_exists": self.size,
        }

    def search(self, words: Words) -> Search:
        flags = words.flags
        return Search("-hierarchical" in flags, "-regexp" in flags, "-exact" in flags, "-nocase" not in flags)

    def get(self, words: list[str]) -> str:
        name, said = self.session.command, self.session.parse(words, GET_OPTIONS)
        kinds, quiet = GET[name], "-quiet" in said.flags
        found: dict[Object, None] = {}
        if said.has("-of_objects"):
            for made in self.of_objects(said.value("-of_objects")):
                found.update(dict.fromkeys(self.design.related(kinds[0], made)))
        else:
            how = self.search(said)
            for item in (it for word in said.plain or ["*"] for it in self.session.items(word)):
                if isinstance(item, Object):
                    found[item] = None
                else:
                    found.update(dict.fromkeys(self.session.look_up(kinds, item, how, quiet=quiet)))
        kept = list(found)
        if said.has("-filter"):
            kept = self.filtered(kept, said.value("-filter"))
        return self.session.tokens(kept)

    def of_objects(self, text: str) -> list[Object]:
        return self.session.objects(
            text, ("cell", "block", "pin", "block_pin", "net", "port", "clock", "lib_cell", "lib_pin")
        )

    def filtered(self, found: list[Object], text: str) -> list[Object]:
        kept = Filter(text)
        return [made for made in found if kept.test(lambda name, made=made: self.value(made, name))]

    def value(self, made: Object, name: str) -> str | None:
        return self.design.attribute(made, name)

    def all_ports(self, words: list[str]) -> str:
        """Ports of a direction; with -clock those that have a delay against the clock at this command."""
        said = self.session.parse(words, PORT_OPTIONS)
        way = self.session.command.removeprefix("all_").removesuffix("s")
        for option in ("-edge_triggered", "-level_sensitive"):
            if said.has(option):
                raise CommandFault(f"{self.session.command} {option} is not read")
        found = [it for it, side in self.design.netlist.ports.items() if side == way]
        if said.has("-no_clocks") or said.has("-exclude_clock_ports"):
            found = [it for it in found if it not in self.design.clocks.values()]
        if said.has("-clock"):
            clocks = {it.name for it in self.session.objects(said.value("-clock"), ("clock",))}
            delays = self.constraints.inputs if way == "input" else self.constraints.outputs
            found = [it for it in found if it in delays and clocks & delays[it].by_clock.keys()]
        return self.session.tokens([Object("port", it) for it in found])

    def all_clocks(self, words: list[str]) -> str:
        self.session.parse(words, {})
        return self.session.tokens([Object("clock", it) for it in self.design.clocks])

    def all_registers(self, words: list[str]) -> str:
        """Registers, or their pins; of one clock where it is named."""
        said = self.session.parse(words, REGISTER_OPTIONS)
        for option in ("-rise_clock", "-fall_clock", "-async_pins", "-level_sensitive"):
            if said.has(option):
                raise CommandFault(f"all_registers {option} is not read")
        reached = None
        if said.has("-clock"):
            clocks = self.session.objects(said.value("-clock"), ("clock",))
            reached = self.design.clocked_pins([it.name for it in clocks])
        found = []
        for instance in self.design.netlist.instances.values():
            cell = self.design.cell_of(instance)
            if cell is None or not is_sequential(cell):
                continue
            if reached is not None and not any(f"{instance.name}/{it}" in reached for it in cell.clock_pins()):
                continue
            found += self.parts(instance.name, cell, said)
        return self.session.tokens(found)

    @staticmethod
    def parts(name: str, cell, said: Words) -> list[Object]:
        """The register itself, or the pins of it that are asked."""
        pins = set()
        for option, those in (
            ("-clock_pins", cell.clock_pins()),
            ("-data_pins", cell.data_pins()),
            ("-output_pins", cell.outputs()),
        ):
            pins |= those if said.has(option) else set()
        if any(said.has(it) for it in ("-clock_pins", "-data_pins", "-output_pins")):
            return [Object("pin", f"{name}/{it}") for it in cell.pins if it in pins]
        return [Object("cell", name)]

    # ------------------------------------------------------------------------------------------ collections

    def whole(self, words: list[str]) -> str:
        return self.session.tokens([it for word in words for it in self.session.collection(word)])

    def add(self, words: list[str]) -> str:
        said = self.session.parse([it for it in words if it], {"-unique": 0})
        found = [it for word in said.plain for it in self.session.collection(word)]
        return self.session.tokens(list(dict.fromkeys(found)) if said.has("-unique") else found)

    def remove(self, words: list[str]) -> str:
        """The objects of the first collection that the others do not have; a name stands for the objects of that
        name."""
        said = self.session.parse(words, {"-intersect": 0})
        gone = {it for word in said.plain[1:] for it in self.session.items(word)}
        names = {it for it in gone if isinstance(it, str)}
        keeps = said.has("-intersect")
        return self.session.tokens(
            [it for it in self.session.collection(said.plain[0]) if (it in gone or it.name in names) == keeps]
        )

    def size(self, words: list[str]) -> str:
        return str(len(self.session.collection(words[0])))

    def index(self, words: list[str]) -> str:
        found, places = self.session.collection(words[0]), [int(it) for it in words[1:]]
        if not all(0 <= it < len(found) for it in places):
            raise CommandFault(f"index_collection: the collection has {len(found)} objects")
        first, last = places[0], places[-1]
        return self.session.tokens(found[first : last + 1])

    def names(self, words: list[str]) -> str:
        found = self.session.items([it for it in words if not it.startswith("-")][0])
        names = [it if isinstance(it, str) else it.name for it in found]
        return names[0] if len(names) == 1 and self.session.command != "query_objects" else joined(names)

    def sort(self, words: list[str]) -> str:
        said = self.session.parse(words, {"-descending": 0, "-dictionary": 0})
        names = said.plain[1].split() if len(said.plain) > 1 else ["full_name"]
        found = sorted(
            self.session.collection(said.plain[0]),
            key=lambda made: [self.value(made, it) or "" for it in names],
            reverse=said.has("-descending"),
        )
        return self.session.tokens(found)

    def filter(self, words: list[str]) -> str:
        said = self.session.parse(words, {"-regexp": 0, "-nocase": 0})
        if said.flags or len(said.plain) != 2:
            raise CommandFault("filter_collection takes a collection and a filter")
        return self.session.tokens(self.filtered(self.session.collection(said.plain[0]), said.plain[1]))

    def compare(self, words: list[str]) -> str:
        one, other = (self.session.collection(it) for it in words[-2:])
        return "0" if sorted(map(str, one)) == sorted(map(str, other)) else "-1"

    def attribute(self, words: list[str]) -> str:
        said = self.session.parse(words, {"-quiet": 0, "-class": 1, "-object_type": 1})
        if len(said.plain) != 2:
            raise CommandFault(f"{self.session.command} takes an object and an attribute")
        values = [self.value(it, said.plain[1]) for it in self.session.collection(said.plain[0])]
        if None in values and not said.has("-quiet"):
            raise CommandFault(f"{self.session.command}: the attribute {said.plain[1]} is not known of this object")
        return joined([it for it in values if it is not None]) if len(values) > 1 else values[0] or "" if values else ""
