"""Several files of parasitics as one: ports of blocks joined to the nets above, one set of names."""
import dataclasses
from decimal import Decimal

from lizdrog_tools.files import InputFault
from lizdrog_tools.importing.design import Design
from lizdrog_tools.importing.project import Project, SpefFile
from lizdrog_tools.importing.report import Place, Report
from lizdrog_tools.importing.spef_reader import Node, Section, SpefReader

NAMED = 5


@dataclasses.dataclass(slots=True)
class Wires:
    """The wires of a net in fF and ohm: nodes are pins, ports, ends of blocks, or numbers of inner ones."""

    caps: list[tuple[Node, Decimal]] = dataclasses.field(default_factory=list)
    ress: list[tuple[Node, Node, Decimal]] = dataclasses.field(default_factory=list)
    total: Decimal = Decimal(0)
    inner: int = 0
    place: Place = Place("")
    sections: int = 0

    def load(self) -> Decimal:
        """All capacitance of the wires."""
        return sum((it for _, it in self.caps), Decimal(0)) if self.caps else self.total


class Merger:
    """Joins the sections of all files into the nets of the design."""

    def __init__(self, design: Design, report: Report):
        self.design, self.report = design, report
        self.nets: dict[str, Wires] = {}
        self.files: list[str] = []

    def called(self, reader: SpefReader, name: str) -> str | None:
        """The net of a name; a divider other than a slash is tried as one."""
        found = self.design.netlist.net_called(name)
        if found is None and reader.divider != "/":
            found = self.design.netlist.net_called(name.replace(reader.divider, "/"))
        return found

    def read(self, item: SpefFile, name: str) -> None:
        if item.instance is not None and item.instance not in self.design.block_names:
            raise InputFault(name, None, f"there is no block {item.instance} in the netlist")
        self.files.append(name)
        reader, gone, count = SpefReader(name, item.instance, self.report), [], 0
        self.check_design(reader, item.instance)
        for section in reader.sections():
            count += 1
            net = self.called(reader, section.net)
            if net is None:
                gone.append(section)
            elif not self.design.ends[net].drivers:
                self.report.drop(
                    "no-driver", Place(name, section.line), f"the parasitics of {section.net}, which nothing drives"
                )
            else:
                self.add(reader, net, section)
        if gone:
            names = ", ".join(it.net for it in gone[:NAMED])
            why = "; is this the SPEF of this design?" if len(gone) * 2 > count else ""
            self.report.lose(
                "spef-net",
                Place(name, gone[0].line),
                f"{len(gone)} of {count} nets are not in the netlist: {names}{why}",
            )
        if reader.triplets:
            self.report.drop(
                "triplet", Place(name), f"{reader.triplets} values are triplets, of which the second is taken"
            )
        if reader.couplings:
            self.report.change(
                "coupling",
                Place(name),
                f"{reader.couplings} capacitances between nets as ones to ground, as Lizdrog takes them",
            )

    def check_design(self, reader: SpefReader, instance: str | None) -> None:
        """A file whose *DESIGN is another block of this netlist than the one that the project gives it."""
        blocks = self.design.block_names
        mine = blocks[instance] if instance else self.design.netlist.name
        other = next((block for block, module in blocks.items() if module == reader.design), None)
        if other is not None and reader.design != mine:
            given = f"gives it to {instance}, which is {mine}" if instance else "names no instance"
            self.report.lose(
                "spef-design",
                Place(reader.file, reader.design_line),
                f"*DESIGN is {reader.design}, as the block {other} is, and the project {given}",
            )

    def add(self, reader: SpefReader, net: str, section: Section) -> None:
        """The wires of a section as wires of its net."""
        wires = self.nets.setdefault(net, Wires(place=Place(reader.file, section.line if net not in self.nets else 0)))
        wires.sections += 1
        numbers: dict[Node, Node] = {}
        own = {*section.pins, *(it for row in section.ress for it in row[:2])}

        def node(found: Node) -> Node:
            if found not in numbers:
                if found[0] == "inner":
                    wires.inner += 1
                    numbers[found] = ("inner", wires.inner)
                else:
                    numbers[found] = self.terminal(reader, net, found, section)
            return numbers[found]

        caps = []
        for nodes, value in section.caps:
            chosen = nodes[0]
            if len(nodes) == 2:
                reader.couplings += 1
                chosen = next((it for it in nodes if it in own or it[0] == "inner" and isinstance(it[1], int)), None)
                if chosen is None:
                    raise InputFault(
                        reader.file,
                        section.line,
                        f"a capacitance of {section.net} of which no node is of this net, or a value that is no number",
                    )
            caps.append((node(chosen), value))
        ress = [(node(one), node(other), value) for one, other, value in section.ress]
        if not ress:
            self.lumped(wires, caps, section, [node(it) for it in section.pins])
        else:
            wires.caps += caps
            wires.ress += ress

    @staticmethod
    def lumped(wires: Wires, caps: list[tuple[Node, Decimal]], section: Section, pins: list[Node]) -> None:
        """A section without resistors: its ends are one node."""
        total = sum((it for _, it in caps), Decimal(0)) if caps else section.total
        wires.total += total
        at = pins[0] if pins else ("inner", 0)
        wires.caps.append((at, total))
        wires.ress += [(at, it, Decimal(0)) for it in pins[1:]]

    def terminal(self, reader: SpefReader, net: str, found: Node, section: Section) -> Node:
        """A pin or a port of this net: that of the design, or the end of a block."""
        kind, name = found
        names = [name] if reader.divider == "/" else [name, name.replace(reader.divider, "/")]
        for word in names:
            if kind == "port" and word in self.design.netlist.ports and not reader.prefix:
                wire = self.design.netlist.wire_cells.get(word)
                return ("pin", f"{wire}/A") if wire else ("port", word)
            if word in self.design.block_pin_names and (kind == "port") == bool(
                reader.prefix and word.startswith(reader.prefix) and "/" not in word[len(reader.prefix) :]
            ):
                return ("end", word)
            parts = self.design.pin_parts(word) if kind == "pin" else None
            if parts and parts[0].nets.get(parts[1]) == net:
                return ("pin", word)
        self.report.lose(
            "spef-pin",
            Place(reader.file, section.line),
            f"the parasitics of {section.net} name {name}, which is not on the net",
        )
        return ("inner", -1)


def merge_spef(project: Project, design: Design, report: Report) -> Merger | None:
    """The wires of all files of parasitics; none where there are none."""
    if not project.spef:
        return None
    merger = Merger(design, report)
    for item in project.spef:
        merger.read(item, str(project.path(item.file)))
    return merger
