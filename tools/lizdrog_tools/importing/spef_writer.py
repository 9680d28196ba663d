"""Writes joined parasitics, each net as a tree from its driver."""
import functools
import re
from decimal import Decimal

from lizdrog_tools.importing.liberty_model import plain
from lizdrog_tools.importing.spef_merge import NAMED, Merger, Wires
from lizdrog_tools.importing.spef_reader import Node

PLAIN = re.compile(r"[A-Za-z0-9_/]*(?:\[\d+\])?")


def components(wires: Wires, extra: list[Node]) -> tuple[list[list[Node]], bool]:
    """The parts of a net that resistors join, and whether there is a loop."""
    up: dict[Node, Node] = {}

    def root(node: Node) -> Node:
        up.setdefault(node, node)
        while up[node] != node:
            up[node] = up[up[node]]
            node = up[node]
        return node

    loop = False
    for one, other, _ in wires.ress:
        a, b = root(one), root(other)
        loop |= a == b
        up[a] = b
    for node in (*(it for it, _ in wires.caps), *extra):
        root(node)
    parts: dict[Node, list[Node]] = {}
    for node in list(up):
        parts.setdefault(root(node), []).append(node)
    return list(parts.values()), loop


class SpefWriter:
    """Writes the joined wires, each net as a tree from its driver."""

    def __init__(self, merger: Merger):
        self.merger, self.design, self.report = merger, merger.design, merger.report
        self.numbers: dict[str, int] = {}
        self.body: list[str] = []

    def index(self, name: str) -> str:
        return f"*{self.numbers.setdefault(name, len(self.numbers) + 1)}"

    def text(self) -> str:
        for net, wires in self.merger.nets.items():
            self.net(net, wires)
        head = [
            '*SPEF "IEEE 1481-1998"',
            f'*DESIGN "{self.design.netlist.name}"',
            '*DATE "-"',
            '*VENDOR "-"',
            '*PROGRAM "Lizdrog import"',
            '*VERSION "-"',
            '*DESIGN_FLOW "-"',
            "*DIVIDER /",
            "*DELIMITER :",
            "*BUS_DELIMITER [ ]",
            "*T_UNIT 1 PS",
            "*C_UNIT 1 FF",
            "*R_UNIT 1 OHM",
            "*L_UNIT 1 HENRY",
            "*NAME_MAP",
            *(f"*{number} {escaped(name)}" for name, number in self.numbers.items()),
        ]
        return "\n".join([*head, *self.body]) + "\n"

    def word(self, node: Node, net: str) -> str:
        kind, name = node
        if kind == "port":
            return self.index(name)
        if kind == "pin":
            head, _, pin = name.rpartition("/")
            return f"{self.index(head)}:{escaped(pin)}"
        return f"{self.index(net)}:{name}"

    def net(self, net: str, wires: Wires) -> None:
        ends = self.design.ends[net]
        pins = [("port" if it.instance is None else "pin", it.word()) for it in (*ends.drivers, *ends.sinks)]
        if any(value for _, _, value in wires.ress) or wires.sections > 1 and wires.ress:
            if not self.joined(net, wires, pins):
                return
        else:
            wires.caps, wires.ress = [], []
        self.numbered(wires)
        lines = [f"*D_NET {self.index(net)} {plain(wires.load() if wires.ress else wires.total)}", "*CONN"]
        for node, drives in zip(pins, (it < len(ends.drivers) for it in range(len(pins))), strict=True):
            lines.append(
                f"*{'P' if node[0] == 'port' else 'I'} {self.word(node, net)} "
                f"{'O' if drives == (node[0] == 'pin') else 'I'}"
            )
        if wires.ress:
            lines += [
                "*CAP",
                *(f"{at} {self.word(node, net)} {plain(value)}" for at, (node, value) in enumerate(wires.caps, 1)),
            ]
            lines += [
                "*RES",
                *(
                    f"{at} {self.word(one, net)} {self.word(other, net)} {plain(value)}"
                    for at, (one, other, value) in enumerate(wires.ress, 1)
                ),
            ]
        self.body += [*lines, "*END"]

    def joined(self, net: str, wires: Wires, pins: list[Node]) -> bool:
        """Joins the parts of a net whose wires of one level are missing; whether it is a tree over all its pins."""
        parts, loop = components(wires, pins)
        there = {it for row in wires.ress for it in row[:2]}
        has_ends = any(it[0] == "end" for it in there)
        if loop:
            self.report.lose(
                "spef-loop",
                wires.place,
                f"the resistors of {net} form a loop; accepted, the net has its load and no delay",
            )
            wires.total, wires.caps, wires.ress = wires.load(), [], []
        elif len(parts) > 1 and (has_ends or wires.sections > 1):
            first = next(part for part in parts if pins[0] in part)
            hub = next((it for it in first if it[0] == "end"), pins[0])
            for part in (it for it in parts if it is not first):
                wires.ress.append((hub, next((it for it in part if it[0] == "end"), part[0]), Decimal(0)))
            self.report.change(
                "spef-join", wires.place, f"{net} has no wires between its blocks: they are joined without resistance"
            )
        elif len(parts) > 1:
            gone = [name for kind, name in pins if (kind, name) not in there]
            self.report.lose(
                "spef-tree",
                wires.place,
                f"the resistors of {net} do not reach {', '.join(gone[:NAMED]) or 'all nodes'}; accepted, the net "
                "has its load and no delay",
            )
            wires.total, wires.caps, wires.ress = wires.load(), [], []
        return True

    @staticmethod
    def numbered(wires: Wires) -> None:
        """Ends of blocks become inner nodes."""
        numbers: dict[Node, Node] = {}

        def node(found: Node) -> Node:
            if found[0] != "end":
                return found
            if found not in numbers:
                wires.inner += 1
                numbers[found] = ("inner", wires.inner)
            return numbers[found]

        wires.caps = [(node(it), value) for it, value in wires.caps]
        wires.ress = [(node(one), node(other), value) for one, other, value in wires.ress]


@functools.lru_cache(maxsize=100_000)
def escaped(name: str) -> str:
    """A name with a backslash before each mark that is no bracket of a bit at its end."""
    if PLAIN.fullmatch(name):
        return name
    found = re.fullmatch(r"(.*?)(\[\d+\])?", name, re.S)
    return re.sub(r"([^A-Za-z0-9_/\[\]])", r"\\\1", found.group(1)) + (found.group(2) or "")


def write_spef(merger: Merger) -> str:
    return SpefWriter(merger).text()
