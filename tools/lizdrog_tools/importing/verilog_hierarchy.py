"""Flattens a netlist with hierarchy, assigns, vectors on pins or connections by position: yosys reads it, and this
joins its modules."""
import json
import os
import pathlib
import re
import shutil
import subprocess
import tempfile
from typing import Any

from lizdrog_tools.files import InputFault, read_text
from lizdrog_tools.importing.netlist import LEVEL, ONE, SEPARATOR, ZERO, Instance, Netlist, Vector
from lizdrog_tools.importing.report import Place, Report
from lizdrog_tools.importing.verilog_flat import verilog_word

ERROR = re.compile(r"^(?:(.*?):(\d+)(?:\.\d+)?: )?ERROR: (.*)$", re.M)
RESIZED = re.compile(r"Resizing cell port (\S+) from \d+ bits to \d+ bits", re.M)
SOURCE = re.compile(r"(.*):(\d+)\.\d+(?:-\d+\.\d+)?")
NET_ZERO, NET_ONE = 0, 1


class LibraryPins:
    """The ports of a library cell as a module has them: each with its direction and the range of a bus, or none."""

    def __init__(self, name: str, ports: list[tuple[str, str, tuple[int, int] | None]]):
        self.name, self.ports = name, ports
        self.spans = {port: span for port, _, span in ports}

    def stub(self) -> str:
        words = [
            f"{way} {f'[{span[0]}:{span[1]}] ' if span else ''}{verilog_word(port)}" for port, way, span in self.ports
        ]
        return f"(* blackbox *) module {verilog_word(self.name)} ({', '.join(words)}); endmodule\n"

    def bit(self, port: str, number: int) -> str:
        """The pin of a bit of a port, counted from the right end of its range."""
        span = self.spans.get(port)
        return port if span is None else f"{port}[{span[1] + (number if span[0] >= span[1] else -number)}]"


NO_YOSYS = "this netlist has to be flattened by yosys, and there is no yosys here: apt-get install yosys"


def write_script(
    folder: pathlib.Path, files: list[str], top: str | None, cells: dict[str, LibraryPins]
) -> dict[str, str]:
    """Writes what yosys reads and does; gives the original of each file that it is given."""
    (folder / "cells.v").write_text("".join(it.stub() for it in cells.values()))
    originals, script = {}, ["read_verilog -lib cells.v"]
    for number, file in enumerate(files):
        copy = f"part{number}.v"
        (folder / copy).write_text(read_text(file), encoding="latin-1")
        originals[copy] = file
        is_system = os.path.splitext(file.removesuffix(".gz"))[1] == ".sv"
        script.append(f"read_verilog {'-sv ' if is_system else ''}{copy}")
    which = f"-top {verilog_word(top)}" if top else "-auto-top"
    (folder / "run.ys").write_text("\n".join([*script, f"hierarchy -check {which}", "proc", "write_json out.json", ""]))
    return originals


def run_yosys(
    files: list[str], top: str | None, cells: dict[str, LibraryPins], report: Report
) -> tuple[dict[str, Any], dict[str, str]]:
    """The modules as yosys has elaborated them, and the original of each file that it was given."""
    program = shutil.which("yosys")
    if program is None:
        raise InputFault(files[0], None, NO_YOSYS)
    with tempfile.TemporaryDirectory() as name:
        folder = pathlib.Path(name)
        originals = write_script(folder, files, top, cells)
        words = [program, "-q", "run.ys"]
        ran = subprocess.run(words, cwd=folder, capture_output=True, text=True, errors="replace", check=False)
        said = ran.stdout + ran.stderr
        if ran.returncode:
            found = ERROR.search(said)
            file = originals.get(found.group(1) or "", files[0]) if found else files[0]
            line = int(found.group(2)) if found and found.group(2) else None
            raise InputFault(file, line, f"yosys refuses it: {found.group(3) if found else said.strip()[-300:]}")
        modules = json.loads((folder / "out.json").read_text())["modules"]
        for found in RESIZED.finditer(said):
            place = place_of_instance(modules, found.group(1), originals)
            report.lose("width", place, f"a connection has another width than its port: {found.group()}")
        return modules, originals


def place_in(item: dict[str, Any], originals: dict[str, str]) -> Place:
    """Where a module or an instance stands; the first file as a whole where yosys does not say it."""
    found = SOURCE.match(item.get("attributes", {}).get("src", "").split("|")[0])
    if not found:
        return Place(next(iter(originals.values())))
    return Place(originals.get(found.group(1), found.group(1)), int(found.group(2)))


def place_of_instance(modules: dict[str, Any], name: str, originals: dict[str, str]) -> Place:
    """The place of an instance by the words module.instance.port, in which each name may have dots."""
    cells = (
        cell
        for module, it in modules.items()
        for word, cell in it["cells"].items()
        if name.startswith(f"{module}.{word}.")
    )
    return place_in(next(cells, {}), originals)


class Groups:
    """Numbers that stand for nets, joined where they are one."""

    def __init__(self) -> None:
        self.up = [NET_ZERO, NET_ONE]

    def fresh(self) -> int:
        self.up.append(len(self.up))
        return len(self.up) - 1

    def root(self, number: int) -> int:
        while self.up[number] != number:
            self.up[number] = self.up[self.up[number]]
            number = self.up[number]
        return number

    def join(self, one: int, other: int) -> None:
        one, other = self.root(one), self.root(other)
        self.up[max(one, other)] = min(one, other)


def bit_names(base: str, shape: dict[str, Any], width: int) -> list[str]:
    """The names of the bits of a vector, from the right end of its range; the name itself where it is no vector."""
    offset = shape.get("offset", 0)
    if width == 1 and "offset" not in shape:
        return [base]
    numbers = range(offset, offset + width)
    return [f"{base}[{it}]" for it in (reversed(numbers) if shape.get("upto") else numbers)]


class Flattener:
    """Goes down the modules from the top, and gathers instances of cells, nets and their names."""

    def __init__(
        self, modules: dict[str, Any], cells: dict[str, LibraryPins], originals: dict[str, str], report: Report
    ):
        self.modules, self.cells, self.originals, self.report = modules, cells, originals, report
        self.groups = Groups()
        self.names: list[tuple[str, int, bool]] = []
        self.pins: list[tuple[Instance, str, int]] = []
        top = next(name for name, it in modules.items() if int(it["attributes"].get("top", "0"), 2))
        self.netlist = Netlist(top, self.place(modules[top]))

    def place(self, item: dict[str, Any]) -> Place:
        return place_in(item, self.originals)

    def number(self, bits: dict[Any, int], bit: Any) -> int:
        """The number of a bit of a module, in this instance of it."""
        if bit in ("0", "1"):
            return NET_ONE if bit == "1" else NET_ZERO
        if bit in ("x", "z"):
            return self.groups.fresh()
        if bit not in bits:
            bits[bit] = self.groups.fresh()
        return bits[bit]

    def descend(self, name: str, path: str, bits: dict[Any, int]) -> None:
        module = self.modules[name]
        for net, shape in module["netnames"].items():
            for bit, word in zip(shape["bits"], bit_names(net, shape, len(shape["bits"])), strict=True):
                self.names.append((path + word, self.number(bits, bit), bool(shape["hide_name"])))
            if not path and (len(shape["bits"]) > 1 or "offset" in shape):
                self.netlist.vectors[net] = Vector(list(reversed(bit_names(net, shape, len(shape["bits"])))))
        for word, cell in module["cells"].items():
            if cell["type"] in self.cells:
                self.leaf(path + word, cell, bits)
            elif cell["type"] in self.modules:
                self.block(path + word, cell, bits)
            else:
                place = self.place(cell)
                raise InputFault(
                    place.file, place.line or None, f"{word} is no instance of a cell: yosys made {cell['type']} of it"
                )

    def leaf(self, key: str, cell: dict[str, Any], bits: dict[Any, int]) -> None:
        pins, place = self.cells[cell["type"]], self.place(cell)
        made = Instance(key, cell["type"], {}, place.line)
        self.netlist.instances[made.name] = made
        for port, ends in cell["connections"].items():
            for number, bit in enumerate(ends):
                self.pins.append((made, pins.bit(port, number), self.number(bits, bit)))

    def block(self, key: str, cell: dict[str, Any], bits: dict[Any, int]) -> None:
        """An instance of a module: its ports are the nets that they are connected to."""
        module, inner = self.modules[cell["type"]], {}
        self.netlist.blocks[key] = cell["type"]
        for port, shape in module["ports"].items():
            names = bit_names(port, shape, len(shape["bits"]))
            outer = cell["connections"].get(port, [])
            for number, bit in enumerate(shape["bits"]):
                outside = self.number(bits, outer[number]) if number < len(outer) else self.groups.fresh()
                inside = self.number(inner, bit)
                self.groups.join(inside, outside)
                self.names.append((f"{key}{LEVEL}{names[number]}", outside, True))
                self.netlist.block_pins[f"{key}{LEVEL}{names[number]}"] = str(outside)
        self.descend(cell["type"], key + LEVEL, inner)

    def flat(self) -> Netlist:
        """The flat netlist: a port's net has its name, any other net the name that stands highest in the hierarchy."""
        top, bits = self.modules[self.netlist.name], {}
        self.descend(self.netlist.name, "", bits)
        best: dict[int, tuple[int, bool, int, str]] = {}
        for place, (key, number, hidden) in enumerate(self.names):
            rank = (key.count(LEVEL), hidden, place, key)
            root = self.groups.root(number)
            if root not in best or rank < best[root]:
                best[root] = rank
        called = {root: rank[3].replace(LEVEL, SEPARATOR) for root, rank in best.items()}
        self.ports(top, bits, called)
        called.update({NET_ZERO: ZERO, NET_ONE: ONE})
        self.fill(called)
        return self.netlist

    def ports(self, top: dict[str, Any], bits: dict[Any, int], called: dict[int, str]) -> None:
        """The ports of the top, inputs first; an output that is one net with another port is noted."""
        taken: dict[int, str] = {}
        for port, shape in sorted(top["ports"].items(), key=lambda it: it[1]["direction"]):
            if shape["direction"] == "inout":
                raise InputFault(
                    self.netlist.place.file, self.netlist.place.line, f"the port {port} is an inout, which is not read"
                )
            for name, bit in reversed(
                list(zip(bit_names(port, shape, len(shape["bits"])), shape["bits"], strict=True))
            ):
                root = self.groups.root(self.number(bits, bit))
                if root in (NET_ZERO, NET_ONE):
                    self.report.drop(
                        "constant-port", self.netlist.place, f"the port {name} is constant: it has no driver"
                    )
                    self.netlist.nets[name] = name
                elif root not in taken:
                    taken[root] = called[root] = name
                elif shape["direction"] == "input":
                    raise InputFault(
                        self.netlist.place.file,
                        self.netlist.place.line,
                        f"the input ports {taken[root]} and {name} are one net (E10)",
                    )
                else:
                    self.netlist.shared[name] = taken[root]
                    self.netlist.nets[name] = name
        for port, shape in top["ports"].items():
            names = bit_names(port, shape, len(shape["bits"]))
            self.netlist.ports.update(dict.fromkeys(reversed(names), shape["direction"]))

    def fill(self, called: dict[int, str]) -> None:
        """Nets, the other names of each, and the pins of instances."""
        netlist, counts = self.netlist, {}
        for made, pin, number in self.pins:
            root = self.groups.root(number)
            counts[root] = counts.get(root, 0) + 1
            made.nets[pin] = called.get(root)
        constants = (NET_ZERO, NET_ONE)
        for key, number, _ in self.names:
            root, name = self.groups.root(number), key.replace(LEVEL, SEPARATOR)
            if root in constants:
                continue
            net = called[root]
            if root in counts or net in netlist.ports:
                netlist.nets.setdefault(net, net)
                if name != net and name not in netlist.ports:
                    netlist.aliases.setdefault(name, net)
        netlist.block_pins = {
            key: called.get(self.groups.root(int(number)), "") for key, number in netlist.block_pins.items()
        }


def read_hierarchy(files: list[str], top: str | None, cells: dict[str, LibraryPins], report: Report) -> Netlist:
    """The flat netlist of files with any structure that yosys elaborates to instances of the library's cells."""
    modules, originals = run_yosys(files, top, cells, report)
    return Flattener(modules, cells, originals, report).flat()
