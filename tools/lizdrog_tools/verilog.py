"""Reads netlists (structural Verilog) in a plain, forgiving way, and joins them with the cells of a library."""
import collections
import itertools
import os
import re

from lizdrog_tools.files import TextFault, line_of, parsed
from lizdrog_tools.liberty import Library

VERILOG_TOKEN = re.compile(
    r"//[^\n]*|/\*.*?\*/|\(\*(?!\)).*?\*\)|^`[^\n]*|\\(\S+)|([A-Za-z_][\w$]*)|(\d+'\w+)|(\d+)|([^\s\w])", re.S | re.M
)


ESCAPED, IDENTIFIER, VALUE, MARK = 1, 2, 3, 5
NAME = r"(?:\\\S+(?=\s)|[A-Za-z_][\w$]*)"
INSTANCE = re.compile(rf"\s*({NAME})\s+({NAME})\s*\(")
CONNECTION = re.compile(
    rf"\s*\.\s*({NAME})\s*\(\s*"
    rf"(?:({NAME})\s*(?:\[\s*([0-9]{{1,9}})\s*\]\s*)?|(\d+'\w+)\s*)?\)\s*(,|\)\s*;)"
)
DECLARED = rf"(?!\\?wire\b){NAME}"
ONE_DECLARED = re.compile(DECLARED)
DECLARATION = re.compile(
    r"\s*(input|output|wire)\s+(?:\[\s*([0-9]{1,9})\s*:\s*([0-9]{1,9})\s*\]\s*)?"
    rf"({DECLARED}(?:\s*,\s*{DECLARED})*)\s*;"
)
WORDS = {"input", "output", "wire", "module", "endmodule"}
MODULE, MODULES = re.compile(r"\b(?:end)?module\b"), ["module", "endmodule"]
BIT = re.compile(r"[0-9]{1,9}")
FLATTEN = "flatten the design into one module first (yosys: synth -flatten)"


class Instance:
    """An instance with the nets of its pins: none for one that is open or tied to a constant."""

    __slots__ = ("cell", "name", "nets", "offset", "tied")

    def __init__(self, name: str, cell: str, offset: int):
        self.name, self.cell, self.offset = name, cell, offset
        self.nets: dict[str, str | None] = {}
        self.tied: set[str] = set()

    def copied(self) -> "Instance":
        """A copy with connections of its own."""
        made = Instance(self.name, self.cell, self.offset)
        made.nets, made.tied = dict(self.nets), self.tied
        return made


def bits_of(first: int, last: int) -> list[str]:
    """The bits of a range, from its first to its last, at most as many as a design may have."""
    step = 1 if last >= first else -1
    return [f"[{it}]" for it in itertools.islice(range(first, last + step, step), 200001)]


class Tokens:
    """The tokens of a text, each with its sort and its place, made as they are asked for."""

    def __init__(self, text: str):
        self.text, self.at = text, 0
        self.ahead: collections.deque[tuple[int, str, int]] = collections.deque()

    def fill(self, count: int) -> bool:
        """Whether there are so many tokens."""
        while len(self.ahead) < count:
            found = VERILOG_TOKEN.search(self.text, self.at)
            if found is None:
                return False
            self.at = found.end()
            if found.lastindex:
                self.ahead.append((found.lastindex, found.group(found.lastindex), found.start()))
        return True

    def look(self, ahead: int = 0) -> str:
        return self.ahead[ahead][1] if self.fill(ahead + 1) else ""

    def sort(self) -> int:
        """The sort of the next token, 0 at the end."""
        return self.ahead[0][0] if self.fill(1) else 0

    def take(self) -> tuple[int, str, int]:
        return self.ahead.popleft() if self.fill(1) else (0, "", len(self.text))

    def place(self) -> int:
        """Where the next token is, or what stands before it."""
        return self.ahead[0][2] if self.ahead else self.at

    def go_on(self, place: int) -> None:
        """Goes on at another place."""
        self.ahead.clear()
        self.at = place


class Netlist:
    """A structural module: ports with directions, instances with the nets of their pins, and declared nets."""

    def __init__(self, text: str):
        self.text, self.name = text, ""
        self.ports, self.instances, self.declared = {}, {}, {}
        self.tokens = Tokens(text)
        self.is_whole = False
        self.module()

    def module(self) -> None:
        tokens = self.tokens
        while tokens.look() not in ("module", ""):
            tokens.take()
        tokens.take()
        self.name = tokens.take()[1]
        self.header()
        while self.plain_statements() not in ("endmodule", ""):
            if tokens.look() in ("input", "output", "wire") and tokens.sort() == IDENTIFIER:
                self.declaration(tokens.take()[1], ";")
            elif tokens.look(2) == "(":
                self.instance()
            else:
                tokens.take()
        self.is_whole = tokens.sort() == IDENTIFIER

    def header(self) -> None:
        tokens = self.tokens
        while tokens.look() not in (";", ""):
            if tokens.look() in ("input", "output"):
                self.declaration(tokens.take()[1], ")")
            else:
                tokens.take()

    def plain_statements(self) -> str:
        """Reads statements as most tools write them; gives the token behind them."""
        at = -1
        while at != self.tokens.place():
            at = self.tokens.place()
            while self.plain_declaration():
                pass
            while self.plain_instance():
                pass
        return self.tokens.look()

    def plain_instance(self) -> bool:
        """Reads an instance as most tools write it: each pin by its name, with a net, a bit, a constant or nothing."""
        head = INSTANCE.match(self.text, self.tokens.place())
        if head is None or head.group(1) in WORDS:
            return False
        made = Instance(head.group(2).removeprefix("\\"), head.group(1).removeprefix("\\"), head.start(1))
        at, mark = head.end(), ","
        while mark == ",":
            found = CONNECTION.match(self.text, at)
            if found is None:
                return False
            pin, net, bit, value, mark = found.groups()
            pin = pin.removeprefix("\\")
            if value:
                made.tied.add(pin)
            net = net.removeprefix("\\") if net else None
            made.nets[pin] = f"{net}[{int(bit)}]" if net and bit else net
            at = found.end()
        self.instances[made.name] = made
        self.tokens.go_on(at)
        return True

    def plain_declaration(self) -> bool:
        """Reads a declaration of plain names, with one range or none."""
        found = DECLARATION.match(self.text, self.tokens.place())
        if found is None:
            return False
        way, first, last, names = found.groups()
        span = bits_of(int(first), int(last)) if first else [""]
        for it in ONE_DECLARED.finditer(f"{names} ") if "," in names else ():
            self.declare(way, it.group().removeprefix("\\"), span, found.start(4) + it.start())
        if "," not in names:
            self.declare(way, names.removeprefix("\\"), span, found.start(4))
        self.tokens.go_on(found.end())
        return True

    def declare(self, way: str, word: str, span: list[str], offset: int) -> None:
        for bit in span:
            self.declared.setdefault(word + bit, offset)
            if way != "wire":
                self.ports[word + bit] = way

    def declaration(self, way: str, end: str) -> None:
        """Names of one declaration, each bit by itself; a header's declaration ends before the next direction."""
        span, tokens = [""], self.tokens
        while tokens.look() not in (end, ""):
            if tokens.look() in ("input", "output") and end == ")":
                break
            sort, word, offset = tokens.take()
            if (
                word == "["
                and sort == MARK
                and tokens.look(1) == ":"
                and BIT.fullmatch(tokens.look())
                and BIT.fullmatch(tokens.look(2))
            ):
                span = bits_of(int(tokens.look()), int(tokens.look(2)))
                for _ in range(4):
                    tokens.take()
            elif sort in (ESCAPED, IDENTIFIER) and word != "wire":
                self.declare(way, word, span, offset)

    def instance(self) -> None:
        tokens = self.tokens
        (_, cell, offset), (_, name, _) = tokens.take(), tokens.take()
        made = Instance(name, cell, offset)
        tokens.take()
        while tokens.look() not in (";", ""):
            if tokens.look() == "." and tokens.look(2) == "(":
                tokens.take()
                pin = tokens.take()[1]
                tokens.take()
                if tokens.sort() == VALUE:
                    made.tied.add(pin)
                made.nets[pin] = self.connection()
            else:
                tokens.take()
        self.instances[name] = made

    def connection(self) -> str | None:
        """The net up to the closing bracket, or none."""
        tokens = self.tokens
        sort, net, _ = tokens.take()
        if net == ")" and sort == MARK:
            return None
        if tokens.look() == "[":
            tokens.take()
            net = f"{net}[{int(tokens.take()[1])}]" if BIT.fullmatch(tokens.look()) else net
        return net if sort in (ESCAPED, IDENTIFIER) else None


class Net:
    """A net with the pins that drive it and those that it leads to."""

    __slots__ = ("drivers", "name", "sinks")

    def __init__(self, name: str):
        self.name, self.drivers, self.sinks = name, [], []


class Joined:
    """A netlist with its cells: each net with its drivers and sinks, as pin words."""

    def __init__(self, netlist: Netlist, library: Library):
        self.netlist, self.library, self.net_of = netlist, library, {}
        self.ends = None
        self.nets = {name: Net(name) for name in netlist.declared}
        for port, way in netlist.ports.items():
            self.join(port, port, way == "input")
        for instance in netlist.instances.values():
            self.join_all(instance)

    def join(self, pin: str, name: str, drives: bool) -> None:
        net = self.nets.get(name) or self.nets.setdefault(name, Net(name))
        (net.drivers if drives else net.sinks).append(pin)
        self.net_of[pin] = name

    def join_all(self, instance: Instance) -> None:
        """Joins the pins of an instance that its cell has."""
        cell = self.library.cells.get(instance.cell)
        for pin, name in instance.nets.items() if cell else ():
            if name is not None and pin in cell.pins:
                self.join(f"{instance.name}:{pin}", name, cell.pins[pin][0] == "output")

    def exchange(self, old: Instance | None, made: Instance | None) -> None:
        """Joins an instance in the place of another."""
        self.ends = None
        for pin in old.nets if old else ():
            word = f"{old.name}:{pin}"
            net = self.nets.get(self.net_of.pop(word, None))
            for pins in (net.drivers, net.sinks) if net else ():
                if word in pins:
                    pins.remove(word)
        if made:
            self.join_all(made)

    def cell_of(self, pin: str) -> str | None:
        """The cell's name of an instance pin, or none for a port."""
        instance = self.netlist.instances.get(pin.rpartition(":")[0])
        return instance.cell if instance else None

    def endpoints(self) -> list[str]:
        """The pins that may be asked with report_endpoint: data pins of registers and output ports, by name."""
        found = [port for port, way in self.netlist.ports.items() if way == "output"]
        for instance in self.netlist.instances.values():
            cell = self.library.cells.get(instance.cell)
            found += [f"{instance.name}:{pin}" for pin in sorted(cell.data_pins())] if cell else []
        return sorted(found)

    def endpoints_as_set(self) -> set[str]:
        """The same pins as a set, made once."""
        if self.ends is None:
            self.ends = set(self.endpoints())
        return self.ends


def parse_netlist(text: str) -> Netlist:
    """The netlist of a text that has one module, and that to its end."""
    netlist = Netlist(text)
    if not netlist.is_whole or text.count("module") > len(MODULES) and MODULE.findall(text) != MODULES:
        check_modules(text, netlist.name)
    return netlist


def check_modules(text: str, name: str) -> None:
    """Refuses a text that has no module, several, or one without its end."""
    tokens = [(it.group(IDENTIFIER), it) for it in VERILOG_TOKEN.finditer(text) if it.lastindex]
    modules = [at for at, (word, _) in enumerate(tokens) if word == "module"]
    if not modules:
        raise TextFault(None, "no module is found: this is no netlist (Verilog)")
    if len(modules) > 1:
        found = tokens[min(modules[1] + 1, len(tokens) - 1)][1]
        raise TextFault(line_of(text, found.start()), f"a second module, {found.group(found.lastindex)}: {FLATTEN}")
    if not any(word == "endmodule" for word, _ in tokens):
        raise TextFault(line_of(text, len(text)), f"the module {name} has no endmodule: the netlist is cut short")


def read_netlist(name: str | os.PathLike) -> Netlist:
    """The netlist of a file."""
    return parsed(name, parse_netlist)
