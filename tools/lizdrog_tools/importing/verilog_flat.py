"""Reads a netlist that is flat already, and writes one; what is not flat is for yosys (verilog_hierarchy)."""
import re

from lizdrog_tools.files import line_of
from lizdrog_tools.importing.netlist import CONSTANTS, ONE, ZERO, Instance, Netlist, Vector
from lizdrog_tools.importing.report import Place

HIDDEN = re.compile(r"\\\S+|//[^\n]*|/\*.*?\*/|\(\*(?!\)).*?\*\)|^[ \t]*`[^\n]*", re.S | re.M)
NAME = r"(?:\\(\S+)\s|([A-Za-z_][\w$]*))"
WORD = re.compile(rf"\s*{NAME}")
CONNECTION = re.compile(rf"\s*\.\s*{NAME}\s*\(\s*(?:(1'[bh][01])|{NAME}\s*(?:\[\s*(\d+)\s*\])?)?\s*\)\s*(,)?")
RANGE = re.compile(r"\s*\[\s*(\d+)\s*:\s*(\d+)\s*\]")
DECLARED = re.compile(rf"\s*{NAME}\s*(,|;|\))")
MARK = re.compile(r"\s*([^\s\w\\])")
PLAIN_NAME = re.compile(r"[A-Za-z_][A-Za-z0-9_$]*")
BIT = re.compile(r"([A-Za-z_][A-Za-z0-9_$]*)\[(0|[1-9]\d{0,8})\]")
LITERALS = {"1'b0": ZERO, "1'h0": ZERO, "1'b1": ONE, "1'h1": ONE}
RESERVED = {
    "module",
    "endmodule",
    "input",
    "output",
    "inout",
    "wire",
    "assign",
    "supply0",
    "supply1",
    "reg",
    "tri",
    "parameter",
    "always",
    "initial",
    "generate",
    "function",
    "task",
    "if",
    "begin",
    "end",
    "case",
    "for",
    "wand",
    "wor",
    "specify",
}
WAYS = ("input", "output", "wire")


class NotFlat(Exception):
    """The text is no flat module of named connections: where, and what is seen there."""

    def __init__(self, line: int, seen: str):
        super().__init__(seen)
        self.line, self.seen = line, seen


def without_comments(text: str) -> str:
    """The text with blanks for comments and attributes, each line kept."""

    def blank(found: re.Match) -> str:
        word = found.group()
        return word if word.startswith("\\") else " " + "\n" * word.count("\n")

    return HIDDEN.sub(blank, text)


def spelled(found: re.Match, group: int) -> str | None:
    """The name that two groups of a match hold, escaped or plain."""
    return found.group(group) or found.group(group + 1)


class FlatReader:
    """Goes over the text of one flat module."""

    def __init__(self, text: str, file: str):
        self.text, self.file, self.at = without_comments(text), file, 0
        self.counted_to, self.lines = 0, 1
        self.header_names: list[str] = []
        self.netlist = Netlist("", Place(file))

    def line(self) -> int:
        self.lines += self.text.count("\n", self.counted_to, self.at)
        self.counted_to = max(self.at, self.counted_to)
        return self.lines

    def fail(self, seen: str) -> NotFlat:
        return NotFlat(line_of(self.text, self.at), seen)

    def word(self) -> str:
        found = WORD.match(self.text, self.at)
        if not found:
            raise self.fail(f"`{self.text[self.at:self.at + 20].strip()}`")
        self.at = found.end()
        return spelled(found, 1)

    def mark(self, wanted: str) -> None:
        found = MARK.match(self.text, self.at)
        if not found or found.group(1) != wanted:
            raise self.fail(f"no {wanted} where one is expected")
        self.at = found.end()

    def read(self) -> Netlist:
        if self.word() != "module":
            raise self.fail("no module")
        self.netlist.name = self.word()
        self.header()
        while True:
            word = self.word()
            if word == "endmodule":
                break
            self.statement(word)
        if self.text[self.at :].strip():
            raise self.fail("a second module")
        bare = [it for it in self.header_names if it not in self.netlist.ports and it not in self.netlist.vectors]
        if bare:
            raise self.fail(f"the port {bare[0]} without a direction")
        return self.netlist

    def header(self) -> None:
        """The ports of the header: names alone, or declarations."""
        self.mark("(")
        way, span = None, None
        while True:
            found = MARK.match(self.text, self.at)
            if found and found.group(1) == ")":
                self.at = found.end()
                break
            start = self.at
            word = self.word()
            if word in ("input", "output"):
                way, span = word, None
            elif word == "wire" and way:
                span = None
            elif word in RESERVED:
                self.at = start
                raise self.fail(word)
            else:
                self.header_names.append(word)
                if way:
                    self.declare(way, word, span)
                if self.text[self.at :].lstrip()[:1] == ",":
                    self.mark(",")
                continue
            span = self.range() or span
        self.mark(";")

    def range(self) -> list[int] | None:
        found = RANGE.match(self.text, self.at)
        if not found:
            return None
        self.at = found.end()
        left, right = int(found.group(1)), int(found.group(2))
        step = 1 if right >= left else -1
        return list(range(left, right + step, step))

    def declare(self, way: str, name: str, span: list[int] | None) -> None:
        names = [name] if span is None else [f"{name}[{it}]" for it in span]
        if span is not None:
            self.netlist.vectors[name] = Vector(names)
        for bit in names:
            self.netlist.nets.setdefault(bit, bit)
            if way != "wire":
                self.netlist.ports[bit] = way

    def statement(self, word: str) -> None:
        """A declaration or an instance, whose first word was read."""
        if word in WAYS:
            span = self.range()
            while True:
                found = DECLARED.match(self.text, self.at)
                if not found:
                    raise self.fail(f"a declaration of {word} that is no list of names")
                self.at = found.end()
                self.declare(word, spelled(found, 1), span)
                if found.group(3) == ";":
                    return
        if word in RESERVED:
            raise self.fail(word)
        self.instance(word)

    def instance(self, cell: str) -> None:
        """An instance of a cell, by named connections."""
        line, key = self.line(), self.word()
        self.mark("(")
        nets, names = {}, self.netlist.nets
        while found := CONNECTION.match(self.text, self.at):
            self.at = found.end()
            net = found.group(4) or found.group(5)
            if found.group(6):
                net = f"{net}[{int(found.group(6))}]"
            if net is None:
                net = LITERALS[found.group(3)] if found.group(3) else None
            elif net in self.netlist.vectors:
                raise self.fail(f"the vector {net} on a pin")
            elif net not in names:
                names[net] = net
            nets[spelled(found, 1)] = net
        if key in self.netlist.instances:
            raise self.fail(f"a second instance {key}")
        self.netlist.instances[key] = Instance(key, cell, nets, line)
        self.mark(")")
        self.mark(";")


def read_flat(text: str, file: str) -> Netlist:
    """The netlist of a text that has one flat module; `NotFlat` says what else it has."""
    return FlatReader(text, file).read()


def verilog_word(name: str) -> str:
    """A name as Verilog writes it, escaped where it has to be."""
    return name if PLAIN_NAME.fullmatch(name) and name not in RESERVED else f"\\{name} "


def ranged(netlist: Netlist, base: str) -> str | None:
    """The range of a vector whose bits are all there with falling or rising indexes; none where it is written bit by
    bit."""
    names = netlist.vectors[base].bits
    found = [BIT.fullmatch(it) for it in names]
    if not PLAIN_NAME.fullmatch(base) or not all(found) or base in netlist.nets:
        return None
    if len({netlist.ports.get(it) for it in names}) > 1 or not all(it in netlist.nets for it in names):
        return None
    bits = [int(it.group(2)) for it in found]
    step = 1 if bits[-1] >= bits[0] else -1
    return f"[{bits[0]}:{bits[-1]}]" if bits == list(range(bits[0], bits[-1] + step, step)) else None


class FlatWriter:
    """Writes a netlist in the words that the proved reader takes."""

    def __init__(self, netlist: Netlist):
        self.netlist = netlist
        self.spans = {base: span for base in netlist.vectors if (span := ranged(netlist, base))}
        self.in_vectors = {bit: base for base in self.spans for bit in netlist.vectors[base].bits}

    def net(self, net: str | None) -> str:
        if net is None:
            return ""
        return net if net in CONSTANTS or net in self.in_vectors else verilog_word(net)

    def declarations(self) -> list[str]:
        lines, done = [], set()
        for net in [*self.netlist.ports, *self.netlist.nets]:
            way, base = self.netlist.ports.get(net, "wire"), self.in_vectors.get(net)
            word = base or net
            if word in done:
                continue
            done.add(word)
            lines.append(f"  {way} {self.spans[base]} {base};" if base else f"  {way} {verilog_word(net)};")
        return lines

    def lines(self) -> list[str]:
        ports = list(dict.fromkeys(self.in_vectors.get(it, it) for it in self.netlist.ports))
        lines = [f"module {verilog_word(self.netlist.name)} ({', '.join(verilog_word(it) for it in ports)});"]
        lines += self.declarations()
        for instance in self.netlist.instances.values():
            pins = ", ".join(f".{verilog_word(pin)}({self.net(net)})" for pin, net in instance.nets.items())
            lines.append(f"  {instance.cell} {verilog_word(instance.name)} ({pins});")
        return [*lines, "endmodule"]


def write_flat(netlist: Netlist) -> str:
    return "\n".join(FlatWriter(netlist).lines()) + "\n"
