"""Writes parasitics for a netlist that nobody has placed: spef.py LIBRARY NETLIST >SPEF.

A net gets a trunk from its driver and a branch to each sink, four sinks at a joint. Lengths come from the number of
sinks and a checksum of the net's name; a micrometre has the resistance and capacitance of a wire in a 0.18 um process.
"""
import re
import sys
import zlib

OHM, FEMTOFARAD = 0.3, 0.2
SINKS_AT_A_JOINT = 4

HEADER = """*SPEF "IEEE 1481-1998"
*DESIGN "{design}"
*DATE "none"
*VENDOR "none"
*PROGRAM "spef.py"
*VERSION "1"
*DESIGN_FLOW "NETLIST_TYPE_VERILOG"
*DIVIDER /
*DELIMITER :
*BUS_DELIMITER [ ]
*T_UNIT 1 PS
*C_UNIT 1 FF
*R_UNIT 1 OHM
*L_UNIT 1 HENRY
"""


def outputs_of(library):
    """The output pins of each cell of a Liberty text."""
    outputs, cell, pin = {}, None, None
    words = r'\bcell\s*\(\s*"?([^\s")]+)|\bpin\s*\(\s*"?([^\s")]+)|\bdirection\s*:\s*"?(\w+)'
    for match in re.finditer(words, library):
        if match.group(1):
            cell = outputs.setdefault(match.group(1), set())
        elif match.group(2):
            pin = match.group(2)
        elif match.group(3) == "output":
            cell.add(pin)
    return outputs


def spelled(word):
    return word[1:] if word.startswith("\\") else word


def bits(span, name):
    """The nets of a declared name."""
    if not span:
        return [name]
    first, last = (int(word) for word in span.strip("[]").split(":"))
    step = 1 if last >= first else -1
    return [f"{name}[{k}]" for k in range(first, last + step, step)]


def read_netlist(text):
    """The module's name, its ports with their directions, and its instances: name, cell, pins with their nets."""
    text = re.sub(r"/\*.*?\*/|//[^\n]*", " ", text, flags=re.S)
    name = r"\\\S+(?=\s)|[A-Za-z_][\w$]*"
    ports, instances = {}, []
    declared = rf"\b(input|output)\s*(\[\d+:\d+\])?\s*((?:{name})(?:\s*,\s*(?:{name}))*)\s*;"
    for direction, span, names in re.findall(declared, text):
        for word in re.findall(name, names):
            ports.update(dict.fromkeys(bits(span, spelled(word)), direction))
    placed = rf"({name})\s+({name})\s*\(\s*(\..*?)\)\s*;"
    pins = rf"\.({name})\s*\(\s*({name})?\s*(\[\d+\])?\s*\)"
    body = text[text.index(";"):]
    for cell, instance, connections in re.findall(placed, body, flags=re.S):
        joined = [(pin, spelled(net) + bit) for pin, net, bit in re.findall(pins, connections) if net]
        instances.append((spelled(instance), cell, joined))
    return re.search(rf"module\s+({name})", text).group(1), ports, instances


def nets_of(ports, instances, outputs):
    """Each net with its driver and its sinks; a pin is its instance, or none for a port, its name and its cell."""
    nets = {net: [None, []] for net in ports}
    for port, direction in ports.items():
        if direction == "input":
            nets[port][0] = (None, port, None)
        else:
            nets[port][1].append((None, port, None))
    for instance, cell, pins in instances:
        for pin, net in pins:
            ends = nets.setdefault(net, [None, []])
            if pin in outputs[cell]:
                ends[0] = (instance, pin, cell)
            else:
                ends[1].append((instance, pin, cell))
    return {net: ends for net, ends in nets.items() if ends[0] and ends[1]}


def length(net, part, least, spread):
    return least + zlib.crc32(f"{net} {part}".encode()) % spread


class Names:
    """The name map: each name with its number. Marks are escaped, but for the brackets of a bit of a vector."""

    def __init__(self, names, marked):
        self.numbers = {name: f"*{number}" for number, name in enumerate(names, 1)}
        self.marked = marked

    def lines(self):
        for name, number in self.numbers.items():
            mark = r"([^A-Za-z0-9_])" if name in self.marked else r"([^A-Za-z0-9_\[\]])"
            escaped = re.sub(mark, r"\\\1", name)
            yield f"{number} {escaped}"

    def pin(self, pin):
        instance, name, _ = pin
        return self.numbers[name] if instance is None else f"{self.numbers[instance]}:{name}"


def wires(names, net, driver, sinks):
    """The capacitances and resistors of a net: a trunk of joints, and at each the branches to its sinks."""
    caps, ress, before = [], [], names.pin(driver)
    for at in range(0, len(sinks), SINKS_AT_A_JOINT):
        joint = f"{names.numbers[net]}:{at // SINKS_AT_A_JOINT + 1}"
        trunk = length(net, at, 12 + 2 * len(sinks), 30)
        branches = [(names.pin(sink), length(net, sink, 4, 16)) for sink in sinks[at:at + SINKS_AT_A_JOINT]]
        caps.append((joint, FEMTOFARAD * (trunk + sum(branch for _, branch in branches) / 2)))
        ress.append((before, joint, OHM * trunk))
        for sink, branch in branches:
            caps.append((sink, FEMTOFARAD * branch / 2))
            ress.append((joint, sink, OHM * branch))
        before = joint
    return caps, ress


def connection(names, pin, direction):
    instance, _, cell = pin
    if instance is None:
        return f"*P {names.pin(pin)} {'I' if direction == 'O' else 'O'}"
    return f"*I {names.pin(pin)} {direction} *D {cell}"


def net_lines(names, net, driver, sinks):
    caps, ress = wires(names, net, driver, sinks)
    yield f"*D_NET {names.numbers[net]} {sum(cap for _, cap in caps):.3f}"
    yield "*CONN"
    yield connection(names, driver, "O")
    yield from (connection(names, sink, "I") for sink in sinks)
    yield "*CAP"
    yield from (f"{row} {node} {cap:.3f}" for row, (node, cap) in enumerate(caps, 1))
    yield "*RES"
    yield from (f"{row} {a} {b} {res:.3f}" for row, (a, b, res) in enumerate(ress, 1))
    yield "*END\n"


def main():
    if len(sys.argv) != 3 or "--help" in sys.argv:
        sys.exit(__doc__.strip())
    library, netlist = (open(name).read() for name in sys.argv[1:3])
    design, ports, instances = read_netlist(netlist)
    nets = nets_of(ports, instances, outputs_of(library))
    marked = {word[1:] for word in re.findall(r"\\\S+", netlist)}
    names = Names(dict.fromkeys(list(nets) + [instance for instance, _, _ in instances]), marked)
    out = sys.stdout
    out.write(HEADER.format(design=design) + "\n*NAME_MAP\n")
    out.writelines(line + "\n" for line in names.lines())
    out.write("\n*PORTS\n")
    out.writelines(f"{names.numbers[port]} {'I' if way == 'input' else 'O'}\n" for port, way in ports.items()
                   if port in nets)
    out.write("\n")
    for net, (driver, sinks) in nets.items():
        out.writelines(line + "\n" for line in net_lines(names, net, driver, sinks))
