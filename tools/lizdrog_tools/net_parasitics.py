"""Writes the parasitics of nets of a SPEF as lines of a script: net_parasitics.py SPEF NET .. [--as NET]
[--rename PIN=PIN] .. [--inner PIN] ..

It prints `set_parasitics NET c .. r ..` for each net; the options are for a single one. An edit that changes a net's
connections drops the net's parasitics; put this line after it, into the same group, and the wires stay.

  --as NET          the line is for this net, such as the new net of a buffer
  --rename OLD=NEW  the wires that led to the pin OLD lead to the pin NEW
  --inner PIN       the pin becomes an inner node, where the wires stay and no pin is: for a pin that has left the net
Write --rename and --inner once for each pin.

For `insert_buffer n2 b1 n3 BUFX2 r2:D r3:D`, where the buffer takes the place of r2:D:
  net_parasitics.py SPEF n2 --rename r2:D=b1:A --inner r3:D               the net that is left
  net_parasitics.py SPEF n2 --as n3 --rename g1:Z=b1:Y --inner OTHER   the new net, with the wires of the old one
The second counts the wires up to the old driver's place as the buffer's: that is too much rather than too little.
"""
import argparse

from lizdrog_tools.files import InputFault, line_of, tool
from lizdrog_tools.spef import read_spef

LONGEST = 65536


def renamed(net, pins, inner):
    """A function from a net's nodes to those of the line."""
    numbers = [int(it[1:]) for it in net.nodes() if it.startswith("#")]
    free = max(numbers, default=0)
    for pin in inner:
        free += 1
        pins[pin] = f"#{free}"
    return lambda node: pins.get(node, node)


def line_of_net(net, name, node):
    """The line, capacitances first."""
    words = ["set_parasitics", name]
    if not net.ress:
        total = sum(value for _, value in net.caps) if net.caps else net.total
        return " ".join([*words, "c", "#1", str(total)])
    for pin, value in net.caps:
        words += ["c", node(pin), str(value)]
    for one, other, value in net.ress:
        words += ["r", node(one), node(other), str(value)]
    return " ".join(words)


def edit_of(given, spef, name):
    """The line of one net."""
    net = spef.nets.get(name)
    if net is None:
        raise InputFault(given.spef, None, f"it has no net {name}")
    line = line_of(spef.text, net.offset)
    pairs = [it.partition("=") for it in given.rename]
    unknown = [it for it in [*(pair[0] for pair in pairs), *given.inner] if net.ress and it not in net.named_pins()]
    if unknown:
        named = ', '.join(sorted(net.named_pins()))
        raise InputFault(given.spef, line, f"the parasitics of {name} name {named} and not {', '.join(unknown)}")
    edit = line_of_net(net, given.name or name, renamed(net, {one: other for one, _, other in pairs}, given.inner))
    if len(edit) > LONGEST:
        said = f"the line has {len(edit)} bytes, and a script's line at most {LONGEST}"
        raise InputFault(given.spef, line, f"{said}: this net cannot be given in a script")
    return edit


@tool("net_parasitics")
def main():
    parser = argparse.ArgumentParser(description=__doc__, formatter_class=argparse.RawDescriptionHelpFormatter)
    parser.add_argument("spef")
    parser.add_argument("nets", nargs="+", metavar="NET")
    parser.add_argument("--as", dest="name")
    parser.add_argument("--rename", action="append", default=[], metavar="OLD=NEW")
    parser.add_argument("--inner", action="append", default=[], metavar="PIN")
    given = parser.parse_args()
    if len(given.nets) > 1 and (given.name or given.rename or given.inner):
        parser.error("--as, --rename and --inner are for one net")
    spef = read_spef(given.spef)
    print("\n".join([edit_of(given, spef, name) for name in given.nets]))
