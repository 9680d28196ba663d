"""Why a refused ECO's parasitics do not fit their net (E14, E15): which pin or node it is, by the netlist and edits."""
from collections.abc import Callable

from lizdrog_tools.files import TextFault
from lizdrog_tools.spef import SpefNet
from lizdrog_tools.verilog import Joined, Net

CODES = ("E14", "E15")
MOST = 6


def parasitics_of(edit: str) -> SpefNet:
    """What a set_parasitics gives its net."""
    _, name, *words = edit.split()
    found, at = SpefNet(name, 0, 0), 0
    while at < len(words):
        if words[at] == "c":
            found.caps.append((words[at + 1], int(words[at + 2])))
            at += 3
        elif words[at] == "r":
            found.ress.append((words[at + 1], words[at + 2], int(words[at + 3])))
            at += 4
        else:
            at += 1
    return found


def some(names: set[str]) -> str:
    """Some names in order, and whether there is one or there are more."""
    more = " .." if len(names) > MOST else ""
    return f"{', '.join(sorted(names)[:MOST])}{more}, which {'is' if len(names) == 1 else 'are'}"


def net_text(whose: str, net: Net) -> str:
    more = " .." if len(net.sinks) > MOST else ""
    sinks = ", ".join(sorted(net.sinks)[:MOST]) or "nothing"
    return f"{whose} {net.name} is driven by {', '.join(net.drivers) or 'nothing'} and leads to {sinks}{more}"


def misfits(code: str, parasitics: SpefNet, net: Net) -> list[str]:
    """Where the parasitics and the pins of a net differ, one line each."""
    told, pins = [], {*net.drivers, *net.sinks}
    strange, bare = parasitics.named_pins() - pins, pins - parasitics.ends()
    if strange:
        told.append(f"its parasitics name {some(strange)} not on the net")
    if parasitics.ress and bare:
        told.append(f"no resistor ends at {some(bare)} on the net")
    shape = parasitics.misshape() if code == "E14" else None
    return [*told, *([shape] if shape else [])]


def lines(words: list[str], edits: list[str], tried: Callable[[], Joined] | None) -> list[str]:
    """What is seen of the cause of a refused ECO; `words` are its code and the net, and `tried` makes its edits, where
    the design is known."""
    if words[0] not in CODES or len(words) < 2:
        return []
    code, name = words
    given = [it for it in edits if it.split()[:2] == ["set_parasitics", name]]
    if tried is None:
        return ["tools/read_answers.py with --netlist and --library tells which pin it is; or ask "
                f"report_net {name} in a draft, behind the edits that move its pins: it names them, and its last line "
                "has its parasitics"]
    try:
        net = tried().nets.get(name)
    except TextFault:
        return []
    if net is None or not given:
        return []
    return [*misfits(code, parasitics_of(given[-1]), net), net_text("behind these edits the net", net)]
