"""The clocks of the constraints: their edges, the time from a launch to a capture edge, and what each clock captures.

Times are whole femtoseconds. What cannot be read of the constraints is left out; the slacks of a page are the
program's own.
"""
import collections
import dataclasses
import decimal
import math

from lizdrog_tools.liberty import RISE, Library
from lizdrog_tools.sdc import SdcCommand, read_commands
from lizdrog_tools.verilog import Joined

SETUP, HOLD = "setup", "hold"
FEMTOSECONDS = {"ps": 1e3, "1ps": 1e3, "1.0ps": 1e3, "10ps": 1e4, "100ps": 1e5, "ns": 1e6, "1ns": 1e6, "1.0ns": 1e6}


@dataclasses.dataclass
class Clock:
    """A clock: its port where it has one, its edges, and how uncertain they are by kind."""

    name: str
    port: str | None
    period: int
    edges: dict[str, int]
    uncertainty: dict[str, int] = dataclasses.field(default_factory=lambda: {SETUP: 0, HOLD: 0})


def whole(word: str, unit: float) -> int | None:
    """A number of the constraints as whole femtoseconds, rounded as the program rounds; none where it is no number."""
    try:
        exact = decimal.Decimal(word) * decimal.Decimal(unit)
    except ArithmeticError:
        return None
    return int((exact + decimal.Decimal("0.5")).to_integral_value(decimal.ROUND_FLOOR))


def clock_of(command: SdcCommand, unit: float) -> Clock | None:
    """The clock that a create_clock makes, where it can be read."""
    period_word, name_word, waveform = (command.after(f"-{it}") for it in ("period", "name", "waveform"))
    period = whole(period_word.text, unit) if period_word else None
    plain = [it for it in command.words if it not in (period_word, name_word, waveform) and not it.text.startswith("-")]
    port = plain[0].names[0] if plain and plain[0].names else None
    name = name_word.names[0] if name_word and name_word.names else port
    if not period or not name:
        return None
    rise, fall = 0, period // 2
    if waveform and len(waveform.names) == 2:
        rise, fall = (whole(it, unit) or 0 for it in waveform.names)
    return Clock(name, port, period, {RISE: rise, "fall": fall})


def uncertain(command: SdcCommand, clocks: dict[str, Clock], unit: float) -> None:
    """Notes a set_clock_uncertainty; the last one counts."""
    words = [it for it in command.words if not it.text.startswith("-") or it.text[1:2].isdigit() or it.text[1:2] == "."]
    amount = whole(words[0].text, unit) if words else None
    kinds = [it for it in (SETUP, HOLD) if command.has(f"-{it}")] or [SETUP, HOLD]
    for word in words[1:]:
        for name in word.names:
            if name in clocks and amount is not None:
                clocks[name].uncertainty.update(dict.fromkeys(kinds, amount))


def read_clocks(sdc: str, time_unit: float) -> dict[str, Clock]:
    """The clocks of the constraints by name; the unit is that of the late library until set_units says another."""
    clocks: dict[str, Clock] = {}
    for command in read_commands(sdc):
        if command.name == "set_units" and (word := command.after("-time")):
            time_unit = FEMTOSECONDS.get(word.text, time_unit)
        elif command.name == "create_clock" and (clock := clock_of(command, time_unit)):
            clocks[clock.name] = clock
        elif command.name == "set_clock_uncertainty":
            uncertain(command, clocks, time_unit)
    return clocks


def separation(launch: tuple[Clock, str], capture: tuple[Clock, str], kind: str) -> int:
    """The time from a launch edge to the capture edge of a kind, before exceptions."""
    common = math.gcd(launch[0].period, capture[0].period)
    least = (capture[0].edges[capture[1]] - launch[0].edges[launch[1]]) % common or common
    return least if kind == SETUP else least - common


# ------------------------------------------------------------------------------------------------ what a clock captures


def arcs_from(library: Library, joined: Joined, pin: str) -> list[str]:
    """The output pins that a pin of a gate reaches in its cell; a register ends the way."""
    instance = joined.netlist.instances.get(pin.rpartition(":")[0])
    cell = library.cells.get(instance.cell) if instance else None
    if cell is None:
        return []
    name = pin.rpartition(":")[2]
    return sorted({f"{instance.name}:{arc[2]}" for arc in cell.arcs if arc[0] == name and arc[4] == "comb"})


def network_pins(joined: Joined, port: str) -> set[str]:
    """All input pins that a clock reaches from its port through gates."""
    seen, waiting = set(), collections.deque([port])
    while waiting:
        net = joined.nets.get(joined.net_of.get(waiting.popleft(), ""))
        for sink in net.sinks if net else ():
            if sink not in seen:
                seen.add(sink)
                waiting.extend(arcs_from(joined.library, joined, sink))
    return seen


def output_clocks(sdc: str) -> dict[str, list[str]]:
    """The clocks of the delays of output ports."""
    found: dict[str, list[str]] = {}
    for command in read_commands(sdc):
        clock = command.after("-clock")
        if command.name == "set_output_delay" and clock and clock.names:
            ports = command.words[-1].names if command.words else []
            for port in ports:
                names = found.setdefault(port, [])
                if clock.names[0] not in names:
                    names.append(clock.names[0])
    return found


def capture_clocks(joined: Joined, sdc: str, clocks: dict[str, Clock]) -> dict[str, str]:
    """The clocks that capture at each endpoint, as one word."""
    reached: dict[str, list[str]] = {}
    for clock in clocks.values():
        for pin in network_pins(joined, clock.port) if clock.port else ():
            reached.setdefault(pin, []).append(clock.name)
    found = {port: ", ".join(names) for port, names in output_clocks(sdc).items()}
    for instance in joined.netlist.instances.values():
        cell = joined.library.cells.get(instance.cell)
        for pin in cell.data_pins() if cell else ():
            tests = {test[2] for test in cell.tests if test[0] == pin}
            names = sorted({name for clock in tests for name in reached.get(f"{instance.name}:{clock}", [])})
            if names:
                found[f"{instance.name}:{pin}"] = ", ".join(names)
    return found


def clock_edge(joined: Joined, pin: str, kind: str) -> tuple[str, str] | None:
    """The clock pin and its edge against which a data pin is tested, where there is just one."""
    instance = joined.netlist.instances.get(pin.rpartition(":")[0])
    cell = joined.library.cells.get(instance.cell) if instance else None
    data = pin.rpartition(":")[2]
    tests = {(test[2], test[3]) for test in cell.tests if test[0] == data and test[4] == kind} if cell else set()
    if len(tests) != 1:
        return None
    clock, edge = tests.pop()
    return f"{instance.name}:{clock}", edge


def ends_the_network(joined: Joined, pin: str) -> bool:
    """Whether a pin is the clock pin of a register, where the clock network of a path ends."""
    instance = joined.netlist.instances.get(pin.rpartition(":")[0])
    cell = joined.library.cells.get(instance.cell) if instance else None
    return cell is not None and pin.rpartition(":")[2] in cell.clock_pins()
