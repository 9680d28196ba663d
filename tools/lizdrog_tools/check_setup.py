"""Looks over the documents of a design for what is accepted but probably not meant: check_setup.py EARLY LATE NETLIST
SDC SPEF [options]

It lists, each with a count and some names: commands of the SDC that are not read, all in one run; clocks without
registers; registers without a clock; inputs without a delay; endpoints without a test; undriven nets and open inputs;
nets without parasitics, and parasitics that do not fit their net; arcs whose early delay exceeds the late one; derates
that are crossed; exceptions that match nothing; options that come twice; timing types that are passed over; sections
of the SPEF that are; libraries exchanged, numbers in another unit, attributes that look mistyped. Exit status 1 where
it finds something, 0 where it does not, 2 where a file cannot be read; lines that begin with `note` are no findings.

  --program FILE   ask this program (./lizdrog, say) for the slack of each endpoint, and list those without a tested
                   path
  --all            list all names, not the first ten
It reads the documents itself, in a plain way, and proves nothing.
"""
import argparse
import os
import pathlib
import re
import subprocess
import sys
import tempfile

from lizdrog_tools.files import line_and_column, read_text, tool
from lizdrog_tools.liberty import numbers, read_library
from lizdrog_tools.proportions import exchanged, mistyped, out_of_proportion
from lizdrog_tools.sdc import pin_word, read_commands
from lizdrog_tools.spef import read_spef
from lizdrog_tools.verilog import Joined, read_netlist

SHOWN = 10
READ = {
    "create_clock": {"-period": 1, "-name": 1, "-waveform": 1},
    "set_input_delay": {"-clock": 1, "-min": 0, "-max": 0, "-rise": 0, "-fall": 0},
    "set_output_delay": {"-clock": 1, "-min": 0, "-max": 0, "-rise": 0, "-fall": 0},
    "set_input_transition": {"-clock": 1, "-min": 0, "-max": 0, "-rise": 0, "-fall": 0},
    "set_load": {"-min": 0, "-max": 0, "-pin_load": 0, "-rise": 0, "-fall": 0},
    "set_clock_uncertainty": {"-setup": 0, "-hold": 0},
    "set_false_path": {"-setup": 0, "-hold": 0, "-from": 1, "-to": 1},
    "set_multicycle_path": {"-setup": 0, "-hold": 0, "-from": 1, "-to": 1, "-start": 0, "-end": 0},
    "set_timing_derate": {"-early": 0, "-late": 0, "-cell_delay": 0, "-net_delay": 0},
}
PASSED_OVER = {"current_design", "group_path", "set_propagated_clock", "set_operating_conditions", "set_wire_load_mode",
               "set_wire_load_model", "set_max_area", "set_max_fanout", "set_max_transition", "set_max_capacitance"}
UNCHECKED = {"set_max_fanout", "set_max_transition", "set_max_capacitance", "set_max_area"}
LEFT_OUT = {
    "create_generated_clock", "set_clock_latency", "set_case_analysis", "set_clock_transition", "set_max_delay",
    "set_min_delay", "set_driving_cell", "set_disable_timing",
}
BETWEEN = {it: 1 for it in ("-through", "-from", "-to", "-rise_from", "-fall_from", "-rise_to", "-fall_to")}
LEFT_OUT_OPTIONS = {"-through", "-clock_fall", "-add_delay"}
GETTERS = {"get_ports", "get_clocks", "get_pins", "get_cells"}
UNITS = {"-time": r"(10|100|1|1\.0)?ps|(1|1\.0)?ns", "-capacitance": r"(1|1\.0)?(fF|pF)"}
KNOWN_TYPES = {
    "recovery_rising", "recovery_falling", "removal_rising", "removal_falling", "preset", "clear", "three_state_enable",
    "three_state_disable", "three_state_enable_rise", "three_state_enable_fall", "three_state_disable_rise",
    "three_state_disable_fall", "skew_rising", "skew_falling", "min_pulse_width", "minimum_period",
    "max_clock_tree_path", "min_clock_tree_path", "retaining_time", "nochange_high_high", "nochange_high_low",
    "nochange_low_high", "nochange_low_low", "non_seq_setup_rising", "non_seq_setup_falling", "non_seq_hold_rising",
    "non_seq_hold_falling", "combinational_rise", "combinational_fall",
}


class Findings:
    """What was found: a text with the names that it is about."""

    def __init__(self, shows_all):
        self.most, self.count = None if shows_all else SHOWN, 0

    def add(self, text, names, is_note=False):
        names = list(names)
        if not names:
            return
        self.count += 0 if is_note else len(names)
        print(f"{'note: ' if is_note else ''}{len(names)} {text}")
        for name in names[:self.most]:
            print(f"  {name}")
        if self.most and len(names) > self.most:
            print(f"  .. and {len(names) - self.most} more (--all)")


# ------------------------------------------------------------------------------------------------ constraints

def option_faults(command):
    """What is not read of a command that is: its options and its forms."""
    options, takes, plain = READ[command.name], 0, []
    for word in command.words:
        is_option = (
            word.sort == "plain"
            and word.text.startswith("-")
            and not word.text[1:2].isdigit()
            and word.text[1:2] != "."
        )
        if takes:
            takes -= 1
        elif is_option and word.text in LEFT_OUT_OPTIONS:
            takes = BETWEEN.get(word.text, 0)
            yield word.text, "S3"
        elif is_option and word.text not in options:
            is_between = command.name == "set_clock_uncertainty" and word.text in BETWEEN
            takes = BETWEEN.get(word.text, 0)
            yield word.text, "S3" if is_between or command.name == "set_timing_derate" else "S1"
        elif is_option:
            takes = options[word.text]
        else:
            plain.append(word)
        if word.sort not in ("plain", "list"):
            if word.sort.startswith(("get_", "all_")) and word.sort not in GETTERS:
                yield word.text, "S3"
            elif word.sort not in GETTERS:
                yield word.text, "S1"
        for name in word.names if word.sort in ("list", *GETTERS) or not is_option else []:
            if "*" in name or "?" in name or name.startswith("$"):
                yield name, "S3"
    if command.name in ("set_input_delay", "set_output_delay") and not command.has("-clock"):
        yield "no -clock", "S3"
    if command.name == "set_multicycle_path" and command.has("-setup") and command.has("-hold"):
        yield "-setup beside -hold", "S3"


def plain_words(command):
    """The words that are no options and no option's value."""
    options, found, takes = {**BETWEEN, **READ[command.name]}, [], 0
    for word in command.words:
        if takes:
            takes -= 1
        elif word.sort == "plain" and word.text in options:
            takes = options[word.text]
        elif not (
            word.sort == "plain"
            and word.text.startswith("-")
            and not (word.text[1:2].isdigit() or word.text[1:2] == ".")
        ):
            found.append(word)
    return found


# What the plain words of a command are, and the least and greatest number.
FORMS = {
    "create_clock": (["objects"], None, None),
    "set_input_delay": (["number", "objects"], None, None),
    "set_output_delay": (["number", "objects"], None, None),
    "set_input_transition": (["number", "objects"], 0, None),
    "set_load": (["number", "objects"], 0, None),
    "set_clock_uncertainty": (["number", "objects"], None, None),
    "set_false_path": ([], None, None),
    "set_multicycle_path": (["number"], 0, 1000),
    "set_timing_derate": (["number"], 0, 10),
}


def number_faults(word, least, most):
    if word.text.startswith("$"):
        return
    value = numbers([word.text], 1) if word.sort == "plain" else []
    if (
        not value
        or not word.text.strip()
        or least is not None
        and value[0] < least
        or most is not None
        and value[0] > most
    ):
        yield word.text, "S4"


def form_faults(command, clocks):
    """What is wrong with the plain words of a command, and with the clocks that it names; `clocks` are those before it,
    with their ports."""
    plain, (form, least, most) = plain_words(command), FORMS[command.name]
    if command.name == "set_multicycle_path" and not command.has("-hold"):
        least = 1
    for kind, word in zip(form, plain):
        if kind == "number":
            yield from number_faults(word, least, most)
        elif (
            word.sort in ("get_pins", "get_cells")
            or (word.sort == "get_ports") == (command.name == "set_clock_uncertainty")
            and word.sort in GETTERS
        ):
            yield word.text, "S1"
    for word in plain[len(form):]:
        yield word.text, "S3" if command.name == "set_timing_derate" else "S1"
    if len(plain) < len(form) and command.name != "create_clock":
        yield "a word is missing", "S1"
    asked = (
        [command.after("-clock")]
        if command.has("-clock")
        else plain[1:2] if command.name == "set_clock_uncertainty" else []
    )
    for name in (it for word in asked if word for it in word.names):
        if name not in clocks and command.name != "create_clock":
            yield f"{name}: no such clock before", "S5"
    if command.name == "create_clock":
        yield from clock_faults(command, clocks)
    elif command.name == "set_multicycle_path":
        wrong = "-start" if not command.has("-hold") else "-end"
        if command.has(wrong) and (command.has("-setup") or command.has("-hold") or wrong == "-start"):
            yield f"{wrong} beside {'-setup' if wrong == '-start' else '-hold'}", "S1"


def clock_of(command):
    """The name of a clock, its port's where it has none of its own, and its ports."""
    ports, name = [it for word in plain_words(command) for it in word.names], command.after("-name")
    return name.text if name else ports[0] if ports else None, ports


def clock_faults(command, clocks):
    """What is wrong with a clock; a new one is added to those before."""
    (label, ports), period = clock_of(command), command.after("-period")
    if len(ports) > 1:
        yield "a clock on several ports", "S3"
    elif label in clocks or ports and ports[0] in clocks.values():
        yield f"{label}: a second clock on a port or of a name", "S3"
    if period is None or label is None:
        yield "-period, or a name, is missing", "S1"
    else:
        yield from number_faults(period, 1e-12, None)
        yield from waveform_faults(command, numbers([period.text], 1))
    if label is not None:
        clocks.setdefault(label, ports[0] if ports else None)
        if len(clocks) == 9:
            yield "a ninth clock", "S6"


def waveform_faults(command, period):
    """What is wrong with the edges of a clock: they are two, the second less than a period behind the first."""
    word = command.after("-waveform")
    if word is None:
        return
    edges = numbers(word.names, 1)
    if word.sort != "list" or len(word.names) != 2:
        yield f"-waveform {word.text}", "S1"
    elif len(edges) != 2 or period and not 0 <= edges[0] < edges[1] < edges[0] + period[0]:
        yield f"-waveform {word.text}", "S4"


def unit_faults(command):
    for option, form in UNITS.items():
        word = command.after(option)
        if command.has(option) and (word is None or not re.fullmatch(form, word.text)):
            yield f"{option} {word.text if word else ''}".strip(), "S1"


def sdc_faults(text, commands, file):
    """Each command that is not read, with its line and code."""
    clocks = {}
    for command in commands:
        line, _ = line_and_column(text, command.offset)
        shown = f"{file}:{line}: {command.name}"
        name = command.name
        if name in READ:
            for word, code in dict.fromkeys([*option_faults(command), *form_faults(command, clocks)]):
                yield f"{shown} {word} ({code})"
        elif name == "set_units":
            for word, code in unit_faults(command):
                yield f"{shown} {word} ({code})"
        elif name in PASSED_OVER or name == "set" and command.words and command.words[0].text == "sdc_version":
            continue
        elif name == "set" or name.startswith(("$", "[", "{")):
            yield f"{shown} {command.words[0].text if command.words else ''} (Tcl is not run)"
        elif name in LEFT_OUT or name.startswith(("get_", "all_")) and name not in GETTERS:
            yield f"{shown} (S3)"
        else:
            yield f"{shown} (S2)"


def names_of(word):
    return [it for it in word.names] if word else []


class Constraints:
    """What the checks ask of the constraints."""

    def __init__(self, commands):
        self.commands, self.clocks, self.inputs, self.outputs, self.derates = commands, {}, {}, {}, {}
        for command in commands:
            if command.name == "create_clock":
                self.clock(command)
            elif command.name in ("set_input_delay", "set_output_delay"):
                self.delay(command)
            elif command.name == "set_timing_derate":
                self.derate(command)

    def clock(self, command):
        label, ports = clock_of(command)
        if label:
            self.clocks[label] = ports[0] if ports else None

    def splits(self, command):
        chosen = [split for option, split in (("-min", "early"), ("-max", "late")) if command.has(option)]
        return chosen or ["early", "late"]

    def delay(self, command):
        ports = [it for word in plain_words(command)[1:] for it in names_of(word)]
        table = self.inputs if command.name == "set_input_delay" else self.outputs
        for port in ports:
            table.setdefault(port, set()).update(self.splits(command))

    def derate(self, command):
        factors = numbers([it.text for it in plain_words(command)], 1)
        splits = [it for it in ("early", "late") if command.has(f"-{it}")] or ["early", "late"]
        kinds = [it for it in ("cell", "net") if command.has(f"-{it}_delay")] or ["cell", "net"]
        for split in splits if factors else []:
            self.derates.update({(split, kind): factors[0] for kind in kinds})


# ------------------------------------------------------------------------------------------------ the design

def clock_network(joined, ports):
    """The pins that clocks reach by nets and combinational arcs."""
    seen, todo = set(), [it for it in ports if joined.netlist.ports.get(it) == "input"]
    while todo:
        pin = todo.pop()
        if pin in seen:
            continue
        seen.add(pin)
        net = joined.nets.get(joined.net_of.get(pin))
        if net and pin in net.drivers:
            todo += net.sinks
        instance, _, own = pin.rpartition(":")
        if instance and not (net and pin in net.drivers):
            cell = joined.library.cells.get(joined.netlist.instances[instance].cell)
            todo += {f"{instance}:{arc[2]}" for arc in cell.arcs if arc[0] == own and arc[4] == "comb"} if cell else []
    return seen


def registers(joined):
    """Each instance with clock pins, with these."""
    clock_pins = {name: cell.clock_pins() for name, cell in joined.library.cells.items()}
    for instance in joined.netlist.instances.values():
        if clock_pins.get(instance.cell):
            yield instance, clock_pins[instance.cell]


def check_clocks(findings, joined, constraints, network):
    findings.add("design without a clock: nothing is tested", [] if constraints.clocks else ["no create_clock is read"])
    reached = {f"{instance.name}:{pin}" for instance, pins in registers(joined) for pin in pins}
    idle = [f"{name} on {port}" for name, port in constraints.clocks.items()
            if port is not None and not reached & clock_network(joined, [port])]
    findings.add("clocks that reach no register", idle)
    unclocked = [f"{instance.name} ({instance.cell})" for instance, pins in registers(joined)
                 if not any(f"{instance.name}:{pin}" in network for pin in pins)]
    findings.add("registers without a clock: their data pins are not tested", unclocked)


def check_ports(findings, joined, constraints):
    ports, clock_ports = joined.netlist.ports, set(constraints.clocks.values())
    for way, table, what in (
        ("input", constraints.inputs, "have no arrival there"),
        ("output", constraints.outputs, "are not tested there"),
    ):
        lacking = [
            f"{port}: {' and '.join(sorted({'early', 'late'} - table.get(port, set())))}"
            for port in sorted(ports)
            if ports[port] == way and port not in clock_ports and table.get(port, set()) != {"early", "late"}
        ]
        findings.add(f"{way}s without a set_{way}_delay, which {what}", lacking)


def check_nets(findings, joined):
    undriven = [
        f"{net.name} ({', '.join(net.sinks[:3])})" for net in joined.nets.values() if not net.drivers and net.sinks
    ]
    findings.add("nets without a driver", sorted(undriven))
    findings.add(
        "nets with several drivers (E10)",
        sorted(f"{it.name} ({', '.join(it.drivers[:3])})" for it in joined.nets.values() if len(it.drivers) > 1),
    )
    missing, unknown, open_inputs = {}, [], []
    for instance in joined.netlist.instances.values():
        cell = joined.library.cells.get(instance.cell)
        if cell is None:
            missing.setdefault(instance.cell, []).append(instance.name)
            continue
        unknown += [f"{instance.name}:{pin} ({instance.cell})" for pin in instance.nets if pin not in cell.pins]
        open_inputs += [f"{instance.name}:{pin}" for pin, (way, _) in cell.pins.items()
                        if way == "input" and instance.nets.get(pin) is None and pin not in instance.tied]
    findings.add(
        "cells that the late library lacks (E3)",
        sorted(f"{cell} ({len(names)} instances, first {names[0]})" for cell, names in missing.items()),
    )
    findings.add("connections to pins that the cell lacks (E4)", unknown)
    findings.add("inputs of instances that are left open", open_inputs)


def check_parasitics(findings, joined, name):
    spef = read_spef(name)
    bare = sorted(net.name for net in joined.nets.values() if net.drivers and net.sinks and net.name not in spef.nets)
    findings.add("nets without parasitics", bare)
    lacking = sorted(it for it in spef.nets if it not in joined.nets)
    findings.add("nets of the SPEF that the netlist lacks (E2)", lacking)
    misfits = (misfit(joined, spef, it) for it in spef.nets)
    findings.add("nets whose parasitics do not fit (E14, E15)", sorted(filter(None, misfits)))
    odd = [
        f"{name}:{line_and_column(spef.text, offset)[0]}: {word} after {section}"
        for word, offset, section in spef.odd_words
    ]
    findings.add("words of the SPEF that begin with * and fit no section (P1)", odd)
    findings.add(
        "sections of the SPEF that are passed over",
        [f"{section}, {count} words" for section, count in spef.passed_over.items()],
        True,
    )


def misfit(joined, spef, name):
    """Why the parasitics of a net do not fit, or none."""
    net = joined.nets.get(name)
    if net is None:
        return None
    if not net.drivers:
        return f"{net.name}: no driver"
    pins = {*net.drivers, *net.sinks}
    if spef.surely_fits(name, pins):
        return None
    parasitics = spef.nets[name]
    strange = parasitics.named_pins() - pins
    if strange:
        return f"{net.name}: {', '.join(sorted(strange)[:3])} not on the net"
    if parasitics.ress and pins - parasitics.ends():
        return f"{net.name}: no resistor ends at {', '.join(sorted(pins - parasitics.ends())[:3])}"
    return f"{net.name}: {parasitics.misshape()}" if parasitics.misshape() else None


def check_types(findings, library, role, used):
    """Timing types that are passed over, those apart that Liberty does not have."""
    types = {}
    for cell in used:
        for kind in library.cells[cell].passed_over if cell in library.cells else ():
            types.setdefault(kind, []).append(cell)
    told = [(kind in KNOWN_TYPES, f"{kind} in {len(cells)} cells, first {cells[0]}")
            for kind, cells in sorted(types.items())]
    what = f"timing types of used cells of the {role} library that"
    findings.add(f"{what} Liberty does not have, passed over", [line for is_known, line in told if not is_known])
    findings.add(f"{what} are passed over", [line for is_known, line in told if is_known], True)


def check_cells(findings, early, late, used, factors):
    """Cells that differ between two libraries, or whose early delays exceed their late ones."""
    both = [it for it in used if it in early.cells and it in late.cells]
    found = {it: differences(early.cells[it], late.cells[it]) for it in both}
    differing = [f"{cell}: {'; '.join(found[cell])}" for cell in both if found[cell]]
    findings.add("cells that differ between the libraries (E3)", differing)
    lacking = [it for it in used if it not in early.cells and it in late.cells]
    findings.add("cells that the early library lacks (E3)", lacking)
    crossed = [f"{cell} {' '.join(arc[:4])}" for cell in both for arc in sorted(late.cells[cell].arcs)
               if is_crossed(early.cells[cell], late.cells[cell], arc, factors)]
    findings.add("arcs whose early delay exceeds the late one at some entry", crossed)


def check_libraries(findings, early, late, netlist, derates, same):
    used = sorted({it.cell for it in netlist.instances.values()})
    check_types(findings, early, "early", used)
    check_types(findings, late, "late", used)
    kinds = ("cell", "net")
    factors = {(split, kind): derates.get((split, kind), 1.0) for split in ("early", "late") for kind in kinds}
    findings.add("derates that are crossed: early above late", [
        f"{kind} delays: early {factors['early', kind]:g}, late {factors['late', kind]:g}" for kind in kinds
        if factors["early", kind] > factors["late", kind]])
    if not same:
        check_cells(findings, early, late, used, factors)


def check_proportions(findings, early, late, joined, commands, given):
    """What is hardly meant: libraries exchanged, units wrong by a thousand, mistyped attributes."""
    used = sorted({it.cell for it in joined.netlist.instances.values()})
    findings.add("libraries that seem to be exchanged", exchanged(early, late, used) if early is not late else [])
    findings.add(
        "numbers of the SDC out of all proportion: is a unit wrong?", list(out_of_proportion(commands, late, used))
    )
    for file in dict.fromkeys((given.early, given.late)):
        findings.add(f"attributes of {file} that look mistyped, passed over", mistyped(read_text(file)))


def differences(early, late):
    return [f"other {what}s" for what, one in early.parts().items() if one != late.parts()[what]]


def is_crossed(early, late, arc, factors):
    """Whether the early delay is above the late one at some entry of the early tables."""
    if arc not in early.arcs:
        return False
    latest = [delay for delay, _ in late.arcs[arc]]
    for table, _ in early.arcs[arc]:
        for x in table.xs:
            for y in table.ys:
                values = [it for it in (late_table.at(x, y) for late_table in latest) if it is not None]
                value = table.at(x, y)
                if (
                    values
                    and value is not None
                    and value * factors["early", "cell"] > max(values) * factors["late", "cell"] + 1
                ):
                    return True
    return False


# ------------------------------------------------------------------------------------------------ exceptions and
# endpoints

def has_pin(joined, pin):
    """Whether there is this pin of an instance, connected or not; a cell that is not known may have any."""
    instance = joined.netlist.instances.get(pin.rpartition(":")[0])
    cell = joined.library.cells.get(instance.cell) if instance else None
    return instance is not None and (cell is None or pin.rpartition(":")[2] in cell.pins)


def kind_of(joined, constraints, word, name):
    """What a name stands for: by its word, else the first of these that is there; none where nothing is."""
    if word.sort in GETTERS:
        return word.sort[4:-1]
    there = {
        "clock": name in constraints.clocks,
        "port": name in joined.netlist.ports,
        "pin": has_pin(joined, pin_word(name)),
        "cell": name in joined.netlist.instances,
    }
    return next((kind for kind, is_there in there.items() if is_there), None)


def why_unmatched(joined, network, kind, name, option):
    """Why a port, pin or instance matches no path; none where it may match one."""
    ports, pin, made = joined.netlist.ports, pin_word(name), joined.netlist.instances.get(name)
    cell = joined.library.cells.get(made.cell) if made else None
    if kind == "pin" and ":" not in pin:
        return "a pin is instance/pin (S1)"
    if not {"port": name in ports, "pin": has_pin(joined, pin), "cell": made is not None}.get(kind, False):
        return "not there (E13)"
    if kind == "port":
        return (
            None
            if ports[name] == ("input" if option == "-from" else "output")
            else "a port of the wrong direction (E13)"
        )
    if kind == "pin" and option == "-from":
        return None if pin in network else "no path is launched there; name the register's clock pin"
    if kind == "pin":
        return None if pin in joined.endpoints_as_set() else "no endpoint"
    if cell and option == "-from" and not any(f"{name}:{it}" in network for it in cell.pins):
        return "no clock reaches this instance"
    return "this instance has no data pin" if cell and option == "-to" and not cell.data_pins() else None


def unmatched(joined, constraints, network, command, option):
    """The objects of an option of an exception that match no path, with why."""
    word = command.after(option)
    for name in names_of(word):
        kind = kind_of(joined, constraints, word, name)
        why = (
            why_unmatched(joined, network, kind, name, option)
            if kind != "clock"
            else None if name in constraints.clocks else "no such clock"
        )
        if why:
            yield f"{command.name} {option} {name}: {why}"


VALUED = ("-name", "-period", "-waveform", "-clock", "-from", "-to")


def check_repeated(findings, commands, text, file):
    found = []
    for command in commands:
        words = [it.text for it in command.words]
        found += [f"{file}:{line_and_column(text, command.offset)[0]}: {command.name} {it}"
                  for it in VALUED if command.name in READ and words.count(it) > 1]
    findings.add("options that come twice in a command, of which the last counts", found)


def check_exceptions(findings, joined, constraints, network, text, file):
    empty, gone = [], []
    for command in constraints.commands:
        line, _ = line_and_column(text, command.offset)
        if command.name in ("set_false_path", "set_multicycle_path"):
            for option in ("-from", "-to"):
                empty += [f"{file}:{line}: {it}" for it in unmatched(joined, constraints, network, command, option)]
        elif command.name in READ and command.name not in ("set_timing_derate", "set_clock_uncertainty"):
            words = plain_words(command)[0 if command.name == "create_clock" else 1:]
            way = "output" if command.name in ("set_output_delay", "set_load") else "input"
            gone += [
                f"{file}:{line}: {command.name}: {name}"
                for word in words
                if word.sort in ("plain", "list", "get_ports")
                for name in names_of(word)
                if joined.netlist.ports.get(name) is None
                or command.name != "set_load"
                and joined.netlist.ports[name] != way
            ]
    findings.add("objects of exceptions that match no path", empty)
    findings.add("ports of constraints that are not there or have the wrong direction (E13)", gone)


def ask_endpoints(program, files, endpoints):
    """The slack of each endpoint of each kind, by the program; none where it gives no output."""
    questions = [(pin, kind) for kind in ("setup", "hold") for pin in endpoints]
    answers = {}
    for at in range(0, len(questions), 10000):
        part = questions[at:at + 10000]
        with tempfile.NamedTemporaryFile("w", suffix=".eco") as script:
            script.writelines(f"report_endpoint {pin} {kind}\n" for pin, kind in part)
            script.flush()
            ran = subprocess.run(
                [program, "run", *files, "1", script.name], capture_output=True, text=True, check=False
            )
        if ran.returncode not in (0, 1):
            print(f"note: the program refuses the documents: {ran.stdout.strip()}")
            sys.stdout.write(ran.stderr)
            return None
        rows = [it.split() for it in ran.stdout.split("\n") if it[:1].isdigit()]
        answers.update((part[int(row[0]) - 1], row[3] if row[2] == "endpoint" else " ".join(row[2:4])) for row in rows)
    return answers


def check_endpoints(findings, program, files, joined):
    answers = ask_endpoints(program, files, joined.endpoints())
    if answers is None:
        findings.count += 1
        return
    for kind in ("setup", "hold"):
        why = {"no Q3": f" (it has no {kind} test, or no clock reaches it)"}
        untested = [pin + why.get(said[:5], "") for (pin, asked), said in answers.items()
                    if asked == kind and (said == "none" or said.startswith("no "))]
        findings.add(f"endpoints without a tested {kind} path, by the program", untested)


# ------------------------------------------------------------------------------------------------ the command

@tool("check_setup")
def main():
    parser = argparse.ArgumentParser(description=__doc__, formatter_class=argparse.RawDescriptionHelpFormatter)
    for name in ("early", "late", "netlist", "sdc", "spef"):
        parser.add_argument(name)
    parser.add_argument("--program")
    parser.add_argument("--all", action="store_true")
    given = parser.parse_args()
    text, netlist = read_text(given.sdc, may_be_empty=True), read_netlist(given.netlist)
    same = os.path.samefile(given.early, given.late)
    late = read_library(given.late)
    early = late if same else read_library(given.early)
    findings, joined = Findings(given.all), Joined(netlist, late)
    commands = read_commands(text)
    constraints = Constraints(commands)
    network = clock_network(joined, [port for port in constraints.clocks.values() if port])
    findings.add("commands or options of the SDC that are not read", sdc_faults(text, commands, given.sdc))
    findings.add("commands of the SDC that are passed over", [it.name for it in commands if it.name in UNCHECKED], True)
    check_clocks(findings, joined, constraints, network)
    check_ports(findings, joined, constraints)
    check_nets(findings, joined)
    if given.spef != "none":
        check_parasitics(findings, joined, given.spef)
    check_libraries(findings, early, late, netlist, constraints.derates, same)
    check_proportions(findings, early, late, joined, commands, given)
    check_exceptions(findings, joined, constraints, network, text, given.sdc)
    check_repeated(findings, commands, text, given.sdc)
    if given.program:
        program = given.program if os.sep not in given.program else str(pathlib.Path(given.program).resolve())
        check_endpoints(findings, program, [given.early, given.late, given.netlist, given.sdc, given.spef], joined)
    print(f"check_setup: {findings.count} findings" if findings.count else "check_setup: nothing found")
    return 1 if findings.count else 0
