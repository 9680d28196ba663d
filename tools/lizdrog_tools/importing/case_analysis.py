"""Constants, carried through gates by their functions, and arcs that are disabled: both as cells of their own."""
from collections import deque

from lizdrog_tools.importing.constraints import Constraints, Disabled
from lizdrog_tools.importing.design import Design, Object
from lizdrog_tools.importing.liberty_model import TESTS, Cell
from lizdrog_tools.importing.netlist import CONSTANTS, ONE, Instance
from lizdrog_tools.importing.report import Report
from lizdrog_tools.importing.variants import Constants, Cut, Variants, function_of


def constant_outputs(cell: Cell) -> dict[str, bool]:
    """The outputs of a cell that have one value, whatever its inputs have."""
    found = {name: function_of(cell.pins[name].function) for name in cell.outputs()}
    return {name: it.value({}) for name, it in found.items() if it is not None and not it.inputs}


class Carrier:
    """Carries constants from pin to net, and from net to pins."""

    def __init__(self, design: Design):
        self.design = design
        self.nets: dict[str, bool] = {}
        self.pins: dict[str, dict[str, bool]] = {}
        self.todo: deque[Instance] = deque()

    def set_net(self, net: str, value: bool) -> None:
        """A net of one value, which all its sinks have."""
        if net in self.nets:
            return
        self.nets[net] = value
        ends = self.design.ends[net]
        for end in (*ends.drivers, *ends.sinks):
            if end.instance is not None:
                self.set_pin(self.design.netlist.instances[end.instance], end.pin, value)

    def set_pin(self, instance: Instance, pin: str, value: bool) -> None:
        pins = self.pins.setdefault(instance.name, {})
        if pin not in pins:
            pins[pin] = value
            self.todo.append(instance)

    def tied(self) -> None:
        """The pins that the netlist ties, and the outputs of cells that are constant by themselves."""
        ties = {
            name: made
            for name in {it.cell for it in self.design.netlist.instances.values()}
            if (made := constant_outputs(self.design.cells.get(name)))
        }
        for instance in self.design.netlist.instances.values():
            for pin, net in instance.nets.items():
                if net in CONSTANTS:
                    self.set_pin(instance, pin, net == ONE)
            for pin, value in ties.get(instance.cell, {}).items():
                if instance.nets.get(pin) not in (None, *CONSTANTS):
                    self.set_net(instance.nets[pin], value)

    def cases(self, constraints: Constraints) -> None:
        """The constants of constraints, at ports and pins."""
        for made, (text, _) in constraints.cases.items():
            net = self.design.net_at(made)
            if made.kind == "pin" and self.design.attribute(made, "direction") == "input":
                self.set_pin(*self.design.pin_parts(made.name), text == "1")
            elif net is not None:
                self.set_net(net, text == "1")

    def carry(self) -> None:
        """On through the gates, as long as an output becomes constant."""
        while self.todo:
            instance = self.todo.popleft()
            cell = self.design.cell_of(instance)
            for name in cell.outputs():
                function = function_of(cell.pins[name].function)
                if (
                    function is None
                    or name in self.pins[instance.name]
                    or not all(it in cell.pins for it in function.inputs)
                ):
                    continue
                value = function.value(dict(self.pins[instance.name]))
                if value is None:
                    continue
                self.pins[instance.name][name] = value
                if instance.nets.get(name) not in (None, *CONSTANTS):
                    self.set_net(instance.nets[name], value)


def express_cases(constraints: Constraints, design: Design, variants: Variants, report: Report) -> None:
    """Constants of ports and pins, with those that the netlist ties; each gate that has one gets a cell without the
    dead arcs."""
    carrier = Carrier(design)
    carrier.tied()
    tied = {name: set(pins) for name, pins in carrier.pins.items()}
    carrier.cases(constraints)
    carrier.carry()
    changed, known = 0, {}
    for name, pins in carrier.pins.items():
        change, cell = Constants(tuple(sorted(pins.items()))), design.cell_of(design.netlist.instances[name])
        key = (cell.name, change, frozenset(tied.get(name, ())))
        if key not in known:
            known[key] = change.matters(cell, set(key[2]))
        if known[key]:
            variants.add(name, change)
            changed += 1
    untimed(constraints, carrier)
    for made, (text, place) in constraints.cases.items():
        report.change("case", place, f"set_case_analysis {text} of {made.name}")
    if constraints.cases:
        report.change(
            "case",
            next(iter(constraints.cases.values()))[1],
            f"constants reach {len(carrier.nets)} nets; {changed} gates have cells without the arcs that are "
            "dead; a resize of such a gate brings them back",
        )


def untimed(constraints: Constraints, carrier: Carrier) -> None:
    """A constant port has no arrival and no test."""
    for table in (constraints.inputs, constraints.outputs):
        for port in [it for it in table if it in carrier.nets]:
            del table[port]


def express_disabled(constraints: Constraints, design: Design, variants: Variants, report: Report) -> None:
    """Disabled arcs are cut; a disabled input port has no delay of its own."""
    clock_ports = {it.port for it in constraints.clocks.values()}
    for item in constraints.disabled:
        made = item.made
        if made.kind in ("lib_cell", "lib_pin"):
            of_library(item, design, variants)
        elif made.kind == "cell":
            variants.add(made.name, Cut(item.from_pin, item.to_pin))
        elif made.kind == "pin" and not is_tested(made, design):
            of_pin(made, design, variants)
        elif made.kind == "port" and design.netlist.ports[made.name] == "input" and made.name not in clock_ports:
            constraints.inputs.pop(made.name, None)
        else:
            report.lose(
                "disable-end",
                item.place,
                f"set_disable_timing of the {made.kind.replace('_', ' ')} {made.name}: timers differ in what becomes "
                "of its tests; "
                "the pins of gates, instances, input ports without a clock and library cells are read",
            )
            continue
        report.change("disabled", item.place, f"set_disable_timing of {made.name}: a cell without these arcs")


def is_tested(made: Object, design: Design) -> bool:
    """Whether a pin has tests, or is the clock of some."""
    instance, pin = design.pin_parts(made.name)
    cell = design.cell_of(instance)
    return pin in cell.data_pins() or any(pin in timing.related for _, timing in cell.timed() if timing.kind in TESTS)


def of_pin(made: Object, design: Design, variants: Variants) -> None:
    """All arcs through a pin: those from an input, those to an output."""
    instance, pin = design.pin_parts(made.name)
    is_output = design.attribute(made, "direction") == "output"
    variants.add(instance.name, Cut(None, pin) if is_output else Cut(pin, None))


def of_library(item: Disabled, design: Design, variants: Variants) -> None:
    """Each instance of a library cell."""
    name, _, pin = item.made.name.partition("/")
    for instance in design.netlist.instances.values():
        if instance.cell != name:
            continue
        if item.made.kind == "lib_pin":
            of_pin(Object("pin", f"{instance.name}/{pin}"), design, variants)
        else:
            variants.add(instance.name, Cut(item.from_pin, item.to_pin))
