"""Ideal clocks: networks without delay, as cells of their own and nets without wires."""
from lizdrog_tools.importing.constraints import Clock, Constraints
from lizdrog_tools.importing.design import Design, Reached, trace
from lizdrog_tools.importing.report import Report
from lizdrog_tools.importing.spef_merge import Merger
from lizdrog_tools.importing.variants import Undelayed, Variants, every_slew

SHOWN = 4


def express_ideal(
    constraints: Constraints, design: Design, variants: Variants, wires: Merger | None, report: Report
) -> None:
    """Takes the delays out of the network of each clock that is not propagated."""
    for clock in (it for it in constraints.clocks.values() if it.port and not it.is_propagated):
        reached = trace(design, clock.port)
        if reached.data:
            report.lose(
                "ideal-data",
                clock.place,
                f"the ideal clock {clock.name} is data at {', '.join(reached.data[:SHOWN])}: a propagated clock is "
                "read",
            )
            continue
        shorten(clock, constraints, design, variants, wires, reached)
        report.change(
            "ideal-clock",
            clock.place,
            f"the clock {clock.name} is ideal: {len(reached.passed)} gates of its network have cells without delay, "
            "and its nets no wires; a resize of such a gate brings its delay back",
        )
    for clock in (it for it in constraints.clocks.values() if it.port and it.is_propagated and it.transition):
        report.drop(
            "clock-transition", clock.ideal_places[-1], f"the clock {clock.name} is propagated: its slews are computed"
        )


def shorten(
    clock: Clock, constraints: Constraints, design: Design, variants: Variants, wires: Merger | None, reached: Reached
) -> None:
    """The gates of a network without delay, its nets without wires, its port with the transition of the clock."""
    nets = {clock.port}
    for name, pins in reached.passed.items():
        for pin in sorted(pins):
            variants.add(name, Undelayed(pin, every_slew(clock.transition)))
        instance = design.netlist.instances[name]
        nets |= {net for pin in design.cell_of(instance).outputs() if (net := instance.nets.get(pin))}
    if wires:
        for net in nets:
            wires.nets.pop(net, None)
    constraints.slews[clock.port] = dict(every_slew(clock.transition))
    constraints.drives.pop(clock.port, None)
