"""The commands of constraints that have an effect on timing."""
import re
from decimal import Decimal, InvalidOperation

from lizdrog_tools.importing.constraints import (
    EDGES,
    SPLITS,
    Clock,
    ClockGroups,
    Constraints,
    Delay,
    Disabled,
    Drive,
    PathEnd,
    PathException,
    PortDelays,
    Uncertainty,
)
from lizdrog_tools.importing.design import is_sequential
from lizdrog_tools.importing.session import Session, Words
from lizdrog_tools.importing.tcl import CommandFault

UNIT = re.compile(r"([0-9.]*)\s*([munpf]?)([A-Za-z]+)")
POWERS = {"": 12, "m": 9, "u": 6, "n": 3, "p": 0, "f": -3}
MOST_CLOCKS = 8
# What the proved reader takes: cycles of each kind, and derates.
CYCLES = {"setup": (1, 1000), "hold": (0, 1000)}
MOST_DERATE = 10
EDGE_OPTIONS = {"-min": 0, "-max": 0, "-rise": 0, "-fall": 0}
PATH_OPTIONS = {
    "-setup": 0,
    "-hold": 0,
    "-rise": 0,
    "-fall": 0,
    "-reset_path": 0,
    "-comment": 1,
    "-from": 1,
    "-rise_from": 1,
    "-fall_from": 1,
    "-to": 1,
    "-rise_to": 1,
    "-fall_to": 1,
    "-through": 1,
    "-rise_through": 1,
    "-fall_through": 1,
    "-start": 0,
    "-end": 0,
}
EDGED = ("-rise", "-fall", "-rise_from", "-fall_from", "-rise_to", "-fall_to", "-rise_through", "-fall_through")
DELAY_OPTIONS = {
    **EDGE_OPTIONS,
    "-clock": 1,
    "-add_delay": 0,
    "-clock_fall": 0,
    "-level_sensitive": 0,
    "-reference_pin": 1,
    "-source_latency_included": 0,
    "-network_latency_included": 0,
}
END_KINDS = ("clock", "port", "pin", "cell")
THROUGH_KINDS = ("pin", "port", "net", "cell", "block", "block_pin")


class TimingCommands:
    """Carries out create_clock, the delays of ports, exceptions and what else sets a time."""

    def __init__(self, session: Session, constraints: Constraints):
        self.session, self.design, self.constraints = session, session.design, constraints
        frame = self.design.cells.frames[0]
        self.time, self.load = frame.time, frame.load
        names = (
            "create_clock",
            "set_input_delay",
            "set_output_delay",
            "set_input_transition",
            "set_load",
            "set_clock_uncertainty",
            "set_false_path",
            "set_multicycle_path",
            "set_timing_derate",
            "set_units",
            "set_propagated_clock",
            "set_clock_groups",
            "set_clock_latency",
            "set_clock_transition",
            "set_case_analysis",
            "set_logic_zero",
            "set_logic_one",
            "set_disable_timing",
            "set_driving_cell",
            "reset_path",
            "remove_propagated_clock",
            "remove_clock",
            "set_hierarchy_separator",
        )
        self.commands = {name: getattr(self, name) for name in names}

    # ------------------------------------------------------------------------------------------ numbers and words

    def number(self, text: str) -> Decimal:
        try:
            value = Decimal(text)
        except InvalidOperation:
            raise CommandFault(f"{self.session.command}: {text} is no number") from None
        if not value.is_finite():
            raise CommandFault(f"{self.session.command}: {text} is no number")
        return value

    def first_number(self, said: Words, unit: Decimal) -> Decimal:
        """The number that stands first among the plain words."""
        if not said.plain:
            raise CommandFault(f"{self.session.command} needs a number")
        return self.number(said.plain[0]) * unit

    def need(self, words: list[str], what: str) -> None:
        """Tells a command without the objects that it is about."""
        if not words:
            raise CommandFault(f"{self.session.command} needs {what}")

    def is_within(self, value: Decimal, least: int, most: int | None, text: str) -> bool:
        """Whether a number is one that is read; another one is told."""
        if least <= value and (most is None or value <= most):
            return True
        span = f"from {least} to {most}" if most is not None else f"of {least} or more"
        self.session.lose("range", f"{self.session.command} {text}: a number {span} is read")
        return False

    def corners(self, said: Words) -> list[tuple[str, str]]:
        splits = [split for split, option in zip(SPLITS, ("-min", "-max"), strict=True) if said.has(option)] or SPLITS
        edges = [edge for edge in EDGES if said.has(f"-{edge}")] or EDGES
        return [(split, edge) for split in splits for edge in edges]

    def ports(self, said: Words, way: str | None) -> list[str]:
        """The ports of the last words, of one direction; others are told."""
        found, kept = [
            it for word in said.plain[1:] for it in self.session.objects(word, ("port", "pin", "net", "block_pin"))
        ], []
        if len(said.plain) < 2:
            raise CommandFault(f"{self.session.command} needs ports")
        for made in found:
            if made.kind != "port":
                self.session.lose(
                    f"{self.session.command}-{made.kind}",
                    f"{self.session.command} of the {made.kind} {made.name}: ports alone are read",
                )
            elif way and self.design.netlist.ports[made.name] != way:
                self.session.drop(
                    "direction", f"{self.session.command}: {made.name} is an {self.design.netlist.ports[made.name]}"
                )
            else:
                kept.append(made.name)
        return kept

    def lose_options(self, said: Words, options: tuple[str, ...]) -> bool:
        """Whether one of these options is there, for which there is no counterpart."""
        there = [it for it in options if said.has(it)]
        if there:
            self.session.lose(
                f"{self.session.command}{there[0]}", f"{self.session.command} {' '.join(there)} has no counterpart"
            )
        return bool(there)

    def set_hierarchy_separator(self, words: list[str]) -> None:
        self.design.divider = words[0]

    def set_units(self, words: list[str]) -> None:
        """The units of the commands after it."""
        options = dict.fromkeys(
            ("-time", "-capacitance", "-resistance", "-voltage", "-current", "-power", "-distance", "-temperature"), 1
        )
        said = self.session.parse(words, options)
        for option, letter in (("-time", "s"), ("-capacitance", "F")):
            text = said.value(option)
            if text is None:
                continue
            found = UNIT.fullmatch(text)
            if not found or found.group(3).lower() != letter.lower():
                raise CommandFault(f"set_units {option} {text} is not read")
            value = self.number(found.group(1) or "1") * Decimal(10) ** POWERS[found.group(2)]
            if option == "-time":
                self.time = value
            else:
                self.load = value * 1000

    # ------------------------------------------------------------------------------------------ clocks

    def create_clock(self, words: list[str]) -> None:
        said = self.session.parse(words, {"-period": 1, "-name": 1, "-waveform": 1, "-add": 0, "-comment": 1})
        if not said.has("-period"):
            raise CommandFault("create_clock needs a -period")
        targets = [it for word in said.plain for it in self.session.objects(word, ("port", "pin", "net", "block_pin"))]
        if any(it.kind != "port" for it in targets) or len(targets) > 1:
            self.session.lose(
                "clock-target", f"a clock at {', '.join(it.name for it in targets[:4])}: a clock has one port, or none"
            )
            return
        if said.plain and not targets:
            return
        port = targets[0].name if targets else None
        if port and self.design.netlist.ports[port] != "input":
            raise CommandFault(f"create_clock: the port {port} is an output")
        name = said.value("-name") or port
        if name is None:
            raise CommandFault("create_clock needs a port or a -name")
        period = self.number(said.value("-period")) * self.time
        edges = [self.number(it) * self.time for it in (said.value("-waveform") or "").split()] or [
            Decimal(0),
            period / 2,
        ]
        if len(edges) != 2 or not 0 <= edges[0] < edges[1] < edges[0] + period:
            self.session.lose(
                "waveform",
                f"the waveform {said.value('-waveform')} of {name}: one rise and then one fall within a period are "
                "read",
            )
            return
        self.add_clock(Clock(name, port, period, edges[0], edges[1], self.session.place), said.has("-add"))

    def add_clock(self, clock: Clock, beside: bool) -> None:
        """A clock in the place of another of its name, and of one at its port where it does not stand beside it."""
        clocks = self.constraints.clocks
        there = [it for it in clocks.values() if clock.port and it.port == clock.port and it.name != clock.name]
        if there and beside:
            self.session.lose(
                "two-clocks", f"the port {clock.port} has the clock {there[0].name}, and {clock.name} beside it"
            )
            return
        for name in [clock.name, *(it.name for it in there)]:
            if name in clocks:
                text = f"the clock {name} of {clocks[name].place} is replaced"
                if self.constraints.is_named(clocks[name]):
                    self.session.lose("clock-replaced", f"{text}; timers differ in what becomes of what was said of it")
                else:
                    self.session.drop("clock-replaced", text)
                del clocks[name], self.design.clocks[name]
        clocks[clock.name] = clock
        self.design.clocks[clock.name] = clock.port
        if len(clocks) > MOST_CLOCKS:
            self.session.lose(
                "ninth-clock", f"{clock.name} is the clock number {len(clocks)}, and {MOST_CLOCKS} are read"
            )
            del clocks[clock.name]

    def remove_clock(self, words: list[str]) -> None:
        raise CommandFault("remove_clock is not read: leave out the create_clock")

    def named_clocks(self, text: str) -> list[Clock]:
        return [
            self.constraints.clocks[it.name]
            for it in self.session.objects(text, ("clock",))
            if it.name in self.constraints.clocks
        ]

    def clocks_or_ports(self, said: Words) -> list[Clock]:
        """The clocks of the plain words; a port stands for the clock that begins at it."""
        self.need(said.plain, "clocks")
        found = []
        for made in (
            it for word in said.plain for it in self.session.objects(word, ("clock", "port", "pin", "block_pin"))
        ):
            if made.kind == "clock":
                found += [self.constraints.clocks[made.name]] if made.name in self.constraints.clocks else []
                continue
            at_port = [it for it in self.constraints.clocks.values() if made.kind == "port" and it.port == made.name]
            if not at_port:
                self.session.lose(
                    f"{self.session.command}-{made.kind}",
                    f"{self.session.command} of the {made.kind} {made.name}: clocks alone are read",
                )
            found += at_port
        return found

    def set_propagated_clock(self, words: list[str]) -> None:
        for clock in self.clocks_or_ports(self.session.parse(words, {})):
            clock.is_propagated = True

    def remove_propagated_clock(self, words: list[str]) -> None:
        for clock in self.clocks_or_ports(self.session.parse(words, {})):
            clock.is_propagated = False

    def set_clock_latency(self, words: list[str]) -> None:
        said = self.session.parse(
            words,
            {
                "-source": 0,
                "-early": 0,
                "-late": 0,
                "-rise": 0,
                "-fall": 0,
                "-min": 0,
                "-max": 0,
                "-clock": 1,
                "-dynamic": 1,
            },
        )
        if self.lose_options(said, ("-clock", "-dynamic")):
            return
        value = self.first_number(said, self.time)
        splits = [
            split
            for split, options in (("early", ("-early", "-min")), ("late", ("-late", "-max")))
            if any(map(said.has, options))
        ] or SPLITS
        edges = [edge for edge in EDGES if said.has(f"-{edge}")] or EDGES
        for clock in self.clocks_or_ports(Words(set(), {}, said.plain[1:])):
            kept = clock.source_latency if said.has("-source") else clock.network_latency
            kept.update({(split, edge): value for split in splits for edge in edges})
            clock.ideal_places.append(self.session.place)

    def set_clock_transition(self, words: list[str]) -> None:
        said = self.session.parse(words, EDGE_OPTIONS)
        value = self.first_number(said, self.time)
        for clock in self.clocks_or_ports(Words(set(), {}, said.plain[1:])):
            clock.transition.update(dict.fromkeys(self.corners(said), value))
            clock.ideal_places.append(self.session.place)

    def set_clock_uncertainty(self, words: list[str]) -> None:
        options = {
            "-setup": 0,
            "-hold": 0,
            "-from": 1,
            "-to": 1,
            "-rise_from": 1,
            "-fall_from": 1,
            "-rise_to": 1,
            "-fall_to": 1,
            "-rise": 0,
            "-fall": 0,
        }
        said = self.session.parse(words, options)
        if self.lose_options(said, EDGED[2:6] + ("-rise", "-fall")):
            return
        value = self.first_number(said, self.time)
        kinds = [it for it in ("setup", "hold") if said.has(f"-{it}")] or ["setup", "hold"]
        if said.has("-from") != said.has("-to"):
            raise CommandFault("set_clock_uncertainty takes -from and -to together")
        if said.has("-from"):
            pairs = [
                (one.name, other.name)
                for one in self.named_clocks(said.value("-from") or "")
                for other in self.named_clocks(said.value("-to") or "")
            ]
            for one, other in pairs:
                self.constraints.between.update(
                    {(one, other, kind): Uncertainty(value, self.session.place) for kind in kinds}
                )
            return
        for clock in self.clocks_or_ports(Words(set(), {}, said.plain[1:])):
            clock.uncertainty.update(dict.fromkeys(kinds, value))

    def set_clock_groups(self, words: list[str]) -> None:
        options = {
            "-name": 1,
            "-group": 1,
            "-asynchronous": 0,
            "-logically_exclusive": 0,
            "-physically_exclusive": 0,
            "-exclusive": 0,
            "-allow_paths": 0,
            "-comment": 1,
        }
        said = self.session.parse(words, options)
        if said.has("-allow_paths"):
            self.session.drop("allow-paths", "set_clock_groups -allow_paths cuts no path")
            return
        self.need(said.values.get("-group", []), "a -group")
        groups = [[it.name for it in self.session.objects(text, ("clock",))] for text in said.values["-group"]]
        self.constraints.groups.append(ClockGroups(groups, self.session.place))

    # ------------------------------------------------------------------------------------------ ports

    def set_input_delay(self, words: list[str]) -> None:
        self.port_delay(words, "input", self.constraints.inputs)

    def set_output_delay(self, words: list[str]) -> None:
        self.port_delay(words, "output", self.constraints.outputs)

    def port_delay(self, words: list[str], way: str, kept: dict[str, PortDelays]) -> None:
        """A delay of ports against a clock, in the place of what they have against others where it does not say
        -add_delay."""
        said = self.session.parse(words, DELAY_OPTIONS)
        if self.lose_options(said, ("-clock_fall", "-level_sensitive", "-reference_pin")):
            return
        value = self.first_number(said, self.time)
        if not said.has("-clock"):
            self.session.lose("no-clock", f"a {self.session.command} without -clock")
            return
        clocks, ports = self.session.objects(said.value("-clock"), ("clock",)), self.ports(said, way)
        if len(clocks) > 1:
            raise CommandFault(f"{self.session.command} -clock takes one clock, and these are {len(clocks)}")
        if not clocks or clocks[0].name not in self.constraints.clocks:
            self.session.lose("not-found", f"the clock of this {self.session.command} is not there")
            return
        clock, beside = clocks[0].name, said.has("-add_delay")
        included = said.has("-source_latency_included"), said.has("-network_latency_included")
        for port in ports:
            delays = kept.setdefault(port, PortDelays())
            if not beside:
                self.drop_others(port, delays, clock)
            for corner in self.corners(said):
                made = Delay(value, self.session.place, *included)
                self.keep_delay(delays.by_clock.setdefault(clock, {}), corner, made, beside)

    def drop_others(self, port: str, delays: PortDelays, clock: str) -> None:
        """Takes away the delays of a port against other clocks."""
        others = [it for it in delays.by_clock if it != clock]
        if others:
            text = f"the delays of {port} against {', '.join(others)} go, as there is no -add_delay"
            self.session.drop("delay-replaced", f"{self.session.command}: {text}")
        for name in others:
            del delays.by_clock[name]

    def keep_delay(self, kept: dict, corner: tuple[str, str], delay: Delay, beside: bool) -> None:
        """A delay of a clock in the place of the one before; beside it the worse of both counts."""
        before = kept.get(corner)
        if before and beside:
            worse = max if corner[0] == "late" else min
            delay.value = worse(before.value, delay.value)
        kept[corner] = delay

    def set_input_transition(self, words: list[str]) -> None:
        said = self.session.parse(words, {**EDGE_OPTIONS, "-clock": 1, "-clock_fall": 0})
        if self.lose_options(said, ("-clock", "-clock_fall")):
            return
        value = self.first_number(said, self.time)
        for port in self.ports(said, "input") if self.is_within(value, 0, None, said.plain[0]) else ():
            self.constraints.slews.setdefault(port, {}).update(dict.fromkeys(self.corners(said), value))
            self.constraints.places["slew", port] = self.session.place
            if self.constraints.drives.pop(port, None):
                self.session.lose(
                    "transition-beside-drive",
                    f"the port {port} has a driving cell: timers differ in whether that or a later transition "
                    "counts; leave out one (accepted: the transition counts)",
                )

    def set_load(self, words: list[str]) -> None:
        said = self.session.parse(
            words, {**EDGE_OPTIONS, "-pin_load": 0, "-wire_load": 0, "-subtract_pin_load": 0, "-corner": 1}
        )
        if self.lose_options(said, ("-wire_load", "-subtract_pin_load", "-rise", "-fall")):
            return
        value = self.first_number(said, self.load)
        splits = [split for split, option in zip(SPLITS, ("-min", "-max"), strict=True) if said.has(option)] or SPLITS
        for port in self.ports(said, None) if self.is_within(value, 0, None, said.plain[0]) else ():
            if self.design.netlist.ports[port] == "input":
                self.session.drop("input-load", f"the load of the input port {port} changes no time")
            else:
                self.constraints.loads.setdefault(port, {}).update(dict.fromkeys(splits, value))
                self.constraints.places["load", port] = self.session.place

    def set_driving_cell(self, words: list[str]) -> None:
        options = {
            **EDGE_OPTIONS,
            "-lib_cell": 1,
            "-pin": 1,
            "-from_pin": 1,
            "-library": 1,
            "-input_transition_rise": 1,
            "-input_transition_fall": 1,
            "-no_design_rule": 0,
            "-multiply_by": 1,
            "-dont_scale": 0,
            "-clock": 1,
            "-clock_fall": 0,
        }
        said = self.session.parse(words, options)
        if self.lose_options(said, ("-multiply_by", "-clock", "-clock_fall", "-min", "-max", "-rise", "-fall")):
            return
        if not said.has("-lib_cell"):
            raise CommandFault("set_driving_cell needs a -lib_cell")
        found = self.session.objects(said.value("-lib_cell"), ("lib_cell",))
        ports = self.ports(Words(set(), {}, ["", *said.plain]), "input")
        slews = {edge: self.number(said.value(f"-input_transition_{edge}") or "0") * self.time for edge in EDGES}
        for port in ports if found else []:
            self.constraints.drives[port] = Drive(
                found[0].name, said.value("-from_pin"), said.value("-pin"), slews, self.session.place
            )
            self.constraints.slews.pop(port, None)

    # ------------------------------------------------------------------------------------------ exceptions

    def path_end(self, said: Words, option: str) -> PathEnd | None:
        """One end of an exception; none where it is free."""
        if not said.has(option):
            return None
        end = PathEnd()
        for made in (
            it for text in said.values[option] for it in self.session.objects(text, (*END_KINDS, "block", "block_pin"))
        ):
            if made.kind == "block" and not self.has_registers(made.name):
                self.session.drop("no-path", f"{self.session.command} {option} {made.name}: a block without registers")
            elif made.kind in ("block", "block_pin"):
                self.session.lose(
                    f"{self.session.command}-block",
                    f"{self.session.command} {option} {made.name}: an instance of a block; name its registers or the "
                    "top's ports",
                )
            else:
                end.add(made)
        return end

    def has_registers(self, block: str) -> bool:
        """Whether a register is in a block of the hierarchy."""
        start = f"{block}/"
        return any(
            it.name.startswith(start) and is_sequential(self.design.cell_of(it))
            for it in self.design.netlist.instances.values()
        )

    def exception(self, words: list[str], cycles: int | None, said: Words) -> None:
        if self.lose_options(said, (*EDGED, "-reset_path")):
            return
        self.need([it for it in ("-from", "-to", "-through") if said.has(it)], "-from, -to or -through")
        kinds = tuple(it for it in ("setup", "hold") if said.has(f"-{it}"))
        ends = self.path_end(said, "-from"), self.path_end(said, "-to")
        for end, option in zip(ends, ("-from", "-to"), strict=True):
            if end is not None and not end.parts():
                self.session.drop(
                    "empty-objects", f"{self.session.command}: no object of {option} is there, so it says nothing"
                )
                return
        through = [self.session.objects(text, THROUGH_KINDS) for text in said.values.get("-through", [])]
        if not all(through):
            self.session.drop(
                "empty-objects", f"{self.session.command}: no object of -through is there, so it says nothing"
            )
            return
        kinds = kinds or (("setup",) if cycles is not None else ("setup", "hold"))
        self.constraints.exceptions.append(PathException(kinds, cycles, *ends, self.session.place, through))

    def set_false_path(self, words: list[str]) -> None:
        said = self.session.parse(words, PATH_OPTIONS)
        if said.plain:
            raise CommandFault(f"set_false_path: {said.plain[0]} comes after no option")
        self.exception(words, None, said)

    def set_multicycle_path(self, words: list[str]) -> None:
        said = self.session.parse(words, PATH_OPTIONS)
        cycles = self.first_number(said, Decimal(1))
        if cycles != cycles.to_integral_value():
            raise CommandFault(f"set_multicycle_path {said.plain[0]} is no whole number")
        moves_capture = said.has("-end") if said.has("-hold") else not said.has("-start")
        usual = not said.has("-hold")
        if (
            (said.has("-start") or said.has("-end"))
            and moves_capture != usual
            and len({it.period for it in self.constraints.clocks.values()}) > 1
        ):
            self.session.lose(
                "multicycle-side",
                "set_multicycle_path moves the edge of the other clock, and the clocks have different periods",
            )
            return
        if said.has("-setup") and said.has("-hold"):
            self.session.lose("multicycle-both", "set_multicycle_path -setup -hold in one command: write two")
            return
        kind = "hold" if said.has("-hold") else "setup"
        if self.is_within(cycles, *CYCLES[kind], f"{said.plain[0]} of {kind}"):
            self.exception(words, int(cycles), said)

    def reset_path(self, words: list[str]) -> None:
        raise CommandFault("reset_path is not read: leave out the exception")

    def set_timing_derate(self, words: list[str]) -> None:
        options = {
            "-early": 0,
            "-late": 0,
            "-cell_delay": 0,
            "-net_delay": 0,
            "-cell_check": 0,
            "-clock": 0,
            "-data": 0,
            "-rise": 0,
            "-fall": 0,
            "-static": 0,
            "-dynamic": 0,
            "-increment": 0,
        }
        said = self.session.parse(words, options)
        both = said.has("-clock") and said.has("-data")
        if self.lose_options(
            said, ("-cell_check", "-rise", "-fall", "-dynamic", "-increment") + (() if both else ("-clock", "-data"))
        ):
            return
        if len(said.plain) > 1:
            self.session.lose(
                "derate-objects", "set_timing_derate of objects: those of the whole design alone are read"
            )
            return
        value = self.first_number(said, Decimal(1))
        if not self.is_within(value, 0, MOST_DERATE, said.plain[0]):
            return
        splits = [it for it in SPLITS if said.has(f"-{it}")] or SPLITS
        sorts = [it for it in ("cell", "net") if said.has(f"-{it}_delay")] or ["cell", "net"]
        self.constraints.derates.update({(split, sort): value for split in splits for sort in sorts})

    # ------------------------------------------------------------------------------------------ constants and cut arcs

    def set_case_analysis(self, words: list[str]) -> None:
        said = self.session.parse(words, {})
        value = {"0": "0", "1": "1", "zero": "0", "one": "1"}.get(said.plain[0] if said.plain else "")
        if value is None:
            self.session.lose("case-edge", f"set_case_analysis {' '.join(said.plain[:1])}: 0 and 1 are read")
            return
        self.keep_case(value, said.plain[1:])

    def keep_case(self, value: str, texts: list[str]) -> None:
        self.need(texts, "ports or pins")
        for made in (it for text in texts for it in self.session.objects(text, ("port", "pin", "block_pin"))):
            self.constraints.cases[made] = (value, self.session.place)

    def set_logic_zero(self, words: list[str]) -> None:
        self.keep_case("0", words)

    def set_logic_one(self, words: list[str]) -> None:
        self.keep_case("1", words)

    def set_disable_timing(self, words: list[str]) -> None:
        said = self.session.parse(words, {"-from": 1, "-to": 1, "-restore": 0})
        if self.lose_options(said, ("-restore",)):
            return
        self.need(said.plain, "objects")
        for made in (
            it
            for text in said.plain
            for it in self.session.objects(text, ("cell", "port", "pin", "lib_cell", "lib_pin", "block_pin"))
        ):
            self.constraints.disabled.append(Disabled(made, said.value("-from"), said.value("-to"), self.session.place))
