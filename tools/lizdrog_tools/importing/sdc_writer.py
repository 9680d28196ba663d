"""Writes constraints in the words that the proved reader takes, in ps and fF."""
import itertools
from decimal import Decimal

from lizdrog_tools.importing.constraints import (
    CORNERS,
    EDGES,
    SPLITS,
    Clock,
    Constraints,
    Corner,
    PathEnd,
    PathException,
)
from lizdrog_tools.importing.liberty_model import plain

GET = {"clocks": "get_clocks", "ports": "get_ports", "pins": "get_pins", "cells": "get_cells"}
FLAGS = {"early": "-min", "late": "-max", "rise": "-rise", "fall": "-fall"}
NAMES_A_LINE = 12


def getter(kind: str, names: list[str]) -> str:
    """The objects of a kind; many names go over several lines."""
    rows = [" ".join(names[at : at + NAMES_A_LINE]) for at in range(0, len(names), NAMES_A_LINE)]
    return f"[{GET[kind]} {{{f' {chr(92)}{chr(10)}    '.join(rows)}}}]"


def flags_of(corners: list[Corner]) -> list[str]:
    """The options for a set of splits and edges, as few commands as they take."""
    left, found = set(corners), []
    whole = [
        (SPLITS, EDGES),
        *(((split,), EDGES) for split in SPLITS),
        *((SPLITS, (edge,)) for edge in EDGES),
        *(((split,), (edge,)) for split, edge in CORNERS),
    ]
    for splits, edges in whole:
        those = set(itertools.product(splits, edges))
        if those <= left:
            left -= those
            words = [FLAGS[it] for part, of in ((splits, SPLITS), (edges, EDGES)) if len(part) < len(of) for it in part]
            found.append("".join(f"{it} " for it in words))
    return found


def by_value(values: dict[Corner, Decimal]) -> list[tuple[Decimal, str]]:
    """Each value with the options for it."""
    kinds: dict[Decimal, list[Corner]] = {}
    for corner in CORNERS:
        if corner in values:
            kinds.setdefault(values[corner], []).append(corner)
    return [(value, flags) for value, corners in kinds.items() for flags in flags_of(corners)]


def grouped(lines: dict[str, list[str]]) -> dict[tuple[str, ...], list[str]]:
    """The ports that have the same commands, by these."""
    found: dict[tuple[str, ...], list[str]] = {}
    for port, said in lines.items():
        found.setdefault(tuple(said), []).append(port)
    return found


class SdcWriter:
    """Gathers the lines of a file of constraints."""

    def __init__(self, constraints: Constraints, name: str):
        self.constraints, self.lines = constraints, [
            "set sdc_version 2.0",
            f"current_design {name}",
            "set_units -time ps -capacitance fF",
        ]

    def text(self) -> str:
        for clock in self.constraints.clocks.values():
            self.clock(clock)
        self.uncertainties()
        self.derates()
        self.of_ports(
            {
                port: [f"set_input_transition {flags}{plain(value)}" for value, flags in by_value(slews)]
                for port, slews in self.constraints.slews.items()
            }
        )
        for word, delays in (
            ("set_input_delay", self.constraints.inputs),
            ("set_output_delay", self.constraints.outputs),
        ):
            self.of_ports(
                {
                    port: [
                        f"{word} {flags}-clock {clock} {plain(value)}"
                        for clock, corners in it.by_clock.items()
                        for value, flags in by_value({corner: delay.value for corner, delay in corners.items()})
                    ]
                    for port, it in delays.items()
                }
            )
        self.of_ports({port: self.load(values) for port, values in self.constraints.loads.items()})
        for made in self.constraints.exceptions:
            self.exception(made)
        return "\n".join(self.lines) + "\n"

    def clock(self, clock: Clock) -> None:
        at = f" [get_ports {{{clock.port}}}]" if clock.port else ""
        self.lines.append(
            f"create_clock -name {clock.name} -period {plain(clock.period)} -waveform "
            f"{{{plain(clock.rise)} {plain(clock.fall)}}}{at}"
        )
        if clock.port:
            self.lines.append(f"set_propagated_clock [get_clocks {{{clock.name}}}]")

    def uncertainties(self) -> None:
        for clock in self.constraints.clocks.values():
            for kind, value in clock.uncertainty.items():
                self.lines.append(f"set_clock_uncertainty -{kind} {plain(value)} [get_clocks {{{clock.name}}}]")

    def derates(self) -> None:
        for (split, sort), value in self.constraints.derates.items():
            self.lines.append(f"set_timing_derate -{split} -{sort}_delay {plain(value)}")

    @staticmethod
    def load(values: dict[str, Decimal]) -> list[str]:
        if len(set(values.values())) == 1 and len(values) == len(SPLITS):
            return [f"set_load {plain(values['early'])}"]
        return [f"set_load {FLAGS[split]} {plain(value)}" for split, value in values.items()]

    def of_ports(self, lines: dict[str, list[str]]) -> None:
        for said, ports in grouped(lines).items():
            self.lines += [f"{it} {getter('ports', ports)}" for it in said]

    def exception(self, made: PathException) -> None:
        """One command for each pair of kinds of objects at its ends."""
        start, end = self.sides("-from", made.start), self.sides("-to", made.end)
        for kind in [""] if made.cycles is None and len(made.kinds) == 2 else [f" -{it}" for it in made.kinds]:
            head = f"set_false_path{kind}" if made.cycles is None else f"set_multicycle_path{kind} {made.cycles}"
            self.lines += [f"{head}{one}{other}" for one, other in itertools.product(start, end)]

    @staticmethod
    def sides(option: str, end: PathEnd | None) -> list[str]:
        return [""] if end is None else [f" {option} {getter(kind, names)}" for kind, names in end.parts()]
