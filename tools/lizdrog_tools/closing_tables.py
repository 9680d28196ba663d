"""Answers to questions for closing timing as CSV: a table with a header of its own for each sort of line.

The first columns are those of the table of all answers. What is not there is empty; times, capacitances and resistances
stand as the program wrote them.
"""
from collections.abc import Callable, Iterator

from lizdrog_tools.closing_answers import Lines, net_head, pin_of_instance, skew_edge, stages, totals

Cells = Callable[[str, str], str] | None
Line = tuple[str, list]

HEAD = ["command", "design", "question", "answer"]
STAGE = ["endpoint", "kind", "pin", "cell", "edge", "arrival", "delay", "slew", "net", "load", "fanout"]
COLUMNS = {
    "net": ["net", "driver", "load_early", "load_late", "parasitics", "nodes", "resistance", "sinks", "edit"],
    "sink": ["net", "pin", "capacitance_early", "capacitance_late", "delay_early", "delay_late"],
    "instance": ["instance", "cell", "pin", "direction", "on", "net"],
    "sizes": ["instance", "present", "cell", "alike", "pin", "capacitance"],
    "timing": STAGE,
    "capture": STAGE,
    "part": ["endpoint", "kind", "part", "clock", "edge", "value"],
    "worst_paths": ["path", "endpoint", "kind", "slack", "credit", "launch_clock", "launch_edge", "capture_clock",
                    "capture_edge", "pin", "edge", "arrival"],
    "failing": ["pin", "slack"],
    "summary": ["untested", "clock", "tested", "failing", "worst", "total"],
    "skew": ["clock", "edge", "skew", "late_pin", "late_edge", "late_arrival", "early_pin", "early_edge",
             "early_arrival"],
    "resizes": ["tried", "refused", "instance", "cell", "setup_wns", "setup_tns", "hold_wns", "hold_tns"],
}


def known(word: str) -> str:
    """A value, and nothing for none."""
    return "" if word == "none" else word


def of_net(words: list[str], below: Lines) -> Iterator[Line]:
    it = net_head(words)
    load = it["load"]
    yield "net", [it["net"], it["driver"], load["early"], load["late"], it["parasitics"], it["nodes"],
                  it["resistance"], it["sinks"], " ".join(below[-1])]
    yield from (("sink", [it["net"], *map(known, line)]) for line in below[:-1])


def of_instance(words: list[str], below: Lines) -> Iterator[Line]:
    for it in map(pin_of_instance, below):
        yield "instance", [*words[:2], it["pin"], it["direction"], it["on"], it["net"]]


def of_sizes(words: list[str], below: Lines) -> Iterator[Line]:
    for cell, way, _, _, *caps in below:
        for pin, value in zip(caps[::2], caps[1::2]):
            yield "sizes", [*words[:2], cell, way, pin, value]


def of_timing(words: list[str], below: Lines, cells: Cells) -> Iterator[Line]:
    if not below:
        return
    head = [words[1], words[0]]
    nodes, captured, parts = stages(words, below, cells)
    for name, lines in (("timing", nodes), ("capture", captured)):
        for it in lines:
            values = [it[key] for key in ("edge", "time", "delay", "slew", "net", "load", "fanout")]
            yield name, [*head, it["pin"], it.get("cell"), *values]
    for name, *more in parts:
        yield "part", [*head, name, *(more if len(more) > 1 else ["", "", *more])]


def of_worst_paths(_: list[str], below: Lines) -> Iterator[Line]:
    place, head = 0, []
    for line in below:
        if line[0] == "path" and len(line) > 3:
            place += 1
            head = [place, line[2], line[1], line[4], line[6], *line[8:10], *line[11:13]]
        else:
            yield "worst_paths", [*head, *line]


def of_failing(_: list[str], below: Lines) -> Iterator[Line]:
    return (("failing", line) for line in below)


def of_summary(words: list[str], below: Lines) -> Iterator[Line]:
    return (("summary", [words[4], line[0], *map(known, line[2::2])]) for line in below)


def of_skew(_: list[str], below: Lines) -> Iterator[Line]:
    for it in map(skew_edge, below):
        yield "skew", [it["clock"], it["edge"], it["skew"], *it["late"].values(), *it["early"].values()]


def of_resizes(words: list[str], below: Lines) -> Iterator[Line]:
    """The design as it is, without an instance, and then each resize."""
    for inst, cell, *more in [["", "", *words[5:]], *below]:
        found = totals(more)
        yield "resizes", [words[2], words[4], inst, cell, *(value for it in found.values() for value in it.values())]


SORTS = {
    "net": of_net, "instance": of_instance, "sizes": of_sizes, "worst_paths": of_worst_paths, "failing": of_failing,
    "summary": of_summary, "skew": of_skew, "resizes": of_resizes,
}


def lines_of(sort: str, words: list[str], below: Lines, cells: Cells) -> Iterator[Line]:
    """The lines of an answer, each with the name of its table."""
    return of_timing(words, below, cells) if sort == "timing" else SORTS[sort](words, below)


def in_short(sort: str, words: list[str], below: Lines) -> list[str]:
    """What the table of all answers says of one: its endpoint, an edge, and its slack."""
    if sort == "timing" and below:
        return [words[1], "", words[3]]
    return ["none" if not below else "", "", ""]


class Tables:
    """The tables of an output, in the order in which their first lines came."""

    def __init__(self) -> None:
        self.rows: dict[str, list[list]] = {}

    def take(self, head: list, sort: str, words: list[str], below: Lines, cells: Cells) -> None:
        """Takes an answer, whose lines begin with this head."""
        for name, line in lines_of(sort, words, below, cells):
            self.rows.setdefault(name, []).append([*head, name, *line])

    def lines(self) -> Iterator[list]:
        """Each table behind an empty line, with its header."""
        for name, rows in self.rows.items():
            yield []
            yield [*HEAD, *COLUMNS[name]]
            yield from rows
