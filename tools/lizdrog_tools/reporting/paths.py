"""A path as a page shows it: its stages along the time axis, and the parts of its required time."""
import dataclasses

from lizdrog_tools import closing_answers
from lizdrog_tools.read_answers import Edited, Row, cells_beside, path_lines, picoseconds, thousandths
from lizdrog_tools.reporting.clocks import SETUP, Clock, clock_edge, ends_the_network, separation
from lizdrog_tools.verilog import Joined

MOST_SINKS = 40


@dataclasses.dataclass(frozen=True)
class Stage:
    """One step of a path: a cell's delay or a wire's, from one time to another."""

    pin: str
    edge: str
    start: int
    end: int
    is_cell: bool
    is_network: bool
    cell: str
    net: str
    sinks: tuple[str, ...]
    # What report_timing tells besides: the count of sinks, the load of the net, and the slew.
    fanout: int = 0
    load: str = ""
    slew: str = ""

    def delay(self) -> int:
        """What the step adds."""
        return self.end - self.start

    def net_text(self) -> str:
        """The net that the step drives, with the count of its sinks, and its load where it is known."""
        load = f", {self.load} fF" if self.load else ""
        return f"{self.net}, {self.fanout}{load}" if self.net else ""

    def sinks_text(self) -> str:
        """The sinks of the net that the step drives, by name."""
        more = len(self.sinks) - MOST_SINKS
        return " ".join(self.sinks[:MOST_SINKS]) + (f" and {more} more" if more > 0 else "")

    def sort(self) -> str:
        """What the step is, in words."""
        return ("clock " if self.is_network else "") + ("cell" if self.is_cell else "wire")


@dataclasses.dataclass(frozen=True)
class Part:
    """A part of the required time, as a step on the time axis."""

    name: str
    sort: str
    start: int
    end: int


@dataclasses.dataclass
class ShownPath:
    """A path with everything that a page shows of it; times in femtoseconds since the launch edge."""

    corner: str
    kind: str
    pin: str
    slack: int
    credit: int
    launch: tuple[str, str]
    capture: tuple[str, str]
    start: tuple[str, str, int]
    stages: list[Stage]
    parts: list[Part]
    # Whether a later ECO of the same run came after it; and whether report_timing has told of slews and loads.
    is_former: bool = False
    is_timed: bool = False

    def nodes(self) -> tuple[tuple[str, str], ...]:
        """Its pins with their edges, which are those of no other path."""
        return (self.start[:2], *((it.pin, it.edge) for it in self.stages))

    def arrival(self) -> int:
        """When the path ends."""
        return self.stages[-1].end if self.stages else self.start[2]

    def required(self) -> int:
        """The time that the test allows, with credit: slack and arrival of the program's own answer."""
        return self.arrival() + self.slack if self.kind == SETUP else self.arrival() - self.slack

    def slowest(self) -> Stage | None:
        """The data stage with the greatest delay."""
        stages = [it for it in self.stages if not it.is_network] or self.stages
        return max(stages, key=Stage.delay, default=None)


def stages_of(lines: list[dict], joined: Joined | None) -> tuple[tuple[str, str, int], list[Stage]]:
    """The start of a path and its stages."""
    # The clock network ends at the last clock pin of a register that the path enters before its data part.
    entries = [at for at, line in enumerate(lines[:-1]) if joined and ends_the_network(joined, line["pin"])]
    last = entries[0] if entries else 0
    first, stages = lines[0], []
    for at, (before, line) in enumerate(zip(lines, lines[1:]), 1):
        stages.append(stage_of(before, line, at <= last, joined))
    return (first["pin"], first["edge"], thousandths(first["time"])), stages


def stage_of(before: dict, line: dict, is_network: bool, joined: Joined | None) -> Stage:
    """The step from one line of a path to the next one."""
    instance, net = line["pin"].rpartition(":")[0], line.get("net") or ""
    known = joined.nets.get(net) if joined else None
    return Stage(
        line["pin"],
        line["edge"],
        thousandths(before["time"]),
        thousandths(line["time"]),
        bool(instance) and instance == before["pin"].rpartition(":")[0],
        is_network,
        line.get("cell", ""),
        net,
        tuple(known.sinks) if known else (),
        line.get("fanout") or 0,
        line.get("load") or "",
        line.get("slew") or "",
    )


@dataclasses.dataclass
class Times:
    """Arrivals and required times that a script has asked beside the paths, by question."""

    rows: dict[tuple[str, ...], Row]

    def at(self, name: str, pin: str, split: str, edge: str, launch: tuple[str, str]) -> int | None:
        """The answer of report_at or report_rat for one launch edge."""
        row = self.rows.get((name, pin, split, edge))
        words = row.words if row and row.sort in ("at", "rat") else []
        for i in range(1, len(words) - 2, 3):
            if tuple(words[i : i + 2]) == launch:
                return thousandths(words[i + 2])
        return None


def chain(start: int, steps: list[tuple[str, str, int]]) -> list[Part]:
    """Steps of so much each, one behind the other; steps of nothing are left out."""
    parts = []
    for name, sort, amount in steps:
        if amount:
            parts.append(Part(name, sort, start, start + amount))
            start += amount
    return parts


def required_parts(path: ShownPath, joined: Joined | None, clocks: dict[str, Clock], times: Times) -> list[Part]:
    """The required time by parts: each is an answer or a constraint, and the test's own time is what is left."""
    launch, capture = clocks.get(path.launch[0]), clocks.get(path.capture[0])
    end_edge = path.stages[-1].edge if path.stages else path.start[1]
    sign, splits = (1, ("late", "early")) if path.kind == SETUP else (-1, ("early", "late"))
    plain = times.at("report_rat", path.pin, splits[0], end_edge, path.launch)
    if plain is None or not launch or not capture:
        return chain(
            0,
            [
                ("required without credit", "early", path.required() - sign * path.credit),
                ("credit", "credit", sign * path.credit),
            ],
        )
    edges = separation((launch, path.launch[1]), (capture, path.capture[1]), path.kind)
    margin = -sign * capture.uncertainty[path.kind]
    test = clock_edge(joined, path.pin, path.kind) if joined and ":" in path.pin else None
    network = times.at("report_at", test[0], splits[1], test[1], path.capture) if test else None
    exceptions = path.required() - sign * path.credit - plain
    is_port = ":" not in path.pin
    if network is None and not is_port:
        known, name = 0, f"capture clock and {path.kind} time"
    else:
        known, name = network or 0, "output delay" if is_port else f"{path.kind} time"
    rest = plain - edges - known - margin
    steps = [
        ("capture edge", "edge", edges),
        ("capture clock", "early", known),
        ("uncertainty", "margin", margin),
        (name, "margin", rest),
    ]
    return chain(0, [*steps, ("credit", "credit", sign * path.credit), ("exceptions", "edge", exceptions)])


def path_of_row(corner: str, row: Row, lines: list[dict], joined: Joined | None) -> ShownPath:
    """What a page shows of a row with a path, but the parts of its required time."""
    words = row.words
    launch, capture = (words[7], words[8]), (words[10], words[11])
    slack, credit = thousandths(words[3]), thousandths(words[5])
    return ShownPath(corner, words[0], words[1], slack, credit, launch, capture, *stages_of(lines, joined), [])


def shown_path(corner: str, row: Row, edited: Edited | None, clocks: dict[str, Clock], times: Times) -> ShownPath:
    """What a page shows of a row of `report_path`."""
    joined = edited.at(row.design) if edited else None
    path = path_of_row(corner, row, path_lines(row, edited), joined)
    path.parts = required_parts(path, joined, clocks, times)
    return path


# How the picture and the table of a required time name and draw the parts of report_timing.
PARTS = {
    "capture_edge": ("capture edge", "edge"),
    "capture_arrival": ("capture clock", "early"),
    "setup_time": ("setup time", "margin"),
    "hold_time": ("hold time", "margin"),
    "output_delay": ("output delay", "margin"),
    "uncertainty": ("uncertainty", "margin"),
    "credit": ("credit", "credit"),
}


def shown_timing(corner: str, row: Row, edited: Edited | None) -> ShownPath:
    """What a page shows of a row of `report_timing`, which has each part of the required time."""
    joined = edited.at(row.design) if edited else None
    lines, _, parts = closing_answers.stages(row.words, row.below, cells_beside(row, edited))
    path = path_of_row(corner, row, lines, joined)
    path.parts = chain(0, [(*PARTS[name], thousandths(more[-1])) for name, *more in parts if name in PARTS])
    path.is_timed = True
    return path


def told(value: int | None) -> str:
    """A time in picoseconds, or a dash."""
    return "–" if value is None else picoseconds(value)
