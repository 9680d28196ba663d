"""What the page of a report holds, gathered from the answers of one corner or of several."""
import collections
import dataclasses
import datetime
import functools
import pathlib
import re
from collections.abc import Iterator

from lizdrog_tools.corners.merge import KINDS, NONE, CornerAnswers, Merged, state_text
from lizdrog_tools.files import InputFault, read_text
from lizdrog_tools.liberty import Library, read_library
from lizdrog_tools.read_answers import Edited, Row, thousandths
from lizdrog_tools.reporting.clocks import Clock, capture_clocks, read_clocks
from lizdrog_tools.reporting.histogram import histogram, picoseconds
from lizdrog_tools.reporting.path_picture import bar, path_picture
from lizdrog_tools.reporting.paths import ShownPath, Times, shown_path, shown_timing
from lizdrog_tools.reporting.replay import Replay
from lizdrog_tools.verilog import read_netlist

MOST_ENDPOINTS = 2000
UNKNOWN_CLOCK = "not known"
MODULE = re.compile(r"^\s*module\s+\\?([^\s(;]+)", re.MULTILINE)


@dataclasses.dataclass
class Source:
    """What a report is made of: a title, the answers, those with paths, the documents, and the ECOs before the runs."""

    title: str
    merged: Merged
    with_paths: list[CornerAnswers]
    netlist: pathlib.Path | None
    libraries: dict[str, pathlib.Path]
    constraints: dict[str, pathlib.Path]
    saved: dict[str, list[list[str]]]
    replayed: list[CornerAnswers] = dataclasses.field(default_factory=list)


@dataclasses.dataclass(frozen=True)
class ClockRow:
    """Worst and total negative slack of the endpoints that a clock captures, in one corner."""

    corner: str
    kind: str
    clock: str
    count: int
    failing: int
    worst: str
    total: str


@dataclasses.dataclass(frozen=True)
class EndpointRow:
    """An endpoint of the table."""

    pin: str
    kind: str
    slack: str
    corner: str
    clock: str
    slacks: list[str]
    place: int | None


@dataclasses.dataclass(frozen=True)
class EcoRow:
    """An ECO: its number, its edits, what it changed of worst and total slacks, and what endpoints it moved most."""

    number: int
    changes: list[str]
    results: list[str]
    moved: list[str]


class Page:
    """Everything that the template asks for."""

    def __init__(self, source: Source):
        self.source, self.merged = source, source.merged
        self.title = source.title
        self.design = module_name(source.netlist) if source.netlist else source.title
        self.when = datetime.datetime.now().isoformat(" ", "minutes")
        self.kinds, self.corners = KINDS, self.merged.corners
        self.names = [it.name for it in self.merged.there]
        self.clocks = self.clocks_of_endpoints()
        self.paths = list(self.shown_paths())
        self.places = {(it.kind, it.pin, it.corner): place for place, it in reversed(list(enumerate(self.paths, 1)))}
        finals = {it.name: it.output.final for it in self.merged.there}
        self.replay = Replay(source.replayed, source.saved, finals)

    # -------------------------------------------------------------------------------------------- documents

    @functools.cache
    def library(self, corner: str) -> Library | None:
        """The late library of a corner."""
        file = self.source.libraries.get(corner)
        return read_library(file) if file else None

    def constraints(self, corner: str) -> str:
        """The constraints of a corner."""
        file = self.source.constraints.get(corner)
        return read_text(file, may_be_empty=True) if file else ""

    @functools.cache
    def clocks_of_corner(self, corner: str) -> dict[str, Clock]:
        """The clocks of a corner by name."""
        library = self.library(corner)
        return read_clocks(self.constraints(corner), library.time_unit) if library else {}

    def edited(self, corner: CornerAnswers) -> Edited | None:
        """The netlist with the cells of a corner, to be taken through its ECOs."""
        library = self.library(corner.name)
        if not self.source.netlist or not library:
            return None
        ecos = self.source.saved.get(corner.name, []) + corner.output.ecos
        return Edited(read_netlist(self.source.netlist), library, ecos)

    def clocks_of_endpoints(self) -> dict[str, str]:
        """The clocks that capture at each endpoint, by the first corner that has answered."""
        for corner in self.merged.there:
            edited = self.edited(corner)
            if edited:
                joined = edited.at(corner.design())
                return capture_clocks(joined, self.constraints(corner.name), self.clocks_of_corner(corner.name))
        return {}

    # -------------------------------------------------------------------------------------------- summaries

    def headline(self, kind: str) -> dict | None:
        """The worst slack of a kind with its corner and, where it is known, its endpoint and its slowest stage."""
        worst = self.merged.worst(kind)
        if not worst:
            return None
        ends = [it for it in self.merged.endpoints[kind] if it.worst() == worst]
        place = self.place_of(kind, ends[0].pin, worst[1]) if ends else None
        return {
            "slack": worst[0],
            "corner": worst[1],
            "pin": ends[0].pin if ends else None,
            "fails": worst[0].startswith("-"),
            "failing": len(self.merged.failing(kind)),
            "asked": len(self.merged.endpoints[kind]),
            "slowest": self.paths[place - 1].slowest() if place else None,
            "place": place,
        }

    def place_of(self, kind: str, pin: str, corner: str) -> int | None:
        """The number on the page of the worst path to an endpoint in a corner, where it is shown."""
        return self.places.get((kind, pin, corner))

    def state_of_design(self) -> str:
        """Which design the numbers are of."""
        count = self.merged.there[0].design()
        return f"after {count} {'ECO' if count == 1 else 'ECOs'}" if count else "as it was read"

    def state(self, corner: CornerAnswers) -> str:
        """What became of a corner that has not answered."""
        return state_text(corner)

    def failing_in(self, kind: str, corner: CornerAnswers) -> str:
        """How many endpoints of those that were asked fail in a corner."""
        ends = [it for it in self.merged.endpoints[kind] if corner.name in it.slacks]
        return f"{self.merged.failing_in(kind, corner.name)} of {len(ends)}" if ends else "not asked"

    def clock_rows(self) -> Iterator[ClockRow]:
        """For each kind, clock and corner: worst slack, the sum of the negative ones, and how many there are."""
        for kind in KINDS:
            groups: dict[str, dict[str, list[int]]] = collections.defaultdict(lambda: collections.defaultdict(list))
            for end in self.merged.endpoints[kind]:
                for corner, slack in end.slacks.items():
                    groups[self.clocks.get(end.pin, UNKNOWN_CLOCK)][corner].append(thousandths(slack))
            for clock in sorted(groups):
                for corner in self.names:
                    slacks = groups[clock].get(corner)
                    if slacks:
                        negative = [it for it in slacks if it < 0]
                        total = picoseconds(sum(negative))
                        yield ClockRow(corner, kind, clock, len(slacks), len(negative), picoseconds(min(slacks)), total)

    def histograms(self) -> Iterator[tuple[str, str]]:
        """For each kind the histogram of the worst slacks over all corners, and then one for each corner."""
        for kind in KINDS:
            ends = self.merged.endpoints[kind]
            if not ends:
                continue
            several = len(self.names) > 1
            title = f"{kind} slack of {len(ends)} endpoints" + (", each in its worst corner" if several else "")
            yield "", histogram(title, [thousandths(it.worst()[0]) for it in ends]).inline()
        if len(self.names) > 1:
            yield from self.histograms_of_corners()

    def histograms_of_corners(self) -> Iterator[tuple[str, str]]:
        """A histogram for each corner and kind."""
        for corner in self.names:
            for kind in KINDS:
                values = [thousandths(it.slacks[corner]) for it in self.merged.endpoints[kind] if corner in it.slacks]
                if values:
                    yield corner, histogram(f"{corner}: {kind} slack of {len(values)} endpoints", values).inline()

    # -------------------------------------------------------------------------------------------- endpoints and paths

    def endpoint_rows(self) -> Iterator[EndpointRow]:
        """The endpoints of both kinds, worst first, as many as a page bears."""
        for kind in KINDS:
            for end in self.merged.endpoints[kind][:MOST_ENDPOINTS]:
                slack, corner = end.worst()
                slacks = [end.slacks.get(it, "") for it in self.names]
                path = self.place_of(kind, end.pin, corner)
                yield EndpointRow(end.pin, kind, slack, corner, self.clocks.get(end.pin, ""), slacks, path)

    def left_out(self) -> int:
        """How many endpoints the table has not."""
        return sum(max(0, len(it) - MOST_ENDPOINTS) for it in self.merged.endpoints.values())

    def shown_paths(self) -> Iterator[ShownPath]:
        """The paths of all answers, worst first, setup before hold; of one that was asked twice, that with most."""
        found: dict[tuple, ShownPath] = {}
        for corner in self.source.with_paths:
            for design, path in self.paths_of_corner(corner):
                key = (path.kind, path.pin, path.corner, design, path.nodes())
                if key not in found or path.is_timed or not found[key].is_timed:
                    found[key] = path
        last = max((key[3] for key in found), default=0)
        paths = [path for key, path in found.items() if key[3] == last]
        return iter(sorted(paths, key=lambda it: (KINDS.index(it.kind), it.slack, it.pin)))

    def paths_of_corner(self, corner: CornerAnswers) -> Iterator[tuple[int, ShownPath]]:
        """The paths of the answers of a corner, each with the number of its design."""
        answers = list(path_rows(corner))
        edited = self.edited(corner) if answers else None
        clocks = self.clocks_of_corner(corner.name)
        for design, rows in answers:
            times = Times({tuple(it.command.words): it.row for it in corner.answers if it.row.design == design})
            for row in rows:
                if row.sort == "timing":
                    path = shown_timing(corner.name, row, edited)
                else:
                    path = shown_path(corner.name, row, edited, clocks, times)
                path.is_former = design != corner.design()
                yield design, path

    def picture(self, path: ShownPath) -> str:
        """The picture of a path."""
        return path_picture(path).inline()

    # -------------------------------------------------------------------------------------------- ECOs

    def eco_rows(self) -> Iterator[EcoRow]:
        """The ECOs of the first corner that has answered, with what each changed."""
        for corner in self.merged.there[:1]:
            ecos = self.source.saved.get(corner.name, []) + corner.output.ecos
            edited = self.edited(corner) if ecos else None
            for number, edits in enumerate(ecos, 1):
                edits = [described(edit, edited) for edit in edits]
                if self.replay.has(number):
                    results = list(self.replay.totals(number)) or ["no worst or total slack changed"]
                    yield EcoRow(number, edits, results, self.replay.moved(number) or ["none of those asked"])
                else:
                    yield EcoRow(number, edits, list(self.results_of(number)), [])

    def results_of(self, design: int) -> Iterator[str]:
        """What the corners answered to report_wns and report_tns of a design."""
        for corner in self.merged.there:
            said = {}
            for answer in corner.answers:
                if answer.row.design == design and answer.row.sort in ("wns", "tns"):
                    said[f"{answer.command.words[1]} {answer.row.sort}"] = answer.row.words[0]
            if said:
                yield f"{corner.name}: " + ", ".join(f"{name} {value}" for name, value in said.items())


def module_name(netlist: pathlib.Path) -> str:
    """The name of the module of a netlist."""
    found = MODULE.search(read_text(netlist))
    return found[1] if found else netlist.stem


def path_rows(corner: CornerAnswers) -> Iterator[tuple[int, list[Row]]]:
    """The paths of the rows of a corner, with the design that each row speaks of."""
    for answer in corner.answers:
        row = answer.row
        if row.sort in ("path", "timing") and row.words[0] != NONE and row.below:
            yield row.design, [row]
        elif row.sort in ("paths", "worst_paths"):
            yield row.design, [it for it in row.parts() if it.below]


def described(edit: str, edited: Edited | None) -> str:
    """An edit in words, with the cell that was there before; the design goes on behind it."""
    words = edit.split()
    if edited is None:
        return edit
    try:
        before = edited.netlist.instances[words[1]].cell if words[0] == "repower_gate" else None
        edited.edit(words)
    except (KeyError, IndexError, AttributeError) as why:
        raise InputFault("the journal", None, f"an edit does not fit the netlist: {edit}") from why
    return f"repower_gate {words[1]}: {before} becomes {words[2]}" if before else edit


def bar_of(path: ShownPath, stage: object) -> str:
    """The bar of a stage in the table beside the picture."""
    return bar(path, stage)
