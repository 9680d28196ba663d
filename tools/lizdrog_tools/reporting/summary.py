"""Sums up a design at each of its corners: summary.py FILE.toml [options]

For each corner it prints, by kind and capture clock, the worst slack, the total negative slack and how many endpoints
fail; the N worst endpoints; the skew of each clock; and the pins whose slew, load or fan-out comes nearest to its
limit (`max_transition`, `max_capacitance` and `max_fanout` of the libraries and the constraints). The program answers
for slacks, arrivals and slews. Loads, fan-outs and limits are a plain reading of this tool: no proof speaks of them.

  --top N           how many endpoints and pins are listed (default: 10)
  --no-slews        do not ask slews: a large design has many, and they are asked only where a limit is
  --json            the same for programs
  --jobs N, --timeout S, --launch HOW, --results FOLDER, --again, --quiet, --program FILE    as for `corners`
Status: 0 every corner has answered, 2 wrong words or a file that cannot be used, 3 some corner has not answered.
"""
import argparse
import collections
import dataclasses
import json
import sys
from collections.abc import Iterator

from lizdrog_tools.corners.launch import CannotLaunch
from lizdrog_tools.corners.merge import KINDS, Answer, CornerAnswers, Merged, endpoint_slacks, state_text
from lizdrog_tools.corners.project import Corner
from lizdrog_tools.corners.questions import MOST_COMMANDS, endpoint_lines
from lizdrog_tools.corners.rounds import Corners, Refused, alone
from lizdrog_tools.corners.words import add_common_words, at_least_one, options_of, project_of
from lizdrog_tools.files import read_text, tool
from lizdrog_tools.liberty import read_library
from lizdrog_tools.read_answers import Edited, thousandths
from lizdrog_tools.reporting.clocks import capture_clocks, network_pins, read_clocks
from lizdrog_tools.reporting.histogram import picoseconds
from lizdrog_tools.reporting.limits import (
    CAPACITANCE,
    FANOUT,
    SORTS,
    TRANSITION,
    Checked,
    Checks,
    Constraints,
    Loads,
    read_limits,
    wires_after,
)
from lizdrog_tools.spef import read_spef
from lizdrog_tools.verilog import Joined, read_netlist

SCRIPTS_OF_A_RUN = 16
BAD_INPUT, MISSING = 2, 3
UNKNOWN_CLOCK = "not known"


class Design:
    """The documents of a corner, read once: the netlist after its ECOs, clocks, loads and limits."""

    def __init__(self, corner: Corner, ecos: list[list[str]]):
        self.sdc = read_text(corner.sdc, may_be_empty=True)
        self.limits = read_limits(corner.late)
        edited = Edited(read_netlist(corner.netlist), read_library(corner.late), ecos)
        wires = wires_after(edited, read_spef(corner.spef) if corner.spef else None)
        self.joined = Joined(edited.netlist, edited.library)
        self.clocks = read_clocks(self.sdc, self.limits.time_unit)
        self.captures = capture_clocks(self.joined, self.sdc, self.clocks)
        self.constraints = Constraints(self.sdc, self.limits)
        self.checks = Checks(self.joined, self.limits, self.constraints, Loads(self.joined, wires, self.constraints))

    def clock_pins(self) -> dict[str, list[str]]:
        """The register clock pins that each clock reaches."""
        registers = set()
        for instance in self.joined.netlist.instances.values():
            cell = self.joined.library.cells.get(instance.cell)
            registers.update(f"{instance.name}:{pin}" for pin in (cell.clock_pins() if cell else ()))
        ports = {clock.name: clock.port for clock in self.clocks.values() if clock.port}
        return {name: sorted(network_pins(self.joined, port) & registers) for name, port in ports.items()}

    def questions(self, with_slews: bool) -> Iterator[str]:
        """What the program is asked."""
        yield from endpoint_lines(self.joined)
        for pin in sorted({pin for pins in self.clock_pins().values() for pin in pins}):
            for split in ("early", "late"):
                for edge in ("rise", "fall"):
                    yield f"report_at {pin} {split} {edge}"
        for pin in self.checks.pins_with_transition() if with_slews else ():
            for edge in ("rise", "fall"):
                yield f"report_slew {pin} late {edge}"


@dataclasses.dataclass(frozen=True)
class Group:
    """The endpoints of a kind that a clock captures."""

    kind: str
    clock: str
    worst: str
    total: str
    failing: int
    count: int


@dataclasses.dataclass(frozen=True)
class Skew:
    """The greatest late and the least early arrival at the register clock pins of a launch edge."""

    clock: str
    edge: str
    late: str
    late_pin: str
    early: str
    early_pin: str
    skew: str


@dataclasses.dataclass
class Summary:
    """What is said of a corner."""

    corner: str
    totals: dict[str, tuple[str, str]]
    groups: list[Group]
    ends: dict[str, list[tuple[str, str]]]
    skews: list[Skew]
    checks: dict[str, list[Checked]]
    counts: dict[str, int]
    not_looked_at: list[str]


def groups_of(slacks: dict[str, dict[str, str]], captures: dict[str, str]) -> Iterator[Group]:
    """The endpoints by kind and capture clock."""
    for kind in KINDS:
        by_clock = collections.defaultdict(list)
        for pin, slack in slacks[kind].items():
            if slack != "none":
                by_clock[captures.get(pin, UNKNOWN_CLOCK)].append(thousandths(slack))
        for clock, values in sorted(by_clock.items()):
            negative = [it for it in values if it < 0]
            yield Group(kind, clock, picoseconds(min(values)), picoseconds(sum(negative)), len(negative), len(values))


def skews_of(answers: list[Answer], clock_pins: dict[str, list[str]]) -> Iterator[Skew]:
    """The skew of each launch edge over the register clock pins of its clock."""
    pins = {clock: set(names) for clock, names in clock_pins.items()}
    times: dict[tuple[str, str, str], list[tuple[int, str]]] = collections.defaultdict(list)
    for answer in answers:
        words, row = answer.command.words, answer.row
        for i in range(1, len(row.words) - 2, 3) if row.sort == "at" else ():
            clock, edge, time = row.words[i : i + 3]
            if words[1] in pins.get(clock, ()):
                times[(clock, edge, words[2])].append((thousandths(time), words[1]))
    for clock, edge in sorted({key[:2] for key in times}):
        early, late = times.get((clock, edge, "early")), times.get((clock, edge, "late"))
        if early and late:
            (first, first_pin), (last, last_pin) = min(early), max(late)
            yield Skew(
                clock, edge, picoseconds(last), last_pin, picoseconds(first), first_pin, picoseconds(last - first)
            )


def slews_of(answers: list[Answer], checks: Checks) -> Iterator[Checked]:
    """The greater slew of each pin with a limit."""
    slews: dict[str, float] = {}
    for answer in answers:
        if answer.row.sort == "slew" and answer.row.words[0] != "none":
            pin = answer.command.words[1]
            slews[pin] = max(thousandths(answer.row.words[0]), slews.get(pin, 0))
    for pin, slew in slews.items():
        limit = checks.limit(pin, TRANSITION)
        if limit is not None:
            yield Checked(pin, slew, limit)


def summary_of(corner: CornerAnswers, design: Design, top: int) -> Summary:
    """What is said of a corner that has answered."""
    slacks = endpoint_slacks(corner)
    ends = {}
    for kind in KINDS:
        tested = [(thousandths(it), pin, it) for pin, it in slacks[kind].items() if it != "none"]
        ends[kind] = [(pin, text) for _, pin, text in sorted(tested)[:top]]
    checks = {it: list(design.checks.of_nets(it)) for it in (CAPACITANCE, FANOUT)}
    checks[TRANSITION] = list(slews_of(corner.answers, design.checks))
    listed = {it: sorted(checks[it], key=lambda found: (-found.excess(), found.pin))[:top] for it in SORTS}
    broken = {it: sum(found.excess() > 0 for found in checks[it]) for it in SORTS}
    return Summary(
        corner.name,
        {kind: corner.total(kind) for kind in KINDS},
        list(groups_of(slacks, design.captures)),
        ends,
        list(skews_of(corner.answers, design.clock_pins())),
        listed,
        broken,
        design.constraints.not_looked_at,
    )


# ------------------------------------------------------------------------------------------------ lines for people

UNITS = {TRANSITION: (1e3, "ps"), CAPACITANCE: (1e3, "fF"), FANOUT: (1.0, "sinks")}
NAMES = {TRANSITION: "slew", CAPACITANCE: "load", FANOUT: "fan-out"}


def group_lines(summary: Summary) -> Iterator[str]:
    """A line for each kind and clock."""
    width = max([5, *(len(it.clock) for it in summary.groups)])
    yield f"  {'kind':5}  {'clock':{width}}  {'worst':>12}  {'total':>14}  failing"
    for kind, (worst, total) in summary.totals.items():
        yield f"  {kind:5}  {'all':{width}}  {worst:>12}  {total:>14}"
    for it in summary.groups:
        yield f"  {it.kind:5}  {it.clock:{width}}  {it.worst:>12}  {it.total:>14}  {it.failing} of {it.count}"


def check_lines(summary: Summary) -> Iterator[str]:
    """The pins nearest to their limits."""
    for sort in SORTS:
        found, (unit, name) = summary.checks[sort], UNITS[sort]
        if not found:
            yield f"  {sort}: no pin with a limit was looked at"
            continue
        yield f"  {sort}: {summary.counts[sort]} pins exceed their limit; nearest to it, or worst beyond:"
        for it in found:
            told = f"{it.value / unit:.3f} of {it.limit / unit:.3f} {name}"
            yield f"    {NAMES[sort]} {told:>32}  {it.pin}" + ("  exceeds" if it.excess() > 0 else "")
    for text in summary.not_looked_at:
        yield f"  not looked at: {text}"


def lines_of(summary: Summary) -> Iterator[str]:
    """All that is said of a corner."""
    yield f"corner {summary.corner}, times in ps"
    yield from group_lines(summary)
    for kind, ends in summary.ends.items():
        if ends:
            yield f"  worst {kind} endpoints"
            yield from (f"    {slack:>12}  {pin}" for pin, slack in ends)
    for it in summary.skews:
        late, early = f"{it.late} at {it.late_pin}", f"{it.early} at {it.early_pin}"
        yield f"  skew of {it.clock} {it.edge}: {it.skew}, from {early} (early) to {late} (late)"
    yield "  limits: loads, fan-outs and limits are read by this tool, outside the proof"
    yield from check_lines(summary)


# ------------------------------------------------------------------------------------------------ the command


def asked(corners: Corners, designs: dict[str, Design], with_slews: bool) -> dict[str, CornerAnswers]:
    """Runs all questions, as many scripts at a time as a run takes, and joins the answers of each corner."""
    scripts = {}
    for name, design in designs.items():
        lines = list(design.questions(with_slews))
        parts = [lines[at : at + MOST_COMMANDS] for at in range(0, len(lines), MOST_COMMANDS)] or [[]]
        scripts[name] = ["".join(f"{it}\n" for it in part) for part in parts]
    found: dict[str, CornerAnswers] = {}
    for at in range(0, max(map(len, scripts.values())), SCRIPTS_OF_A_RUN):
        merged: Merged = corners.run(
            f"summary{at}", {it: own[at : at + SCRIPTS_OF_A_RUN] for it, own in scripts.items()}
        )
        for corner in merged.corners:
            if corner.name in found and found[corner.name].is_there() and corner.is_there():
                found[corner.name].answers += corner.answers
            else:
                found[corner.name] = corner
    return found


def parser_of_words() -> argparse.ArgumentParser:
    """The words of the command."""
    parser = argparse.ArgumentParser(
        prog="summary",
        usage="summary FILE.toml [options]",
        description=__doc__,
        formatter_class=argparse.RawDescriptionHelpFormatter,
    )
    parser.add_argument("project", help=argparse.SUPPRESS)
    parser.add_argument("--top", type=at_least_one, default=10, help=argparse.SUPPRESS)
    parser.add_argument("--no-slews", action="store_true", help=argparse.SUPPRESS)
    add_common_words(parser)
    return parser


def serve(given: argparse.Namespace) -> int:
    """Asks, and says what was found; gives the status."""
    project = project_of(given)
    with alone(project.results):
        corners = Corners(project, options_of(given, project))
        designs = {it.name: Design(it, corners.ecos_of(it)) for it in project.corners}
        found = asked(corners, designs, not given.no_slews)
    summaries = [summary_of(found[it], designs[it], given.top) for it in designs if found[it].is_there()]
    if given.json:
        json.dump([dataclasses.asdict(it) for it in summaries], sys.stdout, indent=1)
        print()
    else:
        print("\n\n".join("\n".join(lines_of(it)) for it in summaries))
    missing = [it for it in found.values() if not it.is_there()]
    for corner in missing:
        print(f"summary: {corner.name} {state_text(corner)}", file=sys.stderr)
    return MISSING if missing else 0


@tool("summary")
def main() -> int:
    """The command."""
    try:
        return serve(parser_of_words().parse_args())
    except (Refused, CannotLaunch) as why:
        print(f"summary: {why}", file=sys.stderr)
        return BAD_INPUT
