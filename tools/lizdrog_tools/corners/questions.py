"""Writes the questions that corners are asked: every endpoint, and what a picture of a worst path needs."""
from collections.abc import Callable, Iterator

from lizdrog_tools.corners.merge import KINDS, Merged
from lizdrog_tools.corners.project import Corner, Project
from lizdrog_tools.liberty import read_library
from lizdrog_tools.read_answers import Edited, thousandths
from lizdrog_tools.verilog import Joined, read_netlist

MOST_COMMANDS = 10_000
# How many ECOs at the end of a list are replayed one by one.
MOST_REPLAYED = 100
SPLIT_OF_DATA = {"setup": "late", "hold": "early"}
SPLIT_OF_CLOCK = {"setup": "early", "hold": "late"}


def joined_design(corner: Corner, ecos: list[list[str]]) -> Joined:
    """The netlist of a corner with all ECOs, and its late cells."""
    edited = Edited(read_netlist(corner.netlist), read_library(corner.late), ecos)
    return edited.at(len(ecos))


def endpoint_lines(joined: Joined) -> list[str]:
    """The questions for the slack of every endpoint."""
    return [f"report_endpoint {pin} {kind}" for pin in joined.endpoints() for kind in KINDS]


def endpoint_scripts(corner: Corner, ecos: list[list[str]]) -> list[str]:
    """Scripts that together ask the slack of every endpoint, each as long as a script may be."""
    lines = endpoint_lines(joined_design(corner, ecos))
    return ["\n".join(lines[at : at + MOST_COMMANDS]) + "\n" for at in range(0, len(lines), MOST_COMMANDS)] or [""]


def capture_pins(joined: Joined, pin: str, kind: str) -> list[str]:
    """The clock pins against which an endpoint is tested; an output port has none."""
    instance = joined.netlist.instances.get(pin.rpartition(":")[0])
    cell = joined.library.cells.get(instance.cell) if instance else None
    if cell is None:
        return []
    data = pin.rpartition(":")[2]
    return sorted({f"{instance.name}:{test[2]}" for test in cell.tests if test[0] == data and test[4] == kind})


def path_questions(joined: Joined, pin: str, kind: str) -> Iterator[str]:
    """The path to an endpoint, and what its required time is made of."""
    yield f"report_path {pin} {kind}"
    for edge in ("rise", "fall"):
        yield f"report_rat {pin} {SPLIT_OF_DATA[kind]} {edge}"
    for clock in capture_pins(joined, pin, kind):
        for edge in ("rise", "fall"):
            yield f"report_at {clock} {SPLIT_OF_CLOCK[kind]} {edge}"


def path_scripts(
    project: Project, merged: Merged, most: int, ecos_of: Callable[[Corner], list[list[str]]]
) -> dict[str, str]:
    """For each corner the questions for those of the worst endpoints that are worst in it."""
    joined = joined_design(project.corners[0], ecos_of(project.corners[0]))
    lines: dict[str, list[str]] = {}
    for kind in KINDS:
        for end in merged.endpoints[kind][:most]:
            lines.setdefault(end.worst()[1], []).extend(path_questions(joined, end.pin, kind))
    return {corner: "".join(f"{it}\n" for it in asked) for corner, asked in lines.items()}


def replay_script(ecos: list[list[str]], merged: Merged) -> str:
    """Asks totals and slacks of endpoints before and after each ECO: of the endpoints of least slack, as many as a
    script bears."""
    ends = [
        (thousandths(it.worst()[0]), f"report_endpoint {it.pin} {kind}")
        for kind in KINDS
        for it in merged.endpoints[kind]
    ]
    totals = [f"report_{it} {kind}" for kind in KINDS for it in ("wns", "tns")]
    room = (MOST_COMMANDS - len(ecos)) // (len(ecos) + 1) - len(totals)
    asked = [*totals, *(line for _, line in sorted(ends)[:room])]
    lines = list(asked)
    for edits in ecos:
        lines += ["begin_eco", *edits, "commit_eco", *asked]
    return "\n".join(lines) + "\n"
