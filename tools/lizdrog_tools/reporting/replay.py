"""What each ECO of a list changed, by the answers of a replay: the same questions before and after each."""
import dataclasses
from collections.abc import Iterator

from lizdrog_tools.corners.merge import KINDS, NONE, CornerAnswers
from lizdrog_tools.read_answers import thousandths
from lizdrog_tools.reporting.histogram import picoseconds

SHOWN = 5
TOTALS = ("wns", "tns")
WORDS = {"wns": "worst", "tns": "total"}


@dataclasses.dataclass
class State:
    """What one corner answered of one design: totals by kind and word, slacks by kind and endpoint."""

    totals: dict[tuple[str, str], str] = dataclasses.field(default_factory=dict)
    slacks: dict[tuple[str, str], str] = dataclasses.field(default_factory=dict)


@dataclasses.dataclass(frozen=True)
class Moved:
    """An endpoint with its slack over all corners before and after an ECO, in fs."""

    kind: str
    pin: str
    before: int
    after: int

    def text(self) -> str:
        by = picoseconds(self.after - self.before)
        sign = "" if by.startswith("-") else "+"
        return f"{self.pin} {self.kind} {picoseconds(self.before)} → {picoseconds(self.after)} ({sign}{by})"


def states_of(corner: CornerAnswers) -> dict[int, State]:
    """The answers of a corner by the number of the design."""
    found: dict[int, State] = {}
    for answer in corner.answers:
        state, words, row = found.setdefault(answer.row.design, State()), answer.command.words, answer.row
        if row.sort in TOTALS:
            state.totals[words[1], row.sort] = row.words[0]
        elif row.sort == "endpoint" and row.words[0] != NONE:
            state.slacks[words[2], words[1]] = row.words[0]
    return found


class Replay:
    """The designs that corners went through one after the other."""

    def __init__(self, corners: list[CornerAnswers], saved: dict[str, list[list[str]]], finals: dict[str, list[str]]):
        """Of corners that replayed the ECOs as they are, and ended as the answers of the page do; others are left
        out."""
        ended = [it for it in corners if it.output.ecos and it.output.final == finals.get(it.name)]
        those = [it for it in ended if saved[it.name][it.output.first :] == it.output.ecos]
        self.states = {it.name: states_of(it) for it in those}
        self.first = max((it.output.first for it in those), default=0)

    def has(self, number: int) -> bool:
        """Whether the designs before and after an ECO were asked."""
        return bool(self.states) and all({number - 1, number} <= it.keys() for it in self.states.values())

    def totals(self, number: int) -> Iterator[str]:
        """For each corner and kind worst and total negative slack before and after an ECO, where one changed."""
        for corner, states in self.states.items():
            before, after = states[number - 1].totals, states[number].totals
            for kind in KINDS:
                pairs = [(WORDS[it], before.get((kind, it)), after.get((kind, it))) for it in TOTALS]
                if any(one != other for _, one, other in pairs):
                    said = (f"{word} {one}" + (f" → {other}" if other != one else "") for word, one, other in pairs)
                    yield f"{corner} {kind}: {', '.join(said)}"

    def followed(self, number: int) -> set[tuple[str, str]]:
        """The endpoints of which each corner that has a slack has one before and after an ECO."""
        before, after = set(), set()
        for states in self.states.values():
            before |= states[number - 1].slacks.keys()
            after |= states[number].slacks.keys()
        return before & after

    def worst(self, number: int, end: tuple[str, str]) -> int:
        """The least slack of an endpoint over all corners."""
        slacks = (it[number].slacks.get(end) for it in self.states.values())
        return min(thousandths(it) for it in slacks if it is not None)

    def moved(self, number: int) -> list[str]:
        """The endpoints whose worst slack moved most by an ECO, those that moved farther first."""
        found = []
        for kind, pin in self.followed(number):
            one = Moved(kind, pin, self.worst(number - 1, (kind, pin)), self.worst(number, (kind, pin)))
            if one.before != one.after:
                found.append(one)
        found.sort(key=lambda it: (-abs(it.after - it.before), it.pin, it.kind))
        more = [f".. and {len(found) - SHOWN} more"] if len(found) > SHOWN else []
        return [it.text() for it in found[:SHOWN]] + more
