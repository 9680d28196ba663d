"""What an import changed, and what it had to leave out."""
import dataclasses
import json
import pathlib

SHOWN = 20


@dataclasses.dataclass(frozen=True, slots=True)
class Place:
    """A line of a file; line 0 is the file as a whole."""

    file: str
    line: int = 0

    def __str__(self) -> str:
        return f"{self.file}:{self.line}" if self.line else self.file


@dataclasses.dataclass(frozen=True, slots=True)
class Remark:
    """One thing that the import did or left out: the word for its kind, where it stands, and a sentence."""

    kind: str
    place: Place
    text: str

    def __str__(self) -> str:
        return f"{self.place}: {self.kind}: {self.text}"

    def as_dict(self) -> dict[str, str | int]:
        return {"kind": self.kind, "file": self.place.file, "line": self.place.line, "text": self.text}


class Report:
    """Gathers remarks: changes, losses without effect on slacks, and losses that change slacks."""

    def __init__(self, accepted: list[str]):
        self.accept = accepted
        self.changes: list[Remark] = []
        self.harmless: list[Remark] = []
        self.accepted: list[Remark] = []
        self.refused: list[Remark] = []
        self.used: set[str] = set()
        self.seen: set[tuple[str, Remark]] = set()

    def add(self, part: str, remarks: list[Remark], remark: Remark) -> None:
        """Adds a remark once: a library may be read for both sides."""
        if (part, remark) not in self.seen:
            self.seen.add((part, remark))
            remarks.append(remark)

    def change(self, kind: str, place: Place, text: str) -> None:
        """Something is expressed in another way, with the same slacks."""
        self.add("changed", self.changes, Remark(kind, place, text))

    def drop(self, kind: str, place: Place, text: str) -> None:
        """Something has no counterpart, and no slack rests on it."""
        self.add("left out", self.harmless, Remark(kind, place, text))

    def lose(self, kind: str, place: Place, text: str) -> None:
        """Something has no counterpart, and slacks would change; an error unless the project accepts it."""
        remark = Remark(kind, place, text)
        word = next((it for it in self.accept if it in (kind, f"{kind} {place}", f"{kind} {place.file}")), None)
        if word is None:
            self.add("refused", self.refused, remark)
        else:
            self.used.add(word)
            self.add("accepted", self.accepted, remark)

    def unused(self) -> list[str]:
        """The words of `accept` that met nothing."""
        return [it for it in self.accept if it not in self.used]

    def status(self) -> int:
        return 2 if self.refused else 1 if self.accepted else 0

    def sections(self) -> dict[str, list[Remark]]:
        return {
            "changed": self.changes,
            "left_out_without_effect": self.harmless,
            "left_out_and_accepted": self.accepted,
            "refused": self.refused,
        }

    def as_json(self, facts: dict[str, object]) -> str:
        """The whole report, each remark by itself."""
        lists = {name: [it.as_dict() for it in remarks] for name, remarks in self.sections().items()}
        return json.dumps({"status": self.status(), **facts, **lists, "accept_unused": self.unused()}, indent=1) + "\n"

    def as_text(self, facts: dict[str, object]) -> str:
        """The report for a reader: counted by kind, with the first places of each."""
        titles = {
            "changed": "Changed, with the same slacks",
            "left_out_without_effect": "Left out: no slack changes",
            "left_out_and_accepted": "Left out: slacks change (accepted by the project)",
            "refused": "Not expressed: slacks would change",
        }
        lines = [f"{name.replace('_', ' ')}: {value}" for name, value in facts.items()]
        for name, remarks in self.sections().items():
            if remarks:
                lines += ["", f"{titles[name]} ({len(remarks)})", *by_kind(remarks)]
        lines += ["", f"In `accept`, but not met: {', '.join(self.unused())}"] if self.unused() else []
        return "\n".join(lines) + "\n"


def by_kind(remarks: list[Remark]) -> list[str]:
    """The remarks of each kind, with its count and the first of them."""
    kinds: dict[str, list[Remark]] = {}
    for remark in remarks:
        kinds.setdefault(remark.kind, []).append(remark)
    lines = []
    for kind, alike in kinds.items():
        lines.append(f"  {kind}: {len(alike)}")
        lines += [f"    {it.place}: {it.text}" for it in alike[:SHOWN]]
        lines += [f"    .. and {len(alike) - SHOWN} more (import.json has all)"] if len(alike) > SHOWN else []
    return lines


def write_report(report: Report, folder: pathlib.Path, facts: dict[str, object]) -> None:
    (folder / "import.txt").write_text(report.as_text(facts))
    (folder / "import.json").write_text(report.as_json(facts))
