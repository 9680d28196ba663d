"""The public calls of crates with the names of their clauses: dev/clause_names.py CRATE [CRATE ..]

Prints a line for each public function with a clause: its file and line, its name, what it asks (`requires`) and what it
promises (`ensures`). A clause without a name is shown as `-`. Status 2 where there is no such crate.
"""
import argparse
import dataclasses
import pathlib
import re
import signal
import sys

from lizdrog_tools.places import TOP

CALL = re.compile(r"^( *)(?:pub )?(?:const )?fn (\w+)")
BLOCK = re.compile(r"^(?:impl|pub trait|trait)\b.*?(?:for )?(\w+)(?:<[^{]*)? (?:\{|where)|^pub trait (\w+)")
CLAUSE = re.compile(r"^ *(requires|ensures) (?:(\w+) )?\{")


@dataclasses.dataclass
class Call:
    line: int
    name: str
    is_public: bool
    clauses: dict[str, list[str]]

    @property
    def is_shown(self) -> bool:
        return self.is_public and any(self.clauses.values())

    def __str__(self) -> str:
        said = [f"{word} {', '.join(names)}" for word, names in self.clauses.items() if names]
        return f"{self.line} {self.name}: {'; '.join(said)}"


def calls_of(text: str) -> list[Call]:
    """Each function of a text, with its clauses."""
    owner, is_trait = "", False
    found: list[Call] = []
    for number, line in enumerate(text.splitlines(), 1):
        block, call, clause = BLOCK.match(line), CALL.match(line), CLAUSE.match(line)
        if block:
            owner, is_trait = block.group(1) or block.group(2), line.startswith("pub trait")
        elif line.startswith("}"):
            owner, is_trait = "", False
        if call:
            inside, name = call.groups()
            is_public = line.lstrip().startswith("pub fn") or (is_trait and inside == "    ")
            shown = f"{owner}::{name}" if inside and owner else name
            found.append(Call(number, shown, is_public, {"requires": [], "ensures": []}))
        elif clause and found:
            found[-1].clauses[clause.group(1)].append(clause.group(2) or "-")
    return found


def lines_of(folder: pathlib.Path) -> list[str]:
    lines: list[str] = []
    for file in sorted(folder.rglob("*.rt")):
        lines += [f"{file.relative_to(TOP / 'crates')}:{it}" for it in calls_of(file.read_text()) if it.is_shown]
    return lines


def main() -> int:
    signal.signal(signal.SIGPIPE, signal.SIG_DFL)
    words = argparse.ArgumentParser(description=__doc__, formatter_class=argparse.RawDescriptionHelpFormatter)
    words.add_argument("names", metavar="CRATE", nargs="+")
    for name in words.parse_args().names:
        folder = TOP / "crates" / name / "src"
        if not folder.is_dir():
            print(f"clause_names: there is no crate {name}", file=sys.stderr)
            return 2
        print("\n".join(lines_of(folder)))
    return 0
