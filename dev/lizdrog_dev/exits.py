"""Lists functions that are likely dear to prove: those that drop much, where they leave early, at their end, or in an
arm.

    dev/exits.py [--top N] [CRATE ..]
    dev/exits.py --changed COMMIT [CRATE ..]     each function that is new since a commit or has another text, with all
                                                 its drops

It counts three sorts of drops, as far as the text tells:
- at an early exit (`?`, `return Err`), each owned value that is still there: parameters by value, and `let`s that own
  memory;
- at the end of a block or of the function, each owned value that nobody took;
- in an arm `Err(_)`, or `_` beside an arm `Ok(..)`, the error that nobody names: that of a refused allocation
  (AllocFailed) has the
  value in it that was to be stored.
The prover walks through each drop with the whole type of what is dropped: 0 costs nothing, 20 and more cost minutes
where the types are deep. All of this is guessed from the text alone.
"""
import argparse
import dataclasses
import pathlib
import re
import subprocess

from lizdrog_tools.places import CRATES, TOP

PLAIN = re.compile(
    r"^(&|[ui](8|16|32|64|size)|bool|char|Global|Fs|Af|Mo|Kind|Split|Tran|Dir|Code|Style|Sort"
    r"|Option<(u32|u64|usize|Fs|Af|bool|&)|\(\)|Memory|H$|\[u8)"
)
FUNCTION = re.compile(r"\bfn (\w+)\s*(?:<[^{;]*?>)?\(")
# A body is the first block whose brace ends a line and is no clause's.
BODY = re.compile(r"(?:^|\n)( *)\{\n|\{\n")
NEXT = re.compile(r"\bfn \w+")
MADE = re.compile(r"\s*let (?:mut )?(\w+)(: [^=]+)? = (.*)", re.S)
APART = (re.compile(r"\s*let \w+ \{([^}]*)\} = (\w+)", re.S), re.compile(r"\s*let \(([^)]*)\) = (\w+)", re.S))
STEP = re.compile(r";|=>|\{\n|\n\s*\}")
ARM = re.compile(r"^\s*(Err\(_\w*\)|_)\s*=>", re.M)
OWNS = ("alloc", "::of(", "::new(", ".copy()", ".with", "made")


def end_of(text: str, at: int, opening: str, ending: str) -> int:
    """The place after the mark that closes what is open at a place."""
    depth = 1
    while depth and at < len(text):
        depth += {opening: 1, ending: -1}.get(text[at], 0)
        at += 1
    return at


def functions_of(text: str):
    """The name of each function of a source with the text of its parameters, that of its body, and the line on which
    this begins."""
    text = re.sub(r"//[^\n]*", "", text).split("#[cfg(test)]")[0]
    for head in FUNCTION.finditer(text):
        end = end_of(text, head.end(), "(", ")")
        body, following = BODY.search(text, end), NEXT.search(text, end)
        if body and not (following and following.start() < body.start()):
            code = text[body.end():end_of(text, body.end(), "{", "}") - 1]
            yield head[1], text[head.end():end - 1], code, text.count("\n", 0, body.end()) + 1


def owned_parameters(parameters: str) -> list[str]:
    """The parameters by value that own something."""
    owned = []
    for part in re.split(r",(?![^<(]*[>)])", re.sub(r"\s+", " ", parameters)):
        name, colon, sort = part.strip().partition(":")
        if name in ("self", "mut self"):
            owned.append("self")
        elif colon and not PLAIN.match(sort.strip()):
            owned.append(name.replace("mut ", "").strip())
    return owned


def is_given_away(name: str, statement: str) -> bool:
    """Whether a statement moves a value elsewhere."""
    without_borrows = re.sub(r"&(mut )?\w+", "", statement)
    moves = re.search(rf"(?<![\w.&]){name}\b(?!\s*[.:\[])", without_borrows)
    return bool(moves) and not statement.strip().startswith("let _")


def made_by(statement: str) -> list[str]:
    """The owned values that a statement makes, by their names."""
    apart = next((found for form in APART if (found := form.match(statement))), None)
    if apart:
        return [it.split(":")[-1].replace("mut ", "").strip() for it in apart[1].split(",") if it.strip()]
    made = MADE.match(statement)
    return [made[1]] if made and (any(word in made[3] for word in OWNS[:-1]) or OWNS[-1] in made[1]) else []


@dataclasses.dataclass
class Drops:
    """What a function drops: how much at how many early exits, which values at ends, and the arms in which an error
    goes unnamed."""

    name: str
    exits: int = 0
    at_exits: list[tuple[int, list[str]]] = dataclasses.field(default_factory=list)
    at_ends: list[tuple[int, str]] = dataclasses.field(default_factory=list)
    arms: list[tuple[int, str]] = dataclasses.field(default_factory=list)

    def early(self) -> int:
        return sum(len(names) for _, names in self.at_exits)

    def count(self) -> int:
        return self.early() + len(self.at_ends) + len(self.arms)

    def line(self) -> str:
        return (f"{self.count():5d} drops: {self.early()} at {self.exits} exits, {len(self.at_ends)} at ends, "
                f"{len(self.arms)} in arms  {self.name}")

    def details(self) -> list[str]:
        """Each drop with its line."""
        found = [(line, f"leaves early beside {', '.join(names)}") for line, names in self.at_exits]
        found += [(line, f"{name} makes it to the end of its block") for line, name in self.at_ends]
        found += [(line, f"drops an error that is not named: {text}") for line, text in self.arms]
        return [f"        line {line}: {text}" for line, text in sorted(found)]


def steps_of(body: str):
    """The statements of a body, each with its place and with how deep in blocks it ends."""
    at, depth = 0, 0
    for mark in [*STEP.finditer(body), None]:
        end = mark.end() if mark else len(body)
        statement = body[at:end]
        before, depth = depth, depth + statement.count("{") - statement.count("}")
        yield statement, at, before, depth
        at = end


def unnamed_errors(body: str, first: int) -> list[tuple[int, str]]:
    """The arms in which an error goes unnamed: `Err(_)`, and `_` where the arm before it or after it is of `Ok`."""
    found = []
    for arm in ARM.finditer(body):
        around = body[max(0, arm.start() - 400):arm.end() + 200]
        if arm[1] != "_" or re.search(r"\bOk\([^)]*\)\s*=>", around):
            line = body.count("\n", 0, arm.start(1))
            found.append((first + line, body.split("\n")[line].strip()[:80]))
    return found


def drops_of(name: str, parameters: str, body: str, first: int) -> Drops:
    """What a function drops; its body begins on the line `first`."""
    found = Drops(name, arms=unnamed_errors(body, first))
    owned = [(it, 0) for it in owned_parameters(parameters)]
    for statement, at, before, depth in steps_of(body):
        line = first + body.count("\n", 0, at + len(statement) - len(statement.lstrip()))
        owned = [it for it in owned if not is_given_away(it[0], statement)]
        leaves = statement.count("?") + len(re.findall(r"return Err", statement))
        found.exits += leaves
        if owned and leaves:
            found.at_exits += [(line, [it for it, _ in owned])] * leaves
        found.at_ends += [(line, it) for it, made_at in owned if made_at > depth]
        owned = [it for it in owned if it[1] <= depth] + [(it, before) for it in made_by(statement) if before <= depth]
    end = first + body.count("\n")
    found.at_ends += [(end, it) for it, _ in owned]
    return found


def texts_at(commit: str, file: pathlib.Path) -> set[tuple[str, str, str]]:
    """The functions of a file as a commit has them, each with its parameters and its body; none where it has no such
    file."""
    ran = subprocess.run(["git", "show", f"{commit}:{file.relative_to(TOP)}"], cwd=TOP, capture_output=True, text=True,
                         check=False)
    return {(name, parameters, body) for name, parameters, body, _ in functions_of(ran.stdout)}


def rows_of(folder: pathlib.Path, commit: str | None) -> list[Drops]:
    """What the functions of a crate drop, those that are as a commit has them left out."""
    rows = []
    for file in sorted((folder / "src").rglob("*.rt")):
        before = texts_at(commit, file) if commit else set()
        for name, parameters, body, first in functions_of(file.read_text(encoding="utf-8")):
            if (name, parameters, body) not in before:
                place = f"{file.relative_to(TOP)}: {name}" if commit else f"{folder.name}::{file.stem}::{name}"
                rows.append(drops_of(place, parameters, body, first))
    return rows


def main():
    parser = argparse.ArgumentParser(description=__doc__, formatter_class=argparse.RawDescriptionHelpFormatter)
    parser.add_argument("--top", type=int, default=30, metavar="N")
    parser.add_argument("--changed", metavar="COMMIT")
    parser.add_argument("crates", nargs="*", metavar="CRATE")
    given = parser.parse_args()
    unknown = [it for it in given.crates if not (CRATES / it / "src").is_dir()]
    if unknown:
        parser.error(f"{unknown[0]} is no crate")
    known = ["git", "rev-parse", "--verify", "--quiet", f"{given.changed}^{{commit}}"]
    if given.changed and subprocess.run(known, cwd=TOP, capture_output=True, check=False).returncode:
        parser.error(f"{given.changed} is no commit")
    folders = sorted(CRATES / it for it in given.crates) or sorted(CRATES.iterdir())
    rows = [row for folder in folders for row in rows_of(folder, given.changed) if row.count()]
    rows.sort(key=lambda row: (-row.count(), row.name))
    for row in rows if given.changed else rows[:given.top]:
        print("\n".join([row.line(), *(row.details() if given.changed else [])]))
    return 0
