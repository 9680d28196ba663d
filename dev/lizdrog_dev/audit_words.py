"""What must be read to know what `serve` says:
dev/audit_words.py [--files | --words | --write] [--call CRATE FILE NAME]

Follows the words of specifications (`crates/*/specs`) from the clauses of `pub fn serve` in
crates/shell_session/src/serving.rt: each word that a clause names, each word that the definition of such a word names,
and so on. It prints a line for each crate with the number of words and of their lines (without comments and empty
lines), and last the sum.

Types that are declared in src/, and the toolchain's own words, are not counted. A name counts wherever a definition
has it, so a variable with the name of a word makes the count larger, never smaller.

  --files   a line for each file
  --words   a line for each word: crate, file, line, number of lines, name
  --write   puts the sum into docs/GUARANTEE.md, in the place of the one that it has
  --call    the same for another public function: its crate, its file below src/ and its name
"""
import argparse
import dataclasses
import pathlib
import re
import signal

from lizdrog_tools.places import DOCS, TOP

# The sum, as the page has it.
SUM = re.compile(r"\d+ words, \d+ lines in \d+ crates")
TOP_CALL = ("shell_session", "serving.rt", "serve")
DERIVED = {"declared", "contracts", "formers"}
HEAD = re.compile(r"^(?:pub )?(?:abbrev|unfoldable|record|data)(?: pub)? ([^\s:(]+)")
USE = re.compile(r"use Rattle\.(\w+)\.specs\.([\w.]+?)(?:\.\{([^}]*)\}| as (\w+))")
Named = tuple[str, str, str]
NAME = re.compile(r"(?<![\w.'])((?:[a-z]\w*\.)?[A-Za-z_][\w'?!]*)")


@dataclasses.dataclass(frozen=True)
class Word:
    crate: str
    file: str
    name: str
    line: int
    lines: int
    body: str

    @property
    def key(self) -> Named:
        return self.crate, self.file, self.name


@dataclasses.dataclass
class File:
    """A file of specifications: its words, also by their constructors, and what it imports under which name."""
    words: dict[str, Word]
    imports: dict[str, Named]
    modules: dict[str, tuple[str, str]]


def imports_of(text: str) -> tuple[dict[str, Named], dict[str, tuple[str, str]]]:
    """The names that a text imports, each with its crate, file and name there; and the modules that it names."""
    names: dict[str, Named] = {}
    modules: dict[str, tuple[str, str]] = {}
    for crate, place, listed, alias in USE.findall(text):
        parts = place.split(".")
        if parts[0] in DERIVED:
            continue
        if alias:
            modules[alias] = (crate, parts[0])
        for item in (listed or "").split(","):
            name, _, shown = item.strip().partition(" as ")
            if name:
                names[shown or name] = (crate, parts[0], name)
    return names, modules


def declarations(lines: list[str]) -> list[tuple[int, str]]:
    """The number of the first line of each declaration, and its name."""
    heads = [(number, HEAD.match(line)) for number, line in enumerate(lines)]
    return [(number, it.group(1)) for number, it in heads if it]


def constructors(body: str) -> list[str]:
    """The names of the constructors of `data`."""
    return re.findall(r"^  (\w+) :", body, re.M) if re.match(r"(?:pub )?data ", body) else []


def read_file(path: pathlib.Path, crate: str) -> File:
    text = path.read_text()
    lines = text.splitlines()
    names, modules = imports_of(text)
    heads = declarations(lines)
    words: dict[str, Word] = {}
    for at, (number, name) in enumerate(heads):
        end = heads[at + 1][0] if at + 1 < len(heads) else len(lines)
        kept = [it for it in lines[number:end] if it.strip() and not it.lstrip().startswith("--")]
        word = Word(crate, path.stem, name, number + 1, len(kept), "\n".join(kept))
        words[name] = word
        words.update({it: word for it in constructors(word.body) if it not in words})
    return File(words, names, modules)


def read_specs() -> dict[tuple[str, str], File]:
    files = {}
    for path in sorted(TOP.glob("crates/*/specs/*.antt")):
        crate = path.parent.parent.name
        files[crate, path.stem] = read_file(path, crate)
    return files


def named(text: str, file: File, files: dict[tuple[str, str], File]) -> set[Word]:
    """The words that a text names, by the imports and the words of the file in which it stands."""
    found = set()
    for name in set(NAME.findall(text)):
        module, _, member = name.partition(".")
        if member and module in file.modules:
            place = (*file.modules[module], member)
        else:
            place = file.imports.get(module)
        if place is None:
            word = file.words.get(module)
        else:
            there = files.get(place[:2])
            word = there.words.get(place[2]) if there else None
        if word:
            found.add(word)
    return found


def clauses_of(text: str, call: str) -> str:
    """The clauses of a public function."""
    start = re.search(rf"pub fn {call}\b", text)
    if start is None:
        raise ValueError(call)
    start = start.start()
    return "\n".join(re.findall(r"^    (?:requires|ensures) .*$", text[start:text.index("\n{", start)], re.M))


def words_under(crate: str, source: str, call: str) -> list[Word]:
    """All words on which the clauses of this call rest."""
    text = (TOP / "crates" / crate / "src" / source).read_text()
    files = read_specs()
    names, modules = imports_of(text)
    waiting = list(named(clauses_of(text, call), File({}, names, modules), files))
    found: dict[Named, Word] = {}
    while waiting:
        word = waiting.pop()
        if word.key not in found:
            found[word.key] = word
            waiting += named(word.body, files[word.crate, word.file], files) - set(found.values())
    return sorted(found.values(), key=lambda it: (it.crate, it.file, it.line))


def shown(name: str, words: list[Word]) -> str:
    return f"{name:32} {len(words):5} words {sum(it.lines for it in words):6} lines"


def counts_of(words: list[Word], by_file: bool) -> list[str]:
    """The lines of counts: for each crate or file, and the sum."""
    groups: dict[str, list[Word]] = {}
    for it in words:
        groups.setdefault(f"{it.crate}/specs/{it.file}" if by_file else it.crate, []).append(it)
    crates, lines = len({it.crate for it in words}), sum(it.lines for it in words)
    return [*(shown(name, of) for name, of in groups.items()), f"{len(words)} words, {lines} lines in {crates} crates"]


def write_page(total: str, page: pathlib.Path) -> None:
    """Puts the sum into the page."""
    page.write_text(SUM.sub(total, page.read_text(encoding="utf-8")), encoding="utf-8")


def main() -> int:
    signal.signal(signal.SIGPIPE, signal.SIG_DFL)
    asked = argparse.ArgumentParser(description=__doc__, formatter_class=argparse.RawDescriptionHelpFormatter)
    form = asked.add_mutually_exclusive_group()
    form.add_argument("--files", action="store_true", help="a line for each file")
    form.add_argument("--words", action="store_true", help="a line for each word")
    form.add_argument("--write", action="store_true", help="put the sum into the page")
    asked.add_argument("--call", nargs=3, metavar=("CRATE", "FILE", "NAME"), help="another function than `serve`")
    given = asked.parse_args()
    try:
        words = words_under(*(given.call or TOP_CALL))
    except (OSError, ValueError):
        asked.error(f"there is no public function {' '.join(given.call or TOP_CALL)}")
    if given.words:
        for it in words:
            print(f"{it.crate} {it.file} {it.line} {it.lines} {it.name}")
        return 0
    counts = counts_of(words, given.files)
    if given.write:
        write_page(counts[-1], DOCS / "GUARANTEE.md")
    else:
        print("\n".join(counts))
    return 0
