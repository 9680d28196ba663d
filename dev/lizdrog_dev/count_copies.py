"""Lists functions and lemmas that stand to the letter in two or more crates: count_copies.py

Contracts, comments and attributes are not compared, nor the layout; of a lemma its statement and its clauses are. Left
out are those of one line, answers for single functions, and the crates of tests and of rows, which are those of the
last group of crates.txt. A line for each says how many lines one copy would save, its name and the crates; a lemma's
begins so. A crate has a star where its lemma is public and all the other crates stand on it, so that these could name
it. The last two lines sum up functions and lemmas. The status is always 0: docs/PROVING.md says why they stay.
"""
import argparse
import collections
import re
from collections.abc import Iterator

from lizdrog_dev.crate_list import crates_below, uses_of_crates
from lizdrog_dev.crate_map import TESTS, read_crates
from lizdrog_tools.places import CRATES, TOP

FUNCTION = re.compile(r"^([ ]*)(?:pub(?:\([a-z]+\))? )?(?:const )?fn (\w+).*?^\1\}$", re.M | re.S)
ASIDE = re.compile(r"^\s*(?://|#\[|requires\b|ensures\b|decreases\b|ghost\b).*$", re.M)
LEMMA = re.compile(r"^([ ]*)(pub )?([^\s:(){}=]+) : .*(?:\n(?!\1(?:pub )?\S+ : ).*\S.*)*", re.M)
Lines = tuple[str, ...]


def functions(text: str) -> Iterator[tuple[str, Lines]]:
    """The name of each function of a file with its lines, without what is not compared."""
    for found in FUNCTION.finditer(text):
        lines = [line.strip() for line in ASIDE.sub("", found[0]).splitlines() if line.strip()]
        if len(lines) > 1:
            lines[0] = re.sub(r"^pub(?:\([a-z]+\))? ", "", lines[0])
            yield found[2], tuple(lines)


def lemmas(text: str) -> Iterator[tuple[str, bool, Lines]]:
    """The name of each lemma of a file, whether it is public, and its lines: its statement and the clauses below it."""
    for found in LEMMA.finditer(text):
        lines = [line.strip() for line in found[0].splitlines()]
        lines = [line for line in lines if not line.startswith("--")]
        lines[0] = lines[0].removeprefix("pub ")
        if len(lines) > 1 and lines[1].startswith((found[3], "unfolding")):
            yield found[3], bool(found[2]), tuple(lines)


def compared() -> list[str]:
    """The crates that are compared."""
    crates = read_crates((TOP / "crates.txt").read_text(encoding="utf-8"))
    return [name for name, it in crates.items() if it.group != TESTS]


def copies(crates: list[str]) -> dict[tuple[str, Lines], list[str]]:
    """The functions that are in several of these crates, with the crates."""
    homes = collections.defaultdict(list)
    for crate in crates:
        for file in sorted((CRATES / crate / "src").rglob("*.rt")):
            for name, lines in functions(file.read_text(encoding="utf-8")):
                homes[name, lines].append(crate)
    return {key: at for key, at in homes.items() if len(set(at)) > 1}


def lemma_copies(crates: list[str]) -> dict[tuple[str, Lines], dict[str, bool]]:
    """The lemmas that are in several of these crates, with the crates and whether they are public there."""
    homes: dict[tuple[str, Lines], dict[str, bool]] = collections.defaultdict(dict)
    for crate in crates:
        for file in sorted((CRATES / crate / "proofs").glob("*.antt")):
            for name, public, lines in lemmas(file.read_text(encoding="utf-8")):
                homes[name, lines][crate] = homes[name, lines].get(crate, False) or public
    return {key: at for key, at in homes.items() if len(at) > 1}


def marked(at: dict[str, bool], uses: dict[str, list[str]]) -> list[str]:
    """The crates of a lemma, with a star behind that which all the others could name it of."""
    below = {crate: set(crates_below(uses, crate)) for crate in at}
    named = [it for it, public in at.items() if public and all(it in below[other] for other in at if other != it)]
    return [crate + "*" * (crate in named[:1]) for crate in at]


def say(kind: str, copied: dict[tuple[str, Lines], list[str]]) -> None:
    """A line for each, and nothing for none."""
    saved = {key: len(key[1]) * (len(at) - 1) for key, at in copied.items()}
    for key in sorted(copied, key=lambda it: (-saved[it], it)):
        print(f"{saved[key]:4} {kind}{key[0]}: {', '.join(copied[key])}")


def summed(kind: str, copied: dict[tuple[str, Lines], list[str]]) -> str:
    many = sum(len(at) - 1 for at in copied.values())
    lines = sum(len(key[1]) * (len(at) - 1) for key, at in copied.items())
    return f"{len(copied)} {kind}, {many} copies too many, {lines} lines"


def main() -> int:
    argparse.ArgumentParser(description=__doc__, formatter_class=argparse.RawDescriptionHelpFormatter).parse_args()
    crates, uses = compared(), uses_of_crates()
    functions_twice = copies(crates)
    lemmas_twice = {key: marked(at, uses) for key, at in lemma_copies(crates).items()}
    say("", functions_twice)
    say("lemma ", lemmas_twice)
    print(summed("functions", functions_twice))
    starred = {key: at for key, at in lemmas_twice.items() if any(it.endswith("*") for it in at)}
    print(f"{summed('lemmas', lemmas_twice)}; {sum(len(at) - 1 for at in starred.values())} of them could be named")
    return 0
