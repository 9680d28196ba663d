"""Breaks clauses that are wider than 100 columns into lines, where no bracket is open, or as few as can be.

    dev/wrap_clauses.py [--check] CRATE..

`rt fmt` leaves the lines of a clause as they are. A clause is a `requires`, `ensures`, `invariant` or `ghost` item that ends on its line. --check
changes nothing, and prints the wide ones; the status is then 1 where there is one."""
import argparse
import re
import sys

from lizdrog_tools.places import CRATES

WIDEST, STEP = 100, 4
CLAUSE = re.compile(r"^( *)(?:requires|ensures|invariant|ghost (?!use))\b.*\}[;,]?$")
OPEN, SHUT = "([{", ")]}"
# A line rather begins with one of these than with an argument.
JOINS = ("→", "×", "⊎", "≡")


def places(line: str, least: int) -> list[tuple[int, bool, int]]:
    """Where a line can be broken behind so many characters: how many brackets are open there, whether no joining word follows, and the place.

    A text in quotes stays on its line, and so does a field with its `=`."""
    depth, found, quoted = 0, [], False
    for at, sign in enumerate(line):
        quoted ^= sign == '"'
        depth += 0 if quoted else (sign in OPEN) - (sign in SHUT)
        if sign == " " and not quoted and at > least and line[at + 1 : at + 2] not in ("}", "=", ""):
            found.append((depth, line[at + 1] not in JOINS, at))
    return found


def wrapped(line: str) -> list[str]:
    """The lines of a clause."""
    indent = len(line) - len(line.lstrip(" "))
    lines, rest, least = [], line, line.index("{") + 1
    while len(rest) > WIDEST:
        fits = [it for it in places(rest, least) if it[2] <= WIDEST] or places(rest, least)[:1]
        if not fits:
            break
        # The fewest brackets, a joining word, and then the longest line.
        at = min(fits, key=lambda it: (it[0], it[1], -it[2]))[2]
        lines.append(rest[:at])
        rest = " " * (indent + STEP) + rest[at + 1 :]
        least = indent + STEP
    return [*lines, rest]


def main() -> int:
    parser = argparse.ArgumentParser(description=__doc__, formatter_class=argparse.RawDescriptionHelpFormatter)
    parser.add_argument("--check", action="store_true")
    parser.add_argument("crates", nargs="+")
    given = parser.parse_args()
    count = 0
    for file in sorted(it for name in given.crates for it in (CRATES / name / "src").rglob("*.rt")):
        text = file.read_text()
        new = []
        for number, line in enumerate(text.split("\n"), 1):
            if len(line) > WIDEST and CLAUSE.match(line):
                count += 1
                if given.check:
                    print(f"{file.relative_to(CRATES)}:{number} {len(line)} columns")
                new += wrapped(line)
            else:
                new.append(line)
        if not given.check:
            file.write_text("\n".join(new))
    return int(given.check and count > 0)


if __name__ == "__main__":
    sys.exit(main())
