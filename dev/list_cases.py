#!/usr/bin/env python3
"""Lists where each case of the tests of commit 23a0d09 is tried now, and finds those that are lost.

Until that commit four crates (base_tests, engine_tests, reader_tests, shell_tests) held all cases as `#[test]`
functions. Most of their tables have since become rows of programs, whose output the gate compares.
dev/cases/CRATE.tsv has a line for each case of before, of three cells: `module::test`, the case's row in the test's
table (1 where the test is one case), and its place now. A place is `FILE:case NAME`, a line `case NAME` of a
program's input, or `FILE::TEST`, a `#[test]` function.

The script prints each case with its place, and a line for each fault: a place that does not exist, a test of that
commit without a line, and a test with fewer lines than its table has rows. A table is an array that a `for` of the
test goes over, or a constant whose lines or items one does, there or in a function of the same file that is called
with the constant. Where the commit is not in the clone's history, the script says so and checks the places alone.
The status is 1 after a fault."""

import argparse
import collections
import dataclasses
import functools
import pathlib
import re
import signal
import subprocess
import sys

TOP = pathlib.Path(__file__).resolve().parent.parent
CASES = TOP / "dev" / "cases"
BEFORE = "23a0d09"
CRATES = ("base_tests", "engine_tests", "reader_tests", "shell_tests")

STRING = r'r#".*?"#|"(?:[^"\\]|\\.)*"'
TOKEN = re.compile(rf"{STRING}|'(?:[^'\\\n]|\\.)'|//[^\n]*|.", re.S)
FUNCTION = re.compile(r"^(#\[test\]\n)?(?:#\[[^\n]*\]\n)*(?:pub(?:\(\w+\))? )?fn (\w+).*?^}$", re.M | re.S)
CONSTANT = re.compile(rf"^(?:pub(?:\(\w+\))? )?const (\w+): [^=]*=\s*(?:({STRING})|(?=&?\[));?", re.M | re.S)
LOOP = re.compile(r"\bfor [^{;]*? in\s+&?(?=\[)")
OVER = re.compile(r"\bfor [^{;]*? in\s+&?(\w+)(?:\.lines\(\))?(?:\.iter\(\)|\.into_iter\(\)|\.enumerate\(\))*\s*\{")


@dataclasses.dataclass(frozen=True)
class Case:
    """A case of before, and where it is tried now."""

    test: str
    row: str
    place: str


@dataclasses.dataclass
class Function:
    """A function of an old source: its text, and whether it is a test."""

    name: str
    text: str
    is_test: bool


def read_text(file):
    """A file's text; bytes that are no text become marks that no name has."""
    return file.read_text(encoding="utf-8", errors="replace")


def read_cases(file, faults):
    """The cases of a file, where each line has its three cells."""
    cases = []
    for number, line in enumerate(read_text(file).splitlines(), 1):
        cells = line.split("\t")
        if len(cells) == 3 and all(cells) and "\ufffd" not in line:
            cases.append(Case(*cells))
        else:
            faults.append(f"{file.relative_to(TOP)}:{number}: a line has three cells, a test, a row and a place")
    return cases


@functools.cache
def places_in(file):
    """The cases and the tests that a file has now."""
    path = TOP / file
    if not file.startswith("crates/") or ".." in path.parts or not path.is_file():
        return frozenset()
    text = read_text(path)
    lines = (line for line in text.splitlines() if line.startswith("case "))
    tests = (found[2] for found in FUNCTION.finditer(text) if found[1])
    return frozenset([*(f":{line}" for line in lines), *(f"::{test}" for test in tests)])


def is_there(place):
    """Whether a place exists."""
    found = re.fullmatch(r"([^:\s]+)(:case .*|::\w+)", place)
    return bool(found) and found[2] in places_in(found[1])


def git(*words):
    """What git writes, or nothing where it fails."""
    ran = subprocess.run(["git", "-C", TOP, *words], capture_output=True, text=True, errors="replace", check=False)
    return ran.stdout if ran.returncode == 0 else None


def sources_before(crate):
    """The sources of a crate at that commit, each by its module."""
    root = f"crates/{crate}/src/"
    for path in (git("ls-tree", "-r", "--name-only", BEFORE, root) or "").splitlines():
        if path.endswith(".rt"):
            yield path.removeprefix(root).removesuffix(".rt").replace("/", "::"), git("show", f"{BEFORE}:{path}") or ""


def items_at(text, start):
    """How many items an array has whose bracket opens at a place."""
    depth, items, is_empty = 0, 0, True
    for token in TOKEN.finditer(text, start):
        word = token[0]
        if word in "([{":
            is_empty = is_empty and depth == 0
            depth += 1
        elif word in ")]}":
            depth -= 1
        elif depth == 1 and word == ",":
            items, is_empty = items + 1, True
        elif not word.isspace() and not word.startswith("//"):
            is_empty = False
        if depth == 0:
            break
        if depth > 1:
            is_empty = False
    return items + (not is_empty)


def rows_of_constants(text):
    """How many lines or items each constant of a source has."""
    rows = {}
    for found in CONSTANT.finditer(text):
        if found[2]:
            lines = found[2][found[2].index('"') + 1 : found[2].rindex('"')].removeprefix("\\\n")
            rows[found[1]] = len(lines.replace("\\n\\\n", "\n").splitlines())
        else:
            rows[found[1]] = items_at(text, text.index("[", found.end() - 1))
    return rows


def rows_of(function, helpers, constants):
    """How many rows the tables of a test have."""
    rows = sum(items_at(function.text, loop.end()) for loop in LOOP.finditer(function.text))
    rows += sum(constants.get(over[1], 0) for over in OVER.finditer(function.text))
    for name, rows_there in constants.items():
        called = re.findall(rf"\b(\w+)\([^()]*(?:\([^()]*\)[^()]*)*\b{name}\b", function.text)
        rows += sum(rows_there for helper in called if helper in helpers)
    return rows


def tests_before(crate):
    """The tests of a crate at that commit, each with the number of its tables' rows."""
    for module, text in sources_before(crate):
        functions = [Function(it[2], it[0], bool(it[1])) for it in FUNCTION.finditer(text)]
        helpers = {it.name for it in functions if not it.is_test and OVER.search(it.text)}
        constants = rows_of_constants(text)
        for function in functions:
            if function.is_test:
                yield f"{module}::{function.name}", rows_of(function, helpers, constants)


def lost_cases(crate, cases):
    """A fault for each test of before that has no line, or fewer than its tables have rows."""
    lines = collections.Counter(case.test for case in cases)
    tests = dict(tests_before(crate))
    for test, rows in tests.items():
        if lines[test] == 0:
            yield f"{crate}: {test} has no line"
        elif lines[test] < rows:
            yield f"{crate}: {test} has {lines[test]} lines for {rows} rows"
    yield from (f"{crate}: {test} was no test of {BEFORE}" for test in lines if test not in tests)


def main():
    parser = argparse.ArgumentParser(description=__doc__, formatter_class=argparse.RawDescriptionHelpFormatter)
    parser.add_argument("--faults", action="store_true", help="print the faults alone")
    told = parser.parse_args()
    is_known = git("cat-file", "-e", f"{BEFORE}^{{commit}}") is not None
    if not is_known:
        print(f"commit {BEFORE} is not in this clone's history: the places alone are checked")
    faults, count = [], 0
    for crate in CRATES:
        file = CASES / f"{crate}.tsv"
        if not file.is_file():
            faults.append(f"{file.relative_to(TOP)} is missing")
        cases = read_cases(file, faults) if file.is_file() else []
        count += len(cases)
        for case in cases:
            if not told.faults:
                print(f"{crate} {case.test} {case.row}: {case.place}")
            if not is_there(case.place):
                faults.append(f"{crate}: {case.test} {case.row}: no such place as {case.place}")
        if is_known:
            faults += lost_cases(crate, cases)
    print(*faults, f"{count} cases, {len(faults)} faults", sep="\n")
    sys.exit(1 if faults else 0)


if __name__ == "__main__":
    signal.signal(signal.SIGPIPE, signal.SIG_DFL)
    main()
