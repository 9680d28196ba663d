"""Tries a clone: its examples, its tools, its rows, and the program against a plain timer on random scripts (`lizdrog
test`).

Each part is a run of its own, several beside each other. What it said is in out/test, and the processor seconds of all
parts are in out/test/seconds, the costliest first. The last line is `N passed, M failed`.
"""
import argparse
import concurrent.futures
import dataclasses
import os
import pathlib
import re
import subprocess
import sys
import threading
import time
from collections.abc import Callable

from lizdrog_tools import programs
from lizdrog_tools.help_text import TEST
from lizdrog_tools.places import BENCH, CRATES, TOOLS, TOP

LOGS = TOP / "out" / "test"
# The forms of random scripts (bench/compare.py explains them), how many of each, and how many one part has. Designs of
# the first form have up to 1,200 cells, and the plain timer takes up to half a minute for one.
FORMS = {"": (20, 4), "paths": (90, 15), "drafts": (90, 15)}
QUICK_FORMS = {"": (4, 4), "paths": (8, 8), "drafts": (8, 8)}
PART_SECONDS = 1800
TESTS_LINE = re.compile(r"^tools: (\d+) tests passed, (\d+) failed, \d+ skipped$", re.M)
SKIPPED_LINE = re.compile(r"^tools: skipped: (.*)$", re.M)
SAME_LINE = re.compile(r"^(\d+) of (\d+) the same", re.M)
FIRST_SEED = 1


@dataclasses.dataclass(frozen=True)
class Part:
    """One run: its name, its words, what reads the counts of its output, and how many it fails where it gives none."""

    name: str
    words: tuple[str, ...]
    counts: Callable[[str], tuple[int, int] | None]
    count: int = 1
    given: pathlib.Path | None = None


@dataclasses.dataclass(frozen=True)
class Result:
    """What came of a part, and the processor seconds that it took."""

    part: Part
    passed: int
    failed: int
    skipped: list[str]
    tail: str
    seconds: float


def counts_of_tests(text: str) -> tuple[int, int] | None:
    """How many tests passed and failed, by the last line of tools/tests/run.py."""
    found = TESTS_LINE.search(text)
    return (int(found[1]), int(found[2])) if found else None


def counts_of_scripts(text: str) -> tuple[int, int] | None:
    """How many scripts had the plain timer's output, by the last line of bench/compare.py."""
    found = SAME_LINE.search(text)
    return (int(found[1]), int(found[2]) - int(found[1])) if found else None


def parts_of_tests(program: str) -> list[Part]:
    """A part for each file of tests, that of the examples first."""
    names = sorted((it.stem for it in (TOOLS / "tests").glob("test_*.py")), key=lambda it: (it != "test_examples", it))
    runner = str(TOOLS / "tests" / "run.py")
    return [Part(name, (sys.executable, runner, "--program", program, f"{name}."), counts_of_tests) for name in names]


def parts_of_scripts(program: str, forms: dict[str, tuple[int, int]]) -> list[Part]:
    """The random scripts, some in a part; in every other part they ask the questions for closing timing, too."""
    parts = []
    for form, (count, each) in forms.items():
        for first in range(FIRST_SEED, FIRST_SEED + count, each):
            is_closing = len(parts) % 2 == 1
            words = [sys.executable, str(BENCH / "compare.py"), *["--closing"] * is_closing, program, str(first),
                     str(each), *([form] if form else [])]
            name = f"random scripts {form + ' ' if form else ''}{first} to {first + each - 1}"
            parts.append(Part(name, tuple(words), counts_of_scripts, each))
    return parts


def parts_of_rows(is_proved: bool) -> tuple[list[Part], list[str]]:
    """The programs of rows that the gate built, each of which reads its stored input; and why the others are passed
    over."""
    parts, skipped = [], []
    for file in sorted(CRATES.glob("*_rows/stdin")):
        crate = file.parent
        program, wanted = crate / "out" / crate.name, (crate / "stdout").read_text(encoding="latin-1")
        if is_proved and programs.is_program(str(program)):
            parts.append(Part(crate.name, (str(program),), lambda text, wanted=wanted: (1, 0) if text == wanted
                              else (0, 1), 1, file))
        else:
            skipped.append(f"{crate.name}: the gate builds and runs it (`rt try -- run` in crates/{crate.name} runs "
                           "it without a proof)")
    return parts, skipped


def surroundings() -> dict[str, str]:
    """The environment of a part. What Python compiles is kept, beside the logs: a part starts hundreds of short runs."""
    said = {name: value for name, value in os.environ.items() if name != "PYTHONDONTWRITEBYTECODE"}
    return {**said, "PYTHONPYCACHEPREFIX": str(LOGS / "bytecode")}


def run_words(words: tuple[str, ...], **how) -> float:
    """Runs a command, and ends it after PART_SECONDS; gives the processor seconds of it and of its children."""
    child = subprocess.Popen(words, env=surroundings(), **how)
    ender = threading.Timer(PART_SECONDS, child.kill)
    ender.start()
    try:
        _, status, used = os.wait4(child.pid, 0)
        child.returncode = os.waitstatus_to_exitcode(status)
    finally:
        ender.cancel()
    return used.ru_utime + used.ru_stime


def run_part(part: Part) -> Result:
    """Runs a part in a folder of its own; what it says goes to the log there."""
    folder = LOGS / part.name.replace(" ", "-")
    folder.mkdir(parents=True, exist_ok=True)
    log, seconds = folder / "log", 0.0
    with open(log, "wb") as out, open(part.given or os.devnull, "rb") as given:
        try:
            seconds = run_words(part.words, cwd=folder, stdin=given, stdout=out, stderr=subprocess.STDOUT)
        except OSError as why:
            out.write(f"\n{why}\n".encode())
    text = log.read_text(encoding="latin-1")
    passed, failed = part.counts(text) or (0, part.count)
    tail = "\n".join(text.strip().split("\n")[-20:]) if failed or not passed else ""
    return Result(part, passed, failed, SKIPPED_LINE.findall(text), tail, seconds)


def keep_seconds(results: list[Result]) -> float:
    """Writes the processor seconds of all parts, the costliest first; gives their sum."""
    lines = [f"{it.seconds:6.1f}  {it.part.name}" for it in sorted(results, key=lambda it: -it.seconds)]
    (LOGS / "seconds").write_text("\n".join([*lines, ""]))
    return sum(it.seconds for it in results)


def run_all(parts: list[Part], lanes: int) -> list[Result]:
    """Runs all parts, so many at once, and says of each as it ends what came of it."""
    began, results = time.monotonic(), []
    with concurrent.futures.ThreadPoolExecutor(lanes) as pool:
        for done in concurrent.futures.as_completed([pool.submit(run_part, it) for it in parts]):
            it = done.result()
            results.append(it)
            print(f"{time.monotonic() - began:5.0f} s  {it.part.name}: {it.passed} passed, {it.failed} failed",
                  flush=True)
            if it.failed:
                print("".join(f"         {line}\n" for line in it.tail.split("\n")), end="", flush=True)
    return results


def main(words: list[str], wants_proved: bool, say: Callable[[str], None]) -> int:
    """Tries the clone; gives 0 where nothing failed."""
    parser = argparse.ArgumentParser(prog="lizdrog test", usage=TEST.strip().split("\n", maxsplit=1)[0].strip(),
                                     add_help=False)
    parser.add_argument("--proved", action="store_true", default=wants_proved)
    parser.add_argument("--quick", action="store_true")
    given = parser.parse_args(words)
    if not (TOOLS / "tests").is_dir():
        raise programs.Stop("an installed copy has no tests: `lizdrog test` is for a clone")
    began = time.monotonic()
    program = programs.choose(given.proved, True, say)
    is_proved = program == programs.PROVED
    print(f"{time.monotonic() - began:5.0f} s  the program is there: {'proved' if is_proved else 'without proof'}, "
          f"{program}", flush=True)
    rows, skipped = parts_of_rows(is_proved)
    parts = [*parts_of_scripts(program, QUICK_FORMS if given.quick else FORMS), *rows]
    results = run_all([*parts_of_tests(program), *parts], max(2, len(os.sched_getaffinity(0))))
    for reason in [*skipped, *sorted({reason for it in results for reason in it.skipped})]:
        print(f"skipped: {reason}")
    used, passed, failed = keep_seconds(results), sum(it.passed for it in results), sum(it.failed for it in results)
    print(f"what each part said is in {LOGS}; it took {time.monotonic() - began:.0f} s, {used:.0f} processor seconds")
    print(f"{passed} passed, {failed} failed")
    return 1 if failed or not passed else 0
