"""Times of a live program on a large design: answers and ECOs of one session, beside those of batch runs; sessions
beside each other; and its memory.

One session asks on pipes, without a tool between, and waits for each answer. An ECO is timed without a journal, with
one on this disk, and in a batch run of as many ECOs less one of none. For sessions beside each other, questions are in
files: one session with all of them against sixteen with as many each, less the time of a run without a question. The
memory is that behind the first 100 answers and behind 10,000.
"""
import argparse
import pathlib
import random
import subprocess
import time

from lizdrog_dev.live_child import Amiss, Live, milliseconds
from lizdrog_dev.sessions import make_design

ASKED, ECOS, WARM, BESIDE, EACH = 2000, 200, 20, 16, 10000
FIRST, LAST, CELLS = 100, 10000, 50000


def design_in(folder: pathlib.Path, workers: str) -> list[str]:
    """The words of a design that was drawn into a folder."""
    return [*(str(folder / f"bench.{it}") for it in ("lib", "lib", "v", "sdc", "spef")), workers]


def timed(words: list[str], status: int = 0, **how) -> float:
    """The seconds of a program that ends with this status."""
    began = time.perf_counter()
    ran = subprocess.run(words, capture_output=True, check=False, **how)
    if ran.returncode != status:
        raise Amiss(f"{words[1]} ended with {ran.returncode}: {ran.stdout[:200]!r}")
    return time.perf_counter() - began


def batch_eco(given: argparse.Namespace, folder: pathlib.Path, design: list[str], ecos: list[str]) -> float:
    """The mean seconds of an ECO in a batch run: the least of three runs with them less the least of three without."""
    (folder / "ecos.eco").write_text("".join(f"{it}\n" for it in ecos))
    (folder / "none.eco").write_text("")
    words = [str(given.batch), "run", *design]
    whole, none = (min(timed([*words, str(folder / it)]) for _ in range(3)) for it in ("ecos.eco", "none.eco"))
    return (whole - none) / len(ecos)


def answers(
    given: argparse.Namespace, folder: pathlib.Path, design: list[str], ends: list[str]
) -> tuple[list[float], int, int]:
    """The seconds of questions, and the memory behind some and behind many."""
    seconds, first = [], 0
    with Live(given.program, design, folder) as live:
        talk = live.talks[0]
        talk.ask("take")
        for number in range(LAST):
            if number == FIRST:
                first = live.memory()
            seconds.append(talk.timed(f"report_endpoint {ends[number % len(ends)]} setup"))
        return seconds[WARM : WARM + ASKED], first, live.memory()


def ecos_of(
    given: argparse.Namespace, folder: pathlib.Path, design: list[str], ecos: list[str], has_journal: bool
) -> list[float]:
    """The seconds of ECOs, one after the other."""
    journal = folder / "speed.journal"
    journal.write_text("")
    with Live(given.program, design, folder, 0, journal if has_journal else None) as live:
        talk = live.talks[0]
        talk.ask("take")
        seconds = [talk.timed(it) for it in ecos]
        if talk.ask("take").design != len(ecos):
            raise Amiss("an ECO was refused")
    return seconds[WARM:]


def beside(given: argparse.Namespace, folder: pathlib.Path, design: list[str], ends: list[str]) -> tuple[float, float]:
    """The answers a second of one session, and of sixteen beside each other."""
    draw, found = random.Random(given.seed), []
    (folder / "none").write_text("")
    for count in (1, BESIDE):
        names = []
        for number in range(count):
            lines = [f"report_path {draw.choice(ends)} setup" for _ in range(EACH)]
            (folder / f"questions{number}").write_text("\n".join([*lines, ""]))
            (folder / f"answers{number}").write_text("")
            names += [str(folder / f"questions{number}"), str(folder / f"answers{number}")]
        words = [str(given.program), "live", *design]
        empty = [it if at % 2 else str(folder / "none") for at, it in enumerate(names)]
        took = min(timed([*words, *names]) for _ in range(2)) - min(timed([*words, *empty]) for _ in range(2))
        found.append(count * EACH / took if took > 0 else float("inf"))
    return found[0], found[1]


def try_speed(given: argparse.Namespace, folder: pathlib.Path) -> str:
    """All of it, in some lines."""
    cells = given.cells or CELLS
    ends, resizes = make_design(folder, cells)
    design, ecos = design_in(folder, given.design[5]), resizes[: ECOS + WARM]
    seconds, first, last = answers(given, folder, design, ends)
    alone, kept = (ecos_of(given, folder, design, ecos, it) for it in (False, True))
    batch = batch_eco(given, folder, design, ecos)
    one, many = beside(given, folder, design, ends)
    mean = sum(alone) / len(alone)
    return "\n".join([
        f"speed: {cells} cells, {len(ends)} endpoints, {design[5]} workers",
        f"speed: {len(seconds)} report_endpoint: {milliseconds(seconds)}",
        f"speed: {len(alone)} ECOs without a journal: {milliseconds(alone)}; mean {mean * 1000:.3f} ms, "
        f"{mean / batch:.2f} times that of a batch run, {batch * 1000:.3f} ms",
        f"speed: {len(kept)} ECOs with a journal on disk: {milliseconds(kept)}",
        f"speed: {one:.0f} report_path a second of one session, {many:.0f} of {BESIDE}: {many / one:.2f} times",
        f"speed: {first} KB behind {FIRST} answers, {last} KB behind {LAST}: {100 * (last - first) / first:+.1f} %",
    ])
