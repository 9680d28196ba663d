"""Trials of a live program: the same scripts by `run` and by `live` give the same rows, byte by byte.

One script is the standard input of the live program, several are its INs. Of one script all rows, the last line and the
status have to be those of the batch run, and the journal's entries too; of several sessions, whose order is free, the
rows are checked by tools/check_sessions.py. Documents that are refused are refused by the same line. Where a script has
a fault, the error that the live program tells of that line has its code.

Scripts are those of a file of cases, or random ones by the forms of compare.py: ECOs with reports, paths, drafts, and
three sessions beside each other.
"""
import argparse
import dataclasses
import os
import pathlib
import random
import re
import runpy
import shutil
import subprocess
import sys
import tempfile

from lizdrog_dev import compare
from lizdrog_dev.live_child import Amiss
from lizdrog_tools import command_line
from lizdrog_tools.live.transcripts import head_of
from lizdrog_tools.places import TOOLS
from lizdrog_tools.run_lizdrog import lacks_line_end

SECONDS = 300
SAVED, LIVE_JOURNAL = "saved.journal", "live.journal"
ENTRY = re.compile(r"(?m)^entry \d+ session \d+ edits (\d+)\n")
ROWS = re.compile(r"(?m)^session \d+ rows (\d+)\n")
ERROR = re.compile(r"(?m)^error (C\d) (\d+)$")
FAULT = re.compile(r"fault script(\d+) (C\d) (\d+)\n")


@dataclasses.dataclass
class Ran:
    """What a run gave: its status, the entries that it made, the rows of each session, and its last line."""

    status: int
    entries: str
    rows: list[str]
    final: str


def entries_in(text: str) -> str:
    """The entries of a journal, without the heads of its blocks."""
    found, lines = [], text.split("\n")
    for match in ENTRY.finditer(text):
        at = text.count("\n", 0, match.start())
        found += lines[at : at + 1 + int(match[1])]
    return "\n".join([*found, ""])


def rows_in(output: str) -> list[str]:
    """The rows of each session of a batch run."""
    heads = list(ROWS.finditer(output))
    ends = [it.start() for it in heads[1:]] + [output.rindex("final ")] if heads else []
    return [output[it.end() : end] for it, end in zip(heads, ends, strict=True)]


def call(words: list[str], folder: pathlib.Path, source: pathlib.Path | None) -> tuple[int, str]:
    """The status and the output of a program."""
    with open(source if source else os.devnull, "rb") as lines:
        try:
            how = {"stdout": subprocess.PIPE, "stderr": subprocess.DEVNULL, "check": False, "timeout": SECONDS}
            ran = subprocess.run(words, cwd=folder, stdin=lines, **how)
        except subprocess.TimeoutExpired as why:
            raise Amiss(f"no end within {SECONDS} s") from why
    return ran.returncode, ran.stdout.decode("latin-1")


def live_run(program: str, folder: pathlib.Path, documents: list[str], scripts: list[str]) -> tuple[Ran, str]:
    """What the live program gives for these scripts; and all of its standard output."""
    journal = folder / LIVE_JOURNAL
    size, words = journal.stat().st_size, [program, "live", "--journal", LIVE_JOURNAL, *documents]

    def made() -> str:
        return entries_in(journal.read_bytes()[size:].decode("latin-1"))

    if len(scripts) == 1:
        status, output = call(words, folder, folder / scripts[0])
        at = output.rfind("final ")
        return Ran(status, made(), [output[:at]], output[at:]), output
    outs = [f"out{it}" for it in range(len(scripts))]
    for it in outs:
        (folder / it).write_text("")
    status, output = call([*words, *(it for pair in zip(scripts, outs, strict=True) for it in pair)], folder, None)
    rows = [(folder / it).read_text(encoding="latin-1") for it in outs]
    return Ran(status, made(), rows, output), output


def without_errors(rows: str) -> str:
    return "".join(it for it in rows.splitlines(True) if not it.startswith("error "))


def check_beside(given: argparse.Namespace, folder: pathlib.Path, words: list[str], ran: Ran) -> None:
    """Sessions beside each other: each answer is that of one session alone."""
    count = len(ENTRY.findall(ran.entries))
    first = len(ENTRY.findall((folder / SAVED).read_text(encoding="latin-1")))
    text = head_of(os.fspath(folder / LIVE_JOURNAL), first, count) + ran.entries
    for number, rows in enumerate(ran.rows, 1):
        kept = without_errors(rows)
        heads = [it for it in kept.splitlines() if re.match(r"\d+ \d+ [a-z]", it)]
        text += f"session {number} rows {len(heads)}\n{kept}"
    (folder / "told").write_text(text + ran.final, encoding="latin-1")
    tool = [sys.executable, str(TOOLS / "check_sessions.py"), "--program", str(given.batch), "told", "run"]
    checked = subprocess.run(
        [*tool, "--journal", SAVED, *words], cwd=folder, capture_output=True, text=True, check=False
    )
    if checked.returncode:
        raise Amiss(f"{checked.stdout}{checked.stderr}".strip()[:400])


def check_faulty(match: re.Match, rows: list[str]) -> None:
    """A script with a fault: the session is told its code and line, but where a batch run has a limit of its own."""
    session, code, line = int(match[1]), match[2], match[3]
    if (code, line) not in ERROR.findall(rows[session - 1]) and not (code == "C2" and int(line) > 10000):
        raise Amiss(f"a batch run says {match[0].strip()}, and session {session} hears no error {code} {line}")


def compared(given: argparse.Namespace, folder: pathlib.Path, words: list[str]) -> str:
    """Compares a run with a live run of the same words; tells how they are the same."""
    plain, journal = command_line.without_journal(words)
    documents, scripts = plain[1:7], plain[7:]
    text = (folder / journal).read_bytes() if journal is not None else b""
    for name in (SAVED, LIVE_JOURNAL):
        (folder / name).write_bytes(text)
    run = [str(given.batch), "run", "--journal", SAVED, *documents]
    status, output = call([*run, *scripts], folder, None)
    ran, whole = live_run(str(given.program), folder, documents, scripts)
    if lacks_line_end(os.fspath(folder / SAVED)):
        if (ran.status, whole[:16]) != (3, "fault journal J1"):
            raise Amiss(f"a journal without its last line feed is not refused: status {ran.status}")
        return "a torn journal refused"
    fault = FAULT.match(output)
    if fault and whole.startswith("fault "):
        # A batch run reads its scripts before it links the design.
        (folder / "empty.eco").write_text("")
        status, output = call([*run, "empty.eco"], folder, None)
    elif fault:
        check_faulty(fault, ran.rows)
        return "an error where the script has its fault"
    if output.startswith("fault "):
        if (status, output) != (ran.status, whole):
            raise Amiss(f"`run` says {status} {output.strip()[:200]}, `live` {ran.status} {whole.strip()[:200]}")
        return "refused the same"
    if len(scripts) > 1:
        check_beside(given, folder, [*documents, *scripts], ran)
        return "sessions beside each other"
    entries, final = output[: output.index("session 1 rows ")], output[output.rindex("final ") :]
    batch = Ran(status, entries_in(entries), rows_in(output), final)
    for it in dataclasses.fields(Ran):
        one, other = getattr(batch, it.name), getattr(ran, it.name)
        if one != other:
            raise Amiss(f"{it.name} differ: `run` {one!r:.300}, `live` {other!r:.300}")
    return "the same rows"


FORMS = ("ECOs", "paths", "drafts", "three sessions")


def write_random(folder: pathlib.Path, seed: int) -> list[str]:
    """Writes the documents and the scripts of a seed; the words of their run. Every other script of a form that has
    one session asks the questions for closing timing, too."""
    draw, form = random.Random(seed), FORMS[seed % len(FORMS)]
    if form in compare.FORMS:
        closing = random.Random(f"closing {seed}") if seed // len(FORMS) % 2 else None
        return compare.FORMS[form](folder, draw, seed, closing)[0]
    netlist, _, blocks = compare.design_of(draw, seed)
    return compare.write_documents(folder, draw, netlist, blocks, 3 if form == "three sessions" else 1)


def keep(folder: pathlib.Path, name: str) -> str:
    """Keeps the documents of what differs, in the caller's folder."""
    kept = pathlib.Path(f"live-{name}")
    shutil.copytree(folder, kept, dirs_exist_ok=True)
    return f"{kept} has the documents"


def counted(told: dict[str, int]) -> str:
    return "; ".join(f"{count} {name}" for name, count in sorted(told.items()))


def try_random(given: argparse.Namespace, _: pathlib.Path) -> str:
    """Random scripts."""
    told: dict[str, int] = {}
    for seed in range(given.seed, given.seed + given.count):
        with tempfile.TemporaryDirectory(prefix="lizdrog-live-same-") as name:
            folder = pathlib.Path(name)
            words = write_random(folder, seed)
            try:
                found = compared(given, folder, words)
            except (Amiss, ValueError) as why:
                raise Amiss(f"seed {seed}: {why}; {keep(folder, str(seed))}") from why
            told[found] = told.get(found, 0) + 1
    return f"same: {given.count} random scripts: {counted(told)}"


def try_cases(given: argparse.Namespace, _: pathlib.Path) -> str:
    """The cases of a file: a list C of tables with `name`, `words`, `files` and `more`. Documents are in the folder
    docs beside it.
    """
    told: dict[str, int] = {}
    sys.path.insert(0, os.fspath(given.cases.parent))
    cases = runpy.run_path(os.fspath(given.cases))["C"]
    for case in cases:
        words = case["words"].split()
        if words[:1] != ["run"] or case.get("until") or len(command_line.without_journal(words)[0]) < 8:
            told["left out"] = told.get("left out", 0) + 1
            continue
        with tempfile.TemporaryDirectory(prefix="lizdrog-live-same-") as name:
            folder = pathlib.Path(name)
            for it in (given.cases.parent / "docs").iterdir():
                shutil.copy(it, folder)
            for it, text in {**case["files"], **case["more"]}.items():
                (folder / it).write_bytes(text.encode())
            try:
                found = compared(given, folder, words)
            except (Amiss, ValueError) as why:
                raise Amiss(f"case {case['name']}: {why}; {keep(folder, case['name'])}") from why
        told[found] = told.get(found, 0) + 1
    return f"same: {len(cases)} cases: {counted(told)}"


def try_same(given: argparse.Namespace, folder: pathlib.Path) -> str:
    """The cases, where a file of them is named, or else random scripts."""
    return try_cases(given, folder) if given.cases else try_random(given, folder)
