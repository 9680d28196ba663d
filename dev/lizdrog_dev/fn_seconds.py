"""Measures the processor seconds of each function's proof in one crate, from nothing.

    dev/fn_seconds.py CRATE [--only PATH].. [--test] [--top N] [--libs FOLDER] [--src FOLDER] [--log FILE] [-- FLAG ..]

The crates below have to be built (rt check, or a gate, leaves crates/*/out/rlib), or FOLDER of --libs has NAME.rlib of
each. --src FOLDER is a changed copy of the crate. FLAGs go to `rattle check`, which runs with `--jobs 1 --progress
--stage-times` and no kept work. The tool reads the process's own clock at each line `checked F, K of N`, and prints the
stages, the part before the first function, the sum by kind (derived impls, closures, written functions), and the
dearest functions. Wall time does not enter, so other work on the machine hardly matters. The prover may be in a
caller's walk before it ends with a callee: a small function with many seconds mostly carries those of the function that
calls it. module_seconds.py over a check that keeps its work tells them apart.
"""
import argparse
import collections
import dataclasses
import os
import pathlib
import re
import subprocess
import sys
import tempfile
import time

from lizdrog_dev.crate_list import crates_below, uses_of_crates
from lizdrog_dev.toolchain import kit_folder
from lizdrog_tools.places import CRATES

TICK = os.sysconf("SC_CLK_TCK")
DERIVED = re.compile(r"(Clone|PartialEq|Eq|PartialOrd|Ord|Hash|Debug|Default|Drop|Again|Copy)::\w+$")
CHECKED = re.compile(r"checked (\S+), \d+ of \d+")
VERDICT = re.compile(r"logic=|only=|holes=|no verdict")


def processor_seconds(pid: int | str) -> float | None:
    """Seconds of a process and of its ended children, or none where it is gone."""
    try:
        stat = pathlib.Path(f"/proc/{pid}/stat").read_text(encoding="latin-1")
    except OSError:
        return None
    return sum(int(it) for it in stat.rsplit(")", 1)[1].split()[11:15]) / TICK


def library_of(name: str, libs: str | None) -> pathlib.Path:
    """Where the built library of a crate is."""
    return pathlib.Path(libs).resolve() / f"{name}.rlib" if libs else CRATES / name / "out" / "rlib" / f"{name}.rlib"


def words_of(name: str, folder: pathlib.Path, kit: pathlib.Path, libs: str | None = None) -> list[str]:
    """The prover's words for a crate over built libraries."""
    uses = uses_of_crates()
    root = "src/main.rt" if (folder / "src" / "main.rt").is_file() else "src/lib.rt"
    words = ["--crate-name", name, root]
    for it in ["std", *(it for it in uses[name] if it not in uses)]:
        words += ["--extern", f"{it}={kit}/rlibs/{it}.rlib"]
    words += ["-L", f"dependency={kit}/rlibs"]
    for it in uses[name]:
        if it in uses:
            words += ["--extern", f"{it}={library_of(it, libs)}"]
    for it in crates_below(uses, name):
        if not library_of(it, libs).is_dir():
            sys.exit(f"fn_seconds: the library {it} is not built: run `rt check` in crates/{name} first")
        words += ["-L", f"dependency={library_of(it, libs).parent}"]
    logic = ["--antt-project", f"{kit}/rattle/logic/antt-project.json", "--logic-built", f"{kit}/logic_built"]
    return [*words, *logic, "--links", f"{name}=", "--jobs", "1", "--progress"]


@dataclasses.dataclass
class Proof:
    """What a check cost: its seconds of a processor, those of each function in order, its memory, status and last
    words."""

    seconds: float
    functions: list[tuple[float, str]]
    wall: float
    megabytes: int
    status: int
    verdict: str


def measure(words: list[str], folder: pathlib.Path, log: pathlib.Path) -> Proof:
    """Runs a check and reads its clock after each function."""
    began, last, spent, functions, verdict = time.monotonic(), 0.0, 0.0, [], ""
    ran = subprocess.Popen(words, cwd=folder, stdin=subprocess.DEVNULL, stdout=subprocess.PIPE,
                           stderr=subprocess.STDOUT, text=True, errors="replace")
    with open(log, "w", encoding="utf-8") as out:
        for line in ran.stdout:
            spent = processor_seconds(ran.pid) or spent
            out.write(f"[{spent:8.2f}] {line}")
            out.flush()
            verdict = line.strip() if VERDICT.search(line) else verdict
            at = CHECKED.match(line)
            if at:
                functions.append((spent - last, at[1]))
                last = spent
    _, status, used = os.wait4(ran.pid, 0)
    ran.returncode = os.waitstatus_to_exitcode(status)
    return Proof(used.ru_utime + used.ru_stime, functions, time.monotonic() - began, used.ru_maxrss // 1024,
                 ran.returncode, verdict)


def kind_of(function: str) -> str:
    derived = DERIVED.search(function)
    if derived:
        return f"derived {derived[1]}"
    return "closure" if "fn::" in function or "+Fn" in function else "written"


def print_stages(file: pathlib.Path) -> None:
    """The stages of a check, as the prover timed them."""
    if file.is_file():
        rows = [line.split() for line in file.read_text(encoding="utf-8").splitlines()]
        long = [f"{row[1]} {float(row[2]):.1f}" for row in rows if row[0] == "stage" and float(row[2]) >= 0.05]
        print("stages (wall s):", ", ".join(long))


def print_functions(proof: Proof, top: int) -> None:
    """The sums by kind, and the dearest functions."""
    if not proof.functions:
        return
    first, *later = proof.functions
    between = sum(seconds for seconds, _ in later)
    print(f"before the first function ended: {first[0]:.1f}; after the last: {proof.seconds - first[0] - between:.1f}; "
          f"between: {between:.1f} for {len(proof.functions)} functions")
    kinds, count = collections.Counter(), collections.Counter()
    for seconds, function in later:
        kinds[kind_of(function)] += seconds
        count[kind_of(function)] += 1
    for kind, seconds in kinds.most_common():
        print(f"  {kind:22} {count[kind]:4d}  {seconds:7.1f} s")
    for seconds, function in sorted(later, reverse=True)[:top]:
        print(f"{seconds:8.1f}  {function}")


def arguments():
    parser = argparse.ArgumentParser(description=__doc__, formatter_class=argparse.RawDescriptionHelpFormatter)
    parser.add_argument("crate", metavar="CRATE")
    parser.add_argument("--only", action="append", default=[], metavar="PATH")
    parser.add_argument("--test", action="store_true")
    parser.add_argument("--top", type=int, default=25, metavar="N")
    parser.add_argument("--libs", metavar="FOLDER")
    parser.add_argument("--src", type=pathlib.Path, metavar="FOLDER")
    parser.add_argument("--log", type=pathlib.Path, metavar="FILE")
    given, flags = parser.parse_known_args()
    if given.crate not in uses_of_crates():
        parser.error(f"{given.crate} is no crate of crates.txt")
    return given, [it for it in flags if it != "--"]


def main():
    given, flags = arguments()
    folder, kit = (given.src or CRATES / given.crate).resolve(), kit_folder()
    log = given.log or pathlib.Path(tempfile.gettempdir(), f"fn_seconds-{given.crate}.log")
    with tempfile.TemporaryDirectory() as name:
        stages = pathlib.Path(name, "stages")
        words = [f"{kit}/bin/rattle", "check", *words_of(given.crate, folder, kit, given.libs), "--stage-times",
                 str(stages)]
        only = [word for it in given.only for word in ("--only", it)]
        proof = measure([*words, *only, *["--test"] * given.test, *flags], folder, log)
        print(f"{given.crate}: {proof.seconds:.1f} processor s, {proof.wall:.0f} s wall, {proof.megabytes} MB; "
              f"{proof.verdict[:90] or f'status {proof.status}'}")
        print_stages(stages)
    print_functions(proof, given.top)
    return 0 if proof.status == 0 else 1
