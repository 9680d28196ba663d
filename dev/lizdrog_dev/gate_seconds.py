"""What the gate costs: processor seconds by crate, by proof, tests, edits and code, and the longest chain of crates.

    dev/gate_seconds.py [--out FILE] [--under FOLDER]   beside `rt ci` in this repository (`.ci/run` starts it so):
                                                        samples the provers
                                                        until it is ended (SIGTERM, Ctrl-C) or saw none for five
                                                        minutes, then prints the summary; FILE has a line for each
                                                        check: crate, proof | tests | edit | code, processor s, wall
                                                        s, MB, when it was first and last seen; code is what the
                                                        compilers take for a program that is proved
    dev/gate_seconds.py --checks-at-once                prints how many checks a gate shall make beside each other
                                                        here: one for each processor, where each has 3 GB of the
                                                        memory that is free, and at least two
    dev/gate_seconds.py --table FILE                    prints the summary of such a file again
    dev/gate_seconds.py --functions CRATE..             proves these crates from nothing over the built libraries below
                                                        them (which are
                                                        there after `rt check` or `rt lib`), and prints each function
                                                        above --above seconds (20), the sum, and what comes before the
                                                        first function

The summary is a table for a page, and below it what is dearer than it shall be: a crate whose proof takes more than its
budget (150 s; readers 250 s, crates of tests and of rows 300 s), and a function above 8 s, where --log names logs that
tell it, as fn_seconds.py writes them. A check's seconds are its own process's clock, so other work on the machine
hardly matters. The prover may be in a caller's walk before it ends with a callee: a small function with many seconds
mostly carries those of its caller. --under is for checks of copies of the repository, as /tmp/rt-copy- for those of `rt
ci CRATE`.
"""
import argparse
import collections
import dataclasses
import os
import pathlib
import re
import signal
import sys
import tempfile
import time

from lizdrog_dev import fn_seconds
from lizdrog_dev.crate_list import uses_of_crates
from lizdrog_dev.toolchain import kit_folder
from lizdrog_tools.places import CRATES, TOP

KINDS = ("proof", "tests", "edit", "code")
IDLE_SECONDS = 300
CHECK_KB = 3 << 20
EVERY_SECONDS = 1
BUDGET, READER_BUDGET, TEST_BUDGET, FUNCTION_BUDGET = 150, 250, 300, 8
READERS = ("script_reader", "liberty_syntax", "liberty_cells", "verilog_netlist", "spef_reader", "sdc_reader")
LOGGED = re.compile(r"^\[ *([\d.]+)\] checked (\S+), \d+ of \d+")


@dataclasses.dataclass
class Check:
    """A check of a gate: of which crate and kind, and what it cost until it was last seen."""

    crate: str
    kind: str
    seconds: float
    megabytes: int
    first: float
    last: float

    def line(self) -> str:
        """The check as a line of a file."""
        first, last = (time.strftime("%H:%M:%S", time.localtime(it)) for it in (self.first, self.last))
        cells = [self.crate, self.kind, f"{self.seconds:.1f}", f"{self.last - self.first:.0f}", str(self.megabytes)]
        return "\t".join([*cells, first, last]) + "\n"


# ------------------------------------------------------------------------------------------------ watching

def words_of_process(pid: int | str) -> list[str]:
    return pathlib.Path(f"/proc/{pid}/cmdline").read_bytes().decode(errors="replace").split("\0")


def is_prover(words: list[str]) -> bool:
    return words[0].rsplit("/", 1)[-1] == "rattle" and len(words) > 3 and words[1] in ("check", "build")


def is_under(pid: int | str, under: str) -> bool:
    """Whether a process works below a folder, or in it."""
    return (os.readlink(f"/proc/{pid}/cwd") + "/").startswith(under)


def kind_of(words: list[str], folder: str) -> str:
    """What a prover's words and its folder say that it does: the edits are tried in copies of a crate."""
    if "rt-edit-" in folder:
        return "edit"
    if "--crate-checked" in words:
        return "code"
    return "tests" if "--test" in words else "proof"


def check_of(pid: str, under: str, now: float, boot: float) -> tuple[float, Check] | None:
    """The check that a process makes, with when the process began: none for others, and for a prover's own helpers."""
    try:
        words = words_of_process(pid)
        if not is_prover(words):
            return None
        kind = kind_of(words, os.readlink(f"/proc/{pid}/cwd"))
        stat = pathlib.Path(f"/proc/{pid}/stat").read_text(encoding="latin-1").rsplit(")", 1)[1].split()
        # A crate that uses no other has no word of the repository where its edits are tried; `rt` works there.
        if not is_under(pid, under) and not (kind == "edit" and is_under(stat[1], under)):
            return None
        if words_of_process(stat[1])[0].rsplit("/", 1)[-1] == "rattle":
            return None
        status = pathlib.Path(f"/proc/{pid}/status").read_text(encoding="latin-1")
        most = int(re.search(r"VmHWM:\s+(\d+)", status)[1]) // 1024
        crate = words[words.index("--crate-name") + 1]
    except (OSError, IndexError, TypeError, ValueError):
        return None
    seconds, began = fn_seconds.processor_seconds(pid), boot + int(stat[19]) / fn_seconds.TICK
    return None if seconds is None else (began, Check(crate, kind, seconds, most, began, now))


def look(seen: dict, under: str, boot: float) -> bool:
    """Looks at all processes once; whether a prover was among them."""
    found = False
    for pid in filter(str.isdecimal, os.listdir("/proc")):
        made = check_of(pid, under, time.time(), boot)
        if made is not None:
            began, seen[pid, made[0]] = made
            found = True
    return found


def write(out: str | None, checks) -> None:
    """Writes the checks so far, in one step."""
    if out:
        part = pathlib.Path(out + ".new")
        part.parent.mkdir(parents=True, exist_ok=True)
        part.write_text("".join(it.line() for it in sorted(checks, key=lambda it: it.first)), encoding="utf-8")
        os.replace(part, out)


def stop(*_) -> None:
    raise KeyboardInterrupt


def watch(out: str | None, under: str) -> list[Check]:
    """Samples until it is ended, or no prover was seen for five minutes; the checks that were seen."""
    seen, idle = {}, 0.0
    boot = time.time() - float(pathlib.Path("/proc/uptime").read_text(encoding="ascii").split()[0])
    signal.signal(signal.SIGTERM, stop)
    try:
        while idle < IDLE_SECONDS:
            idle = 0.0 if look(seen, under, boot) else idle + EVERY_SECONDS
            write(out, seen.values())
            time.sleep(EVERY_SECONDS)
    except KeyboardInterrupt:
        pass
    write(out, seen.values())
    return list(seen.values())


def read(file: str) -> list[Check]:
    """The checks of a file."""
    checks = []
    for number, line in enumerate(pathlib.Path(file).read_text(encoding="utf-8").splitlines(), 1):
        cells = line.split("\t")
        try:
            crate, kind, seconds, wall, megabytes = cells[0], cells[1], float(cells[2]), float(cells[3]), int(cells[4])
        except (ValueError, IndexError):
            sys.exit(f"gate_seconds: {file}:{number}: this is no line of a check: {line[:60]}")
        checks.append(Check(crate, kind, seconds, megabytes, 0.0, wall))
    return checks


# ------------------------------------------------------------------------------------------------ the summary

def sums_of(checks: list[Check]) -> dict[str, collections.Counter]:
    """The seconds of each crate by kind."""
    sums = collections.defaultdict(collections.Counter)
    for it in checks:
        sums[it.crate][it.kind] += it.seconds
    return sums


def longest_chain(proofs: dict[str, float], uses: dict[str, list[str]]) -> tuple[float, list[str]]:
    """The dearest chain of crates, each of which waits for the proof of the one before: its seconds, and the crates."""
    best: dict[str, tuple[float, list[str]]] = {}
    for crate, below in uses.items():
        seconds, chain = max((best[it] for it in below if it in best), default=(0.0, []))
        best[crate] = (seconds + proofs.get(crate, 0.0), [*chain, crate])
    return max(best.values(), default=(0.0, []))


def budget_of(crate: str) -> int:
    if crate.endswith(("_tests", "_rows")):
        return TEST_BUDGET
    return READER_BUDGET if crate in READERS else BUDGET


def functions_of_logs(logs: list[str]) -> list[tuple[float, str]]:
    """The seconds of each function that a log tells, the dearest first; the first of a crate carries the front end, and
    is left out."""
    found = []
    for log in logs:
        last = None
        for line in pathlib.Path(log).read_text(encoding="utf-8", errors="replace").splitlines():
            at = LOGGED.match(line)
            if at:
                if last is not None:
                    found.append((float(at[1]) - last, at[2]))
                last = float(at[1])
    return sorted(found, reverse=True)


def summary(checks: list[Check], logs: list[str] = ()) -> list[str]:
    """The lines for a page: the table, the sums, the longest chain, and what is dearer than it shall be."""
    sums = sums_of(checks)
    lines = ["| Crate | Proof | Tests | Edits | Code | Sum |", "|---|---|---|---|---|---|"]
    for crate, by in sorted(sums.items(), key=lambda it: -sum(it[1].values())):
        lines.append(f"| `{crate}` | " + " | ".join(f"{by[kind]:.0f}" for kind in KINDS)
                     + f" | {sum(by.values()):.0f} |")
    totals = [sum(by[kind] for by in sums.values()) for kind in KINDS]
    lines.append("| all | " + " | ".join(f"{it:.0f}" for it in totals) + f" | {sum(totals):.0f} |")
    proofs = {crate: by["proof"] for crate, by in sums.items()}
    seconds, chain = longest_chain(proofs, uses_of_crates())
    proved = [it for it in chain if proofs.get(it)]
    lines += ["", f"Processor seconds; in all {sum(totals) / 60:.0f} minutes, "
              f"{max((it.megabytes for it in checks), default=0)} MB at most for one check.",
              f"Longest chain: {seconds:.0f} s: {', '.join(proved) or 'none'}."]
    for crate, spent in sorted(proofs.items(), key=lambda it: -it[1]):
        if spent > budget_of(crate):
            lines.append(f"warning: the proof of {crate} takes {spent:.0f} s, and its budget is {budget_of(crate)} s")
    lines += [f"warning: the function {name} takes {spent:.1f} s, and {FUNCTION_BUDGET} s is the most for one"
              for spent, name in functions_of_logs(logs) if spent > FUNCTION_BUDGET]
    return lines


# ------------------------------------------------------------------------------------------------ how many at once

def checks_at_once(processors: int, free_kb: int) -> int:
    """How many checks a gate shall make beside each other."""
    return max(2, min(processors, free_kb // CHECK_KB))


def free_memory(folder: str = "/") -> int:
    """The memory in kB that is free here, by the machine and by the limit of its group of processes."""
    found = re.search(r"MemAvailable:\s+(\d+)", pathlib.Path(folder, "proc/meminfo").read_text(encoding="ascii"))
    free, group = int(found[1]) if found else 0, pathlib.Path(folder, "sys/fs/cgroup")
    try:
        limit = int((group / "memory.max").read_text(encoding="ascii"))
        held = re.search(r"(?m)^anon (\d+)", (group / "memory.stat").read_text(encoding="ascii"))
        return min(free, (limit - int(held[1])) // 1024)
    except (OSError, ValueError, TypeError):
        return free


# ------------------------------------------------------------------------------------------------ functions

def functions(crate: str, above: float) -> bool:
    """Proves a crate from nothing and prints its dear functions; whether it was proved."""
    if crate not in uses_of_crates():
        sys.exit(f"gate_seconds: {crate} is no crate of crates.txt")
    kit, folder = kit_folder(), CRATES / crate
    log = pathlib.Path(tempfile.gettempdir(), f"gate_seconds-{crate}.log")
    proof = fn_seconds.measure([f"{kit}/bin/rattle", "check", *fn_seconds.words_of(crate, folder, kit)], folder, log)
    first = proof.functions[0][0] if proof.functions else proof.seconds
    print(f"{crate}: {proof.seconds:.0f} processor s, {len(proof.functions)} functions, {first:.0f} s before the "
          f"first ended, status {proof.status}; the log is {log}")
    for seconds, function in sorted(proof.functions[1:], reverse=True):
        if seconds >= above:
            print(f"{seconds:8.1f}  {function}")
    return proof.status == 0


def main():
    parser = argparse.ArgumentParser(description=__doc__, formatter_class=argparse.RawDescriptionHelpFormatter)
    parser.add_argument("--out", metavar="FILE")
    parser.add_argument("--under", default=f"{TOP}/", metavar="FOLDER")
    parser.add_argument("--table", metavar="FILE")
    parser.add_argument("--log", nargs="+", default=[], metavar="LOG")
    parser.add_argument("--functions", nargs="+", metavar="CRATE")
    parser.add_argument("--above", type=float, default=20.0)
    parser.add_argument("--checks-at-once", action="store_true")
    given = parser.parse_args()
    if given.checks_at_once:
        print(checks_at_once(len(os.sched_getaffinity(0)), free_memory()))
        return 0
    for file in [*([given.table] if given.table else []), *given.log]:
        if not os.path.isfile(file):
            parser.error(f"there is no file {file}")
    if given.functions:
        return 0 if all([functions(crate, given.above) for crate in given.functions]) else 1
    checks = read(given.table) if given.table else watch(given.out, given.under)
    print("\n".join(summary(checks, given.log)))
    return 0
