"""Proves crates by name, each by a run of its own as soon as those below it are proved.

    dev/prove_by_crate.py [--lanes N] NAME [NAME ..]

It wants a toolchain whose `rt ci` takes names and keeps what it proves on the machine, and says so where `rt` does not:
`dev/build_libs.py` works with any. One run of `rt ci` reckons with more memory for a crate than its proof takes, so on
a machine of 24 GB it proves the upper crates one after the other, also where they do not wait for each other. This tool
starts `rt ci NAME` for each crate by itself, at most N beside each other (default: as many as there are processors), in
copies of the repository without the edits that must be refused. What is proved is kept by rt for later runs, the gate's
among them. It prints a line as each begins and ends; the status is 0 where all were proved. What each run said is kept
in out/prove_by_crate (`dev/plant_over_kept.py --proved` wants it), but that of a run that found the crate proved beside
an earlier one's. Crates that are below these and not named have to be kept already, else each run proves them again.
"""
import argparse
import os
import pathlib
import shutil
import subprocess
import sys
import tempfile
import time

from lizdrog_dev.crate_list import uses_of_crates
from lizdrog_tools.places import CRATES, TOP

LOGS = TOP / "out" / "prove_by_crate"


def takes_names(folder: pathlib.Path) -> bool:
    """Whether `rt ci` takes a crate's name; where it does not, it tells how `rt` is used. Asked in a folder without
    crates, so that nothing is proved."""
    try:
        ran = subprocess.run(["rt", "ci", "sta_units"], cwd=folder, stdin=subprocess.DEVNULL, capture_output=True,
                             text=True, check=False)
    except OSError as why:
        sys.exit(f"prove_by_crate: the Rattle toolchain does not run: {why}")
    return not (ran.stdout + ran.stderr).lstrip().startswith("usage:")


def chains(names: list[str], uses: dict[str, list[str]]) -> tuple[dict[str, int], dict[str, int]]:
    """The lines of sources of each crate, and of the longest chain of crates that begins with it."""
    lines = {it: sum(file.read_bytes().count(b"\n") for file in (CRATES / it).rglob("*.*t") if file.is_file())
             for it in names}
    chain = {}
    for name in reversed([it for it in uses if it in lines]):
        chain[name] = lines[name] + max((chain[it] for it in chain if name in uses[it]), default=0)
    return lines, chain


def begin(name: str, folder: pathlib.Path, is_urgent: bool) -> subprocess.Popen:
    """Starts the run of a crate in a copy of its own: at one job, which is cheapest, or at as many as rt chooses where
    all others wait for it."""
    copy = folder / name
    shutil.copytree(TOP, copy, ignore=shutil.ignore_patterns(".git", "out", "must-fail"))
    with open(folder / f"{name}.log", "w", encoding="utf-8") as log:
        jobs = {} if is_urgent else {"RT_JOBS": "1"}
        return subprocess.Popen(["rt", "ci", name], cwd=copy, env={**os.environ, **jobs}, stdout=log,
                                stderr=subprocess.STDOUT)


def keep_log(name: str, log: pathlib.Path) -> None:
    """Keeps what a run said of a crate; where it found the crate proved, what an earlier run said of its functions
    stays."""
    LOGS.mkdir(parents=True, exist_ok=True)
    if f"rt: {name} is kept" not in log.read_text(errors="replace") or not (LOGS / log.name).exists():
        shutil.copyfile(log, LOGS / log.name)


def say(*words: str) -> None:
    print(time.strftime("%H:%M:%S"), *words, flush=True)


def end_runs(running: dict[str, subprocess.Popen], folder: pathlib.Path) -> list[str]:
    """Takes the runs that have ended from those that run; gives the crates that were not proved."""
    failed = []
    for name in [it for it, run in running.items() if run.poll() is not None]:
        log, status = folder / f"{name}.log", running.pop(name).returncode
        keep_log(name, log)
        say(name, "proved" if status == 0 else f"not proved, see {log}")
        failed += [name] if status else []
    return failed


def prove(names: list[str], lanes: int, folder: pathlib.Path) -> list[str]:
    """Runs all crates in their order; gives those that were not proved, with those that wait for them."""
    uses, running, failed = uses_of_crates(), {}, []
    lines, chain = chains(names, uses)
    left = sorted(names, key=lambda it: -chain[it])
    while left or running:
        failed += end_runs(running, folder)
        for name in [it for it in left if set(uses[it]) & set(failed)]:
            left.remove(name)
            failed.append(name)
        ready = [it for it in left if not set(uses[it]) & {*left, *running}]
        share = sum(lines[it] for it in [*left, *running]) / lanes
        for name in ready[:lanes - len(running)]:
            left.remove(name)
            running[name] = begin(name, folder, chain[name] > share)
            say(name, "begins")
        time.sleep(1)
    return failed


def main() -> int:
    words = argparse.ArgumentParser(description=__doc__, formatter_class=argparse.RawDescriptionHelpFormatter)
    words.add_argument("names", nargs="+", metavar="NAME")
    words.add_argument("--lanes", type=int, default=len(os.sched_getaffinity(0)))
    words = words.parse_args()
    unknown = sorted(set(words.names) - set(uses_of_crates()))
    if unknown:
        sys.exit(f"prove_by_crate: no crate {' '.join(unknown)} in crates.txt")
    folder = pathlib.Path(tempfile.mkdtemp(prefix="prove-by-crate-"))
    if not takes_names(folder):
        folder.rmdir()
        print("prove_by_crate: `rt ci` of this toolchain takes no crate's name: prove them by dev/build_libs.py "
              f"{' '.join(words.names)}", file=sys.stderr)
        return 2
    failed = prove(words.names, words.lanes, folder)
    if failed:
        sys.exit(f"prove_by_crate: not proved: {' '.join(failed)}")
    shutil.rmtree(folder)
    return 0
