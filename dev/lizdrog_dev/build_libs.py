"""Proves and builds every library for daily work, each as soon as those below it are built, N beside each other.

    dev/build_libs.py [--at-once N] [--seconds FILE] [--log FILE] [CRATE ..]

CRATE: only these libraries and those below them. FILE of --seconds (as dev/gate_seconds.py --out writes it) lets the
longest chain in seconds go first; without it the lines of the crates count. FILE of --log gets a line of each crate:
whether it is built, its seconds, and the last line that the prover said of it. It calls rt's own build of a library,
one job each, and keeps what it proves in out/, where rt check, rt test and rt must-fail find it. A run that is stopped
goes on from there. It takes the place of `rt check` in a top crate as the first command of the day: that one first
reads all crates below as source, then builds them in turn.
"""
import argparse
import hashlib
import os
import pathlib
import time
from concurrent.futures import FIRST_COMPLETED, ThreadPoolExecutor, wait

from lizdrog_dev.toolchain import rt_library
from lizdrog_tools.places import TOP


def chosen(crates, names):
    """The libraries to build: those that are named with all below them, or all that some crate uses."""
    if names:
        wanted = {it.name for crate in crates if crate.name in names for it in [crate, *crate.below()]}
        crates = [it for it in crates if it.name in wanted]
    used = {below.name for it in crates for below in it.deps}
    return [it for it in crates if it.name in used or it.name in names]


def chains(crates, seconds):
    """For each library what it and the dearest chain above it cost."""
    cost = {it.name: it.count(rb"\n") for it in crates}
    for line in pathlib.Path(seconds).read_text(encoding="utf-8").splitlines() if seconds else ():
        cells = line.split("\t")
        if len(cells) > 2 and cells[1] == "proof":
            cost[cells[0]] = float(cells[2])
    waits = {}
    for it in reversed(sorted(crates, key=lambda crate: len(crate.below()))):
        above = [waits[other.name] for other in crates if it in other.deps and other.name in waits]
        waits[it.name] = cost[it.name] + max(above, default=0)
    return waits


def build(crate):
    """Builds one library; gives it with the status, the seconds and the prover's last line."""
    began, log = time.monotonic(), pathlib.Path(crate.folder, "out", "build.log")
    log.parent.mkdir(exist_ok=True)
    with open(log, "w", encoding="utf-8") as crate.out:
        status = crate.build_rlib(["--jobs", "1"], anew=False)
    said = log.read_text(encoding="utf-8", errors="replace").strip().rsplit("\n", 1)[-1]
    return crate, status, time.monotonic() - began, said or ("nothing was said" if status else "it was built before")


def build_all(crates, waits, at_once, tell):
    """Builds each library when those below it are built, and tells of it; gives the names of those that failed."""
    left, done, failed, running = sorted(crates, key=lambda it: -waits[it.name]), set(), set(), set()
    with ThreadPoolExecutor(at_once) as pool:
        while left or running:
            for it in list(left):
                below = {other.name for other in it.below()}
                if below & failed:
                    left.remove(it)
                    failed.add(it.name)
                    tell(f"{it.name}: not built, since a library below failed")
                elif below <= done and len(running) < at_once:
                    left.remove(it)
                    running.add(pool.submit(build, it))
            if not running:
                continue
            ended, running = wait(running, return_when=FIRST_COMPLETED)
            for it, status, took, said in (run.result() for run in ended):
                (failed if status else done).add(it.name)
                tell(f"{it.name}: {'FAILED, see out/build.log' if status else 'built'} ({took:.0f} s)", said)
    return failed


def teller(log):
    """Says a line at once, and writes it to a file, where there is one, with what the prover said last."""
    out = open(log, "a", encoding="utf-8") if log else None

    def tell(line, said=""):
        print(line, flush=True)
        if out:
            print(line + (f": {said}" if said else ""), file=out, flush=True)

    return tell


def sum_of(rt, crate, known):
    """The toolchain's own sum of what a library is made of, with the sum of each crate below taken once.

    (rt takes it anew on each way that leads to a crate, which costs minutes for the upper ones.)
    """
    if crate.name not in known:
        total = hashlib.sha256(repr((crate.said, crate.has_c)).encode())
        total.update(pathlib.Path(rt.KIT, "WHAT").read_bytes())
        for file in rt.files_of(crate.folder):
            total.update(repr((file.replace(crate.folder, ""), pathlib.Path(file).read_bytes())).encode())
        total.update(repr([sum_of(rt, below, known) for below in crate.deps]).encode())
        known[crate.name] = total.hexdigest()
    return known[crate.name]


def main():
    parser = argparse.ArgumentParser(description=__doc__, formatter_class=argparse.RawDescriptionHelpFormatter)
    parser.add_argument("--at-once", type=int, default=os.cpu_count() or 1, metavar="N")
    parser.add_argument("--seconds", metavar="FILE")
    parser.add_argument("--log", metavar="FILE")
    parser.add_argument("names", nargs="*", metavar="CRATE")
    given = parser.parse_args()
    tell, rt = teller(given.log), rt_library()
    rt.Crate.stamp = lambda crate: sum_of(rt, crate, {})
    crates = [it for it in rt.crates_below(str(TOP)) if it.makes_rlib()]
    unknown = sorted(set(given.names) - {it.name for it in crates})
    if unknown:
        parser.error(f"{unknown[0]} is no library")
    crates = chosen(crates, given.names)
    rt.guarded()
    held = rt.lock(crates)  # what locks the crates is kept to the end
    failed = build_all(crates, chains(crates, given.seconds), given.at_once, tell)
    del held
    return 1 if failed else 0
