"""Runs the tests of the plain timer: bench/plain_timer.py [--keep FOLDER]

They stand outside the gate to keep its time: a slow timer that shares no engine with Lizdrog but look-up is compared
with the worked examples of slews, arrivals, required times, slacks, paths and totals. It works on copies of three
crates in a folder of its own, which is removed, and proves the timer and its tests there (`rt test`).
"""
import argparse
import subprocess

from lizdrog_dev import small_repository
from lizdrog_tools.places import BENCH

BASE = ("sta_units", "timing_defs")


def main() -> int:
    parser = argparse.ArgumentParser(description=__doc__, formatter_class=argparse.RawDescriptionHelpFormatter)
    parser.add_argument("--keep", metavar="FOLDER")
    given = parser.parse_args()
    with small_repository.folder(given.keep) as top:
        small_repository.lay(top, [*BASE, "nldm_lookup"])
        plain = BENCH / "plain"
        small_repository.add_crate(top, "plain_timer", plain / "plain_timer", [*BASE, "nldm_lookup"])
        crate = small_repository.add_crate(
            top, "plain_timer_tests", plain / "plain_timer_tests", [*BASE, "plain_timer"]
        )
        return subprocess.run(["rt", "test"], cwd=crate, stdin=subprocess.DEVNULL, check=False).returncode
