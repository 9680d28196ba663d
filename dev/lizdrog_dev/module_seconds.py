"""Says which generated or written module of a function took the time, by the gaps between the files that a check kept.

    dev/module_seconds.py CRATE [WORD] [--top N] [--since MINUTES]       after `rt check --only F` in crates/CRATE

WORD takes only modules with it in their name. F.Lts is the walk through the code with its drops (early exits beside
owned values), F.Proof the goals and their searches, F.Answers the written terms, F.Tie and F.Code the code itself. Gaps
are wall time of one job: run nothing else beside it, and check with `--jobs 1`.
"""
import argparse
import os
import time

from lizdrog_tools.places import CRATES


def main():
    parser = argparse.ArgumentParser(description=__doc__, formatter_class=argparse.RawDescriptionHelpFormatter)
    parser.add_argument("crate", metavar="CRATE")
    parser.add_argument("word", nargs="?", default="", metavar="WORD")
    parser.add_argument("--top", type=int, default=30)
    parser.add_argument("--since", type=float, default=1e9, metavar="MINUTES")
    given = parser.parse_args()
    folder = CRATES / given.crate / "out" / "incremental"
    if not folder.is_dir():
        parser.error(f"no check of {given.crate} was kept in {folder}")
    stats = [(os.stat(f"{at}/{it}"), it) for at, _, files in os.walk(folder) for it in files]
    found = sorted((it.st_mtime, it.st_size // 1024, name) for it, name in stats
                   if time.time() - it.st_mtime < 60 * given.since)
    gaps = [(after[0] - before[0], after[1], after[2]) for before, after in zip(found, found[1:])
            if given.word in after[2]]
    for gap, size, name in sorted(gaps, reverse=True)[:given.top]:
        print(f"{gap:7.1f} s {size:6d} K  {name.removesuffix('.oantt').removesuffix('.decls')}")
