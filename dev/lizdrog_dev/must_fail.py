"""Tries the edits that stand outside the gate, to keep its time: bench/must_fail.py [CRATE ..]

Without a name it tries those of every crate. Each edit makes a body wrong, and the check must refuse it. It works on
copies of the crates, so that these are left as they were; a crate that is built here (dev/build_libs.py) is not proved
again. What each run said is kept in out/must_fail. It prints a line for each crate: its edits, how many were refused,
and which were not, or could not be applied. The status is 0 where all were refused.
"""
import argparse
import pathlib
import re
import shutil
import subprocess
import sys

from lizdrog_dev import small_repository
from lizdrog_tools.places import BENCH, TOP

EDITS, LOGS = BENCH / "must-fail", TOP / "out" / "must_fail"
REFUSED = re.compile(r"(?m)^rt: must-fail \S+\.edit: refused, as it must be")
OTHERS = re.compile(r"(?m)^rt: must-fail \w+/(\S+\.edit: (?:NOT REFUSED|NOT TRIED|BAD EDIT))")


def counted(said: str, count: int) -> tuple[int, str]:
    """How many edits a run refused, and which it did not."""
    refused = len(REFUSED.findall(said))
    others = "  ".join(OTHERS.findall(said))
    return refused, others or ("" if refused == count else "see the log")


def try_edits(crate: str) -> tuple[int, int, str]:
    """Tries the edits of a crate: how many there are, how many were refused, and which were not."""
    edits, log = sorted((EDITS / crate).glob("*.edit")), LOGS / f"{crate}.log"
    with small_repository.folder() as top:
        small_repository.lay(top, [crate])
        to = top / "crates" / crate / "must-fail"
        to.mkdir()
        for it in edits:
            shutil.copy(it, to)
        ran = subprocess.run(["rt", "must-fail", crate], cwd=top, stdin=subprocess.DEVNULL, stdout=subprocess.PIPE,
                             stderr=subprocess.STDOUT, text=True, errors="replace", check=False)
    log.parent.mkdir(parents=True, exist_ok=True)
    log.write_text(ran.stdout, encoding="utf-8")
    return len(edits), *counted(ran.stdout, len(edits))


def folders_of(names: list[str]) -> list[pathlib.Path]:
    """The folders of edits of these crates, or of all."""
    folders = [EDITS / it for it in names] or sorted(it for it in EDITS.iterdir() if it.is_dir())
    for it in folders:
        if not any(it.glob("*.edit")):
            sys.exit(f"must_fail: there are no edits in {it}")
    return folders


def main() -> int:
    parser = argparse.ArgumentParser(description=__doc__, formatter_class=argparse.RawDescriptionHelpFormatter)
    parser.add_argument("names", nargs="*", metavar="CRATE")
    given, status = parser.parse_args(), 0
    for folder in folders_of(given.names):
        count, refused, others = try_edits(folder.name)
        status |= refused < count
        print(f"{folder.name:18} {count:3} edits {refused:3} refused  {others}".rstrip(), flush=True)
    print(f"logs: {LOGS}")
    return status
