"""A repository of some crates of this one, in a folder of its own, for programs that are no part of it.

Their sources stand below bench/ with names that end in .txt, since `rt ci` refuses sources outside of crates/.
"""
import contextlib
import os
import pathlib
import shutil
import tempfile
from collections.abc import Iterable, Iterator

from lizdrog_dev.crate_list import crates_below, uses_of_crates
from lizdrog_tools.places import CRATES, TOP

# What checks have kept of a crate is large, and only its built library serves others.
LEFT_OUT = shutil.ignore_patterns("must-fail", "incremental", "*.o", "*.log", "*.by-rattle")


@contextlib.contextmanager
def folder(keep: str | None = None) -> Iterator[pathlib.Path]:
    """A folder that goes in the end, or the one that is named, which stays."""
    if keep:
        path = pathlib.Path(keep).resolve()
        path.mkdir(parents=True, exist_ok=True)
        yield path
        return
    with tempfile.TemporaryDirectory(prefix="lizdrog-bench-") as name:
        yield pathlib.Path(name)


def link_or_copy(source: str, target: str) -> None:
    """Copies a source. What was built is shared, where that can be: nobody writes to it."""
    if f"{os.sep}out{os.sep}" in source:
        with contextlib.suppress(OSError):
            os.link(source, target)
            return
    shutil.copy2(source, target)


def add_crate(top: pathlib.Path, name: str, source: pathlib.Path, uses: Iterable[str]) -> pathlib.Path:
    """Adds a crate to a repository; names of files lose the ending .txt."""
    to = top / "crates" / name
    shutil.copytree(source, to, ignore=LEFT_OUT, copy_function=link_or_copy, dirs_exist_ok=True)
    for file in to.rglob("*.txt"):
        file.rename(file.with_suffix(""))
    with open(top / "crates.txt", "a", encoding="utf-8") as listed:
        listed.write(f"{name}: {' '.join(uses)}".strip() + "\n")
    return to


def lay(top: pathlib.Path, names: Iterable[str]) -> None:
    """Makes a repository of these crates of this one with all below them, as they stand here."""
    uses = uses_of_crates()
    wanted = {below for name in names for below in [name, *crates_below(uses, name)]}
    shutil.rmtree(top / "crates", ignore_errors=True)
    (top / "crates.txt").write_text("", encoding="utf-8")
    for name in uses:
        if name in wanted:
            add_crate(top, name, CRATES / name, uses[name])
    shutil.copy(TOP / "HANDLES", top)
