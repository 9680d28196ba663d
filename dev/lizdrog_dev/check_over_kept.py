"""Checks one crate over what this machine has proved before, without proving the crates below it.

    dev/check_over_kept.py CRATE [--built CLONE] [--sources CRATE,..] [FLAG..]

The crates below come as libraries that are built in this clone (`rt lib`, dev/build_libs.py) or in the `out/` of the
same crate of another clone (--built), or as those that `rt ci` kept, with a toolchain whose `rt ci` keeps any (the
newest of each that has these contracts and proofs, where there is one, as other clones' proofs are kept there too), and
else as sources, which prove only what is called. --sources names crates that are taken as sources in any case. FLAGs go
to `rattle check`: `--only FUNCTION` (a path, or its last part; again for more), `--only ''` for the front end alone,
`--allow-holes` to go past open goals, `--fix-imports`. Without --only the whole crate is checked, its files of lemmas
too. Nothing that this says counts as proved: that is for `rt ci`.

A library that was proved over another form of a crate below is refused by the checker: prove it anew
(dev/build_libs.py CRATE), or name it in --sources with all that stand on it."""
import functools
import json
import os
import pathlib
import shutil
import sys

from lizdrog_dev.crate_list import crates_below, uses_of_crates
from lizdrog_dev.toolchain import kit_folder, rt_library
from lizdrog_tools.places import CRATES, TOP, WORK

KEPT = pathlib.Path("/opt/rattle-kept")


def clauses(text):
    """The lines of a source that are clauses of contracts."""
    return {line.strip().removesuffix(";").rstrip(" ,{") for line in text.splitlines()
            if line.strip().startswith(("requires", "ensures"))}


def is_of(folder, crate, name):
    """Whether a kept proof has the contracts, the specs and the proofs of a crate's folder."""
    for number, (path, _) in enumerate(json.loads((folder / "made.json").read_text())["files"]):
        part = path.removeprefix(f"rlib/{name}.rlib/lang/")
        if part.startswith(("antt/specs/", "antt/proofs/")) and part.count("/declared/") == 0:
            own = crate / part.removeprefix("antt/")
            if not own.is_file() or own.read_bytes() != (folder / str(number)).read_bytes():
                return False
        elif part.startswith("src/") and part.endswith(".rt"):
            # A library's source has no bodies, so no clauses of closures.
            of_library = clauses((folder / str(number)).read_text())
            if not (crate / part).is_file() or of_library - clauses((crate / part).read_text()):
                return False
    return True


def newest_kept(name):
    """The folder of the newest proof of a crate that `rt ci` kept, of these contracts and proofs where there is one;
    none where there is none."""
    folders = [f for f in KEPT.glob("proof-" + name + "-*")
               if f.name[6:].rsplit("-", 1)[0] == name and (f / "made.json").is_file()]
    folders.sort(key=lambda f: (f / "made.json").stat().st_ctime, reverse=True)
    alike = (f for f in folders if len(folders) > 1 and is_of(f, TOP / "crates" / name, name))
    return next(alike, folders[0] if folders else None)


def library(name, to):
    """Copies the newest kept library of a crate to a folder; whether there is one."""
    kept = newest_kept(name)
    if kept is None:
        return False
    mark = to / "from"
    if mark.is_file() and mark.read_text() == str(kept):
        return True
    shutil.rmtree(to, ignore_errors=True)
    for number, (path, _) in enumerate(json.loads((kept / "made.json").read_text())["files"]):
        if path.startswith("rlib/"):
            target = to / path[5:]
            target.parent.mkdir(parents=True, exist_ok=True)
            shutil.copyfile(kept / str(number), target)
    if not (to / (name + ".rlib")).is_dir():
        return False
    mark.write_text(str(kept))
    return True


def built_in(clone, name):
    """The folder of a crate's library that another clone has built; none where there is none."""
    folder = pathlib.Path(clone).resolve() / "crates" / name / "out" / "rlib"
    return folder if (folder / "stamp").is_file() and (folder / (name + ".rlib")).is_dir() else None


@functools.cache
def crates_of_rt():
    """The crates of this clone as the toolchain knows them, by name."""
    return {it.name: it for it in rt_library().crates_below(str(TOP))}


def built_here(name):
    """The folder of a crate's library that is built in this clone, of its sources and of all below as they stand; none
    where there is none."""
    return CRATES / name / "out" / "rlib" if crates_of_rt()[name].is_built() else None


def library_of(name, clone=None):
    """The folder of a crate's library: another clone's, that of this one, or the newest that `rt ci` kept; none where
    there is none."""
    to = WORK / "kept_libraries" / name
    found = (built_in(clone, name) if clone else None) or built_here(name)
    return found or (to if library(name, to) else None)


def libraries_below(uses, name, as_sources=(), clone=None):
    """The folders of the libraries that are there of the crates under one, by name."""
    found = {it: library_of(it, clone) for it in crates_below(uses, name) if it not in as_sources}
    return {it: folder for it, folder in found.items() if folder}


def words_of(kit, uses, name, kept):
    """The words of the check, with the libraries that are there; and the crates that are taken as sources."""
    libs = crates_below(uses, name)
    ported = lambda crate: ["std"] + [used for used in uses[crate] if used not in uses]
    sources = [crate for crate in libs if crate not in kept]
    mine = ported(name)
    more = sorted({"core", *[it for crate in sources for it in ported(crate)]} - set(mine))
    root = "src/main.rt" if (CRATES / name / "src" / "main.rt").is_file() else "src/lib.rt"
    words = ["check", "--crate-name", name, root, "-L", f"dependency={kit}/rlibs"]
    for it in [*mine, *more]:
        words += ["--extern", f"{it}={kit}/rlibs/{it}.rlib"]
    for crate in libs:
        if crate in kept:
            words += ["--extern", f"{crate}={kept[crate]}/{crate}.rlib", "-L", f"dependency={kept[crate]}"]
        else:
            uses_all = dict.fromkeys(["core", *ported(crate), *[it for it in uses[crate] if it in uses]])
            words += ["--lib", f"{crate}:{','.join(uses_all)}={CRATES}/{crate}/src/lib.rt"]
    words += ["--antt-project", f"{kit}/rattle/logic/antt-project.json", "--logic-built", f"{kit}/logic_built"]
    return words + ["--jobs", "1", "--links", name + "="], sources


def begin_check(kit, name, folder, words, kind):
    """Checks a crate in a folder over what an earlier check of this kind kept, in the place of this process."""
    memory = WORK / "kept_libraries" / f"{kind}-{name}"
    memory.mkdir(parents=True, exist_ok=True)
    os.chdir(folder)
    os.execv(kit / "bin" / "rattle", ["rattle", *words, "--incremental", str(memory), "--progress"])


def main():
    words = sys.argv[1:]
    if words in (["-h"], ["--help"]):
        print(__doc__)
        return
    uses = uses_of_crates()
    if not words or words[0] not in uses:
        sys.exit(__doc__)
    name, *flags = words
    as_sources, clone = [], None
    if flags[:1] == ["--built"]:
        clone, flags = flags[1], flags[2:]
    if flags[:1] == ["--sources"]:
        as_sources, flags = flags[1].split(","), flags[2:]
    kit = kit_folder()
    check, sources = words_of(kit, uses, name, libraries_below(uses, name, as_sources, clone))
    print("sources:", " ".join(sources) or "none", flush=True)
    begin_check(kit, name, CRATES / name, [*check, *flags], "memory")
