"""Checks one crate where nothing below it need be proved yet: the crates below are taken by their contracts, and their
functions have no body.

    dev/check_over_stubs.py CRATE [--sources CRATE,..] [--changed COMMIT] [--alone] [FLAG..]

The crates below come as libraries that are built in this clone or that `rt ci` kept, where these have the contracts and
proofs of this tree, and so have all below them; else as sources whose functions have a hole for their proof (functions
that call each other in a ring, those of the language's own types, and such as give a closure or a constant keep
theirs). --sources names those that are taken so in any case. FLAGs go to `rattle check`: `--only FUNCTION` (again for
more), `--only ''` for the front end alone, `--fix-imports`. --changed names each function whose text is not that of the
commit (others whose proofs see them are still to be named). With --alone the functions of the crate that no `--only`
names have no body either, so that those that are named are done in a part of the time. A line of a function that
`depends on a hole` in functions of the crates below alone is good; one with `did not prove` is not. Nothing that this
says counts as proved: that is for `rt ci`."""
import re
import shutil
import subprocess
import sys

from lizdrog_dev import check_over_kept as over
from lizdrog_dev import try_edits as edits
from lizdrog_dev.crate_list import crates_below, uses_of_crates
from lizdrog_dev.toolchain import kit_folder
from lizdrog_tools.places import CRATES, TOP, WORK

OUT = WORK / "stubs"
# Methods of the language's own types go by names that the checker gives them.
OWN_TYPE = re.compile(r"(?:^|::)[a-z]\w*[A-Z]\w*::\w+$")


def parted(sources, homes, rings):
    """The functions of a crate that keep their bodies, and those that lose them."""
    kept, bare = list(rings), []
    for file, text in sources.items():
        for head in edits.HEAD.finditer(text):
            body = edits.body_of(text, head)
            path = edits.symbol_at(text, file, body[0], homes) if body else None
            if path:
                whole = "const fn" in head[0] or "-> impl" in text[head.start() : body[0]] or OWN_TYPE.search(path)
                (kept if whole else bare).append(path)
    return kept, [it for it in dict.fromkeys(bare) if it not in kept]


def write_stub(crate, own, to, but=()):
    """Writes a crate whose functions have no body and a hole for a proof, but those named."""
    shutil.rmtree(to, ignore_errors=True)
    for part in edits.PARTS:
        if (own / part).is_dir():
            shutil.copytree(own / part, to / part)
    homes = edits.homes_of(own)
    sources = {str(it.relative_to(own)): it.read_text() for it in sorted((own / "src").rglob("*.rt"))}
    kept, bare = parted(sources, homes, edits.in_cycles(own))
    for path in but:
        if path and path not in (*kept, *bare):
            like = [it for it in (*kept, *bare) if it.rpartition("::")[2] == path.rpartition("::")[2]]
            sys.exit(f"{crate} has no function {path}" + (f": {' or '.join(like)}" if like else ""))
    kept, bare = [*kept, *but], [it for it in bare if it not in but]
    for path in bare:
        edits.write_hole(to, crate, path)
    for file, text in sources.items():
        (to / file).write_text(edits.without_bodies(text, file, homes, [*kept, None]))


def stub(crate):
    """The folder of a crate without bodies, written anew where the crate was changed since."""
    own, to = CRATES / crate, OUT / crate
    mark = str(max(it.stat().st_mtime_ns for part in edits.PARTS for it in (own / part).rglob("*")))
    if not (to / "of").is_file() or (to / "of").read_text() != mark:
        write_stub(crate, own, to)
        (to / "of").write_text(mark)
    return to


def kept_libraries(uses, name, as_sources):
    """The libraries below a crate, built here or kept, that are of this tree with all below them."""
    kept = {}
    for crate in crates_below(uses, name):
        if crate in as_sources or not all(it in kept for it in crates_below(uses, crate)):
            continue
        here, found = over.built_here(crate), over.newest_kept(crate)
        to = WORK / "kept_libraries" / crate
        if here or (found and over.is_of(found, CRATES / crate, crate) and over.library(crate, to)):
            kept[crate] = here or to
    return kept


def texts_of(text, file, homes):
    """The functions of a file, each with its head and its body."""
    found = {}
    for head in edits.HEAD.finditer(text):
        body = edits.body_of(text, head)
        path = edits.symbol_at(text, file, body[0], homes) if body else None
        if path:
            found[path] = text[head.start() : body[1]]
    return found


def changed(name, commit):
    """The functions of a crate that are new since a commit or have another text."""
    own, found = CRATES / name, []
    homes = edits.homes_of(own)
    for file in sorted((own / "src").rglob("*.rt")):
        path = str(file.relative_to(own))
        before = subprocess.run(["git", "show", f"{commit}:crates/{name}/{path}"], cwd=TOP, capture_output=True,
                                text=True, check=False).stdout
        then = texts_of(before, path, homes)
        found += [it for it, text in texts_of(file.read_text(), path, homes).items() if then.get(it) != text]
    return found


def taken(flags, word):
    """The value behind a word of some flags, and the flags without both."""
    if word not in flags:
        return None, flags
    at = flags.index(word)
    return flags[at + 1], flags[:at] + flags[at + 2 :]


def main():
    words = sys.argv[1:]
    if words in (["-h"], ["--help"]):
        print(__doc__)
        return
    uses = uses_of_crates()
    if not words or words[0] not in uses:
        sys.exit(__doc__)
    name, *flags = words
    as_sources, flags = taken(flags, "--sources")
    as_sources = (as_sources or "").split(",")
    commit, flags = taken(flags, "--changed")
    for path in changed(name, commit) if commit else ():
        flags += ["--only", path]
    alone, flags = "--alone" in flags, [it for it in flags if it != "--alone"]
    named = [flags[at + 1] for at, it in enumerate(flags) if it == "--only"]
    if (commit or alone) and not named:
        sys.exit("no function was changed" if commit else "--alone wants functions, each behind --only")
    if commit:
        print("changed:", *named, flush=True)
    kit = kit_folder()
    check, sources = over.words_of(kit, uses, name, kept_libraries(uses, name, as_sources))
    for crate in sources:
        folder = stub(crate)
        check = [it.replace(f"={TOP}/crates/{crate}/src/lib.rt", f"={folder}/src/lib.rt") for it in check]
    print("without bodies:", " ".join(sources) or "none", flush=True)
    own = CRATES / name
    if alone:
        write_stub(name, own, OUT / ("alone-" + name), named)
        own = OUT / ("alone-" + name)
    over.begin_check(kit, name, own, [*check, *flags, "--allow-holes"], "stubs")
