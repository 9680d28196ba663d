"""Shows that tests refuse bodies that the contracts let through, since those name no schedule: check_serial_body.py
[--seconds N] [TITLE ..]

The bodies: the sessions of a run follow each other, once the first script first, once the last; one thread evaluates
a level, piece after piece; an engine asks for one thread for each level; a session looks for its `await` when it has
answered the command before. Tests of `shell_tests` and `base_tests` hold a thread at a point until another has come
to one of its own, or count who comes to a point. This tool copies the repository, and puts each body (those whose
TITLE begins with the words that are named; default: all) into the copy. It builds and runs the tests without proof
(`rt try`), each for at most N seconds (default 300). The status is 0 where the tests that are named for a body pass
as they stand and fail with it; else 1. Others that fail are printed (`rt try` ends a test that takes many steps).
"""
import argparse
import pathlib
import re
import shutil
import subprocess
import sys
import tempfile

from lizdrog_tools.places import TOP

SESSIONS = "crates/shell_session/src/sessions.rt"
COMMANDS = "crates/session_engine/src/commands.rt"
STEPS = "crates/session_engine/src/runs.rt"
LEVELS = "crates/level_workers/src/mapping.rt"
GATES = ["gates_prepared", "gates_moved", "gates_looks", "gates_reader", "gates_generate"]
BEGIN = "    let kept = Kept {\n"
END = "\n}\n\n/// Runs a session at each seat, all beside each other."
OWN = "run_owned(rt, alloc, board, seat, who, script, workers, gate)"
REST = "run_each(scope, rt, alloc, board, seats, scripts, workers, gate, ended)"
SERIAL = {
    "first script first": f"    let mut all = {REST};\n    all.push_reserved({OWN});\n    all",
    "last script first": f"    let own = {OWN};\n    let mut all = {REST};\n    all.push_reserved(own);\n    all",
}
JOIN = ("let (more, found) = join(rt, theirs, ours);", "let found = ours();\n    let more = theirs();")
WORTH = ("worth_threads(nodes.len(), workers)", "worth_threads(nodes.len(), 1)")
FIRST_LOOK = (
    "newest = look(rt, who, board, seat, newest, gate)?;",
    "if 0 < at {\n            newest = look(rt, who, board, seat, newest, gate)?;\n        }",
)
OPEN = ("/// One look at the newest version in place of the one that is held.\nfn look<",
        "/// One look.\npub(crate) fn look<")
AHEAD = ("            gate.at(Point::Answered {",
         "            let held = crate::commands::look(rt, who, board, seat, held, gate)?;\n            "
         "gate.at(Point::Answered {",)


def with_body(text, body):
    """The source whose sessions run so."""
    begin = text.index(BEGIN)
    return text[:begin] + body + text[text.index(END, begin):]


def changed(text, old, new):
    """The source with one piece changed, which stands there once."""
    if text.count(old) != 1:
        sys.exit(f"this does not stand there once:\n{old}")
    return text.replace(old, new)


def bodies():
    """The title of each body with its sources, the crate of the tests, and those that have to fail."""
    for title, body in SERIAL.items():
        yield title, {SESSIONS: with_body((TOP / SESSIONS).read_text(), body)}, "shell_tests", GATES
    yield "a level by one thread", {LEVELS: changed((TOP / LEVELS).read_text(), *JOIN)}, "base_tests", ["gates_pieces"]
    for engine in ("arrival_engine", "required_engine"):
        source = f"crates/{engine}/src/passes.rt"
        yield (f"{engine} by one thread", {source: changed((TOP / source).read_text(), *WORTH)}, "shell_tests",
               ["gates_shared_levels"])
    waits = changed(changed((TOP / COMMANDS).read_text(), *FIRST_LOOK), *OPEN)
    yield "looks ahead", {COMMANDS: waits, STEPS: changed((TOP / STEPS).read_text(),
                                                          *AHEAD)}, "shell_tests", ["gates_looks"]


def results(top, crate, seconds):
    """Whether each test passed, by its name."""
    words = ["rt", "try", "--test", "--seconds", str(seconds)]
    done = subprocess.run(words, cwd=top / "crates" / crate, capture_output=True, text=True)
    told = dict(re.findall(r"^test \S*::(\w+) \.\.\. (\w+)", done.stdout + done.stderr, re.M))
    if not told:
        sys.exit(f"the tests were not run:\n{done.stdout[-2000:]}{done.stderr[-2000:]}")
    return {name: word == "ok" for name, word in told.items()}


def copied(folder):
    """A copy of what the tests are built from."""
    for name in ("crates", "crates.txt", "HANDLES"):
        source = TOP / name
        copy = shutil.copytree if source.is_dir() else shutil.copy
        copy(source, folder / name)


def with_sources(folder, sources, crate, seconds):
    """What the tests of a crate give with some sources in the place of theirs, which are put back."""
    before = {path: (folder / path).read_text() for path in sources}
    for path, text in sources.items():
        (folder / path).write_text(text)
    told = results(folder, crate, seconds)
    for path, text in before.items():
        (folder / path).write_text(text)
    return told


def main():
    words = argparse.ArgumentParser(description=__doc__, formatter_class=argparse.RawDescriptionHelpFormatter)
    words.add_argument("--seconds", type=int, default=300)
    words.add_argument("titles", nargs="*", metavar="TITLE")
    asked = words.parse_args()
    tried = [it for it in bodies() if not asked.titles or it[0].startswith(tuple(asked.titles))]
    good = True
    with tempfile.TemporaryDirectory() as name:
        folder = pathlib.Path(name)
        copied(folder)
        for crate in dict.fromkeys(it[2] for it in tried):
            told = results(folder, crate, asked.seconds)
            print(f"{crate} as it stands: {len(told)} tests, fail", [it for it, passed in told.items() if not passed],
                  flush=True)
            good &= all(told.get(test) for it in tried if it[2] == crate for test in it[3])
        for title, sources, crate, tests in tried:
            told = with_sources(folder, sources, crate, asked.seconds)
            print(f"{title}: fail", [it for it, passed in told.items() if not passed], flush=True)
            good &= not any(told[test] for test in tests)
    return 0 if good and tried else 1
