"""Tries a live server as people use it, and worse: live_trial.py PART [options] [EARLY LATE NETLIST SDC SPEF WORKERS]

PART is one of these; each prints a line of what came of it, and ends with 1 at the first thing amiss. Without a design
that of examples/closing-setup is taken.

  same      the same scripts by `run` and by `live` give the same rows, byte by byte: --count N (20) random scripts from
            --seed R (1) on, or the cases of a file (--cases FILE)
  work      --clients K (4) clients of `lizdrog serve` work for --seconds S (10), with --pause P (0.02) in the mean
            between their commands; what they were told is checked against the journal, and by tools/check_sessions.py
  kills     a server that takes ECOs of four clients is killed (SIGKILL), --kills N (20) times; a run goes on from the
            journal
  hostile   sessions that vanish, never read, send --bytes B (2^30) without a line's end, binary lines, or half a group
  full      a full disk; a journal that can not be written, that another program holds, or that is missing
  memory    --refusals N (300) calls for memory of a session are refused, one in each run
  speed     answers and ECOs, 16 sessions beside each other, and memory after 10,000 answers; on 50,000 cells
  all       one after the other

  --cells C         on a design of C cells that is drawn, with wires
  --program FILE    the live program          --batch FILE    the batch program
"""
import argparse
import contextlib
import os
import pathlib
import sys
import tempfile

from lizdrog_dev import live_clients, live_hostile, live_memory, live_same, live_speed, sessions
from lizdrog_dev.live_child import Amiss
from lizdrog_tools.places import CRATES, EXAMPLES, TOP, find_program, is_program

PARTS = {
    "same": live_same.try_same,
    "work": live_clients.try_work,
    "kills": live_clients.try_kills,
    "hostile": live_hostile.try_hostile,
    "full": live_hostile.try_full,
    "memory": live_memory.try_memory,
    "speed": live_speed.try_speed,
}
LIVE = (CRATES / "timing_live" / "out" / "timing_live", TOP / "out" / "quick_build" / "timing_live")
EXAMPLE = EXAMPLES / "closing-setup"
NAMES = ("sizes.lib", "sizes.lib", "accumulator.v", "accumulator.sdc", "accumulator.spef")
DESIGN = [*(str(EXAMPLE / it) for it in NAMES), "1"]
NUMBERS = (
    ("count", int, 20),
    ("seed", int, 1),
    ("seconds", float, 10),
    ("clients", int, 4),
    ("pause", float, 0.02),
    ("kills", int, 20),
    ("bytes", int, 1 << 30),
    ("refusals", int, 300),
    ("cells", int, 0),
)


def arguments() -> argparse.Namespace:
    parser = argparse.ArgumentParser(description=__doc__, formatter_class=argparse.RawDescriptionHelpFormatter)
    parser.add_argument("part", choices=[*PARTS, "all"])
    parser.add_argument("--program", type=pathlib.Path, default=next(filter(is_program, LIVE), None))
    parser.add_argument("--batch", type=pathlib.Path, default=find_program())
    parser.add_argument("--cases", type=pathlib.Path)
    for name, kind, default in NUMBERS:
        parser.add_argument(f"--{name}", type=kind, default=default)
    parser.add_argument("design", nargs="*")
    given = parser.parse_intermixed_args()
    if len(given.design) not in (0, len(DESIGN)):
        parser.error("a design is EARLY LATE NETLIST SDC SPEF WORKERS")
    design = given.design or DESIGN
    given.design = [*(it if it == "none" else os.path.abspath(it) for it in design[:5]), design[5]]
    for name in ("program", "batch"):
        if getattr(given, name) is None:
            parser.error(f"there is no {'live' if name == 'program' else 'batch'} program: name it by --{name}")
        setattr(given, name, getattr(given, name).resolve())
    given.cases = given.cases and given.cases.resolve()
    return given


@contextlib.contextmanager
def drawn(given: argparse.Namespace):
    """A design of so many cells, in a folder of its own, where that is wanted."""
    if not given.cells or given.part == "speed":
        yield
        return
    with tempfile.TemporaryDirectory(prefix="lizdrog-live-design-") as folder:
        sessions.make_design(pathlib.Path(folder), given.cells)
        given.design = live_speed.design_in(pathlib.Path(folder), given.design[5])
        yield


def main() -> int:
    given = arguments()
    try:
        for part in PARTS if given.part == "all" else [given.part]:
            with tempfile.TemporaryDirectory(prefix="lizdrog-live-trial-") as folder, drawn(given):
                print(PARTS[part](given, pathlib.Path(folder)), flush=True)
    except Amiss as why:
        print(f"live_trial: {why}", file=sys.stderr)
        return 1
    return 0
