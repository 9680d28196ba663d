"""Trial of a live program that is refused memory, one call after the other.

One session with drawn commands runs as often as refusals are wanted, evenly over its calls for memory; in each run one
call fails (bench/refuse_memory.c, loaded before the C library). Each run gives what the run without a refusal gives, or
ends with status 6 and has written rows that are the first of those, whole or cut in the last one; and each number that
it told stands in the journal.
"""
import argparse
import os
import pathlib
import struct
import subprocess

from lizdrog_dev import trials
from lizdrog_dev.live_child import Amiss
from lizdrog_dev.live_clients import Draws
from lizdrog_tools.liberty import read_library
from lizdrog_tools.mend_journal import Blocks
from lizdrog_tools.verilog import read_netlist

WANTING, COMMANDS, SECONDS, TALLY = 6, 60, 120, "<3Q"


class Refusing:
    """Runs of one session with refusals."""

    def __init__(self, given: argparse.Namespace, folder: pathlib.Path):
        self.given, self.folder, self.shim = given, folder, trials.compiled("refuse_memory.c", folder)
        self.journal, self.tally, self.script = folder / "journal", folder / "tally", folder / "script"
        draws = Draws(read_netlist(given.design[2]), read_library(given.design[1]), f"m{given.seed}")
        self.script.write_text("".join(f"{line}\n" for _ in range(COMMANDS) for line in draws.command()))

    def run(self, number: int) -> tuple[int, str, int]:
        """The status and the output of a run whose call with this number is refused, and how many calls there were."""
        self.journal.write_text("")
        self.tally.write_bytes(bytes(struct.calcsize(TALLY)))
        told = {"LD_PRELOAD": str(self.shim), "REFUSE": f"memory {number}", "REFUSE_TALLY": str(self.tally)}
        words = [str(self.given.program), "live", "--journal", str(self.journal), *self.given.design]
        with open(self.script, "rb") as lines:
            ran = subprocess.run(
                words, stdin=lines, capture_output=True, env={**os.environ, **told}, check=False, timeout=SECONDS
            )
        return ran.returncode, ran.stdout.decode("latin-1"), struct.unpack(TALLY, self.tally.read_bytes())[0]

    def check(self, number: int, normal: tuple[int, str]) -> bool:
        """Whether a run with a refusal ends as one without; else it has to end as it may."""
        status, output, _ = self.run(number)
        if (status, output) == normal:
            return True
        rows = output[: output.rindex("final ")] if "\nfinal " in output else output
        if status != WANTING or not normal[1].startswith(rows):
            raise Amiss(f"call {number} for memory is refused: status {status}, and of the output {rows[-200:]!r}")
        stand = Blocks(self.journal.read_text(encoding="latin-1"))
        heads = [it.split(" ") for it in rows.split("\n")[:-1]]
        told = max([int(it[1]) for it in heads if len(it) > 2 and it[0].isdigit() and it[1].isdigit()], default=0)
        if stand.fault or stand.entries < told:
            raise Amiss(f"call {number} for memory is refused: {told} was told, and {stand.entries} entries stand")
        return False


def try_memory(given: argparse.Namespace, folder: pathlib.Path) -> str:
    """The refusals; what came of them, in a line."""
    refusing = Refusing(given, folder)
    status, output, calls = refusing.run(0)
    if status not in (0, 1) or not calls:
        raise Amiss(f"the run without a refusal ended with status {status} behind {calls} calls for memory")
    step = max(1, calls // given.refusals)
    numbers = range(1, calls + 1, step)
    same = sum(refusing.check(it, (status, output)) for it in numbers)
    ended = f"{len(numbers) - same} ended with status 6, {same} as ever"
    return f"memory: {len(numbers)} of {calls} calls for memory were refused: {ended}"
