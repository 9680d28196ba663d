"""Times a whole run on a chain of inverters: bench/chain.py [--count N] [--program FILE]

N is 60,000 where none is given. FILE is a built program; without it the proved one, or else the one without proof. It
prints the seconds of the second of two runs, whose outputs have to be the same, and checks the answer: each stage has
the slews of the cell.
"""
import argparse
import pathlib
import shutil
import sys
import tempfile

from lizdrog_dev import pairs, trials
from lizdrog_tools.places import EXAMPLES

LIBRARY = EXAMPLES / "two-inverters" / "inverter.lib"
ANSWER = b"1 0 slew 4.000"


def netlist(count: int) -> str:
    """A chain of so many inverters."""
    nets = ["in", *(f"w{at}" for at in range(1, count)), "out"]
    wires = f"wire {', '.join(nets[1:-1])};\n" if count > 1 else ""
    gates = [f"INV u{at} (.A({nets[at - 1]}), .Z({nets[at]}));\n" for at in range(1, count + 1)]
    return f"module chain (in, out); input in; output out; {wires}{''.join(gates)}endmodule\n"


def write(folder: pathlib.Path, count: int) -> None:
    """Writes the documents of a chain, and a question about its end."""
    shutil.copy(LIBRARY, folder)
    (folder / "chain.v").write_text(netlist(count), encoding="ascii")
    (folder / "none.sdc").write_text("", encoding="ascii")
    (folder / "s1").write_text(f"report_slew u{count}:Z late rise\n", encoding="ascii")


def main() -> int:
    parser = argparse.ArgumentParser(description=__doc__, formatter_class=argparse.RawDescriptionHelpFormatter)
    parser.add_argument("--count", type=int, default=60000, metavar="N")
    parser.add_argument("--program", metavar="FILE")
    given = parser.parse_args()
    program, library = trials.find_program(given.program), LIBRARY.name
    with tempfile.TemporaryDirectory() as name:
        folder = pathlib.Path(name)
        write(folder, given.count)
        words = [program, "run", library, library, "chain.v", "none.sdc", "none", "1", "s1"]
        first, second = pairs.run(words, folder), pairs.run(words, folder)
    if first.output != second.output or ANSWER not in second.output.splitlines():
        sys.exit(f"chain: two runs differ, or the answer is not {ANSWER.decode()}: {second.output[:200]!r}")
    print(f"{second.seconds:.3f} seconds for {given.count} inverters\nanswer: {ANSWER.decode()}")
    return 0
