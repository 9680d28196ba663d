"""Times ECOs with the report of the worst slack behind each: ecos.py [--cells N] [--gates G] [--each E] [--workers W]
[--program FILE]

Designs are those of bench/design.py with parasitics by bench/spef.py; --cells may come again for several sizes
(default: 50000). For each size and each kind of ECO, G gates or nets (default 9) are drawn, and each gets a run of its
own with E ECOs (default 40):
  resize   a gate of the data path, to the stronger cell and back
  buffer   a buffer for two sinks of a net of the data path; each run has E nets
  clock    a buffer of a clock leaf, to itself
A run of the report alone is made beside each; the milliseconds of an ECO are the difference by E. It prints for each
size and kind the median and the mean over the gates, the seconds of the run of the report alone, and the greatest
memory of all runs. FILE is the program to run (default: the one that the gate has proved and built).
"""
import argparse
import os
import pathlib
import random
import re
import resource
import statistics
import subprocess
import sys
import tempfile
import time

from lizdrog_tools.places import TOP

REPORT = "report_wns setup\n"


def made(folder, cells):
    """A design of so many cells in a folder, and its netlist's text."""
    subprocess.run([sys.executable, TOP / "bench/design.py", folder, str(cells)], check=True)
    with open(folder / "bench.spef", "w") as out:
        subprocess.run(
            [sys.executable, TOP / "bench/spef.py", "bench.lib", "bench.v"], cwd=folder, stdout=out, check=True
        )
    return (folder / "bench.v").read_text()


def sinks_of(text):
    """The sinks of each net that gates of the data path drive."""
    sinks = {}
    for cell, name, pins in re.findall(r"^  (\w+) \\?(\S+) +\((.*)\);$", text, re.M):
        for pin, net in re.findall(r"\.(\w+)\(\\?(\S+?) ?\)", pins):
            if pin not in ("Y", "Q") and "/n" in net:
                sinks.setdefault(net, []).append(f"{name}:{pin}")
    return {net: pins for net, pins in sinks.items() if len(pins) > 3}


def scripts(kind, text, gates, each):
    """The scripts of a kind of ECO, one for each of so many gates."""
    rand = random.Random(7)
    if kind == "resize":
        names = rand.sample(re.findall(r"^  NAND2_X1 \\?(\S+) ", text, re.M), gates)
        return [[f"repower_gate {name} NAND2_X{2 - at % 2}\n" for at in range(each)] for name in names]
    if kind == "clock":
        names = rand.sample(re.findall(r"^  CLKBUF_X8 (clock_leaf_\d+) ", text, re.M), min(gates, 9))
        return [[f"repower_gate {name} CLKBUF_X8\n" for _ in range(each)] for name in names]
    nets = sinks_of(text)
    drawn = rand.sample(sorted(nets), gates * each)
    lines = [
        f"insert_buffer {net} eco_buffer_{at} eco_net_{at} BUF_X4 {' '.join(nets[net][2:4])}\n"
        for at, net in enumerate(drawn)
    ]
    return [lines[at * each:(at + 1) * each] for at in range(gates)]


def spent(program, folder, script, workers):
    """The seconds of a run of a script, each of whose rows is an answer."""
    (folder / "bench.eco").write_text(script)
    words = [program, "run", "bench.lib", "bench.lib", "bench.v", "bench.sdc", "bench.spef", str(workers), "bench.eco"]
    began = time.monotonic()
    done = subprocess.run(words, cwd=folder, capture_output=True, text=True)
    seconds = time.monotonic() - began
    if done.returncode:
        sys.exit(f"a run ended with {done.returncode}: {done.stdout[:300]}")
    return seconds


def main():
    words = argparse.ArgumentParser(description=__doc__, formatter_class=argparse.RawDescriptionHelpFormatter)
    words.add_argument("--cells", type=int, action="append")
    words.add_argument("--gates", type=int, default=9)
    words.add_argument("--each", type=int, default=40)
    words.add_argument("--workers", type=int, default=1)
    words.add_argument("--program", type=pathlib.Path, default=TOP / "crates/timing_shell/out/timing_shell")
    words = words.parse_args()
    program = os.path.realpath(words.program)
    for cells in words.cells or [50000]:
        with tempfile.TemporaryDirectory() as name:
            folder = pathlib.Path(name)
            text = made(folder, cells)
            for kind in ("resize", "buffer", "clock"):
                times, alone = [], []
                for lines in scripts(kind, text, words.gates, words.each):
                    alone.append(spent(program, folder, REPORT, words.workers))
                    whole = spent(program, folder, REPORT + "".join(line + REPORT for line in lines), words.workers)
                    times.append(1000 * (whole - alone[-1]) / len(lines))
                print(
                    (
                        f"{cells} cells, {kind:6}: median {statistics.median(times):7.2f} ms, mean"
                        f" {statistics.mean(times):7.2f} ms; the report alone {statistics.median(alone):.2f} s"
                    ),
                    flush=True,
                )
    print(f"greatest memory: {resource.getrusage(resource.RUSAGE_CHILDREN).ru_maxrss // 1000} MB")
