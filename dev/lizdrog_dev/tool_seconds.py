"""Times the tools that read whole designs: tools.py [--program FILE] [--cells N]

A design of N cells (default: 52510) is made by bench/design.py with parasitics by bench/spef.py. Each tool runs three
times. It prints the least seconds of processors and the peak memory of each; its status is 1 where one takes more
than 3 s or 300 MB. read_answers is asked for paths of designs between ECOs, which the program answers first. An import of the
design as it is, and of one that has it as a block with parasitics of its own, may take 60 s and 1,000 MB; the second
needs yosys.
"""
import argparse
import os
import pathlib
import shutil
import subprocess
import sys
import tempfile

from lizdrog_dev.pairs import made
from lizdrog_tools.liberty import read_library
from lizdrog_tools.places import TOP, find_program
from lizdrog_tools.verilog import Joined, read_netlist

TIMES, ASKED = 3, 20
# Seconds and megabytes.
Limits = tuple[float, float]
OF_TOOLS: Limits = (3, 300)
OF_IMPORTS: Limits = (60, 1000)
DOCUMENTS = ["bench.lib", "bench.lib", "bench.v", "bench.sdc", "bench.spef"]


def write_questions(folder: pathlib.Path) -> str:
    """Asks paths, with a resize between each two; gives the name of a net that a register drives."""
    joined = Joined(read_netlist(folder / "bench.v"), read_library(folder / "bench.lib"))
    ends = [it for it in joined.endpoints() if ":" in it][:: max(1, len(joined.endpoints()) // ASKED)]
    gates = [it.name for it in joined.netlist.instances.values() if it.cell == "NAND2_X1"][:ASKED]
    lines = [f"report_path {end} setup\nrepower_gate {gate} NAND2_X2\n" for end, gate in zip(ends, gates, strict=False)]
    draft = f"begin_what_if\nrepower_gate {gates[0]} NAND2_X1\nreport_path {ends[0]} setup\nend_what_if\n"
    (folder / "ask.eco").write_text("".join(lines) + draft)
    return joined.net_of[f"{ends[0].rpartition(':')[0]}:Q"]


def write_project(folder: pathlib.Path, is_block: bool) -> str:
    """A project of the design, or of a chip with it as the block u; gives the name of the file."""
    netlist = read_netlist(folder / "bench.v")
    spans: dict[tuple[str, str], list[int]] = {}
    for port, way in netlist.ports.items():
        base, _, index = port.partition("[")
        spans.setdefault((way, base), []).extend([int(index[:-1])] if index else [])
    ports = ", ".join(
        f"{way} {f'[{max(bits)}:{min(bits)}] ' if bits else ''}{base}" for (way, base), bits in spans.items()
    )
    pins = ", ".join(f".{base}({base})" for _, base in spans)
    (folder / "chip.v").write_text(f"module chip ({ports});\n {netlist.name} u ({pins});\nendmodule\n")
    files, spef = '"bench.v"', '"bench.spef"'
    if is_block:
        # The constraints name the block as the current design.
        files = '["chip.v", "bench.v"]\ntop = "chip"\naccept = ["current-design"]'
        spef = '{ file = "bench.spef", instance = "u" }'
    name = "chip.toml" if is_block else "flat.toml"
    text = f'library = "bench.lib"\nnetlist = {files}\nsdc = "bench.sdc"\nspef = [{spef}]\n'
    (folder / name).write_text(text)
    return name


def spent(folder: pathlib.Path, words: list[str]) -> tuple[float, float]:
    """Seconds of processors and MB of a tool."""
    with open(os.devnull, "wb") as sink:
        child = subprocess.Popen([sys.executable, TOP / "tools" / words[0], *words[1:]], cwd=folder, stdout=sink)
        _, status, used = os.wait4(child.pid, 0)
    if os.waitstatus_to_exitcode(status) not in (0, 1):
        sys.exit(f"tools.py: {words[0]} ended with the wait status {status}")
    return used.ru_utime + used.ru_stime, used.ru_maxrss / 1000


def has_yosys() -> bool:
    return shutil.which("yosys") is not None


def is_slow(folder: pathlib.Path, words: list[str], limits: Limits) -> bool:
    """Prints what a tool takes; whether that is more than it may."""
    runs = [spent(folder, words) for _ in range(TIMES)]
    seconds, memory = min(it[0] for it in runs), max(it[1] for it in runs)
    print(f"{' '.join(words[:2])}: {seconds:.2f} s of processors, {memory:.0f} MB", flush=True)
    return seconds > limits[0] or memory > limits[1]


def main() -> int:
    parser = argparse.ArgumentParser(description=__doc__, formatter_class=argparse.RawDescriptionHelpFormatter)
    parser.add_argument("--program", type=pathlib.Path, default=find_program())
    parser.add_argument("--cells", type=int, default=52510)
    given = parser.parse_args()
    if given.program is None:
        parser.error("there is no program: ./lizdrog --build")
    with tempfile.TemporaryDirectory() as name:
        folder = pathlib.Path(name)
        made(folder, given.cells)
        net = write_questions(folder)
        with open(folder / "ask.out", "wb") as out:
            words = [given.program.resolve(), "run", *DOCUMENTS, "1", "ask.eco"]
            subprocess.run(words, cwd=folder, stdout=out, check=True)
        beside = ["--netlist", "bench.v", "--library", "bench.lib"]
        calls = [["net_parasitics.py", "bench.spef", net], ["check_setup.py", *DOCUMENTS],
                 ["read_answers.py", "ask.eco", "ask.out", *beside], ["endpoint_questions.py", "bench.lib", "bench.v"]]
        imports = [["import_design.py", write_project(folder, it)] for it in (False, True) if not it or has_yosys()]
        timed = [(it, OF_TOOLS) for it in calls] + [(it, OF_IMPORTS) for it in imports]
        slow = [words for words, limits in timed if is_slow(folder, words, limits)]
    return 1 if slow else 0
