"""Imports designs as tools write them, and compares all endpoints with OpenSTA on the originals.

Usage: import_check.py [--program FILE] [--keep FOLDER] [NAME ..]

The designs are blocks (a hierarchy with two blocks and their parasitics), macro (two libraries and a memory with
buses) and modes (constraints in Tcl). Each is also taken once more by the constraints that OpenSTA itself writes of it
(write_sdc). OpenSTA (Debian's package opensta) reads the libraries, netlists and constraints as they are. For blocks it
gets the same wires as one file, since it does not join the wires of blocks; import_designs.py makes that file apart
from the importer. Wires are simple_rc's, with thresholds by which its delay is Elmore's. It prints a line for each
design; its status is 1 where an endpoint differs by more than 0.05 ps, or one of the two has no slack for it.
"""
import argparse
import dataclasses
import pathlib
import shutil
import subprocess
import sys
import tempfile

from lizdrog_dev import import_designs
from lizdrog_tools.places import TOP, find_program

TOLERANCE = 0.05
MOST_QUESTIONS = 10000
SHOWN = 10
Slacks = dict[tuple[str, str], float]
ENDS = """
set_units -time ps
foreach {kind side} {setup max hold min} {
  foreach end [find_timing_paths -path_delay $side -group_count 100000 -endpoint_count 1] {
    puts "END $kind [get_full_name [[$end vertex] pin]] [sta::format_time [$end slack] 6]"
  }
}
"""


class Wrong(Exception):
    """A tool did not do its work."""


def opensta(case: import_designs.Case, more: str, has_credit: bool = True) -> str:
    """What OpenSTA says of a design, and then of some commands."""
    lines = [
        f"set sta_crpr_enabled {int(has_credit)}",
        "set sta_crpr_mode same_transition",
        *(f"read_liberty -min {it}" for it in case.early),
        *(f"read_liberty -max {it}" for it in case.late),
        *(f"read_verilog {it}" for it in case.netlist),
        f"link_design {case.top}",
        "set_operating_conditions -analysis_type on_chip_variation",
        "sta::set_delay_calculator simple_rc",
        f"read_sdc {case.sdc}",
        *(f"read_spef -quiet {it}" for it in case.spef),
        more,
    ]
    script = case.folder / "opensta.tcl"
    script.write_text("\n".join(lines) + "\n")
    ran = subprocess.run(
        ["sta", "-no_splash", "-exit", script.name], cwd=case.folder, capture_output=True, text=True, check=False
    )
    if ran.returncode or "Error:" in ran.stdout + ran.stderr:
        raise Wrong(f"{case.name}: OpenSTA: {(ran.stdout + ran.stderr).strip()[-400:]}")
    return ran.stdout


def slacks_of_opensta(case: import_designs.Case, has_credit: bool = True) -> Slacks:
    """The slack of each endpoint in ps, the worst over its path groups."""
    found: Slacks = {}
    unit = 1000 if "ns" in (case.folder / case.late[0]).read_text()[:400] else 1
    for line in opensta(case, ENDS, has_credit).splitlines():
        words = line.split()
        if words[:1] == ["END"] and words[3] != "INF":
            key = (words[1], words[2])
            found[key] = min(found.get(key, float("inf")), float(words[3]) * unit)
    return found


def imported(case: import_designs.Case) -> pathlib.Path:
    """The folder that the importer writes of a design."""
    folder = case.folder / f"{case.name}.import"
    ran = subprocess.run(
        [sys.executable, TOP / "tools" / "import_design.py", "-o", folder, case.folder / case.project],
        capture_output=True,
        text=True,
        check=False,
    )
    if ran.returncode:
        raise Wrong(f"{case.name}: the import ends with {ran.returncode}: {ran.stderr.strip()[-400:]}")
    return folder


def slacks_of_lizdrog(folder: pathlib.Path, program: pathlib.Path) -> Slacks:
    """The slack of each endpoint, by the program."""
    asked = subprocess.run(
        [sys.executable, TOP / "tools" / "endpoint_questions.py", "late.lib", "netlist.v"],
        cwd=folder,
        capture_output=True,
        text=True,
        check=True,
    )
    questions, found = asked.stdout.splitlines(), {}
    spef = "parasitics.spef" if (folder / "parasitics.spef").exists() else "none"
    for at in range(0, len(questions), MOST_QUESTIONS):
        part = questions[at : at + MOST_QUESTIONS]
        (folder / "questions").write_text("\n".join(part) + "\n")
        ran = subprocess.run(
            [program, "run", "early.lib", "late.lib", "netlist.v", "constraints.sdc", spef, "1", "questions"],
            cwd=folder,
            capture_output=True,
            text=True,
            check=False,
        )
        if ran.returncode > 1:
            raise Wrong(f"{folder.name}: the program ends with {ran.returncode}: {ran.stdout.strip()[:200]}")
        for words in (it.split() for it in ran.stdout.splitlines()):
            if words[:1] and words[0].isdigit() and words[2] == "endpoint" and words[3] != "none":
                _, pin, kind = part[int(words[0]) - 1].split()
                found[kind, pin.replace(":", "/")] = float(words[3])
    return found


def differing(theirs: Slacks, ours: Slacks) -> list[tuple[str, str]]:
    """The endpoints of which one of the two has no slack, or another one."""
    shared = theirs.keys() & ours.keys()
    return sorted((theirs.keys() ^ ours.keys()) | {it for it in shared if abs(theirs[it] - ours[it]) > TOLERANCE})


def agrees(theirs: Slacks, ours: Slacks) -> bool:
    return bool(theirs) and not differing(theirs, ours)


def compare(name: str, theirs: Slacks, ours: Slacks) -> bool:
    """Tells how the slacks agree."""
    worst = max((abs(theirs[it] - ours[it]) for it in theirs.keys() & ours.keys()), default=0.0)
    wrong = differing(theirs, ours)
    print(
        f"{name}: {len(theirs)} endpoints in OpenSTA, {len(ours)} in Lizdrog, {len(wrong)} differ; "
        f"the greatest difference is {worst:.4f} ps"
    )
    for key in wrong[:SHOWN]:
        print(f"  {' '.join(key)}: OpenSTA {theirs.get(key)}, Lizdrog {ours.get(key)}")
    return agrees(theirs, ours)


def written_again(case: import_designs.Case) -> import_designs.Case:
    """The same design with the constraints that OpenSTA writes of it."""
    opensta(case, "write_sdc written.sdc")
    text = (case.folder / case.project).read_text().replace(f'"{case.sdc}"', '"written.sdc"')
    (case.folder / "written.toml").write_text(text)
    return dataclasses.replace(case, name=f"{case.name}-written", sdc="written.sdc", project="written.toml")


def main() -> int:
    parser = argparse.ArgumentParser(description=__doc__, formatter_class=argparse.RawDescriptionHelpFormatter)
    parser.add_argument(
        "names", nargs="*", metavar="NAME", help=f"some of {', '.join(import_designs.MAKERS)}; all where none is named"
    )
    parser.add_argument("--program", type=pathlib.Path, default=find_program())
    parser.add_argument("--keep", type=pathlib.Path, help="write the designs here, and leave them")
    given = parser.parse_args()
    unknown = [it for it in given.names if it not in import_designs.MAKERS]
    if unknown:
        parser.error(f"there is no design {', '.join(unknown)}")
    if given.program is None or shutil.which("sta") is None:
        why = "there is no sta here: apt-get install opensta" if given.program else "no program: ./lizdrog --build"
        print(f"import_check: {why}", file=sys.stderr)
        return 2
    agree = True
    with tempfile.TemporaryDirectory() as name:
        for design in given.names or import_designs.MAKERS:
            case = import_designs.MAKERS[design]((given.keep or pathlib.Path(name)) / design)
            for one in (case, written_again(case)):
                try:
                    agree &= compare(
                        one.name, slacks_of_opensta(one), slacks_of_lizdrog(imported(one), given.program.resolve())
                    )
                except Wrong as why:
                    print(why)
                    agree = False
    return 0 if agree else 1
