"""The command `import`: reads a project file and writes a folder that Lizdrog reads."""
import argparse
import decimal
import pathlib
import re
import shutil
import sys
import tempfile

from lizdrog_tools.files import InputFault, tool
from lizdrog_tools.importing.case_analysis import express_cases, express_disabled
from lizdrog_tools.importing.constraints import Constraints
from lizdrog_tools.importing.design import Design
from lizdrog_tools.importing.driving import express_drives
from lizdrog_tools.importing.ideal import express_ideal
from lizdrog_tools.importing.liberty_merge import (
    LibrarySet,
    Shelf,
    check_cell,
    check_frames,
    kept_cells,
    write_libraries,
)
from lizdrog_tools.importing.limits import check_cells, check_design, check_sizes
from lizdrog_tools.importing.netlist import Netlist
from lizdrog_tools.importing.project import Project, read_as, read_project
from lizdrog_tools.importing.report import SHOWN, Place, Remark, Report, write_report
from lizdrog_tools.importing.resolve import resolve
from lizdrog_tools.importing.run_sdc import run_constraints
from lizdrog_tools.importing.sanity import check_all
from lizdrog_tools.importing.sdc_writer import SdcWriter
from lizdrog_tools.importing.shared_ports import part_ports, share_loads
from lizdrog_tools.importing.spef_merge import Merger, merge_spef
from lizdrog_tools.importing.spef_writer import write_spef
from lizdrog_tools.importing.through import express_through
from lizdrog_tools.importing.variants import Variants
from lizdrog_tools.importing.verilog_flat import NotFlat, read_flat, write_flat
from lizdrog_tools.importing.verilog_hierarchy import read_hierarchy

DIGITS = 60
SPEF, REPORT = "parasitics.spef", "import.json"
# Kinds of remarks that are printed, too: no slack is lost by the import, and yet few mean it so.
NOTED = ("no-wires",)
WORD = re.compile(r"\\\S+|[A-Za-z_][\w$]*")
HELP = """Brings a design as tools write it to what Lizdrog reads: import [-o FOLDER] PROJECT.toml

PROJECT.toml names libraries, netlist, constraints and parasitics (docs/IMPORT.md). FOLDER gets early.lib, late.lib,
netlist.v, constraints.sdc, parasitics.spef, lizdrog.toml, and import.txt and import.json with all that was changed and
left out. Status: 0 all is expressed, 1 what the project accepts is left out, 2 an input is wrong, or slacks would
change: nothing is written.
"""


def read_netlist(project: Project, cells: LibrarySet, report: Report) -> Netlist:
    """The flat netlist, by yosys where it is not flat yet."""
    files = [str(project.path(it)) for it in project.netlist]
    texts = [read_as(it, "netlist", "netlist") for it in files]
    reason = "several files"
    if len(files) == 1:
        try:
            netlist = read_flat(texts[0], files[0])
            if project.top not in (None, netlist.name):
                raise InputFault(files[0], None, f"there is no module {project.top}: the one module is {netlist.name}")
            bused = next((it for it in netlist.instances.values() if it.nets.keys() & buses(cells, it.cell)), None)
            if bused is None:
                return netlist
            reason = f"pins of {bused.name} that are buses of its cell"
        except NotFlat as why:
            reason = f"{why.seen} (line {why.line})"
    words = {it.removeprefix("\\") for text in texts for it in WORD.findall(text)}
    stubs = {name: cells.ports(name) for name in sorted(words & set(cells.where))}
    netlist = read_hierarchy(files, project.top, stubs, report)
    report.change(
        "flattened",
        Place(files[0]),
        f"flattened by yosys, since it has {reason}: {len(netlist.blocks)} blocks, {len(netlist.instances)} cells",
    )
    return netlist


def buses(cells: LibrarySet, name: str) -> set[str]:
    """The buses of a cell."""
    cell = cells.get(name)
    return {port for port, span in cell.spans.items() if span} if cell else set()


def check_instances(netlist: Netlist, early: LibrarySet, late: LibrarySet) -> None:
    """Each cell that the design uses is in both libraries and has the connected pins."""
    users = {}
    for instance in netlist.instances.values():
        users.setdefault(instance.cell, instance)
    for name, user in users.items():
        check_cell(name, early, late, Place(netlist.place.file, user.line))
    for instance in netlist.instances.values():
        gone = [it for it in instance.nets if it not in late.get(instance.cell).pins]
        if gone:
            raise InputFault(
                netlist.place.file,
                instance.line or None,
                f"the instance {instance.name} has a pin {gone[0]}, and its cell {instance.cell} has none (E4)",
            )


class Import:
    """One import of a project."""

    def __init__(self, project: Project):
        self.project, self.report = project, Report(project.accept)
        shelf = Shelf()
        sides = [[str(project.path(it)) for it in files] for files in (project.early, project.late)]
        self.early, self.late = (LibrarySet(files, project.prefer, shelf, self.report) for files in sides)
        check_frames(shelf.frames.values(), self.report)

    def work(self) -> dict[str, str]:
        """The texts of the documents by their names."""
        netlist = read_netlist(self.project, self.late, self.report)
        part_ports(netlist, (self.early, self.late), self.report)
        check_instances(netlist, self.early, self.late)
        design = Design(netlist, self.late)
        check_design(design)
        constraints = run_constraints(
            [str(self.project.path(it)) for it in self.project.sdc], design, self.report, self.project.folder
        )
        wires = merge_spef(self.project, design, self.report)
        names = sorted({it.cell for it in netlist.instances.values()})
        place = Place(str(self.project.path(self.project.sdc[0])) if self.project.sdc else self.project.file)
        check_all(names, (self.early, self.late), constraints, wires, design, self.report, place)
        self.express(constraints, design, wires)
        used = sorted({it.cell for it in netlist.instances.values()})
        names = list(dict.fromkeys([*used, *kept_cells(self.early, self.late, self.project.keep)]))
        check_cells(names, self.project)
        for name in names:
            check_cell(name, self.early, self.late, Place(self.project.file))
        early, late = write_libraries(names, self.early, self.late)
        texts = {
            "early.lib": early,
            "late.lib": late,
            "netlist.v": write_flat(netlist),
            "constraints.sdc": SdcWriter(constraints, netlist.name).text(),
            **({SPEF: write_spef(wires)} if wires else {}),
        }
        check_sizes(texts, self.project)
        return texts

    def express(self, constraints: Constraints, design: Design, wires: Merger | None) -> None:
        """What needs the cells and the wires: constants, cut arcs, driving cells, ideal clocks; then what the
        constraints say by themselves."""
        cut = Variants(design, self.early, self.late)
        express_cases(constraints, design, cut, self.report)
        express_disabled(constraints, design, cut, self.report)
        cut.make()
        undelayed = Variants(design, self.early, self.late)
        express_ideal(constraints, design, undelayed, wires, self.report)
        undelayed.make()
        express_through(constraints, design, self.report)
        share_loads(design.netlist, constraints)
        express_drives(constraints, design, (self.early, self.late), wires, self.report)
        resolve(constraints, design, self.report)


RUN_FILE = """early = "early.lib"
late = "late.lib"
netlist = "netlist.v"
sdc = "constraints.sdc"
spef = "{spef}"
"""


def check_folder(folder: pathlib.Path) -> None:
    """A folder that an import did not make is left alone."""
    if folder.exists() and (not folder.is_dir() or any(folder.iterdir()) and not (folder / REPORT).is_file()):
        raise InputFault(str(folder), None, "this is there and no earlier import made it: name another folder by -o")


def write_folder(folder: pathlib.Path, texts: dict[str, str], report: Report, facts: dict[str, object]) -> None:
    """Writes all of it beside the folder, and then puts it in its place."""
    folder.parent.mkdir(parents=True, exist_ok=True)
    with tempfile.TemporaryDirectory(dir=folder.parent) as name:
        part = pathlib.Path(name)
        for file, text in texts.items():
            (part / file).write_text(text, encoding="latin-1")
        (part / "lizdrog.toml").write_text(RUN_FILE.format(spef=SPEF if SPEF in texts else "none"))
        write_report(report, part, facts)
        folder.mkdir(exist_ok=True)
        (folder / SPEF).unlink(missing_ok=True)
        for file in part.iterdir():
            shutil.move(str(file), folder / file.name)


def refuse(report: Report) -> int:
    """Says what cannot be expressed, the first of each kind, and how it may be accepted."""
    kinds: dict[str, list[Remark]] = {}
    for remark in report.refused:
        kinds.setdefault(remark.kind, []).append(remark)
    for kind, alike in kinds.items():
        for remark in alike[:SHOWN]:
            print(f"import: {remark}", file=sys.stderr)
        if len(alike) > SHOWN:
            print(f"import: .. and {len(alike) - SHOWN} more of {kind}", file=sys.stderr)
    words = ", ".join(f'"{it}"' for it in kinds)
    print(
        f"import: {len(report.refused)} things would change slacks and cannot be expressed; nothing is written. "
        f"Where you can do without them, write accept = [{words}] into the project",
        file=sys.stderr,
    )
    return report.status()


def import_project(words: list[str]) -> int:
    """Imports the project that the words name; gives the status."""
    parser = argparse.ArgumentParser(
        prog="lizdrog import",
        usage=argparse.SUPPRESS,
        description=HELP,
        formatter_class=argparse.RawDescriptionHelpFormatter,
    )
    parser.add_argument("project", metavar="PROJECT.toml")
    parser.add_argument(
        "-o", "--output", metavar="FOLDER", help="the folder that is written, PROJECT.import where none is named"
    )
    given = parser.parse_args(words)
    decimal.getcontext().prec = DIGITS
    project = read_project(given.project)
    folder = pathlib.Path(given.output or project.path(project.output or f"{pathlib.Path(project.file).stem}.import"))
    check_folder(folder)
    done = Import(project)
    texts, report = done.work(), done.report
    if report.refused:
        return refuse(report)
    write_folder(folder, texts, report, {"project": project.file, "folder": str(folder)})
    print(
        f"import: {folder}: {len(report.changes)} things changed with the same slacks, {len(report.harmless)} left out "
        f"without effect, {len(report.accepted)} accepted ({folder / 'import.txt'})"
    )
    for remark in report.harmless:
        if remark.kind in NOTED:
            print(f"import: note: {remark.place}: {remark.text}", file=sys.stderr)
    return report.status()


def called(words: list[str]) -> int:
    """The command with these words: its status, where an input cannot be used 2 with a sentence."""
    return tool("import")(lambda: import_project(words))()


def main() -> int:
    return called(sys.argv[1:])
