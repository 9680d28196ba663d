"""Reads the project of several corners: the TOML file of a design, with a table for each corner.

    netlist = "top.v"
    sdc = "functional.sdc"
    ecos = "ecos.list"

    [corners.slow]
    library = "slow.lib"
    spef = "cmax.spef"

    [corners.fast]
    early = "fast.lib"
    late = "typical.lib"

A corner's table overrides what is above it. A project without the table `corners` has one corner, with the name of
the file. Names of files count from the folder of the project.
"""
import dataclasses
import os
import pathlib
import re
import tomllib

from lizdrog_tools.files import InputFault, read_text

MOST_WORKERS = 32
# What stands for each corner in a list of ECOs, and so is no corner's name.
ALL = "all"
CORNER_NAME = re.compile(r"[A-Za-z0-9_][A-Za-z0-9_.-]{0,63}")
LIBRARIES = ("early", "late")
DOCUMENTS = (*LIBRARIES, "netlist", "sdc")
NO_SPEF = "none"
OF_A_CORNER = ("library", *LIBRARIES, "sdc", "spef", "workers", "timeout")
# Keys of the same file for other commands, which corners do without.
OF_OTHERS = ("top", "accept", "keep", "prefer", "output", "journal")
OF_A_PROJECT = (*OF_A_CORNER, "netlist", "ecos", "results", "slurm", "corners")


@dataclasses.dataclass(frozen=True)
class Corner:
    """One corner of a design: its documents, its number of threads, and how many seconds its run may take."""

    name: str
    early: pathlib.Path
    late: pathlib.Path
    netlist: pathlib.Path
    sdc: pathlib.Path
    spef: pathlib.Path | None
    workers: int
    timeout: float | None

    def documents(self) -> list[pathlib.Path]:
        """The files that a run of this corner reads."""
        return [it for it in (self.early, self.late, self.netlist, self.sdc, self.spef) if it is not None]

    def words(self) -> list[str]:
        """The words of a run, from the early library to the number of threads."""
        spef = "none" if self.spef is None else os.fspath(self.spef)
        return [*map(os.fspath, (self.early, self.late, self.netlist, self.sdc)), spef, str(self.workers)]


@dataclasses.dataclass(frozen=True)
class Project:
    """All corners of a design, their one list of ECOs, and the folder for their results."""

    file: pathlib.Path
    corners: tuple[Corner, ...]
    ecos: pathlib.Path | None
    results: pathlib.Path
    slurm_options: tuple[str, ...]

    def names(self) -> list[str]:
        """The names of the corners, in the order of the file."""
        return [it.name for it in self.corners]


class Reader:
    """Reads one project file; each fault names the file and the key."""

    def __init__(self, file: pathlib.Path):
        self.file, self.folder = file, file.absolute().parent

    def fault(self, key: str, message: str) -> InputFault:
        """What is wrong with a key."""
        return InputFault(self.file, None, f"{key}: {message}")

    def tables(self) -> dict:
        """The tables of the file."""
        try:
            return tomllib.loads(read_text(self.file).encode("latin-1").decode("utf-8"))
        except UnicodeDecodeError as why:
            raise InputFault(self.file, None, "the file is not UTF-8") from why
        except tomllib.TOMLDecodeError as why:
            raise InputFault(self.file, None, f"this is no TOML: {why}") from why

    def check_keys(self, place: str, table: dict, known: tuple[str, ...]) -> None:
        """Refuses a key that is not known."""
        for key in table:
            if key not in known:
                raise self.fault(f"{place}{key}", f"there is no such key; those here are {', '.join(known)}")

    def path(self, key: str, value: object) -> pathlib.Path:
        """The one file that a value names, by itself or as a list of one."""
        if isinstance(value, list) and len(value) != 1:
            raise self.fault(
                key, f"a run reads one file here, and these are {len(value)}: `lizdrog import` makes one of them"
            )
        value = value[0] if isinstance(value, list) else value
        if not isinstance(value, str) or not value:
            raise self.fault(key, "the name of a file is asked for here")
        return self.folder / value

    def workers(self, key: str, value: object) -> int:
        """The number of threads of a run."""
        if not isinstance(value, int) or isinstance(value, bool) or not 1 <= value <= MOST_WORKERS:
            raise self.fault(key, f"a number from 1 to {MOST_WORKERS} is asked for here")
        return value

    def seconds(self, key: str, value: object) -> float | None:
        """How long a run may take."""
        if value is None:
            return None
        if isinstance(value, bool) or not isinstance(value, (int, float)) or value <= 0:
            raise self.fault(key, "a number of seconds above 0 is asked for here")
        return float(value)

    def corner(self, name: str, place: str, shared: dict, own: dict) -> Corner:
        """One corner: what is shared, with what the corner's own table overrides."""
        tables = [with_both(self, "", shared), with_both(self, place, own)]
        merged = {"spef": NO_SPEF, "workers": 1, "timeout": None, **tables[0], **tables[1]}

        def key(word: str) -> str:
            return f"{place}{word}" if word in tables[1] else word

        for word in DOCUMENTS:
            if word not in merged:
                raise self.fault(f"{place}{word}", "the key is missing")
        early, late, netlist, sdc = (self.path(key(it), merged[it]) for it in DOCUMENTS)
        spef = None if merged["spef"] == NO_SPEF else self.path(key("spef"), merged["spef"])
        workers = self.workers(key("workers"), merged["workers"])
        return Corner(name, early, late, netlist, sdc, spef, workers, self.seconds(key("timeout"), merged["timeout"]))

    def corners(self, tables: dict) -> tuple[Corner, ...]:
        """The corners in the order of the file; a project without the table is one corner by itself."""
        shared = {word: value for word, value in tables.items() if word in (*OF_A_CORNER, "netlist")}
        of_corners = tables.get("corners", {})
        if not isinstance(of_corners, dict) or not all(isinstance(it, dict) for it in of_corners.values()):
            raise self.fault("corners", "each corner is a table, [corners.NAME]")
        for name, own in of_corners.items():
            if not CORNER_NAME.fullmatch(name):
                raise self.fault(
                    f"corners.{name}",
                    "a corner's name has letters, digits, _, - and dots, 64 at most, and begins with none of - and .",
                )
            if name == ALL:
                raise self.fault(
                    f"corners.{name}", f"this name is for wires of all corners, in lines @{ALL} set_parasitics"
                )
            self.check_keys(f"corners.{name}.", own, OF_A_CORNER)
        if not of_corners:
            return (self.corner(re.sub(r"[^A-Za-z0-9_]", "_", self.file.stem), "", shared, {}),)
        return tuple(self.corner(name, f"corners.{name}.", shared, own) for name, own in of_corners.items())

    def slurm_options(self, table: object) -> tuple[str, ...]:
        """Words for sbatch beside our own."""
        if not isinstance(table, dict):
            raise self.fault("slurm", "this is a table, [slurm]")
        self.check_keys("slurm.", table, ("options",))
        options = table.get("options", [])
        if not isinstance(options, list) or not all(isinstance(it, str) for it in options):
            raise self.fault("slurm.options", "a list of words is asked for here")
        return tuple(options)


def with_both(reader: Reader, place: str, table: dict) -> dict:
    """A table with its `library` in the place of both `early` and `late`."""
    if "library" not in table:
        return table
    if "early" in table or "late" in table:
        raise reader.fault(f"{place}library", "this is both early and late: write either library, or early and late")
    return {**table, "early": table["library"], "late": table["library"]}


def read_project(name: str | os.PathLike) -> Project:
    """The project of a file, or an `InputFault` that names the key."""
    file = pathlib.Path(name)
    reader = Reader(file)
    tables = reader.tables()
    reader.check_keys("", tables, (*OF_A_PROJECT, *OF_OTHERS))
    if "journal" in tables and "ecos" not in tables:
        raise reader.fault(
            "journal",
            "corners write the journal of each from one list of ECOs, the key ecos: "
            "tools/convert_journal.py JOURNAL makes that list",
        )
    ecos = reader.path("ecos", tables["ecos"]) if "ecos" in tables else None
    results = reader.path("results", tables.get("results", f"{file.stem}.results"))
    project = Project(file, reader.corners(tables), ecos, results, reader.slurm_options(tables.get("slurm", {})))
    for corner in project.corners:
        for document in corner.documents():
            if not document.exists():
                raise InputFault(file, None, f"corner {corner.name}: there is no file {document}")
    return project
