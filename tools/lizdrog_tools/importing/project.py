"""The project file: a TOML that names the documents of a design by what they are."""
import dataclasses
import os
import pathlib
import tomllib
from typing import Any

from lizdrog_tools.files import InputFault, read_text
from lizdrog_tools.kinds import misplaced

LISTS = ("early", "late", "netlist", "sdc", "accept", "keep")
# Keys of the same file that `corners` reads and an import does without.
OF_CORNERS = ("corners", "ecos", "results", "slurm", "timeout")
KNOWN = {*LISTS, "library", "top", "spef", "prefer", "output", "journal", "workers", *OF_CORNERS}


@dataclasses.dataclass(frozen=True, slots=True)
class SpefFile:
    """A file of parasitics, with the instance of the block that it belongs to; none for the whole design."""

    file: str
    instance: str | None = None


@dataclasses.dataclass(slots=True)
class Project:
    """What a designer has. Names of files are relative to the folder of the project file."""

    file: str
    folder: pathlib.Path
    early: list[str]
    late: list[str]
    netlist: list[str]
    sdc: list[str]
    spef: list[SpefFile]
    top: str | None = None
    accept: list[str] = dataclasses.field(default_factory=list)
    keep: list[str] = dataclasses.field(default_factory=list)
    prefer: dict[str, str] = dataclasses.field(default_factory=dict)
    output: str | None = None

    def path(self, name: str) -> pathlib.Path:
        return self.folder / name


def fault(file: str, message: str) -> InputFault:
    return InputFault(file, None, message)


def read_as(name: str, key: str, role: str, *, may_be_empty: bool = False) -> str:
    """The text of a file that the project names by a key; one that looks like a text of another kind is told."""
    text = read_text(name, may_be_empty=may_be_empty)
    kind = misplaced(text, role)
    if kind:
        raise fault(name, f"the file looks like {kind}, and the project names it as {key}")
    return text


def strings(file: str, table: dict[str, Any], key: str) -> list[str]:
    """A list of texts; one text by itself counts as a list of one."""
    value = table.get(key, [])
    value = [value] if isinstance(value, str) else value
    if not isinstance(value, list) or not all(isinstance(it, str) for it in value):
        raise fault(file, f"{key} is a text or a list of texts")
    return value


def spef_files(file: str, value: Any) -> list[SpefFile]:
    """The word none, a name, a list of names, or tables with a file and the instance of its block."""
    if value in (None, "none"):
        return []
    found = []
    for item in value if isinstance(value, list) else [value]:
        if isinstance(item, str):
            found.append(SpefFile(item))
        elif isinstance(item, dict) and isinstance(item.get("file"), str) and set(item) <= {"file", "instance"}:
            found.append(SpefFile(item["file"], item.get("instance")))
        else:
            raise fault(file, 'spef is a list of names or of { file = "block.spef", instance = "u1" }')
    return found


def read_project(name: str) -> Project:
    """The project of a file; what is missing or unknown in it is told."""
    try:
        table = tomllib.loads(read_text(name).encode("latin-1").decode())
    except (tomllib.TOMLDecodeError, UnicodeDecodeError) as why:
        raise fault(name, f"this is no TOML: {why}") from why
    unknown = sorted(set(table) - KNOWN)
    if unknown:
        raise fault(name, f"there is no such key: {', '.join(unknown)}; the keys are {', '.join(sorted(KNOWN))}")
    lists = {key: strings(name, table, key) for key in LISTS}
    both = strings(name, table, "library")
    early, late = lists["early"] or both, lists["late"] or both
    if both and (lists["early"] or lists["late"]):
        raise fault(name, "library gives both early and late; write either library, or early and late")
    for key, files in (("early", early), ("late", late), ("netlist", lists["netlist"])):
        if not files:
            raise fault(
                name,
                f"the key {key} is missing" + (" (or library, for both early and late)" if key != "netlist" else ""),
            )
    prefer = table.get("prefer", {})
    if not isinstance(prefer, dict) or not all(isinstance(it, str) for it in prefer.values()):
        raise fault(name, 'prefer is a table from a cell to a file: prefer = { NAND2X1 = "a.lib" }')
    for key in ("top", "output"):
        if not isinstance(table.get(key, ""), str):
            raise fault(name, f"{key} is a text")
    return Project(
        name,
        pathlib.Path(os.path.dirname(name) or "."),
        early,
        late,
        lists["netlist"],
        lists["sdc"],
        spef_files(name, table.get("spef")),
        table.get("top"),
        lists["accept"],
        lists["keep"],
        prefer,
        table.get("output"),
    )
