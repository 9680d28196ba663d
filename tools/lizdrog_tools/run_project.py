"""The words of `lizdrog run FILE.toml [WORKERS] SCRIPT..`, and of `live`: the documents that a project file names, in
their order."""
import os
import tomllib

from lizdrog_tools.command_line import ON_DESIGN, without_journal
from lizdrog_tools.files import InputFault, read_text

DOCUMENTS = ("early", "late", "netlist", "sdc", "spef")
MOST_DIGITS = 2


def is_project(words: list[str]) -> bool:
    """Whether a run names a project file in the place of its documents."""
    plain, _ = without_journal(words)
    return len(plain) > 1 and plain[0] in ON_DESIGN and plain[1].endswith(".toml")


def document(name: str, table: dict, key: str) -> str:
    """The one file of a key, from the folder of the project file."""
    value = table.get(key)
    value = value[0] if isinstance(value, list) and len(value) == 1 else value
    if key == "spef" and value in (None, "none"):
        return "none"
    if isinstance(value, (list, dict)):
        raise InputFault(
            name,
            None,
            f"{key} is no single file: `lizdrog import {name}` makes a folder with one of each, and a project file "
            "to run",
        )
    if not isinstance(value, str):
        raise InputFault(name, None, f"the key {key} is missing")
    return os.path.join(os.path.dirname(name), value)


def read_documents(name: str) -> tuple[list[str], str]:
    """The five documents of a project file, and the number of workers."""
    try:
        table = tomllib.loads(read_text(name).encode("latin-1").decode())
    except (tomllib.TOMLDecodeError, UnicodeDecodeError) as why:
        raise InputFault(name, None, f"this is no TOML: {why}") from why
    both = {"early": table["library"], "late": table["library"]} if "library" in table else {}
    return [document(name, {**both, **table}, key) for key in DOCUMENTS], str(table.get("workers", 1))


def expanded(words: list[str]) -> list[str]:
    """The words of a run with its documents in the place of the project file; a word of one or two digits after it is
    WORKERS."""
    plain, journal = without_journal(words)
    documents, workers = read_documents(plain[1])
    rest = plain[2:]
    if rest and rest[0].isdecimal() and len(rest[0]) <= MOST_DIGITS:
        workers, rest = rest[0], rest[1:]
    return [plain[0], *(["--journal", journal] if journal is not None else []), *documents, workers, *rest]
