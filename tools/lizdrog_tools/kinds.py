"""What a text looks like, by how it begins: a file that is in the place of another is told as such."""
import re

LOOKED_AT = 100000
COMMENTS = re.compile(r"^\s*[#`][^\n]*|//[^\n]*|/\*.*?\*/|\(\*.*?\*\)", re.S | re.M)
# How a text begins, what it is then, and the places that such a text may have.
KINDS = (
    (re.compile(r"\s*library\b"), "a library (Liberty)", ("early", "late")),
    (re.compile(r"\s*module\b"), "a netlist (Verilog)", ("netlist",)),
    (re.compile(r"\s*\*SPEF"), "parasitics (SPEF)", ("spef",)),
    (re.compile(r"\s*(create_clock|set_units|set_input|set_output|set sdc_version)"), "constraints (SDC)", ("sdc",)),
    (re.compile(r"\s*(report_|repower_|insert_|begin_eco|take\b|await\b)"), "a script", ("script",)),
    (re.compile(r"journal [0-9]"), "a journal, or an output", ("journal", "script")),
)


def misplaced(text: str, role: str) -> str | None:
    """What a text looks like where it cannot have this role, and None where it may."""
    begin = COMMENTS.sub("", text[:LOOKED_AT])
    for begins, kind, roles in KINDS:
        if begins.match(begin) and role not in roles:
            return kind
    return None
