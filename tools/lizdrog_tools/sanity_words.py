"""What is hardly meant in the documents of a run, as far as it is seen in some milliseconds.

It imports nothing that takes time: each call of `lizdrog run` asks it. tools/check_setup.py looks closer.
"""
import os

MOST_BYTES = 1 << 28
# Half as many nets with wires as there are instances: fewer is doubtful, but in a design of some gates alone.
LEAST_SHARE, FEW = 2, 20
LONGEST = 1024


def content(name: str) -> bytes:
    """The bytes of a plain file; nothing of what is none, or is too long to look at."""
    try:
        if not os.path.isfile(name) or os.path.getsize(name) > MOST_BYTES:
            return b""
        with open(name, "rb") as file:
            return file.read()
    except OSError:
        return b""


def word_after(text: bytes, word: bytes) -> bytes:
    """The name behind a word that begins a line; nothing where there is none."""
    at = text.find(word)
    while at >= 0:
        rest = text[at + len(word) : at + len(word) + LONGEST]
        if rest[:1].isspace() and not text[text.rfind(b"\n", 0, at) + 1 : at].strip():
            name = (rest.split(None, 1) or [b""])[0]
            for mark in (b"(", b";", b"#"):
                name = name.partition(mark)[0]
            return name
        at = text.find(word, at + 1)
    return b""


def clocks(sdc: bytes, name: str) -> list[str]:
    if b"create_clock" in sdc:
        return []
    return [f"{name} creates no clock: nothing is tested"]


def designs(sdc: bytes, netlist: bytes, name: str) -> list[str]:
    """Constraints that name another design than the netlist's."""
    if b"current_design" not in sdc:
        return []
    said, mine = word_after(sdc, b"current_design"), word_after(netlist, b"module").lstrip(b"\\")
    if not said or not mine or said == mine or said[:1] in b"[$":
        return []
    return [f"{name} is for the design {said.decode('latin-1')}, and the netlist is {mine.decode('latin-1')}"]


def wires(spef: bytes, netlist: bytes, name: str) -> list[str]:
    """Parasitics of few nets."""
    nets, instances = spef.count(b"*D_NET"), netlist.count(b");") - 1
    if instances < FEW or nets * LEAST_SHARE >= instances:
        return []
    return [f"{name} has {nets} nets, and the netlist {instances} instances: most nets are without wires"]


def doubts(documents: list[str]) -> list[str]:
    """Sentences about early, late, netlist, SDC and SPEF by their names."""
    _, _, netlist_name, sdc_name, spef_name = documents
    sdc, netlist = content(sdc_name), content(netlist_name)
    found = clocks(sdc, sdc_name) if os.path.isfile(sdc_name) else []
    if netlist:
        found += designs(sdc, netlist, sdc_name)
    if netlist and spef_name != "none" and os.path.isfile(spef_name):
        found += wires(content(spef_name), netlist, spef_name)
    return found
