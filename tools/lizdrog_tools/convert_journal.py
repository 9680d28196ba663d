"""Turns the ECOs of a journal into a script, or into Tcl for layout tools: convert_journal.py OUTPUT [--to script|tcl]
[--first N] [--last N]

OUTPUT is the output of a run, its journal alone, or a saved journal of several blocks. An ECO of several edits becomes
a group of the script. --first and --last give the numbers of the entries to take (default: all); entries have the
numbers that they have in the journal.

The Tcl has the words of OpenSTA's editing commands: replace_cell, make_instance, delete_instance, make_net, delete_net,
connect_pin, disconnect_pin, and for buffers insert_buffer NET INSTANCE NEW_NET CELL SINKS, which the head of the file
defines by the others; a tool with other words needs other definitions there. Parasitics are comments, since a layout
tool makes the wires itself. Edits that take each other back (a cell put in and taken out again) stay, as the journal
has them.
"""
import argparse
import re

from lizdrog_tools.files import TextFault, parsed, tool

COUNT = re.compile("[0-9]{1,9}")
HEAD = """# Edits of a Lizdrog journal, in the words of OpenSTA.
# Another tool: define these three for it, and replace_cell and the like.
proc pin_names {instance way} {
  set names {}
  foreach pin [get_pins $instance/*] {
    if {[get_property $pin direction] eq $way} { lappend names [get_full_name $pin] }
  }
  return $names
}
proc net_of_pin {pin} { return [get_full_name [get_nets -of_objects [get_pins $pin]]] }
proc insert_buffer {net instance new_net cell sinks} {
  make_net $new_net
  make_instance $instance $cell
  connect_pin $net [pin_names $instance input]
  connect_pin $new_net [pin_names $instance output]
  foreach sink $sinks {
    disconnect_pin $net $sink
    connect_pin $new_net $sink
  }
}
"""


def block_head(lines: list[str], at: int) -> tuple[int, int, int]:
    """The first number and the count of a block, and the line of its first entry."""
    words = lines[at].split(" ")
    if words[0] == "journal" and all(COUNT.fullmatch(it) for it in words[1:]):
        if len(words) == 3 and words[1] == "1":
            return 0, int(words[2]), at + 1
        if len(words) == 4 and words[1] == "2" and lines[at + 1:] and lines[at + 1].startswith("derates "):
            return int(words[2]), int(words[3]), at + 2
    said = f"this begins with no journal: {lines[at][:60]}" if at == 0 else "this begins no block of a journal"
    raise TextFault(at + 1, said)


def entry_at(lines: list[str], at: int, number: int) -> list[str]:
    """The edits of the entry that begins at a line."""
    words = lines[at].split(" ") if at < len(lines) else [""]
    if not (len(words) == 6 and words[:2] == ["entry", str(number)] and COUNT.fullmatch(words[5])):
        raise TextFault(at + 1, f"this is not the entry {number} of the journal")
    edits = lines[at + 1:at + 1 + int(words[5])]
    if len(edits) < int(words[5]) or not all(edits):
        raise TextFault(at + 1, f"the entry {number} has not all of its {words[5]} edits: the journal is cut short")
    return edits


def read_journal(text: str) -> dict[int, list[str]]:
    """The edits of each entry by its number, of one block after the other; an empty text has none."""
    lines, at, entries = text.split("\n"), 0, {}
    while text.strip() and (at == 0 or at < len(lines) and lines[at].startswith("journal ")):
        first, count, at = block_head(lines, at)
        for number in range(first + 1, first + count + 1):
            entries[number] = entry_at(lines, at, number)
            at += 1 + len(entries[number])
    rest = lines[at] if at < len(lines) else ""
    if rest and not rest.startswith(("session ", "final ")):
        raise TextFault(at + 1, f"neither a block of a journal nor the rows of a session begin here: {rest[:60]}")
    return entries


def as_script(entries):
    for number, edits in entries:
        yield f"# entry {number} of the journal"
        if len(edits) == 1:
            yield edits[0]
        else:
            yield from ("begin_eco", *edits, "commit_eco")


def braced(name):
    """A name as a word of Tcl."""
    return name if all(it.isalnum() or it in "_/" for it in name) else "{" + name + "}"


def tcl_pin(word):
    instance, _, pin = word.rpartition(":")
    return braced(f"{instance}/{pin}" if instance else pin)


def tcl_edit(edit):
    """The command of an edit."""
    name, *words = edit.split(" ")
    plain = {"repower_gate": "replace_cell", "insert_gate": "make_instance", "remove_gate": "delete_instance",
             "insert_net": "make_net", "remove_net": "delete_net"}
    if name in plain:
        return " ".join([plain[name], *map(braced, words)])
    if name == "connect_pin":
        return f"connect_pin {braced(words[1])} {tcl_pin(words[0])}"
    if name == "disconnect_pin":
        return f"disconnect_pin [net_of_pin {tcl_pin(words[0])}] {tcl_pin(words[0])}"
    if name == "insert_buffer":
        sinks = " ".join(map(tcl_pin, words[4:]))
        return f"insert_buffer {' '.join(map(braced, words[:4]))} {{{sinks}}}"
    return f"# {edit}"


def as_tcl(entries):
    yield HEAD
    for number, edits in entries:
        yield f"# entry {number} of the journal"
        yield from map(tcl_edit, edits)


@tool("convert_journal")
def main():
    parser = argparse.ArgumentParser(description=__doc__, formatter_class=argparse.RawDescriptionHelpFormatter)
    parser.add_argument("output")
    parser.add_argument("--to", choices=["script", "tcl"], default="script")
    parser.add_argument("--first", type=int, default=1)
    parser.add_argument("--last", type=int)
    given = parser.parse_args()
    if given.first < 1:
        parser.error("entries are counted from 1")
    entries = parsed(given.output, read_journal, may_be_empty=True)
    chosen = [(number, edits) for number, edits in entries.items() if given.first <= number
              and (given.last is None or number <= given.last)]
    for line in (as_tcl if given.to == "tcl" else as_script)(chosen):
        print(line)
