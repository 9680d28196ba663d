"""The documents that a server names, read here where they are: for what stands beside pins, for completion, and for
`undo`.
"""
import os
import threading

from lizdrog_tools import convert_journal
from lizdrog_tools.files import InputFault, TextFault, read_text
from lizdrog_tools.liberty import read_library
from lizdrog_tools.live.completion import Names
from lizdrog_tools.live.design import Design
from lizdrog_tools.mend_journal import Blocks
from lizdrog_tools.read_answers import Edited
from lizdrog_tools.spef import read_spef
from lizdrog_tools.verilog import read_netlist


def saved_entries(journal: str | None, first: int) -> dict[int, list[str]]:
    """The entries that were saved before the server began."""
    if not first:
        return {}
    text = read_text(journal, may_be_empty=True)
    blocks = Blocks(text)
    entries = convert_journal.read_journal(text[: blocks.whole])
    return {it: entries[it] for it in range(1, first + 1)}


class Documents:
    """A design that is read beside the prompt; `why` says what is not there."""

    def __init__(self, documents: list[str], journal: str | None, first: int):
        self.documents, self.journal, self.first, self.why = documents, journal, first, ""
        self.design, self.edited, self.libraries, self.names = None, None, [], None
        self.names_at = -1
        self.entries: dict[int, list[str]] = {}
        self.thread = threading.Thread(target=self.read, daemon=True)
        self.thread.start()

    def read(self) -> None:
        """Reads them; what cannot be read is told where it is needed."""
        early, late, netlist, _, spef = self.documents
        try:
            libraries = [read_library(it) for it in dict.fromkeys([late, early])]
            text = read_netlist(netlist)
            design = Design(text, libraries[0], None if spef == "none" else read_spef(spef))
            self.edited, self.entries = Edited(text, libraries[0], []), saved_entries(self.journal, self.first)
            self.advance(design)
            self.libraries, self.design = [it.cells for it in libraries], design
        except (InputFault, TextFault, LookupError, ValueError, ArithmeticError) as why:
            self.why = f"{why}"
        except OSError as why:
            self.why = f"{why.filename} cannot be read here: {os.strerror(why.errno or 0)}"

    def wait(self) -> bool:
        """Whether they are there, once they are read."""
        self.thread.join()
        return self.design is not None

    def take(self, entries: list[dict]) -> None:
        """Takes the ECOs that a server tells, in order."""
        for it in entries:
            if it:
                self.entries[it["number"]] = it["edits"]
        try:
            if self.wait():
                self.advance(self.design)
        except TextFault as why:
            self.why, self.design, self.edited = str(why), None, None

    def advance(self, design: Design) -> None:
        """Makes the ECOs that are known."""
        while design.number + 1 in self.entries:
            number = design.number + 1
            design.take(number, self.entries[number])
            self.edited.ecos.append(self.entries[number])

    @property
    def is_read(self) -> bool:
        """Whether no more is to be read."""
        return not self.thread.is_alive()

    def names_now(self) -> Names | None:
        """The names of the newest design that is known, once they are read; none while they are not."""
        if not self.is_read or self.design is None:
            return None
        if self.names_at != self.design.number:
            self.names, self.names_at = Names(self.design, self.libraries), self.design.number
        return self.names

    def beside(self, number: int) -> Edited | None:
        """What tells of the pins of a design; none where its ECOs are not known."""
        return self.edited if self.wait() and self.design.number >= number and self.edited.number <= number else None
