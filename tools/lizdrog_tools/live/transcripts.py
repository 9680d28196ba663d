"""What each session asked and was told, kept in a folder in the form of scripts and of the output of a run.

`session1.eco` has the commands of session 1 that were answered, wrong lines left out; `output` has the journal, the
rows and the last line, and `before.journal` what was saved before. So tools/check_sessions.py can check them.
"""
import os
import pathlib
import shlex
import shutil

from lizdrog_tools.live.replies import Reply
from lizdrog_tools.live.seats import Item


def head_of(journal: str | None, first: int, count: int) -> str:
    """The head of a block with so many entries behind the saved ones, with the derates of the journal's first block."""
    derates = "derates 1000000 1000000 1000000 1000000"
    if not journal:
        return f"journal 1 {count}\n"
    with open(journal, encoding="latin-1") as file:
        derates = next((it.rstrip("\n") for it in file if it.startswith("derates ")), derates)
    return f"journal 2 {first} {count}\n{derates}\n"


class Transcripts:
    """A folder with what each session asked and was told."""

    def __init__(self, folder: str, count: int, journal: str | None):
        self.folder, self.journal, self.rows = pathlib.Path(folder), journal, [0] * count
        self.folder.mkdir(parents=True, exist_ok=True)
        self.scripts = [open(self.folder / f"session{it}.eco", "wb") for it in range(1, count + 1)]
        self.told = [open(self.folder / f"session{it}.rows", "wb") for it in range(1, count + 1)]
        if journal and os.path.isfile(journal):
            shutil.copy(journal, self.folder / "before.journal")

    def keep(self, number: int, item: Item, reply: Reply) -> None:
        """A row with its command."""
        self.rows[number - 1] += 1
        self.scripts[number - 1].write(b"".join(it.rstrip(b"\n") + b"\n" for it in item.lines))
        self.told[number - 1].write(reply.data)

    def end(self, first: int, entries: list[dict], final: str) -> None:
        """Writes the whole in the form of an output."""
        for file in [*self.scripts, *self.told]:
            file.close()
        with open(self.folder / "output", "w", encoding="latin-1", newline="\n") as out:
            out.write(head_of(self.journal, first, len(entries)))
            for it in entries:
                out.write(f"entry {it['number']} session {it['session']} edits {len(it['edits'])}\n")
                out.writelines(f"{edit}\n" for edit in it["edits"])
            for number, rows in enumerate(self.rows, 1):
                out.write(f"session {number} rows {rows}\n")
                out.write((self.folder / f"session{number}.rows").read_text(encoding="latin-1"))
            out.write(final)

    def check(self, documents: list[str], tool: str, program: str | None) -> str:
        """The command that checks them, by the program that was named."""
        named = ["--program", program] if program else []
        journal = ["--journal", str(self.folder / "before.journal")] if self.journal else []
        scripts = [os.fspath(self.folder / f"session{it}.eco") for it in range(1, len(self.rows) + 1)]
        return shlex.join([tool, *named, str(self.folder / "output"), "run", *journal, *documents, *scripts])
