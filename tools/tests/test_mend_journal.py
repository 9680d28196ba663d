"""tools/mend_journal.py: which journals are whole, which are torn at their end, and what is cut."""
import fcntl
import pathlib
import shutil
import tempfile
import unittest

import common
from lizdrog_tools.mend_journal import Blocks

DERATES = "derates 1000000 1000000 1000000 1000000\n"
BATCH = (
    "journal 2 0 2\n"
    + DERATES
    + "entry 1 session 1 edits 1\nrepower_gate g1 BUF_X4\nentry 2 session 2 edits 2\ninsert_net n9\nremove_net n9\n"
)
LIVE = (
    "journal 2 2 1\n"
    + DERATES
    + "entry 3 session 16 edits 2\nset_parasitics n c #1 14000 r a:Z #1 100 r #1 b:A 5\nrepower_gate g1 BUF_X16\n"
)
OLD = "journal 1 1\nentry 1 session 1 edits 1\nremove_net n\n"


class Mended(unittest.TestCase):
    def setUp(self):
        self.folder = pathlib.Path(tempfile.mkdtemp())
        self.addCleanup(shutil.rmtree, self.folder)
        self.file = self.folder / "saved.journal"

    def mend(self, text, *words):
        self.file.write_bytes(text if isinstance(text, bytes) else text.encode())
        return common.tool("mend_journal", "saved.journal", *words, cwd=self.folder)

    def test_whole(self):
        for text, said in (
            ("", "0 blocks with 0 entries"),
            (OLD, "1 block with 1 entries"),
            (BATCH + LIVE, "2 blocks with 3 entries"),
            ("journal 2 0 0\n" + DERATES + BATCH, "2 blocks with 2 entries"),
        ):
            self.assertEqual(self.mend(text), (0, f"saved.journal: whole: {said}\n", ""))
            self.assertEqual(self.mend(text, "--cut")[0], 0)
            self.assertEqual((self.file.read_text(), list(self.folder.iterdir())), (text, [self.file]))

    def test_each_part_of_a_block_is_torn(self):
        for block, before in ((LIVE, BATCH), (BATCH, ""), (OLD, "")):
            for end in range(1, len(block)):
                found = Blocks(before + block[:end])
                self.assertEqual((found.is_torn, found.fault, found.whole), (True, None, len(before)), block[:end])

    def test_it_is_told_and_cut_only_where_that_is_asked(self):
        torn = BATCH + LIVE[:-2]
        status, out, err = self.mend(torn)
        self.assertEqual((status, err), (1, ""))
        self.assertIn(
            f"saved.journal:8: torn: behind 1 block with 2 entries a part of a block begins at byte {len(BATCH)}, of "
            f"{len(LIVE) - 2} bytes\n",
            out,
        )
        self.assertEqual((self.file.read_text(), list(self.folder.iterdir())), (torn, [self.file]))
        status, out, err = self.mend(torn, "--cut")
        self.assertEqual((status, err), (0, ""))
        self.assertIn("saved.journal.torn has the file as it was", out)
        self.assertEqual((self.file.read_text(), (self.folder / "saved.journal.torn").read_text()), (BATCH, torn))
        self.assertEqual(self.mend(BATCH + "jour", "--cut")[0], 0)
        self.assertEqual((self.folder / "saved.journal.torn").read_text(), torn)
        self.assertEqual((self.folder / "saved.journal.torn1").read_text(), BATCH + "jour")

    def test_a_fault_elsewhere_is_never_cut(self):
        for text, line in (
            (BATCH[:-5] + LIVE, 8),
            (BATCH + "journal 2 2 1\n" + LIVE, 9),
            (BATCH + BATCH, 8),
            (LIVE, 1),
            (BATCH + "session 1 rows 0\n", 8),
            (BATCH + LIVE.replace("entry 3", "entry 4"), 10),
            (BATCH + "final 2", 8),
            (BATCH.replace("derates 1", "derats 1"), 2),
            (BATCH + "\n" + LIVE, 8),
            (BATCH + LIVE.replace("journal 2 2", "journal 1"), 8),
        ):
            status, out, err = self.mend(text, "--cut")
            self.assertEqual((status, out), (2, ""), text)
            self.assertIn(f"mend_journal: saved.journal:{line}: ", err)
            self.assertIn("nothing is cut", err)
            self.assertEqual((self.file.read_text(), list(self.folder.iterdir())), (text, [self.file]))

    def test_bytes_that_are_no_text(self):
        self.assertEqual(self.mend(BATCH.encode() + b"\xff\x00", "--cut")[0], 2)

    def test_a_journal_that_a_server_holds(self):
        self.file.write_text(BATCH + "jour")
        with open(self.file, "a", encoding="ascii") as held:
            fcntl.flock(held, fcntl.LOCK_EX)
            status, _, err = common.tool("mend_journal", "saved.journal", "--cut", cwd=self.folder)
        self.assertEqual((status, self.file.read_text()), (2, BATCH + "jour"))
        self.assertIn("a server that runs holds it", err)

    def test_none(self):
        status, _, err = common.tool("mend_journal", "absent", cwd=self.folder)
        self.assertEqual((status, err), (2, "mend_journal: absent: No such file or directory\n"))


if __name__ == "__main__":
    unittest.main()
