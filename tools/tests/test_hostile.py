"""The trials of hostile use: what they take for an answer, whether they find wrong programs, and short runs."""
import pathlib
import shutil
import sys
import tempfile
import unittest

import common

from lizdrog_dev import board_stress
from lizdrog_dev import damaged_documents
from lizdrog_dev import trials

TEXT = b"0123456789"
COMPILER = next((it for it in ("cc", "gcc", "clang") if shutil.which(it)), None)
ASKS_FOR_MEMORY = """#include <pthread.h>
#include <stdlib.h>
#include <unistd.h>
static volatile char *got[20];
static void take(int at) { got[at] = malloc(8); if (!got[at] && at != CARELESS) _exit(6); *got[at] = 1; }
static void *work(void *given) { for (int at = 5; at < 15; at++) take(at); return given; }
int main(void)
{
    pthread_t other;
    for (int at = 0; at < 5; at++)
        take(at);
    if (pthread_create(&other, 0, work, 0)) work(0); else pthread_join(other, 0);
    for (int at = 15; at < 20; at++)
        take(at);
    return write(1, "done\\n", 5) != 5;
}
"""
DOCUMENTS = {"early": TEXT, "sdc": TEXT, "spef": TEXT, "journal": b"entry 1\nentry 2\n", "script1": b"take\ntake"}
HEAD, LAST = b"journal 1 1\nentry 1 session 2 edits 1\nremove_net n\n", b"final 1 setup none 0.000 hold -1.500 -3.000\n"
ROWS = (
    b"session 1 rows 3\n1 0 slew 4.000\n2 0 path setup q slack 1.000 credit none from clk rise to c fall nodes 1\nq"
    b" rise 3.000\n3 1 at 2 c rise 1.000 c fall 2.000\n"
)
GOOD = HEAD + ROWS + b"session 2 rows 2\n1 1 accepted\n2 1 worst 1\nq 1.000\n" + LAST


def is_answer(status, out, err=b""):
    try:
        trials.check_answer(trials.Ran(status, out, err, 0), DOCUMENTS, 2, False)
    except trials.Deviates:
        return False
    return True


class Answers(unittest.TestCase):
    def test_outputs(self):
        self.assertTrue(is_answer(0, GOOD))
        self.assertTrue(
            is_answer(
                1,
                GOOD.replace(b"1 1 accepted", b"1 1 refused E11 a:Z b:A").replace(
                    b"session 2 edits", b"session 1 edits"
                ),
            )
        )
        for old, new in (
            (b"1 1 accepted", b"1 1 refused E5 n"),
            (b"rows 3", b"rows 2"),
            (b"nodes 1", b"nodes 2"),
            (b"worst 1", b"worst 2"),
            (b"at 2", b"at 1"),
            (b"3 1 at", b"3 2 at"),
            (b"1 0 slew", b"1 1 slew"),
            (b"4.000", b"4.0"),
            (b"final 1", b"final 0"),
            (b"edits 1", b"edits 2"),
            (b"session 2 edits", b"session 3 edits"),
            (b"accepted", b"N1"),
            (LAST, b""),
            (LAST, LAST + b"more\n"),
            (LAST, LAST[:-1]),
        ):
            self.assertIn(old, GOOD)
            self.assertFalse(is_answer(0, GOOD.replace(old, new)), new)
        several = GOOD.replace(b"2 0 path ", b"2 0 paths 1\npath ")
        self.assertTrue(is_answer(0, several))
        self.assertFalse(is_answer(0, several.replace(b"paths 1", b"paths 2")))
        self.assertFalse(is_answer(1, GOOD))
        self.assertFalse(is_answer(0, GOOD, b"a word"))

    def test_faults(self):
        for line in (
            b"early L10 10",
            b"sdc S6 0",
            b"spef P5 3",
            b"script1 C2 2",
            b"journal J5 0",
            b"journal J4 2 E3 x",
            b"design E11 a b",
            b"design E16 net n",
            b"design E17 pins x",
            b"design E3 c",
        ):
            self.assertTrue(is_answer(3, b"fault " + line + b"\n"), line)
        for line in (
            b"early L11 0",
            b"early L1 11",
            b"early V1 0",
            b"sdc S7 0",
            b"sdc S1",
            b"late L1 0",
            b"script1 C1 3",
            b"script1 C1 0",
            b"script2 C1 1",
            b"journal J4 3 E3 x",
            b"journal J4 1",
            b"design E11 a",
            b"design E16 n",
            b"design E18 x",
            b"design N2",
            b"sdc N1 0",
            b"sdc S1 0\nmore",
        ):
            self.assertFalse(is_answer(3, b"fault " + line + b"\n"), line)

    def test_other_statuses(self):
        for status, out in ((2, b"fault words\n"), (4, b"fault shelf a b too_long\n"), (5, b"jour"), (6, b"")):
            self.assertTrue(is_answer(status, out), out)
        for status, out in (
            (2, b""),
            (4, b"fault shelf a gone\n"),
            (6, b"j"),
            (7, b""),
            (-11, b""),
            (None, b""),
            (127, b""),
            (70, b""),
        ):
            self.assertFalse(is_answer(status, out), status)


class Damages(unittest.TestCase):
    def test_same_seed_gives_same_documents(self):
        designs = trials.gate_designs()
        first, again, other = (
            [damaged_documents.Trial(designs, seed, it).files for it in range(40)] for seed in (1, 1, 2)
        )
        self.assertEqual(first, again)
        self.assertNotEqual(first, other)

    def test_each_document_is_damaged(self):
        designs = damaged_documents.all_designs(1)
        tried = {
            (it.design.name, it.role)
            for it in (damaged_documents.Trial(designs, 1, number) for number in range(8 * len(designs)))
        }
        self.assertEqual(tried, {(it.name, role) for it in designs for role, _ in it.roles()})


class Boards(unittest.TestCase):
    """Histories of two seats: three takes, two publications, one that came too late."""

    def history(self):
        marks = [0]
        for seat, number in ((1, 0), (2, 0)):
            marks.append(board_stress.mark_after(marks[-1], seat, number))
        calls = [
            ("take", 1, 0, 1, 0, 0, 0),
            ("take", 2, 2, 3, 0, 0, 0),
            ("published", 1, 4, 6, 0, 1, marks[1]),
            ("moved", 2, 5, 7, 0, 1, marks[1]),
            ("published", 2, 8, 9, 1, 2, marks[2]),
            ("take", 1, 10, 11, 2, 2, marks[2]),
        ]
        return [board_stress.Call(*it) for it in calls], [
            board_stress.Entry(0, 0, 0, 0),
            board_stress.Entry(1, 1, 0, marks[1]),
            board_stress.Entry(2, 2, 0, marks[2]),
        ]

    def amiss(self, at=None, entry=None, **how):
        calls, entries = self.history()
        if at is not None:
            calls[at] = calls[at]._replace(**how)
        if entry is not None:
            entries[entry] = entries[entry]._replace(**how)
        try:
            return not board_stress.check(calls, entries, 6)
        except board_stress.Amiss:
            return True

    def test_histories(self):
        kinds, overlaps, seats = board_stress.check(*self.history(), 6)
        self.assertEqual((kinds, overlaps, seats), ({"take": 3, "published": 2, "moved": 1}, 2, 2))
        for how in (
            {"at": 5, "count": 1},
            {"at": 5, "mark": 1},
            {"at": 4, "base": 0},
            {"at": 4, "count": 1},
            {"at": 3, "base": 1},
            {"at": 2, "seat": 2},
            {"at": 0, "ended": 5},
            {"entry": 1, "seat": 2},
            {"entry": 1, "number": 1},
            {"entry": 2, "count": 3},
            {"entry": 2, "mark": 5},
        ):
            self.assertTrue(self.amiss(**how), how)
        calls, entries = self.history()
        early = [*calls[:5], calls[5]._replace(count=1, base=1, mark=entries[1].mark)]
        self.assertRaises(board_stress.Amiss, board_stress.check, early, entries, 6)
        self.assertRaises(board_stress.Amiss, board_stress.check, calls, [*entries, entries[2]], 6)
        self.assertRaises(board_stress.Amiss, board_stress.check, calls, entries[:2], 6)


class Trials(unittest.TestCase):
    def setUp(self):
        self.folder = pathlib.Path(tempfile.mkdtemp())
        self.addCleanup(shutil.rmtree, self.folder)

    def trial(self, name, *words):
        return common.run(sys.executable, common.TOP / "bench" / f"{name}.py", *words, cwd=self.folder)

    def fake(self, line):
        program = self.folder / "fake"
        program.write_text(f"#!/bin/sh\n{line}\n")
        program.chmod(0o755)
        return program

    def test_wrong_programs_are_found(self):
        for line in ("kill -SEGV $$", "echo fault early L1 99999; exit 3"):
            status, out, _ = self.trial(
                "damaged_documents", "--program", self.fake(line), "--count", "1", "--keep", "kept"
            )
            self.assertEqual(status, 1, out)
            self.assertIn("again: bench/damaged_documents.py --seed 1 --only 0", out)
            self.assertTrue((self.folder / "kept" / "why").exists())
        self.assertEqual(self.trial("real_devices", "--program", self.fake("exit 6"), "--short")[0], 1)

    def asking(self, careless):
        """A program that asks for memory twenty times, behind a thread as well, and takes no notice of one refusal."""
        source, program = self.folder / "asking.c", self.folder / f"asking{careless}"
        source.write_text(ASKS_FOR_MEMORY)
        self.assertEqual(
            common.run(COMPILER, f"-DCARELESS={careless}", "-fno-builtin", "-pthread", "-o", program, source)[::2],
            (0, ""),
        )
        return program

    @unittest.skipUnless(COMPILER, "no C compiler stands here, which refusals of memory need")
    def test_refusals(self):
        status, out, err = self.trial("refused_memory", "--program", self.asking(-1), "--only", "row-1", "--fresh", "2")
        self.assertEqual((status, err), (0, ""), out)
        row = next(it.split() for it in out.split("\n") if it.split()[:1] == ["row-1"])
        calls, threads, fresh, missed, refused, passed, *_ = map(int, row[1:])
        self.assertGreaterEqual(calls, 20)
        self.assertEqual((threads, fresh, missed, refused + passed), (1, 4, 2, calls + 2), out)

    @unittest.skipUnless(COMPILER, "no C compiler stands here, which refusals of memory need")
    def test_a_careless_program_is_found(self):
        for careless in (0, 9, 19):
            status, out, _ = self.trial("refused_memory", "--program", self.asking(careless), "--only", "row-1")
            self.assertEqual(status, 1, out)
            self.assertRegex(out, "row-1, memory [0-9]+: signal SIGSEGV")

    @common.needs_program
    def test_damaged_documents(self):
        status, out, err = self.trial("damaged_documents", "--program", common.PROGRAM, "--count", "50")
        self.assertEqual((status, err), (0, ""), out)
        self.assertIn("50 damaged documents, each with a documented answer", out)

    @common.needs_program
    def test_real_devices(self):
        status, out, err = self.trial("real_devices", "--program", common.PROGRAM, "--short")
        self.assertEqual((status, err), (0, ""), out)
        self.assertIn("each as docs/COMMANDS.md says", out)


if __name__ == "__main__":
    unittest.main()
