"""Runs of 4,000 gates with 400 edits write the same for each number of workers, and of processors."""
import os
import pathlib
import re
import shutil
import tempfile
import unittest

import common
from lizdrog_dev import design

CELLS, EDITS, SESSIONS = 4000, 400, 4
QUESTIONS = ["report_wns setup", "report_tns hold", "report_worst setup 20", "report_worst hold 20"]


def with_questions(ecos, each):
    """The lines of a script: these ECOs, and questions behind so many of them."""
    parts = [ecos[at : at + each] for at in range(0, len(ecos), each)]
    return [line for part in parts for line in [*part, *QUESTIONS]]


def of_session(output, number):
    """The ECOs that a session published, and its rows without the numbers of versions: these hang on the order of the
    sessions."""
    ecos = re.findall(rf"(?m)^entry \d+ session {number} edits 1\n(.*)", output)
    rows = re.search(rf"(?ms)^session {number} rows \d+\n(.*?)^(?:session|final) ", output)[1]
    return ecos, re.sub(r"(?m)^(\d+) \d+ ", r"\1 ", rows)


def on_one_processor():
    os.sched_setaffinity(0, {min(os.sched_getaffinity(0))})


@common.needs_program
class Workers(unittest.TestCase):
    @classmethod
    def setUpClass(cls):
        cls.folder = pathlib.Path(tempfile.mkdtemp())
        cls.addClassCleanup(shutil.rmtree, cls.folder)
        cls.ecos = design.changes(design.write(cls.folder, CELLS), EDITS)

    def run_words(self, *words, **how):
        """What a run writes, which nothing refuses."""
        status, out, err = common.run(common.PROGRAM, *words, cwd=self.folder, **how)
        self.assertEqual((status, err), (0, ""))
        return out

    def outputs(self, scripts, numbers):
        """What runs of these scripts write, one with each of these numbers of workers."""
        names = [f"{number}.eco" for number, _ in enumerate(scripts)]
        for name, lines in zip(names, scripts):
            (self.folder / name).write_text("".join(line + "\n" for line in lines))
        words = ["run", "bench.lib", "bench.lib", "bench.v", "bench.sdc", "none"]
        return [self.run_words(*words, str(workers), *names) for workers in numbers]

    def test_a_generated_run_gives_one_line(self):
        words = ["generate", "7", str(CELLS), str(EDITS)]
        line = self.run_words(*words)
        self.assertRegex(line, r"^generated 4000 400 accepted 400 setup .* hold .*\n$")
        self.assertEqual(self.run_words(*words), line)
        self.assertEqual(self.run_words(*words, preexec_fn=on_one_processor), line)

    def test_one_session_writes_the_same_bytes(self):
        first, *others = self.outputs([with_questions(self.ecos, 20)], [1, 4, 4, 32])
        self.assertTrue(first.startswith(f"journal 1 {EDITS}\n"))
        self.assertEqual(first.count(" worst 20\n"), 2 * EDITS // 20)
        for output in others:
            self.assertEqual(output, first)

    def test_four_sessions_publish_the_same(self):
        """Each output has the same ECOs of each session, its rows, and the totals."""
        first, *others = self.outputs([self.ecos[number::SESSIONS] for number in range(SESSIONS)], [1, 4])
        self.assertEqual(first.count(" accepted\n"), EDITS)
        for number in range(1, SESSIONS + 1):
            self.assertEqual(len(of_session(first, number)[0]), EDITS // SESSIONS)
        for output in others:
            self.assertEqual(output[output.rindex("\nfinal ") :], first[first.rindex("\nfinal ") :])
            for number in range(1, SESSIONS + 1):
                self.assertEqual(of_session(output, number), of_session(first, number))


if __name__ == "__main__":
    unittest.main()
