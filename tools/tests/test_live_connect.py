"""`lizdrog connect`: a script at a server, `undo` and `keep`, objects for programs, and a person at a terminal."""
import json
import os
import pathlib
import pty
import re
import select
import shutil
import signal
import subprocess
import sys
import tempfile
import time
import unittest

import common
from live_serving import SECONDS, Serving, take_signals

EXAMPLE = common.TOP / "examples" / "two-engineers"
WORDS = ["early.lib", "late.lib", "design.v", "design.sdc", "none", "1"]
HAS_TOOLKIT = (
    subprocess.run([sys.executable, "-c", "import prompt_toolkit"], capture_output=True, check=False).returncode == 0
)


@common.needs_program
class Connected(unittest.TestCase):
    def setUp(self):
        self.folder = pathlib.Path(tempfile.mkdtemp())
        self.addCleanup(shutil.rmtree, self.folder)
        for name in WORDS[:4]:
            shutil.copy(EXAMPLE / name, self.folder)

    def serve(self, *options, **how):
        serving = Serving(self.folder, WORDS, *options, **how)
        self.addCleanup(serving.close)
        return serving

    def connect(self, serving, text, *words, name="ann"):
        """What a script hears: status, output, errors."""
        ran = subprocess.run(
            [sys.executable, common.TOOLS / "connect_live.py", serving.address(), "--name", name, *words],
            cwd=self.folder,
            input=text,
            capture_output=True,
            text=True,
            check=False,
            timeout=SECONDS,
        )
        return ran.returncode, ran.stdout, ran.stderr


class Scripts(Connected):
    """Numbers are those of examples/two-engineers/README.md."""

    def test_answers_with_their_questions(self):
        serving = self.serve()
        script = (
            "# a comment\n\nreport_endpoint o setup\nbegin_eco\nrepower_gate g3 BUF_X1\ncommit_eco\n"
            "report_worst setup 1\nreport_path o setup\n"
        )
        status, out, err = self.connect(serving, script)
        self.assertEqual((status, err), (0, ""))
        self.assertIn(
            "report_endpoint o setup -> -2.500 ps (design 0)\nbegin_eco (1 edits) -> accepted (design 1)\n"
            "report_worst setup 1 -> 1 endpoints (design 1)\n"
            "  -1.000 ps  r2:D\nreport_path o setup -> slack 2.000 ps, credit 0.000 ps, from clk rise to clk rise "
            "(design 1)\n",
            out,
        )
        self.assertRegex(out, r"(?m)^ +58\.000 +10\.000 rise g3:Z +BUF_X1  net o, 1 sink$")

    def test_errors_name_their_line(self):
        serving = self.serve()
        status, out, _ = self.connect(
            serving,
            "take\nrubbish\nbegin_eco\nrepower_gate g3 BUF_X1\nreport_wns setup\ncommit_eco\nreport_wns seutp\n"
            "repower_gate g3 ABSENT\n",
        )
        self.assertEqual(status, 1)
        self.assertEqual(
            [it for it in out.split("\n") if it.startswith("error")],
            [
                "error C1: `rubbish`",
                "error C1: line 3 of the group, `report_wns setup`: all of it is given up",
                "error C1: `report_wns seutp`",
            ],
        )
        self.assertIn("  there is no command rubbish", out)
        self.assertIn("  report_wns takes setup or hold", out)
        self.assertIn("repower_gate g3 ABSENT -> refused E3 ABSENT: the cell is not in both libraries", out)

    def test_lines_of_one_who_comes_again(self):
        """The places of errors are those of this client's lines, though its session has read others before."""
        serving = self.serve()
        self.connect(serving, "take\ntake\ntake\n")
        _, out, _ = self.connect(serving, "take\nbegin_eco\nremove_net n1\nrubbish\ncommit_eco\n")
        self.assertIn("take -> taken (design 0)\nerror C1: line 3 of the group, `rubbish`", out)

    def test_a_group_without_its_end_is_not_sent(self):
        serving = self.serve()
        status, out, _ = self.connect(serving, "begin_eco\nrepower_gate g3 BUF_X1\n")
        self.assertEqual((status, out), (1, "  `begin_eco` has no end: it was not sent\n"))
        self.assertEqual(self.connect(serving, "journal\n")[:2], (0, ""))

    def test_objects(self):
        serving = self.serve()
        status, out, err = self.connect(
            serving,
            "report_endpoint o setup\nrubbish\nbegin_eco\nrubbish\ncommit_eco\nrepower_gate g3 BUF_X1\n"
            "report_path o setup\nreport_endpoint q7 setup\n"
            "journal\nwho\n",
            "--json",
        )
        self.assertEqual((status, err), (1, ""))
        found = [json.loads(it) for it in out.splitlines()]
        self.assertEqual(
            found[0],
            {
                "command": 1,
                "design": 0,
                "question": ["report_endpoint o setup"],
                "answer": "endpoint",
                "time": "-2.500",
            },
        )
        self.assertEqual(found[1], {"question": ["rubbish"], "error": "C1", "line": 1, "text": "rubbish"})
        self.assertEqual(
            found[2], {"question": ["begin_eco", "rubbish", "commit_eco"], "error": "C1", "line": 2, "text": "rubbish"}
        )
        self.assertEqual((found[3]["answer"], found[3]["design"]), ("accepted", 1))
        self.assertEqual((found[4]["slack"], found[4]["path"][-2]["cell"]), ("2.000", "BUF_X1"))
        self.assertEqual((found[5]["answer"], found[5]["code"], found[5]["names"]), ("no", "Q1", ["q7"]))
        self.assertEqual(
            found[6],
            {"saved": 0, "journal": [{"number": 1, "session": 1, "who": "ann", "edits": ["repower_gate g3 BUF_X1"]}]},
        )
        self.assertEqual(
            [(it["seat"], it["name"], it["here"]) for it in found[7]["who"]], [(1, "ann", True), (2, None, False)]
        )

    def test_keep(self):
        serving = self.serve()
        draft = (
            "begin_what_if\nrepower_gate g3 BUF_X1\nreport_wns setup\nrepower_gate g1 SLW\nreport_wns setup\n"
            "drop_last\nrepower_gate cb ABSENT\nend_what_if\n"
        )
        status, out, _ = self.connect(
            serving, f"keep\n{draft}keep\nreport_endpoint o setup\nkeep yes\nreport_endpoint o setup\n"
        )
        self.assertEqual(status, 1)
        self.assertIn("  there was no draft here\n", out)
        self.assertIn(
            "  it was not sent: a `yes` behind the command sends it\nreport_endpoint o setup -> -2.500 ps (design 0)\n",
            out,
        )
        self.assertTrue(
            out.endswith(
                "  keeps what stands of the draft of design 0:\n    repower_gate g3 BUF_X1\n"
                "repower_gate g3 BUF_X1 -> accepted (design 1)\n"
                "report_endpoint o setup -> 2.000 ps (design 1)\n"
            ),
            out,
        )
        self.assertIn(
            "no edit of the last draft stands",
            self.connect(serving, "begin_what_if\nrepower_gate g3 SLW\ndrop_last\nend_what_if\nkeep yes\n")[1],
        )

    def test_undo(self):
        serving = self.serve()
        question = "report_worst setup 5\nreport_worst hold 5\n"
        status, out, _ = self.connect(
            serving,
            f"undo\n{question}insert_buffer c1 skew c2 BUF_X1 r2:CK\nrepower_gate g3 BUF_X1\nundo\nundo yes\n"
            f"undo yes\n{question}undo\n",
        )
        self.assertEqual(status, 1)
        self.assertTrue(out.startswith("  you have made no ECO that stands\n"))
        self.assertIn(
            "  takes entry 2 back:\n    repower_gate g3 SLW\n  it was not sent: a `yes` behind the command sends it\n",
            out,
        )
        self.assertIn(
            "  takes entry 2 back:\n    repower_gate g3 SLW\nrepower_gate g3 SLW -> accepted (design 3)\n"
            "  takes entry 1 back:\n    begin_eco\n"
            "    disconnect_pin skew:A\n    disconnect_pin r2:CK\n    connect_pin r2:CK c1\n"
            "    disconnect_pin skew:Z\n    remove_gate skew\n    remove_net c2\n"
            "    commit_eco\nbegin_eco (6 edits) -> accepted (design 4)\n",
            out,
        )
        self.assertTrue(out.endswith("  you have made no ECO that stands\n"))
        before, after = (
            re.findall(rf"(?m)^report_worst .* \(design {it}\)\n((?:  .* ps .*\n)*)", out) for it in (0, 4)
        )
        self.assertEqual((before, len(before)), (after, 2))
        self.assertEqual(before[0].split("\n")[:2], ["  -2.500 ps  o", "  -1.000 ps  r2:D"])

    def test_keep_twice(self):
        """A draft is kept once, and again where its ECO was taken back or the draft is a new one."""
        serving = self.serve()
        draft = "begin_what_if\nrepower_gate g3 BUF_X1\nend_what_if\n"
        twice = "  the last draft was kept already, as design 1: only a new draft is kept again\n"
        status, out, _ = self.connect(serving, f"{draft}keep yes\nkeep yes\nundo yes\nkeep yes\n{draft}keep yes\n")
        self.assertEqual((status, out.count(twice)), (1, 1))
        kept = re.findall(r"(?m)^repower_gate g3 (\S+) -> accepted \(design (\d)\)$", out)
        self.assertEqual(kept, [("BUF_X1", "1"), ("SLW", "2"), ("BUF_X1", "3"), ("BUF_X1", "4")])

    def test_journal(self):
        serving = self.serve()
        script = "repower_gate g3 BUF_X1\nundo yes\nundo 2 yes\nundo yes\n"
        self.assertEqual(self.connect(serving, script)[0], 0)
        lines = [
            "  1 ann (session 1): repower_gate g3 BUF_X1\n",
            "  2 ann (session 1): repower_gate g3 SLW (takes entry 1 back)\n",
            "  3 ann (session 1): repower_gate g3 BUF_X1 (takes entry 2 back)\n",
            "  4 ann (session 1): repower_gate g3 SLW (takes entry 3 back)\n",
        ]
        self.assertEqual(self.connect(serving, "journal\n")[:2], (0, "".join(lines)))
        self.assertEqual(self.connect(serving, "journal 2\n")[:2], (0, "".join(["  .. 2 more\n", *lines[2:]])))
        self.assertEqual(self.connect(serving, "journal 0\n")[:2], (0, "  .. 4 more\n"))
        for wrong in ("x", "-1", "1 2", "9999999999999"):
            self.assertEqual(self.connect(serving, f"journal {wrong}\n")[:2], (1, "  journal [COUNT]\n"))
        for text, numbers in (("journal", [1, 2, 3, 4]), ("journal 2", [3, 4]), ("journal 0", [])):
            entries = json.loads(self.connect(serving, f"{text}\n", "--json")[1])["journal"]
            self.assertEqual([it["number"] for it in entries], numbers)
            self.assertEqual([it.get("takes_back") for it in entries], [it - 1 or None for it in numbers])

    def test_undo_of_what_is_taken_back(self):
        serving = self.serve()
        script = "repower_gate g3 BUF_X1\nundo yes\nundo 1 yes\nundo 2 yes\nundo 2 yes\n"
        status, out, _ = self.connect(serving, f"{script}repower_gate g3 BUF_X4\nundo 2\n")
        self.assertEqual(status, 1)
        refused = re.findall(r"(?m)^  entry \d cannot be taken back: .*$", out)
        self.assertEqual(refused, [
            "  entry 1 cannot be taken back: entry 2 took it back already: `undo 2` does it again",
            "  entry 2 cannot be taken back: entry 3 took it back already: `undo 3` does it again",
            "  entry 2 cannot be taken back: entry 3 changed the instance g3 since: take that back first",
        ])
        self.assertRegex(out, r"(?m)^repower_gate g3 BUF_X1 -> accepted \(design 3\)$")

    def test_objects_of_the_prompt(self):
        serving = self.serve()
        script = "source nofile\nrepower_gate g3 BUF_X1\nundo\nundo yes\nbegin_eco\n"
        status, out, err = self.connect(serving, script, "--json")
        self.assertEqual(status, 1)
        found = [json.loads(it) for it in out.splitlines()]
        self.assertEqual(found[0], {"question": ["source nofile"], "note": "nofile: No such file or directory"})
        self.assertEqual(found[2], {"question": ["undo"], "undo": 1, "edits": ["repower_gate g3 SLW"]})
        not_sent = "it was not sent: a `yes` behind the command sends it"
        self.assertEqual(found[3], {"question": ["undo"], "note": not_sent})
        self.assertEqual(found[4], {"question": ["undo yes"], "undo": 1, "edits": ["repower_gate g3 SLW"]})
        self.assertEqual((found[5]["answer"], found[5]["design"]), ("accepted", 2))
        self.assertEqual(found[6:], [{"question": ["begin_eco"], "note": "`begin_eco` has no end: it was not sent"}])
        self.assertIn(f"  takes entry 1 back:\n    repower_gate g3 SLW\n  {not_sent}\n", err)
        draft = "begin_what_if\nrepower_gate g3 BUF_X1\nend_what_if\nkeep yes\n"
        found = [json.loads(it) for it in self.connect(serving, draft, "--json")[1].splitlines()]
        self.assertEqual(found[1], {"question": ["keep yes"], "keep": 2, "edits": ["repower_gate g3 BUF_X1"]})

    def test_undo_of_what_another_changed(self):
        serving = self.serve()
        self.connect(serving, "repower_gate g3 BUF_X1\n")
        self.connect(serving, "repower_gate g3 BUF_X4\n", name="ben")
        status, out, _ = self.connect(serving, "undo yes\nundo 2 yes\n")
        self.assertEqual(status, 1)
        self.assertEqual(
            out,
            "  entry 1 cannot be taken back: entry 2 changed the instance g3 since: take that back first\n"
            "  takes entry 2 back:\n    repower_gate g3 BUF_X1\nrepower_gate g3 BUF_X1 -> accepted (design 3)\n",
        )
        self.connect(serving, "repower_gate g3 SLW\n", name="ben")
        self.assertEqual(
            self.connect(serving, "undo 1 yes\n")[:2],
            (1, "  entry 1 cannot be taken back: entry 4 took it back already: `undo 4` does it again\n"),
        )

    def test_undo_behind_a_saved_journal(self):
        """The saved entries are read of the journal."""
        (self.folder / "saved.journal").write_text(
            "journal 1 1\nentry 1 session 1 edits 1\ninsert_buffer c1 skew c2 BUF_X1 r2:CK\n"
        )
        serving = self.serve("--journal", "saved.journal")
        self.assertRegex(
            self.connect(serving, "report_path q setup\n")[1], r"(?m)^ .* rise skew:Z +BUF_X1  net c2, 1 sink$"
        )
        status, out, _ = self.connect(
            serving, "report_endpoint r2:D setup\ndisconnect_pin r2:CK\nundo yes\nreport_endpoint r2:D setup\n"
        )
        self.assertEqual(status, 0, out)
        self.assertEqual(
            re.findall(r"(?m)^report_endpoint .*$", out),
            ["report_endpoint r2:D setup -> 8.000 ps (design 1)", "report_endpoint r2:D setup -> 8.000 ps (design 3)"],
        )
        self.assertIn("    connect_pin r2:CK c2\n", out)
        status, out, _ = self.connect(serving, "undo 1 yes\nreport_endpoint r2:D setup\n")
        self.assertIn("report_endpoint r2:D setup -> -1.000 ps (design 4)\n", out)

    def test_undo_without_the_documents(self):
        serving = self.serve()
        self.connect(serving, "repower_gate g3 BUF_X1\n")
        os.rename(self.folder / "design.v", self.folder / "gone.v")
        status, out, _ = self.connect(serving, "undo yes\nreport_path o setup\n")
        self.assertEqual(status, 1)
        self.assertIn("  entry 1 cannot be taken back: ", out)
        self.assertIn("design.v", out.split("\n")[0])
        self.assertRegex(out, r"(?m)^ +58\.000 +10\.000 rise g3:Z$")

    def test_source(self):
        serving = self.serve()
        for text, said in (
            ("take\nrnu\n", "s.eco:2: there is no command rnu: nothing was sent"),
            ("take\nbegin_eco\nremove_net n1\n", "s.eco: `begin_eco` has no end: nothing was sent"),
            ("begin_eco x\nremove_net n1\n", "s.eco:1: begin_eco stands alone in its line: nothing was sent"),
        ):
            (self.folder / "s.eco").write_text(text)
            self.assertEqual(self.connect(serving, "source s.eco\n")[:2], (1, f"  {said}\n"))
        shutil.copy(EXAMPLE / "ann.eco", self.folder / "s.eco")
        status, out, _ = self.connect(serving, "source s.eco\nsource absent\n")
        self.assertEqual(status, 1)
        self.assertIn(
            "repower_gate g3 BUF_X1 -> accepted (design 1)\nreport_endpoint o setup -> 2.000 ps (design 1)\n", out
        )
        self.assertIn("  absent: No such file or directory\n", out)

    def test_others_and_the_end(self):
        serving = self.serve()
        self.connect(serving, "repower_gate g3 BUF_X1\n")
        status, out, _ = self.connect(serving, "who\njournal\nleave\ntake\n", name="ben")
        self.assertEqual(
            (status, out),
            (
                0,
                "  session 1: ann (away), 1 rows, at design 1\n  session 2: ben (here), 0 rows\n"
                "  1 ann (session 1): repower_gate g3 BUF_X1\n",
            ),
        )
        self.assertEqual(
            self.connect(serving, "who\n", name="cid")[1],
            "  session 1: ann (away), 1 rows, at design 1\n  session 2: cid (here), 0 rows\n",
        )
        status, out, err = self.connect(serving, "", name="dora")
        self.assertEqual(
            (status, err), (4, "lizdrog connect: no seat is free: ann (away), cid (away); `leave` gives up one's own\n")
        )
        serving.end()
        self.assertEqual(self.connect(serving, "take\n")[0], 4)

    def test_a_server_that_dies(self):
        serving = self.serve()
        serving.address()
        process = subprocess.Popen(
            [sys.executable, common.TOOLS / "connect_live.py", serving.address(), "--name", "ann"],
            cwd=self.folder,
            stdin=subprocess.PIPE,
            stdout=subprocess.PIPE,
            stderr=subprocess.PIPE,
            text=True,
        )
        process.stdin.write("take\nawait 7 1000\n")
        process.stdin.flush()
        self.assertEqual(process.stdout.readline(), "take -> taken (design 0)\n")
        os.kill(serving.child(), signal.SIGKILL)
        _, err = process.communicate(timeout=SECONDS)
        self.assertEqual((process.returncode, err), (4, "lizdrog connect: the server has ended (signal 9)\n"))


class Terminal:
    """A person at a terminal: what is typed, and what is seen."""

    def __init__(self, words, folder, **surroundings):
        self.process, self.file = pty.fork()
        if not self.process:
            take_signals()
            os.chdir(folder)
            os.execve(
                sys.executable,
                [sys.executable, *map(str, words)],
                {**os.environ, "TERM": "xterm", "XDG_STATE_HOME": str(folder), **surroundings},
            )
        # How long the terminal is left to do what it was told: longer where the machine is busy.
        self.seen, self.began, self.pause = "", time.monotonic(), 0.5

    def ready(self, pattern):
        """Waits for what is seen at the start, which tells how fast the machine is now; and gives it rest."""
        self.until(pattern)
        self.pause = max(self.pause, time.monotonic() - self.began)
        time.sleep(self.pause)

    def until(self, pattern):
        """What is seen from here until this is."""
        end = time.monotonic() + SECONDS
        while not re.search(pattern, self.seen):
            if time.monotonic() > end or not select.select([self.file], [], [], SECONDS)[0]:
                raise AssertionError(f"{pattern} is not in {self.seen!r}")
            try:
                data = os.read(self.file, 65536)
            except OSError:
                data = b""
            if not data:
                raise AssertionError(f"{pattern} is not in {self.seen!r}, which is all")
            if b"\x1b[6n" in data:
                os.write(self.file, b"\x1b[1;1R")
            self.seen += re.sub(r"\x1b(\[[0-9;?]*[A-Za-z]|[=>]|\][^\x07]*\x07)", "", data.decode("utf-8", "replace"))
        found = re.search(pattern, self.seen)
        self.seen = self.seen[found.end() :]
        return found

    def type(self, text):
        """Types, and waits for what a tab completes."""
        for part in re.split("(?<=\t)", text):
            os.write(self.file, part.encode())
            time.sleep(self.pause if part.endswith("\t") else 0)

    def status(self):
        """How the prompt ended by itself."""
        process, self.process = self.process, None
        return os.waitstatus_to_exitcode(os.waitpid(process, 0)[1])

    def close(self):
        if self.process:
            os.kill(self.process, signal.SIGKILL)
            os.waitpid(self.process, 0)
        os.close(self.file)


class Persons(Connected):
    def sit(self, serving, **surroundings):
        terminal = Terminal(
            [common.TOOLS / "connect_live.py", serving.address(), "--name", "ann"], self.folder, **surroundings
        )
        self.addCleanup(terminal.close)
        terminal.until("session 1 is yours(?: again)?, ann")
        return terminal

    def walk(self, **surroundings):
        """A question by completion, a group that is dropped, an ECO and its undo, and an end; then the session again.
        """
        serving = self.serve()
        terminal = self.sit(serving, **surroundings)
        terminal.ready("ann>")
        for typed, wanted in (
            ("report_wn\tse\t\r", r"report_wns setup -> -2\.500 ps \(design 0\)"),
            ("report_endpoint r2\tsetup\r", r"r2:D setup -> -1\.000 ps \(design 0\)"),
            ("report_slew g3:Z la\tri\t\r", r"report_slew g3:Z late rise -> \d"),
            ("begin_eco\r", r"\.\."),
            ("\x03", "what was typed is dropped"),
            ("repower_gate g3 BUF_X1\r", r"-> accepted \(design 1\)"),
            ("undo\r", r"send it\? \[y/N\]"),
            ("y\r", r"repower_gate g3 SLW -> accepted \(design 2\)"),
        ):
            terminal.type(typed)
            terminal.until(wanted)
            time.sleep(0.1)
        terminal.until("ann 2>")
        terminal.type("quit\r")
        self.assertEqual(terminal.status(), 0)
        again = self.sit(serving, **surroundings)
        again.until("ann 2>")
        again.type("\x04")
        self.assertEqual(again.status(), 0)
        self.assertEqual(serving.end()[0], 0)
        self.assertIn("repower_gate g3 BUF_X1", (self.folder / "lizdrog" / "history").read_text())
        self.assertEqual(os.stat(self.folder / "lizdrog" / "history").st_mode & 0o077, 0)

    @unittest.skipUnless(HAS_TOOLKIT, "no prompt_toolkit here: apt-get install python3-prompt-toolkit")
    def test_with_the_toolkit(self):
        self.walk()

    def test_with_readline(self):
        """A folder with a broken prompt_toolkit stands for a machine without it."""
        (self.folder / "prompt_toolkit.py").write_text("raise ImportError\n")
        self.walk(PYTHONPATH=str(self.folder))

    def test_an_interrupt_while_an_answer_is_awaited(self):
        serving = self.serve()
        terminal = self.sit(serving)
        terminal.ready("ann>")
        terminal.type("await 1 1000\r")
        time.sleep(0.3)
        terminal.type("\x03")
        terminal.until("left; the server goes on, and keeps the seat and its answers")
        self.assertEqual(terminal.status(), 130)
        self.assertEqual(self.connect(serving, "repower_gate g3 BUF_X1\n", name="ben")[0], 0)
        time.sleep(1.2)
        status, out, _ = self.connect(serving, "take\n")
        self.assertRegex(
            out,
            r"^\(late\) await 1 1000 -> (reached|not yet, after 1000 looks) \(design [01]\)\n"
            r"take -> taken \(design 1\)\n$",
        )

    def test_colleagues_are_seen(self):
        serving = self.serve()
        terminal = self.sit(serving)
        terminal.until("ann>")
        self.connect(serving, "repower_gate g3 BUF_X1\n", name="ben")
        time.sleep(0.3)
        terminal.type("take\r")
        terminal.until(r"ben made design 1: repower_gate g3 BUF_X1")


if __name__ == "__main__":
    unittest.main()
