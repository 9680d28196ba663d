"""`lizdrog serve` with clients, kind and hostile: over the live program where it is there, else over a stand-in for it.
"""
import os
import pathlib
import random
import re
import shutil
import signal
import socket
import stat
import subprocess
import sys
import tempfile
import threading
import time
import unittest

import common
import live_serving
from live_serving import SECONDS, Serving, is_gone

KILLED = """import os, socket, sys, time
client = socket.socket(socket.AF_UNIX)
client.connect(sys.argv[1])
client.sendall(b'#lizdrog {"hello": 1, "name": "ann"}\\n')
client.recv(1 << 16)
client.sendall(sys.argv[2].encode())
print("sent", flush=True)
time.sleep(60)
"""


class Live(unittest.TestCase):
    def setUp(self):
        self.folder = pathlib.Path(tempfile.mkdtemp())
        self.addCleanup(shutil.rmtree, self.folder)
        self.words = common.write_documents(self.folder)[1:7]

    def serve(self, *options, **how):
        serving = Serving(self.folder, self.words, *options, **how)
        self.addCleanup(serving.close)
        return serving

    def client(self, serving, name=None, **how):
        client = serving.client(name, **how)
        self.addCleanup(client.close)
        return client


class TwoClients(Live):
    def test_rows_and_the_end(self):
        serving = self.serve()
        ann, ben = self.client(serving, "ann"), self.client(serving, "ben")
        self.assertRegex(ann.ask("report_wns setup"), r"^1 0 wns -?\d+\.\d{3}$")
        self.assertEqual(ben.ask("# a comment", "", "insert_net n9"), "1 1 accepted")
        self.assertEqual(
            ann.control("entry"), {"entry": {"number": 1, "session": 2, "who": "ben", "edits": ["insert_net n9"]}}
        )
        self.assertRegex(ann.ask("report_wns setup"), "^2 0 wns ")
        self.assertEqual(ann.ask("take"), "3 1 taken")
        self.assertEqual(ann.ask("rubbish"), "error C1 4")
        ben.tell(ask="who")
        seats = ben.control("who")["who"]
        self.assertEqual(
            [(it["seat"], it["name"], it["here"], it["design"], it["rows"]) for it in seats],
            [(1, "ann", True, 1, 3), (2, "ben", True, 1, 1)],
        )
        status, out, said = serving.end()
        self.assertEqual(status, 1)
        self.assertRegex(out, r"^final 1 setup \S+ \S+ hold \S+ \S+\n$")
        self.assertIn("ended with status 1: 2 clients, 4 rows, 1 wrong lines, 1 ECOs", said)
        self.assertRegex(ann.control("ended")["ended"], r"the server has ended \(status 1\): final 1 ")
        self.assertEqual(list(self.folder.glob("socket*")), [])

    def test_status_0_and_each_signal(self):
        for number in (signal.SIGTERM, signal.SIGINT, signal.SIGHUP):
            serving = self.serve()
            self.assertRegex(self.client(serving, "ann").ask("report_wns hold"), "^1 0 wns ")
            status, out, _ = serving.end(number)
            self.assertEqual((status, out[:8]), (0, "final 0 "))

    def test_plain_clients(self):
        """What `nc -U` does: lines, then the end of its side; each is answered, and then the connection ends."""
        serving = self.serve(sessions=1)
        for at in range(3):
            client = self.client(serving)
            client.send("report_wns setup", "begin_eco", f"insert_net m{at}", "commit_eco", "take")
            client.socket.shutdown(socket.SHUT_WR)
            first, *rest = client.rest()
            self.assertRegex(first, rf"^{3 * at + 1} {at} wns ")
            self.assertEqual(rest, [f"{3 * at + 2} {at + 1} accepted", f"{3 * at + 3} {at + 1} taken"])
            self.assertEqual(client.told, [])

    def test_a_last_line_without_its_end_is_not_said(self):
        serving = self.serve(sessions=1)
        client = self.client(serving)
        client.send("take", b"insert_net m1")
        client.socket.shutdown(socket.SHUT_WR)
        self.assertEqual(client.rest(), ["1 0 taken"])
        self.assertEqual(self.client(serving, "ann").ask("take"), "2 0 taken")

    def test_many_lines_at_once(self):
        serving = self.serve(answers=False)
        client = self.client(serving)
        client.send(*["report_worst setup 1"] * 300, *["# a comment"] * 3000, "take")
        client.socket.shutdown(socket.SHUT_WR)
        lines = client.rest()
        self.assertEqual(lines[-1], "301 0 taken")
        self.assertEqual([it.split(" ")[0] for it in lines if " 0 worst " in it], [str(it) for it in range(1, 301)])

    def test_tcp(self):
        serving = self.serve(listen="tcp:127.0.0.1:0")
        self.assertRegex(serving.address(), r"^tcp:127\.0\.0\.1:\d+$")
        self.assertEqual(self.client(serving, "ann").ask("take"), "1 0 taken")

    def test_the_socket_is_private(self):
        serving = self.serve()
        serving.address()
        mode = os.stat(self.folder / "socket").st_mode
        self.assertEqual((stat.S_ISSOCK(mode), stat.S_IMODE(mode)), (True, 0o600))


class Seats(Live):
    def test_a_seat_is_taken_up_again(self):
        serving = self.serve()
        ann = self.client(serving, "ann")
        self.assertEqual(ann.ask("insert_net m1"), "1 1 accepted")
        ann.close()
        ben = self.client(serving, "ben")
        self.assertEqual(ben.ask("insert_net m2"), "1 2 accepted")
        ann = self.client(serving)
        told = ann.hello("ann")
        self.assertEqual(
            [told[it] for it in ("seat", "again", "design", "newest", "own", "rows")], [1, True, 1, 2, [1], 1]
        )
        self.assertRegex(ann.ask("report_wns setup"), "^2 1 wns ")
        self.assertEqual(ann.ask("take"), "3 2 taken")

    def test_no_seat_is_free(self):
        serving = self.serve(sessions=1)
        ann = self.client(serving, "ann")
        for name, said in (("ben", "no seat is free: ann"), ("ann", "ann is here already")):
            other = self.client(serving)
            other.tell(hello=1, name=name)
            self.assertIn(said, other.control("fault")["fault"])
            self.assertIsNone(other.line())
        plain = self.client(serving)
        self.assertIsNone(plain.ask("take"))
        ann.close()
        other = self.client(serving)
        other.tell(hello=1, name="ben")
        self.assertIn("no seat is free: ann (away)", other.control("fault")["fault"])
        again = self.client(serving, "ann")
        again.tell(ask="leave")
        self.assertEqual(again.control("left"), {"left": "ann"})
        self.assertFalse(self.client(serving).hello("ben")["again"])

    def test_a_seat_is_taken_over(self):
        serving = self.serve(sessions=1)
        first = self.client(serving, "ann")
        self.assertEqual(first.ask("take"), "1 0 taken")
        second = self.client(serving)
        self.assertTrue(second.hello("ann", take_over=True)["again"])
        self.assertIn("took over", first.control("fault")["fault"])
        self.assertEqual(second.ask("take"), "2 0 taken")

    def test_names(self):
        serving = self.serve()
        for name in ("", "a b", "-x", "a" * 33, 7, None, "\n"):
            client = self.client(serving)
            client.tell(hello=1, name=name)
            self.assertIn("a name has letters", client.control("fault")["fault"], name)

    def test_a_reply_that_comes_late(self):
        """The client is killed while its command is with the server; its name hears the answer."""
        serving = self.serve()
        self.killed(serving, "await 1 1000\n")
        ben = self.client(serving, "ben")
        self.assertEqual(ben.ask("insert_net m1"), "1 1 accepted")
        ann = self.client(serving)
        late = ann.hello("ann")["late"] or ann.control("late")["late"]
        self.assertEqual(late, [{"question": ["await 1 1000"], "reply": "1 1 reached\n"}])
        self.assertEqual(ann.ask("take"), "2 1 taken")

    def killed(self, serving, text):
        """A client `ann` that sends a text and is killed."""
        process = subprocess.Popen(
            [sys.executable, "-c", KILLED, serving.address().removeprefix("unix:"), text], stdout=subprocess.PIPE
        )
        self.addCleanup(process.stdout.close)
        self.assertEqual(process.stdout.readline(), b"sent\n")
        process.kill()
        process.wait()

    def test_killed_in_a_group(self):
        serving = self.serve("--transcript", self.folder / "told")
        for text in (
            "begin_eco\ninsert_net m1\n",
            "begin_eco\ninsert_net m1\ninsert_n",
            "begin_what_if\ninsert_net m1\nbegin_eco\ninsert_net m2\n",
            "begin_eco\nrubbish\ninsert_net m1\n",
            "begin_eco\n",
            "insert_net m1",
        ):
            self.killed(serving, text)
            ann = self.client(serving, "ann")
            self.assertRegex(ann.ask("take"), r"^\d+ 0 taken$", text)
            ann.tell(ask="journal", first=1)
            self.assertEqual(ann.control("journal"), {"journal": [], "newest": 0})
            ann.close()
        status, out, said = serving.end()
        self.assertRegex(out, "^final 0 ")
        self.assertEqual((self.folder / "told" / "session1.eco").read_text(), "take\n" * 6)

    def test_killed_behind_a_group(self):
        """What was sent whole is made."""
        serving = self.serve()
        self.killed(serving, "begin_eco\ninsert_net m1\ncommit_eco\nbegin_eco\ninsert_net m2\n")
        ann = self.client(serving)
        own = ann.hello("ann")["own"]
        self.assertEqual(ann.ask("take"), "2 1 taken")
        self.assertIn(own, ([], [1]))
        self.assertEqual(
            ann.ask("insert_net m1").split(" ")[1:],
            ["1", "refused", "E5", "m1"] if common.PROGRAM or live_serving.REAL else ["2", "accepted"],
        )


class Hostile(Live):
    def test_a_line_without_an_end(self):
        serving = self.serve(sessions=3)
        ann, bad, plain = self.client(serving, "ann"), self.client(serving, "bad"), self.client(serving)
        self.assertEqual(bad.ask("take"), "1 0 taken")
        for client in (bad, plain):
            try:
                client.send("take" if client is plain else b"", b"x" * (2 << 20))
                client.send(b"x" * (2 << 20))
            except OSError:
                pass
        self.assertEqual(ann.ask("insert_net m1"), "1 1 accepted")
        try:
            self.assertIn("1048576 bytes without a line's end", bad.control("fault")["fault"])
        except ConnectionResetError:
            pass
        again = self.client(serving, "bad")
        self.assertEqual(again.ask("take"), "2 1 taken")

    def test_binary(self):
        serving = self.serve()
        ann, bad = self.client(serving, "ann"), self.client(serving, "bad")
        bad.send(
            b"\x00\x01\xff\n",
            bytes(range(11, 256)) + b"\n",
            b"begin_eco\n\xfe\nremove_net n1\ncommit_eco\n",
            b"# gr\xfcn\n",
            "take",
        )
        self.assertEqual(
            [bad.line() for _ in range(5)], ["error C1 1", "error C1 2", "error C1 4", "error C1 7", "1 0 taken"]
        )
        for text in (
            b"#lizdrog \n",
            b"#lizdrog {\n",
            b"#lizdrog [[[\n",
            b'#lizdrog {"ask": "journal", "first": "x"}\n',
            b'#lizdrog {"ask": []}\n',
            b"#lizdrog \xff\n",
        ):
            bad.send(text)
            self.assertIn("fault", bad.control("fault"))
        self.assertEqual(ann.ask("take"), "1 0 taken")

    def test_lines_that_are_too_long(self):
        serving = self.serve()
        ann = self.client(serving, "ann")
        ann.send(
            b"x" * 70000 + b"\n",
            b"begin_eco\n" + b"insert_net " + b"y" * 65526 + b"\ninsert_net m1\ncommit_eco\n",
            b"#" * 900000 + b"\n",
            "take",
        )
        self.assertEqual([ann.line() for _ in range(4)], ["error C2 1", "error C2 3", "error C2 6", "1 0 taken"])

    DRAWN = [
        *[b"begin_eco", b"commit_eco", b"begin_what_if", b"end_what_if", b"drop_last"] * 3,
        *[b"report_wns setup", b"repower_gate g1 ABSENT", b"take", b"report_worst hold 3"] * 2,
        *[b"", b"# a comment", b" \tcommit_eco ", b"commit_eco x", b"begin_eco #", b"rubbish", b"report_wns seutp"],
        *[b"\xff", b"# \xff", b"\x00", b"\x0b", b"end_what_if\r", b"x" * 65537, b"#" * 65537, b" " * 66000],
        b"report_through r2:D setup g1:A",
    ]
    LAST = [b"rubbish", b"commit_eco", b"rubbish", b"end_what_if", b"await 7 1"]

    def test_lines_that_are_drawn(self):
        """Whatever the lines are, a client hears what the live program writes for them on its standard output."""
        serving = self.serve(sessions=16, answers=False)
        program = [live_serving.REAL or live_serving.STAND_IN, "live", *self.words]
        for seed in range(16):
            lines = [*random.Random(seed).choices(self.DRAWN, k=400), *self.LAST]
            text = b"".join(it + b"\n" for it in lines)
            canned = {**os.environ, "LIZDROG_STAND_IN_PROGRAM": ""}
            ran = subprocess.run(program, input=text, stdout=subprocess.PIPE, cwd=self.folder, env=canned, check=False)
            wanted = ran.stdout.decode().split("\n")[:-2]
            self.assertRegex(wanted[-1], r"^\d+ 0 not_yet 1$")
            client = self.client(serving, f"s{seed}")
            thread = threading.Thread(target=client.send, args=(text,))
            thread.start()
            self.assertEqual([client.line() for _ in wanted], wanted)
            thread.join()

    def test_one_that_never_reads(self):
        """It is not read any more; the others are answered; and it hears all once it reads."""
        serving = self.serve(limits="bridge.MOST_UNREAD = 20000", answers=False)
        slow, ann = self.client(serving, "slow"), self.client(serving, "ann")
        slow.socket.setsockopt(socket.SOL_SOCKET, socket.SO_RCVBUF, 4096)
        count = 20000
        thread = threading.Thread(target=slow.send, args=["report_path r2:D setup"] * count, daemon=True)
        thread.start()
        began = time.monotonic()
        for number in range(1, 101):
            self.assertEqual(ann.ask("take"), f"{number} 0 taken")
            time.sleep(0.01)
        self.assertLess(time.monotonic() - began, SECONDS)
        heads = (
            [it for it in (slow.line() for _ in range(3 * count)) if it[:1].isdigit()]
            if not live_serving.REAL
            else self.heads(slow, count)
        )
        self.assertEqual([it.split(" ")[0] for it in heads], [str(it) for it in range(1, count + 1)])
        thread.join(SECONDS)

    def heads(self, client, count):
        """The first lines of so many rows."""
        found = []
        while len(found) < count:
            line = client.line()
            found.append(line)
            for _ in range(int(line.split(" ")[-1]) if " path setup " in line else 0):
                client.line()
        return found

    def test_an_end_while_one_never_reads(self):
        serving = self.serve(limits="bridge.MOST_UNREAD = 20000", answers=False)
        slow = self.client(serving, "slow")
        slow.send(*["report_path r2:D setup"] * 3000)
        time.sleep(1)
        began = time.monotonic()
        status, out, _ = serving.end()
        self.assertEqual((status, out[:8]), (0, "final 0 "))
        self.assertLess(time.monotonic() - began, SECONDS)

    def test_a_client_for_each_command(self):
        serving = self.serve(sessions=1, answers=False)
        for number in range(1, 201):
            client = self.client(serving, "ann")
            self.assertEqual(client.ask("take"), f"{number} 0 taken")
            client.close()

    def test_the_server_dies(self):
        serving = self.serve()
        ann, ben = self.client(serving, "ann"), self.client(serving, "ben")
        self.assertEqual(ann.ask("take"), "1 0 taken")
        os.kill(serving.child(), signal.SIGKILL)
        for client in (ann, ben):
            self.assertEqual(client.control("ended"), {"ended": "the server has ended (signal 9)"})
            self.assertIsNone(client.line())
        status, out, said = serving.end(None)
        self.assertEqual((status, out), (128 + 9, ""))
        self.assertEqual(list(self.folder.glob("socket*")), [])

    def test_a_second_signal(self):
        """A server that does not end by itself is ended by the next signal."""
        serving = self.serve()
        serving.address()
        os.kill(serving.child(), signal.SIGSTOP)
        serving.process.send_signal(signal.SIGTERM)
        time.sleep(0.5)
        self.assertIsNone(serving.process.poll())
        serving.process.send_signal(signal.SIGTERM)
        os.kill(serving.child(), signal.SIGCONT)
        self.assertIn(serving.end(None)[0], (0, 128 + signal.SIGTERM))


class Kept(Live):
    def journal(self, text=""):
        (self.folder / "saved.journal").write_text(text)
        return self.folder / "saved.journal"

    def test_a_journal_goes_on(self):
        file = self.journal()
        for number in (1, 2, 3):
            serving = self.serve("--journal", "saved.journal")
            ann = self.client(serving)
            told = ann.hello("ann")
            self.assertEqual((told["first"], told["newest"]), (number - 1, number - 1))
            self.assertEqual(ann.ask(f"insert_net m{number}"), f"1 {number} accepted")
            self.assertEqual(file.read_text().count("\nentry "), number)
            ann.tell(ask="journal", first=number)
            self.assertEqual([it["number"] for it in ann.control("journal")["journal"]], [number])
            server = serving.child()
            serving.end(signal.SIGKILL)
            self.assertTrue(is_gone(server))
        self.assertTrue(file.read_text().endswith("entry 3 session 1 edits 1\ninsert_net m3\n"))
        self.assertEqual(common.tool("mend_journal", file)[0], 0)

    def test_journals_that_are_refused(self):
        self.journal("journal 1 1\nentry 1 session 1 edits 1\ninsert_net m1")
        serving = self.serve("--journal", "saved.journal")
        status, out, said = serving.end(None)
        self.assertEqual((status, out.split(" ")[:3]), (3, ["fault", "journal", "J1"]))
        self.assertIn("J1", said.split("ended with", 1)[1])
        self.assertIn("`tools/mend_journal.py saved.journal` tells where it is torn", said)
        status, out, said = self.serve("--journal", "absent").end(None)
        self.assertEqual((status, out), (4, "fault shelf absent failed\n"))
        self.assertIn(": >absent", said)

    def test_two_servers_on_one_journal(self):
        self.journal()
        first = self.serve("--journal", "saved.journal")
        first.address()
        second = self.serve("--journal", "saved.journal", listen=f"unix:{self.folder}/other")
        self.assertEqual(second.end(None)[0], 5)
        self.assertEqual(self.client(first, "ann").ask("insert_net m1"), "1 1 accepted")


@common.needs_program
class Checked(Live):
    def check(self, folder, words, count, *journal):
        scripts = [folder / f"session{it}.eco" for it in range(1, count + 1)]
        told = common.tool(
            "check_sessions",
            "--program",
            common.PROGRAM,
            folder / "output",
            "run",
            *journal,
            *words,
            *scripts,
            cwd=self.folder,
        )
        self.assertEqual(told[0], 0, told[1:])
        return told[1]

    @live_serving.needs_live
    def test_the_call_that_is_printed(self):
        """It runs as it stands, by the live program that was named."""
        (self.folder / "saved.journal").write_text("journal 1 1\nentry 1 session 1 edits 1\ninsert_net m1\n")
        serving = self.serve("--journal", "saved.journal", "--transcript", "told of it", sessions=1)
        ann = self.client(serving, "ann")
        heard = [ann.ask(it).split()[2] for it in ("insert_net m2", "insert_net m2", "report_wns setup")]
        self.assertEqual(heard, ["accepted", "refused", "wns"])
        said = serving.end()[2]
        call = re.search(r"(?m)^lizdrog serve: to check what each session heard: (.*)$", said)[1]
        self.assertIn(f" --program {live_serving.REAL} ", call)
        ran = subprocess.run(["bash", "-c", call], cwd=self.folder, capture_output=True, text=True, check=False)
        wanted = "check_sessions: 3 rows of 1 sessions, 1 ECOs: each answer is that of one session alone\n"
        self.assertEqual((ran.returncode, ran.stdout, ran.stderr), (0, wanted, ""))

    def test_sixteen_sessions(self):
        (self.folder / "saved.journal").write_text("")
        serving = self.serve("--journal", "saved.journal", "--transcript", "told", sessions=16)
        lines = [
            "insert_gate b{} BUF",
            "report_worst setup 2",
            "take",
            "report_path r2:D setup",
            "insert_buffer n2 x{0} m{0} BUF r2:D",
            "report_wns hold",
            "begin_what_if\nrepower_gate g1 BUF\nreport_path r2:D setup\nend_what_if",
            "rubbish",
            "begin_eco\nrubbish\nremove_gate g1\ncommit_eco",
        ]
        told = {}

        def work(number):
            client = self.client(serving, f"s{number}")
            client.send(*(it.format(number // 2) for it in lines), "report_tns hold")
            told[number] = []
            while not told[number] or " tns " not in told[number][-1]:
                told[number].append(client.line())

        threads = [threading.Thread(target=work, args=(it,)) for it in range(16)]
        for it in threads:
            it.start()
        for it in threads:
            it.join(SECONDS)
        status, out, _ = serving.end()
        self.assertEqual(status, 1)
        for number in range(16):
            self.assertEqual(len([it for it in told[number] if it.startswith("error C1 ")]), 2)
            self.assertEqual(len([it for it in told[number] if it[:2].rstrip(" ").isdigit()]), 8, told[number])
        said = self.check(self.folder / "told", self.words, 16, "--journal", self.folder / "told" / "before.journal")
        self.assertIn("128 rows of 16 sessions, ", said)
        self.assertGreaterEqual(int(out.split(" ")[1]), 9)
        entries = (self.folder / "saved.journal").read_text().count("\nentry ")
        self.assertEqual(entries, int(out.split(" ")[1]))

    def test_what_comes_after_a_saved_journal(self):
        (self.folder / "saved.journal").write_text("")
        for number in (1, 2):
            serving = self.serve("--journal", "saved.journal", "--transcript", f"told{number}")
            ann = self.client(serving, "ann")
            net = "n2" if number == 1 else "m1"
            self.assertEqual(ann.ask(f"insert_buffer {net} x{number} m{number} BUF r2:D"), f"1 {number} accepted")
            ann.ask("report_wns hold")
            self.assertEqual(serving.end()[0], 0)
            self.check(
                self.folder / f"told{number}",
                self.words,
                2,
                "--journal",
                self.folder / f"told{number}" / "before.journal",
            )


@common.needs_program
class Trials(Live):
    """bench/live_trial.py passes a right server and finds wrong ones."""

    def trial(self, *words, fault="", answers=True):
        surroundings = {
            **os.environ,
            "LIZDROG_STAND_IN_PROGRAM": str(common.PROGRAM) if answers else "",
            "LIZDROG_STAND_IN_FAULT": fault,
        }
        program = live_serving.REAL or live_serving.STAND_IN
        words = [*words, "--program", program, "--batch", common.PROGRAM, *self.words]
        return common.run(
            common.BENCH / "live_trial.py", *words, cwd=self.folder, env=surroundings, timeout=SECONDS * 5
        )

    WORK = ("work", "--seconds", "3", "--pause", "0.01")

    def test_a_right_server(self):
        for words, said in (
            (self.WORK, r"^work: check_sessions: \d+ rows of 4 sessions, \d+ ECOs: each answer is that of one "),
            (("kills", "--kills", "2"), r"^kills: 2, behind which \d+ ECOs stand, and each that was told; "),
            (("same", "--count", "2"), "^same: 2 random scripts: 2 the same rows$"),
        ):
            status, out, err = self.trial(*words)
            self.assertEqual((status, err), (0, ""), words)
            self.assertRegex(out, said)

    def test_bad_sessions_and_files_that_fail(self):
        for words, said in (
            (("hostile", "--bytes", "4000000"), r"^hostile: \d+ answers beside six bad sessions, "),
            (("full",), r"^full: a limit of files: \d+ were told and \d+ stand; .* its session alone$"),
        ):
            status, out, err = self.trial(*words, answers=False)
            self.assertEqual((status, err), (0, ""), words)
            self.assertRegex(out, said)

    @live_serving.needs_live
    def test_more_of_the_program(self):
        for words in (("same", "--count", "12"), ("kills", "--kills", "10"), ("hostile", "--bytes", "200000000")):
            status, out, err = self.trial(*words)
            self.assertEqual((status, err), (0, ""), words)

    @unittest.skipIf(live_serving.REAL, "the stand-in alone has faults to order")
    def test_wrong_servers(self):
        for words, fault, said in (
            (self.WORK, "unkept", ", and the journal has None"),
            (self.WORK, "unpassed", "live_trial: "),
            (("same", "--count", "1"), "shifted", "live_trial: seed 1: rows differ: "),
        ):
            status, _, err = self.trial(*words, fault=fault)
            self.assertEqual(status, 1, fault)
            self.assertIn(said, err)


class Words(Live):
    def refused(self, status, said, *words):
        told = common.tool("serve_live", *words, "--program", live_serving.STAND_IN, cwd=self.folder)
        self.assertEqual(told[0], status, told)
        self.assertIn(said, told[2])

    def test_addresses(self):
        for word in ("tcp:0.0.0.0:7000", "tcp:10.1.2.3:7000", "tcp:myhost:7000"):
            self.refused(2, "ssh -N -L", *self.words, "--listen", word)
        self.refused(2, "a port is a number", *self.words, "--listen", "tcp:127.0.0.1:x")
        self.refused(2, "107 bytes", *self.words, "--listen", "unix:" + "a" * 200)
        (self.folder / "file").write_text("kept")
        self.refused(5, "is no socket", *self.words, "--listen", "unix:file")
        self.assertEqual((self.folder / "file").read_text(), "kept")
        self.refused(5, "No such file", *self.words, "--listen", "unix:absent/socket")

    def test_an_address_that_is_taken(self):
        serving = self.serve()
        serving.address()
        self.refused(5, "another server listens there", *self.words, "--listen", f"unix:{self.folder}/socket")
        self.assertEqual(self.client(serving, "ann").ask("take"), "1 0 taken")

    def test_a_socket_that_was_left(self):
        with socket.socket(socket.AF_UNIX) as left:
            left.bind(str(self.folder / "socket"))
        self.assertEqual(self.client(self.serve(), "ann").ask("take"), "1 0 taken")

    def test_other_words(self):
        listen = ("--listen", "unix:s")
        self.refused(2, "EARLY LATE NETLIST SDC SPEF WORKERS", *self.words[:5], *listen)
        self.refused(2, "a number from 1 to 32", *self.words[:5], "33", *listen)
        self.refused(2, "a number from 1 to 16", *self.words, *listen, "--sessions", "17")
        self.refused(2, "--listen", *self.words)
        self.refused(2, "do not go together", *self.words, *listen, "--proved")

    def test_documents_that_are_refused(self):
        status, out, said = self.serve_words(["absent.lib", *self.words[1:]])
        self.assertEqual((status, out), (4, "fault shelf absent.lib failed\n"))
        self.assertIn("absent.lib: No such file or directory", said)

    def serve_words(self, words):
        serving = Serving(self.folder, words)
        self.addCleanup(serving.close)
        return serving.end(None)

    def test_a_project_file(self):
        (self.folder / "p.toml").write_text(
            'library = "early.lib"\nnetlist = "top.v"\nsdc = "top.sdc"\nspef = "top.spef"\n'
        )
        self.words = ["p.toml"]
        told = self.client(self.serve()).hello("ann")
        self.assertEqual(
            told["documents"],
            [str(self.folder / it) for it in ("early.lib", "early.lib", "top.v", "top.sdc", "top.spef")],
        )

    def test_no_program(self):
        """A clone without a live program says so."""
        top = self.folder / "clone"
        shutil.copytree(common.TOOLS, top / "tools", ignore=shutil.ignore_patterns("__pycache__", "tests"))
        shutil.copy(common.TOP / "lizdrog", top)
        (top / "crates").mkdir()
        (top / "crates.txt").write_text("")
        (self.folder / "bin").mkdir()
        for name in ("bash", "readlink"):
            os.symlink(shutil.which(name), self.folder / "bin" / name)
        os.symlink(sys.executable, self.folder / "bin" / "python3")
        surroundings = {"PATH": str(self.folder / "bin")}
        listen = [top / "lizdrog", "serve", *self.words, "--listen", "unix:s"]
        for is_there, option, said in (
            (False, [], "this version has no live server: its sources have no crates/timing_live"),
            (True, ["--proved"], "there is no proved live server here: `rt ci` in "),
            (True, [], "no `rt` on the PATH"),
        ):
            if is_there:
                (top / "crates" / "timing_live").mkdir(exist_ok=True)
            status, out, err = common.run(*listen, *option, cwd=self.folder, env=surroundings)
            self.assertEqual((status, out), (70, ""))
            self.assertIn(said, err)
        status, _, err = common.run(top / "lizdrog", "connect", "unix:s", cwd=self.folder)
        self.assertEqual(status, 4)
        self.assertIn("no server answers at unix:s", err)

    def test_a_warning_of_a_journal(self):
        top = self.folder / "clone"
        shutil.copytree(common.TOOLS, top / "tools", ignore=shutil.ignore_patterns("__pycache__", "tests"))
        shutil.copy(common.TOP / "lizdrog", top)
        program = self.folder / "program"
        program.write_text("#!/bin/sh\necho ran\n")
        program.chmod(0o755)
        for text, is_warned in (
            ("", False),
            ("journal 1 0\n", False),
            ("journal 1 1\nentry 1 session 1 edits 1\nrepower_gate g1 BUF_X1", True),
        ):
            (self.folder / "saved.journal").write_text(text)
            status, out, err = common.run(
                top / "lizdrog",
                "--program",
                program,
                "run",
                "--journal",
                "saved.journal",
                *self.words,
                "s",
                cwd=self.folder,
            )
            self.assertEqual((status, out), (0, "ran\n"))
            self.assertEqual("saved.journal does not end with a line feed" in err, is_warned, err)
        status, out, err = common.run(top / "lizdrog", "--program", program, "run", *self.words, "s", cwd=self.folder)
        self.assertEqual((status, out, err), (0, "ran\n", ""))


if __name__ == "__main__":
    unittest.main()
