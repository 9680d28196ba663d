"""`./lizdrog live`: which program is taken, what is passed on to it, and what is said of how it ended. The server is
the live program where it is there, else the stand-in, or a small script.
"""
import fcntl
import os
import pathlib
import shutil
import signal
import subprocess
import sys
import tempfile
import time
import unittest

import common
from live_serving import REAL, SECONDS, STAND_IN, is_gone, take_signals

PROGRAM = REAL or STAND_IN
# A program that tells its words, and ends with the status that its first document holds.
SMALL = '#!/bin/sh\nfor it in "$@"; do printf "%s " "$it"; done\ncase $2 in --*) exit 0 ;; esac\nexit $(cat "$2")\n'


class Folder(unittest.TestCase):
    def setUp(self):
        self.folder = pathlib.Path(tempfile.mkdtemp())
        self.addCleanup(shutil.rmtree, self.folder)
        self.documents = common.write_documents(self.folder)[1:7]

    def start(self, *words, top=common.TOP, **how):
        """A call of `lizdrog live` with pipes."""
        how = {"stdin": subprocess.PIPE, "stdout": subprocess.PIPE, "stderr": subprocess.PIPE, **how}
        child = subprocess.Popen(
            [str(top / "lizdrog"), *map(str, words)], cwd=self.folder, bufsize=0, preexec_fn=take_signals, **how
        )
        self.addCleanup(self.end, child)
        return child

    def end(self, child):
        if child.poll() is None:
            child.kill()
        child.wait(SECONDS)
        for it in (child.stdin, child.stdout, child.stderr):
            if it:
                it.close()

    def live(self, *words):
        return self.start("--program", PROGRAM, "live", *words)

    def ask(self, child, line):
        child.stdin.write(f"{line}\n".encode())
        return child.stdout.readline().decode()


class Prompt(Folder):
    def test_each_line_is_answered_before_the_next_is_sent(self):
        child = self.live(*self.documents)
        self.assertEqual(self.ask(child, "take"), "1 0 taken\n")
        self.assertEqual(self.ask(child, "insert_net m1"), "2 1 accepted\n")
        self.assertEqual(self.ask(child, "rubbish"), "error C1 3\n")
        self.assertRegex(self.ask(child, "report_wns setup"), r"^3 1 wns ")
        child.stdin.close()
        self.assertRegex(child.stdout.readline().decode(), r"^final 1 setup ")
        self.assertEqual(child.wait(SECONDS), 1)
        self.assertIn("status 1: some reply was refused, no, not_yet or an error", child.stderr.read().decode())

    def test_a_project_file(self):
        (self.folder / "p.toml").write_text(
            'library = "early.lib"\nnetlist = "top.v"\nsdc = "top.sdc"\nspef = "top.spef"\nworkers = 2\n'
        )
        (self.folder / "j").write_text("")
        for words in (["p.toml"], ["p.toml", "1"], ["--journal", "j", "p.toml"]):
            child = self.live(*words)
            self.assertEqual(self.ask(child, "take"), "1 0 taken\n")
            child.stdin.close()
            self.assertEqual((child.wait(SECONDS), child.stderr.read()), (0, b""))

    def test_pairs(self):
        names = [self.folder / it for it in ("in1", "out1", "in2", "out2")]
        for it in names:
            os.mkfifo(it)
        child = self.live(*self.documents, *names)
        talks = [(open(names[at], "wb", buffering=0), open(names[at + 1], "rb")) for at in (0, 2)]
        for number, (source, sink) in enumerate(talks):
            source.write(f"take\ninsert_net m{number}\n".encode())
            told = [b"1 %d taken\n" % number, b"2 %d accepted\n" % (number + 1)]
            self.assertEqual([sink.readline(), sink.readline()], told)
        for it in (file for talk in talks for file in talk):
            it.close()
        self.assertRegex(child.stdout.read().decode(), "^final 2 ")
        self.assertEqual(child.wait(SECONDS), 0)

    def test_documents_by_descriptors(self):
        """What a shell writes for <(zcat FILE) reaches the server."""
        words = [it.replace("top.sdc", "<(cat top.sdc)") for it in self.documents]
        line = " ".join([str(common.TOP / "lizdrog"), "--program", str(PROGRAM), "live", *words])
        ran = subprocess.run(["bash", "-c", line], input=b"take\n", cwd=self.folder, capture_output=True, check=False)
        if REAL:
            self.assertEqual((ran.returncode, ran.stdout[:18]), (0, b"1 0 taken\nfinal 0 "), ran.stderr)
        else:
            # The stand-in takes files alone: it names the descriptor.
            self.assertRegex(ran.stdout, rb"fault shelf /dev/fd/\d+ failed")

    def test_standard_input_that_is_a_socket(self):
        import socket

        ours, theirs = socket.socketpair()
        with ours, theirs:
            child = self.start("--program", PROGRAM, "live", *self.documents, stdin=theirs)
            ours.sendall(b"take\n")
            self.assertEqual(child.stdout.readline(), b"1 0 taken\n")
            ours.shutdown(socket.SHUT_WR)
            self.assertEqual(child.wait(SECONDS), 0)


class Ends(Folder):
    def of_process(self, child):
        """The server's process, once it is there."""
        file = pathlib.Path(f"/proc/{child.pid}/task/{child.pid}/children")
        deadline = time.monotonic() + SECONDS
        while not file.read_text().split() and time.monotonic() < deadline:
            time.sleep(0.01)
        return int(file.read_text().split()[0])

    def test_signals_are_passed_on(self):
        for number in (signal.SIGTERM, signal.SIGHUP, signal.SIGINT, signal.SIGQUIT):
            child = self.live(*self.documents)
            self.assertEqual(self.ask(child, "take"), "1 0 taken\n")
            server = self.of_process(child)
            child.send_signal(number)
            self.assertIn(child.wait(SECONDS), (128 + number, 1))
            self.assertTrue(is_gone(server))

    def test_the_server_ends_with_the_command(self):
        child = self.live(*self.documents)
        self.assertEqual(self.ask(child, "take"), "1 0 taken\n")
        server = self.of_process(child)
        child.kill()
        self.assertTrue(is_gone(server))

    def said(self, *words, status):
        child = self.live(*words)
        child.stdin.close()
        out, said = child.stdout.read().decode(), child.stderr.read().decode()
        self.assertEqual(child.wait(SECONDS), status, said)
        return out, said

    def test_a_journal_that_is_missing(self):
        out, said = self.said("--journal", "absent", *self.documents, status=4)
        self.assertEqual(out, "fault shelf absent failed\n")
        self.assertIn("an empty file begins a new journal (: >absent)", said)
        self.assertFalse((self.folder / "absent").exists())

    def test_a_journal_that_is_torn(self):
        torn = "journal 1 1\nentry 1 session 1 edits 1\ninsert_net m1"
        (self.folder / "j").write_text(torn)
        out, said = self.said("--journal", "j", *self.documents, status=3)
        self.assertRegex(out, "^fault journal J1 ")
        self.assertIn("`tools/mend_journal.py j` tells where it is torn", said)
        self.assertEqual((self.folder / "j").read_text(), torn)

    def test_a_journal_that_another_server_holds(self):
        (self.folder / "j").write_text("")
        with open(self.folder / "j", "rb") as held:
            fcntl.flock(held, fcntl.LOCK_EX)
            _, said = self.said("--journal", "j", *self.documents, status=5)
        self.assertIn("j: another live server holds it", said)

    def test_a_document_that_is_missing(self):
        out, said = self.said("gone.lib", *self.documents[1:], status=4)
        self.assertEqual(out, "fault shelf gone.lib failed\n")
        self.assertIn("gone.lib: No such file or directory", said)


class Words(Folder):
    def refused(self, said, *words):
        status, out, err = common.run(common.TOP / "lizdrog", "--program", PROGRAM, "live", *words, cwd=self.folder)
        self.assertEqual((status, out), (2, "fault words\n"))
        self.assertTrue(err.endswith(f"{said}\n"), err)

    def test_words_that_are_refused(self):
        self.refused("live takes 6 words or more, and here are 5", *self.documents[:5])
        said = "live takes 6 words or more after --journal j, and here are 5"
        self.refused(said, "--journal", "j", *self.documents[:5])
        self.refused("is a number from 1 to 32, and here it is 33", *self.documents[:5], "33")
        self.refused("in pairs, and here is out2 alone", *self.documents, "in1", "out1", "out2")
        self.refused("16 pairs IN OUT at most, and here are 17", *self.documents, *["it"] * 34)

    def test_help(self):
        for words in (["live", "--help"], ["help", "live"]):
            status, out, err = common.run(common.TOP / "lizdrog", *words)
            self.assertEqual((status, err), (0, ""))
            self.assertIn("lizdrog [--proved] live [--journal NAME] EARLY LATE NETLIST SDC SPEF WORKERS [IN OUT ", out)
            self.assertIn("report_endpoint r2:D setup", out)


class Chosen(Folder):
    """Which program is taken, in a clone of its own without a toolchain."""

    def setUp(self):
        super().setUp()
        self.top = self.folder / "clone"
        shutil.copytree(common.TOOLS, self.top / "tools", ignore=shutil.ignore_patterns("__pycache__", "tests"))
        shutil.copy(common.TOP / "lizdrog", self.top)
        (self.top / "docs").mkdir()
        shutil.copy(common.TOP / "docs" / "FAULTS.md", self.top / "docs")
        self.write("crates.txt", "timing_live:\n", 1000)
        self.write("crates/timing_live/src/main.rt", "fn main() {}\n", 1000)
        (self.folder / "bin").mkdir()
        for name in ("bash", "sh", "cat", "readlink"):
            os.symlink(shutil.which(name), self.folder / "bin" / name)
        os.symlink(sys.executable, self.folder / "bin" / "python3")
        self.words = ["live", *self.documents]
        (self.folder / "early.lib").write_text("0")

    def write(self, name, text, when, mode=0o644):
        file = self.top / name
        file.parent.mkdir(parents=True, exist_ok=True)
        file.write_text(text)
        file.chmod(mode)
        os.utime(file, (when, when))

    def build(self, name, text=SMALL):
        self.write(name, text, 2000, 0o755)

    def build_quick(self):
        for name in ("timing_shell", "timing_live"):
            self.build(f"out/quick_build/{name}")
        code = (
            "from lizdrog_tools import programs as p\n"
            "p.Kept('current', p.sum_of(p.sources(('src',))), 'a-kit').write('quick')"
        )
        subprocess.run([sys.executable, "-c", code], cwd=self.top / "tools", check=True)

    def lizdrog(self, *words):
        return common.run(self.top / "lizdrog", *words, cwd=self.folder, env={"PATH": str(self.folder / "bin")})

    def test_the_proved_one(self):
        self.build("crates/timing_live/out/timing_live")
        self.build("crates/timing_shell/out/timing_shell", "#!/bin/sh\necho another\n")
        for words in (self.words, ["--proved", *self.words]):
            self.assertEqual(self.lizdrog(*words), (0, " ".join([*self.words, ""]), ""))
        self.assertIn("\nproved live server ", self.lizdrog("--version")[1])
        self.write("crates/timing_live/src/main.rt", "fn main() { }\n", 3000)
        for words, said in ((["--proved"], "newer than the proved live server"), ([], "`lizdrog --build` builds it")):
            status, out, err = self.lizdrog(*words, *self.words)
            self.assertEqual((status, out), (70, ""))
            self.assertIn(said, err)
            self.assertEqual("`--program FILE` names a live program that you have" in err, not words)

    def test_the_one_without_proof(self):
        self.build_quick()
        self.assertEqual(self.lizdrog(*self.words), (0, " ".join([*self.words, ""]), ""))
        self.assertIn("\nlive server without proof ", self.lizdrog("--version")[1])
        self.assertIn("there is no proved live server here", self.lizdrog("--proved", *self.words)[2])

    def test_one_that_was_never_built_is_built(self):
        status, out, err = self.lizdrog(*self.words)
        self.assertEqual((status, out), (70, ""))
        self.assertIn("no `rt` on the PATH", err)
        named = "; `--program FILE` names a live program that you have\n"
        self.assertTrue(err.endswith(named), err)
        status, out, err = self.lizdrog("serve", *self.documents, "--listen", "unix:socket")
        self.assertEqual((status, out), (70, ""))
        self.assertTrue(err.endswith(named), err)
        shutil.rmtree(self.top / "crates" / "timing_live")
        status, out, err = self.lizdrog(*self.words)
        self.assertEqual((status, out), (70, ""))
        self.assertIn("this version has no live server", err)

    def test_a_fault_is_looked_up_by_the_other_program(self):
        self.build_quick()
        (self.folder / "early.lib").write_text("3")
        (self.folder / "top.sdc").write_text("create_clock -period 1 [get_ports a]\nfoo bar\n")
        self.build("out/quick_build/timing_shell", "#!/bin/sh\necho fault sdc S2 37\nexit 3\n")
        status, out, err = self.lizdrog(*self.words)
        self.assertEqual((status, out), (3, " ".join([*self.words, ""])))
        self.assertIn("top.sdc:2:1: S2: ", err)
        self.assertIn("  foo bar\n", err)

    def test_statuses_that_are_explained(self):
        self.build_quick()
        self.build("out/quick_build/timing_shell", "#!/bin/sh\nexit 0\n")
        for status, words, said in (
            (0, [], ""),
            (1, [], "some reply was refused"),
            (2, [], "lizdrog: these words are no command\n"),
            (3, [], "docs/FAULTS.md has the code"),
            (4, ["in1", "out1"], "in1: this input of a session can not be read"),
            (5, [], "an output could not be written"),
            (6, [], "not enough memory"),
            (7, [], ""),
        ):
            (self.folder / "early.lib").write_text(str(status))
            got, _, err = self.lizdrog(*self.words, *words)
            self.assertEqual(got, status)
            self.assertEqual(said in err if said else err == "", True, err)


if __name__ == "__main__":
    unittest.main()
