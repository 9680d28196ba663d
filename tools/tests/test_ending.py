"""What a command does with a signal before, while and after its program runs."""
import os
import pathlib
import shutil
import signal
import subprocess
import sys
import tempfile
import threading
import time
import unittest
from unittest import mock

import common
from live_serving import SECONDS, STAND_IN, take_signals
from lizdrog_tools import quick_build
from lizdrog_tools.live import bridge

NAMES = {signal.SIGTERM: 143, signal.SIGHUP: 129, signal.SIGINT: 130}
# A signal that comes to this process behind the last step of Python's own before a call: no such step lies between the
# parts of a chain. kill(2) comes of the C library, because that of Python looks at signals.
LATE = """
import collections, ctypes, itertools, os, runpy, signal, sys
from lizdrog_tools import ending

def late(number, call, *words):
    kill = itertools.starmap(ctypes.CDLL(None).kill, [(os.getpid(), number)])
    return collections.deque(itertools.chain(kill, itertools.starmap(call, [words])), maxlen=1).pop()

"""


class Folder(unittest.TestCase):
    def setUp(self):
        self.folder = pathlib.Path(tempfile.mkdtemp())
        self.addCleanup(shutil.rmtree, self.folder)

    def start(self, *words, **how):
        how = {"preexec_fn": take_signals, **how}
        child = subprocess.Popen([str(it) for it in words], cwd=self.folder, stdin=subprocess.DEVNULL,
                                 stdout=subprocess.PIPE, stderr=subprocess.PIPE, text=True,
                                 env={**os.environ, "TMPDIR": str(self.folder), "PYTHONPATH": str(common.TOOLS)}, **how)
        self.addCleanup(self.end, child)
        return child

    def end(self, child):
        if child.poll() is None:
            child.kill()
        child.wait(SECONDS)
        for it in (child.stdout, child.stderr):
            it.close()

    def late(self, code, *words):
        """How a command ends of which parts send a signal late."""
        child = self.start(sys.executable, "-c", LATE + code, *words)
        out, err = child.communicate(timeout=SECONDS)
        return child.returncode, out, err

    def reached(self, fifo):
        """Waits until somebody reads a FIFO; gives its other end, which keeps the reader there."""
        deadline = time.monotonic() + SECONDS
        while time.monotonic() < deadline:
            try:
                return os.open(fifo, os.O_WRONLY | os.O_NONBLOCK)
            except OSError:
                time.sleep(0.01)
        raise AssertionError(f"nobody reads {fifo}")

    def ended(self, child, number, *more):
        """How a command ends that reads a FIFO when this signal comes."""
        held = self.reached(self.folder / "p.toml")
        try:
            for it in (number, *more):
                child.send_signal(it)
            out, err = child.communicate(timeout=SECONDS)
        finally:
            os.close(held)
        return child.returncode, out, err


class BeforeAServer(Folder):
    def setUp(self):
        super().setUp()
        os.mkfifo(self.folder / "p.toml")

    def serve(self, **how):
        words = ("serve", "p.toml", "--listen", f"unix:{self.folder}/s", "--program", STAND_IN)
        return self.start(common.TOP / "lizdrog", *words, **how)

    def test_one_line_and_the_status_of_the_signal(self):
        for number, status in NAMES.items():
            told = self.ended(self.serve(), number)
            line = f"lizdrog serve: ended by signal {int(number)} before a server was started\n"
            self.assertEqual(told, (status, "", line))
            self.assertEqual(os.listdir(self.folder), ["p.toml"])

    def test_two_signals_as_those_of_timeout(self):
        status, out, err = self.ended(self.serve(), signal.SIGTERM, signal.SIGTERM)
        self.assertEqual((status, out, err.count("\n")), (143, "", 1))

    def test_a_signal_that_is_ignored(self):
        """nohup(1) tells to ignore SIGHUP."""
        child = self.serve(preexec_fn=lambda: signal.signal(signal.SIGHUP, signal.SIG_IGN))
        self.assertEqual(self.ended(child, signal.SIGHUP, signal.SIGTERM)[0], 143)

    def test_signals_wait_for_the_tool(self):
        """A signal that comes while the wrapper hands over to the tool is heeded by that."""
        code = ("import os, signal, sys; from lizdrog_tools import ending; ending.hold(ending.heeded()); "
                "os.kill(os.getpid(), signal.SIGTERM); os.execv(sys.executable, [sys.executable, *sys.argv[1:]])")
        tool = common.TOOLS / "serve_live.py"
        child = self.start(sys.executable, "-c", code, tool, "x.toml", "--listen", "unix:s")
        out, err = child.communicate(timeout=SECONDS)
        self.assertEqual((child.returncode, out), (143, ""), err)
        self.assertIn("lizdrog serve: ended by signal 15 before a server was started\n", err)


class BeforeAWait(Folder):
    """A signal that comes after Python has looked for one, and before a call that waits begins."""

    def test_a_tool_that_opens_a_document(self):
        """Here between open(2) and read(2) of a FIFO that nobody writes."""
        os.mkfifo(self.folder / "p.toml")
        code = ("import io\nclass File(io.FileIO):\n    def read(self):\n        return late(int(sys.argv.pop()), "
                "super().read)\nfrom lizdrog_tools import files\nfiles.open = lambda name, _: File(name, 'r+')\n"
                "runpy.run_path(sys.argv.pop(1), run_name='__main__')")
        tool = (common.TOOLS / "serve_live.py", "p.toml", "--listen", "unix:s", "--program", STAND_IN)
        for number, status in NAMES.items():
            line = f"lizdrog serve: ended by signal {int(number)} before a server was started\n"
            self.assertEqual(self.late(code, *tool, int(number)), (status, "", line))

    def test_a_call_that_waits_for_ever(self):
        code = "ending.heed('it')\nlate(signal.SIGTERM, os.read, os.pipe()[0], 1)"
        line = "it: ended by signal 15\n"
        self.assertEqual(self.late(code), (143, "", line))
        self.assertEqual(self.late("os.close(0); os.close(1)\n" + code), (143, "", line))

    def test_standard_files_stay_closed(self):
        """Where the caller has closed them, nothing of this takes their numbers."""
        code = ("for it in (0, 1, 2): os.close(it)\nending.heed('it')\nfor it in (0, 1, 2):\n    try:\n"
                "        os.fstat(it)\n        os._exit(9)\n    except OSError:\n        pass\n"
                "late(signal.SIGTERM, os.read, os.pipe()[0], 1)")
        self.assertEqual(self.late(code), (143, "", ""))

    def test_more_of_them(self):
        """Each is looked at, however many have come before."""
        code = ("ending.heed('it')\ncame = []\nsignal.signal(signal.SIGHUP, lambda got, _: (came.append(got), "
                "os.write(writing, b'x')))\nreading, writing = os.pipe()\n"
                "for _ in range(100): late(signal.SIGHUP, os.read, reading, 1)\nprint(len(came))")
        self.assertEqual(self.late(code), (0, "100\n", ""))

    def test_what_cannot_raise(self):
        """Python reports what a `__del__` raises, and goes on."""
        code = ("class It:\n    def __del__(self):\n        os.kill(os.getpid(), signal.SIGTERM)\n"
                "ending.heed('it')\nIt()\nos.read(os.pipe()[0], 1)")
        self.assertEqual(self.late(code), (143, "", "it: ended by signal 15\n"))
        # A poke that comes while the end is being kept.
        poked = "write = os.write\nos.write = lambda *it: (os.kill(os.getpid(), ending.POKE), write(*it))\n"
        self.assertEqual(self.late(code.replace("\nIt()", f"\n{poked}It()")), (143, "", "it: ended by signal 15\n"))

    def test_all_at_once(self):
        """Signals of several numbers are one end, and one line; what is cleared up is."""
        code = ("ending.hold(ending.ALL)\nfor it in ending.ALL: os.kill(os.getpid(), it)\n"
                "try:\n    ending.heed('it', '', ending.ALL)\nfinally:\n    print('cleared up')")
        status, out, err = self.late(code)
        self.assertIn(status, NAMES.values())
        self.assertEqual((out, err), ("cleared up\n", f"it: ended by signal {status - 128}\n"))

    def test_a_run_that_says_nothing(self):
        """The signal is passed on at once, not behind the program's next output."""
        program = self.folder / "program"
        program.write_text("#!/bin/sh\ntrap 'echo told; exit 9' TERM\n: >ready\nwhile :; do sleep 0.05; done\n")
        program.chmod(0o755)
        code = ("import threading, time\nfrom lizdrog_tools import run_lizdrog\nread, numbers = os.read, "
                "[signal.SIGTERM]\ndef read_late(file, size):\n"
                "    if not numbers or threading.get_ident() != threading.main_thread().ident:\n"
                "        return read(file, size)\n"
                "    while not os.path.exists('ready'): time.sleep(0.01)\n"
                "    return late(numbers.pop(), read, file, size)\n"
                "os.read = read_late\nraise SystemExit(run_lizdrog.main())")
        status, out, _ = self.late(code, "--program", program, "generate", "7", "400", "40")
        self.assertEqual((status, out), (9, "told\n"))

    def test_a_tool_that_takes_the_place_of_the_command(self):
        """A signal is not lost with the process of before, but heeded by the tool."""
        code = ("from lizdrog_tools import run_lizdrog\nexecv = os.execv\n"
                "os.execv = lambda *words: late(signal.SIGTERM, execv, *words)\nrun_lizdrog.main()")
        self.assertEqual(self.late(code, "connect", "unix:s"), (-signal.SIGTERM, "", ""))
        line = "lizdrog serve: ended by signal 15 before a server was started\n"
        self.assertEqual(self.late(code, "serve", "p.toml", "--listen", "unix:s"), (143, "", line))


class WhileAServerRuns(unittest.TestCase):
    def test_signals_at_once_are_one(self):
        it = bridge.Bridge.__new__(bridge.Bridge)
        it.signals, it.last_signal = 0, -bridge.PAIR_SECONDS
        counted = []
        for now in (0.0, 0.001, 0.2, 0.6, 0.601):
            with mock.patch.object(bridge.time, "monotonic", lambda now=now: now):
                it.signalled(signal.SIGTERM, None)
            counted.append(it.signals)
        self.assertEqual(counted, [1, 1, 1, 2, 2])


class WhileAProgramRuns(Folder):
    def test_a_run_hands_signals_on(self):
        program = self.folder / "program"
        program.write_text("#!/bin/sh\ntrap 'echo told; exit 9' TERM\necho ready\nwhile :; do sleep 0.05; done\n")
        program.chmod(0o755)
        child = self.start(common.TOP / "lizdrog", "--program", program, "generate", "7", "400", "40")
        self.assertEqual(child.stdout.readline(), "ready\n")
        child.send_signal(signal.SIGTERM)
        self.assertEqual((child.stdout.read(), child.wait(SECONDS)), ("told\n", 9))


class WhileAProgramIsBuilt(Folder):
    def setUp(self):
        super().setUp()
        self.addCleanup(quick_build.IS_ENDING.clear)

    def test_tools_end_with_what_they_started(self):
        """What a tool has started holds the other end of a pipe, until it ends, too."""
        found, (reading, writing) = [], os.pipe()
        words = ("sh", "-c", "sleep 100 & wait")
        with open(reading, "rb") as pipe, open(self.folder / "log", "wb") as log:
            thread = threading.Thread(target=lambda: found.append(quick_build.call(words, log, pass_fds=(writing,))))
            thread.start()
            while not quick_build.RUNNING:
                time.sleep(0.01)
            time.sleep(0.2)
            os.close(writing)
            quick_build.end_all()
            thread.join(SECONDS)
            self.assertEqual(pipe.read(), b"")
        self.assertEqual((found, len(quick_build.RUNNING)), ([-signal.SIGTERM], 0))

    def test_no_further_tool_is_started(self):
        """A signal may come between two tools of a build."""
        quick_build.end_all()
        with open(self.folder / "log", "wb") as log, self.assertRaises(quick_build.CannotBuild):
            quick_build.call(("touch", self.folder / "started"), log)
        self.assertEqual(os.listdir(self.folder), ["log"])


if __name__ == "__main__":
    unittest.main()
