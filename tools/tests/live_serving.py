"""A server of `lizdrog serve` and clients for the tests: over the real live program where it is there, else over the
stand-in.

LIZDROG_TEST_LIVE_PROGRAM names the live program. The stand-in takes its answers of the batch program where that is
there.
"""
import json
import os
import pathlib
import signal
import socket
import subprocess
import sys
import threading
import time
import unittest

import common

GIVEN = os.environ.get("LIZDROG_TEST_LIVE_PROGRAM")
BUILT = (
    common.TOP / "crates" / "timing_live" / "out" / "timing_live",
    common.TOP / "out" / "quick_build" / "timing_live",
)
REAL = pathlib.Path(GIVEN) if GIVEN else next((it for it in BUILT if it.is_file() and os.access(it, os.X_OK)), None)
STAND_IN = common.TOP / "tools" / "tests" / "live_stand_in.py"
SECONDS = 60
needs_live = unittest.skipUnless(
    REAL, "there is no live program: the gate builds it, and `lizdrog --build` builds one without proof"
)
MARK = b"#lizdrog "


def take_signals():
    """Takes signals that the tests' caller may ignore, as one in the background does."""
    for number in (signal.SIGINT, signal.SIGHUP, signal.SIGQUIT):
        signal.signal(number, signal.SIG_DFL)


def is_gone(number):
    """Whether a process has ended, once it has or time is up."""
    deadline = time.monotonic() + SECONDS
    while time.monotonic() < deadline:
        try:
            state = pathlib.Path(f"/proc/{number}/stat").read_text().rpartition(")")[2].split()[0]
        except OSError:
            return True
        if state == "Z":
            return True
        time.sleep(0.01)
    return False


class Serving:
    """A running server; its clients; how it ended."""

    def __init__(self, folder, words, *options, listen=None, limits="", answers=True, sessions=2):
        self.folder, self.listen = pathlib.Path(folder), listen or f"unix:{folder}/socket"
        program = REAL or STAND_IN
        surroundings = {
            **os.environ,
            "LIZDROG_STAND_IN_PROGRAM": str(common.PROGRAM) if answers and common.PROGRAM else "",
        }
        start = (
            f"from lizdrog_tools.live import bridge, serve; {limits}; raise SystemExit(serve.main())" if limits else ""
        )
        front = [sys.executable, "-c", start] if limits else [sys.executable, common.TOOLS / "serve_live.py"]
        self.process = subprocess.Popen(
            [*front, *words, "--listen", self.listen, "--sessions", str(sessions), "--program", program, *options],
            cwd=folder,
            env={**surroundings, "PYTHONPATH": str(common.TOOLS), "TMPDIR": str(folder)},
            stdin=subprocess.DEVNULL,
            stdout=subprocess.PIPE,
            stderr=subprocess.PIPE,
            preexec_fn=take_signals,
        )
        self.said, self.ready = [], threading.Event()
        self.thread = threading.Thread(target=self.hear, daemon=True)
        self.thread.start()

    def hear(self):
        for line in self.process.stderr:
            self.said.append(line.decode())
            if line.endswith(b", ready\n"):
                self.ready.set()
        self.ready.set()

    def address(self):
        """The address that the server says, once it is ready."""
        assert self.ready.wait(SECONDS), self.said
        return next((it.split(" ")[2].rstrip(",") for it in self.said if it.endswith(", ready\n")), None)

    def client(self, name=None, **how):
        client = Client(self.address())
        if name:
            client.hello(name, **how)
        return client

    def child(self):
        """The number of the live program's process."""
        return int(pathlib.Path(f"/proc/{self.process.pid}/task/{self.process.pid}/children").read_text().split()[0])

    def end(self, number=signal.SIGTERM):
        """Ends it; its status, its output, and what it said."""
        if number and self.process.poll() is None:
            self.process.send_signal(number)
        status = self.process.wait(SECONDS)
        self.thread.join(SECONDS)
        return status, self.process.stdout.read().decode(), "".join(self.said)

    def close(self):
        if self.process.poll() is None:
            self.process.kill()
        self.process.wait(SECONDS)
        self.thread.join(SECONDS)
        for it in (self.process.stdout, self.process.stderr):
            it.close()


class Client:
    """A connection of the tests' own: it sends bytes, and hears lines."""

    def __init__(self, address):
        is_path = address.startswith("unix:")
        self.socket = socket.socket(socket.AF_UNIX if is_path else socket.AF_INET)
        self.socket.settimeout(SECONDS)
        self.socket.connect(
            address.removeprefix("unix:") if is_path else ("127.0.0.1", int(address.rpartition(":")[2]))
        )
        self.file, self.told = self.socket.makefile("rb"), []

    def send(self, *lines):
        self.socket.sendall(b"".join(it if isinstance(it, bytes) else it.encode() + b"\n" for it in lines))

    def tell(self, **what):
        self.send(MARK + json.dumps(what).encode() + b"\n")

    def hello(self, name, **how):
        self.tell(hello=1, name=name, **how)
        return self.control("seat")

    def line(self):
        """The next line of a reply; none at the end."""
        while True:
            line = self.file.readline()
            if not line.startswith(MARK):
                return line.decode("latin-1").removesuffix("\n") if line else None
            self.told.append(json.loads(line[len(MARK) :]))

    def control(self, key):
        """The next object of the bridge with this key."""
        while True:
            found = next((it for it in self.told if key in it), None)
            if found is not None:
                self.told.remove(found)
                return found
            line = self.file.readline()
            if not line:
                return None
            assert line.startswith(MARK), line
            self.told.append(json.loads(line[len(MARK) :]))

    def ask(self, *lines):
        """The next line of a reply, once these lines are sent."""
        self.send(*lines)
        return self.line()

    def rest(self):
        """All lines up to the end."""
        return list(iter(self.line, None))

    def close(self):
        self.file.close()
        self.socket.close()
