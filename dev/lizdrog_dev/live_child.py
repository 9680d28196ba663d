"""A live program in the hands of a trial: started on pipes, or on FIFOs for several sessions, without any tool between.
"""
import contextlib
import fcntl
import os
import pathlib
import select
import signal
import statistics
import subprocess
import time
from collections.abc import Callable

from lizdrog_tools.live.children import with_parent
from lizdrog_tools.live.replies import Reply, ReplyReader
from lizdrog_tools.run_lizdrog import surroundings

READ_BYTES, WAIT_SECONDS = 1 << 18, 120


class Amiss(Exception):
    """Says what is wrong."""


def milliseconds(seconds: list[float]) -> str:
    """The median of some times, and what 99 in 100 of them are below."""
    found = sorted(it * 1000 for it in seconds)
    most = found[min(len(found) - 1, len(found) * 99 // 100)]
    return f"median {statistics.median(found):.3f} ms, 99 % {most:.3f} ms"


class Talk:
    """A session: what it is sent, and what it says."""

    def __init__(self, source: int | None, sink: int | None):
        self.source, self.sink, self.reader, self.heard = source, sink, ReplyReader(), []

    def send(self, data: bytes) -> None:
        """Sends all of it."""
        view = memoryview(data)
        while view:
            view = view[os.write(self.source, view) :]

    def reply(self, seconds: float = WAIT_SECONDS) -> Reply:
        """The next reply."""
        while not self.heard:
            if not select.select([self.sink], [], [], seconds)[0]:
                raise Amiss(f"no reply within {seconds} s")
            data = os.read(self.sink, READ_BYTES)
            if not data:
                raise EOFError
            self.heard += self.reader.take(data)
        return self.heard.pop(0)

    def ask(self, *lines: str) -> Reply:
        """The reply to the lines of one command."""
        self.send("".join(f"{it}\n" for it in lines).encode("latin-1"))
        return self.reply()

    def timed(self, *lines: str) -> float:
        """The seconds until the reply is there."""
        began = time.perf_counter()
        self.ask(*lines)
        return time.perf_counter() - began

    def close(self) -> None:
        """Says no more, and reads no more."""
        for it in {self.source, self.sink} - {None}:
            with contextlib.suppress(OSError):
                os.close(it)
        self.source = self.sink = None

    def end_input(self) -> None:
        """Says no more."""
        if self.source is not None:
            os.close(self.source)
            self.source = None


class Live:
    """A live program; without pairs its one session is on its standard input and output."""

    def __init__(
        self,
        program: pathlib.Path,
        design: list[str],
        folder: pathlib.Path,
        pairs: int = 0,
        journal: pathlib.Path | None = None,
        outputs: dict[int, str] | None = None,
        before: Callable[[], None] | None = None,
    ):
        self.names = [
            (f"{folder}/in{it}", (outputs or {}).get(it) or f"{folder}/out{it}") for it in range(1, pairs + 1)
        ]
        for name in [it for pair in self.names for it in pair if not os.path.exists(it)]:
            os.mkfifo(name)
        option = ["--journal", str(journal)] if journal else []
        words = [str(program), "live", *option, *design, *(it for pair in self.names for it in pair)]
        begin = with_parent()
        self.process = subprocess.Popen(
            words,
            stdin=subprocess.DEVNULL if pairs else subprocess.PIPE,
            stdout=subprocess.PIPE,
            env=surroundings(),
            bufsize=0,
            preexec_fn=lambda: (begin(), before() if before else None),
        )
        self.talks = [self.open(*it) for it in self.names] if pairs else [self.standard()]

    def standard(self) -> Talk:
        return Talk(os.dup(self.process.stdin.fileno()), os.dup(self.process.stdout.fileno()))

    def open(self, source: str, sink: str) -> Talk:
        """Opens the FIFOs of a session, as soon as the program has opened them, too."""
        out = None
        if pathlib.Path(sink).is_fifo():
            out = os.open(sink, os.O_RDONLY | os.O_NONBLOCK)
            os.set_blocking(out, True)
        deadline = time.monotonic() + WAIT_SECONDS
        while time.monotonic() < deadline and self.process.poll() is None:
            with contextlib.suppress(OSError):
                talk = Talk(os.open(source, os.O_WRONLY | os.O_NONBLOCK), out)
                os.set_blocking(talk.source, True)
                return talk
            time.sleep(0.002)
        return Talk(None, out)

    def memory(self, name: str = "VmRSS") -> int:
        """How many kilobytes it has in memory, or had at most (VmHWM)."""
        text = pathlib.Path(f"/proc/{self.process.pid}/status").read_text()
        return int(text.split(f"{name}:")[1].split()[0])

    def kill(self) -> None:
        self.process.send_signal(signal.SIGKILL)
        self.process.wait()

    def end(self) -> tuple[int, str]:
        """Ends the inputs; its status, and the last line that it wrote on its standard output."""
        for it in self.talks:
            it.end_input()
        if self.process.stdin:
            self.process.stdin.close()
            self.process.stdin = None
        try:
            out = self.process.communicate(timeout=WAIT_SECONDS)[0].decode("latin-1")
        except subprocess.TimeoutExpired as why:
            raise Amiss("the program does not end with its inputs") from why
        return self.process.returncode, out.rstrip("\n").split("\n")[-1]

    def __enter__(self) -> "Live":
        return self

    def __exit__(self, *_: object) -> None:
        if self.process.poll() is None:
            self.kill()
        for it in self.talks:
            it.close()
        for it in (self.process.stdin, self.process.stdout):
            if it:
                it.close()


def is_locked(file: pathlib.Path) -> bool:
    """Whether a process holds the lock of a file."""
    with open(file, "rb") as opened:
        try:
            fcntl.flock(opened, fcntl.LOCK_SH | fcntl.LOCK_NB)
        except BlockingIOError:
            return True
    return False
