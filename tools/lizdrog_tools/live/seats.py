"""A session of the live server as the bridge sees it: the two FIFOs, what waits to be said, and whose reply comes next.

One command is with the server at a time: a command's line, the `commit_eco` of a group or the `end_what_if` of a draft
is answered before the next line is handed on. So a reply is always that of the last command. A group is handed on line
by line; at a wrong line of it the server answers at once, and passes over what is left of the group, which then has no
answer of its own.

A line is handed on whole, in one write: the end of an input ends a last line, too, and a part of `BUF_X16` is `BUF_X1`.
"""
import collections
import dataclasses
import fcntl
import os
import struct
import termios
from typing import Any

from lizdrog_tools.live.replies import LONGEST_LINE, Reply, ReplyReader, words_of

# The bytes of a line that is too long which are handed on: it is still too long.
CUT_LINE = LONGEST_LINE + 16
ATOMIC = 4096
PIPE_BYTES = 1 << 18
READ_BYTES = 1 << 18
MOST_QUEUED = 1 << 20
MOST_LATE = 1 << 20
ENDS = {(b"begin_eco",): b"commit_eco", (b"begin_what_if",): b"end_what_if"}
# A word that is no command: in a group it makes the server pass over the rest.
GIVE_UP = b"client_gone"


@dataclasses.dataclass
class Item:
    """The lines of a command, and the client that sent them; none for those that the bridge says itself."""

    sender: Any
    name: str | None
    first: int
    lines: list[bytes]

    def texts(self) -> list[str]:
        """Its lines, with a blank between words."""
        return [b" ".join(words_of(it)).decode("latin-1") for it in self.lines]

    def edits(self) -> list[str]:
        """The edits of an ECO."""
        texts = self.texts()
        return texts[1:-1] if texts[:1] == ["begin_eco"] else texts


class Seat:
    """One session: its FIFOs, its lines, its replies, and the client that sits there."""

    def __init__(self, number: int, folder: str):
        self.number = number
        self.names = (f"{folder}/in{number}", f"{folder}/out{number}")
        for name in self.names:
            os.mkfifo(name, 0o600)
        self.client, self.name, self.is_kept = None, None, False
        self.input: int | None = None
        self.output: int | None = os.open(self.names[1], os.O_RDONLY | os.O_NONBLOCK)
        self.queue: collections.deque = collections.deque()
        self.queued, self.rest = 0, b""
        self.reader, self.late, self.late_bytes, self.late_lost = ReplyReader(), collections.deque(), 0, 0
        # Of the input: lines that were handed on, whether a group is open, and whether a reply is to come.
        self.lines, self.item, self.open, self.is_wrong = 0, None, None, False
        self.is_waiting, self.own_lines = False, set()
        self.rows, self.errors, self.held, self.is_over, self.is_shut = 0, 0, None, False, False

    # ---------------------------------------------------------------------- opening and closing

    def try_open(self) -> bool:
        """Whether the input is open: it is once the server's thread of this session is there."""
        if self.input is None and self.is_shut:
            return False
        if self.input is None:
            try:
                self.input = os.open(self.names[0], os.O_WRONLY | os.O_NONBLOCK)
            except OSError:
                return False
            try:
                fcntl.fcntl(self.input, fcntl.F_SETPIPE_SZ, PIPE_BYTES)
            except OSError:
                pass
        return True

    def close_input(self) -> None:
        """Tells the server that no line follows."""
        self.queue.clear()
        self.queued, self.rest, self.is_shut = 0, b"", True
        if self.input is not None:
            os.close(self.input)
            self.input = None

    def close_output(self) -> None:
        if self.output is not None:
            os.close(self.output)
            self.output = None

    # ------------------------------------------------------------------------------------------------ lines

    def put(self, line: bytes | None, sender: Any) -> None:
        """A line that is to be handed on, or none where its sender says no more."""
        self.queue.append((line, sender))
        self.queued += len(line or b"")

    @property
    def is_full(self) -> bool:
        return self.queued > MOST_QUEUED

    def pump(self) -> str:
        """Hands on what may be. It is `idle` where nothing is left or a reply has to come first, `full` where the FIFO
        is full, `long` where a long line waits for an empty FIFO, and `gone` where the server reads no more."""
        while self.input is not None:
            if self.rest:
                state = self.write(self.rest)
                if state:
                    return state
            if not self.queue or self.is_waiting:
                return "idle"
            line, sender = self.queue.popleft()
            self.queued -= len(line or b"")
            if line is None:
                self.end_of(sender)
            else:
                self.hand_on(line, sender)
        return "idle"

    def end_of(self, sender: Any) -> None:
        """What is left open by a client that says no more is closed, so that it does nothing."""
        if self.open is None:
            self.own_lines.clear()
            sender.has_said_all = True
            return
        self.queue.appendleft((None, sender))
        for line in (self.open, GIVE_UP):
            self.queue.appendleft((line + b"\n", None))
            self.queued += len(line) + 1

    def hand_on(self, line: bytes, sender: Any) -> None:
        """Notes what a line begins or ends, and takes it to be written."""
        self.lines += 1
        self.rest = line if len(line) <= CUT_LINE else line[:CUT_LINE] + b"\n"
        if sender is None:
            self.own_lines.add(self.lines)
        elif sender.base is None:
            sender.base = self.lines - 1
        words = words_of(line)
        if words:
            self.note(tuple(words), line, sender)

    def note(self, words: tuple[bytes, ...], line: bytes, sender: Any) -> None:
        """Notes a line that is no comment."""
        if self.open is None:
            self.item = Item(sender, sender.name if sender else None, self.lines, [line])
            self.open, self.is_wrong = ENDS.get(words), False
            self.is_waiting = self.open is None
            return
        self.item.lines.append(line)
        if words == (self.open,):
            self.open, self.is_waiting = None, not self.is_wrong

    def write(self, data: bytes) -> str:
        """Writes a line in one piece, where there is room for it; tells why it does not."""
        if len(data) > ATOMIC and not self.is_empty():
            return "long"
        try:
            self.rest = data[os.write(self.input, data) :]
        except BlockingIOError:
            return "full"
        except BrokenPipeError:
            self.rest = b""
            return "gone"
        return ""

    def is_empty(self) -> bool:
        """Whether the server has read all that was written."""
        return struct.unpack("i", fcntl.ioctl(self.input, termios.FIONREAD, b"\0" * 4))[0] == 0

    # ------------------------------------------------------------------------------------------------ replies

    def read(self) -> list[Reply] | None:
        """The replies that have come; none where no more can come."""
        try:
            data = os.read(self.output, READ_BYTES)
        except BlockingIOError:
            return []
        return self.reader.take(data) if data else None

    def is_own(self, reply: Reply) -> bool:
        """Whether a reply is that to a line which the bridge said itself."""
        return reply.error_line in self.own_lines

    def answered(self, reply: Reply) -> Item | None:
        """The command of a reply; none where nothing was asked."""
        line = reply.error_line
        if line is not None:
            return self.erred(line)
        self.rows += 1
        is_asked, self.is_waiting = self.is_waiting, False
        if reply.is_row:
            self.held = reply.design
        return self.item if is_asked else None

    def erred(self, line: int) -> Item | None:
        """The command of an error, which names a line of the input."""
        is_asked = self.is_waiting or self.open is not None
        if self.is_waiting:
            self.open = None
        else:
            self.is_wrong = True
        self.is_waiting = False
        self.errors += line not in self.own_lines
        self.own_lines.discard(line)
        return self.item if is_asked else None

    # ------------------------------------------------------------------------------------------------ late replies

    def keep_late(self, item: Item, reply: Reply) -> None:
        """Keeps a reply for the client that comes back by its name; of too many the first are given up."""
        self.late.append({"question": item.texts(), "reply": reply.data.decode("latin-1")})
        self.late_bytes += len(reply.data)
        while self.late_bytes > MOST_LATE:
            self.late_bytes -= len(self.late.popleft()["reply"])
            self.late_lost += 1

    def take_late(self) -> tuple[list[dict], int]:
        """What was kept, and how many were given up."""
        found, lost = list(self.late), self.late_lost
        self.late.clear()
        self.late_bytes = self.late_lost = 0
        return found, lost
