"""The client's end of a connection: what is said to the bridge and to the session, and what is heard of both."""
import dataclasses
import select
import socket
import time
from collections.abc import Callable

from lizdrog_tools.live import wire
from lizdrog_tools.live.replies import Reply, ReplyReader

READ_BYTES = 1 << 16
WAIT_SECONDS = 1.0
# A server that is just being started listens within this time.
BEGIN_SECONDS, LOOK_SECONDS = 2.0, 0.05


class Refused(Exception):
    """Says in a sentence why there is no connection, or none any more."""


def connected(address: wire.Address) -> socket.socket:
    """A socket that is connected, as soon as a server listens."""
    deadline = time.monotonic() + BEGIN_SECONDS
    while True:
        made = address.socket()
        try:
            made.connect(address.place)
        except OSError as why:
            made.close()
            is_early = isinstance(why, (FileNotFoundError, ConnectionRefusedError)) and time.monotonic() < deadline
            if not is_early:
                raise Refused(f"no server answers at {address}: {why.strerror}") from why
            time.sleep(LOOK_SECONDS)
        else:
            return made


@dataclasses.dataclass
class Seat:
    """What the bridge tells of the seat that a client has."""

    number: int
    name: str
    is_again: bool
    design: int | None
    newest: int
    own: int | None
    first: int
    documents: list[str]
    journal: str | None


class Connection:
    """A connection to a bridge, with a seat of its own."""

    def __init__(self, address: wire.Address, say: Callable[[str], None]):
        self.socket, self.say_beside = connected(address), say
        self.reader, self.received, self.heard = ReplyReader(), b"", []
        self.base, self.said = 0, 0
        # What came beside answers: ECOs of others, replies that came late, and other words of the bridge.
        self.entries: list[dict] = []
        self.late: list[dict] = []
        self.notices: list[str] = []

    # ------------------------------------------------------------------------------------------------ hearing

    def next(self) -> dict | Reply:
        """What is heard next: an object of the bridge, or a reply of the session."""
        while not self.heard:
            try:
                data = self.socket.recv(READ_BYTES)
            except BlockingIOError:
                raise
            except OSError as why:
                raise Refused(f"the connection is lost: {why.strerror}") from why
            if not data:
                raise Refused("the connection was closed")
            *lines, self.received = (self.received + data).split(b"\n")
            for line in lines:
                if line.startswith(wire.MARK):
                    self.heard.append(wire.read_control(line) or {})
                else:
                    self.heard += self.reader.take(line + b"\n")
        return self.heard.pop(0)

    def beside(self, what: dict) -> None:
        """Takes what the bridge says besides answers."""
        if "entry" in what:
            self.entries.append(what["entry"])
        elif "late" in what:
            self.late += what["late"]
            if what.get("lost"):
                self.notices.append(f"{what['lost']} more replies came while you were away, and were given up")
        elif "base" in what:
            self.base = what["base"]
        elif "ended" in what or "fault" in what:
            raise Refused(what.get("ended") or what["fault"])
        elif "notice" in what:
            self.notices.append(what["notice"])

    def drain(self) -> None:
        """Takes what has come meanwhile."""
        self.socket.setblocking(False)
        try:
            while True:
                what = self.next()
                if isinstance(what, dict):
                    self.beside(what)
        except BlockingIOError:
            pass
        finally:
            self.socket.setblocking(True)

    # ------------------------------------------------------------------------------------------------ asking

    def ask(self, answer: str, **what: object) -> dict:
        """Asks the bridge, and gives the object with this answer."""
        self.tell(wire.control(**what))
        return self.answer(answer)

    def answer(self, answer: str) -> dict:
        """The next object with this answer."""
        while True:
            found = self.next()
            if isinstance(found, dict):
                if answer in found:
                    return found
                self.beside(found)

    def sit(self, name: str, take_over: bool) -> Seat:
        """Takes the seat of a name, or a free one."""
        self.tell(wire.control(hello=1, name=name, take_over=take_over))
        if not select.select([self.socket], [], [], WAIT_SECONDS)[0]:
            self.say_beside("the server reads its design: waiting for it")
        found = self.answer("seat")
        self.beside({"late": found["late"], "lost": found["lost"]})
        return Seat(
            found["seat"],
            found["name"],
            found["again"],
            found["design"],
            found["newest"],
            next(iter(found["own"]), None),
            found["first"],
            found["documents"],
            found["journal"],
        )

    def tell(self, data: bytes) -> None:
        try:
            self.socket.sendall(data)
        except OSError as why:
            self.drain_end()
            raise Refused(f"the connection is lost: {why.strerror}") from why

    def drain_end(self) -> None:
        """What the bridge said before it closed."""
        while True:
            found = self.next()
            if isinstance(found, dict):
                self.beside(found)

    def say(self, lines: list[str]) -> tuple[Reply, int | None]:
        """Says the lines of a command; gives its reply, and of an error which of the lines it names, from 0."""
        before = self.said
        self.said += len(lines)
        self.tell("".join(f"{it}\n" for it in lines).encode("latin-1"))
        while True:
            found = self.next()
            if isinstance(found, dict):
                self.beside(found)
                continue
            line = found.error_line
            return found, None if line is None else line - self.base - before - 1

    def close(self) -> None:
        self.socket.close()
