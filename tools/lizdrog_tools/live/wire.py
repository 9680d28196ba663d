"""What goes over a socket between a client and the bridge, and how such a socket is named.

A client sends the lines of a script, and hears the rows and errors that the live server tells its session. Lines that
begin with `#lizdrog ` are between client and bridge alone, each with an object in JSON; the server never sees them. A
client that never says one is a plain one, such as `nc -U`, and hears none.
"""
import dataclasses
import json
import re
import socket

MARK = b"#lizdrog "
NAME = re.compile(r"[A-Za-z0-9][A-Za-z0-9_.-]{0,31}")
LOOPBACK = ("127.0.0.1", "localhost")
LONGEST_PATH = 107
MOST_PORT = 65535
TUNNEL = (
    "from another machine go through ssh: `ssh -N -L 7000:127.0.0.1:7000 HOST` there, and then "
    "`lizdrog connect tcp:127.0.0.1:7000`"
)


def prompt_and_alive(made: socket.socket) -> None:
    """A connection by TCP sends small pieces at once, and notices in time that the other end is gone."""
    made.setsockopt(socket.IPPROTO_TCP, socket.TCP_NODELAY, 1)
    made.setsockopt(socket.SOL_SOCKET, socket.SO_KEEPALIVE, 1)


class WrongAddress(Exception):
    """Says in a sentence why a word names no socket."""


@dataclasses.dataclass(frozen=True)
class Address:
    """A Unix socket by its path, or a port of the loopback address."""

    path: str = ""
    port: int = 0

    def __str__(self) -> str:
        return f"unix:{self.path}" if self.path else f"tcp:127.0.0.1:{self.port}"

    @property
    def place(self) -> str | tuple[str, int]:
        """What the system's calls take."""
        return self.path or ("127.0.0.1", self.port)

    def socket(self) -> socket.socket:
        """A new socket of this kind."""
        made = socket.socket(socket.AF_UNIX if self.path else socket.AF_INET, socket.SOCK_STREAM)
        if not self.path:
            prompt_and_alive(made)
        return made


def address_of(word: str) -> Address:
    """The address that a word names: unix:PATH, tcp:127.0.0.1:PORT, or a path alone."""
    if not word.startswith("tcp:"):
        path = word.removeprefix("unix:")
        if not path:
            raise WrongAddress("an address is unix:PATH or tcp:127.0.0.1:PORT")
        if len(path.encode()) > LONGEST_PATH:
            raise WrongAddress(f"the path of a socket has {LONGEST_PATH} bytes at most, and {path} is longer")
        return Address(path=path)
    host, _, port = word.removeprefix("tcp:").rpartition(":")
    if host not in LOOPBACK:
        raise WrongAddress(f"{word}: TCP is for the loopback address alone, as tcp:127.0.0.1:7000; {TUNNEL}")
    if not (port.isascii() and port.isdecimal() and int(port) <= MOST_PORT):
        raise WrongAddress(f"{word}: a port is a number up to {MOST_PORT}")
    return Address(port=int(port))


def control(**what: object) -> bytes:
    """The line that carries an object."""
    return MARK + json.dumps(what).encode("ascii") + b"\n"


def read_control(line: bytes) -> dict | None:
    """The object that a line carries; none where it carries none that can be read."""
    if not line.startswith(MARK):
        return None
    try:
        found = json.loads(line[len(MARK) :])
    except (ValueError, RecursionError):
        return None
    return found if isinstance(found, dict) else None
