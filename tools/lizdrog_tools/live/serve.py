"""A live server that clients attach to: lizdrog serve DESIGN [WORKERS] --listen ADDRESS [options]

DESIGN is EARLY LATE NETLIST SDC SPEF and WORKERS, as for `lizdrog run`, or FILE.toml, which names them. The live server
reads the design once, and each client that attaches (`lizdrog connect`) has a session of its own on it. A session
outlives its client, who takes it up again by its name.

  --listen unix:PATH             a Unix socket, for this user alone (mode 600)
  --listen tcp:127.0.0.1:PORT    a port of the loopback address, for all users of this machine; PORT 0 takes a free one
  --sessions N                   how many sessions, 1 to 16 (default 4)
  --journal NAME                 goes on from the entries of this file, and adds each accepted ECO before anybody hears of it
  --transcript FOLDER            keeps what each session asked and heard, for tools/check_sessions.py
  --program FILE, --proved       this program; refuses one that is not proved

SIGTERM and SIGINT end it: the sessions are closed, and the server writes its last line. A further signal, a third of a
second later or more, ends the server at once, with status 143. The status is else that of the live server (`lizdrog
--help`), and 70 where there is none. docs/LIVE.md walks through it.
"""
import argparse
import contextlib
import os
import shutil
import socket
import stat
import subprocess
import sys
import tempfile
from collections.abc import Iterator

from lizdrog_tools import command_line, convert_journal, explain_fault, programs, run_lizdrog
from lizdrog_tools.files import InputFault, parsed
from lizdrog_tools.live import wire
from lizdrog_tools.live.bridge import Bridge, status_text
from lizdrog_tools.live.children import with_parent
from lizdrog_tools.live.transcripts import Transcripts
from lizdrog_tools.places import TOP
from lizdrog_tools.run_project import read_documents

WRONG_WORDS, CANNOT_LISTEN, CANNOT_WRITE, INTERRUPTED = 2, 5, 5, 130
MOST_SESSIONS = 16
DOCUMENT_WORDS = 5


class CannotListen(Exception):
    """Says in a sentence why nothing listens."""


def say(line: str) -> None:
    with contextlib.suppress(OSError):
        print(f"lizdrog serve: {line}", file=sys.stderr, flush=True)


def arguments(words: list[str]) -> argparse.Namespace:
    parser = argparse.ArgumentParser(
        prog="lizdrog serve",
        description=__doc__,
        formatter_class=argparse.RawDescriptionHelpFormatter,
        usage="lizdrog serve DESIGN [WORKERS] --listen ADDRESS [--sessions N] [--journal NAME]",
    )
    parser.add_argument("design", nargs="+", help=argparse.SUPPRESS)
    for name in ("--listen", "--sessions", "--journal", "--transcript", "--program"):
        parser.add_argument(
            name, help=argparse.SUPPRESS, required=name == "--listen", default="4" if name == "--sessions" else None
        )
    parser.add_argument("--proved", action="store_true", help=argparse.SUPPRESS)
    given = parser.parse_intermixed_args(words)
    if not command_line.is_number(given.sessions, MOST_SESSIONS):
        parser.error(f"--sessions is a number from 1 to {MOST_SESSIONS}, and here it is {given.sessions}")
    if given.program and given.proved:
        parser.error("--program and --proved do not go together")
    return given


def documents_of(design: list[str]) -> list[str]:
    """The five documents and the number of workers."""
    if len(design) <= 2 and design[0].endswith(".toml"):
        documents, workers = read_documents(design[0])
        design = [*documents, *(design[1:] or [workers])]
    if len(design) != DOCUMENT_WORDS + 1 or not command_line.is_number(design[-1], command_line.MOST_WORKERS):
        raise InputFault(
            "the words of the design",
            None,
            "they are EARLY LATE NETLIST SDC SPEF WORKERS, or FILE.toml and perhaps WORKERS, "
            f"a number from 1 to {command_line.MOST_WORKERS}",
        )
    return design


def is_stale(path: str) -> bool:
    """Whether a path is a socket that nobody listens at any more."""
    with socket.socket(socket.AF_UNIX, socket.SOCK_STREAM) as trial:
        try:
            trial.connect(path)
        except ConnectionRefusedError:
            return True
        except OSError:
            return False
    return False


def make_room(path: str) -> None:
    """Takes away a socket that an earlier server left, and nothing else."""
    try:
        mode = os.lstat(path).st_mode
    except FileNotFoundError:
        return
    except OSError as why:
        raise CannotListen(f"{path}: {why.strerror}") from why
    if not stat.S_ISSOCK(mode):
        raise CannotListen(f"{path} is there and is no socket: nothing was changed")
    if not is_stale(path):
        raise CannotListen(f"{path}: another server listens there")
    os.unlink(path)


@contextlib.contextmanager
def listening(word: str) -> Iterator[tuple[socket.socket, wire.Address]]:
    """A socket that listens at an address, and the address with its port."""
    address = wire.address_of(word)
    with address.socket() as listener:
        if address.path:
            make_room(address.path)
        else:
            listener.setsockopt(socket.SOL_SOCKET, socket.SO_REUSEADDR, 1)
        before = os.umask(0o177)
        try:
            listener.bind(address.place)
        except (OSError, OverflowError) as why:
            raise CannotListen(f"{address}: {getattr(why, 'strerror', None) or why}") from why
        finally:
            os.umask(before)
        try:
            listener.listen(64)
            listener.setblocking(False)
            yield listener, address if address.path else wire.Address(port=listener.getsockname()[1])
        finally:
            if address.path:
                with contextlib.suppress(OSError):
                    os.unlink(address.path)


def saved_count(journal: str | None) -> int:
    """How many entries a journal has; 0 where it cannot be read, which the server then says."""
    if journal is None:
        return 0
    try:
        return len(parsed(journal, convert_journal.read_journal, may_be_empty=True))
    except (InputFault, OSError):
        return 0


def start(program: str, journal: str | None, documents: list[str], count: int, folder: str) -> subprocess.Popen:
    """Starts the live server, out of the reach of the terminal's signals."""
    option = ["--journal", journal] if journal is not None else []
    pairs = [f"{folder}/{way}{number}" for number in range(1, count + 1) for way in ("in", "out")]
    try:
        return subprocess.Popen(
            [program, "live", *option, *documents, *pairs],
            stdin=subprocess.DEVNULL,
            stdout=subprocess.PIPE,
            env=run_lizdrog.surroundings(),
            start_new_session=True,
            preexec_fn=with_parent(),
        )
    except OSError as why:
        raise programs.Stop(f"{program} does not start: {why.strerror}") from why


def absolute(name: str) -> str:
    return name if name == "none" else os.path.abspath(name)


def report(bridge: Bridge, status: int, given: argparse.Namespace, documents: list[str]) -> int:
    """Says how it ended, and what a fault means; gives the status, 5 where the last line could not be written."""
    output = bridge.output.decode("latin-1")
    is_written = run_lizdrog.write_all(bridge.output)
    rows, errors = sum(it.rows for it in bridge.seats), sum(it.errors for it in bridge.seats)
    ecos = sum(map(bool, bridge.entries))
    say(f"ended with {status_text(status)}: {bridge.served} clients, {rows} rows, {errors} wrong lines, {ecos} ECOs")
    if bridge.transcripts and bridge.is_ready:
        named = given.program and os.path.abspath(given.program)
        check = bridge.transcripts.check(documents, f"{TOP}/tools/check_sessions.py", named)
        say(f"to check what each session heard: {check}")
    if status > 1 and output.startswith("fault"):
        words = ["run", *(["--journal", given.journal] if given.journal else []), *documents]
        for line in explain_fault.explain(status, output, words):
            say(line)
    if status > 1 and given.journal and run_lizdrog.lacks_line_end(given.journal):
        mend = f"`tools/mend_journal.py {given.journal}`"
        say(f"{given.journal} does not end with a line feed: {mend} tells where it is torn")
    if status == CANNOT_WRITE and given.journal:
        say(f"{given.journal} could not be written, or another server holds it")
    return status if is_written else max(status, CANNOT_WRITE)


def serve(given: argparse.Namespace, documents: list[str], program: str) -> int:
    """Serves until it ends; gives the status."""
    count, folder = int(given.sessions), tempfile.mkdtemp(prefix="lizdrog-live-")
    try:
        with listening(given.listen) as (listener, address):
            say(f"{address}, {count} session{'s' if count > 1 else ''}: the server reads the design")
            about = {
                "first": saved_count(given.journal),
                "documents": [absolute(it) for it in documents[:DOCUMENT_WORDS]],
                "journal": given.journal and os.path.abspath(given.journal),
            }
            transcripts = Transcripts(given.transcript, count, given.journal) if given.transcript else None
            bridge = Bridge(folder, count, listener, about, lambda line: say(f"{address}, {line}"), transcripts)
            status = bridge.run(lambda: start(program, given.journal, documents, count, folder))
    finally:
        shutil.rmtree(folder, ignore_errors=True)
    return report(bridge, status, given, documents)


def main() -> int:
    given = arguments(sys.argv[1:])
    try:
        documents = documents_of(given.design)
        program = os.path.abspath(given.program) if given.program else programs.choose_live(given.proved, False, say)
        return serve(given, documents, program)
    except (InputFault, wire.WrongAddress) as why:
        say(str(why))
        return WRONG_WORDS
    except CannotListen as why:
        say(str(why))
        return CANNOT_LISTEN
    except OSError as why:
        say(f"{why.filename}: {why.strerror}")
        return CANNOT_LISTEN
    except programs.Stop as why:
        say(str(why))
        return run_lizdrog.NO_PROGRAM
    except KeyboardInterrupt:
        return INTERRUPTED
