"""Trials of a live program whose sessions are used badly, and of one whose files fail.

hostile: seven sessions on FIFOs. One asks all the time and has to be answered; beside it one never reads, one sends a
gigabyte without a line's end, one sends binary lines, one goes away in the middle of a group, one reads no more while
it asks, and one goes behind its first answer. Each ends by itself, the design has the first one's ECOs alone, and the
memory does not grow with what was sent.
full: a journal on a full disk, one that can not be written, one that another process holds, one that is missing, and an
output on a full disk. Nobody is told of an entry that does not stand.
"""
import argparse
import contextlib
import os
import pathlib
import random
import resource
import signal
import subprocess
import threading
import time

from lizdrog_dev.live_child import WAIT_SECONDS, Amiss, Live, Talk, is_locked, milliseconds
from lizdrog_tools.mend_journal import Blocks

ASKER, SLOW, ENDLESS, BINARY, HALF, DEAF, GONE = range(7)
SESSIONS = 7
PIECE, ASKED, MOST_GROWTH_KB = 1 << 20, 20000, 64 << 10
LEAST_ROOM = TMPFS_BYTES = 65536
LARGE_ECO, LEAST_ANSWERS = 40, 200
NOT_WRITTEN, NOT_READ = 5, 4
NOBODY = 65534


# ------------------------------------------------------------------------------------------------ bad sessions

class Asker(threading.Thread):
    """Asks all the time, and makes an ECO now and then."""

    def __init__(self, talk: Talk):
        super().__init__(daemon=True)
        self.talk, self.is_over, self.seconds, self.ecos, self.fault = talk, False, [], 0, ""
        self.base = int(talk.ask("take").words[0])

    def run(self) -> None:
        number = 0
        try:
            while not self.is_over:
                number += 1
                is_eco = number % 50 == 0
                line = f"insert_net asker_{number}" if is_eco else "report_wns setup"
                began = time.perf_counter()
                reply = self.talk.ask(line)
                self.seconds.append(time.perf_counter() - began)
                is_due = reply.is_row and int(reply.words[0]) == self.base + number
                if not is_due or is_eco and reply.sort != b"accepted":
                    raise Amiss(f"{line} has the reply {reply.data[:80]!r}")
                self.ecos += is_eco
                time.sleep(0.001)
        except (Amiss, EOFError, OSError) as why:
            self.fault = repr(why)


def never_read(talk: Talk, end: str) -> None:
    """Asks and never reads, until it can send no more."""
    os.set_blocking(talk.source, False)
    with contextlib.suppress(BlockingIOError):
        for _ in range(ASKED):
            talk.send(f"report_path {end} setup\n".encode())


def endless(talk: Talk, size: int) -> None:
    """A line of so many bytes, and then a command."""
    piece = b"x" * PIECE
    for at in range(0, size, PIECE):
        talk.send(piece[: size - at])
    talk.send(b"\ntake\n")
    found = [talk.reply(), talk.reply()]
    if found[0].data != b"error C2 2\n" or found[1].sort != b"taken":
        raise Amiss(f"behind a line of {size} bytes come {[it.data for it in found]}")


def binary(talk: Talk, seed: int) -> None:
    """Bytes by chance; behind them a session answers as ever."""
    draw = random.Random(seed)
    # A first byte that is no mark of a comment, and no end of a line.
    lines = [b"\xff" + draw.randbytes(draw.randrange(200)).replace(b"\n", b"\xfe") + b"\n" for _ in range(2000)]
    writer = threading.Thread(target=talk.send, args=(b"".join([*lines, b"take\n"]),), daemon=True)
    writer.start()
    for number in range(2, len(lines) + 2):
        reply = talk.reply()
        if reply.data != b"error C1 %d\n" % number:
            raise Amiss(f"the binary line {number} has the reply {reply.data[:80]!r}")
    if talk.reply().sort != b"taken":
        raise Amiss("a session does not answer behind binary lines")
    writer.join()


def half_a_group(talk: Talk) -> None:
    talk.send(b"begin_eco\ninsert_net half_1\ninsert_net half_2\n")
    talk.close()


def read_no_more(talk: Talk, end: str) -> None:
    """Reads no more while it asks: the session ends by itself."""
    os.close(talk.sink)
    talk.sink = None
    with contextlib.suppress(BrokenPipeError):
        for _ in range(ASKED):
            talk.send(f"report_path {end} setup\n".encode())


def endpoint_of(live: Live) -> str:
    """An endpoint of the design."""
    rows = live.talks[ASKER].ask("report_worst setup 1").data.decode("latin-1").split("\n")
    if len(rows) < 2 or not rows[1]:
        raise Amiss("the design has no endpoint")
    return rows[1].split(" ")[0]


def use_badly(given: argparse.Namespace, live: Live, end: str) -> Asker:
    """All of it beside each other; the session that asks all the time."""
    asker = Asker(live.talks[ASKER])
    raised: list[BaseException] = []

    def kept(work, *words) -> None:
        try:
            work(*words)
        except (Amiss, EOFError, OSError) as why:
            raised.append(why)

    works = [
        (never_read, live.talks[SLOW], end),
        (endless, live.talks[ENDLESS], given.bytes),
        (binary, live.talks[BINARY], given.seed),
        (half_a_group, live.talks[HALF]),
        (read_no_more, live.talks[DEAF], end),
    ]
    threads = [threading.Thread(target=kept, args=it, daemon=True) for it in works]
    for it in [asker, *threads]:
        it.start()
    for (work, *_), it in zip(works, threads):
        it.join(WAIT_SECONDS)
        if it.is_alive():
            raise Amiss(f"hostile: {work.__name__} did not end in {WAIT_SECONDS} s")
    deadline = time.monotonic() + WAIT_SECONDS
    while len(asker.seconds) < LEAST_ANSWERS and asker.is_alive() and time.monotonic() < deadline:
        time.sleep(0.01)
    asker.is_over = True
    asker.join(WAIT_SECONDS)
    if raised or asker.fault:
        raise Amiss(f"hostile: {raised[:1] or asker.fault}")
    return asker


def try_hostile(given: argparse.Namespace, folder: pathlib.Path) -> str:
    """The bad sessions; what came of them, in a line."""
    journal = folder / "journal"
    journal.write_text("")
    with Live(given.program, given.design, folder, SESSIONS, journal) as live:
        if live.process.poll() is not None:
            raise Amiss(f"the program ended with status {live.process.returncode}")
        for it in live.talks:
            it.ask("take")
        live.talks[GONE].close()
        end, before = endpoint_of(live), live.memory()
        asker = use_badly(given, live, end)
        grown = live.memory("VmHWM") - before
        for it in live.talks:
            it.close()
        status, final = live.end()
    stand = Blocks(journal.read_text(encoding="latin-1"))
    if status != NOT_WRITTEN or stand.fault or stand.is_torn or stand.entries != asker.ecos:
        raise Amiss(f"status {status}, {stand.entries} entries of {asker.ecos} ECOs, fault {stand.fault}")
    if final.split(" ")[:2] != ["final", str(asker.ecos)] or "half_" in journal.read_text():
        raise Amiss(f"the last line is {final}")
    if grown > MOST_GROWTH_KB:
        raise Amiss(f"the memory grew by {grown} KB")
    return (
        f"hostile: {len(asker.seconds)} answers beside six bad sessions, {milliseconds(asker.seconds)}; a line of "
        f"{given.bytes} bytes; {asker.ecos} ECOs stand; the memory grew by {grown} KB"
    )


# ------------------------------------------------------------------------------------------------ files that fail

def push(talk: Talk, name: str) -> int:
    """ECO upon ECO until the session is told no more; the last number that it was told."""
    told = 0
    with contextlib.suppress(EOFError, BrokenPipeError):
        for number in range(1 << 20):
            nets = [f"insert_net {name}_{number}_{it}" for it in range(LARGE_ECO)]
            told = talk.ask("begin_eco", *nets, "commit_eco").design
    return told


def check_standing(given: argparse.Namespace, journal: pathlib.Path, told: int, folder: pathlib.Path) -> int:
    """How many entries stand in a journal, whose torn end is cut off; a batch run goes on from them."""
    found = Blocks(journal.read_text(encoding="latin-1"))
    if found.fault:
        raise Amiss(f"the journal has a fault that is not at its end: {found.fault}")
    whole, none = folder / "whole.journal", folder / "none.eco"
    whole.write_text(journal.read_text(encoding="latin-1")[: found.whole], encoding="latin-1")
    none.write_text("")
    words = [str(given.batch), "run", "--journal", str(whole), *given.design, str(none)]
    ran = subprocess.run(words, capture_output=True, text=True, check=False)
    last = ran.stdout.strip().split("\n")[-1].split(" ")
    if ran.returncode or last[:1] != ["final"] or int(last[1]) < told:
        raise Amiss(f"{told} was told, and a run behind it ends with {ran.returncode}: {' '.join(last)}")
    return int(last[1])


def full_journal(given: argparse.Namespace, folder: pathlib.Path, journal: pathlib.Path, before) -> str:
    """Two sessions make ECOs until the journal takes no more."""
    told: list[int] = []
    with Live(given.program, given.design, folder, 2, journal, before=before) as live:
        if live.process.poll() is not None:
            raise Amiss(f"the program ended with status {live.process.returncode}")
        works = [lambda it=it, at=at: told.append(push(it, f"s{at}")) for at, it in enumerate(live.talks)]
        threads = [threading.Thread(target=it, daemon=True) for it in works]
        for it in threads:
            it.start()
        for it in threads:
            it.join(WAIT_SECONDS)
        status, _ = live.end()
    if status != NOT_WRITTEN or not told or max(told) < 1:
        raise Amiss(f"a full disk: status {status}, told {told}")
    stand = check_standing(given, journal, max(told), folder)
    return f"{max(told)} were told and {stand} stand"


def least_room() -> None:
    """Files are no longer than some; a write that is longer fails."""
    signal.signal(signal.SIGXFSZ, signal.SIG_IGN)
    resource.setrlimit(resource.RLIMIT_FSIZE, (LEAST_ROOM, LEAST_ROOM))


@contextlib.contextmanager
def small_disk(folder: pathlib.Path):
    """A file system of some bytes, where this user may mount one; else none."""
    folder.mkdir()
    words = ["mount", "-t", "tmpfs", "-o", f"size={TMPFS_BYTES},mode=777", "tmpfs", str(folder)]
    try:
        is_there = subprocess.run(words, capture_output=True, check=False).returncode == 0
    except OSError:
        is_there = False
    try:
        yield is_there
    finally:
        if is_there:
            subprocess.run(["umount", str(folder)], check=False)


def begun(given: argparse.Namespace, folder: pathlib.Path, journal: pathlib.Path, before=None) -> tuple[int, str]:
    """A session that makes one ECO and ends; the status, and all that was written."""
    option = ["--journal", str(journal)]
    ran = subprocess.run(
        [str(given.program), "live", *option, *given.design],
        input=b"insert_net m1\n",
        capture_output=True,
        check=False,
        cwd=folder,
        preexec_fn=before,
    )
    return ran.returncode, ran.stdout.decode("latin-1")


def as_nobody() -> None:
    os.setgroups([])
    os.setgid(NOBODY)
    os.setuid(NOBODY)


def no_journal(given: argparse.Namespace, folder: pathlib.Path) -> list[str]:
    """Journals that can not be had: nobody is told of an ECO."""
    told = []
    status, out = begun(given, folder, folder / "absent")
    if status != NOT_READ or out != f"fault shelf {folder}/absent failed\n" or (folder / "absent").exists():
        raise Amiss(f"a journal that is missing: status {status}, {out!r}")
    told.append("one that is missing is refused")
    held = folder / "held"
    held.write_text("")
    with Live(given.program, given.design, folder, 0, held) as live:
        live.talks[0].ask("take")
        if not is_locked(held):
            raise Amiss("a live program does not lock its journal")
        status, out = begun(given, folder, held)
        if status != NOT_WRITTEN or "accepted" in out:
            raise Amiss(f"a journal that another program holds: status {status}, {out!r}")
        live.end()
    told.append("one that another program holds")
    with small_disk(folder / "fixed") as is_there:
        fixed = folder / "fixed" / "journal" if is_there else folder / "fixed.journal"
        fixed.write_text("")
        before = None
        if is_there:
            subprocess.run(["mount", "-o", "remount,ro", str(folder / "fixed")], check=True)
        elif os.getuid():
            fixed.chmod(0o444)
        else:
            folder.chmod(0o755)
            before = as_nobody
        status, out = begun(given, folder, fixed, before)
        if status != NOT_WRITTEN or "accepted" in out or fixed.read_text():
            raise Amiss(f"a journal that can not be written: status {status}, {out!r}")
    told.append("one that can not be written")
    return told


def full_output(given: argparse.Namespace, folder: pathlib.Path) -> str:
    """One of two sessions has its output on a full disk: it ends alone."""
    with Live(given.program, given.design, folder, 2, outputs={2: "/dev/full"}) as live:
        live.talks[1].send(b"take\n")
        for number in range(1, 101):
            if int(live.talks[0].ask("report_wns setup").words[0]) != number:
                raise Amiss("a session suffers from another's output")
        status, final = live.end()
    if status != NOT_WRITTEN or not final.startswith("final 0 "):
        raise Amiss(f"an output on a full disk: status {status}, {final}")
    return "an output on a full disk ends its session alone"


def try_full(given: argparse.Namespace, folder: pathlib.Path) -> str:
    """The files that fail; what came of them, in a line."""
    parts = []
    for name, before in (("limit", least_room), ("disk", None)):
        with small_disk(folder / name) if before is None else contextlib.nullcontext(True) as is_there:
            if not is_there:
                parts.append("no small disk can be mounted here")
                continue
            place = folder / f"{name}-fifos"
            place.mkdir()
            journal = (folder / name / "journal") if before is None else folder / "limited"
            journal.write_text("")
            what = "a full disk" if before is None else "a limit of files"
            parts.append(f"{what}: {full_journal(given, place, journal, before)}")
    return "full: " + "; ".join([*parts, *no_journal(given, folder), full_output(given, folder)])
