"""Trials of a live server with clients of `lizdrog serve`: they work beside each other, or the server is killed.

work: clients draw questions, edits, groups, drafts and wrong lines, wait for each answer, and sometimes go away in the
middle of a group and come back by their name. Then it is looked whether
  - each client heard one row for each of its commands, in order, and no other; and they are those that the bridge
  noted;
  - each accepted ECO is the journal's entry of its number, with its edits and its session;
  - the answers are those of one session alone (tools/check_sessions.py, by the batch program).
kills: a server that takes ECOs of four clients is killed (SIGKILL) at a random moment, again and again. Behind each
kill a run of the batch program goes on from the journal, cut where it is torn, and has each ECO that was told.

The answers' times are those of a client, and the bridge's part is in them.
"""
import argparse
import dataclasses
import os
import pathlib
import random
import signal
import subprocess
import sys
import threading
import time
from collections.abc import Callable

from lizdrog_dev.live_child import Amiss, milliseconds
from lizdrog_tools import convert_journal
from lizdrog_tools.check_sessions import in_order
from lizdrog_tools.files import parsed
from lizdrog_tools.liberty import Library, read_library
from lizdrog_tools.live import wire
from lizdrog_tools.live.client import Connection, Refused
from lizdrog_tools.live.replies import Reply
from lizdrog_tools.mend_journal import Blocks
from lizdrog_tools.places import TOOLS
from lizdrog_tools.verilog import Joined, Netlist, read_netlist

KILLED_CLIENTS, READY_SECONDS, LARGE_ECO, EACH_JOURNAL = 4, 120, 60, 10


@dataclasses.dataclass(frozen=True)
class Told:
    """A command of a client, its reply, and how long that took."""

    lines: list[str]
    reply: Reply
    seconds: float


class Draws:
    """Draws the commands of a client."""

    def __init__(self, netlist: Netlist, library: Library, seed: str):
        self.random, self.seed, self.count, self.library = random.Random(seed), seed, 0, library
        joined = Joined(netlist, library)
        self.instances, self.ends = sorted(netlist.instances), joined.endpoints()
        self.cells = {name: it.cell for name, it in netlist.instances.items()}
        sinks = {name: [it for it in net.sinks if ":" in it] for name, net in joined.nets.items()}
        self.sinks = {name: found for name, found in sinks.items() if found}
        self.nets = sorted(self.sinks)
        self.like: dict[tuple, list[str]] = {}
        for name, cell in sorted(library.cells.items()):
            self.like.setdefault(self.form(cell), []).append(name)
        self.buffers = [
            name
            for name, cell in sorted(library.cells.items())
            if not cell.data_pins() and sorted(way for way, _ in cell.pins.values()) == ["input", "output"]
        ]

    @staticmethod
    def form(cell) -> tuple:
        return tuple(sorted((pin, way) for pin, (way, _) in cell.pins.items()))

    def edit(self) -> str:
        draw, self.count = self.random, self.count + 1
        kind = draw.choice(["repower"] * 5 + ["buffer", "net", "wires"])
        if kind == "repower":
            name = draw.choice(self.instances)
            return f"repower_gate {name} {draw.choice(self.like[self.form(self.library.cells[self.cells[name]])])}"
        net = draw.choice(self.nets)
        if kind == "buffer":
            fresh = f"{self.seed}_{self.count}"
            return f"insert_buffer {net} b{fresh} m{fresh} {draw.choice(self.buffers)} {draw.choice(self.sinks[net])}"
        return (
            f"insert_net n{self.seed}_{self.count}"
            if kind == "net"
            else f"set_parasitics {net} c #1 {draw.randrange(9999)}"
        )

    def question(self) -> str:
        draw, end, kind = self.random, self.random.choice(self.ends), self.random.choice(["setup", "hold"])
        return draw.choice(
            [
                f"report_wns {kind}",
                f"report_tns {kind}",
                f"report_worst {kind} {draw.randrange(1, 20)}",
                f"report_endpoint {end} {kind}",
                f"report_path {end} {kind}",
                f"report_slack {end} late rise",
            ]
        )

    def command(self) -> list[str]:
        """A command, or a wrong line."""
        draw, edits = self.random, [self.edit() for _ in range(self.random.randrange(1, 4))]
        kind = draw.choices(
            ["question", "edit", "group", "draft", "take", "await", "wrong", "group with a wrong line"],
            [50, 12, 6, 6, 10, 3, 2, 2],
        )[0]
        if kind == "group with a wrong line":
            edits.insert(draw.randrange(len(edits) + 1), "rubbish")
        return {
            "question": [self.question()],
            "edit": edits[:1],
            "take": ["take"],
            "await": [f"await {self.count} 20"],
            "wrong": [draw.choice(["rubbish", "report_wns seutp", "commit_eco"])],
            "draft": ["begin_what_if", *edits, self.question(), "drop_last", "end_what_if"],
        }.get(kind) or ["begin_eco", *edits, "commit_eco"]


class Serving:
    """A server of `lizdrog serve`."""

    def __init__(self, given: argparse.Namespace, folder: pathlib.Path, count: int, *options: str):
        words = [
            sys.executable,
            str(TOOLS / "serve_live.py"),
            *given.design,
            "--listen",
            f"unix:{folder}/socket",
            "--sessions",
            str(count),
            "--journal",
            str(folder / "journal"),
            "--program",
            str(given.program),
            *options,
        ]
        self.process = subprocess.Popen(
            words, stdin=subprocess.DEVNULL, stdout=subprocess.PIPE, stderr=subprocess.PIPE, text=True
        )
        self.said: list[str] = []
        self.address = wire.Address(path=f"{folder}/socket")
        for line in self.process.stderr:
            self.said.append(line)
            if line.endswith(", ready\n"):
                break
        else:
            raise Amiss(f"the server does not begin: {''.join(self.said)}")

    def kill(self) -> None:
        """Kills the live program, and waits for the bridge's end."""
        children = pathlib.Path(f"/proc/{self.process.pid}/task/{self.process.pid}/children").read_text().split()
        os.kill(int(children[0]), signal.SIGKILL)
        self.process.communicate(timeout=READY_SECONDS)

    def end(self) -> int:
        """Ends it; its status."""
        self.process.terminate()
        self.process.communicate(timeout=READY_SECONDS)
        return self.process.returncode

    def __enter__(self) -> "Serving":
        return self

    def __exit__(self, *_: object) -> None:
        if self.process.poll() is None:
            self.end()


def sit(address: wire.Address, name: str) -> Connection:
    connection = Connection(address, lambda _: None)
    connection.sit(name, True)
    return connection


def work(address: wire.Address, name: str, draws: Draws, until: float, pause: float, told: list[Told]) -> None:
    """One client's work."""
    connection = sit(address, name)
    while time.monotonic() < until:
        lines = draws.command()
        began = time.monotonic()
        reply, _ = connection.say(lines)
        told.append(Told(lines, reply, time.monotonic() - began))
        if draws.random.random() < 0.02:
            if draws.random.random() < 0.5:
                connection.tell(f"begin_eco\n{draws.edit()}\n".encode())
            connection.close()
            connection = sit(address, name)
        time.sleep(draws.random.expovariate(1 / pause))
    connection.close()


def in_threads(works: list[Callable[[], None]]) -> None:
    """Does works beside each other; what one raises is raised."""
    raised: list[BaseException] = []

    def one(it: Callable[[], None]) -> None:
        try:
            it()
        except (Refused, Amiss, OSError, ValueError, LookupError) as why:
            raised.append(why)

    threads = [threading.Thread(target=one, args=(it,)) for it in works]
    for it in threads:
        it.start()
    for it in threads:
        it.join()
    if raised:
        raise Amiss(f"a client: {raised[0]!r}")


def check_client(name: str, session: int, told: list[Told], rows: bytes, entries: dict[int, list[str]]) -> None:
    """What a client heard: its rows in order, those that the bridge noted, and its ECOs in the journal."""
    heard = [it for it in told if it.reply.is_row]
    if [int(it.reply.words[0]) for it in heard] != list(range(1, len(heard) + 1)):
        raise Amiss(f"{name}: rows {[int(it.reply.words[0]) for it in heard]}")
    if b"".join(it.reply.data for it in heard) != rows:
        raise Amiss(f"{name}: what it heard is not what session {session} was told")
    for it in told:
        is_wrong = any(line in ("rubbish", "report_wns seutp") for line in it.lines) or it.lines == ["commit_eco"]
        if it.reply.is_row == is_wrong:
            raise Amiss(f"{name}: {it.lines} has the reply {it.reply.data[:80]!r}")
        if it.reply.is_row and it.reply.sort == b"accepted":
            edits = [in_order(line) for line in (it.lines[1:-1] if it.lines[0] == "begin_eco" else it.lines)]
            if entries.get(it.reply.design) != edits:
                raise Amiss(
                    f"{name}: {edits} is accepted as {it.reply.design}, and the journal has "
                    f"{entries.get(it.reply.design)}"
                )


def check_sessions(given: argparse.Namespace, told: pathlib.Path) -> str:
    """The answers by a run of one session; the tool's line."""
    scripts = [str(told / f"session{it + 1}.eco") for it in range(given.clients)]
    run = ["run", "--journal", str(told / "before.journal"), *given.design, *scripts]
    words = [str(TOOLS / "check_sessions.py"), "--program", str(given.batch), str(told / "output"), *run]
    checked = subprocess.run([sys.executable, *words], capture_output=True, text=True, check=False)
    if checked.returncode:
        raise Amiss(f"{checked.stdout}{checked.stderr}")
    return checked.stdout.strip()


def clients_work(given: argparse.Namespace, address: wire.Address) -> list[list[Told]]:
    """The clients' work; what each was told."""
    netlist, library = read_netlist(given.design[2]), read_library(given.design[1])
    told: list[list[Told]] = [[] for _ in range(given.clients)]
    draws = [Draws(netlist, library, f"{given.seed}{chr(97 + it)}") for it in range(given.clients)]
    for number in range(given.clients):
        sit(address, f"c{number}").close()
    until = time.monotonic() + given.seconds
    in_threads(
        [
            lambda it=it: work(address, f"c{it}", draws[it], until, given.pause, told[it])
            for it in range(given.clients)
        ]
    )
    return told


def try_work(given: argparse.Namespace, folder: pathlib.Path) -> str:
    """The clients' work, and what came of it; in a line."""
    (folder / "journal").write_text("")
    with Serving(given, folder, given.clients, "--transcript", str(folder / "told")) as serving:
        told = clients_work(given, serving.address)
        status = serving.end()
    if status not in (0, 1):
        raise Amiss(f"the server ended with status {status}")
    entries = parsed(folder / "journal", convert_journal.read_journal, may_be_empty=True)
    for number, it in enumerate(told):
        rows = (folder / "told" / f"session{number + 1}.rows").read_bytes()
        check_client(f"c{number}", number + 1, it, rows, entries)
    return f"work: {check_sessions(given, folder / 'told')}; {times([it for one in told for it in one])}"


def times(told: list[Told]) -> str:
    """How long answers took."""
    questions = [it.seconds for it in told if it.lines[0].startswith("report_")]
    ecos = [it.seconds for it in told if it.reply.is_row and it.reply.sort == b"accepted"]
    found = (("questions", questions), ("ECOs", ecos))
    return "; ".join(f"{len(seconds)} {name}, {milliseconds(seconds)}" for name, seconds in found if len(seconds) > 1)


def push(address: wire.Address, name: str, told: dict[int, list[str]]) -> None:
    """ECO upon ECO, until the server is gone."""
    try:
        connection = sit(address, name)
        for number in range(1 << 30):
            edit = "remove_net" if number % 2 else "insert_net"
            nets = [f"{edit} {name}_{number // 2}_{it}" for it in range(1 if number % 4 < 2 else LARGE_ECO)]
            reply, _ = connection.say(["begin_eco", *nets, "commit_eco"])
            told[reply.design] = nets
    except Refused:
        return


def kill_in_work(given: argparse.Namespace, folder: pathlib.Path, number: int, seconds: float) -> dict[int, list[str]]:
    """Kills a server that takes ECOs; the numbers that were told, with their edits."""
    told: dict[int, list[str]] = {}
    with Serving(given, folder, KILLED_CLIENTS) as serving:
        names = [f"k{number}_{it}" for it in range(KILLED_CLIENTS)]
        threads = [threading.Thread(target=push, args=(serving.address, it, told)) for it in names]
        for it in threads:
            it.start()
        time.sleep(seconds)
        serving.kill()
        for it in threads:
            it.join()
    return told


def kill_once(given: argparse.Namespace, folder: pathlib.Path, number: int, draw: random.Random) -> tuple[int, bool]:
    """One kill; gives how many ECOs stand, and whether the journal was torn."""
    told = kill_in_work(given, folder, number, draw.uniform(0.02, 0.4))
    journal = folder / "journal"
    found = Blocks(journal.read_text(encoding="latin-1"))
    if found.fault:
        raise Amiss(f"kill {number}: the journal has a fault that is not at its end: {found.fault}")
    os.truncate(journal, found.whole)
    entries = parsed(journal, convert_journal.read_journal, may_be_empty=True)
    lost = [it for it, edits in told.items() if entries.get(it) != edits]
    if lost:
        raise Amiss(f"kill {number}: {lost[0]} was told, and the journal has {entries.get(lost[0])}")
    (folder / "none.eco").write_text("")
    words = [str(given.batch), "run", "--journal", str(journal), *given.design, str(folder / "none.eco")]
    ran = subprocess.run(words, capture_output=True, text=True, check=False)
    last = ran.stdout.strip().split("\n")[-1].split(" ")
    if ran.returncode or last[0] != "final" or int(last[1]) < max(told, default=0):
        raise Amiss(
            f"kill {number}: {max(told, default=0)} was told, and a run behind it ends with {ran.returncode}: "
            f"{' '.join(last)}"
        )
    return int(last[1]), found.is_torn


def try_kills(given: argparse.Namespace, folder: pathlib.Path) -> str:
    """The kills, and what stands behind them; in a line. The journal begins anew now and then, so that runs stay short.
    """
    draw, stands, torn = random.Random(given.seed), 0, 0
    for number in range(given.kills):
        if number % EACH_JOURNAL == 0:
            (folder / "journal").write_text("")
            before = 0
        found, is_torn = kill_once(given, folder, number, draw)
        stands, torn, before = stands + found - before, torn + is_torn, found
    return f"kills: {given.kills}, behind which {stands} ECOs stand, and each that was told; {torn} journals were torn"
