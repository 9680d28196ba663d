"""The bridge between sockets and the FIFOs of a live server: it gives each client a seat, hands lines on, and replies
back.

One thread waits for all of them and never for one: what a client does not read is kept up to a limit, and then its
session alone is left unread; what a session does not read is left in the client's socket.
"""
import os
import select
import signal
import socket
import subprocess
import time
from collections.abc import Callable

from lizdrog_tools import check_sessions
from lizdrog_tools.live import wire
from lizdrog_tools.live.replies import Reply
from lizdrog_tools.live.seats import Item, Seat
from lizdrog_tools.live.transcripts import Transcripts

READ_BYTES = 1 << 16
# A client that sends so much without a line's end is cut off.
MOST_OPEN = 1 << 20
# What a client does not read is kept up to this, and then its session is not read.
MOST_UNREAD = 4 << 20
MOST_ENTRIES, MOST_CLIENTS = 1000, 256
OPEN_SECONDS, LONG_SECONDS, OVER_SECONDS, LAST_SECONDS = 0.01, 0.002, 0.2, 2.0
# Signals that come so close are one: timeout(1) sends its own to the command and to the group of it.
PAIR_SECONDS = 0.3
IN, OUT = select.EPOLLIN, select.EPOLLOUT
GONE = select.EPOLLHUP | select.EPOLLERR
SIGNALS = (signal.SIGTERM, signal.SIGINT, signal.SIGHUP)


class Client:
    """A connection: what it sent and what it is still to be sent."""

    def __init__(self, connection: socket.socket, number: int):
        self.socket, self.number, self.seat, self.name = connection, number, None, None
        self.received, self.to_send, self.unread = bytearray(), [], 0
        self.is_plain, self.is_read, self.has_said_all, self.is_ending = False, False, False, False
        # How many lines its session had read before its first one, once that is handed on; and whether it was told.
        self.base, self.is_base_told = None, False

    def fileno(self) -> int:
        return self.socket.fileno()

    def send(self, data: bytes) -> None:
        """Sends what is taken now, and keeps the rest."""
        if self.socket.fileno() < 0:
            return
        self.to_send.append(data)
        self.unread += len(data)
        if len(self.to_send) == 1:
            self.flush()

    def tell(self, **what: object) -> None:
        """Tells a client of the bridge; a plain one hears nothing."""
        if not self.is_plain:
            self.send(wire.control(**what))

    def flush(self) -> None:
        """Sends what is taken now; one that is gone takes all."""
        while self.to_send:
            try:
                sent = self.socket.send(self.to_send[0])
            except BlockingIOError:
                return
            except OSError:
                self.to_send, self.unread = [], 0
                return
            self.unread -= sent
            self.to_send[0] = self.to_send[0][sent:]
            if not self.to_send[0]:
                self.to_send.pop(0)


class Bridge:
    """The clients, the seats and the server, and who did what."""

    child: subprocess.Popen

    def __init__(
        self,
        folder: str,
        count: int,
        listener: socket.socket,
        about: dict,
        say: Callable[[str], None],
        transcripts: Transcripts | None,
    ):
        self.listener, self.about, self.say, self.transcripts = listener, about, say, transcripts
        self.seats = [Seat(number, folder) for number in range(1, count + 1)]
        self.clients: dict[int, Client] = {}
        self.poll, self.calls, self.masks = select.epoll(), {}, {}
        self.entries: list[dict] = []
        self.newest, self.served, self.output = about["first"], 0, b""
        self.is_ready, self.is_ending, self.signals, self.heeded = False, False, 0, 0
        self.last_signal = -PAIR_SECONDS

    # ------------------------------------------------------------------------------------------------ waiting

    def watch(self, file: int, mask: int, call: Callable[[int], None]) -> None:
        """Calls this where the file has one of these events."""
        if file not in self.masks:
            self.poll.register(file, mask)
        elif self.masks[file] != mask:
            self.poll.modify(file, mask)
        self.masks[file], self.calls[file] = mask, call

    def forget(self, file: int) -> None:
        if self.masks.pop(file, None) is not None:
            self.poll.unregister(file)
            del self.calls[file]

    def run(self, start: Callable[[], subprocess.Popen]) -> int:
        """Starts the server and serves until it has ended; gives its status."""
        waking, woken = socket.socketpair()
        for it in (waking, woken):
            it.setblocking(False)
        for number in SIGNALS:
            if signal.getsignal(number) is not signal.SIG_IGN:
                signal.signal(number, self.signalled)
        # The handler does nothing: the signal wakes the loop.
        signal.signal(signal.SIGCHLD, lambda *_: None)
        before = signal.set_wakeup_fd(woken.fileno(), warn_on_full_buffer=False)
        try:
            self.watch(waking.fileno(), IN, lambda _: waking.recv(READ_BYTES))
            self.child = start()
            os.set_blocking(self.child.stdout.fileno(), False)
            self.watch(self.child.stdout.fileno(), IN, self.read_server)
            for seat in self.seats:
                self.watch(seat.output, IN, lambda events, seat=seat: self.read_seat(seat))
            while self.child.poll() is None:
                self.step()
            return self.ended()
        finally:
            signal.set_wakeup_fd(before, warn_on_full_buffer=False)
            self.poll.close()
            for it in (waking, woken):
                it.close()

    def step(self) -> None:
        """Waits for what comes next and does it."""
        self.heed_signals()
        self.open_seats()
        late = [it for it in self.seats if it.rest and it.input is not None]
        closed = [it for it in self.seats if it.input is None and not it.is_shut]
        over = [it for it in self.seats if it.is_over and it.client is not None]
        found = self.poll.poll(LONG_SECONDS if late else OPEN_SECONDS if closed else OVER_SECONDS if over else -1)
        # Clients that are gone come first, so that their seats are free; new ones last, so that none has the number of
        # a file that was closed in this round.
        for file, events in sorted(found, key=lambda it: (it[0] == self.listener.fileno(), not it[1] & GONE)):
            call = self.calls.get(file)
            if call:
                call(events)
        for seat in late:
            self.pump(seat)
        if over and not found and self.child.poll() is None:
            self.tell_over(over)

    def open_seats(self) -> None:
        """Opens the inputs of the sessions that have begun; once all are open the server is ready."""
        for seat in self.seats:
            if seat.input is None and seat.try_open() and self.is_ending:
                self.end_seat(seat)
        if not self.is_ready and not self.is_ending and all(it.input is not None for it in self.seats):
            self.is_ready = True
            self.watch(self.listener.fileno(), IN, self.accept)
            self.say("ready")

    # ------------------------------------------------------------------------------------------------ clients

    def accept(self, _: int) -> None:
        try:
            connection, _ = self.listener.accept()
        except OSError:
            return
        if len(self.clients) >= MOST_CLIENTS:
            connection.close()
            return
        connection.setblocking(False)
        if connection.family == socket.AF_INET:
            wire.prompt_and_alive(connection)
        self.served += 1
        client = Client(connection, self.served)
        self.clients[connection.fileno()] = client
        self.look_at(client)

    def look_at(self, client: Client) -> None:
        """Waits for what the client may do now: say more, read more, or go."""
        if client.fileno() < 0:
            return
        may_say = not client.is_read and not client.is_ending and client.unread <= MOST_UNREAD
        if client.seat is not None and client.seat.is_full:
            may_say = False
        mask = (IN if may_say else 0) | (OUT if client.to_send else 0)
        self.watch(client.fileno(), mask, lambda events: self.at_client(client, events))
        if client.is_ending and not client.to_send:
            self.close(client)

    def at_client(self, client: Client, events: int) -> None:
        if events & OUT:
            client.flush()
            if client.seat is not None:
                self.look_at_output(client.seat)
        if events & GONE:
            while not client.is_read and self.read_client(client):
                pass
            self.close(client)
        elif events & IN:
            self.read_client(client)
        self.look_at(client)

    def read_client(self, client: Client) -> bool:
        """Takes what a client says; whether it said something."""
        try:
            data = client.socket.recv(READ_BYTES)
        except BlockingIOError:
            return False
        except OSError:
            data = b""
        client.received += data
        if not data:
            self.finish(client)
            return False
        if b"\n" in data:
            *lines, rest = bytes(client.received).split(b"\n")
            client.received = bytearray(rest)
            for line in lines:
                self.hear(client, line + b"\n")
        if len(client.received) > MOST_OPEN:
            self.refuse(client, f"more than {MOST_OPEN} bytes without a line's end: this client is cut off")
        if client.seat is not None:
            self.pump(client.seat)
        return client.fileno() >= 0

    def finish(self, client: Client) -> None:
        """The client says no more. A plain one still hears its answers; one with a name is gone. A last line without
        its end is not
        handed on."""
        client.is_read = True
        client.received.clear()
        if client.seat is None or not client.is_plain:
            self.close(client)
        else:
            client.seat.put(None, client)
            self.pump(client.seat)

    def refuse(self, client: Client, why: str) -> None:
        """Tells a client why, and closes the connection once it has read it; its seat is left."""
        client.tell(fault=why)
        client.received.clear()
        client.is_ending = client.is_read = True
        self.leave(client)

    def leave(self, client: Client) -> None:
        """A client is no more on its seat: what it left open there is closed, and the seat is kept where it has a name.
        """
        seat, client.seat = client.seat, None
        if seat is None:
            return
        if not any(line is None and sender is client for line, sender in seat.queue):
            seat.put(None, client)
        if seat.client is client:
            seat.client = None
            if not seat.is_kept:
                seat.name = None
        self.look_at_output(seat)
        self.pump(seat)

    def close(self, client: Client) -> None:
        if client.fileno() < 0:
            return
        self.leave(client)
        self.clients.pop(client.fileno(), None)
        self.forget(client.fileno())
        client.socket.close()

    # ------------------------------------------------------------------------------------------------ what clients say

    def hear(self, client: Client, line: bytes) -> None:
        """One line of a client."""
        if client.is_ending:
            return
        if line.startswith(wire.MARK):
            self.asked_by(client, wire.read_control(line) or {})
            return
        if client.seat is None:
            client.is_plain = True
            self.sit(client, f"(guest {client.number})", is_kept=False)
        if client.seat is not None:
            client.seat.put(line, client)

    def asked_by(self, client: Client, what: dict) -> None:
        """What a client asks of the bridge."""
        if "hello" in what:
            name = what.get("name")
            if client.seat is not None or not (isinstance(name, str) and wire.NAME.fullmatch(name)):
                self.refuse(client, "a name has letters, digits, _, . and -, at most 32 of them")
                return
            self.take_over(name, bool(what.get("take_over")))
            self.sit(client, name, is_kept=True)
        elif what.get("ask") == "who":
            client.tell(who=[self.told_of(it) for it in self.seats])
        elif what.get("ask") == "journal" and isinstance(what.get("first"), int):
            at = max(0, what["first"] - self.about["first"] - 1)
            client.tell(journal=self.entries[at : at + MOST_ENTRIES], newest=self.about["first"] + len(self.entries))
        elif what.get("ask") == "leave" and client.seat is not None:
            client.seat.is_kept = False
            client.seat.take_late()
            client.tell(left=client.name)
            client.is_ending = True
            self.leave(client)
        else:
            client.tell(fault="this is no question to the bridge")

    def told_of(self, seat: Seat) -> dict:
        """What is told of a seat."""
        return {
            "seat": seat.number,
            "name": seat.name,
            "here": seat.client is not None,
            "design": seat.held,
            "rows": seat.rows,
            "over": seat.is_over,
        }

    def take_over(self, name: str, is_wanted: bool) -> None:
        """Cuts off who sits on the seat of this name, where that is wanted."""
        seat = next((it for it in self.seats if it.name == name), None)
        if seat is not None and seat.client is not None and is_wanted:
            old = seat.client
            self.refuse(old, f"another client took over the seat of {name}")
            self.look_at(old)

    def sit(self, client: Client, name: str, is_kept: bool) -> None:
        """Gives a client the seat of its name, or a free one."""
        seat = next((it for it in self.seats if it.name == name and not it.is_over), None)
        is_again = seat is not None
        if is_again and seat.client is not None:
            self.refuse(client, f"{name} is here already: take another --name, or the seat over with --take-over")
            return
        seat = seat or next((it for it in self.seats if it.name is None and not it.is_over), None)
        if seat is None or self.is_ending:
            taken = ", ".join(f"{it.name}{'' if it.client else ' (away)'}" for it in self.seats if it.name)
            self.refuse(
                client,
                "the server is ending"
                if self.is_ending
                else f"no seat is free: {taken or 'all sessions are over'}; " "`leave` gives up one's own",
            )
            return
        client.seat, client.name, seat.client, seat.name, seat.is_kept = seat, name, client, name, is_kept
        late, lost = seat.take_late() if is_again else ([], 0)
        own = [it["number"] for it in self.entries if it and it["who"] == name]
        client.tell(
            seat=seat.number,
            name=name,
            again=is_again,
            rows=seat.rows,
            design=seat.held,
            newest=self.newest,
            own=own[-1:],
            lost=lost,
            late=late,
            **self.about,
        )

    # ------------------------------------------------------------------------------------------------ seats

    def pump(self, seat: Seat) -> None:
        """Hands lines on to a session."""
        was_full = seat.is_full
        state = seat.pump()
        if state == "gone":
            self.shut(seat)
        elif seat.input is not None:
            self.watch(seat.input, OUT if state == "full" else 0, lambda events: self.at_input(seat, events))
        client = seat.client
        if client is not None and client.base is not None and not client.is_base_told:
            client.is_base_told = True
            client.tell(base=client.base)
        if client is not None and client.has_said_all and not seat.is_waiting:
            client.is_ending = True
            self.look_at(client)
        elif client is not None and was_full and not seat.is_full:
            self.look_at(client)

    def at_input(self, seat: Seat, events: int) -> None:
        """The FIFO has room again, or nobody reads it any more."""
        if events & GONE:
            self.shut(seat)
        else:
            self.pump(seat)

    def look_at_output(self, seat: Seat) -> None:
        """A session is read but where its client has too much to read already."""
        if seat.output is not None:
            is_slow = seat.client is not None and seat.client.unread > MOST_UNREAD and not self.is_ending
            self.watch(seat.output, 0 if is_slow else IN, lambda events: self.read_seat(seat))

    def read_seat(self, seat: Seat) -> None:
        replies = seat.read()
        if replies is None:
            self.over(seat)
            return
        for reply in replies:
            self.reply(seat, reply)
        self.pump(seat)
        self.look_at_output(seat)
        if seat.client is not None:
            self.look_at(seat.client)

    def reply(self, seat: Seat, reply: Reply) -> None:
        """Gives a reply to who asked."""
        is_own = seat.is_own(reply)
        item = seat.answered(reply)
        if reply.is_row and item is not None:
            self.note(seat, item, reply)
        sender = item.sender if item else seat.client
        if is_own:
            return
        if sender is not None and sender is seat.client:
            sender.send(reply.data)
        elif item is not None and item.name == seat.name and seat.is_kept:
            seat.keep_late(item, reply)
            if seat.client is not None:
                late, lost = seat.take_late()
                seat.client.tell(late=late, lost=lost)

    def note(self, seat: Seat, item: Item, reply: Reply) -> None:
        """Notes what a row tells of the design, and tells all of an ECO."""
        self.newest = max(self.newest, reply.design)
        if self.transcripts:
            self.transcripts.keep(seat.number, item, reply)
        if reply.sort != b"accepted":
            return
        entry = {
            "number": reply.design,
            "session": seat.number,
            "who": item.name,
            "edits": [check_sessions.in_order(it) for it in item.edits() if it and not it.startswith("#")],
        }
        at = reply.design - self.about["first"] - 1
        self.entries += [{}] * (at + 1 - len(self.entries))
        self.entries[at] = entry
        for client in list(self.clients.values()):
            if client.seat is not None and client is not item.sender and client.unread <= MOST_UNREAD:
                client.tell(entry=entry)
                self.look_at(client)

    def over(self, seat: Seat) -> None:
        """A session has ended."""
        self.forget(seat.output)
        seat.close_output()
        self.shut(seat)
        seat.is_over = True

    def tell_over(self, over: list[Seat]) -> None:
        """Tells the clients of sessions that have ended while the server goes on."""
        for seat in over:
            client = seat.client
            client.tell(ended=f"the session of seat {seat.number} has ended; the other sessions go on")
            client.is_ending = client.is_read = True
            self.leave(client)
            self.look_at(client)

    def shut(self, seat: Seat) -> None:
        """Closes the input of a session."""
        if seat.input is not None:
            self.forget(seat.input)
        seat.close_input()

    # ------------------------------------------------------------------------------------------------ the server

    def read_server(self, _: int) -> None:
        try:
            data = os.read(self.child.stdout.fileno(), READ_BYTES)
        except BlockingIOError:
            return
        if not data:
            self.forget(self.child.stdout.fileno())
        self.output += data

    def signalled(self, number: int, _: object) -> None:
        now = time.monotonic()
        self.signals += now - self.last_signal >= PAIR_SECONDS
        self.last_signal = now

    def heed_signals(self) -> None:
        """The first signal ends all inputs, so that the server ends by itself; a later one ends the server."""
        if self.signals == self.heeded:
            return
        self.heeded = self.signals
        if self.is_ending:
            self.say("ending: a further signal ends the server at once")
            self.child.send_signal(signal.SIGTERM)
            return
        self.say("ending: the inputs of all sessions are closed")
        self.is_ending = True
        self.forget(self.listener.fileno())
        for seat in self.seats:
            if seat.input is not None:
                self.end_seat(seat)
            self.look_at_output(seat)

    def end_seat(self, seat: Seat) -> None:
        """Ends the input of a session, behind a whole line."""
        seat.queue.clear()
        deadline = time.monotonic() + LAST_SECONDS
        while seat.rest and time.monotonic() < deadline and seat.pump() in ("full", "long"):
            time.sleep(LONG_SECONDS)
        self.shut(seat)

    def ended(self) -> int:
        """The server has ended: what it said last is told, and then its end."""
        self.is_ending = True
        deadline = time.monotonic() + LAST_SECONDS
        for seat in self.seats:
            while seat.output is not None and time.monotonic() < deadline:
                self.read_seat(seat)
            self.shut(seat)
        while self.child.stdout.fileno() in self.masks and time.monotonic() < deadline:
            self.read_server(0)
        status = self.child.wait()
        final = self.output.decode("latin-1").strip().split("\n")[-1]
        for client in list(self.clients.values()):
            client.tell(ended=f"the server has ended ({status_text(status)}){': ' + final if final else ''}")
        deadline = time.monotonic() + LAST_SECONDS
        while any(it.to_send for it in self.clients.values()) and time.monotonic() < deadline:
            for client in self.clients.values():
                client.flush()
            time.sleep(LONG_SECONDS)
        for client in list(self.clients.values()):
            client.socket.close()
        if self.transcripts:
            self.transcripts.end(self.about["first"], [it for it in self.entries if it], self.output.decode("latin-1"))
        return status if status >= 0 else 128 - status


def status_text(status: int) -> str:
    """How a program ended."""
    return f"status {status}" if status >= 0 else f"signal {-status}"
