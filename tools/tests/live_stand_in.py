#!/usr/bin/env python3
"""A STAND-IN for the live program, for the tests of the tools alone: it proves nothing, and is no server to work with.

live_stand_in.py live [--journal NAME] EARLY LATE NETLIST SDC SPEF WORKERS [IN OUT ..]

It speaks the lines of the live program over FIFOs. Each answer is that of a run of the batch program that
LIZDROG_STAND_IN_PROGRAM names, made anew for each command; where none is named answers are canned, and an edit with the
word ABSENT is refused. LIZDROG_STAND_IN_FAULT makes it a wrong one, to see that a trial finds that: `unkept` puts no
ECO into the journal, `unpassed` does not pass over what stands behind a wrong line of a group, `shifted` counts the
commands from 2.
"""
import fcntl
import os
import pathlib
import re
import shutil
import subprocess
import sys
import tempfile
import threading
import time

from lizdrog_tools.check_sessions import in_order

ARITIES = {
    "report_slew": (3, 3),
    "report_at": (3, 3),
    "report_rat": (3, 3),
    "report_slack": (3, 3),
    "report_endpoint": (2, 2),
    "report_path": (2, 2),
    "report_through": (3, 18),
    "report_paths": (3, 3),
    "report_wns": (1, 1),
    "report_tns": (1, 1),
    "report_worst": (2, 2),
    "advise": (3, 201),
    "take": (0, 0),
    "await": (2, 2),
}
EDITS = {
    "repower_gate": (2, 2),
    "insert_gate": (2, 2),
    "remove_gate": (1, 1),
    "insert_net": (1, 1),
    "remove_net": (1, 1),
    "connect_pin": (2, 2),
    "disconnect_pin": (1, 1),
    "insert_buffer": (5, 20000),
    "set_parasitics": (2, 20000),
}
NO_TRIALS = ("take", "await", "report_through", "report_paths", "advise")
LONGEST = 65536
FAULT = os.environ.get("LIZDROG_STAND_IN_FAULT")


def fits(words, table):
    least, most = table.get(words[0], (1, 0))
    return (
        least <= len(words) - 1 <= most and ("KIND" not in words) and not any(it in ("seutp", "hodl") for it in words)
    )


class Batch:
    """Answers of the batch program, or canned ones."""

    def __init__(self, journal, documents):
        self.program, self.journal, self.documents = os.environ.get("LIZDROG_STAND_IN_PROGRAM"), journal, documents
        self.folder = tempfile.TemporaryDirectory()
        self.saved = tempfile.NamedTemporaryFile()
        if journal:
            self.saved.write(pathlib.Path(journal).read_bytes())
        self.saved.flush()
        self.first = len(re.findall(rb"(?m)^entry ", pathlib.Path(self.saved.name).read_bytes()))

    def run(self, ecos, lines):
        """The status and the output of a run of these ECOs and lines."""
        text = "".join("\n".join(eco if len(eco) == 1 else ["begin_eco", *eco, "commit_eco"]) + "\n" for eco in ecos)
        with tempfile.NamedTemporaryFile("w", encoding="latin-1") as script:
            script.write(text + "".join(f"{it}\n" for it in lines))
            script.flush()
            words = [self.program, "run", "--journal", self.saved.name, *self.documents, script.name]
            ran = subprocess.run(words, capture_output=True, text=True, check=False, errors="replace")
        return ran.returncode, ran.stdout

    def begin(self):
        """The status and the words of a refusal of the documents; none where they are fine."""
        gone = next((it for it in self.documents[:5] if it != "none" and not os.path.isfile(it)), None)
        if gone:
            return 4, f"fault shelf {gone} failed\n"
        for at, name in enumerate(self.documents[:5]):
            if name != "none":
                self.documents[at] = shutil.copy(name, f"{self.folder.name}/{at}")
        status, output = self.run([], []) if self.program else (0, "")
        self.derates = next(
            (it for it in output.split("\n") if it.startswith("derates ")), "derates 1000000 1000000 1000000 1000000"
        )
        return (status, output) if status > 1 else None

    def answer(self, ecos, lines):
        """The answer of one command on the design with these ECOs: its text behind the two numbers."""
        if not self.program:
            return self.canned(len(ecos) + self.first, lines)
        status, output = self.run(ecos, lines)
        if status not in (0, 1):
            return None
        last = re.search(r"(?m)^session 1 rows (\d+)$", output).group(1)
        return re.search(rf"(?ms)^{last} \d+ (.*?)^final ", output).group(1)

    def canned(self, number, lines):
        words = lines[0].split()
        if words[0] == "begin_what_if":
            trials = [it for it in lines[1:-1] if it not in ("begin_eco", "commit_eco")]
            return f"what_if {len(trials)}\n" + "".join(self.canned_trial(number, it) for it in trials)
        if words[0] in EDITS or words[0] == "begin_eco":
            return "refused E3 ABSENT\n" if any("ABSENT" in it for it in lines) else "accepted\n"
        if words[0] == "report_path":
            return (
                f"path {words[2]} {words[1]} slack {number}.000 credit 0.000 from clk rise to clk rise nodes 2\n"
                f"clk rise 0.000\n{words[1]} rise 1.000\n"
            )
        if words[0] == "report_worst":
            return f"worst 1\nr2:D {number}.000\n"
        return f"{words[0].removeprefix('report_')} {number}.000\n"

    def canned_trial(self, number, line):
        words = line.split()
        if words[0] == "drop_last":
            return "dropped\n"
        return (
            ("refused E3 ABSENT\n" if "ABSENT" in line else "tried\n")
            if words[0] in EDITS
            else self.canned(number, [line])
        )

    def final(self, ecos):
        if not self.program:
            return f"final {self.first + len(ecos)} setup 1.000 0.000 hold 1.000 0.000\n"
        return re.search(r"(?m)^final .*\n", self.run(ecos, [])[1]).group()


class Unkept(Exception):
    """The journal takes no more."""


class Server:
    """The ECOs of all sessions, and the journal's file."""

    def __init__(self, batch, file):
        self.batch, self.file, self.ecos, self.lock, self.status = batch, file, [], threading.Lock(), 0
        self.is_sound = True

    @property
    def newest(self):
        return self.batch.first + len(self.ecos)

    def edit(self, session, lines):
        """Judges an ECO on the newest design; gives the answer and the number that its row has."""
        with self.lock:
            said = self.batch.answer(self.ecos, lines)
            if said and said.startswith("accepted"):
                edits = [in_order(" ".join(it.split())) for it in (lines[1:-1] if lines[0] == "begin_eco" else lines)]
                self.keep(session, edits)
                self.ecos.append(edits)
            return said, self.newest

    def keep(self, session, edits):
        """A block of one entry, before anybody is told of it."""
        if self.file and FAULT != "unkept":
            head = f"journal 2 {self.newest} 1\n{self.batch.derates}\n"
            entry = f"entry {self.newest + 1} session {session} edits {len(edits)}\n"
            self.put((head + entry + "".join(f"{it}\n" for it in edits)).encode("latin-1"))

    def put(self, data):
        """All of it, on disk; behind a put that failed there is no other."""
        try:
            while data and self.is_sound:
                data = data[os.write(self.file, data) :]
            os.fsync(self.file)
        except OSError:
            self.is_sound, self.status = False, 5
        if not self.is_sound:
            raise Unkept


class Session:
    """One session: the place of its next line, and the design that it holds."""

    def __init__(self, number, server):
        self.number, self.server, self.held = number, server, server.newest
        self.line, self.commands, self.open, self.group, self.trials, self.passing = 0, 0, None, None, 0, None

    def wrong(self, code, at=None):
        """What is open is passed over; the error."""
        self.passing = self.open[1] if self.open and FAULT != "unpassed" else None
        self.open = self.group = None
        self.server.status = max(self.server.status, 1)
        return f"error {code} {at or self.line}\n"

    def hear(self, raw):
        """The reply to a line, if it ends a command or is wrong."""
        self.line += 1
        raw = raw.removesuffix(b"\n")
        is_plain = len(raw) <= LONGEST and raw.isascii()
        words = raw.decode("latin-1").replace("\t", " ").split(" ") if is_plain else ["\xff"]
        words = [it for it in words if it]
        if not words or words[0].startswith("#"):
            return ""
        if self.passing:
            self.passing = None if words == [self.passing] else self.passing
            return ""
        if len(raw) > LONGEST:
            return self.wrong("C2")
        return self.stand(words)

    def stand(self, words):
        """A line that is no comment, in its place."""
        if self.open is None:
            if words in (["begin_eco"], ["begin_what_if"]):
                self.open = (
                    self.line,
                    {"begin_eco": "commit_eco", "begin_what_if": "end_what_if"}[words[0]],
                    [words[0]],
                )
                self.trials, self.group = 0, None
                return ""
            return self.reply([" ".join(words)]) if fits(words, {**ARITIES, **EDITS}) else self.wrong("C1")
        return self.stand_inside(words)

    def stand_inside(self, words):
        begin, end, lines = self.open
        is_draft, name = end == "end_what_if", words[0]
        in_group = not is_draft or self.group is not None
        if in_group and words == ["commit_eco"]:
            if is_draft:
                if lines[-1] == "begin_eco":
                    return self.wrong("C1", self.group)
                self.group = None
            else:
                return self.close(begin, [*lines, "commit_eco"])
        elif is_draft and words == [end]:
            if not in_group:
                return self.close(begin, [*lines, end])
            self.open = None
            return self.wrong("C1")
        elif is_draft and not in_group and words == ["begin_eco"]:
            self.group, self.trials = self.line, self.trials + 1
        elif in_group and fits(words, EDITS):
            pass
        elif (
            is_draft
            and not in_group
            and (fits(words, {**ARITIES, **EDITS}) and name not in NO_TRIALS or words == ["drop_last"])
        ):
            self.trials += 1
        else:
            return self.wrong("C1")
        if self.trials > 100 or len(lines) > 1000 and not is_draft:
            return self.wrong("C2")
        lines.append(" ".join(words))
        return ""

    def close(self, begin, lines):
        self.open = None
        return self.reply(lines) if len(lines) > 2 else self.wrong("C1", begin)

    def reply(self, lines):
        """The row of a command."""
        self.commands += 1
        said = self.answer(lines)
        if said is None:
            self.commands -= 1
            return self.wrong("C1")
        if said.split(" ")[0].strip() in ("refused", "no", "not_yet"):
            self.server.status = max(self.server.status, 1)
        return f"{self.commands + (FAULT == 'shifted')} {self.held} {said}"

    def answer(self, lines):
        name, *rest = lines[0].split()
        if name == "take":
            self.held = self.server.newest
            return "taken\n"
        if name == "await":
            for _ in range(int(rest[1])):
                self.held = self.server.newest
                if self.held >= int(rest[0]):
                    return "reached\n"
                time.sleep(0.001)
            return f"not_yet {rest[1]}\n"
        if name in EDITS or name == "begin_eco":
            said, self.held = self.server.edit(self.number, lines)
            return said
        return self.server.batch.answer(self.server.ecos[: self.held - self.server.batch.first], lines)

    def talk(self, source, sink):
        """Answers each line before it reads the next."""
        for line in iter(source.readline, b""):
            try:
                said = self.hear(line)
            except Unkept:
                return
            if said and not self.say(sink, said):
                return
        if self.open is not None:
            self.say(sink, self.wrong("C1", self.open[0]))

    def say(self, sink, text):
        data = memoryview(text.encode("latin-1"))
        try:
            while data:
                data = data[sink.write(data) :]
        except OSError:
            self.server.status = 5
            return False
        return True


def serve_pair(server, number, names):
    with open(names[0], "rb") as source, open(names[1], "wb", buffering=0) as sink:
        Session(number, server).talk(source, sink)


def main():
    words, journal = sys.argv[2:], None
    if words[:1] == ["--journal"]:
        journal, words = words[1], words[2:]
    if sys.argv[1] != "live" or len(words) < 6 or len(words) % 2:
        print("fault words")
        return 2
    file = None
    if journal:
        if not os.path.isfile(journal):
            print(f"fault shelf {journal} failed")
            return 4
        text = pathlib.Path(journal).read_bytes()
        if text and not text.endswith(b"\n"):
            print(f"fault journal J1 {len(text)}")
            return 3
        try:
            file = os.open(journal, os.O_WRONLY | os.O_APPEND)
            fcntl.flock(file, fcntl.LOCK_EX | fcntl.LOCK_NB)
        except OSError:
            return 5
    batch = Batch(journal, words[:6])
    refused = batch.begin()
    if refused:
        sys.stdout.write(refused[1])
        return refused[0]
    server, names = Server(batch, file), words[6:]
    threads = [
        threading.Thread(target=serve_pair, args=(server, at + 1, names[2 * at : 2 * at + 2]))
        for at in range(len(names) // 2)
    ]
    for it in threads:
        it.start()
    if not threads:
        Session(1, server).talk(sys.stdin.buffer, open(1, "wb", buffering=0, closefd=False))
    for it in threads:
        it.join()
    sys.stdout.write(batch.final(server.ecos))
    return server.status


if __name__ == "__main__":
    raise SystemExit(main())
