#!/usr/bin/env python3
"""Runs a program on devices that fail: real_devices.py [--program FILE] [--seed S] [--short] [--only WORDS]

What is tried, with the two inverters of examples/two-inverters and the status and text that docs/COMMANDS.md gives for
each:
  output     /dev/full, a pipe that is closed before or after some bytes, one that takes no more, no standard output at
             all, a slow reader
  documents  each in turn missing, a directory, below a file, behind links that lead to each other, with a name of 5000
             bytes, unreadable (as root, the program runs as `nobody` for this), one whose reads fail (/proc/self/mem),
             without an end (/dev/zero), of 67,108,865 bytes; of 67,108,864 bytes, by a FIFO in pieces, by /dev/stdin,
             /dev/null, one that grows or shrinks while it is read
  limits     address space (ulimit -v) from little to ample with 1, 4 and 32 workers and in a generated run: the normal
             output or status 6 with nothing written, once the program is loaded at all; open files, threads, stack
It prints a line for each case, and ends with 1 at the first that deviates, which --only WORDS (its name, or a part of
it) repeats.
--short leaves out what takes long, and most limits. S (default: 1) gives where pipes are closed.
"""
import argparse
import functools
import contextlib
import fcntl
import os
import pathlib
import random
import resource
import shutil
import signal
import subprocess
import sys
import tempfile
import threading
import time

from lizdrog_dev import trials

LIMIT = 67108864
NOBODY = 65534
FILES = {
    "EARLY": "early.lib",
    "LATE": "late.lib",
    "NETLIST": "chain.v",
    "SDC": "none.sdc",
    "SPEF": "chain.spef",
    "JOURNAL": "saved",
    "SCRIPT": "report.eco",
}
SPEF = b'*SPEF "IEEE 1481-1998"\n*DELIMITER :\n*C_UNIT 1 FF\n*R_UNIT 1 OHM\n'
# What examples/two-inverters/README.md says, and docs/SCRIPTS.md of a run with --journal.
NORMAL = b"journal 1 0\nsession 1 rows 1\n1 0 slew 4.000\nfinal 0 setup none 0.000 hold none 0.000\n"
BEHIND = NORMAL.replace(b"journal 1 0\n", b"journal 2 0 0\nderates 1000000 1000000 1000000 1000000\n")
QUESTIONS = 9000
LONG = (
    b"journal 1 0\nsession 1 rows %d\n" % QUESTIONS
    + b"".join(b"%d 0 slew 4.000\n" % n for n in range(1, QUESTIONS + 1))
    + NORMAL[NORMAL.index(b"final") :]
)
ALL_LIMITS = (
    1000, 2000, 3000, 4000, 5000, 6000, 8000, 10000, 12000, 14000, 16000, 20000, 24000, 32000, 40000, 64000, 100000,
    200000, 400000, 1000000,
)
FEW_LIMITS = (3000, 6000, 8000, 400000)
# Without memory the kernel or the loader ends a program before its first instruction; the loader says so on standard
# error.
NOT_LOADED = (b"error while loading shared libraries", b"cannot allocate", b"cannot apply additional memory protection")


class Wrong(Exception):
    """Says what was wanted and what came."""


def want(ran, status, out):
    if ran.status != status or ran.out != out or ran.err:
        raise Wrong(
            f"wanted status {status} with {out[:80]!r}, and it ended with {ran.ended()}, {ran.out[:80]!r},"
            f" {ran.err[:80]!r}"
        )
    return f"status {status}"


def want_prefix(ran, got, whole):
    if ran.status != 5 or not whole.startswith(got) or ran.err:
        raise Wrong(
            f"wanted status 5 and a prefix, and it ended with {ran.ended()}, {len(got)} bytes, {ran.err[:80]!r}"
        )
    return f"status 5, {len(got)} of {len(whole)} bytes"


class Devices:
    """A folder with the documents, and the program."""

    def __init__(self, program, folder, seed, short):
        self.program, self.folder, self.rand, self.is_short = program, pathlib.Path(folder), random.Random(seed), short
        source = trials.TOP / "examples/two-inverters"
        for role, name in FILES.items():
            text = {"SPEF": SPEF, "JOURNAL": b""}.get(role)
            if text is None:
                text = (source / {"EARLY": "inverter.lib", "LATE": "inverter.lib"}.get(role, name)).read_bytes()
            (self.folder / name).write_bytes(text)
        (self.folder / "long.eco").write_bytes(b"report_slew u2:Z late rise\n" * QUESTIONS)

    def words(self, role=None, name=None, workers="1"):
        """The words of a run, in which another file may stand for that of a role."""
        it = {**FILES, **({role: name} if role else {})}
        option = ["--journal", it["JOURNAL"]] if role == "JOURNAL" else []
        return ["run", *option, it["EARLY"], it["LATE"], it["NETLIST"], it["SDC"], it["SPEF"], workers, it["SCRIPT"]]

    def run(self, words, seconds=60, **how):
        return trials.run(self.program, words, self.folder, seconds, **how)

    # -------------------------------------------------------------------------------------------- output

    def output_normal(self):
        yield "output kept", lambda: want(self.run(self.words()), 0, NORMAL)
        yield "output kept, with --journal", lambda: want(self.run(self.words("JOURNAL", "saved")), 0, BEHIND)
        yield "output of 9,000 rows", lambda: want(self.run(self.words("SCRIPT", "long.eco")), 0, LONG)
        yield "output to a slow reader", self.slow_reader

    def output_failing(self):
        words = {
            "output": self.words(),
            "long output": self.words("SCRIPT", "long.eco"),
            "fault of a document": self.words("NETLIST", "none.sdc"),
            "fault of the words": ["run"],
            "missing file": self.words("SDC", "gone"),
            "generated line": ["generate", "1", "4", "4"],
        }
        for what, it in words.items():
            yield f"{what} to /dev/full", lambda it=it: self.into_device(it, "/dev/full")
            yield f"{what} to a closed pipe", lambda it=it: self.into_pipe(it, 0, b"")
            yield f"{what} without standard output", lambda it=it: self.closed_files(it, (1,))
        yield "output without standard input, output and errors", lambda: self.closed_files(self.words(), (0, 1, 2))
        for count in sorted(self.rand.randrange(1, 60000) for _ in range(6)):
            yield f"long output to a pipe closed after {count} bytes", lambda count=count: self.into_pipe(
                self.words("SCRIPT", "long.eco"), count, LONG
            )
        yield "long output to a full pipe that does not wait", self.full_pipe
        yield "long output to a file of at most 5,000 bytes (SIGXFSZ passed over)", self.limited_file

    def into_device(self, words, name):
        with open(name, "wb") as device:
            return want_prefix(self.run(words, stdout=device), b"", b"")

    def into_pipe(self, words, count, whole):
        """The reader takes so many bytes and closes its end."""
        read, write = os.pipe()
        got = []

        def reader():
            left = count
            while left:
                piece = os.read(read, left)
                if not piece:
                    break
                got.append(piece)
                left -= len(piece)
            os.close(read)
        thread = threading.Thread(target=reader)
        if count == 0:
            os.close(read)
        else:
            thread.start()
        ran = self.run(words, stdout=write)
        os.close(write)
        if count:
            thread.join()
        return want_prefix(ran, b"".join(got), whole)

    def full_pipe(self):
        read, write = os.pipe()
        fcntl.fcntl(write, fcntl.F_SETFL, os.O_NONBLOCK)
        ran = self.run(self.words("SCRIPT", "long.eco"), stdout=write)
        os.close(write)
        with open(read, "rb") as pipe:
            return want_prefix(ran, pipe.read(), LONG)

    def limited_file(self):
        """The kernel's signal is passed over, as Python's children do not; a program that is not told to ends by it."""
        def before():
            signal.signal(signal.SIGXFSZ, signal.SIG_IGN)
            resource.setrlimit(resource.RLIMIT_FSIZE, (5000, 5000))
        with open(self.folder / "limited", "w+b") as file:
            ran = self.run(self.words("SCRIPT", "long.eco"), stdout=file, before=before)
            file.seek(0)
            return want_prefix(ran, file.read(), LONG)

    def slow_reader(self):
        read, write = os.pipe()
        got = []

        def reader():
            while piece := os.read(read, 5000):
                got.append(piece)
                time.sleep(0.01)
        thread = threading.Thread(target=reader)
        thread.start()
        ran = self.run(self.words("SCRIPT", "long.eco"), stdout=write)
        os.close(write)
        thread.join()
        os.close(read)
        ran.out = b"".join(got)
        return want(ran, 0, LONG)

    def closed_files(self, words, numbers):
        """Files that stand in the place of standard output are not written."""
        texts = {it: it.read_bytes() for it in self.folder.iterdir() if it.is_file()}
        ran = self.run(words, before=lambda: [os.close(it) for it in numbers])
        changed = [it.name for it, text in texts.items() if it.read_bytes() != text]
        if changed:
            raise Wrong(f"{', '.join(changed)} changed")
        return want_prefix(ran, ran.out, b"")

    # -------------------------------------------------------------------------------------------- documents

    def fails(self, role, name, how="failed", **more):
        return want(
            self.run(self.words(role, name), **more), 4, b"fault shelf %s %s\n" % (os.fsencode(name), how.encode())
        )

    def documents_failing(self):
        (self.folder / "folder").mkdir()
        os.symlink("round", self.folder / "round")
        os.symlink("gone", self.folder / "dangling")
        (self.folder / "fifty").write_bytes(b"x" * 50)
        for name in ("gone", "folder", "chain.v/below", "round", "dangling", "x" * 5000, "/proc/self/mem"):
            for role in FILES:
                yield f"{role} is {name[:20]}", lambda role=role, name=name: self.fails(role, name)
        yield "SDC is /dev/stdin, which is closed", lambda: self.fails("SDC", "/dev/stdin", before=lambda: os.close(0))
        for role in FILES:
            yield f"{role} is unreadable", lambda role=role: self.unreadable(role)

    def unreadable(self, role):
        name = FILES[role]
        os.chmod(self.folder / name, 0)
        try:
            return self.fails(role, name, before=become_nobody) + (
                " (as nobody, since this is root)" if os.geteuid() == 0 else ""
            )
        finally:
            os.chmod(self.folder / name, 0o644)

    def documents_large(self):
        with open(self.folder / "too_long", "wb") as file:
            file.truncate(LIMIT + 1)
        for role in FILES:
            yield f"{role} has 67,108,865 bytes", lambda role=role: self.fails(role, "too_long", "too_long")
        yield "SDC is /dev/zero", lambda: self.fails("SDC", "/dev/zero", "too_long")
        yield "SCRIPT is /dev/urandom", lambda: self.fails("SCRIPT", "/dev/urandom", "too_long")
        for role in ("SDC", "SCRIPT"):
            yield f"{role} has 67,108,864 bytes", lambda role=role: self.longest(role)
        yield "SDC has 67,108,865 bytes in a FIFO", lambda: self.by_fifo(
            "SDC", (b"\n" * 65536 for _ in range(1025)), 4, b"fault shelf fifo too_long\n"
        )

    def longest(self, role):
        text = (self.folder / FILES[role]).read_bytes()
        (self.folder / "longest").write_bytes(text + b"\n" * (LIMIT - len(text)))
        return want(self.run(self.words(role, "longest"), 300), 0, NORMAL)

    def documents_odd(self):
        for role in FILES:
            text = (self.folder / FILES[role]).read_bytes()
            normal = BEHIND if role == "JOURNAL" else NORMAL
            pieces = [text[at:at + 7] for at in range(0, len(text), 7)]
            by_fifo = functools.partial(self.by_fifo, role, pieces, 0, normal)
            yield f"{role} by a FIFO in pieces of 7 bytes", by_fifo
            yield f"{role} by /dev/stdin", functools.partial(self.by_stdin, role, text, normal)
        yield "SDC is /dev/null", lambda: want(self.run(self.words("SDC", "/dev/null")), 0, NORMAL)
        yield "JOURNAL is /dev/null", lambda: want(self.run(self.words("JOURNAL", "/dev/null")), 0, BEHIND)
        yield "NETLIST is /dev/null", lambda: want(
            self.run(self.words("NETLIST", "/dev/null")), 3, b"fault netlist V5 0\n"
        )
        for attempt in range(1, 2 if self.is_short else 6):
            yield f"SDC grows while it is read, {attempt}", self.growing_sdc
            yield f"SCRIPT grows while it is read, {attempt}", self.growing_script
            yield f"SDC shrinks while it is read, {attempt}", self.shrinking_sdc

    def by_fifo(self, role, pieces, status, out):
        fifo = self.folder / "fifo"
        os.mkfifo(fifo)

        def writer():
            with contextlib.suppress(BrokenPipeError), open(fifo, "wb", buffering=0) as out:
                for piece in pieces:
                    out.write(piece)
        thread = threading.Thread(target=writer)
        thread.start()
        try:
            return want(self.run(self.words(role, "fifo")), status, out)
        finally:
            thread.join(5)
            fifo.unlink()

    def by_stdin(self, role, text, normal):
        (self.folder / "given").write_bytes(text)
        with open(self.folder / "given", "rb") as given:
            return want(self.run(self.words(role, "/dev/stdin"), stdin=given), 0, normal)

    @contextlib.contextmanager
    def changing(self, change):
        """Calls `change` again and again in another thread."""
        ended = threading.Event()

        def thread():
            while not ended.is_set() and change() is not False:
                pass
        it = threading.Thread(target=thread)
        it.start()
        try:
            yield
        finally:
            ended.set()
            it.join()

    def growing_sdc(self):
        """Each text that can be read is one of empty lines, or too long."""
        (self.folder / "growing").write_bytes(b"\n" * 4000000)
        with open(self.folder / "growing", "ab", buffering=0) as file, self.changing(lambda: file.write(b"\n" * 1024)):
            ran = self.run(self.words("SDC", "growing"))
        if ran.status == 4:
            return want(ran, 4, b"fault shelf growing too_long\n")
        return want(ran, 0, NORMAL)

    def growing_script(self):
        """Each text that can be read is one of whole lines, all comments but the first."""
        line = b"#" * 1023 + b"\n"
        (self.folder / "growing").write_bytes(b"report_slew u2:Z late rise\n" + line * 1000)
        with open(self.folder / "growing", "ab", buffering=0) as file, self.changing(lambda: file.write(line)):
            ran = self.run(self.words("SCRIPT", "growing"))
        if ran.status == 4:
            return want(ran, 4, b"fault shelf growing too_long\n")
        return want(ran, 0, NORMAL)

    def shrinking_sdc(self):
        size = [20000000]
        path = self.folder / "shrinking"
        path.write_bytes(b"\n" * size[0])

        def shrink():
            size[0] -= 100000
            os.truncate(path, max(size[0], 0))
            return size[0] > 0
        with self.changing(shrink):
            return want(self.run(self.words("SDC", "shrinking")), 0, NORMAL)

    # -------------------------------------------------------------------------------------------- limits

    def limits(self):
        runs = {
            "1 worker": (self.words(), NORMAL),
            "4 workers": (self.words(workers="4"), NORMAL),
            "32 workers": (self.words(workers="32"), NORMAL),
            "9,000 rows": (self.words("SCRIPT", "long.eco"), LONG),
            "generate 1 4 0": (
                ["generate", "1", "4", "0"],
                b"generated 4 0 accepted 0 setup 953.000 0.000 hold 7.000 0.000\n",
            ),
        }
        for what, (words, normal) in runs.items():
            for kilobytes in FEW_LIMITS if self.is_short else ALL_LIMITS:
                yield f"{what}, ulimit -v {kilobytes}", functools.partial(self.limited, words, normal, kilobytes)
        yield "one open file at a time", lambda: want(
            self.run(self.words(), before=lambda: os.close(0), limits=[(resource.RLIMIT_NOFILE, 3)]), 0, NORMAL
        )
        yield "32 workers, no more threads", self.no_threads
        for kilobytes in (64, 128, 256, 1024):
            yield f"32 workers, ulimit -s {kilobytes}", lambda kilobytes=kilobytes: want(
                self.run(self.words(workers="32"), limits=[(resource.RLIMIT_STACK, kilobytes * 1024)]), 0, NORMAL)

    def limited(self, words, normal, kilobytes):
        most = 1024 * kilobytes
        try:
            ran = trials.run(self.program, words, self.folder, limits=[(resource.RLIMIT_AS, most)])
        except (OSError, subprocess.SubprocessError):
            return "no process"
        if is_not_loaded(ran, kilobytes):
            return "not loaded"
        return want(ran, *((6, b"") if ran.status == 6 else (0, normal)))

    def no_threads(self):
        ran = self.run(self.words(workers="32"), before=lambda: become_nobody([(resource.RLIMIT_NPROC, 1)]))
        return want(ran, *((6, b"") if ran.status == 6 else (0, NORMAL)))


def is_not_loaded(ran, kilobytes):
    """Whether the loader says that it could not load the program, or the kernel ended it where nothing of it can
    stand."""
    return (
        ran.status == 127
        and any(it in ran.err for it in NOT_LOADED)
        or kilobytes < 4000
        and ran.status in (-9, -11)
        and not ran.out
    )


def become_nobody(limits=()):
    """The child runs as a user without rights, where this is root."""
    for what, most in limits:
        resource.setrlimit(what, (most, most))
    if os.geteuid() == 0:
        os.setgroups([])
        os.setgid(NOBODY)
        os.setuid(NOBODY)


GROUPS = ["output_normal", "output_failing", "documents_failing", "documents_odd", "documents_large", "limits"]
LONG_GROUPS = {"documents_large"}


def cases(devices):
    for group in GROUPS:
        if not (devices.is_short and group in LONG_GROUPS):
            yield from getattr(devices, group)()


def main():
    parser = argparse.ArgumentParser(description=__doc__, formatter_class=argparse.RawDescriptionHelpFormatter)
    parser.add_argument("--program")
    parser.add_argument("--seed", type=int, default=1)
    parser.add_argument("--short", action="store_true")
    parser.add_argument("--only")
    given = parser.parse_args()
    program, count = trials.find_program(given.program), 0
    with tempfile.TemporaryDirectory() as folder:
        # A user without rights has to reach both.
        os.chmod(folder, 0o755)
        copied = shutil.copy(program, pathlib.Path(folder, "program"))
        for name, case in cases(Devices(copied, folder, given.seed, given.short)):
            if given.only and given.only not in name:
                continue
            try:
                ended = case()
            except Wrong as why:
                print(f"{name}: {why}\nagain: bench/real_devices.py --seed {given.seed} --only '{name}'")
                return 1
            count += 1
            print(f"  {name}: {ended}", flush=True)
    print(f"{count} cases, each as docs/COMMANDS.md says")
    return 0


if __name__ == "__main__":
    sys.exit(main())
