"""Runs constraints in a real Tcl: `tclsh` where it is there, else the one in Python's tkinter."""
import contextlib
import os
import pathlib
import re
import shutil
import subprocess
import tempfile
from collections.abc import Callable

PRELUDE = pathlib.Path(__file__).with_name("prelude.tcl")
SAFE = re.compile(r"[A-Za-z0-9_@%+=:,./*?!|&<>~^-]+")
SPACES = " \t\r\n\v\f"
ESCAPES = {"n": "\n", "t": "\t", "r": "\r", "v": "\v", "f": "\f", "a": "\a", "b": "\b"}
Answer = Callable[[list[str]], str]
BRIDGE = """
set ::lizdrog::out [open /dev/fd/%d w]
set ::lizdrog::in [open /dev/fd/%d r]
foreach channel [list $::lizdrog::out $::lizdrog::in] { fconfigure $channel -translation binary }
proc ::lizdrog::send {words} {
    set text [encoding convertto iso8859-1 $words]
    puts -nonewline $::lizdrog::out "[string length $text]\\n$text"
    flush $::lizdrog::out
}
proc ::lizdrog::ask {words} {
    ::lizdrog::send $words
    lassign [split [gets $::lizdrog::in]] status length
    set text [read $::lizdrog::in $length]
    if {$status ne "ok"} { error $text }
    return $text
}
"""


class NoTcl(Exception):
    """There is no Tcl on this machine."""


class CommandFault(Exception):
    """A command of the constraints cannot be carried out: Tcl sees an error."""


def split_list(text: str) -> list[str]:
    """The elements of a Tcl list."""
    found, at = [], 0
    while at < len(text):
        if text[at] in SPACES:
            at += 1
        elif text[at] == "{":
            end = closing_brace(text, at)
            found.append(text[at + 1 : end])
            at = end + 1
        else:
            quoted = text[at] == '"'
            word, at = bare_word(text, at + quoted, '"' if quoted else SPACES)
            found.append(word)
            at += quoted
    return found


def closing_brace(text: str, at: int) -> int:
    depth = 0
    while at < len(text):
        if text[at] == "\\":
            at += 1
        elif text[at] == "{":
            depth += 1
        elif text[at] == "}":
            depth -= 1
            if not depth:
                return at
        at += 1
    raise CommandFault("a list has an opening brace without its closing one")


def bare_word(text: str, at: int, ends: str) -> tuple[str, int]:
    """A word up to one of the ends, with its backslashes undone."""
    said = []
    while at < len(text) and text[at] not in ends:
        if text[at] == "\\" and at + 1 < len(text):
            at += 1
            said.append(ESCAPES.get(text[at], text[at]))
        else:
            said.append(text[at])
        at += 1
    return "".join(said), at


def quoted(word: str) -> str:
    """A word as an element of a Tcl list."""
    if SAFE.fullmatch(word):
        return word
    return "".join(it if SAFE.fullmatch(it) else f"\\{it}" for it in word) if word else "{}"


def joined(words: list[str]) -> str:
    return " ".join(map(quoted, words))


class Tclsh:
    """A Tcl in a process of its own, that asks by a pipe."""

    def __init__(self, program: str, commands: list[str], answer: Answer):
        self.program, self.commands, self.answer = program, commands, answer

    def script(self, file: str, folder: str, ends: tuple[int, int]) -> str:
        return "\n".join(
            [
                f"set ::lizdrog::prelude {quoted(str(PRELUDE))}",
                f"source {quoted(str(PRELUDE))}",
                BRIDGE % ends,
                f"::lizdrog::define {{{joined(self.commands)}}}",
                f"cd {quoted(folder)}",
                f"set ::lizdrog::result [::lizdrog::run {quoted(file)}]",
                "::lizdrog::send [concat finished $::lizdrog::result]",
                "exit 0",
            ]
        )

    def run(self, file: str, folder: str) -> list[str]:
        """Runs a file: `ok`, or `error`, the message and where it came from."""
        asked, questions = os.pipe()
        replies, answers = os.pipe()
        script = "namespace eval ::lizdrog {}\n" + self.script(file, folder, (questions, replies))
        with tempfile.NamedTemporaryFile("w", encoding="latin-1", suffix=".tcl") as made:
            made.write(script)
            made.flush()
            with subprocess.Popen(
                [self.program, made.name], stdin=subprocess.DEVNULL, stdout=2, pass_fds=(questions, replies)
            ) as child:
                os.close(questions)
                os.close(replies)
                try:
                    said = self.serve(asked, answers)
                except BaseException:
                    child.kill()
                    raise
                finally:
                    os.close(asked)
                    os.close(answers)
                return said or (["ok"] if child.wait() == 0 else ["error", f"tclsh ended with {child.returncode}", ""])

    def serve(self, asked: int, answers: int) -> list[str]:
        """Answers what Tcl asks, until it has finished; nothing where it ends by itself."""
        with os.fdopen(os.dup(asked), "rb") as reading:
            while header := reading.readline():
                words = split_list(reading.read(int(header)).decode("latin-1"))
                if words[0] == "finished":
                    return words[1:]
                try:
                    status, text = "ok", self.answer(words)
                except CommandFault as why:
                    status, text = "error", str(why)
                data = text.encode("latin-1", "replace")
                if not write_all(answers, f"{status} {len(data)}\n".encode() + data):
                    break
        return []


def write_all(file: int, data: bytes) -> bool:
    """Whether somebody took all of it."""
    view = memoryview(data)
    try:
        while view:
            view = view[os.write(file, view) :]
    except BrokenPipeError:
        return False
    return True


class InPython:
    """The Tcl that Python's tkinter has, which needs no display."""

    def __init__(self, commands: list[str], answer: Answer):
        import tkinter

        self.tcl, self.answer, self.fault = tkinter.Tcl(), answer, None
        self.tcl.eval("namespace eval ::lizdrog {}")
        self.tcl.createcommand("::lizdrog::reply", self.reply)
        self.tcl.eval(
            "proc ::lizdrog::ask {words} { lassign [::lizdrog::reply $words] status text; "
            "if {$status ne {ok}} { error $text }; return $text }"
        )
        self.tcl.eval(f"set ::lizdrog::prelude {quoted(str(PRELUDE))}")
        self.tcl.eval(f"source {quoted(str(PRELUDE))}")
        self.tcl.eval(f"::lizdrog::define {{{joined(commands)}}}")

    def reply(self, words: str) -> str:
        try:
            return joined(["ok", self.answer(split_list(words))])
        except CommandFault as why:
            return joined(["error", str(why)])

    def run(self, file: str, folder: str) -> list[str]:
        # Tcl's cd moves this process: it goes back where it was.
        with contextlib.chdir(folder):
            self.tcl.eval(f"cd {quoted(folder)}")
            return split_list(self.tcl.eval(f"::lizdrog::run {quoted(file)}"))


def find_tcl(commands: list[str], answer: Answer) -> Tclsh | InPython:
    """A Tcl in which the commands ask the answerer."""
    program = shutil.which("tclsh")
    if program:
        return Tclsh(program, commands, answer)
    try:
        return InPython(commands, answer)
    except ImportError:
        raise NoTcl(
            "constraints are run in a Tcl, and there is neither tclsh nor Python's tkinter here: apt-get install tcl"
        ) from None
