"""The command `lizdrog`: chooses the program, runs it, and explains what it refused.

What each call needs is imported here, and all else where it is needed: a call of a short run is over in some hundredths
of a second. Of `signal` that is its part in C; the rest of it would take a third of the start.
"""
import _signal as signal
import os
import sys

from lizdrog_tools import command_line, ending, programs
from lizdrog_tools.programs import Stop

NO_PROGRAM = 70
# Commands that are tools by themselves, each with a --help of its own.
BESIDE = {"connect": "connect_live.py", "corners": "corners.py", "import": "import_design.py", "report": "report.py",
          "serve": "serve_live.py", "summary": "summary.py"}
FIRST_BYTES = 65536
# What the C library does with memory, where nobody has said it. Large pages: the kernel gives them to those that ask
# (docs/SPEED.md). One arena: where each thread has its own, the others do not use what is freed in it. For 16 sessions
# with 40 ECOs each on 7,000 cells, that more than doubled the memory (183 to 205 MB against 69), and took 37 to 43 s of
# processors against 29 to 33.
TUNABLES = {"glibc.malloc.hugetlb": "1", "glibc.malloc.arena_max": "1"}


def say(line: str) -> None:
    print(f"lizdrog: {line}", file=sys.stderr, flush=True)


def write_all(data: bytes) -> bool:
    """Whether all of it was written to standard output."""
    view = memoryview(data)
    while view:
        try:
            view = view[os.write(1, view):]
        except OSError:
            return False
    return True


def surroundings() -> dict[str, str]:
    """The environment of the program, with those of its tunables that nobody has set."""
    said = os.environ.get("GLIBC_TUNABLES", "")
    known = {it.partition("=")[0] for it in said.split(":")}
    added = [f"{name}={value}" for name, value in TUNABLES.items() if name not in known]
    return {**os.environ, "GLIBC_TUNABLES": ":".join([*([said] if said else []), *added])}


def pass_on(child: int, number: int) -> None:
    """Passes a signal on to a process, which may have ended meanwhile."""
    try:
        os.kill(child, number)
    except ProcessLookupError:
        pass


def start(program: str, words: list[str]) -> tuple[int, int]:
    """Starts the program and passes signals on to it; gives the number of its process, and what to read its output
    from."""
    reading, writing = os.pipe()
    as_default, passed_on = [signal.SIGPIPE, signal.SIGXFSZ], ending.heeded()
    before = ending.hold(passed_on)
    try:
        child = os.posix_spawn(program, [program, *words], surroundings(), setsigdef=as_default, setsigmask=before,
                               file_actions=[(os.POSIX_SPAWN_DUP2, writing, 1)])
        for number in passed_on:
            signal.signal(number, lambda got, _: pass_on(child, got))
    except OSError as why:
        raise Stop(f"{program} does not start: {why.strerror}") from why
    finally:
        ending.release(passed_on)
    os.close(writing)
    return child, reading


def resident(child: int) -> int:
    """How many MB of memory a process has; 0 where that is not told."""
    try:
        with open(f"/proc/{child}/statm", "rb") as file:
            return int(file.read().split()[1]) * os.sysconf("SC_PAGE_SIZE") // 1_000_000
    except (OSError, IndexError, ValueError):
        return 0


def tell_progress(child: int) -> None:
    """Says after 5 s, and then now and then, how long a run has taken: to who looks at a terminal, or has set
    LIZDROG_PROGRESS to yes."""
    if os.environ.get("LIZDROG_PROGRESS", "yes" if os.isatty(2) else "no") != "yes":
        return
    pauses = iter((5, 5, 10, 20, 20))
    passed = next(pauses)

    def tell(*_: object) -> None:
        nonlocal passed
        say(f"{passed} s, {resident(child)} MB")
        pause = next(pauses, 60)
        passed += pause
        signal.setitimer(signal.ITIMER_REAL, pause)

    signal.signal(signal.SIGALRM, tell)
    signal.setitimer(signal.ITIMER_REAL, passed)


def run(program: str, words: list[str]) -> tuple[int, bytes]:
    """Runs the program with its output passed on; gives its status and the first bytes of what it wrote."""
    child, reading = start(program, words)
    tell_progress(child)
    signal.signal(signal.SIGINT, lambda got, _: None)
    first, written = b"", True
    while written:
        data = os.read(reading, 1 << 20)
        if not data:
            break
        first += data[:FIRST_BYTES - len(first)]
        written = write_all(data)
    os.close(reading)
    status = os.waitstatus_to_exitcode(os.waitpid(child, 0)[1])
    signal.setitimer(signal.ITIMER_REAL, 0)
    ending.heed("lizdrog")
    if status < 0:
        return 128 - status, first
    return (status if written else 5), first


def usage(why: str) -> None:
    """The words of the command and then, where the eye is, what is wrong with those that were given."""
    from lizdrog_tools import help_text
    print(help_text.USAGE, file=sys.stderr)
    say(why)


def explain(status: int, first: bytes, words: list[str]) -> None:
    """Says more of a run that did not end with answers alone."""
    if status == 1:
        say("status 1: some row is refused, no or not_yet; tools/read_answers.py SCRIPT OUTPUT shows the command of "
            "each, and what its code means")
        if any(it in first for it in (b" refused E14 ", b"\nrefused E14 ", b" refused E15 ", b"\nrefused E15 ")):
            say("its options --netlist and --library tell which pin of a net its parasitics do not fit (E14, E15)")
        return
    from lizdrog_tools import explain_fault
    if status == 2:
        usage(command_line.doubts(words))
    for line in explain_fault.explain(status, first.decode("latin-1"), words):
        print(line, file=sys.stderr)


def doubt(words: list[str]) -> None:
    """Says what the documents of a run hardly mean, though the program reads them."""
    from lizdrog_tools import sanity_words
    documents = [it for it in command_line.without_journal(words)[0] if it != "--"][1:6]
    for line in sanity_words.doubts(documents) if len(documents) == 5 else ():
        say(f"note: {line} (tools/check_setup.py looks closer)")


def lacks_line_end(name: str) -> bool:
    """Whether a file has bytes of which the last is no line feed."""
    try:
        if not os.path.isfile(name):
            return False
        with open(name, "rb") as file:
            size = file.seek(0, os.SEEK_END)
            file.seek(max(0, size - 1))
            return file.read(1) not in (b"", b"\n")
    except OSError:
        return False


def warn_of_journal(words: list[str]) -> None:
    """Warns of a saved journal that may be cut short in its last line: a part of `BUF_X16` is read as `BUF_X1`."""
    _, journal = command_line.without_journal(words) if words[:1] == ["run"] else (words, None)
    if journal is not None and lacks_line_end(journal):
        say(f"warning: {journal} does not end with a line feed: its last line may be cut short, and the run reads "
            f"it so; `tools/mend_journal.py {journal}` tells more")


def serve(given: dict, words: list[str]) -> int:
    """Chooses the program, runs it, and explains what it refused."""
    program = given["program"]
    if program and given["proved"]:
        raise Stop("--program and --proved do not go together: nobody knows whether a program that you give is proved")
    if words[:1] == ["live"]:
        from lizdrog_tools import run_live
        return run_live.run(program or programs.choose_live(given["proved"], given["build"], say), words)
    program = program or programs.choose(given["proved"], given["build"], say)
    if not words:
        return 0
    warn_of_journal(words)
    status, first = run(program, words)
    if words[0] == "run" and status in (0, 1):
        doubt(words)
    if status:
        explain(status, first, words)
    return status


def other_command(words: list[str], is_proved: bool) -> int | None:
    """The status of a command that scripts answer; none where the program is to answer."""
    name, rest = (words[0], words[1:]) if words else ("", [])
    if name == "install":
        from lizdrog_tools import install
        return install.main(rest, is_proved, say)
    if name == "test":
        from lizdrog_tools import try_clone
        return try_clone.main(rest, is_proved, say)
    return None


def project_words(words: list[str]) -> tuple[list[str], str | None]:
    """The words of a run, or of a live server, with the documents of a project file, and the name of that file."""
    from lizdrog_tools import run_project
    if not run_project.is_project(words):
        return words, None
    return run_project.expanded(words), command_line.without_journal(words)[0][1]


def answer(words: list[str]) -> int:
    """The status of a call with these words."""
    if words and words[0] in BESIDE:
        if words[0] == "serve":
            ending.hold(ending.heeded(ending.ALL))
        else:
            ending.leave()
        os.execv(sys.executable, [sys.executable, f"{programs.TOP}/tools/{BESIDE[words[0]]}", *words[1:]])
    asked = command_line.asked_help(words)
    if asked is not None:
        from lizdrog_tools import help_text
        return 0 if write_all(help_text.of(asked).encode() + b"\n") else 5
    given, words = command_line.options_of(words)
    if words == [] and given["version"]:
        return 0 if write_all("\n".join([*programs.version(), ""]).encode()) else 5
    if words and words[0] in BESIDE:
        usage(f"the options of {words[0]} stand behind it: `lizdrog {words[0]} --help` lists them")
        return 2 if write_all(b"fault words\n") else 5
    status = other_command(words or [], given["proved"])
    if status is not None:
        return status
    project = None
    if words and words[0] in command_line.ON_DESIGN and any(it.endswith(".toml") for it in words):
        from lizdrog_tools import files
        try:
            words, project = project_words(words)
        except (files.InputFault, OSError) as why:
            say(str(why))
            return 2 if write_all(b"fault words\n") else 5
    why = "there is no such option" if words is None else command_line.misfit(words, project)
    if why and not (words == [] and given["build"]):
        written = write_all(b"fault words\n")
        usage(why)
        return 2 if written else 5
    return serve(given, words)


def main() -> int:
    ending.heed("lizdrog")
    try:
        os.fstat(1)
    except OSError:
        os.dup2(os.open("/dev/full", os.O_WRONLY), 1)
    try:
        return answer(sys.argv[1:])
    except Stop as why:
        say(str(why))
        return NO_PROGRAM
    except KeyboardInterrupt:
        return 130
