"""`lizdrog live`: starts the live server on the caller's own input and output, and explains how it ended.

The server has the caller's descriptors themselves, so each answer is there as soon as the server has written it.
Signals are passed on, and where this process is killed the server ends, too. What the server writes is not seen here: a
fault of a document is looked up by a batch run on the same documents.
"""
import fcntl
import os
import signal
import subprocess

from lizdrog_tools import command_line, ending, programs, run_lizdrog
from lizdrog_tools.live.children import with_parent
from lizdrog_tools.run_lizdrog import say

PASSED_ON = (signal.SIGTERM, signal.SIGHUP, signal.SIGINT, signal.SIGQUIT)
SOME_NO_ANSWER, WRONG_WORDS, REFUSED, NOT_READ, NOT_WRITTEN, WANTING = range(1, 7)
DOCUMENTS = 5


def start(program: str, words: list[str]) -> subprocess.Popen:
    """Starts the live server and passes signals on to it."""
    before = ending.hold(PASSED_ON)
    try:
        child = subprocess.Popen(
            [program, *words], env=run_lizdrog.surroundings(), close_fds=False, preexec_fn=with_parent(before)
        )
        for number in PASSED_ON:
            signal.signal(number, lambda got, _: child.send_signal(got))
    except OSError as why:
        raise programs.Stop(f"{program} does not start: {why.strerror}") from why
    finally:
        ending.release(PASSED_ON)
    return child


def run(program: str, words: list[str]) -> int:
    """Runs the live server with these words, and explains its status."""
    child = start(program, words)
    status = child.wait()
    if status < 0:
        return 128 - status
    for line in lines_of(status, program, words):
        say(line)
    if status == WRONG_WORDS:
        run_lizdrog.usage(command_line.doubts(words))
    return status


def lines_of(status: int, program: str, words: list[str]) -> list[str]:
    """What is said of a status."""
    plain, journal = command_line.without_journal(words)
    names = [it for at, it in enumerate(plain) if at and it != "--"]
    documents, pairs = names[:DOCUMENTS + 1], names[DOCUMENTS + 1:]
    if status == SOME_NO_ANSWER:
        return ["status 1: some reply was refused, no, not_yet or an error; docs/FAULTS.md has their codes"]
    if status in (REFUSED, NOT_READ):
        return refused(status, program, documents, pairs, journal)
    if status == NOT_WRITTEN:
        return not_written(journal)
    if status == WANTING:
        return ["a session, or the design, had not enough memory; `ulimit -v` says whether a limit is set"]
    return []


def refused(status: int, program: str, documents: list[str], pairs: list[str], journal: str | None) -> list[str]:
    """Why a document, the saved journal or an input was refused."""
    if journal is not None and run_lizdrog.lacks_line_end(journal):
        return [f"{journal} does not end with a line feed: `tools/mend_journal.py {journal}` tells where it is torn"]
    known = [it for it, live in programs.LIVE_BESIDE.items() if live == program]
    batch = known[0] if known else f"{os.path.dirname(program)}/timing_shell"
    read = [it for it in documents[:DOCUMENTS] if it != "none"] + ([journal] if journal is not None else [])
    found = absent(read, journal) if status == NOT_READ else []
    if not found and programs.is_program(batch) and all(map(os.path.isfile, read)):
        found = looked_up(batch, documents, journal)
    if found:
        return found
    gone = [it for it in pairs[::2] if not os.access(it, os.R_OK)]
    if gone:
        return [f"{gone[0]}: this input of a session can not be read"]
    return ["docs/FAULTS.md has the code of the line `fault ..`"]


def absent(names: list[str], journal: str | None) -> list[str]:
    """What is said of the first of these names that is not there."""
    from lizdrog_tools import explain_fault
    gone = next((it for it in names if not os.path.exists(it)), None)
    return explain_fault.explain_shelf(gone, "failed", journal) if gone is not None else []


def looked_up(batch: str, documents: list[str], journal: str | None) -> list[str]:
    """What a batch run on the same documents says of their fault; nothing where it takes them."""
    import tempfile

    from lizdrog_tools import explain_fault
    with tempfile.NamedTemporaryFile(suffix=".eco") as script:
        words = ["run", *(["--journal", journal] if journal is not None else []), "--", *documents, script.name]
        ran = subprocess.run([batch, *words], stdin=subprocess.DEVNULL, capture_output=True, check=False)
        output = ran.stdout.decode("latin-1")
        return explain_fault.explain(ran.returncode, output, words) if output.startswith("fault ") else []


def not_written(journal: str | None) -> list[str]:
    """Why something could not be written."""
    more = "an output could not be written to its end (a full disk, or a reader that has closed it)"
    if journal is None:
        return [more]
    try:
        with open(journal, "rb+") as file:
            fcntl.flock(file, fcntl.LOCK_EX | fcntl.LOCK_NB)
    except BlockingIOError:
        return [f"{journal}: another live server holds it"]
    except OSError as why:
        return [f"{journal}: {why.strerror}: each ECO has to be there before anybody hears of it"]
    return [f"{journal}, or {more}; `tools/mend_journal.py {journal}` tells whether it is torn"]
