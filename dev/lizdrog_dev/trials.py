"""What the hostile trials share: designs, runs of a program with limits, whether an answer is of the documented form,
and a table.

The form is that of docs/COMMANDS.md (statuses), docs/SCRIPTS.md (the output) and docs/FAULTS.md (codes and places).
Nothing here looks at what the program does to learn what it should do.
"""
import dataclasses
import os
import pathlib
import re
import resource
import shutil
import signal
import subprocess
import sys
import time

from lizdrog_tools.places import TOP, BENCH

PROGRAMS = [TOP / "crates/timing_shell/out/timing_shell", TOP / "out/quick_build/timing_shell"]

TIME = rb"(?:-?[0-9]+\.[0-9]{3}|none)"
NAME = rb"[^ \n]+"
CODES = {b"early": b"L", b"late": b"L", b"netlist": b"V", b"sdc": b"S", b"spef": b"P", b"journal": b"J"}
LASTS = {b"L": 10, b"V": 6, b"S": 6, b"P": 5, b"C": 2, b"J": 5}
ONE_NAME = {b"E%d" % n for n in [*range(1, 11), 12, 13, 14, 15]}
PATH = re.compile(
    rb"path (?:setup|hold) %s slack %s credit %s from %s (?:rise|fall) to %s (?:rise|fall) nodes ([0-9]+)"
    % (NAME, TIME, TIME, NAME, NAME)
)
LAUNCHES = rb"((?: %s (?:rise|fall) -?[0-9]+\.[0-9]{3})*)" % NAME
ANSWERS = [
    rb"slew %s" % TIME,
    rb"slack %s" % TIME,
    rb"endpoint %s" % TIME,
    rb"wns %s" % TIME,
    rb"tns -?[0-9]+\.[0-9]{3}",
    rb"path none",
    rb"advice none",
    rb"advice %s %s -?[0-9]+\.[0-9]{3}" % (NAME, NAME),
]
DONE = [rb"accepted", rb"taken", rb"reached", rb"not_yet [0-9]+"]
TRIED = [rb"tried", rb"dropped", rb"no_draft"]
NO_ANSWER = rb"no Q[1-5] %s" % NAME


def form(text):
    """The pattern of a line: NAME, EDGE, TIME (or none), SUM (a time), VALUE (not negative), KIND and COUNT."""
    words = {"NAME": NAME, "EDGE": rb"(?:rise|fall)", "TIME": TIME, "SUM": rb"-?[0-9]+\.[0-9]{3}",
             "VALUE": rb"[0-9]+\.[0-9]{3}", "KIND": rb"(?:setup|hold)", "COUNT": rb"[0-9]+"}
    return re.sub(rb"[A-Z]{4,5}|SUM", lambda it: words[it[0].decode()], text.encode())


NODE = form("NAME EDGE SUM TIME VALUE(?: net NAME VALUE COUNT)?")
TOTALS = "setup TIME SUM hold TIME SUM"
# Answers to questions for closing timing: the first line with its counts, and the lines that each count speaks of.
CLOSING = [(re.compile(form(head)), below) for head, below in (
    ("net NAME driver NAME load VALUE VALUE parasitics (?:none|lumped|tree nodes COUNT resistance VALUE)"
     " sinks (COUNT) edits (1)",
     [("sink", form("NAME VALUE VALUE (?:VALUE VALUE|none none)")), ("edit", form("set_parasitics(?: NAME)+"))]),
    ("instance NAME NAME pins (COUNT)", [("pin", form("NAME (?:input|output) (?:net NAME|tied|open)"))]),
    ("sizes NAME NAME cells (COUNT)", [("cell", form("NAME (?:alike|other) inputs COUNT(?: NAME VALUE)*"))]),
    ("timing KIND NAME slack SUM credit SUM from NAME EDGE to NAME EDGE nodes (COUNT) capture (COUNT) parts (8)",
     [("node", NODE), ("node of the capture clock", NODE),
      ("part of a slack", form("(?:capture_edge NAME EDGE|capture_arrival|(?:setup|hold)_time|output_delay|uncertainty"
                               "|credit|required|arrival|slack) SUM"))]),
    ("failing COUNT listed (COUNT)", [("endpoint of a list", form("NAME -VALUE"))]),
    ("summary KIND clocks (COUNT) untested COUNT",
     [("clock", form("NAME tested COUNT failing COUNT worst TIME total SUM"))]),
    ("skew (COUNT)", [("launch edge", form("NAME EDGE SUM late NAME EDGE SUM early NAME EDGE SUM"))]),
    (f"resizes ([0-5]) tried COUNT refused COUNT {TOTALS}", [("resize", form(f"NAME NAME {TOTALS}"))]),
    ("timing none", []),
)]


def compiled(name, folder):
    """A C file beside this one, made in a folder into a library to be loaded before the C library (LD_PRELOAD)."""
    compiler = next((it for it in ("cc", "gcc", "clang") if shutil.which(it)), None)
    if not compiler:
        sys.exit(f"{pathlib.Path(sys.argv[0]).name} needs a C compiler (cc, gcc or clang)")
    library = (folder / name).with_suffix(".so")
    subprocess.run([compiler, "-O2", "-shared", "-fPIC", "-o", library, BENCH / name, "-ldl"], check=True)
    return library


class Deviates(Exception):
    """Says in a sentence how an answer is not of the documented form."""


@dataclasses.dataclass
class Design:
    """Documents by the names of their files, and the words of a run on them."""
    name: str
    files: dict
    words: list
    plain: bool = False   # whether bench/reference_timer.py reads them

    def roles(self):
        """The role of each document of the run with the name of its file, in the order of reading."""
        words = list(self.words[1:])
        journal = None
        if words[0] == "--journal":
            journal, words = words[1], words[2:]
        found = list(zip(("early", "late", "netlist", "sdc"), words))
        found += [("spef", words[4])] if words[4] != "none" else []
        found += [("journal", journal)] if journal else []
        return found + [(f"script{at}", name) for at, name in enumerate(words[6:], 1)]

    def write(self, folder):
        for name, text in self.files.items():
            pathlib.Path(folder, name).write_bytes(text)


@dataclasses.dataclass
class Ran:
    """How a run ended: its status (below 0: the signal; none: it did not end in time), and what it wrote."""
    status: object
    out: bytes
    err: bytes
    seconds: float

    def ended(self):
        if self.status is None:
            return f"no end within {self.seconds:.0f} s"
        return f"signal {signal.Signals(-self.status).name}" if self.status < 0 else f"status {self.status}"


def find_program(given):
    """The program that is given, else the proved one, else the one without proof."""
    for it in [pathlib.Path(given)] if given else PROGRAMS:
        if it.is_file() and os.access(it, os.X_OK):
            return it.resolve()
    sys.exit("there is no program: the gate builds it, and dev/quick_build.py builds one without proof")


def run(program, words, folder, seconds=60, env=None, limits=(), before=None, **how):
    """Runs a program with limits; standard output is kept where nothing else is said."""
    def begin():
        for what, most in limits:
            resource.setrlimit(what, (most, most))
        if before:
            before()
    how = {"stdin": subprocess.DEVNULL, "stdout": subprocess.PIPE, **how}
    began = time.monotonic()
    with subprocess.Popen([str(program), *map(os.fspath, words)], cwd=folder, stderr=subprocess.PIPE, env=env,
                          preexec_fn=begin if limits or before else None, **how) as child:
        try:
            out, err = child.communicate(timeout=seconds)
        except subprocess.TimeoutExpired:
            child.kill()
            out, err = child.communicate()
            return Ran(None, out or b"", err, time.monotonic() - began)
    return Ran(child.returncode, out or b"", err, time.monotonic() - began)


# ------------------------------------------------------------------------------------------------ the form of an answer

class Lines:
    """The lines of an output, one after the other."""

    def __init__(self, text):
        if not text.endswith(b"\n"):
            raise Deviates("the output does not end with a line feed")
        self.lines, self.at = text.split(b"\n")[:-1], 0

    def take(self, what, form):
        """The next line, which has to be of a form."""
        if self.at == len(self.lines):
            raise Deviates(f"the output ends where {what} should stand")
        line = self.lines[self.at]
        self.at += 1
        found = re.fullmatch(form, line, re.S)
        if not found:
            raise Deviates(f"line {self.at} of the output is no {what}: {line[:120]!r}")
        return found

    def many(self, count, what, form):
        return [self.take(what, form) for _ in range(int(count))]


def is_fault_of_design(text):
    """Whether this is a fault of a design, as FAULTS.md has it."""
    code, *names = text.split(b" ")
    if not all(names):
        return False
    if code == b"E11":
        return len(names) >= 2
    if code == b"E16":
        return len(names) == 2 and names[0] in (b"pin", b"net")
    if code == b"E17":
        return len(names) == 2 and names[0] in (b"pins", b"insts", b"nets", b"net")
    return code in ONE_NAME and len(names) == 1


def is_told(lines, text):
    """Whether a text is the answer to a question; takes the lines that belong to it."""
    launches = re.fullmatch(rb"(?:at|rat) ([0-9]+)" + LAUNCHES, text)
    if launches and launches[2].count(b" ") != 3 * int(launches[1]):
        raise Deviates(f"line {lines.at} of the output has another number of launch edges than it says")
    for head, below in CLOSING:
        found = head.fullmatch(text)
        if found:
            for count, (what, lines_form) in zip(found.groups(), below):
                lines.many(count, what, lines_form)
            return True
    several = re.fullmatch(rb"(paths|worst_paths|what_if) ([0-9]+)", text)
    for _ in range(int(several[2]) if several else 0):
        part = lines.take("part of an answer", rb".*")[0]
        is_part = is_tried(lines, part) if several[1] == b"what_if" else PATH.fullmatch(part) and is_told(lines, part)
        if not is_part:
            raise Deviates(
                f"line {lines.at} of the output is no part of an answer of the documented form: {part[:120]!r}"
            )
    path, worst = PATH.fullmatch(text), re.fullmatch(rb"worst ([0-9]+)", text)
    if path:
        lines.many(path[1], "node of a path", rb"%s (?:rise|fall) -?[0-9]+\.[0-9]{3}" % NAME)
    if worst:
        lines.many(worst[1], "endpoint of a list", rb"%s -?[0-9]+\.[0-9]{3}" % NAME)
    return bool(launches or several or path or worst) or any(re.fullmatch(it, text) for it in ANSWERS)


def is_refused(text):
    return text.startswith(b"refused ") and is_fault_of_design(text[8:])


def is_tried(lines, text):
    """Whether a text is the answer to a trial of a draft; takes the lines that belong to it."""
    if text.startswith(b"what_if "):
        return False
    return any(re.fullmatch(it, text) for it in [*TRIED, NO_ANSWER]) or is_refused(text) or is_told(lines, text)


def check_row(lines, number, last):
    """One row with the lines that belong to it; gives its design, and whether it is an answer."""
    row = lines.take("row", rb"([0-9]+) ([0-9]+) (.*)")
    if int(row[1]) != number or int(row[2]) < last:
        raise Deviates(f"line {lines.at} of the output: row {number}, of design {last} or later, is {row[0][:80]!r}")
    text, design = row[3], int(row[2])
    if any(re.fullmatch(it, text) for it in DONE) or is_told(lines, text):
        return design, not text.startswith(b"not_yet ")
    if re.fullmatch(NO_ANSWER, text) or is_refused(text):
        return design, False
    raise Deviates(f"line {lines.at} of the output is no row of the documented form: {row[0][:120]!r}")


def check_output(status, text, sessions, saved):
    """An output of the statuses 0 and 1; `saved` says whether the run went on from a saved journal."""
    lines = Lines(text)
    if saved:
        head = lines.take("head of a journal", rb"journal 2 ([0-9]+) ([0-9]+)")
        first, count = int(head[1]), int(head[2])
        lines.take("line of derates", rb"derates [0-9]+ [0-9]+ [0-9]+ [0-9]+")
    else:
        first, count = 0, int(lines.take("head of a journal", rb"journal 1 ([0-9]+)")[1])
    for number in range(first + 1, first + count + 1):
        entry = lines.take("entry", rb"entry %d session ([0-9]+) edits ([0-9]+)" % number)
        if not 1 <= int(entry[1]) <= sessions or not 1 <= int(entry[2]) <= 1000:
            raise Deviates(f"line {lines.at} of the output: {entry[0]!r}")
        lines.many(entry[2], "edit", rb"[a-z_]+(?: %s)+" % NAME)
    good = True
    for session in range(1, sessions + 1):
        rows, last = lines.take("head of a session", rb"session %d rows ([0-9]+)" % session), first
        for number in range(1, int(rows[1]) + 1):
            last, is_answer = check_row(lines, number, last)
            good = good and is_answer
            if last > first + count:
                raise Deviates(f"line {lines.at} of the output: design {last}, and the last one is {first + count}")
    lines.take(
        "last line", rb"final %d setup %s -?[0-9]+\.[0-9]{3} hold %s -?[0-9]+\.[0-9]{3}" % (first + count, TIME, TIME)
    )
    if lines.at != len(lines.lines):
        raise Deviates("the output goes on behind its last line")
    if (status == 0) != good:
        raise Deviates(f"status {status}, and {'each' if good else 'not each'} row is an answer")


def check_fault(text, documents):
    """A line of status 3; `documents` has the bytes of each role."""
    if not text.endswith(b"\n") or text.count(b"\n") != 1:
        raise Deviates(f"status 3, and not one line: {text[:120]!r}")
    head, role, *rest = text[:-1].split(b" ")
    if head == b"fault" and role == b"design" and is_fault_of_design(b" ".join(rest)):
        return "design"
    if (
        head == b"fault"
        and role == b"journal"
        and len(rest) > 2
        and rest[0] == b"J4"
        and is_fault_of_design(b" ".join(rest[2:]))
    ):
        entries = len(re.findall(rb"(?m)^entry ", documents.get("journal", b"")))
        if re.fullmatch(rb"[0-9]+", rest[1]) and 1 <= int(rest[1]) <= entries:
            return "journal"
        raise Deviates(f"the journal has {entries} entries: {text[:120]!r}")
    name = role.decode("latin-1")
    letter = b"C" if name.startswith("script") else CODES.get(role, b"none")
    fits = (
        head == b"fault"
        and len(rest) == 2
        and re.fullmatch(letter + rb"([1-9][0-9]?)", rest[0])
        and re.fullmatch(rb"[0-9]+", rest[1])
    )
    if not fits or int(rest[0][1:]) > LASTS[letter] or rest[0] == b"J4" or name not in documents:
        raise Deviates(f"status 3 with a line that is no documented fault: {text[:120]!r}")
    text_of, place = documents[name], int(rest[1])
    if letter == b"C" and not 1 <= place <= text_of.count(b"\n") + 1:
        raise Deviates(f"line {place} of a script of {text_of.count(bytes([10])) + 1} lines")
    if letter != b"C" and place > len(text_of):
        raise Deviates(f"the offset {place} in a text of {len(text_of)} bytes")
    return name


def check_answer(ran, documents, sessions, saved):
    """Raises Deviates where a run on these documents has no documented answer."""
    if ran.status not in range(7):
        raise Deviates(ran.ended() + f": {(ran.out[-200:] + ran.err[-200:])!r}")
    if ran.err:
        raise Deviates(f"it writes on standard error: {ran.err[:200]!r}")
    if ran.status in (0, 1):
        check_output(ran.status, ran.out, sessions, saved)
    elif ran.status == 2:
        if ran.out != b"fault words\n":
            raise Deviates(f"status 2 with {ran.out[:120]!r}")
    elif ran.status == 3:
        check_fault(ran.out, documents)
    elif ran.status == 4:
        if not re.fullmatch(rb"fault shelf [^\n]+ (?:failed|absent|too_long)\n", ran.out):
            raise Deviates(f"status 4 with {ran.out[:120]!r}")
    elif ran.status == 6 and ran.out:
        raise Deviates(f"status 6, and it wrote {ran.out[:120]!r}")


# ------------------------------------------------------------------------------------------------ designs

def shared_texts():
    """The texts of the documents that the rows of crates/shell_rows share, by their names: those before the first
    case."""
    head = re.split(r"(?m)^case ", (TOP / "crates/shell_rows/stdin").read_text())[0]
    parts = re.split(r"(?m)^document (.*)\n", head)
    lines = {name: re.findall(r"(?m)^\| ?(.*)$", rows) for name, rows in zip(parts[1::2], parts[2::2])}
    return {name: "".join(f"{it}\n" for it in found).encode() for name, found in lines.items()}


def one_script(*lines):
    return "".join(f"{it}\n" for it in lines).encode()


ROW_9 = one_script(
    "report_path r2:D setup",
    "repower_gate g2 BUF_X4",
    "report_at g1:Z late rise",
    "report_endpoint o setup",
    "report_endpoint r2:D setup",
    "report_endpoint r2:D hold",
)
ROW_15 = one_script(
    "begin_eco",
    "repower_gate g2 BUF_X4",
    "insert_net x",
    "insert_gate y NOCELL",
    "commit_eco",
    "begin_eco",
    "disconnect_pin g1:A",
    "connect_pin g1:A n3",
    "commit_eco",
    "report_endpoint r2:D setup",
    "report_slew nopin early rise",
    "report_endpoint g1:A setup",
)
ALL_COMMANDS = one_script(
    "# each command once",
    "report_slew g1:Z early fall",
    "report_at r2:D late rise",
    "report_rat r2:D late rise",
    "report_slack r2:D early fall",
    "report_endpoint o hold",
    "report_path o setup",
    "report_wns hold",
    "report_tns setup",
    "report_worst setup 3",
    "take",
    "await 0 3",
    "repower_gate g1 BUF_T",
    "insert_buffer c1 cb2 c2 BUF_X1 r2:CK",
    "set_parasitics n2 r g1:Z #1 1000 r #1 g2:A 500 r g2:A g3:A 2000 c #1 9000",
    "set_parasitics n2 none",
    "begin_eco",
    "insert_gate r3 DFF",
    "insert_net z",
    "connect_pin r3:CK g",
    "connect_pin r3:Q z",
    "commit_eco",
    "begin_eco",
    "disconnect_pin r3:CK",
    "disconnect_pin r3:Q",
    "remove_gate r3",
    "remove_net z",
    "commit_eco",
    "report_worst hold 2",
    "report_through r2:D setup g1:Z",
    "report_paths o setup 3",
    "advise setup cb BUF_X4 g2 BUF_X4",
    "begin_what_if",
    "repower_gate g2 BUF_X4",
    "report_path r2:D setup",
    "begin_eco",
    "repower_gate g1 BUF_X4",
    "repower_gate cb BUF_X4",
    "commit_eco",
    "report_worst setup 2",
    "drop_last",
    "report_rat g1:Z late rise",
    "end_what_if",
    "report_wns setup",
)
JOURNAL = b"""journal 1 1
entry 1 session 1 edits 1
repower_gate g2 BUF_X4
journal 2 1 2
derates 1000000 1000000 1000000 1000000
entry 2 session 16 edits 2
insert_buffer c1 cb2 c2 BUF_X1 r2:CK
set_parasitics n2 c #1 4000 r g1:Z #1 1000 r #1 g2:A 500 r g2:A g3:A 2000
entry 3 session 2 edits 1
repower_gate g2 BUF_X1
"""


def folder_of(name):
    return {
        it.name: it.read_bytes()
        for it in (TOP / "examples" / name).iterdir()
        if it.suffix in (".lib", ".v", ".sdc", ".eco", ".spef")
    }


def gate_designs():
    """The documents of the worked rows that the gate runs, and those of the examples."""
    texts = shared_texts()
    base = {it: texts[it] for it in ("early.lib", "late.lib", "b.v", "b.sdc")}
    words = ["run", "early.lib", "late.lib", "b.v", "b.sdc", "none", "2", "s1"]
    contest = {
        **{it: texts[it] for it in ("e.lib", "e.v", "e.sdc", "e.spef")},
        "s1": one_script(
            "report_endpoint r1:D setup", "report_slew r1:D late rise", "report_path y hold", "report_wns hold"
        ),
    }
    inverters = {**{it: texts[it] for it in ("a.lib", "a.v", "empty")}, "s1": one_script("report_slew u2:Z late rise")}
    ann, ben = ["run", "early.lib", "late.lib", "design.v", "design.sdc", "none", "2"], ["ann.eco", "ben.eco"]
    return [
        Design("inverters", inverters, ["run", "a.lib", "a.lib", "a.v", "empty", "none", "1", "s1"], plain=True),
        Design("registers", {**base, "s1": ROW_9}, words, plain=True),
        Design("refusals", {**base, "s1": ROW_15}, words, plain=True),
        Design("commands", {**base, "s1": ALL_COMMANDS}, words, plain=True),
        Design("contest", contest, ["run", "e.lib", "e.lib", "e.v", "e.sdc", "e.spef", "1", "s1"], plain=True),
        Design("journal", {**base, "s1": ROW_9, "j1": JOURNAL}, ["run", "--journal", "j1", *words[1:]]),
        Design("sessions", folder_of("two-engineers"), ann + ben),
        Design("yesterday", folder_of("saved-journal"), [*ann, "yesterday.eco"], plain=True),
    ]


# ------------------------------------------------------------------------------------------------ tables

def table(title, columns, rows):
    """Prints rows of words below a title, each column as wide as it has to be."""
    texts = [[str(it) for it in row] for row in [columns, *rows]]
    widths = [max(len(row[at]) for row in texts) for at in range(len(columns))]
    print(title)
    for row in texts:
        print("  " + "  ".join(it.ljust(width) for it, width in zip(row, widths)).rstrip())
    sys.stdout.flush()
