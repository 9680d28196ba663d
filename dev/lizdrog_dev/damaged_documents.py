"""Runs a program on damaged documents: damaged_documents.py [--program FILE] [--count N] [--seed S] [--first F | --only
NUMBER] [--seconds T] [--keep DIR]

N documents (default: 2000) are damaged, by the seed S (default: 1): of the worked rows that the gate runs, of the
examples, and of generated designs with parasitics, in turn each document of each (both libraries, netlist, constraints,
parasitics, saved journal, scripts). A damage is one to three changes of
  bytes    one is changed, one bit is turned, one to three are put in, some go, the text ends early, a zero or one
           above 127 is put in
  lines    one goes, comes twice, changes places with another, is joined with the next, gets a carriage return; one of
           another document
  tokens   one goes, comes twice, changes places, becomes another of the document, a number out of range, a word of
           another language, brackets and quotes; a word of thousands of bytes; brackets of up to 200,000 levels
  texts    it is empty, stands twice, or is that of another role
Each answer has to have a documented status, and to be of the form that docs/COMMANDS.md, docs/SCRIPTS.md and
docs/FAULTS.md give, with a place inside the text, and to come within T seconds (default: 60). Where
bench/reference_timer.py reads the documents, and these are a design, it has to give the same output, or the same fault
of the script (of a refusal for one of several loops or overflows the code alone). It prints how many were tried and
what came; at the first answer that deviates it keeps the documents and the output in DIR (default: damaged-S-NUMBER of
the caller's folder), says which, and ends with 1. --only NUMBER repeats that one; --first F begins with the number F
(default: 0). A run that is ended by SIGINT or SIGTERM tells what it tried, with status 130.
"""
import argparse
import collections
import contextlib
import os
import pathlib
import random
import re
import signal
import sys
import tempfile

from lizdrog_dev import compare, reference_timer, trials

HOSTILE_WORDS = [
    b"0", b"-1", b"1e30", b"-1e30", b"1e31", b"1e-31", b"1e999999999", b"99999999999999999999", b"18446744073709551616",
    b"1000000000001", b"1000000000000", b"0.000000000000000000000000000001", b"1234567890123456789012345678901", b"nan",
    b"inf", b".", b"1.", b".5", b"--", b"+1", b"0x10", b"1,5", b"200001", b"65536", b"10001", b"none", b"*", b"?",
    b"$x", b"[expr 1]", b"\\", b"/", b":", b"a:b:c", b"#4294967296", b"#1",
]
MARKS = [
    b"{", b"}", b"(", b")", b"[", b"]", b'"', b";", b",", b":", b"*", b"\\", b"/*", b"*/", b"//", b"#", b"(*", b"*)",
    b"`", b"'", b".", b"\\\n", b"\r\n", b"\n\n", b"\t",
]
TOKENS = re.compile(rb"[A-Za-z_][\w]*|[-+]?[0-9][\w.+-]*|\s+|.", re.S)
MOST_BYTES = 3000000


# ------------------------------------------------------------------------------------------------ damages

def damage_bytes(r, text, _):
    at = r.randrange(len(text) + 1)
    kind = r.choice(["change", "turn", "put", "drop", "end", "zero", "high", "mark"])
    if kind == "change":
        return text[:at] + bytes([r.randrange(32, 127)]) + text[at + 1:]
    if kind == "turn":
        return text[:at] + bytes(it ^ (1 << r.randrange(8)) for it in text[at:at + 1]) + text[at + 1:]
    if kind == "put":
        return text[:at] + bytes(r.randrange(256) for _ in range(r.randrange(1, 4))) + text[at:]
    if kind == "drop":
        return text[:at] + text[at + r.choice([1, 1, 2, 5, 40]):]
    if kind == "end":
        return text[:at]
    return (
        text[:at] + {"zero": b"\0", "high": bytes([r.randrange(128, 256)]), "mark": r.choice(MARKS)}[kind] + text[at:]
    )


def damage_lines(r, text, others):
    lines = text.split(b"\n")
    at, other = r.randrange(len(lines)), r.randrange(len(lines))
    kind = r.choice(["drop", "twice", "places", "join", "return", "foreign", "move", "blank"])
    if kind == "drop":
        del lines[at]
    elif kind == "twice":
        lines.insert(at, lines[at])
    elif kind == "places":
        lines[at], lines[other] = lines[other], lines[at]
    elif kind == "join":
        lines[at:at + 2] = [b" ".join(lines[at:at + 2])]
    elif kind == "return":
        lines[at] += b"\r"
    elif kind == "foreign":
        lines.insert(at, r.choice(r.choice(others).split(b"\n")))
    elif kind == "move":
        lines.insert(other, lines.pop(at))
    else:
        lines.insert(at, r.choice([b"", b" ", b"#", b"//", b"\t"]))
    return b"\n".join(lines)


def damage_tokens(r, text, others):
    tokens = TOKENS.findall(text) or [b""]
    solid = [at for at, it in enumerate(tokens) if not it.isspace()] or [0]
    at, other = r.choice(solid), r.choice(solid)
    kind = r.choice(
        ["drop", "twice", "places", "other", "number", "number", "hostile", "mark", "foreign", "long", "deep"]
    )
    if kind == "drop":
        tokens[at] = b""
    elif kind == "twice":
        tokens[at] += b" " + tokens[at]
    elif kind == "places":
        tokens[at], tokens[other] = tokens[other], tokens[at]
    elif kind == "other":
        tokens[at] = tokens[other]
    elif kind == "number":
        numbers = [it for it in solid if tokens[it][:1].isdigit()] or solid
        tokens[r.choice(numbers)] = r.choice(
            [
                b"%d" % r.randrange(100),
                b"%d.%d" % (r.randrange(9), r.randrange(1000)),
                b"-%d" % r.randrange(99),
                r.choice(HOSTILE_WORDS),
            ]
        )
    elif kind == "hostile":
        tokens[at] = r.choice(HOSTILE_WORDS)
    elif kind == "mark":
        tokens[at] = r.choice(MARKS)
    elif kind == "foreign":
        tokens[at] = r.choice(TOKENS.findall(r.choice(others)) or [b""])
    elif kind == "long":
        tokens[at] = r.choice([b"a", b"9", b"{", b"\\"]) * r.choice([64, 255, 256, 65536, 70000])
    else:
        tokens[at] = r.choice([b"x (y) { ", b"{", b"[get_ports ", b"(", b"/* "]) * r.choice(
            [63, 64, 65, 300, 5000, 200000]
        )
    return b"".join(tokens)


def damage_text(r, text, others):
    return r.choice(
        [
            b"",
            text + text,
            r.choice(others),
            text + r.choice(others),
            text[len(text) // 2 :],
            text.replace(b"\n", b"\r\n"),
            text.rstrip(b"\n"),
        ]
    )


DAMAGES = {"bytes": damage_bytes, "lines": damage_lines, "tokens": damage_tokens, "texts": damage_text}
SHARES = ["bytes"] * 4 + ["lines"] * 4 + ["tokens"] * 7 + ["texts"]


def damaged(r, text, others):
    """The text after one to three changes, and their kind."""
    kind = r.choice(SHARES)
    for _ in range(1 if kind == "texts" else r.choice([1, 1, 1, 2, 3])):
        text = DAMAGES[kind](r, text, others)[:MOST_BYTES]
    return text, kind


# ------------------------------------------------------------------------------------------------ designs and runs

def generated(seed, scripts):
    """A random design of few cells with scripts of ECOs and reports, as bench/compare.py makes it."""
    r = random.Random(seed)
    compare.design.random = compare.Seeded(seed)
    compare.design.LEAF, compare.design.BRANCH = r.choice([2, 5, 30]), r.choice([2, 4])
    netlist, blocks = compare.design.build(r.choice([25, 40]))
    with tempfile.TemporaryDirectory() as folder:
        folder = pathlib.Path(folder)
        words = compare.write_documents(folder, r, netlist, blocks, scripts)
        words[5] = "p"
        return trials.Design(
            "generated", {it.name: it.read_bytes() for it in folder.iterdir()}, words, plain=scripts == 1
        )


def all_designs(seed):
    return [
        *trials.gate_designs(),
        generated(seed, 1),
        trials.Design(
            "pulse",
            pulse(),
            ["run", "a.lib", "a.lib", "netlist.v", "pulse_width.sdc", "netlist.spef", "1", "close.eco"],
        ),
    ]


def pulse():
    """The example of a real netlist, beside a library that does not have its cells: its documents are read, and the
    design is refused."""
    return {**trials.folder_of("pulse-width"), "a.lib": trials.shared_texts()["a.lib"]}


class Trial:
    """The damaged document of a number."""

    def __init__(self, designs, seed, number):
        r = random.Random(f"{seed}-{number}")
        self.number, self.design = number, designs[number % len(designs)]
        roles = self.design.roles()
        self.role, self.name = roles[number // len(designs) % len(roles)]
        texts = list(self.design.files.values())
        text, self.kind = damaged(r, self.design.files[self.name], texts)
        self.files = {**self.design.files, self.name: text}
        self.sessions = sum(role.startswith("script") for role, _ in roles)

    def documents(self):
        return {role: self.files[name] for role, name in self.design.roles()}

    def write(self, folder):
        trials.Design(self.design.name, self.files, self.design.words).write(folder)


FREE = re.compile(compare.FREE.pattern.encode())


def plain_timer(folder, words, seconds):
    """Has the plain timer write `plain`, in a copy of this program, which spares its start; does not return."""
    with contextlib.suppress(BaseException):
        signal.alarm(int(seconds))
        os.chdir(folder)
        sys.argv, sys.stdout = ["reference_timer.py", *words], open("plain", "w", encoding="utf-8")
        sys.stderr = open(os.devnull, "w", encoding="utf-8")
        status = 0
        try:
            reference_timer.main()
        except SystemExit as why:
            status = why.code
        sys.stdout.close()
        os._exit(status)
    os._exit(1)


def plain_output(folder, words, seconds):
    """What the plain timer gives, or none where it does not read the documents."""
    copy = os.fork()
    if copy == 0:
        plain_timer(folder, words, seconds)
    _, status = os.waitpid(copy, 0)
    return (folder / "plain").read_bytes() if os.waitstatus_to_exitcode(status) in (0, 3) else None


def judge(program, trial, folder, seconds):
    """How the program ended, whether the plain timer was asked, and what deviates or none."""
    words = trial.design.words
    ran = trials.run(program, words, folder, seconds)
    try:
        trials.check_answer(ran, trial.documents(), trial.sessions, "--journal" in words)
    except trials.Deviates as why:
        return ran, False, str(why)
    is_asked = trial.design.plain and (ran.status in (0, 1) or ran.out.startswith(b"fault script1 "))
    want = plain_output(folder, words, seconds) if is_asked else None
    if want is not None and FREE.sub(rb"\1", want) != FREE.sub(rb"\1", ran.out):
        return ran, True, "the plain timer gives another output"
    return ran, want is not None, None


def keep(folder, trial, ran, why):
    folder.mkdir(parents=True, exist_ok=True)
    trial.write(folder)
    (folder / "got").write_bytes(ran.out + ran.err)
    (folder / "why").write_text(
        f"{why}\ndamaged: {trial.role} ({trial.name}), {trial.kind}\nwords: {' '.join(trial.design.words)}\n"
    )


def ending(ran, text):
    """How an answer is counted: its status, with the role of a document that has a fault."""
    return f"3 {text.split(b' ')[1].decode('latin-1')}" if ran.status == 3 else str(ran.status)


class Tried:
    """What was tried so far."""

    def __init__(self):
        self.counts, self.compared, self.slowest = collections.Counter(), collections.Counter(), (0, 0)

    def add(self, trial, ran, asked):
        role = trial.role.rstrip("0123456789")
        self.counts[role, trial.kind, ending(ran, ran.out)] += 1
        self.compared[role] += asked
        self.slowest = max(self.slowest, (ran.seconds, trial.number))

    def show(self, seed):
        endings = sorted({ending for _, _, ending in self.counts})
        rows = []
        for role in sorted({role for role, _, _ in self.counts}):
            of_kinds = [sum(n for (a, b, _), n in self.counts.items() if (a, b) == (role, kind)) for kind in DAMAGES]
            of_endings = [sum(n for (a, _, c), n in self.counts.items() if (a, c) == (role, it)) for it in endings]
            rows.append([role, *of_kinds, *of_endings, self.compared[role]])
        trials.table(
            f"damaged documents (seed {seed}): what was damaged, how, and how runs ended",
            ["role", *DAMAGES, *endings, "as the plain timer"],
            rows,
        )
        print(
            f"{sum(self.counts.values())} damaged documents, each with a documented answer;"
            f" {sum(self.compared.values())} compared with the plain timer; the slowest, number {self.slowest[1]}, took"
            f" {self.slowest[0]:.2f} s"
        )


def try_all(given, numbers, tried):
    """Tries the documents of some numbers; gives whether none deviates."""
    program, designs = trials.find_program(given.program), all_designs(given.seed)
    for number in numbers:
        trial = Trial(designs, given.seed, number)
        with tempfile.TemporaryDirectory() as folder:
            trial.write(folder)
            ran, asked, why = judge(program, trial, pathlib.Path(folder), given.seconds)
        if why:
            place = given.keep or pathlib.Path(f"damaged-{given.seed}-{number}")
            keep(place, trial, ran, why)
            print(f"number {number}, {trial.design.name}, {trial.role} ({trial.kind}): {why}\nkept in {place}; "
                  f"again: bench/damaged_documents.py --seed {given.seed} --only {number}")
            return False
        tried.add(trial, ran, asked)
    return True


def main():
    parser = argparse.ArgumentParser(description=__doc__, formatter_class=argparse.RawDescriptionHelpFormatter)
    parser.add_argument("--program")
    parser.add_argument("--count", type=int, default=2000)
    parser.add_argument("--seed", type=int, default=1)
    parser.add_argument("--first", type=int, default=0)
    parser.add_argument("--only", type=int)
    parser.add_argument("--seconds", type=float, default=60)
    parser.add_argument("--keep", type=pathlib.Path)
    given = parser.parse_args()
    signal.signal(signal.SIGTERM, signal.default_int_handler)
    numbers, tried = range(given.first, given.first + given.count) if given.only is None else [given.only], Tried()
    try:
        if not try_all(given, numbers, tried):
            return 1
    except KeyboardInterrupt:
        print(f"ended from outside, before all of {len(numbers)} were tried")
        tried.show(given.seed)
        return 130
    tried.show(given.seed)
    return 0
