"""Tries the wrong bodies of crates on the functions that they change, over what this machine has proved before:
try_edits.py CRATE..

    dev/try_edits.py [--only WORD].. [--most N] [--seconds N] [--callees] [--proved] [--names FILE] [--log FOLDER]
    CRATE..

Each edit of bench/must-fail/CRATE and crates/CRATE/must-fail makes a body wrong, and the check has to refuse it. `rt
must-fail` and bench/must_fail.py prove a crate for that; this checks the changed functions alone, over the libraries
that are built here or that `rt ci` kept (as check_over_kept.py does). The functions of the crate that they call are
taken by their contracts, which is all that a proof sees of them, and have no body there (--callees proves them too);
with a log of `rt ci` (--names) also those that no source writes are taken so. Edits of different functions are tried in
one check, at most N (40). Each half minute a line says how far a check is, and how much of a processor it had (on a
busy machine that is what it waits for). --seconds ends a check that had so many seconds of a processor; its edits are
then tried in two halves, down to one.

First the unchanged functions are checked in the same way: where one does not pass, nothing is said of its edits.
--proved leaves that out, for a crate that `rt ci` has proved of these very sources. Then a line for each edit says
  refused            a goal of the function is open with this body, or its proof does not fit it
  refused by names   the proof only names what the edit took away: that says little of the contract
  PASSES             the function meets its contract with this body: check the whole crate (bench/must_fail.py), as a
                     law of a type may refuse it elsewhere
  does not compile   it never came to the prover
  not tried          with the reason: it does not apply, changes no function, or the prover gave up or was ended
An edit of a constant is tried on the functions that name it. --only takes edits whose file's name contains WORD. What
the checks said is kept in FOLDER (below ~/.cache/lizdrog). The status is 0 where all are refused.
Nothing that this says counts as proved: that is for `rt ci`."""
import argparse
import os
import pathlib
import re
import shutil
import signal
import subprocess
import sys
import tempfile
import time

from lizdrog_dev import check_over_kept as over
from lizdrog_dev.crate_list import uses_of_crates
from lizdrog_dev.toolchain import kit_folder
from lizdrog_tools.places import TOP, WORK

PARTS = ("src", "specs", "proofs")
CONSTANT = re.compile(r"^ *(?:pub(?:\([^)]*\))? )?const (\w+):")
HEAD = re.compile(r"^(?P<room> *)(?:pub(?:\([^)]*\))? )?(?:const |unsafe )*fn (?P<name>\w+)", re.M)
IMPL = re.compile(r"^impl(?:<(?:[^<>]|<(?:[^<>]|<[^<>]*>)*>)*>)? (?P<words>[^{]*?)(?: where [^{]*)?\s*\{", re.M)
# Of a line of a check: what was said of a function.
SAID = re.compile(r"^fn (\S+): (.*)$", re.M)
FAULT = re.compile(r"^(?:note: )?(?:\./)?(\S+?):(\d+):(?:\d+:)? (.*)$", re.M)
NAMES_ONLY = re.compile(r"has no field|is not in scope|has no `|was not admitted|is no name")


class Edit:
    """A wrong body: the texts of the files that it changes, and the functions in which it does."""

    def __init__(self, path, folder):
        self.path, self.name, self.texts, self.functions = path, path.stem, {}, []
        self.kind, self.why = "", ""
        file, old = None, None
        for line in path.read_text().splitlines():
            if line.startswith("file: "):
                file = line[6:].strip()
            elif line.startswith("old: "):
                old = line[5:]
            elif line.startswith("new:"):
                self.replace(folder, file, old, line[4:].removeprefix(" "))
        if not self.kind and not self.functions:
            self.kind, self.why = "not tried", "it changes no function"

    def replace(self, folder, file, old, new):
        """Changes one text, and notes the function around it."""
        if file not in self.texts and (folder / file).is_file():
            self.texts[file] = (folder / file).read_text()
        text = self.texts.get(file, "")
        if text.count(old) != 1:
            self.kind, self.why = "not tried", f"its text stands in {file} {text.count(old)} times"
            return
        if file.startswith("src/"):
            found = symbol_at(text, file, text.index(old) + len(old) - len(old.lstrip()), homes_of(folder))
            constant = CONSTANT.match(old)
            more = [found] if found else users_of(folder, constant[1]) if constant else []
            self.functions += [it for it in more if it not in self.functions]
        self.texts[file] = text.replace(old, new)


def module_of(file):
    """The path of a file's module below its crate."""
    parts = file.removeprefix("src/").removesuffix(".rt").split("/")
    return [it for it in parts if it not in ("lib", "main", "mod")]


def homes_of(folder):
    """The module of each type of a crate, where a check finds its methods wherever they are written."""
    homes = {}
    for path in sorted((folder / "src").rglob("*.rt")):
        for name in re.findall(r"^(?:pub(?:\([^)]*\))? )?(?:struct|enum) (\w+)", path.read_text(), re.M):
            homes[name] = module_of(str(path.relative_to(folder)))
    return homes


def owner_at(text, at):
    """The type whose impl a place stands in, and the trait that it is of, if any; none where it stands in no impl."""
    found = None
    for it in IMPL.finditer(text):
        if it.start() < at < end_of(text, it.end() - 1):
            found = it["words"]
    if found is None:
        return None
    trait, _, kind = found.rpartition(" for ")
    # A trait's name is told with what it is of, as `FromMemory`, and a type's without.
    told = "".join(re.sub(r"\w+::", "", it) for it in re.findall(r"(?<!')\b[\w:]+", trait))
    return re.split(r"[^\w:]", kind.strip())[0].split("::")[-1], told


def end_of(text, opens):
    """Where the block that opens there ends: at the first line that closes at its own depth."""
    start = text.rindex("\n", 0, opens) + 1 if "\n" in text[:opens] else 0
    room = re.match(r" *", text[start:])[0]
    closes = re.compile(rf"^{room}\}}", re.M).search(text, opens)
    return closes.end() if closes else len(text)


def symbol_at(text, file, at, homes):
    """The path below its crate of the function around a place, as a check names it; none where it stands in no
    function."""
    heads = [it for it in HEAD.finditer(text) if it.start() <= at]
    for it in reversed(heads):
        body = re.compile(rf"^{it['room']}\{{|\{{$", re.M).search(text, it.end())
        closes = re.compile(rf"^{it['room']}\}}", re.M).search(text, it.end())
        if body and closes and at < closes.end():
            owner = owner_at(text, it.start()) if it["room"] else None
            if not owner:
                return "::".join([*module_of(file), it["name"]])
            module = module_of(file) if owner[1] else homes.get(owner[0], module_of(file))
            return "::".join([*module, "".join(owner), it["name"]])
    return None


def body_of(text, head):
    """Where the text within the braces of a function's body begins and ends; none where it has no body."""
    room, at = head["room"], head.start()
    for row in text[at:].splitlines(keepends=True):
        line, at = row.rstrip("\n"), at + len(row)
        opens = line.lstrip().startswith((")", ">", "fn ", "pub ", "pub(", "const ", "unsafe ", "where "))
        if opens and line.endswith(" {}") or line == f"{room}{{}}":
            return at - 2, at - 2
        if line == f"{room}{{" or opens and line.endswith(" {"):
            closes = re.compile(rf"^{room}\}}", re.M).search(text, at)
            return (at, closes.start()) if closes else None
        if line.endswith(";") or line == f"{room}}}":
            return None
    return None


def without_bodies(text, file, homes, kept):
    """A text in which the functions have a body that gives nothing, but for those kept; what stands for them is their
    contract."""
    parts, at = [], 0
    for head in HEAD.finditer(text):
        body = body_of(text, head)
        if not body or body[0] < at or "const fn" in head[0] or "-> impl" in text[head.start() : body[0]]:
            continue
        if symbol_at(text, file, body[0], homes) not in kept:
            parts += [text[at : body[0]].rstrip("\n"), f"\n{head['room']}    unreachable!()\n"]
            at = body[1]
    return "".join([*parts, text[at:]])


def symbols_at(folder, pattern):
    """The paths of the functions around each place of a crate's sources where a pattern is."""
    found, homes = [], homes_of(folder)
    for path in sorted((folder / "src").rglob("*.rt")):
        text, file = path.read_text(), str(path.relative_to(folder))
        found += [symbol_at(text, file, it.end(), homes) for it in pattern.finditer(text)]
    return [it for it in dict.fromkeys(found) if it]


def functions_of(folder):
    """The paths of all functions that a crate's sources write."""
    return symbols_at(folder, HEAD)


def in_cycles(folder):
    """The paths of the functions that call each other in a ring, whose proof is one of all of them."""
    return symbols_at(folder, re.compile(r"#\[cycle\(\w+\)\]\n(?:.*\n)?? *(?:pub(?:\([^)]*\))? )?fn \w+"))


def made_functions(crate, log):
    """The paths of the functions that no source writes, as what gives up a type's values, in a log of `rt ci` that has
    proved them."""
    said = SAID.findall(log.read_text(errors="replace")) if log else []
    return [symbol.partition("::")[2] for symbol, _ in said if symbol.startswith(f"{crate}::")
            and symbol.endswith("+Destruct::drop")]


def users_of(folder, constant):
    """The paths of the functions that name a constant."""
    return symbols_at(folder, re.compile(rf"\b{constant}\b"))


def write_hole(folder, crate, path):
    """Gives a function of a crate in this folder a proof that is a hole; gives the name that a check calls it by."""
    parts = path.split("::")
    at = folder / "proofs" / "/".join(parts)
    for name in ("Answers", "Invariants", "Proof"):
        (at / f"{name}.antt").unlink(missing_ok=True)
    at.mkdir(parents=True, exist_ok=True)
    module = ".".join(["Rattle", crate, "proofs", *parts])
    (at / "Proof.antt").write_text(f"use {module}.Statement.{{statement}}\n\npub {parts[-1]}_spec : {{M : Type 1}} → "
                                   f"statement M\n{parts[-1]}_spec = ?\n")
    return f"{module}.Proof.{parts[-1]}_spec"


class Room:
    """A copy of a crate in which edits are written, and checked over the kept libraries."""

    def __init__(self, crate, folder, log, seconds=0):
        self.crate, self.folder, self.log, self.seconds, self.count, self.assumed, self.texts = (
            crate,
            folder,
            log,
            seconds,
            0,
            set(),
            {},
        )
        self.own = TOP / "crates" / crate
        for part in PARTS:
            if (self.own / part).is_dir():
                shutil.copytree(self.own / part, folder / part)
        kit, uses = kit_folder(), uses_of_crates()
        words, self.sources = over.words_of(kit, uses, crate, over.libraries_below(uses, crate))
        memory = WORK / "kept_libraries" / f"memory-{crate}"
        memory.mkdir(parents=True, exist_ok=True)
        self.words = [str(kit / "bin" / "rattle"), *words, "--incremental", str(memory)]

    def assume(self, asked, functions):
        """Gives these functions but those that are asked for a proof that is a hole and no body of their own, so that
        what calls them is
        checked over their contracts alone."""
        self.assumed, homes, kept = set(), homes_of(self.own), [it for it in functions_of(self.own) if it in asked
                                                                or it not in functions]
        for path in functions:
            parts = path.split("::")
            at = self.folder / "proofs" / "/".join(parts)
            for name in ("Answers", "Invariants", "Proof"):
                own = self.own / at.relative_to(self.folder) / f"{name}.antt"
                (at / own.name).unlink(missing_ok=True)
                if path in asked and own.is_file():
                    shutil.copyfile(own, at / own.name)
            if path not in asked:
                self.assumed.add(write_hole(self.folder, self.crate, path))
        for source in sorted((self.own / "src").rglob("*.rt")):
            file = str(source.relative_to(self.own))
            self.texts[file] = without_bodies(source.read_text(), file, homes,
                                              kept) if functions else source.read_text()
            (self.folder / file).write_text(self.texts[file])

    def write(self, texts):
        """Writes these texts over the crate's."""
        for file, text in texts.items():
            (self.folder / file).write_text(text)

    def check(self, functions, label):
        """What a check of these functions prints; none where it had as many seconds of a processor as it may have."""
        asked = [it for path in functions for it in ("--only", path)]
        began = told = time.monotonic()
        self.count += 1
        log = self.log / f"{self.crate}-{self.count}-{label}.txt"
        say = lambda words: print(f"{self.crate}: {label}: {len(functions)} functions: {words}", file=sys.stderr,
                                  flush=True)
        with open(log, "w", encoding="utf-8") as out:
            words = [*self.words, *asked, "--allow-holes", "--progress", "--stage-times",
                     str(log.with_suffix(".stages"))]
            ran = subprocess.Popen(words, cwd=self.folder, stdin=subprocess.DEVNULL, stdout=out,
                                   stderr=subprocess.STDOUT)
        had = 0.0
        try:
            while ran.poll() is None:
                time.sleep(0.2)
                had = max(had, processor_seconds(ran.pid))
                ended = bool(self.seconds) and had > self.seconds
                if ended or time.monotonic() - told > 30:
                    told = time.monotonic()
                    say(f"{progress_of(log)}; {told - began:.0f} s, {had:.0f} s of a processor"
                        + (", ended" if ended else ""))
                if ended:
                    return None
        finally:
            # Also where this is interrupted: nothing that was started goes on.
            if ran.poll() is None:
                ran.kill()
                ran.wait()
        say(f"{time.monotonic() - began:.0f} s, {had:.0f} s of a processor, status {ran.returncode}")
        return log.read_text(encoding="utf-8", errors="replace")


def processor_seconds(pid):
    """The seconds of a processor that a process had, with those of its children that ended; none where it's gone."""
    try:
        fields = pathlib.Path(f"/proc/{pid}/stat").read_text().rpartition(")")[2].split()
    except OSError:
        return 0.0
    return sum(map(int, fields[11:15])) / os.sysconf("SC_CLK_TCK")


def progress_of(log):
    """How far a check is, by its last line on that."""
    found = re.findall(r"^checked (\S+), (\d+) of (\d+)$", log.read_text(encoding="utf-8", errors="replace"), re.M)
    return f"{found[-1][1]} of {found[-1][2]} proofs, the last {found[-1][0]}" if found else "no proof is done"


def line_of(said, crate, path):
    """What a check's line says of a function; none where it has no line."""
    return next((words for symbol, words in SAID.findall(said) if symbol == f"{crate}::{path}"), None)


def passes(words, assumed):
    """Whether a function's line says that its own proof is whole, over the contracts of what it calls."""
    if words is None or not words.startswith("depends on a hole in"):
        return words is not None and words.startswith(("proved", "no holes"))
    return set(re.findall(r"`([^`]+)`", words)) <= assumed


def judge(edit, said, crate, assumed):
    """Gives an edit its kind from what the check of its functions said."""
    lines = [(path, line_of(said, crate, path)) for path in edit.functions]
    if all(passes(words, assumed) for _, words in lines):
        edit.kind, edit.why = "PASSES", "; ".join(words for _, words in lines)
        return
    path, words = next((path, words) for path, words in lines if not passes(words, assumed))
    if words is None or words.startswith("could not tell"):
        edit.kind, edit.why = "not tried", words or "the check printed no line for its function"
        return
    goals = [*re.findall(r"did not prove ([^;]*)", words), *re.findall(r"it stands on (.*?), which", words)]
    goals = [it.rpartition(".")[2] for part in goals for it in re.findall(r"`([^`]+)`", part)]
    own = re.compile(rf"^(?:\./)?proofs/{path.replace('::', '/')}/\S+: error: (.*)$", re.M)
    faults = own.findall(said)
    edit.kind = "refused by names" if faults and all(NAMES_ONLY.search(it)
                                                     for it in faults) and "did not prove" not in words else "refused"
    edit.why = "goals: " + ", ".join(dict.fromkeys(goals))
    if not goals:
        edit.kind, edit.why = "not tried", f"no goal of its own is open: {words[:200]}"


def rounds(edits, most):
    """The edits in lists in which no function stands twice and no file is changed at one place twice."""
    left = list(edits)
    while left:
        taken, now = set(), []
        for edit in left:
            if not taken & set(edit.functions) and len(now) < most:
                now.append(edit)
                taken |= set(edit.functions)
        left = [it for it in left if it not in now]
        yield now


def merged(room, edits):
    """The texts with all these edits in them."""
    texts = {}
    for edit in edits:
        file, old = None, None
        for line in edit.path.read_text().splitlines():
            if line.startswith("file: "):
                file = line[6:].strip()
                texts.setdefault(file, room.texts.get(file) or (room.own / file).read_text())
            elif line.startswith("old: "):
                old = line[5:]
            elif line.startswith("new:"):
                texts[file] = texts[file].replace(old, line[4:].removeprefix(" "), 1)
    return texts


def try_round(room, edits, label, assumable):
    """Tries edits of different functions in one check; those that do not compile are taken out, and it is made
    again."""
    while edits:
        room.assume([path for it in edits for path in it.functions], assumable)
        texts = merged(room, edits)
        room.write(texts)
        said = room.check([path for it in edits for path in it.functions], label)
        if said is None and len(edits) == 1:
            edits[0].kind, edits[0].why = "not tried", f"the check was ended after {room.seconds:.0f} s of a processor"
            return
        if said and re.search(r"^only=", said, re.M):
            for edit in edits:
                judge(edit, said, room.crate, room.assumed)
            return
        homes = homes_of(room.own)
        wrong = [it for it in edits if said and is_at_fault(it, said, texts, homes)]
        broken = re.search(r"^rattle: .*$", said or "", re.M)
        if not wrong and broken:
            for edit in edits:
                edit.kind, edit.why = "not tried", broken[0][:200]
            return
        wrong = wrong or (edits if len(edits) == 1 else [])
        if not wrong:
            half = len(edits) // 2
            try_round(room, edits[:half], label + "a", assumable)
            try_round(room, edits[half:], label + "b", assumable)
            return
        for edit in wrong:
            told = [it for it in said.splitlines() if "error" in it]
            edit.kind, edit.why = "does not compile", (told or ["the check gave no reason"])[0][:200]
        edits = [it for it in edits if it not in wrong]


def is_at_fault(edit, said, texts, homes):
    """Whether an error of the front end stands in a function that the edit changes."""
    for file, line, words in FAULT.findall(said):
        if "error" in words and file in edit.texts and file.startswith("src/"):
            at = sum(len(it) + 1 for it in texts[file].split("\n")[: int(line) - 1])
            row = texts[file].split("\n")[int(line) - 1]
            if symbol_at(texts[file], file, at + len(row) - len(row.lstrip()), homes) in edit.functions:
                return True
    return False


def edits_of(crate, words):
    folder = TOP / "crates" / crate
    files = sorted([*(TOP / "bench" / "must-fail" / crate).glob("*.edit"), *(folder / "must-fail").glob("*.edit")])
    return [Edit(it, folder) for it in files if not words or any(word in it.stem for word in words)]


def try_crate(crate, words, most, seconds, callees, proved, names, log):
    edits = edits_of(crate, words)
    ready = [it for it in edits if not it.kind]
    with tempfile.TemporaryDirectory(prefix="try-edits-") as folder:
        room = Room(crate, pathlib.Path(folder), log, seconds)
        if room.sources:
            print(f"{crate}: taken as sources, since they are not kept: {' '.join(room.sources)}", file=sys.stderr)
        asked = list(dict.fromkeys(path for it in ready for path in it.functions))
        found = [] if callees else functions_of(room.own) + made_functions(crate, names)
        cycles = in_cycles(room.own)
        assumable = [it for it in found if it not in cycles]
        room.assume(asked, assumable)
        said = room.check(asked, "unchanged") or "" if asked and not proved else ""
        for edit in [] if proved else ready:
            lost = [it for it in edit.functions if not passes(line_of(said, crate, it), room.assumed)]
            if lost:
                edit.kind, edit.why = "not tried", f"the unchanged function does not pass this check: {lost[0]}"
        tell(crate, [it for it in edits if it.kind])
        for number, some in enumerate(rounds([it for it in ready if not it.kind], most), 1):
            try_round(room, some, f"round{number}", assumable)
            tell(crate, some)
    return edits


def tell(crate, edits):
    """Prints what was found of these edits."""
    for edit in edits:
        print(f"{edit.kind:<17} {crate}/{edit.name}  [{', '.join(edit.functions)}]  {edit.why}".rstrip(), flush=True)


def main():
    parser = argparse.ArgumentParser(description=__doc__, formatter_class=argparse.RawDescriptionHelpFormatter)
    parser.add_argument("crates", nargs="+", metavar="CRATE")
    parser.add_argument("--only", action="append", default=[], metavar="WORD")
    parser.add_argument("--most", type=int, default=40, metavar="N")
    parser.add_argument("--seconds", type=float, default=0, metavar="N")
    parser.add_argument("--callees", action="store_true")
    parser.add_argument("--proved", action="store_true")
    parser.add_argument("--names", type=pathlib.Path, metavar="FILE")
    parser.add_argument("--log", type=pathlib.Path, default=WORK / "try_edits", metavar="FOLDER")
    given = parser.parse_args()
    # So that a check that runs is ended too.
    signal.signal(signal.SIGTERM, lambda *_: sys.exit(143))
    # Checks run in another folder.
    given.log = given.log.resolve()
    given.log.mkdir(parents=True, exist_ok=True)
    unknown = [it for it in given.crates if it not in uses_of_crates()]
    if unknown:
        parser.error(f"{unknown[0]} is no crate")
    status = 0
    for crate in given.crates:
        edits = try_crate(crate, given.only, given.most, given.seconds, given.callees, given.proved, given.names,
                          given.log)
        status |= any(it.kind != "refused" for it in edits)
        count = lambda kind: sum(it.kind == kind for it in edits)
        kinds = "refused", "refused by names", "PASSES", "does not compile", "not tried"
        print(f"edits of {crate}: {len(edits)}: " + ", ".join(f"{count(it)} {it}" for it in kinds if count(it)),
              flush=True)
    sys.exit(status)
