"""Plants wrong bodies in crates over what this machine has proved before.

    dev/plant_over_kept.py [--max N] [--minutes N] [--only WORD] [--proved LOG] CRATE..
    dev/plant_over_kept.py --bare [CRATE..]

`rt plant` puts wrong bodies under the clauses of a crate's public functions, and lists those that the clauses let
through (`rt plant --help`). It wants the crates below built in this clone, and else proves them all. This lays the
libraries that `rt ci` kept, where it keeps any, into their out/ first, so that it begins at once; the crate itself is
proved once more, so begin with small ones. At most N plants (40) in N minutes (3) after that proof, by one process, in
the functions whose file, line and path contain WORD.

--proved leaves that proof out, where these very sources are built here or `rt ci` has kept their proof; LOG is what
that run said (out/build.log of the crate, where dev/build_libs.py made it). All plants then go into one check beside
the unchanged calls, and the functions of the crate get proofs that are holes, so that a plant which calls them is
checked over their contracts, which is all that its proof sees of them (functions that call each other in a ring are
proved where they are called). The methods of traits are left out, and --max counts what does not compile, too. What the
checks said is kept in ~/.cache/lizdrog, and what they checked, so that a run whose minutes were too few goes on where
it ended when it is begun again.

Printed are the rows of `rt plant` (the plants that pass, and the functions without a clause), and at the end a table:
of each crate its functions, the plants that were tried, and what they came to. It is no verdict on a crate. The status
is 0 where each crate was planted in.

--bare proves nothing: it lists the functions, private ones too, that give a value or take `&mut` and have no `ensures`,
of these crates or of all. The
methods of traits are left out, whose clauses are the trait's."""
import argparse
import contextlib
import functools
import hashlib
import json
import os
import pathlib
import re
import shutil
import subprocess
import sys
import time

from lizdrog_dev import check_over_kept as over
from lizdrog_dev import try_edits
from lizdrog_dev.crate_list import crates_below, uses_of_crates
from lizdrog_dev.toolchain import kit_folder, load
from lizdrog_tools.places import CRATES, DEV, TOP, WORK

LAST = re.compile(r"^plants crate=.*$", re.M)
# Of a check: the folder of a hole for a function that no source writes and this copy does not make.
GONE = re.compile(r"^\./(proofs/\S+\+Destruct/drop)/Proof\.antt: error", re.M)
KINDS = "planted-in tried refused proves same elsewhere not-judged not-source not-run no-ensures untested".split()


def lay_below(rt, uses, crate):
    """Lays the kept libraries of all crates below one into this checkout; gives those that are not kept."""
    gone, known = [], {}
    for name in crates_below(uses, crate):
        folder = TOP / "crates" / name
        made = rt.Crate(str(folder), str(TOP), known)
        if made.is_built():
            continue
        if not over.library(name, folder / "out" / "rlib"):
            gone.append(name)
            continue
        (folder / "out" / "rlib" / "stamp").write_text(made.stamp())
    return gone


def is_kept(ci, crate):
    """Whether the proof of a crate as it stands here, over the crates below it as they stand here, is built in this
    clone or was kept by an `rt ci` that keeps any."""
    if over.built_here(crate):
        return True
    if not hasattr(ci, "own_sum"):
        return False
    ci.Crate.allowed = ci.handles_of(str(TOP))
    made, sums = ci.Crate(str(TOP / "crates" / crate), str(TOP), {}), {}
    for it in [*made.below(), made]:
        known = [(used.name, sums[used.name]) for used in it.below()]
        key = hashlib.sha256(repr((ci.own_sum(it), known)).encode()).hexdigest()
        kept = over.KEPT / f"proof-{it.name}-{key}" / "made.json"
        if not kept.is_file():
            return False
        sums[it.name] = hashlib.sha256(repr([*map(tuple, json.loads(kept.read_text())["files"])]).encode()).hexdigest()
    return True


class Judged:
    """The plants of a crate, which are judged all in one check, beside the unchanged calls."""

    def __init__(self, tool, copy, functions, proved, most):
        self.tool, self.copy, self.functions, self.most = tool, copy, functions, most
        self.count = iter(range(1 << 30))
        called = [f for f in functions
                  if f in proved and all(re.fullmatch(r"[a-z]\w*|_\w+", name) for name, _ in f.params)]
        self.controls = {f: self.plant(f, tool.bodies.Body(f.call())) for f in called}

    def plant(self, f, body):
        return self.tool.Plant(f, body, next(self.count))

    def planted(self, of):
        """The plants of bodies that each function gets, those of public functions first."""
        rows = [(at, f, body) for f in self.functions
                for at, body in enumerate(of(self.tool.bodies.Bodies(self.copy.source, f)))]
        return [self.plant(f, body) for _, f, body in sorted(rows, key=lambda it: (it[0], not it[1].is_pub))]

    def judge(self, plants):
        self.copy.judge(self.copy.compiled(plants))

    def asked(self, first, over, failure):
        """Of the bodies over the real one those that `rt plant` tries, by what came of the first ones."""
        kinds = {(it.f, it.form, it.kind) for it in first}
        loose = {f for f, form, kind in kinds if kind == "proves" and form != "failure"}
        refused = {it.f for it in first if it.kind == "refused" and it.body == failure.get(it.f)}

        def is_asked(it):
            plain = {body.text for body in self.tool.bodies.Bodies(self.copy.source, it.f).over_the_real_one(None)}
            is_other = it.form == "other error" and (it.f, "failure", "proves") in kinds
            is_fair = self.controls[it.f].kind in ("proves", "not-run") and it.f not in loose and not is_other
            return is_fair and (it.body in plain or it.f in refused)

        return [*filter(is_asked, over)]

    def mark_same(self, plants):
        """Marks the plants that prove and do the same as the function; gives those with an empty contract."""
        bodies, proving = self.tool.bodies, [it for it in plants if it.kind == "proves"]
        # A failure that passes is told in any case.
        asked = {it: self.plant(it.f, bodies.Body(it.same)) for it in proving
                 if it.same and it.form != "failure" and it.f in self.controls}
        empty = {it.f: self.plant(it.f, bodies.Body(bodies.NEVER)) for it in asked}
        with self.copy.more_time():
            self.judge([*asked.values(), *empty.values()])
        never = [it for it in empty.values() if it.kind == "proves"]
        constants, ended = [it.f for it in proving if it.form == "constant"], {other.f for other in never}
        for it in proving:
            is_same = it in asked and asked[it].kind == "proves" and it.f not in ended
            is_alone = constants.count(it.f) + it.f.is_constant < 2 and not bodies.Bodies(self.copy.source,
                                                                                          it.f).has_input()
            if is_same or (is_alone and it.form in ("constant", "call")):
                it.kind = "same"
        return never

    def lost(self):
        """The unchanged calls that did not prove, with the reason."""
        found = [it for it in self.controls.values() if it.kind not in ("proves", "not-run")]
        for it in found:
            it.kind = "not-judged"
            it.why = f"the unchanged call did not prove: {it.why or 'the check gave no reason'}"
        return found


def at_once(tool, copy, functions, proved, most):
    """Judges the plants as `rt plant` does, but all of them in one check, beside the unchanged calls. The methods of
    traits are left out."""
    made = Judged(tool, copy, functions, proved, most)
    first = made.planted(lambda it: it.giving_up())
    failure = {it.f: it.body for it in reversed(first) if it.form == "failure"}
    over = made.planted(lambda it: it.over_the_real_one(failure.get(it.f)) if it.f in made.controls else [])
    made.judge([*(first + over)[:most], *made.controls.values()])
    plants = [*first, *made.asked(first, over, failure)]
    return [*plants, *made.mark_same(plants), *made.lost()]


class OverContracts:
    """What a tool's copy of a crate does otherwise here: the functions of the crate that are not planted in have holes
    for proofs and no bodies, and a plant may stand on them."""

    tool, of_crate, of_log, said = None, "", None, ()

    def __init__(self, of, source, folder, flags, seconds):
        super().__init__(of, source, folder, [*flags, "--allow-holes"], seconds)
        own, crate = CRATES / self.of_crate, self.of_crate
        proved = {f"{crate}::{it}" for it in try_edits.in_cycles(own)}
        proved |= {it for of in source.functions for it in of.symbols}
        written = [*try_edits.functions_of(own), *try_edits.made_functions(crate, self.of_log)]
        found = [it for it in written if f"{crate}::{it}" in set(self.said) - proved]
        self.assumed = {try_edits.write_hole(pathlib.Path(folder), crate, it) for it in found}
        methods = {tuple(it.split("::")[-2:]) for it in found if "+" not in it}
        self.empty(methods | {("", it) for it in found if "::" not in it})
        self.count, self.log = 0, WORK / "plants"
        # A check that is ended is not lost: the next one takes what it had checked.
        self.memory = self.log / f"memory-{crate}"
        self.memory.mkdir(parents=True, exist_ok=True)

    def empty(self, paths):
        """Takes the bodies away of the functions that are not proved, which cost their walks all the same; each line
        stays at its place."""
        for it in self.source.functions:
            if not it.in_trait and it.has_body and (it.owner, it.name) in paths:
                data = self.source.data[it.file]
                body, bare = data[it.opens : it.end], b"{unreachable!()"
                lines = b"\n" * body.count(b"\n")
                if len(body) > len(bare) + len(lines):
                    rest = b" " * (len(body) - len(bare) - len(lines) - 1) + lines + b"}"
                    self.source.data[it.file] = data[: it.opens] + bare + rest + data[it.end :]

    def compiled(self, plants):
        """Leaves it to the check that judges them to say what does not compile."""
        self.write(plants)
        return plants

    def judge(self, plants):
        """Judges plants in one check, and in one more where some do not compile."""
        while plants and not self.is_late():
            said = self.check([name for it in plants for name in it.f.symbols or [it.name]])
            if re.search(r"^(?:only=|rattle: no verdict)", said, re.M):
                self.tool.read(plants, said)
                return
            wrong = {self.lines.get((file, int(line))) for file, line in self.tool.ERROR.findall(said)} & {*plants}
            for it in wrong:
                it.kind = "not-source"
            if not wrong:
                super().judge(super().compiled(plants))
                return
            plants = [it for it in plants if it not in wrong]
            self.write(plants)

    def run_check(self, names, log):
        """Runs a check of these functions with the time that is left, and says what it took."""
        asked, began = [it for name in names for it in ("--only", name)], time.monotonic()
        words = [*self.tool.rt.guarded(), self.tool.rt.RATTLE, "check", *self.crate.words([*self.flags, *asked])]
        words += ["--incremental", str(self.memory), "--progress"]
        with open(log, "w", encoding="utf-8") as out, contextlib.suppress(subprocess.TimeoutExpired):
            subprocess.run(words, cwd=self.folder, stdin=subprocess.DEVNULL, stdout=out, stderr=subprocess.STDOUT,
                           timeout=max(self.end - began, 0), check=False)
        print(f"{self.of_crate}: check {self.count} of {len(names)} functions in {time.monotonic() - began:.0f} s",
              file=sys.stderr, flush=True)

    def check(self, names):
        names, self.count = [*names], self.count + 1
        log = self.log / f"{self.of_crate}-{self.count}.txt"
        self.run_check(names, log)
        told = log.read_text(encoding="utf-8", errors="replace")
        gone = {it for it in GONE.findall(told) if (pathlib.Path(self.folder) / it).is_dir()}
        if gone and not self.is_late():
            # without the bodies that were taken away it is not made, or made of itself
            for it in gone:
                shutil.rmtree(pathlib.Path(self.folder) / it)
            return self.check(names)
        return try_edits.SAID.sub(lambda it: f"fn {it[1]}: proved" if try_edits.passes(it[2], self.assumed)
                                  else it[0], told)


def over_contracts(tool, crate, log):
    """Lets the tool plant over the contracts of a crate's functions: its check of the crate only tells what the log
    does, and a plant may stand on holes."""
    said = {symbol: words for symbol, words in try_edits.SAID.findall(log.read_text(errors="replace"))
            if symbol.startswith(f"{crate}::")}
    if not said:
        sys.exit(f"{log} says nothing of the functions of {crate}")

    def check(*_):
        print("".join(f"fn {symbol}: {words}\n" for symbol, words in said.items()) + f"crate {crate}: not checked")
        return 0

    def chosen(*words, choose=tool.chosen):
        planted, bare = choose(*words)
        return [it for it in planted if not it.in_trait], bare

    about = {"tool": tool, "of_crate": crate, "of_log": log, "said": tuple(said)}
    tool.rt.main, tool.Copy, tool.chosen = check, type("Copy", (OverContracts, tool.Copy), about), chosen
    tool.plant = lambda of, *words: at_once(tool, *words)


def with_kept_tokens(tokens, folder):
    """Reads the tokens of a file, or takes those of an earlier run where it has the same text: on a busy machine the
    libraries' files cost minutes."""
    folder.mkdir(parents=True, exist_ok=True)

    def read(source, file):
        data = pathlib.Path(source.folder, file).read_bytes()
        kept = folder / hashlib.sha256(data).hexdigest()
        if kept.is_file():
            return [tuple(it) for it in json.loads(kept.read_text(encoding="utf-8"))], data
        rows, data = tokens(source, file)
        # a variant's comment is no part of its name
        rows = [it for it in rows if not it[4].startswith("///")]
        part = kept.with_suffix(f".{os.getpid()}")
        part.write_text(json.dumps(rows), encoding="utf-8")
        part.rename(kept)
        return rows, data

    return read


def lay_memory(crate):
    """Lets the check begin with what check_over_kept.py and try_edits.py have checked of the crate."""
    kept, to = WORK / "kept_libraries" / f"memory-{crate}", TOP / "crates" / crate / "out" / "incremental"
    if kept.is_dir() and not to.exists():
        shutil.copytree(kept, to)


def plant(crate, given):
    """Runs `rt plant` in a crate's folder, in this process; the status is its own."""
    sys.dont_write_bytecode = True
    kit = kit_folder() / "bin"
    tool = load(kit / "rt-plant", "rt_plant")
    # Another toolchain may cut a text into other tokens.
    made = os.stat(kit / "rattle")
    tool.bodies.Source.tokens = with_kept_tokens(tool.bodies.Source.tokens,
                                                 WORK / "plants" / f"tokens-{made.st_size}-{int(made.st_mtime)}")
    # Each crate's sum holds those of all below it, which would be made anew on every way down.
    tool.rt.Crate.stamp = functools.lru_cache(None)(tool.rt.Crate.stamp)
    gone = lay_below(tool.rt, uses_of_crates(), crate)
    if gone:
        print(f"{crate}: not planted in, since these are not kept: {' '.join(gone)}")
        return 1
    if given.proved and not is_kept(load(kit / "rt", "rt"), crate):
        print(f"{crate}: not planted in, since its proof of these sources is not kept")
        return 1
    if given.proved:
        over_contracts(tool, crate, given.proved.resolve())
    lay_memory(crate)
    os.chdir(TOP / "crates" / crate)
    only = ["--only", given.only] if given.only else []
    return tool.main("--max", str(given.max), "--minutes", str(given.minutes), *only, *["--all"] * given.all, "--jobs",
                     "1")


def bare(crates):
    """Prints the functions without a clause on what they give."""
    bodies = load(kit_folder() / "bin" / "rt-plant-bodies", "rt_plant_bodies")
    count = 0
    for crate in crates:
        folder = TOP / "crates" / crate
        source = bodies.Source(str(folder))
        source.read("src/main.rt" if (folder / "src" / "main.rt").is_file() else "src/lib.rt")
        written = [it for it in source.functions if it.has_body]
        count += len(written)
        for it in written:
            if not it.has_ensures and not it.in_trait and (it.ret or it.mutates):
                print(f"{crate}: {it.shown}")
    print(f"of {count} functions with a body in {len(crates)} crates")


def counts_of(said):
    """The counts of the last line of `rt plant`; none where it did not come to it."""
    last = LAST.search(said)
    if not last:
        return None
    counts = {name: int(number) for name, number in re.findall(r"([a-z-]+)=(\d+)", last[0])}
    counts["tried"] = sum(counts[it] for it in ("proves", "same", "refused", "elsewhere", "not-judged"))
    return counts


def main():
    parser = argparse.ArgumentParser(description=__doc__, formatter_class=argparse.RawDescriptionHelpFormatter)
    parser.add_argument("crates", nargs="*", metavar="CRATE")
    parser.add_argument("--bare", action="store_true")
    parser.add_argument("--max", type=int, default=40, metavar="N")
    parser.add_argument("--minutes", type=int, default=3, metavar="N")
    parser.add_argument("--only", metavar="WORD")
    parser.add_argument("--proved", type=pathlib.Path, metavar="LOG")
    parser.add_argument("--all", action="store_true", help="print the plants that do not pass, too")
    parser.add_argument("--here", action="store_true", help=argparse.SUPPRESS)
    given = parser.parse_args()
    unknown = [it for it in given.crates if it not in uses_of_crates()]
    if unknown:
        parser.error(f"{unknown[0]} is no crate")
    if given.bare:
        bare(given.crates or list(uses_of_crates()))
        return
    if not given.crates:
        parser.error("name a crate")
    if given.here:
        sys.exit(plant(given.crates[0], given))
    rows, status = [], 0
    options = ["--max", str(given.max), "--minutes", str(given.minutes), *["--all"] * given.all]
    for name in "only", "proved":
        options += [f"--{name}", str(getattr(given, name))] if getattr(given, name) else []
    for crate in given.crates:
        words = [sys.executable, DEV / "plant_over_kept.py", "--here", *options, crate]
        ran = subprocess.run(words, stdin=subprocess.DEVNULL, stdout=subprocess.PIPE, encoding="utf-8",
                             errors="replace", check=False)
        print(ran.stdout, end="", flush=True)
        counts = counts_of(ran.stdout)
        status |= counts is None
        rows.append([crate] + [str(counts[it]) if counts else "-" for it in KINDS])
    print("| Crate | " + " | ".join(KINDS) + " |\n|" + "---|" * (len(KINDS) + 1))
    for row in rows:
        print("| " + " | ".join(row) + " |")
    sys.exit(status)
