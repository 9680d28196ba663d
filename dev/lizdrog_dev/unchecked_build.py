"""Builds the program without proof and without its checks at run time, so that it costs what the proved one does:
unchecked_build.py [--out FILE] [--keep-module]

The quick build's module marks each check at run time by `call void @llvm.trap()` before an `unreachable`. Without these
calls clang drops the checks, and what is left is what the proved program has, but that here nothing shows that no
check would fail. So this program is for measuring what sources cost before they are proved, and for nothing else: where
a check would have stopped it, it goes on with whatever it finds.

It is kept outside the clone, in the folder of this clone in ~/.cache/lizdrog, and built anew where the sources or the
toolchain have changed. The last line is its path. A build takes as long as the quick one.

  --out FILE      the program goes there instead, and is built in any case
  --keep-module   keeps the module without checks beside the program, as FILE.ll (some 160 MB)
"""
import argparse
import fcntl
import os
import pathlib
import shutil
import sys
import tempfile
import time

from lizdrog_tools import places, programs, quick_build

FOLDER = places.WORK / "unchecked"
CHECK = b"call void @llvm.trap()"


def say(line: str) -> None:
    print(f"unchecked build: {line}", file=sys.stderr, flush=True)


def without_checks(checked: pathlib.Path, out: pathlib.Path) -> int:
    """Writes a module's text without its checks; gives how many they were."""
    count = 0
    with open(checked, "rb") as lines, open(out, "wb") as kept:
        for line in lines:
            if CHECK in line:
                count += 1
            else:
                kept.write(line)
    return count


def compile_module(kit: pathlib.Path, module: pathlib.Path, work: pathlib.Path, program: pathlib.Path,
                   log: pathlib.Path) -> pathlib.Path:
    """Makes a program of a module, without the module's checks; gives the text of what is left."""
    clang, text, left = kit / "toolchain/bin/clang", work / "checked.ll", work / "unchecked.ll"
    as_text = [f"--target={quick_build.TARGET}", "--no-default-config", "-S", "-emit-llvm", "-x", "ir"]
    quick_build.run([clang, *as_text, module, "-o", text], log, "clang on the kept module, to give its text,")
    count = without_checks(text, left)
    text.unlink()
    if not count:
        raise quick_build.CannotBuild(f"the module has no `{CHECK.decode()}`: this toolchain marks checks otherwise")
    say(f"step 2 of 3: {count} checks are out; clang optimises the rest, the longest step")
    quick_build.run([clang, *quick_build.FLAGS, left, "-o", work / "program.o"], log, "clang on the module unchecked")
    quick_build.run([kit / "bin/rattle-link", "--target", quick_build.TARGET, "--toolchain", kit / "toolchain", "-o",
                     program, work / "program.o", kit / "c/libos_c.a", kit / "c/liblibc_c.a"], log, "rattle-link")
    return left


def build(out: pathlib.Path, keep_module: bool) -> None:
    """Builds the program and puts it in its place in one step; its stored run went right."""
    kit, start, log = quick_build.find_kit(), time.monotonic(), out.with_name(out.name + ".log")
    work = pathlib.Path(tempfile.mkdtemp(prefix="lizdrog-unchecked-build-"))
    try:
        say(f"step 1 of 3: the sources are translated; the tools' words go to {log}")
        module = quick_build.make_module(kit, quick_build.CRATE, work, log)
        program = work / out.name
        left = compile_module(kit, module, work, program, log)
        say(f"step 3 of 3: its stored run is tried ({time.monotonic() - start:.0f} s so far)")
        quick_build.try_out(program, quick_build.CRATE, work)
        if keep_module:
            shutil.move(left, out.with_name(out.name + ".ll"))
        part = out.with_name(out.name + ".part")
        shutil.copy(program, part)
        os.replace(part, out)
        say(f"done in {time.monotonic() - start:.0f} s")
    finally:
        shutil.rmtree(work, ignore_errors=True)


def made_of() -> str:
    """What the program would be made of: the sum of the sources, and the toolchain."""
    return f"{programs.sum_of(programs.sources(programs.MADE_OF))} {quick_build.kit_name(quick_build.find_kit())}\n"


def current(keep_module: bool = False) -> pathlib.Path:
    """The kept program of the sources as they are, built where it is of others; one call at a time builds it."""
    program, stamp = FOLDER / "timing_shell", FOLDER / "timing_shell.made_of"
    FOLDER.mkdir(parents=True, exist_ok=True)
    with open(FOLDER / "lock", "w", encoding="utf-8") as lock:
        fcntl.flock(lock, fcntl.LOCK_EX)
        wanted = made_of()
        is_kept = stamp.is_file() and stamp.read_text() == wanted and places.is_program(program)
        if not is_kept or keep_module and not program.with_name(program.name + ".ll").is_file():
            stamp.unlink(missing_ok=True)
            build(program, keep_module)
            stamp.write_text(wanted)
    return program


def main() -> int:
    words = argparse.ArgumentParser(description=__doc__, formatter_class=argparse.RawDescriptionHelpFormatter)
    words.add_argument("--out", type=pathlib.Path)
    words.add_argument("--keep-module", action="store_true")
    given = words.parse_args()
    try:
        if given.out:
            program = given.out.resolve()
            program.parent.mkdir(parents=True, exist_ok=True)
            build(program, given.keep_module)
        else:
            program = current(given.keep_module)
    except (quick_build.CannotBuild, programs.Stop) as why:
        sys.exit(f"unchecked build: {why}")
    print(program)
    return 0
