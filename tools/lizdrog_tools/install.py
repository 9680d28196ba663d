"""Copies the program, the tools, the pages and the examples, to run without a clone and without a toolchain."""
import os
import pathlib
import shutil
from collections.abc import Callable

from lizdrog_tools import programs
from lizdrog_tools.help_text import INSTALL
from lizdrog_tools.places import TOP

WRONG_WORDS, CANNOT_COPY = 2, 5
COPIED = ("lizdrog", "README.md", "CHANGELOG.md", "HANDLES", "docs", "examples", "tools")
LEFT_OUT = shutil.ignore_patterns("__pycache__", "tests", "*.out", "OUTPUT")


def about(program: str) -> str:
    """What the copy tells of its program."""
    proof = "proved program" if program == programs.PROVED else "program without proof"
    return f"{proof} of commit {programs.commit()}\n"


def copy_to(home: pathlib.Path, program: str) -> None:
    """Writes the copy into a folder beside its place, and then puts it there in one step."""
    part = home.with_name(f"{home.name}.{os.getpid()}.part")
    shutil.rmtree(part, ignore_errors=True)
    part.mkdir(parents=True)
    for name in COPIED:
        if (TOP / name).is_dir():
            shutil.copytree(TOP / name, part / name, ignore=LEFT_OUT)
        elif (TOP / name).is_file():
            shutil.copy(TOP / name, part / name)
    (part / "program").mkdir()
    shutil.copy(program, part / "program" / "timing_shell")
    if programs.is_program(programs.LIVE_BESIDE[program]):
        shutil.copy(programs.LIVE_BESIDE[program], part / "program" / "timing_live")
    text = programs.about_installed() + "\n" if program == programs.INSTALLED else about(program)
    (part / "program" / "about").write_text(text, encoding="utf-8")
    old = home.with_name(f"{home.name}.{os.getpid()}.old")
    if home.exists():
        os.replace(home, old)
    os.replace(part, home)
    shutil.rmtree(old, ignore_errors=True)


def link_command(prefix: pathlib.Path, home: pathlib.Path) -> pathlib.Path:
    """Puts the command into the folder of commands."""
    command = prefix / "bin" / "lizdrog"
    command.parent.mkdir(parents=True, exist_ok=True)
    if command.is_symlink() or command.exists():
        command.unlink()
    command.symlink_to(os.path.relpath(home / "lizdrog", command.parent))
    return command


def main(words: list[str], wants_proved: bool, say: Callable[[str], None]) -> int:
    """Installs into the folder that is named; gives the status."""
    if len(words) != 1 or words[0].startswith("-"):
        print(INSTALL)
        say("install takes one word, the folder PREFIX")
        return WRONG_WORDS
    prefix = pathlib.Path(words[0]).expanduser().resolve()
    home = prefix / "lib" / "lizdrog"
    if home == TOP:
        say(f"{home} is this very copy")
        return WRONG_WORDS
    if home.exists() and not (home / "program" / "about").is_file():
        say(f"{home} is there and is no installed copy of Lizdrog: nothing was changed")
        return WRONG_WORDS
    program = programs.choose(wants_proved, False, say)
    try:
        copy_to(home, program)
        command = link_command(prefix, home)
    except OSError as why:
        say(f"{why.filename}: {why.strerror}: it was not installed")
        return CANNOT_COPY
    print(f"{command}\n{home}/tools\n{home}/docs\n{home}/examples")
    return 0
