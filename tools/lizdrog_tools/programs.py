"""Which program runs: the proved one or the one without proof, where it is of the sources as they are.

What is kept beside the programs tells of each of which sources it was made: their sum, and the size and time of each
file when that sum was last seen. A call compares sizes and times, some milliseconds, and sums the sources only where
these differ. An installed copy has its program beside its scripts, and no sources.
"""
import os

TOP = os.path.dirname(os.path.dirname(os.path.dirname(os.path.realpath(__file__))))
PROVED = f"{TOP}/crates/timing_shell/out/timing_shell"
FOLDER = f"{TOP}/out/quick_build"
QUICK = f"{FOLDER}/timing_shell"
INSTALLED = f"{TOP}/program/timing_shell"
# The live server is a program of its own; one build makes both.
LIVE_PROVED = f"{TOP}/crates/timing_live/out/timing_live"
LIVE_QUICK = f"{FOLDER}/timing_live"
LIVE_INSTALLED = f"{TOP}/program/timing_live"
LIVE_BESIDE = {PROVED: LIVE_PROVED, QUICK: LIVE_QUICK, INSTALLED: LIVE_INSTALLED}
LIVE_CRATE = f"{TOP}/crates/timing_live"
ABOUT_INSTALLED = f"{TOP}/program/about"
# What a program is made of; and what it was proved to do, which is all that a proof is about. (Another proof of the
# same is no change.)
MADE_OF, PROVED_OF = ("src",), ("src", "specs")
WITHOUT_PROOF = "this program was built without proof"


class Stop(Exception):
    """Says why no program runs."""


class Kept:
    """What was kept of a program: a verdict, the sum of its sources, its toolchain, and the stamps of that time."""

    def __init__(self, verdict: str = "", sources: str = "", kit: str = "", stamps: str = ""):
        self.verdict, self.sources, self.kit, self.stamps = verdict, sources, kit, stamps

    @staticmethod
    def read(name: str) -> "Kept":
        """What was kept under a name; nothing where it cannot be read."""
        try:
            with open(f"{FOLDER}/{name}", encoding="utf-8") as file:
                verdict, sources, kit, stamps = file.read().split("\n", 3)
        except (OSError, ValueError):
            return Kept()
        return Kept(verdict, sources, kit, stamps)

    def write(self, name: str) -> None:
        """Keeps it in one step; where that cannot be, the next call only takes longer."""
        part = f"{FOLDER}/{name}.{os.getpid()}.part"
        try:
            os.makedirs(FOLDER, exist_ok=True)
            with open(part, "w", encoding="utf-8") as file:
                file.write("\n".join([self.verdict, self.sources, self.kit, self.stamps]))
            os.replace(part, f"{FOLDER}/{name}")
        except OSError:
            pass


def is_program(file: str) -> bool:
    """Whether a file can be run."""
    return os.path.isfile(file) and os.access(file, os.X_OK)


def files_below(folder: str) -> list[tuple[str, int, int]]:
    """The sources below a folder of the repository, each with its size and its time."""
    found = []
    try:
        entries = list(os.scandir(f"{TOP}/{folder}"))
    except OSError:
        return found
    for it in entries:
        if it.is_dir():
            found += files_below(f"{folder}/{it.name}")
        elif it.name.endswith((".rt", ".antt")):
            stat = it.stat()
            found.append((f"{folder}/{it.name}", stat.st_size, stat.st_mtime_ns))
    return found


def sources(parts: tuple[str, ...]) -> list[tuple[str, int, int]]:
    """The files that a program is made of, in order, each with its size and its time."""
    try:
        stat, crates = os.stat(f"{TOP}/crates.txt"), os.listdir(f"{TOP}/crates")
    except OSError as why:
        raise Stop(f"no sources are here: {why}") from why
    found = [("crates.txt", stat.st_size, stat.st_mtime_ns)]
    return sorted(found + [file for crate in crates for part in parts
                           for file in files_below(f"crates/{crate}/{part}")])


def stamps_of(files: list[tuple[str, int, int]]) -> str:
    return "\n".join(f"{name} {size} {time}" for name, size, time in files)


def sum_of(files: list[tuple[str, int, int]]) -> str:
    """The sum over the names and the bytes of some sources."""
    import hashlib
    found = hashlib.sha256()
    for name, size, _ in files:
        found.update(f"{name} {size}\n".encode())
        with open(f"{TOP}/{name}", "rb") as file:
            found.update(file.read())
    return found.hexdigest()


def is_of(kept: Kept, name: str, files: list[tuple[str, int, int]], head: str = "") -> bool:
    """Whether these are the sources that a program is made of, by what was kept under a name; `head` is the program's
    own stamp."""
    stamps = head + stamps_of(files)
    if kept.stamps != stamps:
        kept.verdict = "current" if kept.sources == sum_of(files) else "stale"
        kept.stamps = stamps
        kept.write(name)
    return kept.verdict == "current"


def proved_is_current(program: str = PROVED, name: str = "proved") -> bool:
    """Whether a program of the gate is newer than all sources, or these are still those that it was seen to be made
    of."""
    if not is_program(program):
        return False
    files, built, kept = sources(PROVED_OF), os.stat(program), Kept.read(name)
    head = f"{built.st_size} {built.st_mtime_ns}\n"
    if kept.stamps.startswith(head):
        return is_of(kept, name, files, head)
    if any(time > built.st_mtime_ns for _, _, time in files):
        return False
    Kept("current", sum_of(files), "", head + stamps_of(files)).write(name)
    return True


def quick_is_current() -> bool:
    """Whether the programs without proof are there, and of the sources as they are."""
    kept, wanted = Kept.read("quick"), [QUICK, *([LIVE_QUICK] if os.path.isdir(LIVE_CRATE) else [])]
    return bool(kept.sources) and all(map(is_program, wanted)) and is_of(kept, "quick", sources(MADE_OF))


def build(say) -> None:
    """Builds the program without proof, alone in this clone; one that another call has built meanwhile is taken."""
    import fcntl
    import pathlib

    from lizdrog_tools import quick_build
    try:
        os.makedirs(FOLDER, exist_ok=True)
        lock = open(f"{FOLDER}/lock", "w", encoding="utf-8")
    except OSError as why:
        raise Stop(f"no program is built, and none can be built here: {why}") from why
    with lock:
        try:
            fcntl.flock(lock, fcntl.LOCK_EX | fcntl.LOCK_NB)
        except OSError:
            say("another call builds the program: waiting for it")
            fcntl.flock(lock, fcntl.LOCK_EX)
        if quick_is_current():
            return
        log = pathlib.Path(FOLDER, "log")
        say("building the program without proof, some six minutes (two to eighteen were seen); the tools' words go "
            f"to {log}")
        files = sources(MADE_OF)
        made_of = sum_of(files)
        try:
            quick_build.build(pathlib.Path(QUICK), log, say)
            kit = quick_build.kit_name(quick_build.find_kit())
        except quick_build.CannotBuild as why:
            raise Stop(f"{why}; the log is {log}") from why
        except OSError as why:
            raise Stop(f"the program could not be built: {why}") from why
        Kept("current", made_of, kit, stamps_of(files)).write("quick")
        say(f"{WITHOUT_PROOF}, of the sources as they are; `rt ci` in {TOP} proves them and builds it")


def choose(wants_proved: bool, may_build: bool, say) -> str:
    """The program to run."""
    if is_program(INSTALLED):
        if wants_proved and not about_installed().startswith("proved"):
            raise Stop("the program that is installed here was built without proof")
        return INSTALLED
    if proved_is_current():
        return PROVED
    if wants_proved:
        stale = (
            "the sources are newer than the proved program" if is_program(PROVED) else "there is no proved program here"
        )
        raise Stop(f"{stale}: `rt ci` in {TOP} proves and builds it")
    if not quick_is_current():
        if (is_program(PROVED) or is_program(QUICK)) and not may_build:
            raise Stop(f"the sources have changed since the program was built: `rt ci` in {TOP} proves and builds it "
                       "anew (hours at worst), `lizdrog --build` builds it without proof (minutes); nothing was run")
        build(say)
    return QUICK


def choose_live(wants_proved: bool, may_build: bool, say) -> str:
    """The live server to run; where there is none it is said that one can be named."""
    try:
        return chosen_live(wants_proved, may_build, say)
    except Stop as why:
        raise why if wants_proved else Stop(f"{why}; `--program FILE` names a live program that you have") from why


def chosen_live(wants_proved: bool, may_build: bool, say) -> str:
    """The live server of this clone or this installed copy."""
    if is_program(INSTALLED):
        if not is_program(LIVE_INSTALLED):
            raise Stop("this installed copy has no live server: install it anew from a clone where that is built")
        if wants_proved and not about_installed().startswith("proved"):
            raise Stop("the programs that are installed here were built without proof")
        return LIVE_INSTALLED
    if not os.path.isdir(LIVE_CRATE):
        raise Stop("this version has no live server: its sources have no crates/timing_live")
    if proved_is_current(LIVE_PROVED, "proved_live"):
        return LIVE_PROVED
    if wants_proved:
        stale = "the sources are newer than the proved live server" if is_program(LIVE_PROVED) else (
            "there is no proved live server here")
        raise Stop(f"{stale}: `rt ci` in {TOP} proves and builds it")
    if not quick_is_current():
        if any(map(is_program, (PROVED, QUICK, LIVE_PROVED, LIVE_QUICK))) and not may_build:
            raise Stop(f"there is no live server of the sources as they are: `rt ci` in {TOP} proves and builds it "
                       "(hours at worst), `lizdrog --build` builds it without proof (minutes); nothing was run")
        build(say)
    return LIVE_QUICK


def about_installed() -> str:
    """What an installed copy tells of its program."""
    try:
        with open(ABOUT_INSTALLED, encoding="utf-8") as file:
            return file.readline().strip()
    except OSError:
        return "nothing is known of it"


def first_line(*words: str) -> str:
    """The first line that a command prints at the top, or nothing."""
    import subprocess
    try:
        ran = subprocess.run(words, cwd=TOP, capture_output=True, text=True, check=False)
    except OSError:
        return ""
    return ran.stdout.strip().split("\n")[0] if ran.returncode == 0 else ""


def commit() -> str:
    """The commit of the repository, and whether its sources were changed since."""
    name = first_line("git", "rev-parse", "--short", "HEAD") or "unknown"
    return name + (" with changes" if first_line("git", "status", "--porcelain", "--", "crates", "crates.txt") else "")


def version_of_live() -> list[str]:
    """Which live server would run, in no line or one."""
    if not os.path.isdir(LIVE_CRATE):
        return []
    if proved_is_current(LIVE_PROVED, "proved_live"):
        return [f"proved live server {LIVE_PROVED}"]
    if quick_is_current():
        return [f"live server without proof {LIVE_QUICK}"]
    return ["no live server of these sources is built"]


def version() -> list[str]:
    """The commit, the toolchain and the program that would run; and whether it is without proof."""
    if is_program(INSTALLED):
        about = about_installed()
        return [f"lizdrog installed in {TOP}; {about}", *([] if about.startswith("proved") else [WITHOUT_PROOF])]
    head = f"lizdrog commit {commit()}; {first_line('rt', 'version') or 'no toolchain here'}"
    live = version_of_live()
    if proved_is_current():
        return [f"{head}; proved program {PROVED}", *live]
    if quick_is_current():
        return [f"{head}; program without proof {QUICK} (built with {Kept.read('quick').kit})",
                f"{WITHOUT_PROOF}; `rt ci` in {TOP} proves its sources and builds it", *live]
    return [f"{head}; no program of these sources is built", *live]
