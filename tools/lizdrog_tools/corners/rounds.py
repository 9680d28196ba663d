"""Runs rounds of scripts at the corners of a project; what has answered before is not run again."""
import contextlib
import dataclasses
import fcntl
import hashlib
import json
import os
import pathlib
import sys
from collections.abc import Iterator

from lizdrog_tools import programs
from lizdrog_tools.corners.ecos import EcoList, ecos_of, journal_of, script_for
from lizdrog_tools.corners.job import Job, State, write_whole
from lizdrog_tools.corners.launch import Progress, Round, launch
from lizdrog_tools.corners.merge import Merged, read_corner
from lizdrog_tools.corners.project import Corner, Project
from lizdrog_tools.files import InputFault, TextFault, read_text


class Refused(Exception):
    """Says why nothing is run."""


@dataclasses.dataclass(frozen=True)
class Options:
    """What the words of the command ask for beside the project and its scripts."""

    launch: str
    jobs: int
    timeout: float | None
    again: bool
    quiet: bool
    program: pathlib.Path


def kept_mark(file: pathlib.Path) -> list:
    """What tells a file from another one of its name: its size and its time."""
    found = file.stat()
    return [os.fspath(file), found.st_size, found.st_mtime_ns]


class Corners:
    """The corners of a project, their list of ECOs, and the folder of their results."""

    def __init__(self, project: Project, options: Options):
        self.project, self.options = project, options
        self.ecos = EcoList.read(project.ecos)
        self.names = project.names()

    def ecos_of(self, corner: Corner) -> list[list[str]]:
        """The ECOs of the list for a corner."""
        return ecos_of(self.ecos.commands(corner.name, self.names))

    def prepare(self, folder: pathlib.Path, corner: Corner, scripts: list[str], before: int | None) -> Job:
        """The job of a corner, behind all ECOs or the first ones; it is new where anything of it has changed or where
        it has not answered yet."""
        job = Job(corner.name, folder / corner.name)
        job.folder.mkdir(parents=True, exist_ok=True)
        journal = journal_of(self.ecos_of(corner)[:before], read_text(corner.sdc, may_be_empty=True))
        files = [job.folder / f"script{number}.eco" for number in range(1, len(scripts) + 1)]
        journal_file = job.folder / "journal"
        words = ["run", "--journal", os.fspath(journal_file), *corner.words(), *map(os.fspath, files)]
        marks = [kept_mark(it) for it in (*corner.documents(), self.options.program)]
        fingerprint = hashlib.sha256(json.dumps([words, marks, journal, scripts]).encode()).hexdigest()
        if (
            self.options.again
            or job.fingerprint() != fingerprint
            or job.outcome().state not in (State.DONE, State.RUNNING)
        ):
            for file, text in zip((journal_file, *files), (journal, *scripts)):
                write_whole(file, text)
            timeout = corner.timeout if corner.timeout is not None else self.options.timeout
            job.prepare(self.options.program, words, timeout, fingerprint)
        return job

    def run(self, name: str, scripts: dict[str, list[str]], before: int | None = None) -> Merged:
        """Runs the scripts of each corner, behind all ECOs or so many, and merges the answers; corners without scripts
        are left out."""
        folder = self.project.results.absolute() / name
        corners = [it for it in self.project.corners if scripts.get(it.name)]
        jobs = [self.prepare(folder, it, scripts[it.name], before) for it in corners]
        missing = [it for it in jobs if it.outcome().state is not State.DONE]
        if missing:
            limits = [it.timeout if it.timeout is not None else self.options.timeout for it in corners]
            longest = None if None in limits else max(limits)
            round_ = Round(folder, missing, self.options.jobs, max(it.workers for it in corners), longest)
            launch(
                round_,
                self.options.launch,
                self.project.slurm_options,
                Progress(f"corners, {name}", self.options.quiet),
            )
        return Merged([read_corner(job, scripts[job.corner]) for job in jobs])

    def scripts_of(self, texts: list[tuple[str, str]]) -> dict[str, list[str]]:
        """The scripts of each corner, from the files that were given."""
        found = {}
        for corner in self.names:
            found[corner] = []
            for file, text in texts:
                try:
                    found[corner].append(script_for(text, corner, self.names))
                except TextFault as why:
                    raise InputFault(file, why.line, why.message) from why
        return found


@contextlib.contextmanager
def alone(folder: pathlib.Path) -> Iterator[None]:
    """Keeps other calls off a folder of results."""
    folder.mkdir(parents=True, exist_ok=True)
    with open(folder / "lock", "w", encoding="ascii") as lock:
        try:
            fcntl.flock(lock, fcntl.LOCK_EX | fcntl.LOCK_NB)
        except OSError as why:
            raise Refused(f"another call works in {folder}: wait for it, or give another folder by --results") from why
        yield


def program_of(given: pathlib.Path | None) -> pathlib.Path:
    """The program that all corners run: the one that is given, or that of this clone."""
    if given is not None:
        if not (given.is_file() and os.access(given, os.X_OK)):
            raise Refused(f"--program {given}: this is no program")
        return given.absolute()
    try:
        return pathlib.Path(programs.choose(False, False, lambda line: print(f"lizdrog: {line}", file=sys.stderr)))
    except programs.Stop as why:
        raise Refused(str(why)) from why
