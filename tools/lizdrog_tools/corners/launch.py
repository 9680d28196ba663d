"""Launches the jobs of corners: here by GNU parallel or a pool, by Slurm as one array job, or by a command.

Each way starts the same file of a job. What becomes of a job is read from the job's folder, so all ways are followed
alike; a job that ended without a word there is lost.
"""
import concurrent.futures
import dataclasses
import json
import os
import pathlib
import shlex
import shutil
import signal
import subprocess
import sys
import time
from collections.abc import Callable

from lizdrog_tools.corners.job import Job, State, read_json, write_whole

LOOKS_PER_SECOND = 10
# A folder that several machines share may show the last words of a job late.
LATE_WORDS = 10.0
QUEUE_TRIES = 30
PLACES = ("{job}", "{corner}", "{log}", "{workers}")


class CannotLaunch(Exception):
    """Says why the jobs cannot be launched."""


@dataclasses.dataclass(frozen=True)
class Round:
    """Jobs that are launched together, in a folder of their own."""

    folder: pathlib.Path
    jobs: list[Job]
    at_once: int
    workers: int
    longest: float | None


class Progress:
    """Tells how many jobs are done, while they run."""

    def __init__(self, name: str, is_quiet: bool):
        self.name, self.is_quiet, self.begin, self.said = name, is_quiet, time.monotonic(), ""

    def show(self, jobs: list[Job], is_last: bool = False) -> None:
        """Tells it anew where something has changed; on a terminal, on one line."""
        if self.is_quiet:
            return
        states = [it.outcome().state for it in jobs]
        counts = {state: states.count(state) for state in State if state in states}
        parts = ", ".join(f"{count} {state.value}" for state, count in counts.items())
        seconds = time.monotonic() - self.begin
        is_terminal = sys.stderr.isatty()
        if is_terminal:
            sys.stderr.write(
                f"\r\x1b[K{self.name}: {parts} of {len(jobs)} corners, {seconds:.0f} s" + ("\n" if is_last else "")
            )
            sys.stderr.flush()
        elif parts != self.said:
            print(f"{self.name}: {parts} of {len(jobs)} corners, {seconds:.1f} s", file=sys.stderr, flush=True)
        self.said = parts


def follow(jobs: list[Job], progress: Progress, is_alive: Callable[[], bool], patience: float = 0.0) -> None:
    """Waits until all jobs are over, or what runs them is (and some seconds more): those without a word are lost."""
    last = None
    while not all(it.outcome().state.is_over() for it in jobs) and (last is None or time.monotonic() < last):
        progress.show(jobs)
        time.sleep(1 / LOOKS_PER_SECOND)
        if last is None and not is_alive():
            last = time.monotonic() + patience
    for job in jobs:
        if not job.outcome().state.is_over():
            job.lose()
    progress.show(jobs, is_last=True)


# ------------------------------------------------------------------------------------------------ on this machine


def by_parallel(round_: Round, progress: Progress) -> None:
    """Runs the jobs by GNU parallel."""
    words = [
        "parallel",
        "--plain",
        "--will-cite",
        "--jobs",
        str(round_.at_once),
        "sh",
        ":::",
        *(os.fspath(it.launched_file) for it in round_.jobs),
    ]
    with open(round_.folder / "parallel.log", "wb") as log:
        child = subprocess.Popen(words, stdin=subprocess.DEVNULL, stdout=log, stderr=log, start_new_session=True)
    try:
        follow(round_.jobs, progress, lambda: child.poll() is None)
    except BaseException:
        os.killpg(child.pid, signal.SIGTERM)
        raise
    finally:
        child.wait()


def by_commands(
    round_: Round, progress: Progress, command_of: Callable[[Job], list[str]], patience: float = 0.0
) -> None:
    """Runs a command for each job, so many at once; a command ends when its job is over."""
    children: list[subprocess.Popen] = []

    def run_one(job: Job) -> None:
        with open(round_.folder / f"{job.corner}.launch.log", "wb") as log:
            try:
                child = subprocess.Popen(
                    command_of(job), stdin=subprocess.DEVNULL, stdout=log, stderr=log, start_new_session=True
                )
            except OSError as why:
                log.write(f"{why.filename} does not start: {why.strerror}\n".encode())
                return
            children.append(child)
            child.wait()

    with concurrent.futures.ThreadPoolExecutor(round_.at_once) as pool:
        tasks = [pool.submit(run_one, it) for it in round_.jobs]
        try:
            follow(round_.jobs, progress, lambda: not all(it.done() for it in tasks), patience)
        except BaseException:
            pool.shutdown(wait=False, cancel_futures=True)
            for child in children:
                if child.poll() is None:
                    os.killpg(child.pid, signal.SIGTERM)
            raise


def by_pool(round_: Round, progress: Progress) -> None:
    """Runs the jobs by a pool of processes."""
    by_commands(round_, progress, lambda job: ["sh", os.fspath(job.launched_file)])


def locally(round_: Round, progress: Progress) -> None:
    """Runs the jobs on this machine; one by itself needs nothing to run it beside others."""
    (by_parallel if len(round_.jobs) > 1 and shutil.which("parallel") else by_pool)(round_, progress)


# ------------------------------------------------------------------------------------------------ by a command


def template_of(text: str) -> list[str]:
    """The words of a command template, or why it is none."""
    try:
        words = shlex.split(text)
    except ValueError as why:
        raise CannotLaunch(f"--launch {text}: {why}") from why
    if not words or not any("{job}" in it for it in words):
        raise CannotLaunch(
            f"--launch is local, slurm, or a command with {{job}} in it, the file to be run, and here it is `{text}`"
        )
    if not shutil.which(words[0]):
        raise CannotLaunch(f"--launch {text}: there is no program {words[0]} here")
    return words


def filled(words: list[str], job: Job, workers: int) -> list[str]:
    """The words of a template with what they ask of a job."""
    values = {
        "{job}": os.fspath(job.launched_file),
        "{corner}": job.corner,
        "{log}": os.fspath(job.folder / "launch.log"),
        "{workers}": str(workers),
    }
    found = []
    for word in words:
        for place in PLACES:
            word = word.replace(place, values[place])
        found.append(word)
    return found


# ------------------------------------------------------------------------------------------------ by Slurm


class Slurm:
    """One array job of Slurm for a round; the file `slurm.json` of the round tells its number."""

    def __init__(self, round_: Round, options: tuple[str, ...]):
        self.round, self.options, self.file = round_, options, round_.folder / "slurm.json"

    def queued(self, number: str) -> set[int] | None:
        """The indexes of the array job that are not over, or none where the queue cannot be asked."""
        words = ["squeue", "--noheader", "--array", "--states=all", "--format=%K %T", "--jobs", number]
        ran = subprocess.run(words, stdin=subprocess.DEVNULL, capture_output=True, text=True, check=False)
        if ran.returncode:
            return set() if "Invalid job id" in ran.stderr else None
        lives = (
            "PENDING",
            "RUNNING",
            "COMPLETING",
            "CONFIGURING",
            "SUSPENDED",
            "REQUEUED",
            "RESIZING",
            "SIGNALING",
            "STAGE_OUT",
            "STOPPED",
        )
        pairs = [it.split() for it in ran.stdout.splitlines()]
        return {
            int(index) for index, state in (it for it in pairs if len(it) == 2) if state in lives and index.isdigit()
        }

    def still_there(self) -> tuple[str, dict[str, int]]:
        """The number of an earlier array job, and which corners of now it still works on."""
        told = read_json(self.file)
        live = self.queued(told["number"]) if told else set()
        wanted = {it.corner: it.fingerprint() for it in self.round.jobs}
        same = {
            corner: at
            for at, (corner, sum_) in enumerate(told.get("jobs", []))
            if at in (live or set()) and wanted.get(corner) == sum_
        }
        return told.get("number", ""), same

    def submit(self, jobs: list[Job]) -> str:
        """Gives an array of jobs to Slurm; answers its number."""
        folder = self.round.folder
        write_whole(folder / "array.list", "".join(f"{it.launched_file}\n" for it in jobs))
        write_whole(
            folder / "array.sh",
            '#!/bin/sh\nexec sh "$(sed -n "$((SLURM_ARRAY_TASK_ID + 1))p" '
            f"{shlex.quote(os.fspath(folder / 'array.list'))})\"\n",
        )
        words = [
            "sbatch",
            "--parsable",
            f"--array=0-{len(jobs) - 1}%{self.round.at_once}",
            "--job-name=lizdrog-corners",
            f"--cpus-per-task={self.round.workers}",
            f"--output={folder}/slurm.%a.log",
            f"--chdir={folder}",
        ]
        if self.round.longest is not None:
            words.append(f"--time={int(self.round.longest // 60) + 2}")
        ran = subprocess.run(
            [*words, *self.options, os.fspath(folder / "array.sh")],
            stdin=subprocess.DEVNULL,
            capture_output=True,
            text=True,
            check=False,
        )
        if ran.returncode:
            raise CannotLaunch(f"sbatch refuses the array job: {ran.stderr.strip() or ran.stdout.strip()}")
        number = ran.stdout.strip().split(";")[0]
        write_whole(
            self.file, json.dumps({"number": number, "jobs": [[it.corner, it.fingerprint()] for it in jobs]}, indent=1)
        )
        return number

    def is_alive(self, number: str) -> Callable[[], bool]:
        """A function that tells whether the array job is in the queue; it bears a queue that does not answer."""
        state = {"asked": 0.0, "alive": True, "tries": 0}

        def ask() -> bool:
            if time.monotonic() - state["asked"] >= 1:
                live = self.queued(number)
                state.update(asked=time.monotonic(), tries=0 if live is not None else state["tries"] + 1)
                state["alive"] = bool(live) if live is not None else state["tries"] < QUEUE_TRIES
            return state["alive"]

        return ask

    def run(self, progress: Progress) -> None:
        """Submits the jobs, or waits for those of an earlier call that still run, and follows them."""
        number, same = self.still_there()
        waited = [it for it in self.round.jobs if it.corner in same]
        try:
            if waited:
                follow(waited, progress, self.is_alive(number), LATE_WORDS)
            rest = [it for it in self.round.jobs if it.corner not in same]
            if rest:
                number = self.submit(rest)
                follow(rest, progress, self.is_alive(number), LATE_WORDS)
        except KeyboardInterrupt:
            print(
                f"corners: the array job {number} goes on: the same call waits for it, `scancel {number}` ends it",
                file=sys.stderr,
            )
            raise


def launch(round_: Round, how: str, slurm_options: tuple[str, ...], progress: Progress) -> None:
    """Runs all jobs of a round and returns when they are over."""
    if how == "local":
        locally(round_, progress)
    elif how == "slurm":
        missing = [it for it in ("sbatch", "squeue") if not shutil.which(it)]
        if missing:
            raise CannotLaunch(f"--launch slurm: there is no {missing[0]} here (Debian's package slurm-client)")
        Slurm(round_, slurm_options).run(progress)
    else:
        words = template_of(how)
        by_commands(round_, progress, lambda job: filled(words, job, round_.workers), LATE_WORDS)
