"""The words that the commands over corners have in common."""
import argparse
import dataclasses
import os
import pathlib

from lizdrog_tools.corners.project import Project, read_project
from lizdrog_tools.corners.rounds import Options, program_of


def at_least_one(text: str) -> int:
    """A number of the command line, from 1."""
    value = int(text)
    if value < 1:
        raise argparse.ArgumentTypeError("a number from 1 is asked for")
    return value


def above_zero(text: str) -> float:
    """A number of seconds."""
    value = float(text)
    if not value > 0:
        raise argparse.ArgumentTypeError("a number of seconds above 0 is asked for")
    return value


def add_common_words(parser: argparse.ArgumentParser) -> None:
    """Adds the words that say how runs are made."""
    for name, how in (
        ("--launch", {"default": "local"}),
        ("--jobs", {"type": at_least_one}),
        ("--timeout", {"type": above_zero}),
        ("--results", {"type": pathlib.Path}),
        ("--program", {"type": pathlib.Path}),
    ):
        parser.add_argument(name, help=argparse.SUPPRESS, **how)
    for name in ("--again", "--json", "--quiet"):
        parser.add_argument(name, action="store_true", help=argparse.SUPPRESS)


def project_of(given: argparse.Namespace) -> Project:
    """The project that is named, with its results where the words say."""
    project = read_project(given.project)
    return dataclasses.replace(project, results=given.results) if given.results else project


def options_of(given: argparse.Namespace, project: Project) -> Options:
    """How the runs of a project are made."""
    jobs = given.jobs or max(1, (os.cpu_count() or 1) // max(it.workers for it in project.corners))
    return Options(given.launch, jobs, given.timeout, given.again, given.quiet, program_of(given.program))
