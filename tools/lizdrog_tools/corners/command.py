"""Runs scripts at several corners of a design and merges the answers: corners.py FILE.toml [options] SCRIPT..

FILE.toml names the documents of the design, with a table for each corner (docs/CORNERS.md). Each corner is one run
of Lizdrog after the one list of ECOs (the key `ecos`). A corner that has answered the same scripts before does not run
again. SCRIPT is as for a run; a line `@slow set_parasitics ..` has wires for the corner slow alone.

  --launch HOW      local (GNU parallel, or a pool of processes where it is not installed), slurm (one array job), or
                    a command that runs a file and ends with it: "bsub -K -n {workers} -o {log} {job}"; it may name
                    {corner}, too
  --endpoints       ask the slack of every endpoint
  --paths N         ask every endpoint, and then the paths of the N worst of each kind, each in its worst corner, for
                    `report`
  --ecos            ask every endpoint, and what each of the last 100 ECOs of the list changed, for `report`
  --commit          try the ECOs of one SCRIPT in all corners; append them to the list where every corner accepts each
  --jobs N          runs at a time (default: the processors here, divided by the greatest number of WORKERS)
  --timeout S       seconds that a run may take (the key `timeout` of a corner comes first)
  --results FOLDER  where the results are kept (default: FILE.results)
  --again           run all corners anew
  --all             list all failing endpoints, not the first twenty
  --json            the answers for programs
  --quiet           no progress on standard error
  --program FILE    run this program
Status: 0 all corners have answered, 1 some row is refused, no or not_yet, 2 wrong words or a file that cannot be used,
3 some corner failed, timed out or was lost: its line names the log, and the same call again runs what is missing.
"""
import argparse
import datetime
import json
import os
import sys
from collections.abc import Iterator

from lizdrog_tools.corners.ecos import EDITS
from lizdrog_tools.corners.launch import CannotLaunch
from lizdrog_tools.corners.merge import Merged, data_of, text_of
from lizdrog_tools.corners.questions import MOST_REPLAYED, endpoint_scripts, path_scripts, replay_script
from lizdrog_tools.corners.rounds import Corners, Refused, alone
from lizdrog_tools.corners.words import add_common_words, at_least_one, options_of, project_of
from lizdrog_tools.explain_fault import sentence
from lizdrog_tools.files import read_text, tool
from lizdrog_tools.read_answers import read_script

MOST_SESSIONS = 16
SHOWN = 20
DONE, BAD_INPUT, MISSING = 0, 2, 3


# ------------------------------------------------------------------------------------------------ questions and ECOs


def has_edits(text: str) -> bool:
    """Whether a script has an edit."""
    return any(command.words[0] in EDITS for command in read_script(text))


def ask(corners: Corners, texts: list[tuple[str, str]], given: argparse.Namespace) -> Merged:
    """Runs the given scripts; asks all endpoints beside them and, in further runs, the worst paths and the ECOs."""
    scripts = corners.scripts_of(texts)
    if given.endpoints or given.paths or given.ecos:
        if any(has_edits(text) for _, text in texts):
            raise Refused(
                "--endpoints, --paths and --ecos ask the design of the list, and a script here has edits: "
                "commit them first, or leave these words out"
            )
        first = corners.project.corners[0]
        added = endpoint_scripts(first, corners.ecos_of(first))
        scripts = {name: [*own, *added] for name, own in scripts.items()}
    if any(len(it) > MOST_SESSIONS for it in scripts.values()):
        raise Refused(
            f"a run has {MOST_SESSIONS} sessions at most, "
            f"and {len(texts)} scripts with the questions for all endpoints are more"
        )
    merged = corners.run("answers", scripts)
    if given.paths:
        asked = {
            name: text
            for name, text in path_scripts(corners.project, merged, given.paths, corners.ecos_of).items()
            if text
        }
        corners.run("paths", {name: [text] for name, text in asked.items()})
    if given.ecos:
        replay(corners, merged)
    return merged


def replay(corners: Corners, merged: Merged) -> None:
    """Asks before and after each ECO at the end of the list."""
    ecos = {it.name: corners.ecos_of(it) for it in corners.project.corners}
    before = max(0, len(ecos[corners.names[0]]) - MOST_REPLAYED)
    scripts = {name: [replay_script(those[before:], merged)] for name, those in ecos.items()}
    if len(ecos[corners.names[0]]) > before:
        corners.run("ecos", scripts, before)


def refusals(merged: Merged) -> Iterator[str]:
    """Which corner refuses which ECO, and why."""
    for corner in merged.there:
        for answer in corner.answers:
            if answer.row.sort == "refused":
                code, names = answer.row.words[0], " ".join(answer.row.words[1:])
                place = f"{corner.name}: line {answer.command.line}, {answer.command.text()}"
                yield f"{place}: {code} {names}: {sentence(code)}"


def commit(corners: Corners, file: str, text: str) -> tuple[Merged, int]:
    """Tries the ECOs of a script in all corners, and appends them to the list where all are accepted everywhere."""
    if corners.project.ecos is None:
        raise Refused(f'--commit: {corners.project.file} names no list of ECOs: ecos = "ecos.list"')
    commands = [it for it in read_script(text) if it.words[0] in EDITS]
    if not commands:
        raise Refused(f"--commit: {file} has no edit")
    merged = corners.run("commit", corners.scripts_of([(file, text)]))
    if len(merged.there) < len(merged.corners):
        print(
            "corners: some corner has not answered, so nothing is appended; the same call again runs what is missing",
            file=sys.stderr,
        )
        return merged, MISSING
    refused = list(refusals(merged))
    for line in refused:
        print(f"corners: refused in {line}", file=sys.stderr)
    if refused:
        print(f"corners: nothing is appended to {os.path.relpath(corners.project.ecos)}", file=sys.stderr)
        return merged, 1
    before = len(corners.ecos_of(corners.project.corners[0]))
    when = datetime.datetime.now().isoformat(" ", "minutes")
    corners.ecos.append(f"from {os.path.basename(file)}, {when}, accepted in {', '.join(corners.names)}", commands)
    are = "ECO is" if len(commands) == 1 else "ECOs are"
    print(
        f"corners: {len(commands)} {are} accepted in {', '.join(corners.names)}; "
        f"{os.path.relpath(corners.project.ecos)} has {before + len(commands)} now",
        file=sys.stderr,
    )
    return merged, merged.status()


# ------------------------------------------------------------------------------------------------ the command


def parser_of_words() -> argparse.ArgumentParser:
    """The words of the command."""
    parser = argparse.ArgumentParser(
        prog="corners",
        usage="corners FILE.toml [options] SCRIPT..",
        description=__doc__,
        formatter_class=argparse.RawDescriptionHelpFormatter,
        add_help=True,
    )
    parser.add_argument("project", metavar="FILE.toml", help=argparse.SUPPRESS)
    parser.add_argument("scripts", metavar="SCRIPT", nargs="*", help=argparse.SUPPRESS)
    parser.add_argument("--paths", type=at_least_one, default=0, help=argparse.SUPPRESS)
    for name in ("--endpoints", "--ecos", "--commit", "--all"):
        parser.add_argument(name, action="store_true", help=argparse.SUPPRESS)
    add_common_words(parser)
    return parser


def check_words(given: argparse.Namespace) -> None:
    """Refuses words that do not go together."""
    if given.commit and len(given.scripts) != 1:
        raise Refused(f"--commit takes one script, since its ECOs have one order, and here are {len(given.scripts)}")
    asks = given.endpoints or given.paths or given.ecos
    if given.commit and asks:
        raise Refused("--commit goes with neither --endpoints nor --paths nor --ecos: ask them after it")
    if not given.scripts and not asks:
        raise Refused("a script is missing, or --endpoints, or --paths N, or --ecos")


def serve(given: argparse.Namespace) -> int:
    """Does what the words ask for; gives the status."""
    check_words(given)
    project = project_of(given)
    texts = [(name, read_text(name, may_be_empty=True)) for name in given.scripts]
    with alone(project.results):
        corners = Corners(project, options_of(given, project))
        if given.commit:
            merged, status = commit(corners, *texts[0])
        else:
            merged = ask(corners, texts, given)
            status = merged.status()
    if given.json:
        json.dump(data_of(merged), sys.stdout, indent=1)
        print()
    else:
        sys.stdout.write(text_of(merged, sys.maxsize if given.all else SHOWN))
    return status


@tool("corners")
def main() -> int:
    """The command."""
    try:
        return serve(parser_of_words().parse_intermixed_args())
    except (Refused, CannotLaunch) as why:
        print(f"corners: {why}", file=sys.stderr)
        return BAD_INPUT
