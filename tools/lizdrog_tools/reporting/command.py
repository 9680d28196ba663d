"""Writes one page (HTML) of the answers of corners, or of one run, for people to look at.

  report.py FILE.toml [--results FOLDER] --out PAGE.html
      the answers that `corners FILE.toml` has kept; `corners FILE.toml --paths 10 --ecos` asks what the page shows best
  report.py SCRIPT OUTPUT [--netlist NETLIST --library LIBRARY --sdc SDC --journal SAVED] [--session N] --out PAGE.html
      one run; the documents are for cells, nets, clocks and the parts of required times

The page needs no network and no other file. It has the worst slacks, a table of corners and clocks, histograms, the
endpoints (to sort and filter), each path as a picture along the time axis with its table, and the ECOs.
Status: 0 the page is written, 2 wrong words or a file that cannot be used.
"""
import argparse
import dataclasses
import pathlib
import sys

from lizdrog_tools import convert_journal
from lizdrog_tools.corners.ecos import EcoList, ecos_of
from lizdrog_tools.corners.job import Job, Outcome, State
from lizdrog_tools.corners.merge import CornerAnswers, Merged, answers_of, read_corner
from lizdrog_tools.corners.project import Project, read_project
from lizdrog_tools.files import InputFault, parsed, read_text, tool
from lizdrog_tools.read_answers import read_output
from lizdrog_tools.reporting.drawing import STYLE
from lizdrog_tools.reporting.page import Page, Source, bar_of
from lizdrog_tools.reporting.paths import told

TEMPLATE = pathlib.Path(__file__).with_name("report.html")
BAD_INPUT = 2


class Refused(Exception):
    """Says why no page is written."""


def kept_answers(project: Project, name: str) -> list[CornerAnswers]:
    """What the corners of a project have answered in a round, as it was kept."""
    found = []
    for corner in project.corners:
        job = Job(corner.name, project.results.absolute() / name / corner.name)
        if (job.folder / "job.json").exists():
            scripts = sorted(job.folder.glob("script*.eco"), key=lambda it: int(it.stem.removeprefix("script")))
            found.append(read_corner(job, [read_text(it, may_be_empty=True) for it in scripts[: job.scripts()]]))
    return found


def of_project(file: pathlib.Path, results: pathlib.Path | None) -> Source:
    """What the corners of a project have answered."""
    project = read_project(file)
    if results:
        project = dataclasses.replace(project, results=results)
    answers, paths = kept_answers(project, "answers"), kept_answers(project, "paths")
    if not answers:
        raise Refused(f"{project.results} has no answers yet: lizdrog corners {file} --paths 10")
    ecos = EcoList.read(project.ecos)
    saved = {it: ecos_of(ecos.commands(it, project.names())) for it in project.names()}
    for corner in [it for it in answers if it.is_there()]:
        if corner.output.first != len(saved[corner.name]):
            raise Refused(f"the list of ECOs has changed since corner {corner.name} answered: call corners again")
    # Paths that were asked of an earlier list or of other documents end otherwise than the answers.
    finals = {it.name: it.output.final for it in answers if it.is_there()}
    paths = [it for it in paths if it.is_there() and it.output.final == finals.get(it.name)]
    return Source(
        file.name,
        Merged(answers),
        [it for it in answers if it.is_there()] + paths,
        project.corners[0].netlist,
        {it.name: it.late for it in project.corners},
        {it.name: it.sdc for it in project.corners},
        saved,
        [it for it in kept_answers(project, "ecos") if it.is_there()],
    )


def of_run(given: argparse.Namespace) -> Source:
    """What one run has answered."""
    script, file = given.words
    output = read_output(file)
    session = given.session or 1
    if given.session is None and len(output.sessions) > 1:
        raise Refused(f"{file} has {len(output.sessions)} sessions: --session N says whose script {script} is, from 1")
    if output.final is None or not 1 <= session <= len(output.sessions):
        raise InputFault(file, None, f"this is no whole output of a run with a session {session}")
    answers = answers_of(read_text(script, may_be_empty=True), output.sessions[session - 1], session)
    if answers is None:
        raise InputFault(file, None, f"its rows do not answer {script}")
    name = pathlib.Path(file).stem
    corner = CornerAnswers(Job(name, pathlib.Path(file).parent), Outcome(State.DONE, 0), answers, output)
    saved = parsed(given.journal, convert_journal.read_journal, may_be_empty=True) if given.journal else {}
    if output.first and any(number not in saved for number in range(1, output.first + 1)):
        raise Refused(f"{file} goes on from {output.first} saved entries: --journal names the journal that has them")
    before = [saved[number] for number in range(1, output.first + 1)]
    has_documents = given.netlist and given.library
    return Source(
        pathlib.Path(file).name,
        Merged([corner]),
        [corner],
        given.netlist if has_documents else None,
        {name: given.library} if has_documents else {},
        {name: given.sdc} if given.sdc else {},
        {name: before},
    )


def page_text(page: Page) -> str:
    """The page as HTML."""
    try:
        import jinja2
    except ImportError as why:
        raise Refused("the page is made by Jinja2, which is not installed: apt-get install python3-jinja2") from why
    engine = jinja2.Environment(autoescape=True, trim_blocks=True, undefined=jinja2.StrictUndefined)
    template = engine.from_string(TEMPLATE.read_text(encoding="utf-8"))
    return template.render(page=page, style=STYLE, ps=told, bar=bar_of)


def parser_of_words() -> argparse.ArgumentParser:
    """The words of the command."""
    parser = argparse.ArgumentParser(
        prog="report",
        usage="report FILE.toml --out PAGE.html, or report SCRIPT OUTPUT [options] --out PAGE.html",
        description=__doc__,
        formatter_class=argparse.RawDescriptionHelpFormatter,
    )
    parser.add_argument("words", nargs="+", help=argparse.SUPPRESS)
    for name in ("--netlist", "--library", "--sdc", "--journal", "--results", "--out"):
        parser.add_argument(name, type=pathlib.Path, help=argparse.SUPPRESS, required=name == "--out")
    parser.add_argument("--session", type=int, help=argparse.SUPPRESS)
    return parser


@tool("report")
def main() -> int:
    """The command."""
    given = parser_of_words().parse_intermixed_args()
    try:
        if len(given.words) > 2:
            raise Refused(
                f"a project, or a script and its output, are asked for, and here are {len(given.words)} words"
            )
        source = of_project(pathlib.Path(given.words[0]), given.results) if len(given.words) == 1 else of_run(given)
        text = page_text(Page(source))
    except Refused as why:
        print(f"report: {why}", file=sys.stderr)
        return BAD_INPUT
    given.out.write_text(text, encoding="utf-8")
    return 0
