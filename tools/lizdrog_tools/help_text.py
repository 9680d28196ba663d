"""What `lizdrog` says of itself: its words, and the commands of scripts with an example of each."""

USAGE = """Lizdrog, a static timing server.

  lizdrog [--proved] run [--journal NAME] EARLY LATE NETLIST SDC SPEF WORKERS SCRIPT [SCRIPT ..]
  lizdrog [--proved] run [--journal NAME] FILE.toml [WORKERS] SCRIPT [SCRIPT ..]
      EARLY, LATE  two libraries (Liberty), or one of them twice   NETLIST  a module of gates (Verilog)
      SDC          constraints                                     SPEF     parasitics, or the word none
      WORKERS      1 to 32 threads                                 SCRIPT   1 to 16 files of questions and edits
      NAME         the journals of earlier runs, one after the other: the run goes on from their edits
      FILE.toml    a file that names the five documents: early, late, netlist, sdc, spef
  lizdrog import [-o FOLDER] PROJECT.toml   writes these documents of what tools write (Tcl, hierarchy, .gz)
  lizdrog live [--journal NAME] EARLY LATE NETLIST SDC SPEF WORKERS [IN OUT ..]    answers each line at once
  lizdrog generate NUMBER GATES EDITS   draws a design of GATES gates and runs four sessions with EDITS resizes on it
  lizdrog test       tries this clone: examples, tools, and the program against a plain timer
  lizdrog --build    builds the program without proof, in minutes (`rt ci` proves it and builds it, in hours)
  lizdrog --version  says which program would run, and whether it is proved    --help   prints this, and the commands"""
MORE = """  lizdrog install PREFIX   copies the program that would run, to run without a clone
  lizdrog serve DESIGN.. --listen unix:PATH, connect PATH   a live server that several people attach to
  lizdrog corners | report | summary FILE.toml ..   several corners of a design, a page of their answers, sums
      each of these five has --help
  --proved           refuses to run a program that is not proved    --program FILE   runs this program, whatever it is

Status: 0 all rows are answers. 1 some row is refused, no or not yet, or some line of `live` is wrong. 2 wrong words.
3 a document or the design has a fault, or a saved edit is refused. 4 a document cannot be fetched. 5 the output or a
journal cannot be written. 6 no memory. 70 there is no program to run: the command says why. docs/FAULTS.md explains
the codes."""

# The words of each command of a script, an example, and what it asks or does. docs/SCRIPTS.md says all of it.
QUESTIONS = [
    ("report_slew PIN SPLIT EDGE", "report_slew r2:D late rise", "the transition time at a pin"),
    ("report_at PIN SPLIT EDGE", "report_at r2:D late rise", "the arrivals at a pin"),
    ("report_rat PIN SPLIT EDGE", "report_rat r2:D late rise", "the required times at a pin"),
    ("report_slack PIN SPLIT EDGE", "report_slack r2:D early fall",
     "the graph slack of a pin, without credit and exceptions"),
    ("report_endpoint PIN KIND", "report_endpoint r2:D setup", "the slack of an endpoint, with credit and exceptions"),
    ("report_path PIN KIND", "report_path r2:D setup", "the worst path to an endpoint"),
    ("report_through PIN KIND PIN ..", "report_through r2:D setup g1:A",
     "the worst path that passes these pins in order"),
    ("report_paths PIN KIND K", "report_paths r2:D setup 3", "the K worst paths to an endpoint"),
    ("report_wns KIND", "report_wns setup", "the worst slack of all endpoints"),
    ("report_tns KIND", "report_tns hold", "the sum of the negative slacks"),
    ("report_worst KIND N", "report_worst setup 10", "the N endpoints of least slack"),
]
# docs/QUESTIONS.md says all of these.
CLOSING = [
    ("report_net NET", "report_net n2", "a net: its driver, load, parasitics and sinks"),
    ("report_instance INSTANCE", "report_instance g1", "an instance: what each pin is joined to"),
    ("report_sizes INSTANCE", "report_sizes g1", "the cells to which an instance may be resized"),
    ("report_timing PIN KIND", "report_timing r2:D setup", "the worst path stage by stage, and its required time"),
    ("report_timing_through PIN KIND PIN ..", "report_timing_through r2:D setup g1:A",
     "the same for the worst path through pins"),
    ("report_worst_paths KIND K", "report_worst_paths setup 3", "the K worst paths of all endpoints, one of each"),
    ("report_worst_paths KIND K each M", "report_worst_paths setup 3 each 2", "the same with M of each at most"),
    ("report_failing KIND", "report_failing setup", "the endpoints of negative slack"),
    ("report_summary KIND", "report_summary setup", "worst and total slack by capture clock"),
    ("report_skew", "report_skew", "the skew of each launch edge"),
    ("advise_tns KIND INSTANCE CELL ..", "advise_tns setup g1 BUF_X4 g2 AND2", "the best resizes by total negative slack"),
    ("advise_sizes KIND AIM INSTANCE ..", "advise_sizes setup tns g1 g2", "the best of all sizes of instances, by wns or tns"),
]
EDITS = [
    ("repower_gate INSTANCE CELL", "repower_gate g1 BUF_X4", "another cell for an instance"),
    ("insert_gate INSTANCE CELL", "insert_gate g9 BUF_X2", "a new instance, all its pins open"),
    ("remove_gate INSTANCE", "remove_gate g9", "takes an instance away that has no net"),
    ("insert_net NET", "insert_net n9", "a new net"),
    ("remove_net NET", "remove_net n9", "takes a net away that has no pin"),
    ("connect_pin PIN NET", "connect_pin g9:A n9", "a pin joins a net"),
    ("disconnect_pin PIN", "disconnect_pin g9:A", "a pin leaves its net"),
    ("insert_buffer NET INSTANCE NEW CELL PIN ..", "insert_buffer n2 b1 n3 BUF_X2 r2:D",
     "a buffer, with these sinks on the net NEW"),
    ("set_parasitics NET none", "set_parasitics n2 none", "a net without parasitics"),
    ("set_parasitics NET c NODE AF .. r NODE NODE MO ..", "set_parasitics n2 c #1 2500",
     "a net's capacitances and resistors"),
    ("begin_eco .. commit_eco", "begin_eco / remove_gate b1 / remove_net n3 / commit_eco",
     "edits as one ECO, a line each"),
]
OTHERS = [
    ("begin_what_if .. end_what_if", "begin_what_if / repower_gate g1 BUF_X4 / report_wns setup / end_what_if",
     "edits and questions that leave no trace"),
    ("drop_last", "drop_last", "in a draft: takes the last edit back"),
    ("advise KIND INSTANCE CELL ..", "advise setup g1 BUF_X4 g2 BUF_X4", "which of these resizes helps most"),
    ("take", "take", "holds the newest design"),
    ("await N LOOKS", "await 5 1000", "looks until there is the design N"),
]
WORDS = """PIN is instance:pin or a port, SPLIT early or late, EDGE rise or fall, KIND setup or hold.
` / ` ends a line of an example."""
GENERATE = """  lizdrog generate NUMBER GATES EDITS
      NUMBER  below 2^64: the same number draws the same design and edits
      GATES   a multiple of 4 from 4 to 40,000, in four lanes
      EDITS   a multiple of 4 up to 4,000, for four sessions

It prints one line: how many gates and edits there were, how many edits the design accepted, and worst and total
negative slack of setup and hold after them. For example `lizdrog generate 7 400 40`."""
LIVE = """  lizdrog [--proved] live [--journal NAME] EARLY LATE NETLIST SDC SPEF WORKERS [IN OUT ..]
  lizdrog [--proved] live [--journal NAME] FILE.toml [WORKERS] [IN OUT ..]

It reads the documents once, answers each line before it reads the next, and ends with its input. It says nothing
before the first answer; it answers `take` at once. Rows are those of `run`. It answers a wrong line by
`error CODE LINE`, and the session goes on.

      IN OUT   1 to 16 pairs of FIFOs or files, each a session; without a pair there is one, on standard input and
               output
      NAME     a journal, which an empty file begins (: >NAME); each accepted ECO is there, on disk, before anybody
               hears of it

Status: as for `run`. 1 is also some error; 4 also an IN that cannot be read; 5 also an OUT that cannot be written, and
a journal that cannot be written or that another server holds. `lizdrog serve` and `lizdrog connect` are for people: a
prompt with history and names. docs/LIVE.md walks through it."""
INSTALL = """  lizdrog install PREFIX

It copies the program that would run, the tools, the pages and the examples to PREFIX/lib/lizdrog, and puts
PREFIX/bin/lizdrog there. For example `lizdrog install ~/.local`. The copy needs Python 3.11 and bash, no toolchain and
no clone."""
IMPORT = """  lizdrog import [-o FOLDER] PROJECT.toml

It reads what synthesis and layout tools write, as PROJECT.toml names it. It writes a folder with early.lib, late.lib,
netlist.v, constraints.sdc, parasitics.spef and a lizdrog.toml for `lizdrog run`. import.txt and import.json there say
what it changed or left out.

Status: 0 all is expressed. 1 something is left out that the project accepts. 2 an input is wrong, or slacks would
change: it writes no folder. docs/IMPORT.md explains the project file, and what is expressed how."""
TEST = """  lizdrog test [--proved] [--quick]

It builds the program without proof where there is none. Then it tries the examples, the tools, and 200 random scripts
against a plain timer, within ten minutes on two processors. Its last line is `N passed, M failed`.

  --proved   takes the program that the gate proved, and runs the rows that the gate built
  --quick    takes 20 scripts"""


def table(title: str, rows: list[tuple[str, str, str]]) -> str:
    """The rows of some commands: each what it is for, its words, and an example."""
    lines = [f"{title}:"]
    for words, example, what in rows:
        lines += [f"  {words:52} {what}"] + ([f"      {example}"] if example != words else [])
    return "\n".join(lines)


def script_commands() -> str:
    """The commands of scripts."""
    rows = [("Questions of a script", QUESTIONS), ("Questions for closing timing", CLOSING), ("Edits", EDITS), ("Drafts, advice and sessions", OTHERS)]
    tables = [table(*it) for it in rows]
    return "\n\n".join([*tables, f"{WORDS}\nAnswers, ranges and rules: docs/SCRIPTS.md and docs/QUESTIONS.md."])


def of(command: str) -> str:
    """The help for a command, or for all."""
    if command == "run":
        return f"{USAGE.split('  lizdrog import')[0].rstrip()}\n\n{script_commands()}"
    if command == "live":
        return f"{LIVE}\n\n{script_commands()}"
    known = {"generate": GENERATE, "import": IMPORT, "install": INSTALL, "test": TEST}
    return known.get(command) or f"{USAGE}\n{MORE}\n\n{script_commands()}"
