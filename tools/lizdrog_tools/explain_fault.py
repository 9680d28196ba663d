"""Says where a refused document is at fault and why: explain_fault.py STATUS OUTPUT run [--journal NAME] EARLY LATE
NETLIST SDC SPEF WORKERS SCRIPT [SCRIPT ..]

STATUS is the exit status of the run, OUTPUT the file with what it wrote, and the words are those of the run. It prints
FILE:LINE:COLUMN: CODE: the sentence of docs/FAULTS.md, the line with a caret, and what it finds of the cause.
`./lizdrog` does this by itself after a run that ends with 2 to 6.
"""
import os
import re
import stat
import sys

from lizdrog_tools import refused_parasitics
from lizdrog_tools.command_line import without_journal
from lizdrog_tools.files import line_and_column, raw_text, tool
from lizdrog_tools.kinds import misplaced
from lizdrog_tools.liberty import Group, Library, liberty_tokens, read_groups
from lizdrog_tools.sdc import pin_word, read_commands
from lizdrog_tools.spef import SPEF_VALUE, Spef
from lizdrog_tools.verilog import Joined, Netlist
from lizdrog_tools.places import DOCS

FAULTS = DOCS / "FAULTS.md"
ROLES = {"early": 1, "late": 2, "netlist": 3, "sdc": 4, "spef": 5}
WIDTH = 150
ORDER = "EARLY LATE NETLIST SDC SPEF WORKERS SCRIPT.."


def rows_of_faults():
    """The cells behind each code in docs/FAULTS.md."""
    try:
        text = FAULTS.read_text()
    except OSError:
        return {}
    return {
        code: [it.strip() for it in row.split("|")] for code, row in re.findall(r"^\| ([A-Z]\d+) \|(.*)\|$", text, re.M)
    }


def sentence(code):
    """The first sentence of a code."""
    cells = rows_of_faults().get(code, ["docs/FAULTS.md has this code"])
    return cells[1 if len(cells) == 3 else 0].split(". ")[0]


def usual_causes(code):
    """What the page says of the usual causes of a code, in no line or one."""
    cells = rows_of_faults().get(code, [])
    return [f"usual causes: {cells[2]}"] if len(cells) == 3 and cells[2] else []


def can_be_read_again(name):
    try:
        return stat.S_ISREG(os.stat(name).st_mode)
    except OSError:
        return False


def shown(line):
    """A line as it can be printed."""
    return "".join(it if " " <= it <= "~" else " " if it == "\t" else "?" for it in line)


def caret(line, column):
    """The line, cut around the column where it is long, and a caret below that column."""
    before, behind = 0, len(line)
    if len(line) > WIDTH:
        before = max(0, min(column - 1 - WIDTH // 2, len(line) - WIDTH))
        behind = before + WIDTH
    head, tail = ".. " if before else "", " .." if behind < len(line) else ""
    return [f"  {head}{shown(line[before:behind])}{tail}", "  " + " " * (len(head) + column - 1 - before) + "^"]


# ------------------------------------------------------------------------------------------------ a document's fault

ANEW = [
    "to go on under the derates of today, run its script (tools/convert_journal.py) once, with --journal and an empty"
    " file"
]


def explain_document(role, code, place, words, journal=None):
    at = ROLES.get(role) or (6 + int(role[6:]) if role.startswith("script") else None)
    name = words[at] if at and at < len(words) else journal if role == "journal" and journal else role
    if not can_be_read_again(name):
        where = "line" if role.startswith("script") else "byte"
        return [
            f"{name}: {where} {place}: {code}: {sentence(code)}",
            f"  ({name} is no file that can be read again, so its line is not shown)",
        ]
    text = raw_text(name)
    if role.startswith("script"):
        line, column = place, 1
    else:
        line, column = line_and_column(text, place)
    lines = text.split("\n")
    told = [f"{name}:{line}:{column}: {code}: {sentence(code)}"]
    if line <= len(lines) and text:
        told += caret(lines[line - 1], column)
    ends = (
        [f"  the text ends here, at byte {place}"] if not role.startswith("script") and place >= len(text) > 0 else []
    )
    return told + ends + hints(role, code, place, text, lines[line - 1] if line <= len(lines) else "")


def hints(role, code, place, text, line):
    """What is seen of the cause, one line each."""
    if not text:
        return ["  the file is empty"]
    if text.startswith("\x1f\x8b"):
        return ["  the file is compressed (gzip), which is not read: in bash, give <(zcat FILE) in its place"]
    if text.startswith("\xef\xbb\xbf"):
        return ["  the file begins with a byte order mark, which is not read: take its first three bytes away"]
    if text.startswith(("\xff\xfe", "\xfe\xff")):
        return ["  the file is UTF-16, which is not read: iconv -f UTF-16 -t ASCII FILE"]
    kind = misplaced(text, role.rstrip("0123456789"))
    if kind:
        return [f"  the file looks like {kind}, and is in the place of {role}: the order is run {ORDER}"]
    if role.startswith("script"):
        return [f"  {it}" for it in script_hints(code, line, text.split("\n")[:place - 1])]
    if role == "sdc":
        return [f"  {it}" for it in sdc_hints(code, text, place)]
    if role == "journal":
        return [
            f"  {it}"
            for it in journal_hints(code, line, text[place:].split("\n", 2)[1] if "\n" in text[place:] else "")
        ]
    if code in ("L6", "L8"):
        return [f"  {it}" for it in (table_hints if code == "L6" else axis_hints)(text, place)]
    if code == "L1" and place >= len(text):
        return [f"  {it}" for it in bracket_hints(text)]
    if code == "L2" and has_ended(text[:place]):
        return ["  the library's own group ends before this place: there is a closing bracket too many before it"]
    if role == "netlist":
        return [f"  {it}" for it in netlist_hints(code, text, place)]
    if code in ("P1", "P4"):
        return [f"  {it}" for it in row_hints(text, place)]
    return []


def journal_hints(code, line, behind):
    """What is seen of the cause where a saved journal is refused at a line with another behind it."""
    if code == "J5" and line.startswith("journal 1 "):
        return ["a block of a run without --journal keeps no derates, and counts as written without any", *ANEW]
    if code == "J5":
        return [
            (
                f"the block was written under `{shown(behind)[:WIDTH]}`, in millionths: early and late cells, early and"
                " late nets"
            ),
            *ANEW,
        ]
    if code == "J1" and line.startswith(("session ", "final ")):
        return [
            "here the rows of an output begin: a saved journal has the lines before them, sed '/^session 1 rows /,$d'"
            " OUTPUT"
        ]
    if code == "J1" and line.startswith("journal "):
        return [
            "the number after the form counts the entries before the block: a block is missing, comes twice, or is of"
            " form 1 after entries"
        ]
    return []


FLAT = "flatten the design into one module first (yosys: synth -flatten)"
UNREAD = {
    "assign": (
        "take assign out, such as by opt_clean -purge and insbuf of yosys (examples/README.md, \"A design of your"
        " own\")"
    ),
    "module": FLAT,
    "{": "a concatenation: name each bit at a pin of its own",
    "#": FLAT,
    "inout": "a port is an input or an output",
    "supply0": "a pin is tied by 1'b0",
    "supply1": "a pin is tied by 1'b1",
    "(": "connections are by name: .PIN(net)",
}


def netlist_hints(code, text, place):
    """What is seen of the cause of V1 and V2."""
    if code == "V1" and place >= len(text):
        return ["the module is not ended: an endmodule, or a ; or ) before it, is missing"]
    if code == "V1":
        return ["the fault may be before it: a ; or a ) that is missing, or the blank that ends an escaped name"]
    word = (re.match(r"\w+|.", text[place:], re.S) or [""])[0]
    return [UNREAD[word]] if code == "V2" and word in UNREAD else []


def row_hints(text, place):
    """What is wrong with the units, whether an *END is missing, or whether the row of a SPEF before the fault ends with
    a word that is no number."""
    line = text[text.rfind("\n", 0, place) + 1:].split("\n")[0]
    if line.lstrip().startswith(("*C_UNIT", "*R_UNIT")):
        return ["*C_UNIT is in PF or FF and *R_UNIT in OHM or KOHM, in capitals, after a power of ten"]
    if line.lstrip().startswith("*D_NET") or place >= len(text):
        return ["the *END of the net before it may be missing"] if "*D_NET" in text[:place] else []
    lines = text[:place].split("\n")
    before = lines[-2].split() if len(lines) > 1 else []
    if before and before[0].isdigit() and not SPEF_VALUE.fullmatch(before[-1]):
        return [
            f"the row before ends with {before[-1]}, which is no number and was taken for a node, so that its value was"
            " looked for here"
        ]
    return []


def has_ended(text):
    """Whether the outermost group of a library has begun and ended in this part of the text."""
    marks = [mark for sort, mark, _ in liberty_tokens(text) if sort == "mark" and mark in "{}"]
    return bool(marks) and marks.count("{") <= marks.count("}")


def bracket_hints(text):
    """Where a closing bracket of a library is missing: the first cell inside another, or pin inside another."""
    for group in groups_of(read_groups(text)):
        for inner in group.groups:
            if group.name in ("cell", "pin", "timing") and inner.name in ("cell", group.name):
                (line, _), (other, _) = (line_and_column(text, it.offset) for it in (group, inner))
                outer, begun = (f"{it.name} ({' '.join(it.args)})" for it in (group, inner))
                return [
                    f"a closing bracket is missing: {outer} of line {line} goes on at line {other}, where"
                    f" {begun} begins"
                ]
    return []


PINS = {"report_slew", "report_at", "report_rat", "report_slack"}
KIND_WORDS = {
    "report_wns": 1,
    "report_tns": 1,
    "report_endpoint": 2,
    "report_path": 2,
    "report_worst": 2,
    "report_paths": 3,
    "report_timing": 2,
    "report_failing": 1,
    "report_summary": 1,
}
NAMED = {"report_net": 1, "report_instance": 1, "report_sizes": 1, "report_skew": 0}
THROUGH = ("report_through", "report_timing_through")
CLOSING = ("report_net", "report_instance", "report_sizes", "report_timing", "report_timing_through", "report_worst_paths",
           "report_failing", "report_summary", "report_skew", "advise_tns", "advise_sizes")
BEHIND_PIN = ("report_endpoint", "report_path", "report_paths", "report_timing", *THROUGH)
COUNTED = ("report_worst", "report_paths")
ADVICE = ("advise", "advise_tns")
KINDS = ("setup", "hold")
MOST_PINS, MOST_PAIRS, MOST_TRIALS = 16, 100, 100
EDITS = {
    "repower_gate": 2,
    "insert_gate": 2,
    "remove_gate": 1,
    "insert_net": 1,
    "remove_net": 1,
    "connect_pin": 2,
    "disconnect_pin": 1,
}
DRAFTS = ("begin_what_if", "end_what_if", "drop_last")
NOT_IN_DRAFTS = ("take", "await")
OTHERS = {"take": 0, "await": 2, "begin_eco": 0, "commit_eco": 0, **{it: 0 for it in DRAFTS}}
# How many words each command takes that takes a fixed number.
COUNTS = {**{it: 3 for it in PINS}, **KIND_WORDS, **NAMED, **EDITS, **OTHERS}
LONGEST_LINE = 65536


def what_is_open(lines):
    """Whether a draft and a group of edits are open behind these lines, and how many trials of the draft are before."""
    is_draft, is_group, trials = False, False, 0
    for line in lines:
        name = (line.split() or ["#"])[0]
        if name.startswith("#"):
            continue
        trials += is_draft and not is_group
        if name == "begin_what_if":
            is_draft, trials = True, 0
        is_draft = is_draft and name != "end_what_if"
        is_group = is_group and name != "commit_eco" or name == "begin_eco"
    return is_draft, is_group, trials


def draft_hints(name, is_draft, is_group):
    """Why a command may not stand in a draft, or outside of one."""
    if is_draft and is_group and name in DRAFTS:
        return [f"{name} is in a group of edits: end the group before it, with commit_eco"]
    if is_draft and name in (*NOT_IN_DRAFTS, "begin_what_if"):
        return [f"{name} may not be in a draft, which has edits, groups of edits, drop_last, questions and advice"]
    if name == "begin_what_if":
        return [
            f"a draft has 1 to {MOST_TRIALS} trials and its end, and so has each group in it: begin_what_if, trials,"
            " end_what_if"
        ]
    return [f"{name} may only be in a draft: begin_what_if, trials, end_what_if"] if name in DRAFTS else []


def mark_hints(name, words, line):
    """Marks that no line of a script may have."""
    if "\r" in line:
        return ["the line ends with CR LF; lines of a script end with a line feed alone: tr -d '\\r' <SCRIPT"]
    if any(it > "~" for it in line):
        return ["the line has a byte above 127: a script is ASCII, comments too"]
    if any(it.startswith("#") and not (name == "set_parasitics" and it[1:].isdigit()) for it in words[1:]):
        return ["write a comment in a line of its own: after a command # begins none"]
    return ["a line has one command: ; ends none"] if any(it.endswith(";") for it in words) else []


def is_worst_paths(words):
    """Whether these are the words behind report_worst_paths."""
    found = re.fullmatch(r"(?:setup|hold) ([0-9]+)(?: each ([0-9]+))?", " ".join(words))
    return bool(found) and 1 <= int(found[2] or 1) <= int(found[1]) <= 100


def word_hints(name, words):
    """Words of a command that are too many or too few, or that it does not take in their place."""
    if name in COUNTS and len(words) - 1 != COUNTS[name]:
        here = "is 1" if len(words) == 2 else f"are {len(words) - 1}"
        several = "" if COUNTS[name] == 1 else "s"
        page = "QUESTIONS" if name in CLOSING else "SCRIPTS"
        return [f"{name} takes {COUNTS[name]} word{several}, and here {here}: see docs/{page}.md"]
    if name in PINS and (words[2] not in ("early", "late") or words[3] not in ("rise", "fall")):
        return [f"{name} takes a pin, then early or late, then rise or fall"]
    if name in THROUGH and not 1 <= len(words) - 3 <= MOST_PINS:
        return [f"{name} takes a pin, then setup or hold, then 1 to {MOST_PINS} pins that the path passes"]
    if name == "report_worst_paths" and not is_worst_paths(words[1:]):
        return ["report_worst_paths takes setup or hold, a number K from 1 to 100, and perhaps each and a number from 1 "
                "to K"]
    has_kind = name in KIND_WORDS or name in THROUGH
    if has_kind and words[2 if name in BEHIND_PIN else 1] not in KINDS:
        return [f"{name} takes setup or hold, in small letters, in this place"]
    is_even, is_short = len(words) % 2 == 0, 4 <= len(words) <= 2 + 2 * MOST_PAIRS
    if name in ADVICE and not (is_even and is_short and words[1] in KINDS):
        return [f"{name} takes setup or hold, then 1 to {MOST_PAIRS} pairs of an instance and a cell"]
    if name == "advise_sizes" and not (len(words) >= 4 and words[1] in KINDS and words[2] in ("wns", "tns")):
        return ["advise_sizes takes setup or hold, then wns or tns, then instances, at least one"]
    if name in COUNTED and not (words[-1].isdigit() and 1 <= int(words[-1]) <= 100):
        return [f"{name} takes a number from 1 to 100"]
    if name == "await" and not (words[2].isdigit() and 1 <= int(words[2]) <= 1000):
        return ["await takes a number of a design, then a number of looks from 1 to 1000"]
    return []


def command_hints(name):
    """What a command is, where nothing else is known to be wrong."""
    if name in ("begin_eco", "commit_eco"):
        return ["a group has edits alone, at least one, and its end: begin_eco, edits, commit_eco"]
    if name in ("journal", "entry", "session", "final"):
        return ["this is the output of a run, not a script: tools/convert_journal.py makes a script of its journal"]
    if name == "set_parasitics":
        return ["set_parasitics takes a net, and then none, or items `c NODE AF` and `r NODE NODE MO`: AF and MO are "
                "whole numbers up to 10^12"]
    if name == "insert_buffer":
        return ["insert_buffer takes a net, a new instance, a new net, a cell, and the sinks that move, at least one"]
    if name in COUNTS or name in (*THROUGH, *ADVICE, "report_worst_paths", "advise_sizes"):
        return [f"the words of {name} do not fit, or it stands between begin_eco and commit_eco, where no question may: "
                f"see docs/{'QUESTIONS' if name in CLOSING else 'SCRIPTS'}.md"]
    return [f"there is no command {name[:60]}: docs/SCRIPTS.md has all"] if name else []


def script_hints(code, line, before):
    """Why a line of a script is no command, where that can be seen in the line and those before it."""
    words = line.split()
    name = words[0] if words else ""
    is_draft, is_group, trials = what_is_open(before)
    if code == "C2":
        if len(line) > LONGEST_LINE:
            return [f"this line has {len(line)} bytes"]
        most = f"{MOST_TRIALS} trials of the draft are before it, and a draft has at most {MOST_TRIALS}"
        return [most] if is_draft and trials >= MOST_TRIALS else []
    return (mark_hints(name, words, line) or word_hints(name, words) or draft_hints(name, is_draft, is_group)
            or command_hints(name))


INSTEAD = {
    "set_clock_groups": (
        "there are no clock groups: write set_false_path -from [get_clocks A] -to [get_clocks B], and the reverse"
    ),
    "set_driving_cell": "give the port a slew by set_input_transition, and what the cell delays by set_input_delay",
    "set_clock_latency": "clocks are propagated always, so that there is no latency of an ideal network",
    "set_clock_transition": "clocks are propagated always: set_input_transition gives the clock's port its slew",
    "create_generated_clock": (
        "there are no generated clocks: registers after a divider are not tested (docs/DIFFERENCES.md)"
    ),
    "all_inputs": "name the ports: [get_ports {a b}]",
    "all_outputs": "name the ports: [get_ports {a b}]",
    "all_clocks": "name the clocks: [get_clocks {a b}]",
    "all_registers": "name the instances: [get_cells {a b}]",
    "-through": "an exception names its paths by -from and -to alone",
    "-add_delay": "a port has one clock for each split and transition",
}
DELAY = "a delay needs -clock"
SDC_PAGES = "docs/INPUT.md has what is read of SDC; tools/check_setup.py lists all lines that are not, in one run"
FORMS = {"set_input_delay": DELAY, "set_output_delay": DELAY,
         "create_clock": "a clock has one port or none, and no other clock has its name or its port"}


def sdc_hints(code, text, place):
    word = re.match(r"[^\s;]*", text[place:]).group()
    line = text[text.rfind("\n", 0, place) + 1:].split("\n")[0]
    if code in ("S1", "S3") and (
        "$" in line or "[expr" in line or re.match(r"\s*(set\s|if\b|foreach\b|proc\b|source\b)", line)
    ):
        return [
            "Tcl is not run: no variables, [expr ..] or control. Write the values, or have the tool that wrote the file"
            " write them (write_sdc)"
        ]
    if code == "S2" and re.match(r"(puts|if|foreach|for|while|proc|source|expr|lappend|global)$", word):
        return ["Tcl is not run: this is a command of Tcl"]
    plain = word.strip("[]{}")
    if code in ("S2", "S3") and plain in INSTEAD:
        return [INSTEAD[plain], SDC_PAGES]
    if code == "S3" and ("*" in word or "?" in word):
        return ["there are no patterns: name each object"]
    if code == "S3" and word in FORMS:
        return [FORMS[word]]
    if code == "S5":
        before = [
            it.after("-name") or it.words[-1]
            for it in read_commands(text[:place])
            if it.name == "create_clock" and it.words
        ]
        names = [name for word in before for name in word.names[:1]]
        return [f"the clocks before this place: {', '.join(names[:8]) or 'none'}"
                + (' (a " is a part of a name, not around it)' if any('"' in it for it in names) else "")]
    return [SDC_PAGES] if code in ("S1", "S2", "S3") else []


VARIABLES = {
    "input_net_transition",
    "total_output_net_capacitance",
    "related_pin_transition",
    "constrained_pin_transition",
}
MOST_ENTRIES = 64


def index_hints(group, template):
    """What is wrong with the axes of a table, and how many values they ask for."""
    asked, told = 1, []
    for number in (1, 2, 3):
        variable = template.simple.get(f"variable_{number}")
        if variable is None:
            continue
        if number == 3 or variable not in VARIABLES:
            told.append(f"its template has the variable_{number} {variable}, which is not read")
        words = group.complex.get(f"index_{number}") or template.complex.get(f"index_{number}") or []
        found = split_numbers(words)
        told += number_hints(f"index_{number}", found)
        if not found or len(found) > MOST_ENTRIES:
            told.append(f"index_{number} has {len(found)} entries, and 1 to {MOST_ENTRIES} are read")
        asked *= len(found)
    return told, asked


def split_numbers(words):
    return [it for word in words for it in re.split(r"[,\s]+", word) if it]


def number_hints(name, words):
    """Words of a list of numbers that are none, or that no document may have."""
    for word in words:
        if not re.fullmatch(r"[-+]?(\d+\.?\d*|\.\d+)([eE][-+]?\d+)?", word):
            return [f"in {name} the word `{word}` is no number"]
        if sum(it.isdigit() for it in re.split("[eE]", word)[0]) > 30 or abs(float(word)) > 1e12:
            return [f"in {name} the number {word} is out of range"]
    return []


def table_hints(text, place):
    """What is wrong with a table of a library."""
    root = read_groups(text)
    group = next((it for it in groups_of(root) if it.offset == place), None)
    if group is None:
        return []
    name = group.args[0] if group.args else "scalar"
    template = next((it for it in root.named("lu_table_template") if name in it.args), Group("", [], 0))
    told, asked = index_hints(group, template)
    values = split_numbers(group.complex.get("values", []))
    told += number_hints("values", values)
    if len(values) != asked and not told:
        told.append(f"the table has {len(values)} values, and its template {name} with the indexes asks for {asked}")
    return told or [
        f"the variables of its template {name} are not those of such a table, or a number is out of range in its unit"
    ]


def axis_hints(text, place):
    """Which index of a table does not rise, and whether it is the template's."""
    root = read_groups(text)
    group = next((it for it in groups_of(root) if it.offset == place), None)
    name = group.args[0] if group and group.args else ""
    template = next((it for it in root.named("lu_table_template") if name in it.args), group)
    for index in ("index_1", "index_2") if group else ():
        owner = group if index in group.complex else template
        entries = [float(it) for it in split_numbers(owner.complex.get(index, [])) if not number_hints(index, [it])]
        if any(one >= other for one, other in zip(entries, entries[1:])):
            whose = (
                ""
                if owner is group and group is not template
                else f" of the template {name}, line {line_and_column(text, template.offset)[0]},"
            )
            return [
                f"{index}{whose} is {', '.join(f'{it:g}' for it in entries[:8])}{' ..' if len(entries) > 8 else ''}"
            ]
    return []


def groups_of(group):
    yield group
    for inner in group.groups:
        yield from groups_of(inner)


# ------------------------------------------------------------------------------------------------ a design's fault

def library_of(words, at):
    return Library(raw_text(words[at]))


def explain_cell(cell, words):
    """E3: what the libraries say of a cell, and an instance of it."""
    told, libraries = [], {}
    for role, at in (("early", 1), ("late", 2)):
        library = libraries[role] = library_of(words, at)
        if cell in library.left_out:
            told.append(
                f"{words[at]}, the {role} library, has {cell}, which is passed over: {library.left_out[cell].left_out}"
            )
        elif cell not in library.cells:
            told.append(f"{words[at]}, the {role} library, has no cell {cell}")
    pair = [libraries[it].cells.get(cell) for it in ("early", "late")]
    if all(pair):
        told += differences(*pair)
    netlist = Netlist(raw_text(words[3]))
    users = [it for it in netlist.instances.values() if it.cell == cell]
    if users:
        told.append(f"{len(users)} instance{'s are' if len(users) > 1 else ' is'} of this cell, first {users[0].name}")
    return told


def differences(early, late):
    """What one of two cells has and the other lacks."""
    told = []
    for what, one in early.parts().items():
        other = late.parts()[what]
        for here, there, only in (("early", "late", one - other), ("late", "early", other - one)):
            if only:
                some = ", ".join(" ".join(it) for it in sorted(only)[:3]) + (" .." if len(only) > 3 else "")
                told.append(
                    f"the {here} library alone has the {what}{'s' if len(only) > 1 else ''} {some} of {early.name}, the"
                    f" {there} one not"
                )
    return told


def explain_net(code, net, words):
    """E14, E15: pins of the netlist against those of the parasitics."""
    netlist = Netlist(raw_text(words[3]))
    found = Joined(netlist, library_of(words, 2)).nets.get(net)
    if not found:
        return []
    parasitics = None
    if words[5] != "none" and can_be_read_again(words[5]):
        parasitics = Spef(raw_text(words[5])).nets.get(net)
    told = refused_parasitics.misfits(code, parasitics, found) if parasitics else []
    return [refused_parasitics.net_text("the netlist's net", found), *told]


def explain_range(words):
    """E16: the units of the documents."""
    told = []
    for role, at in (("early", 1), ("late", 2)):
        library = library_of(words, at)
        told.append(
            f"{words[at]} has the capacitance unit {' '.join(library.load_words or ['?'])} and a time unit of"
            f" {library.time_unit / 1000:g} ps"
        )
    if words[5] != "none" and can_be_read_again(words[5]):
        units = re.findall(r"^\s*(\*[CR]_UNIT\s+\S+\s+\S+)", raw_text(words[5])[:100000], re.M)
        told.append(f"{words[5]} has {', '.join(' '.join(it.split()) for it in units)}")
    return told


PORT_WAYS = {
    "create_clock": "input",
    "set_input_delay": "input",
    "set_input_transition": "input",
    "set_output_delay": "output",
}


def word_of_constraints(name, file, ways):
    """The text of the constraints, and the place of the first object of that name whose way, where it is a port, is not
    the one asked."""
    text = raw_text(file)
    for command in read_commands(text):
        option = before = ""
        for word in command.words:
            is_clock, before = before in ("-clock", "-name"), word.text
            for said in [] if is_clock else word.names:
                option = said if said in ("-from", "-to") else option
                asked = {"-from": "input", "-to": "output"}.get(option, PORT_WAYS.get(command.name))
                if name in (said, pin_word(said)) and (name not in ways or asked not in (None, ways[name])):
                    return text, text.index(said, word.offset)
    return text, None


def explain_name(name, words):
    """E13: that a port is there, and of which way."""
    way = Netlist(raw_text(words[3])).ports.get(name)
    return [f"{name} is an {way} port of the netlist, and this command asks for another direction"] if way else []


def explain_pin(pin, words):
    """E4: the pins that the cell of an instance has."""
    made = Netlist(raw_text(words[3])).instances.get(pin.rpartition(":")[0])
    cell = library_of(words, 2).cells.get(made.cell) if made else None
    return [f"{cell.name} has the pins {', '.join(cell.pins)}"] if cell else []


def place_of(code, what, words):
    """The file, its text, and the place where a fault of the design is seen best; none where there is none."""
    if code == "E13":
        return (words[4], *word_of_constraints(what, words[4], Netlist(raw_text(words[3])).ports))
    if code in ("E2", "E14", "E15") and words[5] != "none" and can_be_read_again(words[5]):
        text = raw_text(words[5])
        net = Spef(text).nets.get(what)
        return words[5], text, net.offset if net else None
    if code == "E17" and what in ("pins", "insts", "nets"):
        return words[3], "", None
    netlist = Netlist(raw_text(words[3]))
    if code == "E3":
        found = next((it for it in netlist.instances.values() if it.cell == what), None)
    else:
        found = netlist.instances.get(what.rpartition(":")[0])
    return words[3], netlist.text, found.offset if found else netlist.declared.get(what)


def explain_driver(net, words):
    joined = Joined(Netlist(raw_text(words[3])), library_of(words, 2))
    found = joined.nets.get(net)
    return [f"{net} is driven by {', '.join(found.drivers)}"] if found else []


def explain_design(names, words):
    """The lines on a fault of the linked design: `names` are its code and what it names."""
    code, what = names[0], names[1] if names[0] == "E11" else names[-1]
    said = f"{' '.join(names)}: {sentence(code)}"
    if not all(can_be_read_again(it) for it in words[1:5]):
        return [f"{words[3]}: {said}"]
    file, text, offset = place_of(code, what, words)
    if offset is None:
        told = [f"{file}: {said}"]
    else:
        line, column = line_and_column(text, offset)
        told = [f"{file}:{line}:{column}: {said}", *caret(text.split("\n")[line - 1], column)]
    more = {"E3": explain_cell, "E4": explain_pin, "E10": explain_driver, "E13": explain_name}.get(code)
    if more:
        lines = more(what, words)
    elif code in ("E14", "E15"):
        lines = explain_net(code, what, words)
    else:
        lines = explain_range(words) if code == "E16" else []
    return told + [f"  {it}" for it in [*lines, *usual_causes(code)]]


# ------------------------------------------------------------------------------------------------ a saved entry's fault

def line_of_entry(lines, number):
    """The line of a journal, from 1, on which this entry begins; none where there is none."""
    return next((at for at, line in enumerate(lines, 1) if line.startswith(f"entry {number} ")), None)


def explain_entry(number, names, journal):
    """The lines on a saved entry that is refused: `names` are the code of its fault and what it names."""
    said = f"J4: entry {number} is refused, and those before it are accepted: {' '.join(names)}: {sentence(names[0])}"
    if not journal or not can_be_read_again(journal):
        return [f"{journal or 'journal'}: {said}"]
    lines = raw_text(journal).split("\n")
    at = line_of_entry(lines, number)
    if at is None:
        return [f"{journal}: {said}"]
    edits = lines[at:at + int(lines[at - 1].split(" ")[5])]
    told = [f"  {shown(it)[:WIDTH]}" for it in edits[:3]] + (["  .."] if len(edits) > 3 else [])
    return [f"{journal}:{at}: {said}", *told, "  examples/saved-journal/README.md tells how to go on"]


# ------------------------------------------------------------------------------------------------ the run

def explain_shelf(name, how, journal=None):
    """Why a document could not be fetched."""
    if name == journal and not os.path.exists(name):
        return [f"{name}: No such file or directory", f"  an empty file begins a new journal (: >{name})"]
    if how == "too_long":
        return [f"{name}: the file is longer than 64 MiB, which is the most that is read"]
    if name.lower() == "none":
        return [f"{name}: No such file or directory", "  write the word none, in small letters, for no parasitics"]
    if os.path.isdir(name):
        return [f"{name}: is a directory, not a file"]
    try:
        with open(name, "rb") as file:
            file.read(1)
    except OSError as why:
        return [f"{name}: {why.strerror}"]
    return [f"{name}: the program could not read it; it can be read now"]


def explain(status, output, words):
    """The lines that explain how a run ended; none where there is nothing to explain."""
    line = output.split("\n")[0].split(" ")
    words, journal = without_journal(words)
    if "--" in words:
        words = [*words[:words.index("--")], *words[words.index("--") + 1:]]
    try:
        if status == 3 and line[:2] == ["fault", "design"]:
            return explain_design(line[2:], words)
        if status == 3 and line[:3] == ["fault", "journal", "J4"]:
            return explain_entry(int(line[3]), line[4:], journal)
        if status == 3 and len(line) == 4:
            return explain_document(line[1], line[2], int(line[3]), words, journal)
        if status == 4:
            return explain_shelf(" ".join(line[2:-1]), line[-1], journal)
    except (
        Exception
    ) as why:  # what is explained is faulty, so whatever goes wrong here must not hide the program's own answer
        return [f"lizdrog: the cause could not be looked up ({type(why).__name__}: {why}); docs/FAULTS.md has the code"]
    if status == 5:
        return [
            "lizdrog: the output could not be written to its end (a full disk, or a reader that has closed the pipe);"
            " what is there is its beginning"
        ]
    if status == 6:
        return [
            "lizdrog: there was not enough memory, and nothing was written; `ulimit -v` says whether a limit is set"
        ]
    return []


@tool("explain_fault")
def main():
    if len(sys.argv) < 11 or sys.argv[1] == "--help" or not re.fullmatch("[0-9]{1,3}", sys.argv[1]):
        print(__doc__.strip())
        return 0 if "--help" in sys.argv else 2
    for line in explain(int(sys.argv[1]), raw_text(sys.argv[2]), sys.argv[3:]):
        print(line)
    return 0
