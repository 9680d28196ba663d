"""Compares the answers to questions for closing timing with OpenSTA's, on designs of a folder.

Usage: closing_check.py FOLDER [NAME ..] [--program FILE] [--sort SORT] [--seed N] [--nets N]
  [--endpoints N] [--keep FOLDER]

Each design NAME has its files in the folder, and is asked as slews and as wires, as far as the files are there:

  slews   early.lib, late.lib, NAME.v, NAME.sdc, no parasitics
  wires   flat_early.lib, flat_late.lib, NAME.v, NAME.wires.sdc, NAME.spef

The flat libraries have delays that depend on no slew, and thresholds with which the wire delay of OpenSTA's simple_rc
is Elmore's (import_designs.py has them); NAME.wires.sdc has no set_load, with which OpenSTA drops the wires of a port's
net. OpenSTA is Debian's package opensta.

It prints a line for each question: how many answers were compared, how many differ by more than 0.01 ps or 0.01 fF, or
in what they name, and the greatest difference of two values. Two paths of one slack (ties) are told apart from others:
they are counted, and their nodes are not compared. The status is 1 where an answer differs.
"""
import argparse
import collections
import dataclasses
import pathlib
import random
import shutil
import subprocess
import sys
import tempfile
from collections.abc import Iterable, Iterator

from lizdrog_tools import closing_answers
from lizdrog_tools.liberty import read_library
from lizdrog_tools.places import find_program
from lizdrog_tools.read_answers import Row, read_output
from lizdrog_tools.verilog import Joined, read_netlist

TOLERANCE = 0.01
SHOWN = 5
WORST = 100
EACH = 3
MOST_QUESTIONS = 10000
SORTS = ["slews", "wires"]
KINDS = {"setup": "max", "hold": "min"}
EDGES = {"^": "rise", "v": "fall"}

# What OpenSTA is asked: names come from files, since those of a design may have brackets. It prints times in s and
# capacitances in F where they do not stand in a report of paths.
PROCEDURES = r"""
set_cmd_units -time ps -capacitance ff -resistance ohm
proc plain {name} { return [string map [list "\\" ""] $name] }
proc lines_of {file} { set f [open $file]; set text [read $f]; close $f; return [split [string trim $text] "\n"] }
proc formed {args} { sta::parse_report_path_options closing_check args full 0 }
formed -format full_clock_expanded -fields {capacitance slew input_pin net} -digits 6 -no_line_splits
proc caps {of} {
  set corner [sta::cmd_corner]
  return "[$of rise $corner min] [$of rise $corner max]"
}
proc pin_caps {pin} {
  set cell [$pin liberty_port]
  if {$cell != "NULL"} { return "[$cell capacitance rise min] [$cell capacitance rise max]" }
  set port [$pin port]
  return "[sta::port_ext_pin_cap $port rise min] [sta::port_ext_pin_cap $port rise max]"
}
proc wires {vertex} {
  set corner [sta::cmd_corner]
  set edges [$vertex out_edge_iterator]
  while {[$edges has_next]} {
    set edge [$edges next]
    if {[$edge role] != "wire"} continue
    set arcs [$edge timing_arc_iterator]
    set arc [$arcs next]
    $arcs finish
    set to [plain [get_full_name [[$edge to] pin]]]
    puts "WIRE $to [$edge arc_delay $arc $corner min] [$edge arc_delay $arc $corner max]"
  }
  $edges finish
}
proc nets {file} {
  foreach net [get_nets *] { set known([plain [get_full_name $net]]) $net }
  set corner [sta::cmd_corner]
  foreach name [lines_of $file] {
    set net $known($name)
    puts "NET $name [$net capacitance rise $corner min] [$net capacitance rise $corner max]"
    foreach pin [sta::net_connected_pins_sorted $net] {
      if {[$pin is_driver]} {
        puts "DRIVER [plain [get_full_name $pin]]"
        foreach vertex [$pin vertices] { wires $vertex }
      } elseif {[$pin is_load]} {
        puts "SINK [plain [get_full_name $pin]] [pin_caps $pin]"
      }
    }
  }
}
proc ends {kind side file} {
  foreach name [lines_of $file] { set asked($name) 1 }
  foreach end [find_timing_paths -path_delay $side -group_count 1000000 -endpoint_count 1] {
    set name [plain [get_full_name [[$end vertex] pin]]]
    puts "END $kind $name [$end slack]"
    if {[info exists asked($name)]} {
      puts "PATH $kind $name [$end slack]"
      sta::report_path_ends [list $end]
    }
  }
}
proc worst {kind side name count each} {
  foreach end [find_timing_paths -path_delay $side -group_count $count -endpoint_count $each] {
    puts "WORST $kind $name [plain [get_full_name [[$end vertex] pin]]] [$end slack]"
    sta::report_path_ends [list $end]
  }
}
proc skew {} {
  foreach pin [all_registers -clock_pins] {
    foreach vertex [$pin vertices] {
      foreach clock [all_clocks] {
        foreach launch {rise fall} {
          foreach edge {rise fall} {
            lassign [$vertex arrivals_clk $edge $clock $launch] early late
            set from [lindex [$clock waveform] [expr {$launch == "fall"}]]
            if {$early < 1} {
              puts "CLOCK [get_name $clock] $launch [expr {$early - $from}] [expr {$late - $from}]"
            }
          }
        }
      }
    }
  }
}
"""


class Wrong(Exception):
    """A tool did not do its work."""


@dataclasses.dataclass(frozen=True, slots=True)
class Case:
    """A design with what it is asked with; files are names in its folder."""

    folder: pathlib.Path
    name: str
    sort: str
    early: str
    late: str
    sdc: str
    spef: str = "none"

    def netlist(self) -> pathlib.Path:
        return self.folder / f"{self.name}.v"

    def is_there(self) -> bool:
        files = (self.early, self.late, self.sdc, *([] if self.spef == "none" else [self.spef]))
        return all((self.folder / it).is_file() for it in files) and self.netlist().is_file()


def cases_of(folder: pathlib.Path, name: str) -> list[Case]:
    """How a design can be asked."""
    both = [
        Case(folder, name, "slews", "early.lib", "late.lib", f"{name}.sdc"),
        Case(folder, name, "wires", "flat_early.lib", "flat_late.lib", f"{name}.wires.sdc", f"{name}.spef"),
    ]
    return [it for it in both if it.is_there()]


@dataclasses.dataclass(slots=True)
class Asked:
    """The nets and the endpoints that are asked."""

    nets: list[str]
    ends: list[str]


def drawn(case: Case, joined: Joined, given: argparse.Namespace) -> Asked:
    """Nets with a driver and a sink, and endpoints, drawn by a seed."""
    rand = random.Random(f"{case.name} {given.seed}")
    nets = sorted(name for name, net in joined.nets.items() if net.drivers and net.sinks)
    ends = joined.endpoints()
    return Asked(rand.sample(nets, min(given.nets, len(nets))), rand.sample(ends, min(given.endpoints, len(ends))))


def word(name: str) -> str:
    """A pin's word of OpenSTA's name."""
    inst, slash, pin = name.rpartition("/")
    return f"{inst}:{pin}" if slash else name


def name_of(pin: str) -> str:
    """OpenSTA's name of a pin's word."""
    inst, colon, last = pin.rpartition(":")
    return f"{inst}/{last}" if colon else pin


# ------------------------------------------------------------------------------------------------ answers of both

@dataclasses.dataclass(slots=True)
class Stage:
    """A node of a path; a driver's has its net, load and number of sinks."""

    pin: str
    edge: str
    time: float
    delay: float | None
    slew: float
    drives: tuple[str, float, int] | None = None


@dataclasses.dataclass(slots=True)
class Path:
    """A path with the path of its capture clock and the parts of its slack."""

    end: str
    slack: float
    nodes: list[Stage] = dataclasses.field(default_factory=list)
    capture: list[Stage] = dataclasses.field(default_factory=list)
    parts: dict[str, float] = dataclasses.field(default_factory=dict)

    def word(self) -> list[tuple[str, str]]:
        return [(it.pin, it.edge) for it in self.nodes]


@dataclasses.dataclass(slots=True)
class Net:
    """A net as it is answered: its load, early and late, its drivers, and of each sink its capacitances and delays."""

    load: tuple[float, ...]
    drivers: list[str] = dataclasses.field(default_factory=list)
    sinks: dict[str, tuple[float, ...]] = dataclasses.field(default_factory=dict)
    wires: dict[str, tuple[float, ...]] = dataclasses.field(default_factory=dict)


@dataclasses.dataclass(slots=True)
class Answers:
    """All that one of the two answers."""

    nets: dict[str, Net] = dataclasses.field(default_factory=dict)
    paths: dict[tuple[str, str], Path] = dataclasses.field(default_factory=dict)
    slacks: dict[tuple[str, str], float] = dataclasses.field(default_factory=dict)
    worst: dict[tuple[str, int], list[Path]] = dataclasses.field(default_factory=dict)
    skews: dict[tuple[str, str], list[float]] = dataclasses.field(default_factory=dict)


def scaled(words: Iterable[str], unit: float) -> tuple[float, ...]:
    return tuple(float(it) * unit for it in words)


# ------------------------------------------------------------------------------------------------ OpenSTA

PARTS = {
    "clock uncertainty": "uncertainty", "inter-clock uncertainty": "uncertainty",
    "clock reconvergence pessimism": "credit", "library setup time": "setup_time", "library hold time": "hold_time",
    "output external delay": "output_delay", "data arrival time": "arrival", "data required time": "required",
}


class Report:
    """Reads one path of report_checks, line by line."""

    def __init__(self, path: Path):
        self.path, self.is_capture, self.edges, self.is_done = path, False, [], False

    def line(self, text: str) -> None:
        """Reads a line; those above the columns, and the sums below them, have other words."""
        words = text.split()
        at = next((at for at, it in enumerate(words) if not it.replace(".", "").replace("-", "").isdigit()), 0)
        if self.is_done or not at:
            self.is_done = self.is_done or (text.startswith("----") and self.is_capture)
            return
        values, said = [float(it) for it in words[:at]], words[at:]
        if said[0] in EDGES and said[1:2] != ["input"]:
            self.node(values, said)
        elif said[-1] == "(net)":
            load, count = values[-1], int(values[0])
            self.stages()[-1].drives = (" ".join(said[:-1]).replace("\\", ""), load, count)
        else:
            self.other(values, " ".join(said))

    def stages(self) -> list[Stage]:
        return self.path.capture if self.is_capture else self.path.nodes

    def node(self, values: list[float], said: list[str]) -> None:
        slew, delay, time = values
        stage = Stage(word(said[1].replace("\\", "")), EDGES[said[0]], time - self.edges[-1], delay, slew)
        if not self.stages():
            stage.delay = None
        self.stages().append(stage)

    def other(self, values: list[float], said: str) -> None:
        parts = self.path.parts
        if said.startswith("clock ") and said.endswith(" edge)"):
            self.edges.append(values[-1])
            if self.is_capture:
                parts["capture_edge"] = self.edges[-1] - self.edges[0]
        elif said in ("data arrival time", "data required time"):
            parts[PARTS[said]] = values[-1] - self.edges[0]
            self.is_capture = True
        elif said in PARTS:
            parts[PARTS[said]] = parts.get(PARTS[said], 0.0) + values[0]

    def end(self) -> None:
        parts, capture = self.path.parts, self.path.capture
        parts["capture_arrival"] = capture[-1].time if capture else 0.0
        parts["slack"] = self.path.slack


def opensta(case: Case, top: str, asked: Asked, folder: pathlib.Path) -> Iterator[str]:
    """The lines that OpenSTA prints of a design."""
    (folder / "nets").write_text("\n".join(asked.nets) + "\n")
    (folder / "ends").write_text("\n".join(map(name_of, asked.ends)) + "\n")
    lines = [
        "set sta_crpr_enabled 1",
        "set sta_crpr_mode same_transition",
        f"read_liberty -min {case.early}",
        f"read_liberty -max {case.late}",
        f"read_verilog {case.netlist().name}",
        f"link_design {top}",
        "set_operating_conditions -analysis_type on_chip_variation",
        "sta::set_delay_calculator simple_rc",
        f"read_sdc {case.sdc}",
        *([] if case.spef == "none" else [f"read_spef -quiet {case.spef}"]),
        PROCEDURES,
        f"nets {folder}/nets",
        *(f"ends {kind} {side} {folder}/ends" for kind, side in KINDS.items()),
        *(f"worst {kind} {side} {each} {count} {most}" for kind, side in KINDS.items()
          for each, count, most in ((1, WORST, 1), (EACH, WORST * 3, EACH * 3))),
        "skew",
    ]
    script = folder / "opensta.tcl"
    script.write_text("\n".join(lines) + "\n")
    ran = subprocess.run(
        ["sta", "-no_splash", "-exit", script], cwd=case.folder, capture_output=True, text=True, check=False
    )
    (folder / "opensta.out").write_text(ran.stdout)
    if ran.returncode or "Error:" in ran.stdout + ran.stderr:
        raise Wrong(f"{case.name}: OpenSTA: {(ran.stdout + ran.stderr).strip()[-400:]}")
    return iter(ran.stdout.splitlines())


def of_opensta(lines: Iterable[str]) -> Answers:
    """What OpenSTA answers. Of an endpoint in several path groups the worst path counts."""
    found, net, report = Answers(), None, None
    for line in lines:
        words = line.replace("\\", "").split()
        head = words[0] if words else ""
        if head in ("NET", "DRIVER", "SINK", "WIRE", "END", "PATH", "WORST", "CLOCK"):
            if report:
                report.end()
            report = None
        if head == "NET":
            net = found.nets[words[1]] = Net(scaled(words[2:], 1e15))
        elif head == "DRIVER":
            net.drivers.append(word(words[1]))
        elif head == "SINK":
            net.sinks[word(words[1])] = scaled(words[2:], 1e15)
        elif head == "WIRE":
            net.wires[word(words[1])] = scaled(words[2:], 1e12)
        elif head == "END":
            key = (words[1], word(words[2]))
            found.slacks[key] = min(found.slacks.get(key, float("inf")), float(words[3]) * 1e12)
        elif head == "PATH":
            path = Path(word(words[2]), float(words[3]) * 1e12)
            old = found.paths.get((words[1], path.end))
            if old is None or path.slack < old.slack:
                found.paths[words[1], path.end] = path
            report = Report(path)
        elif head == "WORST":
            path = Path(word(words[3]), float(words[4]) * 1e12)
            found.worst.setdefault((words[1], int(words[2])), []).append(path)
            report = Report(path)
        elif head == "CLOCK":
            early, late = scaled(words[3:], 1e12)
            old = found.skews.get((words[1], words[2]), [late, early])
            found.skews[words[1], words[2]] = [max(late, old[0]), min(early, old[1])]
        elif report:
            report.line(line)
    if report:
        report.end()
    for (kind, each), paths in found.worst.items():
        found.worst[kind, each] = worst_of(paths, each)
    return found


def worst_of(paths: list[Path], each: int) -> list[Path]:
    """The worst paths, each once, and so many of each endpoint at most: OpenSTA lists a path once more where two arcs
    join its pins."""
    count, seen, found = collections.Counter(), set(), []
    for path in sorted(paths, key=lambda it: it.slack):
        key = tuple(path.word())
        if key not in seen and count[path.end] < each:
            seen.add(key)
            count[path.end] += 1
            found.append(path)
    return found[:WORST]


# ------------------------------------------------------------------------------------------------ Lizdrog

def questions(asked: Asked) -> list[str]:
    found = [f"report_net {it}" for it in asked.nets]
    found += [f"report_timing {it} {kind}" for kind in KINDS for it in asked.ends]
    for kind in KINDS:
        found += [f"report_worst_paths {kind} {WORST}", f"report_worst_paths {kind} {WORST} each {EACH}"]
        found += [f"report_failing {kind}"]
    return [*found, "report_skew"]


def rows_of(case: Case, program: pathlib.Path, asked: list[str], folder: pathlib.Path) -> list[Row]:
    """The rows of a run with these questions."""
    script, output = folder / "questions", folder / "answers"
    script.write_text("\n".join(asked) + "\n")
    with output.open("w") as out:
        ran = subprocess.run(
            [program, "run", case.early, case.late, case.netlist().name, case.sdc, case.spef, "1", script],
            cwd=case.folder, stdout=out, check=False,
        )
    if ran.returncode > 1:
        raise Wrong(f"{case.name}: the program ends with {ran.returncode}: {output.read_text()[:200]}")
    return read_output(output).sessions[0]


def stage_of(it: dict) -> Stage:
    drives = (it["net"], float(it["load"]), it["fanout"]) if it["net"] else None
    delay = None if it["delay"] is None else float(it["delay"])
    return Stage(it["pin"], it["edge"], float(it["time"]), delay, float(it["slew"]), drives)


def timing_of(end: str, row: Row) -> Path:
    said = closing_answers.value(row.sort, row.words, row.below)
    parts = {name: float(it) for name, it in said["parts"].items()}
    return Path(
        end, float(said["slack"]), [stage_of(it) for it in said["path"]], [stage_of(it) for it in said["capture_path"]],
        parts,
    )


def net_of(row: Row) -> Net:
    said = closing_answers.value(row.sort, row.words, row.below)
    net = Net((float(said["load"]["early"]), float(said["load"]["late"])), [said["driver"]] if said["driver"] else [])
    for it in said["sinks"]:
        net.sinks[it["pin"]] = tuple(map(float, it["capacitance"].values()))
        net.wires[it["pin"]] = tuple(map(float, it["delay"].values())) if it["delay"] else ()
    return net


def path_of(row: Row) -> Path:
    """A path of report_worst_paths."""
    nodes = [Stage(pin, edge, float(time), None, 0.0) for pin, edge, time in row.below]
    return Path(row.words[1], float(row.words[3]), nodes)


def of_lizdrog(asked: list[str], rows: list[Row]) -> Answers:
    """What the program answers; slacks are those of report_failing."""
    found = Answers()
    for question, row in zip(asked, rows, strict=True):
        name, *words = question.split()
        if name == "report_net" and row.sort == "net":
            found.nets[words[0]] = net_of(row)
        elif name == "report_timing" and row.words[0] != "none" and row.sort == "timing":
            found.paths[words[1], words[0]] = timing_of(words[0], row)
        elif name == "report_worst_paths":
            found.worst[words[0], int(words[3]) if len(words) > 2 else 1] = [path_of(it) for it in row.parts()]
        elif name == "report_failing":
            found.slacks |= {(words[0], pin): float(slack) for pin, slack in row.below}
        elif name == "report_skew":
            for it in map(closing_answers.skew_edge, row.below):
                found.skews[it["clock"], it["edge"]] = [float(it["late"]["time"]), float(it["early"]["time"])]
    return found


# ------------------------------------------------------------------------------------------------ comparing

class Tally:
    """What was compared of a question: how many answers, which differ, and the greatest difference of two values."""

    def __init__(self, case: Case, question: str):
        self.head, self.compared, self.greatest, self.ties = f"{case.name} {case.sort}: {question}", 0, 0.0, 0
        self.wrong: list[str] = []
        self.why: list[str] = []

    def value(self, what: str, theirs: float | None, ours: float | None) -> None:
        if theirs is None or ours is None:
            self.same(what, theirs, ours)
            return
        self.greatest = max(self.greatest, abs(theirs - ours))
        if abs(theirs - ours) > TOLERANCE:
            self.why.append(f"{what}: OpenSTA {theirs:.6f}, Lizdrog {ours:.3f}")

    def same(self, what: str, theirs: object, ours: object) -> None:
        if theirs != ours:
            self.why.append(f"{what}: OpenSTA {theirs}, Lizdrog {ours}")

    def done(self, name: str) -> None:
        """Ends an answer."""
        self.compared += 1
        if self.why:
            self.wrong.append(f"{name}: {self.why[0]}" + (f" (and {len(self.why) - 1} more)" if self.why[1:] else ""))
        self.why = []

    def print(self) -> bool:
        ties = f", {self.ties} other paths of the same slack" if self.ties else ""
        print(
            f"{self.head}: compared {self.compared}, differ {len(self.wrong)}, "
            f"greatest difference {self.greatest:.4f}{ties}", flush=True
        )
        for it in self.wrong[:SHOWN]:
            print(f"  {it}", flush=True)
        return not self.wrong


def compare_nets(case: Case, asked: Asked, theirs: Answers, ours: Answers) -> Tally:
    tally = Tally(case, "report_net")
    for name in asked.nets:
        one, other = theirs.nets.get(name), ours.nets.get(name)
        if one is None or other is None:
            tally.same("net", one is not None, other is not None)
        else:
            tally.same("driver", one.drivers, other.drivers)
            tally.same("sinks", sorted(one.sinks), list(other.sinks))
            for at, split in enumerate(("early", "late")):
                tally.value(f"load {split}", one.load[at], other.load[at])
                for sink in one.sinks.keys() & other.sinks.keys():
                    tally.value(f"{sink} {split}", one.sinks[sink][at], other.sinks[sink][at])
                    delays = one.wires.get(sink), other.wires.get(sink)
                    tally.value(f"wire to {sink} {split}", *(it[at] if it else None for it in delays))
        tally.done(name)
    return tally


def compare_stages(tally: Tally, case: Case, what: str, theirs: list[Stage], ours: list[Stage]) -> None:
    """Compares two paths stage by stage, but for slews behind wires: Lizdrog's grow by the wire's impulse, and the
    thresholds that make OpenSTA's delay Elmore's leave its slews as they are at the driver."""
    tally.same(f"{what} nodes", len(theirs), len(ours))
    for one, other in zip(theirs, ours):
        tally.same(f"{what} node", (one.pin, one.edge), (other.pin, other.edge))
        for name in ("time", "delay") if case.sort == "wires" and one.drives is None else ("time", "delay", "slew"):
            tally.value(f"{what} {name} of {one.pin}", getattr(one, name), getattr(other, name))
        tally.same(f"net of {one.pin}", one.drives and one.drives[::2], other.drives and other.drives[::2])
        if one.drives and other.drives:
            tally.value(f"load of {one.pin}", one.drives[1], other.drives[1])


def compare_timing(case: Case, asked: Asked, theirs: Answers, ours: Answers, kind: str) -> Tally:
    tally = Tally(case, f"report_timing PIN {kind}")
    for pin in asked.ends:
        one, other = theirs.paths.get((kind, pin)), ours.paths.get((kind, pin))
        if one is None or other is None:
            tally.same("path", one is not None, other is not None)
        elif one.word() != other.word() and abs(one.slack - other.slack) <= TOLERANCE:
            tally.ties += 1
            tally.value("slack", one.slack, other.slack)
        else:
            compare_stages(tally, case, "path", one.nodes, other.nodes)
            compare_stages(tally, case, "capture", one.capture, other.capture)
            tally.same("parts", sorted(one.parts), sorted(other.parts))
            for name in one.parts.keys() & other.parts.keys():
                tally.value(name, one.parts[name], other.parts[name])
        tally.done(pin)
    return tally


def is_alone(paths: list[Path], at: int) -> bool:
    """Whether a path's slack is not its neighbours' within twice the tolerance."""
    near = [paths[it] for it in (at - 1, at + 1) if 0 <= it < len(paths)]
    return at + 1 < len(paths) and all(abs(it.slack - paths[at].slack) > 2 * TOLERANCE for it in near)


def compare_worst(case: Case, theirs: Answers, ours: Answers, kind: str, each: int) -> Tally:
    tally = Tally(case, f"report_worst_paths {kind} {WORST}" + (f" each {each}" if each > 1 else ""))
    one, other = theirs.worst.get((kind, each), []), ours.worst.get((kind, each), [])
    tally.same("paths", len(one), len(other))
    for at, (their, our) in enumerate(zip(one, other)):
        tally.value("slack", their.slack, our.slack)
        if is_alone(one, at):
            tally.same("nodes", their.word(), our.word())
        elif their.word() != our.word():
            tally.ties += 1
        tally.done(f"path {at + 1}, {our.end}")
    return tally


def compare_failing(case: Case, theirs: Answers, ours: Answers, kind: str) -> Tally:
    """Compares the endpoints of negative slack; a slack within the tolerance of 0 may be on either side."""
    tally = Tally(case, f"report_failing {kind}")
    listed = {pin: it for (one, pin), it in ours.slacks.items() if one == kind}
    failing = {pin: it for (one, pin), it in theirs.slacks.items() if one == kind and it < 0}
    for pin in sorted(listed.keys() | failing.keys()):
        slacks = theirs.slacks.get((kind, pin)), listed.get(pin)
        if None in slacks and any(it is not None and abs(it) <= TOLERANCE for it in slacks):
            continue
        tally.value("slack", *slacks)
        tally.done(pin)
    return tally


def compare_skew(case: Case, theirs: Answers, ours: Answers) -> Tally:
    """Compares the greatest late and the least early arrival of each launch edge, and their difference."""
    tally = Tally(case, "report_skew")
    for key in sorted(theirs.skews.keys() | ours.skews.keys()):
        one, other = theirs.skews.get(key), ours.skews.get(key)
        if one is None or other is None:
            tally.same("launch edge", one is not None, other is not None)
        else:
            for what, their, our in zip(("late", "early"), one, other):
                tally.value(what, their, our)
            tally.value("skew", one[0] - one[1], other[0] - other[1])
        tally.done(" ".join(key))
    return tally


def compare(case: Case, given: argparse.Namespace, folder: pathlib.Path) -> bool:
    """Asks both about a design, and prints how they agree."""
    folder.mkdir(parents=True, exist_ok=True)
    netlist = read_netlist(case.netlist())
    asked = drawn(case, Joined(netlist, read_library(case.folder / case.late)), given)
    lines = questions(asked)
    if len(lines) > MOST_QUESTIONS:
        raise Wrong(f"{len(lines)} questions, and a script has at most {MOST_QUESTIONS}")
    ours = of_lizdrog(lines, rows_of(case, given.program.resolve(), lines, folder))
    theirs = of_opensta(opensta(case, netlist.name, asked, folder))
    tallies = [compare_nets(case, asked, theirs, ours)]
    tallies += [compare_timing(case, asked, theirs, ours, kind) for kind in KINDS]
    tallies += [compare_worst(case, theirs, ours, kind, each) for kind in KINDS for each in (1, EACH)]
    tallies += [compare_failing(case, theirs, ours, kind) for kind in KINDS]
    tallies += [compare_skew(case, theirs, ours)]
    return all([it.print() for it in tallies])


def main() -> int:
    parser = argparse.ArgumentParser(description=__doc__, formatter_class=argparse.RawDescriptionHelpFormatter)
    parser.add_argument("folder", type=pathlib.Path)
    parser.add_argument("names", nargs="*", metavar="NAME", help="all designs of the folder where none is named")
    parser.add_argument("--program", type=pathlib.Path, default=find_program())
    parser.add_argument("--sort", dest="sorts", choices=SORTS, action="append", help="slews or wires alone")
    parser.add_argument("--seed", type=int, default=1)
    parser.add_argument("--nets", type=int, default=400)
    parser.add_argument("--endpoints", type=int, default=300)
    parser.add_argument("--keep", type=pathlib.Path, help="write what was asked and answered here, and leave it")
    given = parser.parse_args()
    given.sorts = given.sorts or SORTS
    if given.program is None or shutil.which("sta") is None:
        why = "there is no sta here: apt-get install opensta" if given.program else "no program: ./lizdrog --build"
        print(f"closing_check: {why}", file=sys.stderr)
        return 2
    names = given.names or sorted(it.stem for it in given.folder.glob("*.sdc") if "." not in it.stem)
    cases = [case for name in names for case in cases_of(given.folder.resolve(), name) if case.sort in given.sorts]
    if not cases:
        print(f"closing_check: {given.folder} has no design", file=sys.stderr)
        return 2
    agree = True
    with tempfile.TemporaryDirectory() as name:
        for case in cases:
            try:
                agree &= compare(case, given, (given.keep or pathlib.Path(name)).resolve() / f"{case.name}.{case.sort}")
            except Wrong as why:
                print(why, flush=True)
                agree = False
    return 0 if agree else 1
