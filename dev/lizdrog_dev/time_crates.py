"""Times calls of single crates by programs of their own: bench/time_crates.py [options] NAME ..

  cow_table        tables of 200,000 items: 10,000 copies, the same each followed by 10 sets, and the sets alone
  journals         a journal of 200,000 entries, the same as a saved journal, and a script of 10,000 groups levels
  the levels of 400,000 nodes with two arcs in each, and the cycle that one arc more closes liberty          the reader
  of libraries on 10,000 cells with twelve tables of 7 by 7 each (some 60 MB) netlist_store    a design of nearly
  200,000 pins from its texts to a store, then 10,000 resizes and 1,000 buffers, each
                   an ECO on the store before it, with the checks of the nets that it touched
  rc_tree          the tree of a chain of 65,534 resistors, ten times
  spef             the reader of parasitics on 220,000 nets (some 60 MB)
  verilog_netlist  the reader of netlists on a module of 200,000 nets and instances (some 14 MB)
  workers          the slews and arrivals with the delays of arcs, and the required times, of all nodes with 1, 2 and 4
                   workers, each twice: two ranks of 1,000 registers with levels of 1,000 NAND gates between, about
                   100,000 pins at 30 levels, and parasitics of every net by bench/spef.py

A program stands in bench/programs. It is proved, built and run by `rt run` over copies of the crates in a folder of its
own, which is removed; a crate that is built here (dev/build_libs.py) is not proved again.

  --try          run it before any proof, by `rt try`
  --keep FOLDER  work in this folder and keep it
  --levels N     of workers: so many levels of gates (30)
  --cells N      of workers: a design of N cells by bench/design.py instead, and the time of a whole analysis too
  --no-wires     of workers: without parasitics
"""
import argparse
import dataclasses
import pathlib
import re
import subprocess
import sys

from lizdrog_dev import small_repository
from lizdrog_tools.places import BENCH, CRATES

PROGRAMS = BENCH / "programs"
DOCUMENTS = ("lib", "v", "sdc", "spef")
TRY_SECONDS = 600


@dataclasses.dataclass(frozen=True)
class Program:
    """A program: its crate, and the crates of this repository that it uses."""

    crate: str
    uses: tuple[str, ...]


BASE = ("sta_units", "timing_defs")
KNOWN = {
    "cow_table": Program("cow_bench", ("cow_table", "sta_units")),
    "journals": Program("journal_bench", ("eco_journal", "script_reader", "timing_defs")),
    "levels": Program("levels_bench", ("levelizer", *BASE)),
    "liberty": Program("liberty_bench", ("liberty_cells", *BASE)),
    "netlist_store": Program("store_bench", (*BASE, "eco_journal", "liberty_cells", "verilog_netlist", "sdc_reader",
                                             "netlist_store", "design_link")),
    "rc_tree": Program("rc_bench", ("rc_tree", *BASE)),
    "spef": Program("spef_bench", ("spef_reader", *BASE)),
    "verilog_netlist": Program("netlist_bench", ("verilog_netlist", *BASE)),
    "workers": Program("workers_bench", (
        *BASE, "timing_rules", "sta_outside", "sta_text", "liberty_syntax", "liberty_cells", "verilog_netlist",
        "sdc_reader", "spef_reader", "cow_table", "rc_tree", "nldm_lookup", "path_rules", "netlist_store", "store_pins",
        "levelizer", "pin_graph", "design_link", "eco_analysis", "node_rows", "node_tests", "level_workers",
        "arrival_engine", "required_engine", "affected_cone")),
}


# ------------------------------------------------------------------------------------------------ the design of workers

WIDE = 1000
AXIS = "1, 5, 10, 20, 40, 80, 160"
CONSTRAINTS = """create_clock -name clk -period 1000 -waveform {0 500} [get_ports ck]
set_clock_uncertainty -setup 10 [get_clocks clk]
set_input_delay 5 -clock clk [get_ports in]
"""


def table(name: str, least: int) -> str:
    """A table of 7 by 7 values from a least one on."""
    rows = ", ".join(
        '"' + ", ".join(str(least + 3 * row + 5 * column) for column in range(7)) + '"' for row in range(7)
    )
    return f"{name} (d) {{ values ({rows}); }}"


def registers_and_gates() -> str:
    """A library of a gate and a register."""
    tables = " ".join(table(name, 4 + at) for at, name in
                      enumerate(("cell_rise", "rise_transition", "cell_fall", "fall_transition")))
    arcs = " ".join(f'timing () {{ related_pin : "{pin}"; timing_sense : negative_unate; {tables} }}' for pin in "AB")
    limits = " ".join(
        f'timing () {{ related_pin : "CK"; timing_type : {kind}_rising; rise_constraint (scalar) {{ values ("{rise}");'
        f' }} fall_constraint (scalar) {{ values ("{fall}"); }} }}'
        for kind, rise, fall in (("setup", 8, 9), ("hold", 2, 3))
    )
    return (
        "\n".join(
            [
                'library (bench) { time_unit : "1ps"; capacitive_load_unit (1, ff);',
                (
                    "lu_table_template (d) { variable_1 : input_net_transition; variable_2 :"
                    f" total_output_net_capacitance; index_1 (\"{AXIS}\"); index_2 (\"{AXIS}\"); }}"
                ),
                (
                    "cell (NAND2) { pin (A) { direction : input; capacitance : 2; } pin (B) { direction : input;"
                    " capacitance : 2; }"
                ),
                f"pin (Z) {{ direction : output; {arcs} }} }}",
                "cell (DFF) { pin (CK) { direction : input; capacitance : 1; } pin (D) { direction : input; capacitance"
                " : 2; "
                + limits
                + " }",
                'pin (Q) { direction : output; timing () { related_pin : "CK"; timing_type : rising_edge; '
                + tables
                + " } } } }",
            ]
        )
        + "\n"
    )


def ranks_of_registers(levels: int) -> str:
    """A netlist of two ranks of registers with levels of gates between them."""
    lines = ["module bench (ck, in); input ck, in;"]
    lines += [f"wire w{level}_{at};" for level in range(levels + 1) for at in range(WIDE)]
    lines += [f"DFF a{at} (.CK(ck), .D(in), .Q(w0_{at}));" for at in range(WIDE)]
    lines += [f"NAND2 u{level}_{at} (.A(w{level - 1}_{at}), .B(w{level - 1}_{(at * 7 + 3) % WIDE}), .Z(w{level}_{at}));"
              for level in range(1, levels + 1) for at in range(WIDE)]
    lines += [f"DFF b{at} (.CK(ck), .D(w{levels}_{at}));" for at in range(WIDE)]
    return "\n".join([*lines, "endmodule"]) + "\n"


def write_design(data: pathlib.Path, levels: int, cells: int | None, has_wires: bool) -> None:
    """Writes the documents of a design as bench.lib, bench.v, bench.sdc and bench.spef."""
    data.mkdir(parents=True, exist_ok=True)
    if cells:
        subprocess.run([sys.executable, BENCH / "design.py", data, str(cells)], check=True)
    else:
        for name, text in (("lib", registers_and_gates()), ("v", ranks_of_registers(levels)), ("sdc", CONSTRAINTS)):
            (data / f"bench.{name}").write_text(text, encoding="ascii")
    words = [sys.executable, BENCH / "spef.py", data / "bench.lib", data / "bench.v"]
    spef = subprocess.run(words, check=True, capture_output=True, text=True).stdout
    if not has_wires:
        spef = re.sub(r"(?ms)^\*D_NET.*?^\*END\n?", "", spef)
    (data / "bench.spef").write_text(spef, encoding="ascii")


# ------------------------------------------------------------------------------------------------ running

def add_measures(crate: pathlib.Path) -> None:
    """Gives the program of wires the tests of nets that the rows of nets have: whether a tree can be asked for."""
    rows = CRATES / "kernel_rows"
    for name, folder, file in (("Measures", "specs", "Measures.antt"), ("Measuring", "proofs", "Measuring.antt"),
                               (None, "src", "measures.rt")):
        (crate / folder).mkdir(exist_ok=True)
        text = (rows / folder / file).read_text(encoding="utf-8").replace("kernel_rows", crate.name)
        (crate / folder / file).write_text(text, encoding="utf-8")
        if name:
            (crate / folder / "Lib.antt").write_text(f"pub mod {name}\n", encoding="utf-8")


def words_of(name: str, given: argparse.Namespace) -> list[str]:
    """The words of `rt` for a program."""
    words = ["rt", "try", "--seconds", str(TRY_SECONDS)] if given.without_proof else ["rt", "run"]
    if name == "workers" and given.without_proof:
        words += [it for end in DOCUMENTS for it in ("--data", f"bench.{end}=data/bench.{end}")]
    return [*words, *(["--", "analysis"] if name == "workers" and given.cells else [])]


def time_program(name: str, given: argparse.Namespace) -> int:
    """Lays a program's repository, and proves, builds and runs it there; the status of `rt`."""
    program = KNOWN[name]
    with small_repository.folder(given.keep) as top:
        small_repository.lay(top, program.uses)
        crate = small_repository.add_crate(top, program.crate, PROGRAMS / program.crate, program.uses)
        if name == "rc_tree":
            add_measures(crate)
        if name == "workers":
            write_design(crate / "data", given.levels, given.cells, given.has_wires)
        print(f"{name}:", flush=True)
        ran = subprocess.run(words_of(name, given), cwd=crate, stdin=subprocess.DEVNULL, stderr=subprocess.PIPE,
                             text=True, errors="replace", check=False)
        if ran.returncode:
            print(ran.stderr, end="", file=sys.stderr)
        return ran.returncode


def main() -> int:
    parser = argparse.ArgumentParser(description=__doc__, formatter_class=argparse.RawDescriptionHelpFormatter)
    parser.add_argument("names", nargs="+", metavar="NAME", choices=KNOWN)
    parser.add_argument("--try", action="store_true", dest="without_proof")
    parser.add_argument("--keep", metavar="FOLDER")
    parser.add_argument("--levels", type=int, default=30, metavar="N")
    parser.add_argument("--cells", type=int, metavar="N")
    parser.add_argument("--no-wires", action="store_false", dest="has_wires")
    given = parser.parse_args()
    return max(time_program(it, given) for it in given.names)
