"""What the tests share: the program, the examples, and small documents."""
import os
import pathlib
import subprocess
import sys
import unittest

from lizdrog_tools.places import BENCH, DEV, TOOLS, TOP, find_program  # noqa: F401 (tests take them from here)

GIVEN = os.environ.get("LIZDROG_TEST_PROGRAM")
PROGRAM = pathlib.Path(GIVEN) if GIVEN else find_program()
needs_program = unittest.skipUnless(PROGRAM,
                                    "there is no program: the gate builds it, and dev/quick_build.py builds one "
                                    "without proof")


def run(*words, cwd=None, **how):
    """Runs a command and gives its status, its output and its errors."""
    ran = subprocess.run([str(it) for it in words], cwd=cwd, stdin=subprocess.DEVNULL, capture_output=True, text=True,
                         check=False, **how)
    return ran.returncode, ran.stdout, ran.stderr


def tool(name, *words, cwd=None, **how):
    """Runs a tool of designers, or else of provers, by its name."""
    file = next(it for it in (TOOLS / f"{name}.py", DEV / f"{name}.py") if it.is_file())
    return run(sys.executable, file, *words, cwd=cwd, **how)


LIBRARY = """library (small) { time_unit : "1ps"; capacitive_load_unit (1, ff);
 lu_table_template (ld) { variable_1 : total_output_net_capacitance; index_1 ("0, 10"); }
 cell (BUF) { pin (A) { direction : input; capacitance : 1; }
  pin (Z) { direction : output; timing () { related_pin : "A"; timing_sense : positive_unate;
   cell_rise (ld) { values ("10, 30"); } cell_fall (ld) { values ("10, 30"); }
   rise_transition (ld) { values ("5, 25"); } fall_transition (ld) { values ("5, 25"); } } } }
 cell (DFF) { pin (D) { direction : input; capacitance : 1;
   timing () { related_pin : "CK"; timing_type : setup_rising; rise_constraint (scalar) { values ("15"); } fall_constraint (scalar) { values ("15"); } }
   timing () { related_pin : "CK"; timing_type : hold_rising; rise_constraint (scalar) { values ("3"); } fall_constraint (scalar) { values ("3"); } } }
  pin (CK) { direction : input; capacitance : 1; }
  pin (Q) { direction : output; timing () { related_pin : "CK"; timing_type : rising_edge;
   cell_rise (scalar) { values ("20"); } cell_fall (scalar) { values ("20"); }
   rise_transition (scalar) { values ("10"); } fall_transition (scalar) { values ("10"); } } } } }
"""
NETLIST = """module top (clk, d, q);
 input clk, d; output q; wire n1, n2;
 DFF r1 (.D(d), .CK(clk), .Q(n1));
 BUF g1 (.A(n1), .Z(n2));
 DFF r2 (.D(n2), .CK(clk), .Q(q));
endmodule
"""
CONSTRAINTS = """create_clock -name clk -period 100 [get_ports clk]
set_input_delay 10 -clock clk [get_ports d]
set_output_delay 5 -clock clk [get_ports q]
"""
SPEF = """*SPEF "IEEE 1481-1998"
*DESIGN "top"
*DIVIDER /
*DELIMITER :
*BUS_DELIMITER [ ]
*T_UNIT 1 PS
*C_UNIT 1 FF
*R_UNIT 1 OHM
*L_UNIT 1 HENRY
*NAME_MAP
*1 n2
*2 g1
*3 r2
*D_NET *1 3.5
*CONN
*I *2:Z O *D BUF
*I *3:D I *L 1
*CAP
1 *1:1 2.5
2 *3:D 1
*RES
1 *2:Z *1:1 100
2 *1:1 *3:D 50
*END
"""
SCRIPT = """# comments are no commands
report_endpoint r2:D setup
report_worst setup 5
report_path r2:D setup

repower_gate g1 BUF
begin_eco
insert_buffer n2 b1 n3 BUF r2:D
set_parasitics n3 c #1 1000
commit_eco
report_wns hold
"""


def write_documents(folder, **changed):
    """Writes the small documents into a folder; gives the words of a run on them."""
    texts = {"early": LIBRARY, "late": LIBRARY, "netlist": NETLIST, "sdc": CONSTRAINTS, "spef": SPEF, "script": SCRIPT,
             **changed}
    ends = {"early": "early.lib", "late": "late.lib", "netlist": "top.v", "sdc": "top.sdc", "spef": "top.spef",
            "script": "s.eco"}
    for role, text in texts.items():
        pathlib.Path(folder, ends[role]).write_bytes(text.encode("latin-1"))
    return ["run", "early.lib", "late.lib", "top.v", "top.sdc", "top.spef", "1", "s.eco"]
