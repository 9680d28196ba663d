"""Makes the designs of import_check.py: libraries, netlists, constraints and parasitics as tools write them."""
import dataclasses
import gzip
import pathlib
import random

# Thresholds by which the wire delay of OpenSTA's simple_rc is Elmore's: of delays 100 * (1 - 1/e), of slews 50 and 50.
ELMORE = 63.2120558828558
SLEWS, LOADS = (5, 50, 200), (1, 10, 50)


@dataclasses.dataclass(slots=True)
class Case:
    """A design as both timers get it; files are names in its folder."""

    name: str
    folder: pathlib.Path
    early: list[str]
    late: list[str]
    netlist: list[str]
    top: str
    sdc: str
    project: str
    spef: list[str] = dataclasses.field(default_factory=list)


# ------------------------------------------------------------------------------------------------ libraries


@dataclasses.dataclass(frozen=True, slots=True)
class Kind:
    """How a library is written: its name, what delays are multiplied by, whether they depend on slews, and its units.
    """

    name: str
    factor: float
    has_slews: bool = True
    time: float = 1
    load: float = 1

    def header(self) -> str:
        unit = {1: "1ps", 1000: "1ns"}[self.time], {1: "(1, ff)", 1000: "(1, pf)"}[self.load]
        delay, (upper, lower) = (50, (80, 20)) if self.has_slews else (ELMORE, (50, 50))
        lines = [
            f"library ({self.name}) {{ delay_model : table_lookup;",
            f'  time_unit : "{unit[0]}"; capacitive_load_unit {unit[1]};',
            '  voltage_unit : "1V"; current_unit : "1mA"; pulling_resistance_unit : "1kohm"; leakage_power_unit : '
            '"1nW";',
            "  nom_process : 1; nom_voltage : 1.8; nom_temperature : 25;",
        ]
        for edge in ("rise", "fall"):
            lines.append(f"  input_threshold_pct_{edge} : {delay}; output_threshold_pct_{edge} : {delay};")
            lines.append(f"  slew_lower_threshold_pct_{edge} : {lower}; slew_upper_threshold_pct_{edge} : {upper};")
        slews, loads = self.axis(SLEWS, self.time), self.axis(LOADS, self.load)
        lines.append(
            "  lu_table_template (delay) { variable_1 : input_net_transition; variable_2 : "
            "total_output_net_capacitance;"
        )
        lines.append(f'    index_1 ("{slews}"); index_2 ("{loads}"); }}')
        lines.append(
            "  lu_table_template (need) { variable_1 : related_pin_transition; variable_2 : constrained_pin_transition;"
        )
        lines.append(f'    index_1 ("{slews}"); index_2 ("{slews}"); }}')
        return "\n".join(lines)

    @staticmethod
    def axis(values: tuple[int, ...], unit: float) -> str:
        return ", ".join(f"{it / unit:g}" for it in values)

    def delay(self, base: float, slope: float) -> str:
        slewed = 1 if self.has_slews else 0
        table = [[self.factor * (base + slope * y) + slewed * (0.1 * x + 0.001 * x * y) for y in LOADS] for x in SLEWS]
        return self.values(table)

    def need(self, base: float) -> str:
        slewed = 1 if self.has_slews else 0
        return self.values([[base + slewed * (0.05 * y - 0.02 * x) for y in SLEWS] for x in SLEWS])

    def values(self, table: list[list[float]]) -> str:
        return (
            "values (" + ", ".join('"' + ", ".join(f"{it / self.time:.6f}" for it in row) + '"' for row in table) + ");"
        )

    def arc(self, related: str, sense: str, base: float, slope: float, more: str = "") -> str:
        said = f"timing_sense : {sense};" if sense else ""
        return (
            f'timing () {{ related_pin : "{related}"; {said} {more} cell_rise (delay) {{ {self.delay(base, slope)} }} '
            f"cell_fall (delay) {{ {self.delay(base * 1.1, slope)} }} rise_transition (delay) "
            f"{{ {self.delay(base / 2, slope)} }} "
            f"fall_transition (delay) {{ {self.delay(base * 0.45, slope)} }} }}"
        )

    def test(self, clock: str, kind: str, base: float) -> str:
        return (
            "timing () "
            f'{{ related_pin : "{clock}"; timing_type : {kind}; rise_constraint (need) {{ {self.need(base)} }} '
            f"fall_constraint (need) {{ {self.need(base * 1.2)} }} }}"
        )

    def input(self, name: str, load: float, more: str = "") -> str:
        return f"    pin ({name}) {{ direction : input; capacitance : {load / self.load:g}; {more} }}"

    def output(self, name: str, function: str, *arcs: str) -> str:
        return f'    pin ({name}) {{ direction : output; function : "{function}"; {" ".join(arcs)} }}'

    def gate(self, name: str, function: str, inputs: list[tuple[str, float, list[str]]]) -> str:
        """A gate with the output Y; each input has its load and its arcs."""
        pins = [self.input(pin, load) for pin, load, _ in inputs]
        arcs = [arc for _, _, those in inputs for arc in those]
        return "\n".join([f"  cell ({name}) {{ area : 1;", *pins, self.output("Y", function, *arcs), "  }"])

    def register(self, name: str) -> str:
        tests = self.test("CK", "setup_rising", 40 / self.factor) + self.test("CK", "hold_rising", 6)
        edge = "timing_type : rising_edge;"
        return "\n".join(
            [
                f'  cell ({name}) {{ area : 4; ff (IQ, IQN) {{ clocked_on : "CK"; next_state : "D"; }}',
                self.input("D", 1.25, tests),
                self.input("CK", 0.9, "clock : true;"),
                self.output("Q", "IQ", self.arc("CK", "", 60, 1.4, edge)),
                self.output("QN", "IQN", self.arc("CK", "", 66, 1.4, edge)),
                "  }",
            ]
        )


POSITIVE, NEGATIVE, NEITHER = "positive_unate", "negative_unate", "non_unate"


def exclusive_or(kind: Kind) -> str:
    """A gate whose arcs have conditions."""
    inputs = []
    for pin, load, other in (("A", 1.6, "B"), ("B", 1.7, "A")):
        follows = kind.arc(pin, POSITIVE, 30, 1.3, f'when : "!{other}";')
        inputs.append((pin, load, [follows, kind.arc(pin, NEGATIVE, 35, 1.3, f'when : "{other}";')]))
    return kind.gate("XOR2", "A^B", inputs)


def standard_cells(kind: Kind) -> str:
    """A library of some gates and a register."""
    gates = [
        ("BUF", "A", [("A", 1.1, POSITIVE, 20, 1.5)]),
        ("CKBUF", "A", [("A", 1.5, POSITIVE, 25, 0.7)]),
        ("INV", "!A", [("A", 1.0, "", 10, 1.8)]),
        ("NAND2", "!(A B)", [("A", 1.2, NEGATIVE, 14, 1.9), ("B", 1.3, NEGATIVE, 16, 1.9)]),
        ("AND2", "A*B", [("A", 1.2, POSITIVE, 24, 1.2), ("B", 1.3, POSITIVE, 26, 1.2)]),
        (
            "MUX2",
            "(A !S)+(B S)",
            [("A", 1.4, POSITIVE, 33, 1.1), ("B", 1.45, POSITIVE, 36, 1.1), ("S", 1.8, NEITHER, 40, 1.1)],
        ),
    ]
    cells = [
        kind.gate(
            name,
            function,
            [(pin, load, [kind.arc(pin, sense, base, slope)]) for pin, load, sense, base, slope in inputs],
        )
        for name, function, inputs in gates
    ]
    tie = '  cell (TIELO) { area : 1; pin (Y) { direction : output; function : "0"; } }'
    return "\n".join([kind.header(), *cells, exclusive_or(kind), tie, kind.register("DFF"), "}"]) + "\n"


def bus(kind: Kind, name: str, width: int, load: float, tests: str) -> str:
    """An input bus, whose bits have the same tests."""
    return (
        f"    bus ({name}) {{ bus_type : bus{width}; direction : input; capacitance : {load / kind.load:g};\n"
        f"      pin ({name}[{width - 1}:0]) {{ {tests} }} }}"
    )


def memory(kind: Kind) -> str:
    """A library with one macro, whose pins are buses."""
    tests = kind.test("CK", "setup_rising", 55 / kind.factor) + kind.test("CK", "hold_rising", 12)
    types = [
        f"  type (bus{it}) {{ base_type : array; data_type : bit; bit_width : {it};\n"
        f"    bit_from : {it - 1}; bit_to : 0; downto : true; }}"
        for it in (3, 4)
    ]
    edge = kind.arc("CK", "", 150, 2.1, "timing_type : rising_edge;")
    lines = [kind.header(), *types, "  cell (RAM8X4) { area : 400; interface_timing : true;"]
    lines += [kind.input("CK", 3.5, "clock : true;"), kind.input("WE", 2.2, tests)]
    lines += [bus(kind, "A", 3, 2.5, tests), bus(kind, "D", 4, 1.9, tests)]
    lines += [f"    bus (Q) {{ bus_type : bus4; direction : output; pin (Q[3:0]) {{ {edge} }} }}", "  }", "}"]
    return "\n".join(lines) + "\n"


def write(folder: pathlib.Path, texts: dict[str, str]) -> None:
    """Writes files, compressed where their names end so."""
    folder.mkdir(parents=True, exist_ok=True)
    for name, text in texts.items():
        data = text.encode()
        (folder / name).write_bytes(gzip.compress(data, mtime=0) if name.endswith(".gz") else data)


# ---------------------------------------------------------------------------------------------- a hierarchy with blocks

STAGE = """module stage (ck, d, q, p);
  input ck; input [1:0] d; output q, p;
  wire [1:0] n; wire m, k;
  DFF r0 (.D(d[0]), .CK(ck), .Q(n[0]));
  DFF r1 (.D(d[1]), .CK(ck), .Q(n[1]));
  mix x0 (n[0], n[1], m);
  INV g0 (.A(m), .Y(k));
  BUF g1 (.A(k), .Y(q));
  assign p = d[1];
endmodule
module mix (a, b, y);
  input a, b; output y; wire t;
  NAND2 g0 (.A(a), .B(b), .Y(t));
  XOR2 g1 (.A(t), .B(b), .Y(y));
endmodule
"""
TOP = """module chip (clk, in, out, par);
  input clk; input [2:0] in; output [1:0] out; output par;
  wire c0, c1, loop, feed; wire [1:0] mid;
  CKBUF cb0 (.A(clk), .Y(c0));
  CKBUF cb1 (.A(c0), .Y(c1));
  stage u1 (.ck(c0), .d({in[1], in[0]}), .q(mid[0]), .p(feed));
  stage u2 (.ck(c1), .d({mid[0], mid[1]}), .q(loop), .p());
  BUF b0 (.A(feed), .Y(mid[1]));
  DFF ro (.D(loop), .CK(c1), .Q(out[0]));
  AND2 a0 (.A(in[2]), .B(loop), .Y(out[1]));
  assign par = out[0];
endmodule
"""
BLOCKS_SDC = """create_clock -name clk -period 500 [get_ports clk]
set_propagated_clock [get_clocks clk]
set_input_delay 50 -clock clk [get_ports in*]
set_output_delay 60 -clock clk [all_outputs]
set_multicycle_path 2 -from [get_pins u1/r0/CK] -to [get_cells u2/r*]
set_false_path -from [get_cells u2/r1] -to [get_ports par]
"""
# The wires of each net: its name, the driver's node, and rows from a node to a node. A node with a slash is a pin, a
# number an inner node.
STAGE_WIRES = {
    "ck": ["ck 1", "1 r0/CK", "1 r1/CK"],
    "d[0]": ["d[0] 1", "1 r0/D"],
    "d[1]": ["d[1] 1", "1 r1/D", "1 p"],
    "n[0]": ["r0/Q 1", "1 x0/g0/A"],
    "n[1]": ["r1/Q 1", "1 2", "2 x0/g0/B", "1 x0/g1/B"],
    "x0/t": ["x0/g0/Y 1", "1 x0/g1/A"],
    "m": ["x0/g1/Y 1", "1 g0/A"],
    "k": ["g0/Y g1/A"],
    "q": ["g1/Y 1", "1 q"],
}
CHIP_WIRES = {
    "clk": ["clk 1", "1 cb0/A"],
    "c0": ["cb0/Y 1", "1 cb1/A", "1 2", "2 u1/ck"],
    "c1": ["cb1/Y 1", "1 u2/ck", "1 ro/CK"],
    "in[0]": ["in[0] 1", "1 u1/d[0]"],
    "in[1]": ["in[1] 1", "1 u1/d[1]"],
    "feed": ["u1/p 1", "1 b0/A"],
    "mid[0]": ["u1/q 1", "1 u2/d[1]"],
    "mid[1]": ["b0/Y 1", "1 u2/d[0]"],
    "loop": ["u2/q 1", "1 ro/D", "1 2", "2 a0/B"],
}
# Which nets of the blocks go on as which nets of the chip, each with the end of the block at which they meet.
MEETING = {
    "c0": [("u1", "ck")],
    "c1": [("u2", "ck")],
    "in[0]": [("u1", "d[0]")],
    "in[1]": [("u1", "d[1]")],
    "mid[1]": [("u2", "d[0]")],
    "mid[0]": [("u1", "q"), ("u2", "d[1]")],
    "loop": [("u2", "q")],
}


@dataclasses.dataclass(slots=True)
class Rows:
    """The resistors and capacitances of a net, in ohm and fF, between nodes by their names."""

    ress: list[tuple[str, str, float]]
    caps: list[tuple[str, float]]


def drawn(wires: dict[str, list[str]], seed: int) -> dict[str, Rows]:
    """Values for all wires."""
    draw, found = random.Random(seed), {}
    for net, rows in wires.items():
        pairs = [it.split() for it in rows]
        found[net] = Rows(
            [(one, other, round(draw.uniform(20, 200), 2)) for one, other in pairs],
            [(other, round(draw.uniform(0.5, 3), 3)) for _, other in pairs],
        )
    return found


SPEF_HEAD = """*SPEF "IEEE 1481-1998"
*DESIGN "{name}"
*DATE "none"
*VENDOR "none"
*PROGRAM "import_designs.py"
*VERSION "1"
*DESIGN_FLOW "none"
*DIVIDER /
*DELIMITER :
*BUS_DELIMITER [ ]
*T_UNIT 1 PS
*C_UNIT 1 {cap}
*R_UNIT 1 {res}
*L_UNIT 1 HENRY
"""


def spef(name: str, nets: dict[str, Rows], units: tuple[str, str]) -> str:
    """Parasitics with a name map; *C_UNIT and *R_UNIT as given."""
    cap_unit, res_unit = {"FF": 1, "PF": 1000}[units[0]], {"OHM": 1, "KOHM": 1000}[units[1]]
    indexes: dict[str, int] = {}

    def word(node: str, net: str) -> str:
        if node.isdigit():
            return f"*{indexes.setdefault(net, len(indexes) + 1)}:{node}"
        head, slash, pin = node.rpartition("/")
        return f"*{indexes.setdefault(head, len(indexes) + 1)}:{pin}" if slash else node

    body = []
    for net, rows in nets.items():
        nodes = list(dict.fromkeys(it for one, other, _ in rows.ress for it in (one, other) if not it.isdigit()))
        body.append(
            f"*D_NET *{indexes.setdefault(net, len(indexes) + 1)} "
            f"{sum(it for _, it in rows.caps) / cap_unit:.9f}\n*CONN"
        )
        body += [f"*{'I' if '/' in it else 'P'} {word(it, net)} {'B'}" for it in nodes]
        body += [
            "*CAP",
            *(f"{at} {word(node, net)} {value / cap_unit:.9f}" for at, (node, value) in enumerate(rows.caps, 1)),
        ]
        body += [
            "*RES",
            *(
                f"{at} {word(one, net)} {word(other, net)} {value / res_unit:.9f}"
                for at, (one, other, value) in enumerate(rows.ress, 1)
            ),
            "*END",
        ]
    head = SPEF_HEAD.format(name=name, cap=units[0], res=units[1])
    return (
        head + "*NAME_MAP\n" + "".join(f"*{number} {it}\n" for it, number in indexes.items()) + "\n".join(body) + "\n"
    )


def whole_wires(chip: dict[str, Rows], stages: dict[str, dict[str, Rows]]) -> dict[str, Rows]:
    """The same wires as one tree a net of the flat design, for a timer that does not join them itself."""
    whole: dict[str, Rows] = {}
    joined = {(block, end): net for net, ends in MEETING.items() for block, end in ends}
    for block, nets in {"": chip, **stages}.items():
        for net, rows in nets.items():
            into = "in[1]" if net == "feed" else joined.get((block, net), f"{block}/{net}" if block else net)

            def word(node: str, block: str = block, net: str = net) -> str:
                return f"{block}.{net}.{node}" if node.isdigit() else f"{block}/{node}" if block else node

            target = whole.setdefault(into, Rows([], []))
            target.ress += [(word(one), word(other), value) for one, other, value in rows.ress]
            target.caps += [(word(node), value) for node, value in rows.caps]
    return {net: numbered(rows) for net, rows in whole.items()}


ENDS = {f"{block}/{end}" for block in ("u1", "u2") for end in ("ck", "d[0]", "d[1]", "q", "p")}


def numbered(rows: Rows) -> Rows:
    """Inner nodes, and the ends of blocks, by numbers of their own."""
    numbers: dict[str, str] = {}

    def word(node: str) -> str:
        is_inner = node.isdigit() or node.count(".") == 2 or node in ENDS
        return numbers.setdefault(node, str(len(numbers) + 1)) if is_inner else node

    return Rows(
        [(word(one), word(other), value) for one, other, value in rows.ress],
        [(word(node), value) for node, value in rows.caps],
    )


def blocks(folder: pathlib.Path) -> Case:
    """A hierarchy of three levels with two blocks, each with parasitics of its own."""
    chip, stages = drawn(CHIP_WIRES, 1), {"u1": drawn(STAGE_WIRES, 2), "u2": drawn(STAGE_WIRES, 3)}
    early, late = Kind("fast", 0.8, has_slews=False), Kind("slow", 1.0, has_slews=False)
    write(
        folder,
        {
            "early.lib": standard_cells(early),
            "late.lib": standard_cells(late),
            "stage.v": STAGE,
            "chip.v": TOP,
            "chip.sdc": BLOCKS_SDC,
            "chip.spef.gz": spef("chip", chip, ("PF", "OHM")),
            "u1.spef": spef("stage", stages["u1"], ("FF", "KOHM")),
            "u2.spef": spef("stage", stages["u2"], ("FF", "OHM")),
            "whole.spef": spef("chip", whole_wires(chip, stages), ("FF", "OHM")),
            "project.toml": """early = "early.lib"
late = "late.lib"
netlist = ["stage.v", "chip.v"]
top = "chip"
sdc = "chip.sdc"
spef = ["chip.spef.gz", { file = "u1.spef", instance = "u1" }, { file = "u2.spef", instance = "u2" }]
""",
        },
    )
    return Case(
        "blocks",
        folder,
        ["early.lib"],
        ["late.lib"],
        ["stage.v", "chip.v"],
        "chip",
        "chip.sdc",
        "project.toml",
        ["whole.spef"],
    )


# -------------------------------------------------------------------------------------------- two libraries and a macro

MACRO_V = """module store (clk, adr, dat, we, out, ok);
  input clk, we; input [2:0] adr; input [3:0] dat; output [3:0] out; output ok;
  wire c0, c1, w0; wire [2:0] a; wire [3:0] d, q;
  CKBUF cb0 (.A(clk), .Y(c0));
  CKBUF cb1 (.A(c0), .Y(c1));
  DFF ra0 (.D(adr[0]), .CK(c0), .Q(a[0]));
  DFF ra1 (.D(adr[1]), .CK(c0), .Q(a[1]));
  DFF ra2 (.D(adr[2]), .CK(c0), .Q(a[2]));
  DFF rw (.D(we), .CK(c0), .Q(w0));
  RAM8X4 ram (.CK(c1), .WE(w0), .A(a), .D({dat[3:1], d[0]}), .Q(q));
  AND2 g0 (.A(dat[0]), .B(a[2]), .Y(d[0]));
  DFF ro0 (.D(q[0]), .CK(c1), .Q(out[0]));
  DFF ro1 (.D(q[1]), .CK(c1), .Q(out[1]));
  XOR2 g1 (.A(q[2]), .B(q[3]), .Y(d[1]));
  DFF ro2 (.D(d[1]), .CK(c0), .Q(out[2]));
  NAND2 g2 (.A(q[3]), .B(1'b1), .Y(out[3]));
  INV g3 (.A(w0), .Y(ok));
endmodule
"""
MACRO_SDC = """set period 0.9
create_clock -name clk -period $period [get_ports clk]
set_propagated_clock [all_clocks]
foreach name {adr dat we} { set_input_delay [expr $period * 0.2] -clock clk [get_ports $name*] }
set_output_delay -max 0.25 -clock clk [get_ports {out[*] ok}]
set_output_delay -min -0.05 -clock clk [get_ports {out[*] ok}]
set_input_transition 0.03 [all_inputs]
set_load -pin_load 0.004 [all_outputs]
set_false_path -to [get_pins ram/A[2]]
set_multicycle_path 2 -from [get_pins ram/CK] -to [get_pins ro2/D]
"""


def macro(folder: pathlib.Path) -> Case:
    """Standard cells in ns and pF, a macro with buses in ps and fF, all of it compressed."""
    texts = {}
    for side, factor in (("early", 0.8), ("late", 1.0)):
        texts[f"{side}.lib"] = standard_cells(Kind(f"cells_{side}", factor, time=1000, load=1000))
        texts[f"ram_{side}.lib"] = memory(Kind(f"ram_{side}", factor))
    texts |= {f"{name}.gz": text for name, text in texts.items()} | {
        "store.v": MACRO_V,
        "store.v.gz": MACRO_V,
        "store.sdc": MACRO_SDC,
    }
    texts[
        "project.toml"
    ] = """early = ["early.lib.gz", "ram_early.lib.gz"]
late = ["late.lib.gz", "ram_late.lib.gz"]
netlist = "store.v.gz"
sdc = "store.sdc"
"""
    write(folder, texts)
    return Case(
        "macro",
        folder,
        ["early.lib", "ram_early.lib"],
        ["late.lib", "ram_late.lib"],
        ["store.v"],
        "store",
        "store.sdc",
        "project.toml",
    )


# ------------------------------------------------------------------------------------------------ constraints in Tcl

MODES_V = """module modes (clk, clk2, sel, a, b, c, d, y, z, w);
  input clk, clk2, sel, c; input [3:0] a, b; input d; output [3:0] y; output z, w;
  wire ck0, ck1, ckx, n1, n2, n3, n4, n5, n6, n7, q1, q2, q3, q4, t0;
  wire [3:0] qa, s;
  CKBUF cb0 (.A(clk), .Y(ck0));
  CKBUF cb1 (.A(ck0), .Y(ck1));
  CKBUF cb2 (.A(clk2), .Y(ckx));
  DFF ra_0 (.D(a[0]), .CK(ck1), .Q(qa[0]));
  DFF ra_1 (.D(a[1]), .CK(ck1), .Q(qa[1]));
  DFF ra_2 (.D(a[2]), .CK(ck1), .Q(qa[2]));
  DFF ra_3 (.D(a[3]), .CK(ck1), .Q(qa[3]));
  XOR2 x0 (.A(qa[0]), .B(b[0]), .Y(s[0]));
  XOR2 x1 (.A(qa[1]), .B(b[1]), .Y(s[1]));
  AND2 x2 (.A(qa[2]), .B(b[2]), .Y(s[2]));
  NAND2 x3 (.A(qa[3]), .B(b[3]), .Y(s[3]));
  BUF o0 (.A(s[0]), .Y(y[0]));
  BUF o1 (.A(s[1]), .Y(y[1]));
  INV o2 (.A(s[2]), .Y(y[2]));
  INV o3 (.A(s[3]), .Y(y[3]));
  DFF r1 (.D(d), .CK(ck1), .Q(q1));
  DFF r2 (.D(n4), .CK(ck0), .Q(q2), .QN(n7));
  DFF r3 (.D(n5), .CK(ckx), .Q(q3));
  DFF r4 (.D(n6), .CK(ck1), .Q(q4));
  NAND2 g1 (.A(q1), .B(s[0]), .Y(n1));
  XOR2 g2 (.A(n1), .B(c), .Y(n2));
  MUX2 g3 (.A(n2), .B(q2), .S(sel), .Y(n3));
  INV g4 (.A(n3), .Y(n4));
  BUF g5 (.A(q2), .Y(n5));
  AND2 g6 (.A(q3), .B(n7), .Y(n6));
  TIELO t (.Y(t0));
  MUX2 g7 (.A(q4), .B(q1), .S(t0), .Y(z));
  NAND2 g8 (.A(q4), .B(c), .Y(w));
endmodule
"""
MODES_SDC = """# Constraints as people write them for synthesis: 60 commands, of which some run several times.
set PERIOD 600.0
set IO_SHARE 0.15
set IN_PORTS {c d sel}
set has_test 1
proc share {period part} { return [expr {$period * $part}] }
proc constrain_inputs {clock names value} {
  foreach name $names {
    set_input_delay -max [share $value 1.0] -clock $clock [get_ports $name]
    set_input_delay -min [share $value 0.4] -clock $clock [get_ports $name]
  }
}
create_clock -name clk -period $PERIOD [get_ports clk]
create_clock -name clk2 -period $PERIOD -waveform [list 100 [expr 100 + $PERIOD / 2]] [get_ports clk2]
create_clock -name io -period $PERIOD
set_propagated_clock [get_clocks {clk clk2}]
set_clock_uncertainty -setup 25 [all_clocks]
set_clock_uncertainty -hold 9 [get_clocks clk*]
set_clock_latency -source 40 [get_clocks {clk clk2}]
set_clock_latency 15 [get_clocks io]
set_input_transition 35 [get_ports {clk clk2}]
constrain_inputs clk $IN_PORTS [share $PERIOD $IO_SHARE]
for {set bit 0} {$bit < 4} {incr bit} {
  set_input_delay [expr 20 + 5 * $bit] -clock io [get_ports a[$bit]]
  if {$bit % 2} {
    set_input_transition 50 [get_ports a[$bit]]
  } else {
    set_input_transition -max 60 [get_ports a[$bit]]
    set_input_transition -min 45 [get_ports a[$bit]]
  }
}
set_input_delay 70 -clock clk2 [get_ports b[*]]
set_input_delay 90 -clock clk2 -add_delay [get_ports b[0]]
set_driving_cell -lib_cell BUF [get_ports b[*]]
set_driving_cell -lib_cell INV -input_transition_rise 30 -input_transition_fall 40 [get_ports $IN_PORTS]
set_output_delay [share $PERIOD 0.2] -clock io [get_ports y]
set_output_delay -min -8 -clock io [get_ports y]
set_output_delay -max -rise [share $PERIOD 0.21] -clock io [get_ports y[3]]
set_output_delay -add_delay -max [share $PERIOD 0.22] -clock io [get_ports {y[1] y[2]}]
set outputs [list [get_ports z] [get_ports w]]
foreach port $outputs { set_output_delay 55 -clock clk $port }
set_load 4 [all_outputs]
set_load -max 6 [get_ports {y[0] y[1]}]
set_load -min 3 [get_ports y[*]]
set_load [expr {4 + 0.5}] [get_ports w]
if {$has_test} { set_case_analysis 0 [get_ports sel] }
set_disable_timing -from A -to Y [get_cells g2]
set_disable_timing [get_pins x3/B]
set_clock_groups -asynchronous -name halves -group [get_clocks clk2] -group [get_clocks {io}]
set_false_path -from [get_clocks clk2] -to [get_cells r4]
set_false_path -hold -from [get_ports b*] -to [get_ports y[3]]
set_false_path -setup -from [get_ports c] -to [get_ports w]
set_false_path -from [get_pins ra_1/CK] -to [get_ports {y[0] y[1]}]
set_false_path -through [get_pins g5/A]
set_multicycle_path 2 -setup -to [get_cells r2]
set_multicycle_path 1 -hold -to [get_cells r2]
set_multicycle_path 3 -setup -from [get_clocks clk] -to [get_clocks clk2]
set_multicycle_path 2 -hold -from [get_clocks clk] -to [get_clocks clk2]
set_multicycle_path 2 -setup -from [get_cells ra_*] -to [get_clocks io]
set_multicycle_path 1 -hold -from [get_cells ra_*] -to [get_clocks io]
set_multicycle_path 2 -from [list [get_ports d] [get_ports c]] -to [get_cells r1]
set_timing_derate -early 0.95
set_timing_derate -late -cell_delay 1.04
set_max_fanout 20 [current_design]
set_max_transition 400 [current_design]
set_max_capacitance 200 [current_design]
set_max_area 0
group_path -name outputs -to [all_outputs]
group_path -name inputs -from [get_ports {c d}]
"""


def modes(folder: pathlib.Path) -> Case:
    """Constraints in Tcl, with constants, driving cells, latencies, clock groups and disabled arcs."""
    write(
        folder,
        {
            "early.lib": standard_cells(Kind("fast", 0.8)),
            "late.lib": standard_cells(Kind("slow", 1.0)),
            "modes.v": MODES_V,
            "modes.sdc": MODES_SDC,
            "project.toml": 'early = "early.lib"\nlate = "late.lib"\nnetlist = "modes.v"\nsdc = "modes.sdc"\n',
        },
    )
    return Case("modes", folder, ["early.lib"], ["late.lib"], ["modes.v"], "modes", "modes.sdc", "project.toml")


MAKERS = {"blocks": blocks, "macro": macro, "modes": modes}
