"""Writes a design of so many cells into a folder: design.py FOLDER CELLS.

It has blocks of some 500 cells, one in eleven a register, with some twenty levels of logic between registers, a
clock tree, and one output for each block; 50,000 cells have some 4,600 endpoints. The files are a library of twelve
cells, a netlist with the escaped names of a flattened hierarchy, constraints, and scripts.
"""
import pathlib
import random
import sys

BLOCK, LEAF, BRANCH, INPUTS = 500, 30, 12, 64
SLEWS = [20, 40, 80, 160, 320, 640, 1280]
LOADS = [5, 10, 20, 40, 80, 160, 320]
# each gate: its inputs, its sense, its drive, its delay without load in ps, and how often it comes
GATES = {
    "INV_X1": ("A", "negative_unate", 1, 22, 12),
    "INV_X4": ("A", "negative_unate", 4, 20, 4),
    "BUF_X2": ("A", "positive_unate", 2, 55, 4),
    "BUF_X4": ("A", "positive_unate", 4, 60, 2),
    "NAND2_X1": ("AB", "negative_unate", 1, 30, 30),
    "NAND2_X2": ("AB", "negative_unate", 2, 29, 6),
    "NOR2_X1": ("AB", "negative_unate", 1, 42, 14),
    "AOI21_X1": ("ABC", "negative_unate", 1, 52, 10),
    "OAI21_X1": ("ABC", "negative_unate", 1, 50, 10),
    "XOR2_X1": ("AB", "non_unate", 1, 75, 8),
    "CLKBUF_X8": ("A", "positive_unate", 8, 70, 0),
}
HEAD = """library (bench) {
  delay_model : table_lookup;
  time_unit : "1ps";
  capacitive_load_unit (1, ff);
  input_threshold_pct_rise : 50;
  input_threshold_pct_fall : 50;
  output_threshold_pct_rise : 50;
  output_threshold_pct_fall : 50;
  slew_lower_threshold_pct_rise : 20;
  slew_lower_threshold_pct_fall : 20;
  slew_upper_threshold_pct_rise : 80;
  slew_upper_threshold_pct_fall : 80;
  lu_table_template (delay_7x7) {
    variable_1 : input_net_transition;
    variable_2 : total_output_net_capacitance;
    index_1 ("20, 40, 80, 160, 320, 640, 1280");
    index_2 ("5, 10, 20, 40, 80, 160, 320");
  }
  lu_table_template (constraint_3x3) {
    variable_1 : related_pin_transition;
    variable_2 : constrained_pin_transition;
    index_1 ("20, 160, 640");
    index_2 ("20, 160, 640");
  }
"""


def table(name, template, axis, index, value):
    """A table of a template, with the columns of its own index."""
    rows = [", ".join(f"{value(x, y):.3f}" for y in axis[1]) for x in axis[0]]
    lines = ", \\\n          ".join(f'"{row}"' for row in rows)
    return f"      {name} ({template}) {{\n{index}        values ({lines});\n      }}\n"


def delays(base, drive):
    """The four tables of an arc, of a delay without load and a drive; falling edges are a little faster."""
    loads = [load * drive for load in LOADS]
    index = f'        index_2 ("{", ".join(f"{load:g}" for load in loads)}");\n'
    axis = (SLEWS, loads)
    text = ""
    for edge, factor in (("rise", 1.0), ("fall", 0.9)):
        text += table(
            f"cell_{edge}",
            "delay_7x7",
            axis,
            index,
            lambda slew, load: factor * (base + 0.11 * slew + 1.2 * load / drive),
        )
        text += table(
            f"{edge}_transition",
            "delay_7x7",
            axis,
            index,
            lambda slew, load: factor * (15 + 0.06 * slew + 1.7 * load / drive),
        )
    return text


def gate(name):
    inputs, sense, drive, base, _ = GATES[name]
    text = f"  cell ({name}) {{\n"
    for place, pin in enumerate(inputs):
        text += f"    pin ({pin}) {{ direction : input; capacitance : {(9 + place) * drive}; }}\n"
    text += "    pin (Y) {\n      direction : output;\n"
    for place, pin in enumerate(inputs):
        text += f'      timing () {{\n      related_pin : "{pin}";\n      timing_sense : {sense};\n'
        text += delays(base + 8 * place, drive) + "      }\n"
    return text + "    }\n  }\n"


def register():
    axis = ([20, 160, 640], [20, 160, 640])
    text = "  cell (DFF_X1) {\n    pin (CK) { direction : input; capacitance : 12; clock : true; }\n"
    text += "    pin (D) {\n      direction : input;\n      capacitance : 9;\n"
    for kind, base, factor in (("setup", 110, 0.2), ("hold", 15, -0.1)):
        text += f'      timing () {{\n      related_pin : "CK";\n      timing_type : {kind}_rising;\n'
        for edge in ("rise", "fall"):
            text += table(
                f"{edge}_constraint",
                "constraint_3x3",
                axis,
                "",
                lambda clock, data: base + factor * data - 0.05 * clock,
            )
        text += "      }\n"
    text += (
        '    }\n    pin (Q) {\n      direction : output;\n      timing () {\n      related_pin : "CK";\n     '
        ' timing_type : rising_edge;\n'
    )
    return text + delays(160, 1) + "      }\n    }\n  }\n"


class Netlist:
    """Instances, with the pins that are on each net."""

    def __init__(self):
        self.instances, self.sinks, self.inner = [], {}, []

    def net(self, name):
        self.inner.append(name)
        self.sinks[name] = []
        return name

    def place(self, cell, name, inputs, output):
        """An instance with its inputs, each a pin and a net, and its output."""
        for pin, net in inputs:
            self.sinks[net].append(f"{name}:{pin}")
        self.instances.append((cell, name, [*inputs, output]))

    def write(self, path, ports):
        def escaped(name):
            return name if name.replace("_", "").isalnum() or name.split("[")[0] in ports else f"\\{name} "

        with open(path, "w") as out:
            out.write(f"// A generated design of {len(self.instances)} cells.\nmodule bench ({', '.join(ports)});\n")
            out.writelines(f"  {way} {name};\n" for name, way in ports.items())
            out.writelines(f"  wire {escaped(net)};\n" for net in self.inner)
            for cell, name, pins in self.instances:
                joined = ", ".join(f".{pin}({escaped(net)})" for pin, net in pins)
                out.write(f"  {cell} {escaped(name)} ({joined});\n")
            out.write("endmodule\n")


class Block:
    """The nets of a block by their level, and those that nothing reads yet."""

    def __init__(self, rand, sources, others):
        self.rand, self.others = rand, others
        self.levels, self.unread = [list(sources)], [(net, 0) for net in sources]

    def first_input(self):
        return self.unread.pop(self.rand.randrange(len(self.unread)))

    def other_input(self, level):
        """A net of at most this level, seldom one of another block or of those that many gates read."""
        if self.others and self.rand.random() < 0.05:
            return self.rand.choice(self.others)
        if self.rand.random() < 0.08:
            return self.rand.choice(self.levels[0][:3])
        return self.rand.choice(self.levels[self.rand.randint(max(0, level - 4), level)])

    def add(self, net, level):
        while len(self.levels) <= level:
            self.levels.append([])
        self.levels[level].append(net)
        self.unread.append((net, level))


def grow(netlist, block, prefix, gates):
    """The gates of a block, each a level above its inputs."""
    names, weights = list(GATES), [GATES[name][4] for name in GATES]
    for number in range(gates):
        cell = block.rand.choices(names, weights)[0]
        net, level = block.first_input()
        nets = [net]
        while len(nets) < len(GATES[cell][0]):
            nets.append(block.other_input(level))
        output = netlist.net(f"{prefix}/n{number}")
        netlist.place(cell, f"{prefix}/U{number}", list(zip(GATES[cell][0], nets)), ("Y", output))
        block.add(output, level + 1)


def close(netlist, block, prefix, states, clocks, output):
    """The registers of a block, on the nets of its deepest levels, and the buffer of its output."""
    ends = sorted(block.unread, key=lambda end: -end[1])
    deep = [net for level in block.levels[len(block.levels) // 2:] for net in level] or [ends[0][0]]
    for number, state in enumerate(states):
        data = ends[number][0] if number < len(ends) else block.rand.choice(deep)
        pins = [("D", data), ("CK", clocks[number])]
        netlist.place("DFF_X1", f"{prefix}/state_reg[{number}]", pins, ("Q", state))
    netlist.place("BUF_X4", f"{prefix}/U_out", [("A", block.rand.choice(deep))], ("Y", output))


def clock_tree(netlist, registers):
    """The clock's net of each register: leaves of up to 30 registers, branches of up to 12 leaves, and a root."""
    leaves = -(-registers // LEAF)
    root = netlist.net("clk_root")
    netlist.place("CLKBUF_X8", "clock_root", [("A", "clk")], ("Y", root))
    nets = []
    for leaf in range(leaves):
        if leaf % BRANCH == 0:
            branch = netlist.net(f"clk_branch_{leaf // BRANCH}")
            netlist.place("CLKBUF_X8", f"clock_branch_{leaf // BRANCH}", [("A", root)], ("Y", branch))
        nets.append(netlist.net(f"clk_leaf_{leaf}"))
        netlist.place("CLKBUF_X8", f"clock_leaf_{leaf}", [("A", branch)], ("Y", nets[-1]))
    return [nets[register // LEAF] for register in range(registers)]


def build(cells):
    """A netlist of so many cells, the number of its blocks, and its registers for each block."""
    rand, netlist = random.Random(1), Netlist()
    blocks = max(1, cells // BLOCK)
    width = max(1, cells * 9 // 100 // blocks)
    inputs = [f"operand[{k}]" for k in range(INPUTS)]
    outputs = [f"result[{k}]" for k in range(blocks)]
    netlist.sinks = {net: [] for net in ["clk"] + inputs + outputs}
    clocks = clock_tree(netlist, blocks * width)
    left = cells - len(netlist.instances) - blocks * (width + 1)
    for number in range(blocks):
        prefix = f"core/block_{number}"
        states = [netlist.net(f"{prefix}/state[{k}]") for k in range(width)]
        others = [f"core/block_{number - 1}/state[{k}]" for k in range(3, width)] if number else []
        block = Block(rand, states + [rand.choice(inputs)], others)
        grow(netlist, block, prefix, left // blocks + (number < left % blocks))
        close(netlist, block, prefix, states, clocks[number * width:(number + 1) * width], outputs[number])
    return netlist, blocks


def constraints(blocks, period):
    inputs = " ".join(f"operand[{k}]" for k in range(INPUTS))
    outputs = " ".join(f"result[{k}]" for k in range(blocks))
    return f"""# The constraints of a generated design.
set_units -time ps -capacitance fF
current_design bench
create_clock -name clk -period {period} [get_ports clk]
set_propagated_clock [get_clocks clk]
set_clock_uncertainty -setup 50 [get_clocks clk]
set_clock_uncertainty -hold 20 [get_clocks clk]
set_timing_derate -early 0.95
set_timing_derate -late 1.05
set_input_transition 40 [get_ports clk]
set_input_transition 80 [get_ports {{{inputs}}}]
set_input_delay -max 900 -clock clk [get_ports {{{inputs}}}]
set_input_delay -min 700 -clock clk [get_ports {{{inputs}}}]
set_output_delay -max 400 -clock clk [get_ports {{{outputs}}}]
set_output_delay -min 0 -clock clk [get_ports {{{outputs}}}]
set_load 50 [get_ports {{{outputs}}}]
"""


def changes(netlist, count):
    """So many ECOs: gates of a stronger drive, and every third a buffer for the sinks of a net."""
    rand = random.Random(2)
    weak = [name for cell, name, _ in netlist.instances if cell == "NAND2_X1"]
    wide = [net for net, sinks in netlist.sinks.items() if len(sinks) > 3 and "/" in net]
    lines = []
    for number in range(count):
        if number % 3 == 2 and wide:
            net = rand.choice(wide)
            sinks = " ".join(netlist.sinks[net][2:])
            wide.remove(net)
            lines.append(f"insert_buffer {net} eco_buffer_{number} eco_net_{number} BUF_X4 {sinks}")
        elif weak:
            lines.append(f"repower_gate {weak.pop(rand.randrange(len(weak)))} NAND2_X2")
    return lines


def scripts(netlist):
    """The scripts by name: none, the first worst slack, reports, and one or ten ECOs behind them."""
    path = f"{netlist.instances[-2][1]}:D"
    reports = [
        "report_wns setup",
        "report_wns hold",
        "report_tns setup",
        "report_worst setup 10",
        f"report_path {path} setup",
    ]
    asked = [line for eco in changes(netlist, 10) for line in (eco, "report_wns setup")]
    return {"load": [], "first": reports[:1], "reports": reports, "eco1": reports + asked[:2], "eco10": reports + asked}


def write(folder, cells):
    """Writes the library, the netlist and the constraints of a design of so many cells; gives its netlist."""
    netlist, blocks = build(cells)
    ports = {"clk": "input", "operand": f"input [{INPUTS - 1}:0]", "result": f"output [{blocks - 1}:0]"}
    netlist.write(folder / "bench.v", ports)
    (folder / "bench.lib").write_text(HEAD + "".join(gate(name) for name in GATES) + register() + "}\n")
    (folder / "bench.sdc").write_text(constraints(blocks, 3300))
    return netlist


def main():
    if len(sys.argv) != 3 or "--help" in sys.argv:
        sys.exit(__doc__.strip())
    folder, cells = pathlib.Path(sys.argv[1]), int(sys.argv[2])
    for name, lines in scripts(write(folder, cells)).items():
        (folder / f"{name}.eco").write_text("".join(line + "\n" for line in lines))
