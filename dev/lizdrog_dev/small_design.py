"""Small random designs in which paths meet again: gates of few different delays, so that slacks tie, two clocks with
trees of buffers
and inverters, a clock without a port, registers of both edges and of two clocks, data from clock nets, exceptions, and
questions about paths. A design has no more than MOST paths to an endpoint, so that they can be listed. `write` draws
the documents of a design and a script.
"""

MOST = 1500
# each gate: its inputs, its sense and its late delays (rise, fall) at no load; the early library has some ps less, or
# more
GATES = {
    "BUF_A": ("A", "positive_unate", 20, 20),
    "BUF_B": ("A", "positive_unate", 30, 30),
    "INV_A": ("A", "negative_unate", 10, 10),
    "INV_B": ("A", "negative_unate", 20, 10),
    "AND_A": ("AB", "positive_unate", 20, 20),
    "AND_B": ("AB", "positive_unate", 30, 20),
    "NAND_A": ("AB", "negative_unate", 10, 20),
    "NAND_B": ("AB", "negative_unate", 20, 20),
    "XOR_A": ("AB", "non_unate", 30, 30),
    "AO_A": ("ABC", "positive_unate", 30, 30),
}
SAME = [["BUF_A", "BUF_B"], ["INV_A", "INV_B"], ["AND_A", "AND_B"], ["NAND_A", "NAND_B"]]
# each register: the edges of its clock pins that launch, and those that test its data pin
REGISTERS = {
    "DFF_R": ([("CK", "rising")], [("CK", "rising")]),
    "DFF_F": ([("CK", "falling")], [("CK", "falling")]),
    "DFF_T": ([("CK", "rising")], [("CK", "rising"), ("CK", "falling")]),
    "DFF_D": ([("CA", "rising")], [("CA", "rising"), ("CB", "rising")]),
}
INPUTS, OUTPUTS, CLOCKS = ["a", "b", "c"], ["x", "y", "z"], ["k", "m"]


# ---------------------------------------------------------------------------------------------- the library

def arc(related, about, rise, fall, load):
    """An arc with delays that grow with the load by so much, and slews that do not."""
    tables = "".join(f'    cell_{edge} (ld) {{ values ("{delay}, {delay + load * 10}"); }} {edge}_transition (scalar) '
                     f'{{ values ("{5 + load}"); }}\n' for edge, delay in (("rise", rise), ("fall", fall)))
    return f'   timing () {{ related_pin : "{related}"; {about};\n{tables}   }}\n'


def library(spread, load):
    """The library of a split: its delays are less by the spread, and grow by so much for each unit of load."""
    text = 'library (small) { time_unit : "1ps"; capacitive_load_unit (1, ff);\n'
    text += ' lu_table_template (ld) { variable_1 : total_output_net_capacitance; index_1 ("0, 10"); }\n'
    for name, (pins, sense, rise, fall) in GATES.items():
        text += f" cell ({name}) {{\n" + "".join(f"  pin ({pin}) {{ direction : input; capacitance : 1; }}\n"
                                                 for pin in pins)
        arcs = "".join(arc(pin, f"timing_sense : {sense}", rise - spread, fall - spread, load) for pin in pins)
        text += f"  pin (Z) {{ direction : output;\n{arcs}  }} }}\n"
    for name, (launches, tests) in REGISTERS.items():
        clocks = sorted({pin for pin, _ in tests})
        text += f" cell ({name}) {{\n" + "".join(f"  pin ({pin}) {{ direction : input; capacitance : 1; }}\n"
                                                 for pin in clocks)
        text += "  pin (D) { direction : input; capacitance : 1;\n"
        for pin, edge in tests:
            for kind, need in (("setup", 10), ("hold", 2)):
                tables = "".join(f' {way}_constraint (scalar) {{ values ("{need}"); }}' for way in ("rise", "fall"))
                text += f'   timing () {{ related_pin : "{pin}"; timing_type : {kind}_{edge};{tables} }}\n'
        arcs = "".join(arc(pin, f"timing_type : {edge}_edge", 20 - spread, 20 - spread, load) for pin, edge in launches)
        text += f"  }}\n  pin (Q) {{ direction : output;\n{arcs}  }} }}\n"
    return text + "}\n"


# ---------------------------------------------------------------------------------------------- the netlist

class Small:
    """Instances with their cells, the net of each pin, and drivers and sinks of each net; gates are made after the nets
    that they read."""

    def __init__(self, rand):
        self.rand, self.cells, self.nets, self.driver, self.sinks, self.paths = rand, {}, {}, {}, {}, {}
        for port in INPUTS + CLOCKS:
            self.driver[port], self.sinks[port], self.paths[port] = port, [], 1
        self.clock_nets = {clock: [clock] for clock in CLOCKS}
        self.clock_tree()
        self.registers()
        self.gates()
        self.ends()

    def place(self, cell, name, joined, output, net):
        """An instance on nets, and the number of paths to the net that it drives."""
        self.cells[name], self.nets[name] = cell, {**joined, output: net}
        for pin, read in joined.items():
            self.sinks[read].append(f"{name}:{pin}")
        self.driver[net], self.sinks[net] = f"{name}:{output}", []
        ways = 2 if cell.startswith("XOR") else 1
        self.paths[net] = 2 if output == "Q" else ways * sum(self.paths[read] for read in joined.values())

    def clock_tree(self):
        for clock in CLOCKS:
            for k in range(self.rand.randrange(5)):
                above, net = self.rand.choice(self.clock_nets[clock]), f"{clock}_{k}"
                self.place(self.rand.choice(["BUF_A", "BUF_B", "INV_A"]), f"tree_{clock}{k}", {"A": above}, "Z", net)
                self.clock_nets[clock].append(net)

    def registers(self):
        self.waiting = []
        for k in range(self.rand.randrange(2, 5)):
            cell, name = self.rand.choice(list(REGISTERS)), f"r{k}"
            clocks = sorted({pin for pin, _ in REGISTERS[cell][1]})
            joined = {pin: self.rand.choice(self.clock_nets[self.rand.choice("kkkm")]) for pin in clocks}
            if self.rand.random() < 0.05:
                joined[clocks[0]] = "a"
            self.place(cell, name, joined, "Q", f"q{k}")
            self.waiting.append(name)

    def gates(self):
        """Gates that read late nets more often, as long as no net has too many paths."""
        ready = INPUTS + [f"q{k}" for k in range(len(self.waiting))]
        narrow = self.rand.random() < 0.5
        for k in range(self.rand.randrange(3, 25)):
            cell = self.rand.choice(list(GATES))
            late = ready[-3:] if narrow else ready[-6:]
            reads = [self.rand.choice(late if self.rand.random() < 0.7 else ready) for _ in GATES[cell][0]]
            if self.rand.random() < 0.06:
                reads[0] = self.rand.choice(self.clock_nets[self.rand.choice(CLOCKS)])
            if sum(self.paths[net] for net in reads) * 2 <= MOST:
                self.place(cell, f"g{k}", dict(zip(GATES[cell][0], reads)), "Z", f"n{k}")
                ready.append(f"n{k}")
        self.ready = ready

    def ends(self):
        for name in self.waiting:
            if self.rand.random() < 0.04:
                continue
            net = self.rand.choice(self.ready[-6:])
            self.nets[name]["D"] = net
            self.sinks[net].append(f"{name}:D")
        for port in OUTPUTS:
            self.place(self.rand.choice(["BUF_A", "INV_A", "XOR_A"]), f"out_{port}", {}, "Z", port)
            for pin in GATES[self.cells[f"out_{port}"]][0]:
                net = self.rand.choice(self.ready[-5:])
                self.nets[f"out_{port}"][pin] = net
                self.sinks[net].append(f"out_{port}:{pin}")
            self.sinks[port].append(port)

    def verilog(self):
        ports = INPUTS + CLOCKS + OUTPUTS
        wires = [net for net in self.driver if net not in ports]
        text = f"module small ({', '.join(ports)});\n input {', '.join(INPUTS + CLOCKS)};\n"
        text += f" output {', '.join(OUTPUTS)};\n wire {', '.join(wires)};\n"
        for name, cell in self.cells.items():
            text += f" {cell} {name} ({', '.join(f'.{pin}({net})' for pin, net in self.nets[name].items())});\n"
        return text + "endmodule\n"

    def endpoints(self):
        return [f"{name}:D" for name in self.waiting] + OUTPUTS

    def walk(self, end):
        """The pins of a walk to an endpoint from a port, drawn backwards."""
        pins = [end]
        while pins[0] not in INPUTS + CLOCKS:
            inst, pin = pins[0].split(":") if ":" in pins[0] else (None, None)
            if pin == "D" and "D" not in self.nets[inst]:
                break
            if inst is None or pin not in ("Z", "Q"):
                pins.insert(0, self.driver[self.nets[inst][pin] if inst else pins[0]])
            else:
                reads = [it for it in self.nets[inst] if it not in ("Z", "Q", "D")]
                pins.insert(0, f"{inst}:{'CA' if 'CA' in reads else self.rand.choice(reads)}")
        return pins


# ---------------------------------------------------------------------------------------------- constraints and scripts

def constraints(rand, small):
    """Three clocks, the last without a port, delays at ports of few values, and exceptions."""
    periods = [rand.choice([100, 150, 200]), rand.choice([100, 200, 300]), rand.choice([100, 50])]
    lines = [f"create_clock -name {clock} -period {period} [get_ports {clock}]" for clock,
             period in zip(CLOCKS, periods)]
    lines.append(f"create_clock -name v -period {periods[2]}")
    for port in INPUTS + CLOCKS:
        if rand.random() < (0.8 if port in INPUTS else 0.1):
            lines.append(f"set_input_delay {rand.randrange(5) * 10}{rand.choice(['', ' -max', ' -fall', ' -min'])} "
                         f"-clock {rand.choice('kmv')} [get_ports {port}]")
    for port in OUTPUTS:
        for _ in range(rand.randrange(1, 3)):
            lines.append(f"set_output_delay {rand.randrange(-1, 4) * 10}{rand.choice(['', '', ' -max', ' -rise'])} "
                         f"-clock {rand.choice('kmv')} [get_ports {port}]")
    if rand.random() < 0.3:
        lines.append(f"set_clock_uncertainty {rand.randrange(9)} [get_clocks {rand.choice('kmv')}]")
    if rand.random() < 0.3:
        lines += [f"set_timing_derate -early {rand.choice(['0.9', '0.95', '1'])}",
                  f"set_timing_derate -late {rand.choice(['1', '1.05', '1.1'])}"]
    launches = [f"[get_clocks {clock}]" for clock in "kmv"] + [f"[get_ports {port}]" for port in INPUTS] + ["k", "a"]
    captures = [f"[get_clocks {clock}]" for clock in "kmv"] + [f"[get_ports {port}]" for port in OUTPUTS] + ["m", "x"]
    for name in small.waiting:
        launches += [f"[get_pins {name}/{sorted(small.nets[name])[0]}]", f"[get_cells {name}]", name]
        captures += [f"[get_pins {name}/D]", f"[get_cells {name}]", f"{name}/D"]
    for _ in range(rand.choice([0, 0, 1, 2, 4])):
        words = rand.choice(["set_false_path", "set_false_path -hold", "set_false_path -setup", "set_multicycle_path 2",
                             "set_multicycle_path 3 -setup", "set_multicycle_path 1 -hold"])
        ends = rand.choice([" -from {0}", " -to {1}", " -from {0} -to {1}",
                            " -from {0} -to {1}"]).format(rand.choice(launches), rand.choice(captures))
        lines.append(words + ends)
    return "".join(line + "\n" for line in lines)


def pins_of(rand, walk, others):
    """Pins for a question: of a walk in order, and now and then others, twice, in another order, or not there."""
    pins = [walk[k] for k in sorted(rand.sample(range(len(walk)), min(len(walk), rand.choice([1, 1, 2, 3, 4, 16]))))]
    draw = rand.random()
    if draw < 0.1:
        rand.shuffle(pins)
    elif draw < 0.2:
        pins.insert(rand.randrange(len(pins) + 1), rand.choice(others))
    elif draw < 0.25:
        pins.insert(rand.randrange(len(pins) + 1), rand.choice(pins))
    elif draw < 0.28:
        pins.insert(rand.randrange(len(pins) + 1), rand.choice(["zz", "zz:A", "r0:NO"]))
    return " ".join(pins[:16])


def path_questions(rand, walk_to, endpoints, others, count):
    """So many questions about paths; `walk_to` draws the pins of a walk to an endpoint."""
    lines = []
    for _ in range(count):
        end, kind = rand.choice(endpoints), rand.choice(["setup", "hold"])
        asked = end if rand.random() < 0.97 else rand.choice(others + ["zz:D"])
        lines.append(rand.choice([f"report_through {asked} {kind} {pins_of(rand, walk_to(end), others)}"] * 5
                                 + [f"report_paths {asked} {kind} {rand.choice([1, 2, 3, 5, 10, 30, 100])}"] * 4
                                 + [f"report_path {asked} {kind}"]))
    return lines


def script(rand, small):
    """Questions about paths, and ECOs between them that leave the arcs as they are."""
    others = [pin for pins in small.sinks.values() for pin in pins] + [pin for pin in small.driver.values()]
    ask = lambda count: path_questions(rand, small.walk, small.endpoints(), others, count)
    lines = [f"report_paths {end} {kind} 100" for end in small.endpoints() for kind in ("setup", "hold")] + ask(20)
    cells = dict(small.cells)
    for k in range(3):
        name = rand.choice([it for it, cell in cells.items() if any(cell in same for same in SAME)])
        cells[name] = rand.choice([same for same in SAME if cells[name] in same][0])
        wires = [net for net, pins in small.sinks.items() if pins]
        net = rand.choice(wires)
        sinks = " ".join(f"r {small.driver[net]} {pin} {rand.randrange(4) * 100000}" for pin in small.sinks[net])
        buffered = rand.choice([it for it in small.sinks if small.sinks[it] and ":" in small.sinks[it][0]])
        lines.append(rand.choice([f"repower_gate {name} {cells[name]}", f"set_parasitics {net} {sinks}",
                                  f"insert_buffer {buffered} buf{k} net{k} BUF_A {small.sinks[buffered][0]}"]))
        lines += ask(8)
        if lines[-9].startswith("insert_buffer"):
            break
    return lines


def write_documents(folder, rand, small):
    """Writes the documents of a design; gives the words of a run on the script `s`."""
    load = rand.choice([0, 0, 1])
    (folder / "late").write_text(library(0, load))
    (folder / "early").write_text(library(rand.choice([0, 1, 3, 7, -3]), load))
    (folder / "v").write_text(small.verilog())
    (folder / "c").write_text(constraints(rand, small))
    return ["run", "early", "late", "v", "c", "none", rand.choice("124"), "s"]


def write(folder, rand, small):
    """Writes the documents of a design and a script about paths; gives the words of the run."""
    words = write_documents(folder, rand, small)
    (folder / "s").write_text("".join(line + "\n" for line in script(rand, small)))
    return words
