"""Random scripts of drafts and advice for compare.py: tried edits of each kind, alone and in groups, of which many are
refused, drops,
plain questions about what is shown, and resizes to choose from. Some scripts have a fault."""
from lizdrog_dev import small_design

EDGES, KINDS, SPLITS = ["rise", "fall"], ["setup", "hold"], ["early", "late"]
MOST = 10 ** 12


class Names:
    """What the documents of a design name, and what edits may have made: lists to draw from."""

    def __init__(self, rand, cells, connections, sinks, driver, endpoints, clocks, same):
        self.rand, self.cells, self.sinks, self.driver, self.ends, self.clocks = (
            rand,
            dict(cells),
            sinks,
            driver,
            endpoints,
            clocks,
        )
        self.same, self.types, self.connections, self.made = same, sorted({*cells.values(),
                                                                           *(it for like in same
                                                                             for it in like)}), connections, 0
        self.pins = [pin for pins in sinks.values() for pin in pins] + list(driver.values())
        self.nets = [net for net, pins in sinks.items() if pins and net in driver]

    @classmethod
    def of_small(cls, rand, small):
        connections = [(f"{inst}:{pin}", net) for inst, joined in small.nets.items() for pin, net in joined.items()]
        clocks = [net for nets in small.clock_nets.values() for net in nets]
        same = small_design.SAME + [[it] for it in (*small_design.GATES, *small_design.REGISTERS)]
        return cls(rand, small.cells, connections, small.sinks, small.driver, small.endpoints(), clocks, same)

    def instance(self):
        drawn = self.rand.random()
        if drawn < 0.04:
            return "zz"
        return f"new{self.rand.randrange(6)}" if drawn < 0.15 else self.rand.choice(list(self.cells))

    def net(self):
        drawn = self.rand.random()
        if drawn < 0.04:
            return "zz"
        return f"fresh{self.rand.randrange(6)}" if drawn < 0.15 else self.rand.choice(self.nets)

    def pin(self):
        drawn = self.rand.random()
        if drawn < 0.05:
            return self.rand.choice(["zz", "zz:A", "new0:NO", ":A", "new1:"])
        return f"new{self.rand.randrange(6)}:{self.rand.choice('AZ')}" if drawn < 0.15 else self.rand.choice(self.pins)

    def cell(self, inst):
        """A cell for an instance, mostly one of its like."""
        drawn = self.rand.random()
        if drawn < 0.04:
            return "NOCELL"
        like = [same for same in self.same if self.cells.get(inst) in same]
        return self.rand.choice(like[0] if like and drawn < 0.85 else self.types)

    def buffer(self):
        return self.rand.choice([same for same in self.same
                                 if any("BUF" in it
                                        for it in same)][0]) if self.rand.random() < 0.93 else self.cell("zz")


# ---------------------------------------------------------------------------------------------- edits

def repower(rand, names):
    inst = names.instance()
    return [f"repower_gate {inst} {names.cell(inst)}"]


def buffer(rand, names):
    """A buffer for some sinks of a net, now and then for one twice or for those of another net."""
    net = names.net()
    sinks = names.sinks.get(net) or [names.pin()]
    chosen = rand.sample(sinks, rand.randrange(1, len(sinks) + 1))
    if rand.random() < 0.1:
        chosen.insert(rand.randrange(len(chosen) + 1), rand.choice([chosen[0], names.pin()]))
    made = rand.randrange(6) if rand.random() < 0.2 else names.made % 6
    names.made += 1
    return [f"insert_buffer {net} new{made} fresh{made} {names.buffer()} {' '.join(chosen)}"]


def parasitics(rand, names):
    """A star or a chain of resistors, a lump or none; some are no tree, lack a pin or are too large."""
    net = names.net()
    if rand.random() < 0.15:
        return [f"set_parasitics {net} "
                f"{rand.choice(['none', f'c #1 {rand.randrange(40000)}', f'c #2 {MOST} c #3 {MOST}'])}"]
    at, items = names.driver.get(net, "zz:Z"), []
    star = rand.random() < 0.5
    for place, sink in enumerate(names.sinks.get(net) or [names.pin()]):
        if rand.random() < 0.97:
            items.append(f"r {at} {sink} {rand.choice([0, 1, 2, 3]) * 100000 if rand.random() < 0.98 else MOST}")
        if rand.random() < 0.5:
            items.append(f"c {sink} {rand.randrange(15000) if rand.random() < 0.97 else MOST}")
        at = at if star else sink
        if rand.random() < 0.04:
            items.append(rand.choice([f"r {at} #{place} 5000", f"r {sink} {sink} 1", f"c {names.pin()} 700",
                                      f"r #{place} #9 100"]))
    rand.shuffle(items)
    return [f"set_parasitics {net} {' '.join(items)}"] if items else [f"set_parasitics {net} none"]


def move(rand, names):
    """A pin leaves its net and joins another, perhaps one behind it."""
    pin, _ = rand.choice(names.connections)
    pin = pin if rand.random() < 0.85 else names.pin()
    first, second = f"disconnect_pin {pin}", f"connect_pin {pin} {names.net()}"
    drawn = rand.random()
    return [first, second] if drawn < 0.8 else [first] if drawn < 0.9 else [second]


def single(rand, names):
    made = rand.randrange(6)
    inst, net = rand.choice([f"new{made}", names.instance()]), rand.choice([f"fresh{made}", names.net()])
    return [rand.choice([f"insert_gate {inst} {names.cell(inst)}", f"insert_net {net}", f"remove_gate {inst}",
                         f"remove_net {net}", f"connect_pin new{made}:{rand.choice('AZY')} {names.net()}",
                         f"connect_pin {names.pin()} fresh{made}"])]


def removal(rand, names):
    """An instance leaves all its nets and goes, now and then one that an exception names."""
    inst = rand.choice(list(names.cells) + [pin.rsplit(":", 1)[0] for pin in names.ends if ":" in pin] * 3)
    return [f"disconnect_pin {pin}" for pin, _ in names.connections
            if pin.startswith(inst + ":")] + [f"remove_gate {inst}"]


def gate_before(rand, names):
    """A gate of two clocks, or of a clock and another net, before a pin that is on a clock's net."""
    clocked = [(pin, net) for pin, net in names.connections if net in names.clocks and not pin.endswith((":Z", ":Y"))]
    if not clocked:
        return repower(rand, names)
    (pin, net), made = rand.choice(clocked), rand.randrange(6)
    cell = rand.choice([it for it in names.types if it.startswith(("AND", "NAND", "XOR"))])
    other = rand.choice([rand.choice(names.clocks), names.net()])
    out = "Z" if cell[-2] == "_" else "Y"
    return [f"insert_gate new{made} {cell}", f"insert_net fresh{made}", f"connect_pin new{made}:A {net}",
            f"connect_pin new{made}:B {other}", f"connect_pin new{made}:{out} fresh{made}", f"disconnect_pin {pin}",
            f"connect_pin {pin} fresh{made}"]


def edits(rand, names):
    """The edits of an ECO, one or some."""
    kinds = (
        [repower] * 18 + [parasitics] * 10 + [buffer] * 8 + [move] * 6 + [single] * 4 + [removal] + [gate_before] * 2
    )
    found = rand.choice(kinds)(rand, names)
    while rand.random() < 0.2:
        found += rand.choice(kinds)(rand, names)
    return found


def eco(rand, names):
    found = edits(rand, names)
    return found if len(found) == 1 and rand.random() < 0.8 else ["begin_eco", *found, "commit_eco"]


# -------------------------------------------------------------------------------- questions, drafts, advice

def question(rand, names):
    end = rand.choice(names.ends) if rand.random() < 0.95 else names.pin()
    kind, node = rand.choice(KINDS), f"{rand.choice([names.pin(), end])} {rand.choice(SPLITS)} {rand.choice(EDGES)}"
    return rand.choice([f"report_{it} {node}" for it in ("slew", "at", "rat", "slack")]
                       + [f"report_wns {kind}", f"report_tns {kind}"] + [f"report_endpoint {end} {kind}",
                                                                         f"report_path {end} {kind}"] * 2
                       + [f"report_worst {kind} {rand.choice([1, 3, 100])}"])


def draft(rand, names):
    lines = []
    for _ in range(rand.choice([1, 2, 4, 8, 16, 30])):
        drawn = rand.random()
        lines += eco(rand, names) if drawn < 0.45 else ["drop_last"] if drawn < 0.6 else [question(rand, names)]
    return ["begin_what_if", *lines, "end_what_if"]


def advice(rand, names, most=12):
    pairs = []
    for _ in range(rand.randrange(1, most + 1)):
        inst = names.instance()
        pairs.append(f"{inst} {names.cell(inst)}")
    return [f"advise {rand.choice(KINDS)} {' '.join(pairs)}"]


def damaged(rand, lines):
    """The script with a line too much, too few, or in another place."""
    lines = list(lines)
    at = rand.randrange(len(lines) + 1)
    drawn = rand.random()
    if drawn < 0.25:
        del lines[min(at, len(lines) - 1)]
    elif drawn < 0.35:
        lines[at:at] = ["begin_what_if", *["drop_last"] * rand.choice([99, 100, 101]), "end_what_if"]
    else:
        lines.insert(at, rand.choice(["begin_what_if", "end_what_if", "drop_last", "begin_eco", "commit_eco", "take",
                                      "report_paths x setup 1", "report_through x setup x", "advise setup",
                                      "advise setup zz", "advise late zz BUF_A", "what_if 1", "drop_last 1",
                                      "advise setup" + " zz NOCELL" * 101, "advise hold" + " zz NOCELL" * 100,
                                      "begin_what_if 2"]))
    return lines


def script(rand, names, count=12):
    """Drafts, advice and ECOs, with questions between them."""
    lines = []
    for _ in range(count):
        drawn = rand.random()
        lines += (
            draft(rand, names)
            if drawn < 0.5
            else advice(rand, names)
            if drawn < 0.75
            else eco(rand, names)
            if drawn < 0.9
            else [question(rand, names)]
        )
    return damaged(rand, lines) if rand.random() < 0.08 else lines


def tried(rand, lines, names):
    """A script of ECOs and questions, in which some runs of commands are drafts, with advice between."""
    out, left, is_group = [], 0, False
    for line in lines:
        word = line.split(" ")[0]
        if left and not is_group and word not in ("report_through", "report_paths"):
            left -= 1
            if left == 0:
                out.append("end_what_if")
            elif rand.random() < 0.15:
                out.append("drop_last")
        elif not left and not is_group and word != "report_through" and rand.random() < 0.25:
            if rand.random() < 0.3:
                out += advice(rand, names, 4)
            if word != "report_paths":
                out.append("begin_what_if")
                left = rand.randrange(2, 14)
        if left and word in ("report_through", "report_paths"):
            continue
        is_group = word == "begin_eco" or is_group and word != "commit_eco"
        out.append(line)
    return out + ["end_what_if"] * bool(left)
