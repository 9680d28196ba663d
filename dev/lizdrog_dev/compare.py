"""Compares a built program with the plain timer of reference_timer.py: bench/compare.py [--closing] PROGRAM FIRST COUNT
[SESSIONS | paths | drafts].

Each seed from FIRST on gives a random design of 25 to 1,200 cells, with or without parasitics, and a script of ten
random ECOs with reports between; both outputs have to be the same, byte for byte. Where they differ, the documents and
both outputs are kept in a folder compare-SEED of the caller's folder.

With SESSIONS, 2 to 16, there are so many such scripts, each written for the design as it was read, so that some ECOs
are refused for what another session did. The output is then checked by tools/check_sessions.py: each answer has to be
the one that the program gives one session over the journal, and, but for refusals, the one that the plain timer gives.

With the word paths, designs are those of small_design.py, and one in five a random design of 25 to 300 cells; their
scripts ask mostly for paths through pins and for the worst paths of endpoints.

With the word drafts, designs are those of small_design.py, and one in eight a random design of 25 to 120 cells; their
scripts are those of draft_scripts.py: drafts, advice and ECOs, of which many are refused, and now and then a fault of
the script. Of a refusal that may name
one of several loops or overflows (E11, E16) the code alone has to be the same.

With --closing, before PROGRAM, the scripts of each form have the questions for closing timing between their lines, too
(closing_scripts.py); without it no script has them."""
import pathlib
import random
import re
import subprocess
import sys
import tempfile

from lizdrog_tools import check_sessions
from lizdrog_dev import closing_scripts
from lizdrog_dev import design
from lizdrog_dev import draft_scripts
from lizdrog_tools import read_answers
from lizdrog_dev import small_design
from lizdrog_tools.places import BENCH

# cells that stand for each other

NO_ANSWERS = {"no", "refused", "not_yet"}
FREE = re.compile(r"(?m)^((?:\d+ \d+ )?refused E1[16]) .*$")
SAME = [["INV_X1", "INV_X4", "BUF_X2", "BUF_X4", "CLKBUF_X8"], ["NAND2_X1", "NAND2_X2", "NOR2_X1", "XOR2_X1"],
        ["AOI21_X1", "OAI21_X1"]]


class Seeded:
    def __init__(self, seed):
        self.seed = seed

    def Random(self, s):
        return random.Random("%d-%d" % (self.seed, s))


def rc(r, net, driver, sinks):
    """New parasitics of a net: a lump, a star or a chain."""
    words = ["set_parasitics", net]
    star = r.random() < 0.5
    if r.random() < 0.2:
        return " ".join(words + ["c", "#1", str(r.randrange(40000))])
    items = []
    hub = driver
    if star:
        items += ["r", driver, "#7", str(r.randrange(200000))]
        items += ["c", "#7", str(r.randrange(30000))]
        hub = "#7"
    for s in sinks:
        items += ["r", hub, s, str(r.randrange(300000))]
        if r.random() < 0.7:
            items += ["c", s, str(r.randrange(15000))]
        if not star:
            hub = s
    return " ".join(words + items)


def walk_to(r, end, sinks, driver):
    """The pins of a walk to an endpoint from a port, drawn backwards."""
    net_of = {pin: net for net, pins in sinks.items() for pin in pins}
    pins = [end]
    while (net := net_of.get(pins[0], pins[0])) in driver:
        out = driver[net]
        inputs = sorted(pin for pin in net_of if pin.rpartition(":")[0] == out.rpartition(":")[0]
                        and not pin.endswith(":D"))
        pins[:0] = [r.choice(inputs), out]
    return [net] + pins


class EcoScript:
    """A script of ECOs with reports between them, and the design as they make it."""

    def __init__(self, r, n):
        self.r, self.lines = r, []
        self.cells = {name: cell for cell, name, _ in n.instances}
        self.sinks = {net: list(s) for net, s in n.sinks.items()}
        self.driver = {pins[-1][1]: f"{name}:{pins[-1][0]}" for _, name, pins in n.instances}
        self.registers = [name for name, cell in self.cells.items() if cell == "DFF_X1"]

    def reports(self, count):
        r, driver = self.r, list(self.driver.values())
        for _ in range(count):
            end = r.choice(self.registers) + ":D" if r.random() < 0.8 else "result[0]"
            kind = r.choice(["setup", "hold"])
            pin = r.choice([p for s in self.sinks.values() for p in s] + driver)
            split, tran = r.choice(["early", "late"]), r.choice(["rise", "fall"])
            asked = small_design.path_questions(r, lambda it: walk_to(r, it, self.sinks, self.driver), [end], driver, 1)
            self.lines.append(r.choice([
                *asked, *asked, f"report_path {end} {kind}", f"report_endpoint {end} {kind}", f"report_wns {kind}",
                f"report_tns {kind}", f"report_worst {kind} {r.randrange(1, 20)}", f"report_slew {pin} {split} {tran}",
                f"report_at {pin} {split} {tran}"]))

    def parasitics(self, net):
        self.lines.append(rc(self.r, net, self.driver[net], self.sinks[net]))

    def resize(self):
        r, cells = self.r, self.cells
        name = r.choice([x for x, cell in cells.items() if cell != "DFF_X1"])
        cells[name] = r.choice([g for g in SAME if cells[name] in g][0][:4 if not name.startswith("clock") else 5])
        if name.startswith("clock"):
            cells[name] = r.choice(["BUF_X2", "BUF_X4", "CLKBUF_X8"])
        self.lines.append(f"repower_gate {name} {cells[name]}")

    def buffer(self, net, number):
        """A buffer for some sinks of a net, in one case of two with the parasitics of both nets."""
        r, sinks, new = self.r, self.sinks, f"net{number}"
        chosen = r.sample(sinks[net], r.randrange(1, len(sinks[net]) + 1))
        is_clock = net.startswith("clk")
        cell = r.choice(["BUF_X4", "CLKBUF_X8"] if is_clock else ["BUF_X2", "BUF_X4", "INV_X1"])
        is_group = r.random() < 0.5
        self.lines += ["begin_eco"] if is_group else []
        self.lines.append(f"insert_buffer {net} buf{number} {new} {cell} {' '.join(chosen)}")
        sinks[net] = [s for s in sinks[net] if s not in chosen] + [f"buf{number}:A"]
        sinks[new], self.driver[new] = chosen, f"buf{number}:Y"
        if not is_clock:
            self.cells[f"buf{number}"] = cell
        if is_group:
            self.parasitics(net)
            self.parasitics(new)
            self.lines.append("commit_eco")

    def change(self, number):
        share = self.r.random()
        if share < 0.5:
            self.resize()
            return
        net = self.r.choice([x for x, s in self.sinks.items() if s and x in self.driver and not x.startswith("result")])
        if share < 0.75:
            self.parasitics(net)
        else:
            self.buffer(net, number)


def script(r, n):
    """Ten ECOs with reports before, between and after."""
    made = EcoScript(r, n)
    made.reports(12)
    for number in range(10):
        made.change(number)
        made.reports(4)
    return made.lines


def design_of(r, seed, sizes=(25, 60, 120, 300, 700, 1200)):
    """A random netlist with the number of its cells and of its blocks."""
    design.random = Seeded(seed)
    design.LEAF, design.BRANCH = r.choice([2, 5, 30]), r.choice([2, 4])
    cells = r.choice(sizes)
    n, blocks = design.build(cells)
    return n, cells, blocks


def write_documents(d, r, n, blocks, count):
    """Writes the documents of a netlist and so many scripts; gives the words of the run."""
    ports = {"clk": "input", "operand": f"input [{design.INPUTS - 1}:0]", "result": f"output [{blocks - 1}:0]"}
    n.write(d / "v", ports)
    (d / "l").write_text(design.HEAD + "".join(design.gate(g) for g in design.GATES) + design.register() + "}\n")
    sdc = design.constraints(blocks, r.choice([700, 1000, 1500, 2001, 3000]))
    sdc = sdc.replace("-early 0.95", f"-early {r.choice(['0.9', '0.95', '1', '0.873'])}").replace(
        "-late 1.05", f"-late {r.choice(['1', '1.05', '1.1337'])}"
    )
    (d / "c").write_text(sdc)
    names = ["s"] + [f"s{k}" for k in range(2, count + 1)]
    for name in names:
        (d / name).write_text("\n".join(script(r, n)) + "\n")
    with open(d / "p", "w") as out:
        subprocess.run([sys.executable, BENCH / "spef.py", "l", "v"], cwd=d, stdout=out, check=True)
    spef = r.choice(["p", "p", "none"])
    return ["run", "l", "l", "v", "c", spef, r.choice("124"), *names]


def keep(seed, d, texts):
    """Keeps the documents and some texts."""
    kept = pathlib.Path(f"compare-{seed}")
    kept.mkdir(exist_ok=True)
    for f in d.iterdir():
        (kept / f.name).write_bytes(f.read_bytes())
    for name, text in texts.items():
        (kept / name).write_text(text)


def runner(program, words, d):
    """Runs a script on the documents."""
    def run(text):
        (d / "alone").write_text(text)
        ran = subprocess.run([*program, *words[:7], "alone"], cwd=d, stdout=subprocess.PIPE, text=True)
        return read_answers.Output(ran.stdout)
    return run


def timer_words(closing):
    """The words that run the plain timer."""
    return [sys.executable, str(BENCH / "reference_timer.py"), *["--closing"] * bool(closing)]


def names_of(r, n):
    """What a netlist names, for a script of drafts or questions."""
    driver = {pins[-1][1]: f"{name}:{pins[-1][0]}" for _, name, pins in n.instances}
    ends = [f"{name}:D" for cell, name, _ in n.instances if cell == "DFF_X1"] + ["result[0]"]
    joined = [(f"{name}:{pin}", net) for _, name, pins in n.instances for pin, net in pins]
    clocks = [net for net in n.sinks if net.startswith("cl")]
    return draft_scripts.Names(r, {name: cell for cell, name, _ in n.instances}, joined, n.sinks, driver, ends, clocks,
                               SAME)


def drawer_of(closing, n):
    """What draws questions for closing timing about a netlist; few at once where it is large."""
    names, cells = names_of(closing, n), len(n.instances)
    most = 100 if cells < 100 else 30 if cells < 200 else 10
    return closing_scripts.Drawer(closing, names, lambda end: walk_to(closing, end, n.sinks, names.driver), most)


def drawer_of_small(d, closing, small):
    """The same about a small design, which has spare instances then."""
    names = draft_scripts.Names.of_small(closing, small)
    closing_scripts.add_spares(d / "v", names)
    return closing_scripts.Drawer(closing, names, small.walk, 100)


def beside(program, seed, count, closing):
    """Whether several sessions are answered as one session alone is."""
    r = random.Random(seed)
    n, cells, blocks = design_of(r, seed)
    with tempfile.TemporaryDirectory() as d:
        d = pathlib.Path(d)
        words = write_documents(d, r, n, blocks, count)
        for name in words[7:] if closing else ():
            closing_scripts.add_questions(d / name, drawer_of(closing, n), 0)
        got = subprocess.run([program] + words, cwd=d, capture_output=True, text=True)
        faults = [f"status {got.returncode}"] if got.returncode not in (0, 1) else []
        if not faults:
            scripts = [read_answers.read_script((d / it).read_text()) for it in words[7:]]
            output = read_answers.Output(got.stdout)
            for timer in ([program], timer_words(closing)):
                sessions = check_sessions.Sessions(scripts, output, refusals=timer == [program])
                sessions.look()
                if not sessions.faults:
                    sessions.compare(runner(timer, words, d))
                faults += sessions.faults
        rows = [row.sort for session in output.sessions for row in session] if not faults else []
        print(seed, cells, words[5], f"DIFFERS: {faults[0]}" if faults else "same", got.returncode,
              f"{rows.count('accepted')} accepted, {rows.count('refused')} refused", flush=True)
        if faults:
            keep(seed, d, {"faults": "\n".join(faults), "got": got.stdout + got.stderr})
        return not faults


def write_paths(d, r, seed, closing):
    """Writes the documents and a script about paths; gives the words of the run and the number of cells."""
    if r.random() < 0.8:
        small = small_design.Small(r)
        words, cells = small_design.write(d, r, small), len(small.cells)
        drawer = closing and drawer_of_small(d, closing, small)
    else:
        n, cells, blocks = design_of(r, seed, [25, 60, 120, 300])
        words = write_documents(d, r, n, blocks, 1)
        driver = {pins[-1][1]: f"{name}:{pins[-1][0]}" for _, name, pins in n.instances}
        ends = [f"{name}:D" for cell, name, _ in n.instances if cell == "DFF_X1"] + ["result[0]"]
        others = [pin for pins in n.sinks.values() for pin in pins]
        asked = small_design.path_questions(r, lambda end: walk_to(r, end, n.sinks, driver), ends, others, 40)
        (d / "s").write_text("".join(line + "\n" for line in asked[:20]) + (d / "s").read_text()
                             + "".join(line + "\n" for line in asked[20:]))
        drawer = closing and drawer_of(closing, n)
    if drawer:
        closing_scripts.add_questions(d / "s", drawer)
    return words, cells


def write_drafts(d, r, seed, closing):
    """Writes the documents and a script of drafts; gives the words of the run and the number of cells."""
    if r.random() < 0.875:
        small = small_design.Small(r)
        words = small_design.write_documents(d, r, small)
        lines = draft_scripts.script(r, draft_scripts.Names.of_small(r, small))
        cells, drawer = len(small.cells), closing and drawer_of_small(d, closing, small)
    else:
        n, cells, blocks = design_of(r, seed, [25, 60, 120])
        words = write_documents(d, r, n, blocks, 1)
        lines = draft_scripts.tried(r, (d / "s").read_text().split("\n")[:-1], names_of(r, n))
        drawer = closing and drawer_of(closing, n)
    (d / "s").write_text("".join(line + "\n" for line in lines))
    if drawer:
        closing_scripts.add_questions(d / "s", drawer)
    return words, cells


def status_of(text):
    """The status of a run with this output: 3 where it is a fault, 1 where some row is no answer."""
    if text.startswith("fault"):
        return 3
    return int(any(row.sort in NO_ANSWERS for rows in read_answers.Output(text).sessions for row in rows))


def compared(program, seed, cells, d, words, closing):
    """Whether the program writes what the plain timer does."""
    want = subprocess.run(timer_words(closing) + words, cwd=d, capture_output=True, text=True)
    if want.returncode not in (0, 3) or want.stderr:
        print(seed, cells, "reference:", want.stderr[-200:])
        return False
    got = subprocess.run([program] + words, cwd=d, capture_output=True, text=True)
    ok = FREE.sub(r"\1", got.stdout) == FREE.sub(r"\1", want.stdout) and got.returncode == status_of(want.stdout)
    print(seed, cells, words[5], "same" if ok else "DIFFERS", got.returncode, len(got.stdout), flush=True)
    if not ok:
        keep(seed, d, {"want": want.stdout, "got": got.stdout + got.stderr})
    return ok


def one(program, seed, closing):
    """Whether both give the same for a seed."""
    r = random.Random(seed)
    n, cells, blocks = design_of(r, seed)
    with tempfile.TemporaryDirectory() as d:
        d = pathlib.Path(d)
        words = write_documents(d, r, n, blocks, 1)
        if closing:
            closing_scripts.add_questions(d / "s", drawer_of(closing, n))
        return compared(program, seed, cells, d, words, closing)


def of_form(program, seed, write, closing):
    """Whether both give the same for the documents and the script that a form of comparison writes for a seed."""
    with tempfile.TemporaryDirectory() as d:
        d = pathlib.Path(d)
        words, cells = write(d, random.Random(seed), seed, closing)
        return compared(program, seed, cells, d, words, closing)


FORMS = {"paths": write_paths, "drafts": write_drafts}


def main():
    if sys.argv[1:] in ([], ["-h"], ["--help"]):
        print(__doc__.strip())
        return 0
    is_closing = sys.argv[1] == "--closing"
    given, first, count, *forms = sys.argv[1 + is_closing:]
    program, first, count = pathlib.Path(given).resolve(), int(first), int(count)
    form = forms[0] if forms else "1"

    def same(seed):
        closing = random.Random(f"closing {seed}") if is_closing else None
        if form in FORMS:
            return of_form(program, seed, FORMS[form], closing)
        return beside(program, seed, int(form), closing) if int(form) > 1 else one(program, seed, closing)
    differing = [seed for seed in range(first, first + count) if not same(seed)]
    print(f"{count - len(differing)} of {count} the same", *differing)
    sys.exit(1 if differing else 0)
