"""Random questions for closing timing for compare.py: lines that scripts of the other forms get between their own, in
drafts too. Some name what is not there, and some scripts have a line that is none."""
import pathlib
from collections.abc import Callable
from random import Random

from lizdrog_dev.draft_scripts import KINDS, Names

WRONG = [
    "report_net", "report_net n0 n1", "report_instance", "report_sizes a b", "report_skew setup", "report_skew 1",
    "report_timing x", "report_timing x late", "report_timing x setup y", "report_timing_through x setup",
    "report_timing_through x setup" + " y" * 17, "report_worst_paths setup", "report_worst_paths setup 0",
    "report_worst_paths setup 101", "report_worst_paths hold 3 each", "report_worst_paths hold 3 each 0",
    "report_worst_paths hold 3 each 4", "report_worst_paths hold 3 of 2", "report_worst_paths hold 3 2",
    "report_worst_paths early 3", "report_failing", "report_failing rise", "report_failing setup 3", "report_summary",
    "report_summary setup hold", "advise_tns setup", "advise_tns setup x", "advise_tns setup x Y z",
    "advise_tns setup" + " x Y" * 101, "advise_sizes setup tns", "advise_sizes setup x", "advise_sizes wns setup x",
    "report_worst_paths setup 100 each 101", "report_timing_trough x setup y", "report_worst_path setup 3",
    "advise_tns", "advise_sizes", "report_paths", "report_skews", "REPORT_SKEW",
]


class Drawer:
    """Draws questions about a design: its names, the walk to an endpoint, and how much may be asked of it at once."""

    def __init__(self, rand: Random, names: Names, walk: Callable[[str], list[str]], most: int):
        self.rand, self.names, self.walk, self.most = rand, names, walk, most
        # The nets and the instances that the edits of the script have named so far.
        self.nets, self.instances = [], []

    def see(self, line: str) -> None:
        """Takes the names from an edit."""
        name, *words = line.split()
        if name in ("set_parasitics", "insert_buffer", "remove_net"):
            self.nets.append(words[0])
        if name in ("repower_gate", "insert_gate", "remove_gate"):
            self.instances.append(words[0])
        elif name in ("connect_pin", "disconnect_pin"):
            self.instances.append(words[0].rpartition(":")[0] or words[0])
            self.nets += words[1:]
        elif name == "insert_buffer":
            self.instances.append(words[1])
            self.nets.append(words[2])

    def kind(self) -> str:
        return self.rand.choice(KINDS)

    def end(self) -> str:
        return self.rand.choice(self.names.ends) if self.rand.random() < 0.94 else self.names.pin()

    def net(self) -> str:
        drawn = self.rand.random()
        if drawn < 0.5 and self.nets:
            return self.rand.choice(self.nets[-8:])
        return self.names.net() if drawn < 0.7 else self.names.instance() if drawn < 0.73 else self.rand.choice(
            list(self.names.sinks))

    def instance(self) -> str:
        is_seen = self.rand.random() < 0.4 and self.instances
        return self.rand.choice(self.instances[-8:]) if is_seen else self.names.instance()

    def through(self) -> str:
        """An endpoint, a kind and pins of a walk to it, and now and then others."""
        rand, end = self.rand, self.end()
        walk = self.walk(end) if end in self.names.ends else [self.names.pin() for _ in range(3)]
        count = min(len(walk), rand.choice([1, 1, 2, 3, 5, 16]))
        pins = [walk[at] for at in sorted(rand.sample(range(len(walk)), count))]
        if rand.random() < 0.2:
            pins.insert(rand.randrange(len(pins) + 1), rand.choice([self.names.pin(), *pins, "zz:A"]))
        return f"{end} {self.kind()} {' '.join(pins[:16])}"

    def number(self) -> int:
        return self.rand.choice([it for it in (1, 2, 3, 5, 10, 30, 100) if it <= self.most])

    def worst_paths(self) -> str:
        count = self.number()
        most = self.rand.choice([1, count, self.rand.randint(1, count)])
        return f"report_worst_paths {self.kind()} {count}" + (f" each {most}" if self.rand.random() < 0.6 else "")

    def pairs(self) -> str:
        """Candidates, of which now and then one comes twice or is not there."""
        found = []
        for _ in range(self.rand.randint(1, max(2, self.most // 8))):
            inst = self.names.instance() if self.rand.random() < 0.15 else self.rand.choice(list(self.names.cells))
            found.append(f"{inst} {self.names.cell(inst)}")
        if self.rand.random() < 0.2:
            found.append(self.rand.choice(found))
        return " ".join(found)

    def resized(self) -> str:
        """Instances whose sizes are tried."""
        drawn = self.rand.random()
        if drawn < 0.06:
            return " ".join(self.rand.choices(list(self.names.cells), k=21))
        found = self.rand.choices(list(self.names.cells), k=self.rand.randint(1, max(2, self.most // 30)))
        if drawn < 0.12:
            found.append(self.names.instance())
        return " ".join(found)

    def lumped(self) -> list[str]:
        """A net becomes one without resistors, and is asked for."""
        rand, net = self.rand, self.rand.choice(self.names.nets)
        items = [f"c {node} {rand.choice([0, 700, 9000, rand.randrange(20000)])}"
                 for node in rand.choices(["#0", "#1", "#1", self.names.driver[net]], k=rand.randint(1, 4))]
        return [f"set_parasitics {net} {' '.join(items)}", f"report_net {net}"]

    def lines(self, in_draft: bool) -> list[str]:
        return self.lumped() if self.rand.random() < 0.04 else [self.question(in_draft)]

    def question(self, in_draft: bool) -> str:
        rand = self.rand
        draw = rand.choice([
            lambda: f"report_net {self.net()}", lambda: f"report_instance {self.instance()}",
            lambda: f"report_sizes {self.instance()}", lambda: f"report_timing {self.end()} {self.kind()}",
            lambda: f"report_timing {self.end()} {self.kind()}", lambda: f"report_timing_through {self.through()}",
            self.worst_paths, lambda: f"report_failing {self.kind()}", lambda: f"report_summary {self.kind()}",
            lambda: "report_skew", lambda: f"advise_tns {self.kind()} {self.pairs()}",
            lambda: f"advise_sizes {self.kind()} {rand.choice(['wns', 'tns'])} {self.resized()}",
            *([lambda: f"report_paths {self.end()} {self.kind()} {self.number()}",
               lambda: f"report_through {self.through()}", lambda: f"advise {self.kind()} {self.pairs()}"] * in_draft),
        ])
        line = draw()
        return line if rand.random() < 0.95 else rand.choice([f"  {line}", f"{line}\t", line.replace(" ", " \t ")])


# Instances with tied and open pins, a net without a driver, and one without a sink.
SPARES = {"tied": "AND_B", "loose_end": "BUF_A", "idle": "NAND_A"}
SPARE_NETS = {"loose": ["loose_end:A"], "spare": []}
SPARE_LINES = """ AND_B tied (.A(1'b0), .B(), .Z(spare));
 BUF_A loose_end (.A(loose));
 NAND_A idle (.A(a));
endmodule"""


def add_spares(netlist: pathlib.Path, names: Names) -> None:
    """Puts spare instances into a netlist of small_design.py, and their names beside those of the design."""
    text = netlist.read_text().replace("\n wire ", "\n wire loose, spare, ").replace("endmodule", SPARE_LINES)
    netlist.write_text(text)
    names.cells.update(SPARES)
    names.sinks = {**names.sinks, **SPARE_NETS}


def add_questions(script: pathlib.Path, drawer: Drawer, wrong: float = 0.07) -> None:
    """Puts such questions between the lines of a script."""
    lines = with_questions(script.read_text().split("\n")[:-1], drawer, wrong)
    script.write_text("".join(f"{it}\n" for it in lines))


def with_questions(lines: list[str], drawer: Drawer, wrong: float, share: float = 0.3) -> list[str]:
    """A script with such lines between its own; `wrong` is how often it has one that is none."""
    rand, found, in_draft, in_group = drawer.rand, [], False, False
    for line in lines:
        found.append(line)
        drawer.see(line)
        in_draft = line == "begin_what_if" or in_draft and line != "end_what_if"
        in_group = line == "begin_eco" or in_group and line != "commit_eco"
        while not in_group and rand.random() < share:
            found += drawer.lines(in_draft)
    if rand.random() < wrong:
        found.insert(rand.randrange(len(found) + 1), rand.choice([*WRONG, drawer.question(True)]))
    return found
