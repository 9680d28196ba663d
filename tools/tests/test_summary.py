"""`summary`: limits, loads, clocks and skews on small documents, and all of it with the program."""
import json
import pathlib
import tempfile
import unittest

import common
from lizdrog_tools.corners.merge import Answer
from lizdrog_tools.liberty import parse_library
from lizdrog_tools.read_answers import Edited, Row, read_script
from lizdrog_tools.reporting import limits, summary
from lizdrog_tools.spef import parse_spef
from lizdrog_tools.verilog import Joined, parse_netlist

# The small library with limits: slews of 40 ps, 25 for BUF's A; a load of 4 fF and 2 sinks of Z; D counts as 1.5 sinks.
LIBRARY = (
    common.LIBRARY.replace(
        "capacitive_load_unit (1, ff);", "capacitive_load_unit (1, ff); default_max_transition : 40;"
    )
    .replace("pin (A) { direction : input;", "pin (A) { direction : input; max_transition : 25;", 1)
    .replace("pin (Z) { direction : output;", "pin (Z) { direction : output; max_capacitance : 4; max_fanout : 2;")
    .replace("pin (D) { direction : input;", "pin (D) { direction : input; fanout_load : 1.5;")
)


def joined_after(*ecos):
    """The small netlist after ECOs, and what is left of its wires."""
    edited = Edited(parse_netlist(common.NETLIST), parse_library(LIBRARY), list(ecos))
    wires = limits.wires_after(edited, parse_spef(common.SPEF))
    return Joined(edited.netlist, edited.library), wires


def checks_of(sdc, *ecos):
    """The checks of the small design."""
    joined, wires = joined_after(*ecos)
    of_library = limits.LibraryLimits(LIBRARY)
    constraints = limits.Constraints(sdc, of_library)
    return limits.Checks(joined, of_library, constraints, limits.Loads(joined, wires, constraints))


def found(checks, sort):
    """Value and limit of each driver that has one."""
    return {it.pin: (it.value, it.limit) for it in checks.of_nets(sort)}


class Limits(unittest.TestCase):
    def test_of_the_library(self):
        of_library = limits.LibraryLimits(LIBRARY)
        asked = (
            ("BUF", "A", limits.TRANSITION),
            ("BUF", "Z", limits.TRANSITION),
            ("BUF", "Z", limits.CAPACITANCE),
            ("DFF", "Q", limits.FANOUT),
        )
        self.assertEqual([of_library.limit(*it) for it in asked], [25000.0, 40000.0, 4000.0, None])

    def test_loads_and_fanouts(self):
        # Of n2 the wires have 3.5 fF, of which 3.5 are rows, and the pin D has 1.
        checks = checks_of("")
        self.assertEqual(found(checks, limits.CAPACITANCE), {"g1:Z": (4500.0, 4000.0)})
        self.assertEqual(found(checks, limits.FANOUT), {"g1:Z": (1.5, 2.0)})

    def test_of_the_constraints(self):
        sdc = (
            "set_max_capacitance 0.003 [current_design]\nset_max_fanout 1 [get_pins g1/Z]\n"
            "set_max_transition 0.02 [get_ports q]\nset_max_transition 3 [get_clocks clk]\nset_load 0.5 [get_ports q]\n"
        )
        sdc = "set_units -capacitance pF -time ns\n" + sdc
        checks = checks_of(sdc)
        # The load of q is half a picofarad; a design's limit holds for input ports, too.
        self.assertEqual(found(checks, limits.CAPACITANCE)["g1:Z"], (4500.0, 3000.0))
        self.assertEqual(found(checks, limits.CAPACITANCE)["r2:Q"], (500000.0, 3000.0))
        self.assertEqual(found(checks, limits.FANOUT)["g1:Z"], (1.5, 1.0))
        self.assertEqual(
            [checks.limit(it, limits.TRANSITION) for it in ("q", "g1:A", "r1:D", "d")],
            [20000.0, 25000.0, 40000.0, None],
        )
        self.assertEqual(checks.constraints.not_looked_at, ["set_max_transition [get_clocks clk]"])

    def test_edits_drop_wires(self):
        buffer = "insert_buffer n2 b1 n3 BUF r2:D"
        for ecos, wires in (
            ([], {"n2": 3500}),
            ([[buffer]], {}),
            ([[buffer, "set_parasitics n3 c #1 700 c b1:Z 50 r #1 b1:Z 9"]], {"n3": 750}),
            ([["set_parasitics n2 none"]], {"n2": 0}),
            ([["disconnect_pin r2:D"], ["connect_pin r2:D n1"]], {}),
        ):
            self.assertEqual(joined_after(*ecos)[1], wires, ecos)

    def test_pins_with_a_slew_limit(self):
        self.assertEqual(
            sorted(checks_of("").pins_with_transition()),
            ["g1:A", "g1:Z", "r1:CK", "r1:D", "r1:Q", "r2:CK", "r2:D", "r2:Q"],
        )


def answers_of(script, rows):
    """The answers of a script whose rows have nothing below them."""
    commands = read_script(script)
    return [Answer(1, command, Row(text.split(" "), [])) for command, text in zip(commands, rows)]


class Sums(unittest.TestCase):
    def test_by_clock(self):
        slacks = {"setup": {"a": "-1.500", "b": "-0.500", "c": "2.000", "d": "none"}, "hold": {"c": "1.000"}}
        told = list(summary.groups_of(slacks, {"a": "k", "b": "k", "c": "m"}))
        self.assertEqual(
            [(it.kind, it.clock, it.worst, it.total, it.failing, it.count) for it in told],
            [
                ("setup", "k", "-1.500", "-2.000", 2, 2),
                ("setup", "m", "2.000", "0.000", 0, 1),
                ("hold", "m", "1.000", "0.000", 0, 1),
            ],
        )

    def test_skew(self):
        script = "".join(f"report_at {pin} {split} rise\n" for pin in ("r1:CK", "r2:CK") for split in ("early", "late"))
        rows = [
            "1 0 at 1 k rise 10.000",
            "2 0 at 1 k rise 14.500",
            "3 0 at 2 k rise 11.000 m fall 3.000",
            "4 0 at 1 k rise 13.000",
        ]
        told = list(summary.skews_of(answers_of(script, rows), {"k": ["r1:CK", "r2:CK"], "m": ["r2:CK"]}))
        self.assertEqual(told, [summary.Skew("k", "rise", "14.500", "r1:CK", "10.000", "r1:CK", "4.500")])

    def test_greater_slew_counts(self):
        script = "report_slew g1:A late rise\nreport_slew g1:A late fall\nreport_slew g1:Z late rise\n"
        rows = ["1 0 slew 20.000", "2 0 slew 26.000", "3 0 slew none"]
        self.assertEqual(
            list(summary.slews_of(answers_of(script, rows), checks_of(""))), [limits.Checked("g1:A", 26000, 25000.0)]
        )


@common.needs_program
class WithTheProgram(unittest.TestCase):
    def test_summary(self):
        with tempfile.TemporaryDirectory() as name:
            folder = pathlib.Path(name)
            for file, text in (
                ("late.lib", LIBRARY),
                ("top.v", common.NETLIST),
                ("top.spef", common.SPEF),
                ("top.sdc", common.CONSTRAINTS),
            ):
                (folder / file).write_text(text)
            (folder / "bad.sdc").write_text("creat_clock\n")
            (folder / "p.toml").write_text(
                'netlist = "top.v"\nlibrary = "late.lib"\nsdc = "top.sdc"\n[corners.wires]\nspef = "top.spef"\n'
                '[corners.bare]\n[corners.bad]\nsdc = "bad.sdc"\n'
            )
            words = ["p.toml", "--program", common.PROGRAM, "--quiet"]
            status, out, err = common.tool("summary", *words, "--json", cwd=folder)
            self.assertEqual(status, 3)
            self.assertRegex(err, r"^summary: bad failed with status 3: .*bad\.sdc:1:1: S2")
            wires, bare = json.loads(out)
            text = common.tool("summary", *words, "--top", "1", cwd=folder)[1]
        self.assertEqual((wires["corner"], bare["corner"]), ("wires", "bare"))
        # Each register launches at 20 ps; q has the whole period less 20 and the output delay of 5, so 75 ps.
        self.assertIn(["q", "75.000"], bare["ends"]["setup"])
        # From r1:Q at 20 with the load of r2:D alone, 1 fF, g1 takes 10 + 2: 32 ps; the test leaves 100 - 15.
        self.assertIn(["r2:D", "53.000"], bare["ends"]["setup"])
        self.assertEqual(
            [(it["kind"], it["clock"], it["failing"], it["count"]) for it in bare["groups"]],
            [("setup", "clk", 0, 3), ("hold", "clk", 0, 3)],
        )
        self.assertEqual([it["skew"] for it in bare["skews"]], ["0.000", "0.000"])
        self.assertEqual(wires["counts"], {"max_transition": 0, "max_capacitance": 1, "max_fanout": 0})
        self.assertEqual(wires["checks"]["max_capacitance"], [{"pin": "g1:Z", "value": 4500.0, "limit": 4000.0}])
        self.assertIn("max_capacitance: 1 pins exceed their limit", text)
        self.assertIn("4.500 of 4.000 fF  g1:Z  exceeds", text)
        # The slew of g1:Z is 5 ps, and 2 more for each fF of its load.
        slews = {it["pin"]: it["value"] for it in bare["checks"]["max_transition"]}
        self.assertEqual((slews["g1:Z"], slews["r1:Q"]), (7000, 10000))


if __name__ == "__main__":
    unittest.main()
