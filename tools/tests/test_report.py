"""`report`: the parts of a path, the page, and the page in a browser."""
import contextlib
import importlib.util
import io
import json
import pathlib
import re
import shutil
import sys
import tempfile
import unittest
import xml.dom.minidom
from unittest import mock

import browser
import common
from lizdrog_tools.corners.merge import CornerAnswers, answers_of
from lizdrog_tools.liberty import parse_library
from lizdrog_tools.read_answers import Edited, Row
from lizdrog_tools.reporting import clocks, command, drawing, histogram, path_picture, paths, replay
from lizdrog_tools.verilog import parse_netlist

needs_jinja2 = unittest.skipUnless(importlib.util.find_spec("jinja2"), "no Jinja2: apt-get install python3-jinja2")
# The small design at a period of 100 ps: r1 launches at 20, g1 takes 19 with the load of its wire, r2 tests with 15.
SCRIPT = """report_wns setup
report_endpoint r2:D setup
report_endpoint q setup
report_endpoint r2:D hold
report_path r2:D setup
report_rat r2:D late rise
report_at r2:CK early rise
report_path q setup
report_rat q late rise
repower_gate g1 BUF
report_wns setup
"""
OUTPUT = """journal 1 1
entry 1 session 1 edits 1
repower_gate g1 BUF
session 1 rows 11
1 0 wns 45.000
2 0 endpoint 45.000
3 0 endpoint 74.000
4 0 endpoint -1.500
5 0 path setup r2:D slack 45.000 credit 0.500 from clk rise to clk rise nodes 5
clk rise 0.000
r1:CK rise 1.000
r1:Q rise 21.000
g1:A rise 21.500
r2:D rise 40.500
6 0 rat 1 clk rise 85.000
7 0 at 1 clk rise 2.000
8 0 path setup q slack 74.000 credit 0.000 from clk rise to clk rise nodes 3
clk rise 0.000
r2:CK rise 1.000
q rise 21.000
9 0 rat 1 clk rise 95.000
10 1 accepted
11 1 wns 44.250
final 1 setup 44.250 0.000 hold -1.500 -1.500
"""
SDC = """create_clock -name clk -period 100 [get_ports clk]
set_clock_uncertainty -setup 2 clk
set_output_delay 5 -clock clk [get_ports q]
"""


def row(text):
    """A row of an output, with the lines below it."""
    first, *below = text.strip().split("\n")
    return Row(first.split(" "), [it.split(" ") for it in below])


EDGES = "from clk rise to clk rise"
ASKED = {
    ("report_rat", "r2:D", "late", "rise"): row("6 0 rat 1 clk rise 85.000"),
    ("report_at", "r2:CK", "early", "rise"): row("7 0 at 1 clk rise 2.000"),
}


def small_design():
    return Edited(parse_netlist(common.NETLIST), parse_library(common.LIBRARY), [])


class Clocks(unittest.TestCase):
    def read(self, sdc, unit=1e6):
        return clocks.read_clocks(sdc, unit)

    def test_clocks(self):
        found = self.read(
            "create_clock -period 2.5 -name fast [get_ports ck]\nset_units -time ps\n"
            "create_clock -period 900 -waveform {100 300} b\ncreate_clock -name virtual -period 7\n"
            "set_clock_uncertainty 12 {fast b}\nset_clock_uncertainty -hold -3.5 [get_clocks b]\n"
        )
        self.assertEqual(
            (found["fast"].port, found["fast"].period, found["fast"].edges),
            ("ck", 2500000, {"rise": 0, "fall": 1250000}),
        )
        self.assertEqual((found["b"].port, found["b"].edges), ("b", {"rise": 100000, "fall": 300000}))
        self.assertEqual((found["virtual"].port, found["virtual"].period), (None, 7000))
        self.assertEqual(found["fast"].uncertainty, {"setup": 12000, "hold": 12000})
        self.assertEqual(found["b"].uncertainty, {"setup": 12000, "hold": -3500})

    def test_separations(self):
        found = self.read("create_clock -period 4 a\ncreate_clock -period 6 -waveform {1 4} b\n", 1e3)
        a, b = found["a"], found["b"]
        # From rise to rise of one clock a period; from its rise to its fall half of it.
        self.assertEqual([clocks.separation((a, "rise"), (a, it), "setup") for it in ("rise", "fall")], [4000, 2000])
        self.assertEqual([clocks.separation((a, "rise"), (a, it), "hold") for it in ("rise", "fall")], [0, -2000])
        # a rises at 0, 4, 8 and b at 1, 7, 13: the least positive time is from 0 to 1; hold is 2 less, the common
        # period.
        self.assertEqual([clocks.separation((a, "rise"), (b, "rise"), it) for it in ("setup", "hold")], [1000, -1000])
        self.assertEqual(clocks.separation((b, "rise"), (a, "rise"), "setup"), 1000)

    def test_what_a_clock_captures(self):
        joined = small_design().at(0)
        found = clocks.capture_clocks(joined, SDC, self.read(SDC, 1e3))
        self.assertEqual(found, {"r1:D": "clk", "r2:D": "clk", "q": "clk"})
        self.assertEqual(clocks.clock_edge(joined, "r2:D", "hold"), ("r2:CK", "rise"))
        self.assertIsNone(clocks.clock_edge(joined, "q", "hold"))


class Paths(unittest.TestCase):
    def shown(self, number):
        lines = OUTPUT.split("\n")
        at = next(i for i, line in enumerate(lines) if line.startswith(f"{number} 0 path"))
        path = row("\n".join(lines[at : at + 1 + int(lines[at].split(" ")[-1])]))
        asked = {**ASKED, ("report_rat", "q", "late", "rise"): row("9 0 rat 1 clk rise 95.000")}
        times = paths.Times(asked)
        return paths.shown_path("c", path, small_design(), clocks.read_clocks(SDC, 1e3), times)

    def test_stages(self):
        path = self.shown(5)
        told = [(it.pin, it.delay(), it.is_cell, it.is_network, it.net) for it in path.stages]
        self.assertEqual(
            told,
            [
                ("r1:CK", 1000, False, True, ""),
                ("r1:Q", 20000, True, False, "n1"),
                ("g1:A", 500, False, False, ""),
                ("r2:D", 19000, False, False, ""),
            ],
        )
        self.assertEqual((path.slowest().pin, path.arrival(), path.required()), ("r1:Q", 40500, 85500))
        self.assertEqual([it.sinks_text() for it in path.stages], ["", "g1:A", "", ""])

    def test_many_sinks(self):
        stage = paths.Stage("g:Z", "rise", 0, 1, True, False, "BUF", "n", tuple(f"s{it}:A" for it in range(43)))
        self.assertRegex(stage.sinks_text(), "^s0:A s1:A .* s39:A and 3 more$")

    def test_required_time_by_parts(self):
        # 100 of the period and 2 of the capture clock, less 2 of uncertainty and 15 of setup, make 85; credit is 0.5.
        told = [(it.name, it.end - it.start) for it in self.shown(5).parts]
        self.assertEqual(told[:2], [("capture edge", 100000), ("capture clock", 2000)])
        self.assertEqual(told[2:], [("uncertainty", -2000), ("setup time", -15000), ("credit", 500)])
        self.assertEqual(self.shown(5).parts[-1].end, 85500)

    def test_output_port(self):
        # 100 of the period, less 2 of uncertainty: what the answer of 95 has less is the output delay.
        told = [(it.name, it.end - it.start) for it in self.shown(8).parts]
        self.assertEqual(told, [("capture edge", 100000), ("uncertainty", -2000), ("output delay", -3000)])

    def test_without_the_questions_beside_it(self):
        text = f"1 0 path hold r2:D slack -1.500 credit 0.250 {EDGES} nodes 1\nr2:D fall 3.000"
        path = paths.shown_path("c", row(text), None, {}, paths.Times({}))
        self.assertEqual(
            [(it.name, it.start, it.end) for it in path.parts],
            [("required without credit", 0, 4750), ("credit", 4750, 4500)],
        )
        self.assertEqual((path.required(), path.slowest()), (4500, None))

    def test_a_hold_path_by_parts(self):
        # The capture clock is there at 2 and hold asks for 3 more: 5, less a credit of 1.
        asked = {
            ("report_rat", "r2:D", "early", "fall"): row("2 0 rat 1 clk rise 5.000"),
            ("report_at", "r2:CK", "late", "rise"): row("3 0 at 1 clk rise 2.000"),
        }
        text = f"1 0 path hold r2:D slack 16.000 credit 1.000 {EDGES} nodes 2\nr1:Q fall 19.000\nr2:D fall 20.000"
        path = paths.shown_path("c", row(text), small_design(), clocks.read_clocks(SDC, 1e3), paths.Times(asked))
        self.assertEqual(
            [(it.name, it.end - it.start) for it in path.parts],
            [("capture clock", 2000), ("hold time", 3000), ("credit", -1000)],
        )

    def test_multicycle_is_told(self):
        text = f"1 0 path setup r2:D slack 145.000 credit 0.500 {EDGES} nodes 2\nr1:Q rise 20.000\nr2:D rise 40.500"
        path = paths.shown_path("c", row(text), small_design(), clocks.read_clocks(SDC, 1e3), paths.Times(ASKED))
        self.assertEqual((path.parts[-1].name, path.parts[-1].end - path.parts[-1].start), ("exceptions", 100000))

    def test_pictures_are_xml(self):
        for picture in (
            path_picture.path_picture(self.shown(5)),
            histogram.histogram("setup <slack> & more", [-1500, 0, 3000, 3001]),
        ):
            for text in (picture.inline(), picture.file()):
                self.assertEqual(xml.dom.minidom.parseString(text).documentElement.tagName, "svg")


# The path to r2:D once more, as report_timing and report_worst_paths tell it.
TIMING = """1 0 timing setup r2:D slack 45.000 credit 0.500 from clk rise to clk rise nodes 5 capture 2 parts 8
clk rise 0.000 none 0.000 net clk 2.000 2
r1:CK rise 1.000 1.000 0.000
r1:Q rise 21.000 20.000 10.000 net n1 1.000 1
g1:A rise 21.500 0.500 10.000
r2:D rise 40.500 19.000 14.000
clk rise 0.000 none 0.000 net clk 2.000 2
r2:CK rise 2.000 2.000 0.000
capture_edge clk rise 100.000
capture_arrival 2.000
setup_time -15.000
uncertainty -2.000
credit 0.500
required 85.500
arrival 40.500
slack 45.000
"""
WORST = """2 0 worst_paths 3
path setup r2:D slack 45.000 credit 0.500 from clk rise to clk rise nodes 5
clk rise 0.000
r1:CK rise 1.000
r1:Q rise 21.000
g1:A rise 21.500
r2:D rise 40.500
path setup r2:D slack 46.000 credit 0.500 from clk rise to clk rise nodes 5
clk rise 0.000
r1:CK rise 1.000
r1:Q fall 20.000
g1:A fall 20.500
r2:D fall 39.500
path setup q slack 74.000 credit 0.000 from clk rise to clk rise nodes 3
clk rise 0.000
r2:CK rise 1.000
q rise 21.000
"""


class Timing(unittest.TestCase):
    def test_stages_and_parts(self):
        path = paths.shown_timing("c", row(TIMING), None)
        told = [(it.pin, it.delay(), it.is_cell, it.net, it.fanout, it.load, it.slew) for it in path.stages]
        self.assertEqual(told[1], ("r1:Q", 20000, True, "n1", 1, "1.000", "10.000"))
        self.assertEqual(len(told), 4)
        self.assertEqual([(it.name, it.end - it.start) for it in path.parts],
                         [("capture edge", 100000), ("capture clock", 2000), ("setup time", -15000),
                          ("uncertainty", -2000), ("credit", 500)])
        self.assertEqual((path.parts[-1].end, path.required(), path.arrival()), (85500, 85500, 40500))

    def test_cells_and_sinks_of_the_netlist(self):
        path = paths.shown_timing("c", row(TIMING), small_design())
        self.assertEqual([(it.cell, it.sinks_text(), it.is_network) for it in path.stages],
                         [("DFF", "", True), ("DFF", "g1:A", False), ("BUF", "", False), ("DFF", "", False)])

    def test_picture_is_xml(self):
        text = path_picture.path_picture(paths.shown_timing("c", row(TIMING), None)).inline()
        self.assertEqual(xml.dom.minidom.parseString(text).documentElement.tagName, "svg")


class Histograms(unittest.TestCase):
    def test_bins_have_both_edges_and_a_zero_line(self):
        text = histogram.histogram("setup slack", [-1500, 500, 700, 2400]).file()
        labels = re.findall(r"<text[^>]*>([^<]*)</text>", text)
        # Bins of 500 fs from -1500 to 2500.
        self.assertIn(" -1.5 -1 -0.5 0 0.5 1 1.5 2 2.5 ", " ".join(labels))
        self.assertIn("worst -1.500 ps, total negative -1.500 ps, 1 of 4 fail", labels)
        self.assertEqual(text.count('class="zero"'), 1)
        self.assertEqual((text.count('class="failing" x'), text.count('class="met" x')), (2, 2))
        self.assertIn('<rect class="paper" width="620"', text)

    def test_no_line_at_zero_where_it_is_not_in_sight(self):
        self.assertNotIn('class="zero"', histogram.histogram("hold", [4000, 9000]).file())

    def test_steps_are_round(self):
        self.assertEqual([drawing.round_step(it, 4) for it in (1, 4, 7, 9, 30, 441)], [0.5, 1, 2, 5, 10, 200])


@needs_jinja2
class Pages(unittest.TestCase):
    def setUp(self):
        self.folder = pathlib.Path(tempfile.mkdtemp())
        self.addCleanup(shutil.rmtree, self.folder)
        texts = {"s.eco": SCRIPT, "out": OUTPUT, "top.v": common.NETLIST, "late.lib": common.LIBRARY, "top.sdc": SDC}
        for name, text in texts.items():
            (self.folder / name).write_text(text)

    def report(self, *words):
        out, err = io.StringIO(), io.StringIO()
        with (
            mock.patch.object(sys, "argv", ["report", *words]),
            contextlib.chdir(self.folder),
            contextlib.redirect_stdout(out),
            contextlib.redirect_stderr(err),
        ):
            try:
                status = command.main()
            except SystemExit as ended:
                status = ended.code
        return status, out.getvalue(), err.getvalue()

    def page(self, *words):
        status, out, err = self.report("s.eco", "out", *words, "--out", "page.html")
        self.assertEqual((status, out, err), (0, "", ""))
        return (self.folder / "page.html").read_text(encoding="utf-8")

    DOCUMENTS = ("--netlist", "top.v", "--library", "late.lib", "--sdc", "top.sdc")

    def test_stands_alone(self):
        page = self.page(*self.DOCUMENTS)
        links = re.findall(r'(?:src|href)\s*=\s*"([^"]*)"|url\(([^)]*)\)|@import', page)
        self.assertEqual([it for it, _ in links if not it.startswith("#")], [])
        self.assertNotIn("http", re.sub(r'xmlns="http://www.w3.org/2000/svg"', "", page))

    def test_without_documents(self):
        page = self.page()
        self.assertIn("-1.500", page)
        self.assertIn("required without credit", page)

    def test_names_are_escaped(self):
        for name in ("s.eco", "out"):
            file = self.folder / name
            file.write_text(file.read_text().replace("r2:D", "a<b>&c:D"))
        page = self.page()
        self.assertIn("a&lt;b&gt;&amp;c:D", page)
        self.assertNotIn("a<b>", page)

    def test_a_net_names_its_sinks(self):
        self.assertIn('<td class="tells" title="g1:A">n1, 1</td>', self.page(*self.DOCUMENTS))

    def test_eco_says_what_it_changed(self):
        page = self.page(*self.DOCUMENTS)
        self.assertIn("repower_gate g1: BUF becomes BUF", page)
        self.assertIn("from clk rise to clk rise, before a later ECO</summary>", page)
        self.assertRegex(page, r"out: setup wns 44\.250")

    def test_paths_of_questions_for_closing_timing(self):
        """Each path once, that of both questions with slews and loads; failing endpoints are in the table."""
        script = "report_timing r2:D setup\nreport_worst_paths setup 3 each 2\nreport_failing hold\n"
        rows = f"{TIMING}{WORST}3 0 failing 1 listed 1\nr2:D -1.500\n"
        final = "final 0 setup 45.000 0.000 hold -1.500 -1.500\n"
        (self.folder / "s.eco").write_text(script)
        (self.folder / "out").write_text(f"journal 1 0\nsession 1 rows 3\n{rows}{final}")
        for words in ((), self.DOCUMENTS):
            page = self.page(*words)
            self.assertEqual(re.findall(r"(\d+)\. setup <b>(\S+)</b>, slack <b>(\S+) ps", page),
                             [("1", "r2:D", "45.000"), ("2", "r2:D", "46.000"), ("3", "q", "74.000")])
            self.assertEqual(page.count("<th class=\"amount\">slew</th>"), 1)
            self.assertIn("n1, 1, 1.000 fF</td>", page)
            self.assertIn("<td>setup time</td><td class=\"amount\">-15.000</td>", page)
            self.assertIn('<tr data-kind="hold" data-corner="out"><td>r2:D</td>', page)
            self.assertNotIn('id="no-paths"', page)
        self.assertIn('title="g1:A">n1, 1, 1.000 fF</td>', page)

    def test_what_is_refused(self):
        (self.folder / "other.eco").write_text("report_tns setup\n")
        (self.folder / "cut").write_text(OUTPUT[:300])
        documents = 'netlist = "top.v"\nearly = "late.lib"\nlate = "late.lib"\nsdc = "top.sdc"\nspef = "none"\n'
        (self.folder / "p.toml").write_text(documents)
        for words, said in (
            (["other.eco", "out"], "its rows do not answer other.eco"),
            (["s.eco", "cut"], "cut"),
            (["s.eco", "top.v"], "this is no output of a run"),
            (["p.toml"], "has no answers yet"),
            (["s.eco", "out", "x"], "and here are 3 words"),
            (["s.eco", "out", "--netlist", "late.lib", "--library", "late.lib"], "late.lib"),
            (["s.eco", "out", "--session", "2"], "with a session 2"),
            (["no.eco", "out"], "no.eco: No such file"),
        ):
            status, out, err = self.report(*words, "--out", "page.html")
            self.assertEqual((status, out), (2, ""), words)
            self.assertIn(said, err)
            self.assertNotIn("Traceback", err)
        self.assertFalse((self.folder / "page.html").exists())

    @browser.needs_chromium
    def test_in_a_browser(self):
        told = browser.run_in_page(self.page(*self.DOCUMENTS), STEPS)
        self.assertEqual(told["errors"], [])
        seen = told["result"]
        self.assertEqual(seen["first"], [["r2:D", "45.000"], ["q", "74.000"], ["r2:D", "-1.500"]])
        self.assertEqual(seen["by_slack"], ["-1.500", "45.000", "74.000"])
        self.assertEqual(seen["by_slack_again"], ["74.000", "45.000", "-1.500"])
        self.assertEqual(seen["by_name"], ["q", "r2:D", "r2:D"])
        self.assertEqual(seen["filtered"], [["q"], "1 of 3 shown"])
        self.assertEqual(seen["hold"], ["r2:D"])
        self.assertEqual(seen["failing"], ["-1.500"])
        self.assertEqual(seen["cards"], ["44.250 ps", "-1.500 ps"])
        self.assertEqual(seen["stages"], 4)


STEPS = """
  const table = document.getElementById("endpoints"), heads = table.tHead.rows[0].cells;
  const shown = at => [...table.tBodies[0].rows].filter(row => !row.hidden).map(row => row.cells[at].textContent);
  const set = (id, value) => { const it = document.getElementById(id);
    if (typeof value === "boolean") it.checked = value; else it.value = value; it.dispatchEvent(new Event("input")); };
  const seen = { first: shown(0).map((name, at) => [name, shown(2)[at]]) };
  heads[0].click(); seen.by_name = shown(0);
  heads[2].click(); seen.by_slack = shown(2);
  heads[2].click(); seen.by_slack_again = shown(2);
  set("filter", "q"); seen.filtered = [shown(0), document.getElementById("shown").textContent]; set("filter", "");
  set("kind", "hold"); seen.hold = shown(0); set("kind", "");
  set("failing", true); seen.failing = shown(2); set("failing", false);
  seen.cards = [...document.querySelectorAll(".card .number")].map(it => it.textContent);
  seen.stages = document.querySelector("#path-1 table.stages").tBodies[0].rows.length - 1;
  return seen;
"""


class Replays(unittest.TestCase):
    ECOS = [["repower_gate g1 A"], ["repower_gate g1 B"]]
    ASKED = "report_wns setup\nreport_tns setup\n" + "".join(f"report_endpoint {it} setup\n" for it in "abc")

    def corner(self, name, *designs, first=0, ecos=None):
        """A corner that answers each design by wns, tns and the slacks of a, b and c."""
        ecos = self.ECOS if ecos is None else ecos
        script, lines = self.ASKED, []
        for number, slacks in enumerate(designs, first):
            if number > first:
                script += f"begin_eco\n{ecos[number - first - 1][0]}\ncommit_eco\n{self.ASKED}"
                lines.append([str(number), "accepted"])
            lines += [[str(number), *it] for it in zip(["wns", "tns", *["endpoint"] * 3], slacks.split(), strict=True)]
        rows = [Row([str(at), *it], []) for at, it in enumerate(lines, 1)]
        output = mock.Mock(first=first, ecos=ecos, final=[name])
        job = mock.Mock(corner=name)
        return CornerAnswers(job, mock.Mock(), answers_of(script, rows, 1), output)

    def test_what_each_eco_changed(self):
        after = "-3.000 -5.000 1.500 -3.000"
        slow = self.corner("slow", "-5.000 -7.000 -5.000 -2.000 none", f"{after} none", f"{after} 9.000")
        fast = self.corner("fast", *(f"1.000 0.000 1.000 {it}.000 none" for it in (7, 8, 8)))
        both = {"slow": self.ECOS, "fast": self.ECOS}
        made = replay.Replay([slow, fast], both, {"slow": ["slow"], "fast": ["fast"]})
        self.assertEqual([made.has(it) for it in range(4)], [False, True, True, False])
        self.assertEqual(list(made.totals(1)), ["slow setup: worst -5.000 → -3.000, total -7.000 → -5.000"])
        # Over both corners a goes from -5 to 1, where the fast one is worst, and b from -2 to -3.
        self.assertEqual(made.moved(1), ["a setup -5.000 → 1.000 (+6.000)", "b setup -2.000 → -3.000 (-1.000)"])
        self.assertEqual((list(made.totals(2)), made.moved(2)), ([], []))

    def test_ecos_of_another_list(self):
        slow = self.corner("slow", "0 0 1 2 3", "0 0 1 2 3", first=1, ecos=self.ECOS[1:])
        self.assertTrue(replay.Replay([slow], {"slow": self.ECOS}, {"slow": ["slow"]}).has(2))
        for saved in (self.ECOS[:1], self.ECOS[::-1], [*self.ECOS, ["remove_gate g1"]]):
            self.assertFalse(replay.Replay([slow], {"slow": saved}, {"slow": ["slow"]}).has(2))
        # The answers of the page end with other slacks: of other documents, say.
        self.assertFalse(replay.Replay([slow], {"slow": self.ECOS}, {"slow": ["other"]}).has(2))


@needs_jinja2
@common.needs_program
class PageOfEcos(unittest.TestCase):
    """What each ECO changed: the numbers are those of runs by hand."""

    def test_a_list_of_two(self):
        with tempfile.TemporaryDirectory() as name:
            folder = pathlib.Path(name) / "four-corners"
            for it in ("four-corners", "closing-setup"):
                left_out = shutil.ignore_patterns("*.results")
                shutil.copytree(common.TOP / "examples" / it, folder.parent / it, ignore=left_out)
            edits = ["repower_gate carry_2 NAND2_X2", "repower_gate carry_3 NAND2_X2"]
            (folder / "ecos.list").write_text("\n".join(edits) + "\n")
            words = ["design.toml", "--program", common.PROGRAM, "--ecos", "--quiet"]
            self.assertEqual(common.tool("corners", *words, cwd=folder)[0], 0)
            self.assertEqual(common.tool("report", "design.toml", "--out", "page.html", cwd=folder), (0, "", ""))
            page = (folder / "page.html").read_text(encoding="utf-8")
            asked = "report_wns setup\nreport_endpoint sum_5:D setup\n"
            (folder / "s.eco").write_text(asked + "".join(f"{it}\n{asked}" for it in edits))
            library, netlist = "../closing-setup/sizes.lib", "../closing-setup/accumulator.v"
            documents = [library, library, netlist, "functional.sdc", "cmax.spef"]
            out = common.run(common.PROGRAM, "run", *documents, "1", "s.eco", cwd=folder)[1]
            slacks = [it.split()[3] for it in out.splitlines() if it.split()[2:3] in (["wns"], ["endpoint"])]
        self.assertEqual(len(slacks), 6)
        for number in (1, 2):
            before, after = slacks[2 * number - 2 : 2 * number], slacks[2 * number : 2 * number + 2]
            row = page.partition(f'<tr><td class="amount">{number}</td><td style')[2].partition("</tr>")[0]
            self.assertIn(f"slow_cmax setup: worst {before[0]} → {after[0]}", row)
            self.assertIn(f"sum_5:D setup {before[1]} → {after[1]} (", row)
            self.assertIn(f"{edits[number - 1].split()[1]}: NAND2_X1 becomes NAND2_X2", row)

    def test_paths_before_the_last_eco_are_left_out(self):
        with tempfile.TemporaryDirectory() as name:
            folder = pathlib.Path(name) / "four-corners"
            for it in ("four-corners", "closing-setup"):
                left_out = shutil.ignore_patterns("*.results")
                shutil.copytree(common.TOP / "examples" / it, folder.parent / it, ignore=left_out)

            def page_after(*words):
                words = ["design.toml", "--program", common.PROGRAM, "--quiet", *words]
                self.assertEqual(common.tool("corners", *words, cwd=folder)[0], 0)
                self.assertEqual(common.tool("report", "design.toml", "--out", "page.html", cwd=folder), (0, "", ""))
                return (folder / "page.html").read_text(encoding="utf-8")

            before = page_after("--paths", "1")
            (folder / "ecos.list").write_text("repower_gate carry_2 NAND2_X2\n")
            after, again = page_after("--endpoints"), page_after("--paths", "1")
        slack = '<b class="fails-words">{} ps</b>'
        self.assertEqual([slack.format("-30.055") in it for it in (before, after, again)], [True, False, False])
        self.assertEqual([slack.format("-3.972") in it for it in (before, after, again)], [False, False, True])
        self.assertEqual(['id="no-paths"' in it for it in (before, after, again)], [False, True, False])


@needs_jinja2
@browser.needs_chromium
@common.needs_program
class PageOfCorners(unittest.TestCase):
    """The page of three corners of the accumulator: its numbers are those of the answers."""

    def test_numbers_equal_the_answers(self):
        with tempfile.TemporaryDirectory() as name:
            folder = pathlib.Path(name)
            for file in (common.TOP / "examples" / "closing-setup").iterdir():
                shutil.copy(file, folder)
            (folder / "fast.sdc").write_text((folder / "accumulator.sdc").read_text().replace("700", "900"))
            (folder / "p.toml").write_text(
                'netlist = "accumulator.v"\nspef = "accumulator.spef"\nearly = "sizes.lib"\nlate = "sizes.lib"\n'
                'sdc = "accumulator.sdc"\n[corners.slow]\n[corners.fast]\nsdc = "fast.sdc"\n'
                '[corners.broken]\nspef = "accumulator.sdc"\n'
            )
            words = ["p.toml", "--program", common.PROGRAM, "--paths", "2", "--json", "--quiet"]
            status, out, _ = common.tool("corners", *words, cwd=folder)
            self.assertEqual(status, 3)
            answers = json.loads(out)
            self.assertEqual(common.tool("report", "p.toml", "--out", "page.html", cwd=folder), (0, "", ""))
            told = browser.run_in_page((folder / "page.html").read_text(encoding="utf-8"), CELLS)
        self.assertEqual(told["errors"], [])
        seen = told["result"]
        ends = answers["endpoints"]["setup"] + answers["endpoints"]["hold"]
        self.assertEqual(
            [it[:1] + it[2:4] for it in seen["endpoints"]], [[it["pin"], it["slack"], it["corner"]] for it in ends]
        )
        for line, corner in zip(seen["corners"], answers["corners"]):
            self.assertEqual(line[0], corner["name"])
            if corner["state"] == "done":
                self.assertEqual(
                    line[1:3] + line[4:6], [corner[kind][it] for kind in ("setup", "hold") for it in ("wns", "tns")]
                )
            else:
                self.assertRegex(line[1], r"^failed with status 3: .*accumulator\.sdc:1:1: P1")
        self.assertEqual(seen["slack"], answers["endpoints"]["setup"][0]["slack"])
        worst = answers["endpoints"]["setup"][0]
        self.assertEqual(
            seen["card"],
            {"slack": f"{worst['slack']} ps", "pin": worst["pin"], "corner": worst["corner"], "link": "#path-1"},
        )
        self.assertEqual((seen["linked"], seen["title"]), ("#path-1", "Timing of accumulator"))


CELLS = """
  const texts = row => [...row.cells].map(it => it.textContent.trim());
  const cells = id => [...document.getElementById(id).tBodies[0].rows].map(texts);
  const card = document.getElementById("worst-setup");
  const parts = document.querySelector("#path-1 table.parts").tBodies[0].rows;
  return { endpoints: cells("endpoints"), corners: cells("corners"), slack: texts(parts[parts.length - 1])[1],
    card: { slack: card.querySelector(".number").textContent, pin: card.querySelector("b").textContent,
      corner: card.querySelectorAll("b")[1].textContent, link: card.querySelector("a").getAttribute("href") },
    linked: document.querySelector("#endpoints a").getAttribute("href"),
    title: document.querySelector("h1").textContent };
"""


if __name__ == "__main__":
    unittest.main()
