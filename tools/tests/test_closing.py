"""The tools on answers to questions for closing timing, which the plain timer in Python writes."""
import contextlib
import csv
import io
import json
import unittest

import common
import test_reference
from lizdrog_dev import reference_scripts, reference_timer
from lizdrog_tools import check_sessions, read_answers
from lizdrog_tools.corners import merge
from lizdrog_tools.liberty import read_library
from lizdrog_tools.live import replies
from lizdrog_tools.reporting import histogram
from lizdrog_tools.verilog import read_netlist

SCRIPT = f"""\
report_net n2
{test_reference.TREE}
report_net n2
report_net zz
report_instance a1
report_sizes g1
report_timing r2:D hold
report_timing_through o setup g1:Z
report_timing_through o setup g2:Z
report_timing g1:A setup
report_worst_paths setup 3 each 2
report_worst_paths hold 2
report_failing setup
report_failing hold
report_summary setup
report_skew
advise_tns setup g1 AND2 g2 AND2 g1 DFF
advise_sizes hold wns g1
advise_sizes setup tns{" g1" * 21}
begin_what_if
repower_gate g1 BUF_X4
report_net c1
report_timing r1:D setup
report_worst_paths setup 2
report_paths o setup 2
report_failing setup
report_summary hold
report_skew
advise setup g2 BUF_X4
advise_sizes setup tns g2
report_instance zz
end_what_if
report_wns setup
"""


WRONG_WIRES = """\
begin_eco
insert_buffer n2 b1 n9 BUF_X1 g2:A
set_parasitics n2 c #1 1000 r g1:Z g2:A 100
commit_eco
set_parasitics n2 r g1:Z g2:A 1 r g2:A g3:A 1 r g3:A g1:Z 1
begin_what_if
insert_buffer n2 b1 n9 BUF_X1 g2:A
set_parasitics n2 c g2:A 1000
repower_gate zz BUF_X1
end_what_if
"""


class Refused(test_reference.Example):
    """Parasitics that do not fit their net."""

    def setUp(self):
        super().setUp()
        session = reference_timer.Session(self.design(60))
        session.run(reference_scripts.read(WRONG_WIRES, True))
        (self.folder / "s.eco").write_text(WRONG_WIRES)
        (self.folder / "out").write_text("".join(f"{it}\n" for it in session.lines()))

    def read(self, *words):
        status, out, err = common.tool("read_answers", "s.eco", "out", *words, cwd=self.folder)
        self.assertEqual((status, err), (0, ""))
        return out

    def test_the_pins_are_named(self):
        lines = self.read("--netlist", "b.v", "--library", "late.lib").split("\n")
        begins = [it for it in lines if not it.startswith("  ")]
        self.assertIn("begin_eco (2 edits) -> refused E1", begins[0])
        for said in ("  its parasitics name g2:A, which is not on the net",
                     "  no resistor ends at b1:A, g3:A, which are on the net",
                     "  behind these edits the net n2 is driven by g1:Z and leads to b1:A, g3:A",
                     "  3 resistors join 3 nodes, so there is a loop of resistors",
                     "    its parasitics name g2:A, which is not on the net"):
            self.assertIn(said, lines)
        self.assertIn("  behind these edits the net n2 is driven by g1:Z and leads to g2:A, g3:A", lines)

    def test_for_programs(self):
        rows = json.loads(self.read("--json", "--netlist", "b.v", "--library", "late.lib"))["rows"]
        self.assertIn("its parasitics name g2:A, which is not on the net", rows[0]["causes"])
        self.assertNotIn("causes", rows[2]["answers"][2])
        self.assertNotIn("causes", json.loads(self.read("--json"))["rows"][0])

    def test_without_a_netlist_it_is_told_how_to_find_it(self):
        out = self.read()
        self.assertEqual(out.count("report_net n2 in a draft"), 3)


class Tools(test_reference.Example):
    def setUp(self):
        super().setUp()
        session = reference_timer.Session(self.design(60))
        session.run(reference_scripts.read(SCRIPT, True))
        self.text = "".join(f"{it}\n" for it in session.lines())
        self.rows = [f"{it}\n" for it in session.rows]
        self.commands, self.output = read_answers.read_script(SCRIPT), read_answers.Output(self.text)
        self.output.rows = self.output.sessions[0]

    def told(self, say):
        with contextlib.redirect_stdout(io.StringIO()) as out:
            say(self.commands, self.output)
        return out.getvalue()

    def test_each_row_has_its_lines(self):
        self.assertEqual(len(self.output.rows), len(self.commands))
        self.assertTrue(self.output.final)
        for text, row, command in zip(self.rows, self.output.rows, self.commands):
            with self.subTest(command.text()):
                self.assertEqual(len(row.below), text.count("\n") - 1)
                self.assertTrue(read_answers.may_answer(command.words, row))
        sorts = [it.sort for it in self.output.rows[-2].parts()]
        self.assertEqual(sorts, ["tried", "net", "timing", "worst_paths", "paths", "failing", "summary", "skew",
                                 "advice", "resizes", "no"])

    def test_replies_end_where_rows_do(self):
        reader = replies.ReplyReader()
        found = [it for at in range(0, len("".join(self.rows)), 7)
                 for it in reader.take("".join(self.rows)[at:at + 7].encode())]
        self.assertEqual([it.data.decode() for it in found], self.rows)

    def test_answers_of_other_questions(self):
        for question, answer in (("report_net n2", "net n3 .."), ("report_instance a1", "instance a2 X pins 0"),
                                 ("report_sizes g1", "sizes g2 X cells 0"), ("report_timing o setup", "timing hold o"),
                                 ("report_timing_through o hold x", "timing hold q"), ("report_net n2", "path none"),
                                 ("report_summary hold", "summary setup clocks 0 untested 0"),
                                 ("advise_tns setup g1 X", "advice none"), ("report_worst_paths setup 1", "paths 0")):
            row = read_answers.Row(["1", "0", *answer.split()], [])
            self.assertFalse(read_answers.may_answer(question.split(), row), question)

    def test_sessions_are_checked(self):
        for told, faults in (("resizes 2 tried 3", 0), ("resizes 2 tried 4", 1)):
            output = read_answers.Output(self.text.replace("resizes 2 tried 3", told))
            sessions = check_sessions.Sessions([self.commands], output)
            sessions.look()
            self.assertEqual(sessions.faults, [])
            sessions.compare(self.one_session)
            self.assertEqual(len(sessions.faults), faults)

    def one_session(self, text):
        session = reference_timer.Session(self.design(60))
        session.run(reference_scripts.read(text, True))
        return read_answers.Output("".join(f"{it}\n" for it in session.lines()))

    def test_lines(self):
        lines = self.told(lambda *it: read_answers.print_lines(*it, None)).split("\n")
        for said in (
            "report_net n2 -> driven by g1:Z, load 30.000 fF, a tree of 3 nodes and 1500.000 ohm, 2 sinks (design 1)",
            "  g3:A: 1.000 fF early, 1.000 fF late, wire 40.000 ps early, 40.000 ps late",
            "report_net zz -> no answer, Q4 zz: there is no such net, instance, or cell of both libraries (design 1)",
            "report_instance a1 -> AND2, 3 pins (design 1)", "  a1:Z output net g",
            "report_sizes g1 -> BUF_X1, may be 5 cells (design 1)",
            "report_timing_through o setup g2:Z -> no tested path (design 1)",
            "      arrival       delay        slew  edge  pin    net  load/fF  fan-out",
            "       14.000      14.000       9.000  rise  cb:Z   c1     2.000        2",
            "        3.000  hold time",
            "  path 3 to r2:D: slack -87.000 ps, credit 4.000 ps, from clk rise to clk rise",
            "  clk: 4 tested, 3 failing, worst -131.500, total -263.500 ps",
            "  clk rise: 4.000 ps, late r1:CK rise 14.000, early r1:CK rise 10.000",
            f"advise_sizes setup tns{' g1' * 21} -> no answer, Q5 instances: there are too many of them (design 1)",
            "  report_paths o setup 2 -> 2 paths",
        ):
            self.assertIn(said, lines)

    def test_failing_rows_are_slacks_of_endpoints(self):
        number, slacks = read_answers.slacks_of(self.commands, self.output, None)
        self.assertEqual((number, slacks["setup"]), (1, {"r1:D": -45000, "r2:D": -87000, "o": -131500}))
        counts = read_answers.failing_counts(self.commands, self.output, number)
        told = self.told(lambda *_: read_answers.print_failing(number, slacks, counts))
        self.assertEqual(told.split("\n")[0], "setup, design 1: 3 endpoints fail")
        self.assertEqual(told.split("\n")[4], "hold, design 1: 0 endpoints fail")
        told = self.told(lambda *_: read_answers.print_failing(number, slacks, {"setup": 12}))
        self.assertIn("setup, design 1: 12 endpoints fail, of which 3 are listed\n", told)
        self.assertIn("hold, design 1: no report_endpoint was asked", told)
        told = self.told(lambda *_: read_answers.print_histogram(number, slacks))
        self.assertEqual(told.split("\n")[0], "setup slack of 3 failing endpoints, design 1, in ps")
        picture = histogram.histograms(number, slacks).file()
        self.assertIn("setup slack of 3 failing endpoints, design 1", picture)
        self.assertIn("3 of 3 fail", picture)

    def test_endpoints_that_are_not_listed_are_noted(self):
        slacks = read_answers.slacks_of(self.commands, self.output, None)[1]
        for count, said in ((3, ""), (12, "read_answers: note: 12 endpoints fail for setup, and 3 of them are here\n")):
            with contextlib.redirect_stderr(io.StringIO()) as err:
                read_answers.note_unlisted(slacks, {"setup": count, "hold": 0})
            self.assertEqual(err.getvalue(), said)

    def test_rows_that_are_cut_are_refused(self):
        (self.folder / "s.eco").write_text(SCRIPT)
        for old, new in ((" credit 4.000 from clk rise to clk rise nodes 10 capture 4", " nodes 10 capture 4"),
                         (" load 30.000 30.000", " load 30.000"), ("\nskew 2", "\nskew"),
                         ("tried 3 refused 1 setup", "tried 3 setup"), ("cb:Z rise 14.000 14.000", "cb:Z rise 14.000")):
            self.assertIn(old, self.text)
            (self.folder / "out").write_text(self.text.replace(old, new))
            for words in ((), ("--csv",), ("--json",)):
                status, _, err = common.tool("read_answers", "s.eco", "out", *words, cwd=self.folder)
                self.assertEqual((status, err.count("\n"), err[:17]), (2, 1, "read_answers: out"), (old, words, err))

    def test_corners_take_them_too(self):
        answers = merge.answers_of(SCRIPT, self.output.rows, 1)
        corner = merge.CornerAnswers(None, None, answers, self.output)
        self.assertEqual(merge.endpoint_slacks(corner)["setup"]["o"], "-131.500")

    def test_data(self):
        told = json.loads(self.told(lambda *it: print(json.dumps(read_answers.as_data(*it, None)))))["rows"]
        self.assertEqual((told[2]["driver"], told[2]["nodes"], told[2]["sinks"][1]["delay"]["late"]),
                         ("g1:Z", 3, "40.000"))
        self.assertEqual(told[2]["edit"], self.output.ecos[0][0])
        self.assertEqual((len(told[6]["path"]), len(told[6]["capture_path"]), told[6]["parts"]["hold_time"]),
                         (10, 4, "3.000"))
        self.assertEqual([it["endpoint"] for it in told[10]["paths"]], ["o", "o", "r2:D"])
        self.assertEqual(told[15]["edges"][0]["late"], {"pin": "r1:CK", "edge": "rise", "time": "14.000"})
        self.assertEqual([told[16][it] for it in ("tried", "refused")], [3, 1])
        self.assertEqual([it["answer"] for it in told[-2]["answers"]][:3], ["tried", "net", "timing"])

    def edited(self):
        """The netlist with the library, to be taken through the ECOs of the output."""
        netlist, library = read_netlist(self.folder / "b.v"), read_library(self.folder / "late.lib")
        return read_answers.Edited(netlist, library, self.output.ecos)

    def test_cells_stand_beside_pins(self):
        lines = self.told(lambda *it: read_answers.print_lines(*it, self.edited())).split("\n")
        for said in (
            "      arrival       delay        slew  edge  pin    cell         net  load/fF  fan-out",
            "        0.000                   0.000  rise  clk    input port   clk    2.000        2",
            "       66.000      38.000      65.000  rise  g1:Z   BUF_X1      n2    30.000        2",
            "      105.000       0.000       7.000  rise  r2:D   DFF",
            "      191.500       0.000       5.000  rise  o      output port",
        ):
            self.assertIn(said, lines)

    def test_cells_of_a_draft(self):
        rows = read_answers.as_data(self.commands, self.output, self.edited())["rows"]
        self.assertEqual({it["pin"]: it["cell"] for it in rows[6]["path"]}["g1:Z"], "BUF_X1")
        self.assertEqual([it["cell"] for it in rows[6]["capture_path"]], ["input port", "BUF_X1", "BUF_X1", "DFF"])
        commands = read_answers.read_script("begin_what_if\nrepower_gate g1 BUF_X4\nreport_timing r2:D setup\n"
                                            "end_what_if\n")
        path = self.rows[6].replace("7 1 timing hold", "tried\ntiming setup")
        self.output.rows = read_answers.Output(f"journal 1 0\nsession 1 rows 1\n1 1 what_if 2\n{path}").sessions[0]
        found = read_answers.row_value(commands[0], self.output.rows[0], self.edited())["answers"][1]
        self.assertEqual({it["pin"]: it["cell"] for it in found["path"]}["g1:Z"], "BUF_X4")

    def tables(self, edited=None):
        """The tables of the answers as CSV, each behind its header, by the name in its first row."""
        text = self.told(lambda *it: read_answers.print_csv(*it, edited))
        found = [list(csv.reader(io.StringIO(it))) for it in text.split("\n\n")]
        for rows in found:
            self.assertEqual({len(it) for it in rows}, {len(rows[0])}, rows[0])
        return {"all": found[0], **{rows[1][3]: [dict(zip(rows[0], it)) for it in rows[1:]] for rows in found[1:]}}

    def test_table_of_all_rows(self):
        rows = self.tables()["all"]
        self.assertEqual(rows[0], ["command", "design", "question", "answer", "pin", "edge", "time"])
        self.assertEqual({it[0] for it in rows[1:]}, {str(it.number) for it in self.commands})
        self.assertIn(["7", "1", "report_timing r2:D hold", "timing", "r2:D", "", "92.000"], rows)
        self.assertIn(["9", "1", "report_timing_through o setup g2:Z", "timing", "none", "", ""], rows)
        self.assertIn(["14", "1", "report_failing hold", "failing", "none", "", ""], rows)
        self.assertIn(["4", "1", "report_net zz", "no", "Q4 zz", "", ""], rows)

    def test_tables_of_nets_and_instances(self):
        tables = self.tables()
        net = next(it for it in tables["net"] if it["command"] == "3")
        self.assertEqual([net[it] for it in ("driver", "load_late", "parasitics", "nodes", "resistance", "sinks")],
                         ["g1:Z", "30.000", "tree", "3", "1500.000", "2"])
        self.assertEqual(net["edit"], self.output.ecos[0][0])
        sink = next(it for it in tables["sink"] if it["command"] == "3" and it["pin"] == "g3:A")
        self.assertEqual(list(sink.values())[4:], ["n2", "g3:A", "1.000", "1.000", "40.000", "40.000"])
        self.assertEqual(list(tables["instance"][0].values())[4:], ["a1", "AND2", "a1:A", "input", "net", "clk"])
        self.assertEqual(tables["sink"][-1]["question"], "> report_net c1")

    def test_tables_of_paths(self):
        tables = self.tables(self.edited())
        path = [it for it in tables["timing"] if it["command"] == "7"]
        self.assertEqual(len(path), 10)
        self.assertEqual(list(path[6].values())[2:], ["report_timing r2:D hold", "timing", "r2:D", "hold", "g1:Z",
                                                      "BUF_X1", "rise", "66.000", "38.000", "65.000", "n2", "30.000",
                                                      "2"])
        self.assertEqual(len([it for it in tables["capture"] if it["command"] == "7"]), 4)
        part = [list(it.values())[4:] for it in tables["part"] if it["command"] == "7"]
        self.assertEqual(part[0], ["r2:D", "hold", "capture_edge", "clk", "rise", "0.000"])
        self.assertEqual(part[2], ["r2:D", "hold", "hold_time", "", "", "3.000"])
        worst = [it for it in tables["worst_paths"] if it["command"] == "11" and it["path"] == "3"]
        edges = ["clk", "rise"] * 3
        self.assertEqual(list(worst[0].values())[5:], ["r2:D", "setup", "-87.000", "4.000", *edges, "0.000"])

    def test_tables_of_the_whole_design(self):
        tables = self.tables()
        self.assertIn(["20", "1", "> report_failing setup", "failing", "r1:D", "-45.000"],
                      [list(it.values()) for it in tables["failing"]])
        self.assertEqual(list(tables["skew"][0].values())[4:], ["clk", "rise", "4.000", "r1:CK", "rise", "14.000",
                                                                "r1:CK", "rise", "10.000"])
        resizes = [list(it.values())[4:] for it in tables["resizes"] if it["command"] == "17"]
        self.assertEqual(resizes[0], ["3", "1", "", "", "-131.500", "-263.500", "28.000", "0.000"])
        self.assertEqual(resizes[1][2:6], ["g1", "AND2", "-52.947", "-124.947"])


if __name__ == "__main__":
    unittest.main()
