"""Parts of the prompt and the bridge: replies, addresses, completion, drafts that are kept, and ECOs that are taken
back.
"""
import pathlib
import re
import shutil
import tempfile
import unittest

import common
from lizdrog_tools.liberty import Library, read_library
from lizdrog_tools.live import completion, seats, wire
from lizdrog_tools.live.connect import Lines, command_of, row_of, standing_edits
from lizdrog_tools.live.design import CannotUndo, Design, is_same, standing_undo
from lizdrog_tools.live.replies import ReplyReader, words_of
from lizdrog_tools.spef import Spef, read_spef
from lizdrog_tools.verilog import Netlist, read_netlist

EXAMPLE = common.TOP / "examples" / "closing-setup"
LIBRARY = """library (l) { time_unit : "1ps"; capacitive_load_unit (1, ff);
 cell (INV) { pin (A) { direction : input; } pin (Z) { direction : output; } }
 cell (BUF) { pin (A) { direction : input; } pin (Z) { direction : output; } }
 cell (DFF) { pin (D) { direction : input; timing () { related_pin : "CK"; timing_type : setup_rising;
   rise_constraint (scalar) { values ("1"); } fall_constraint (scalar) { values ("1"); } } }
  pin (CK) { direction : input; } pin (Q) { direction : output; } } }
"""
NETLIST = """module top (d, q, clk);
 input d, clk; output q; wire n1, n2, lone;
 INV g1 (.A(d), .Z(n1));
 INV g2 (.A(n1), .Z(n2));
 INV g3 (.A(1'b0), .Z());
 DFF r1 (.D(n2), .CK(clk), .Q(q));
endmodule
"""
SPEF = """*SPEF "IEEE"
*DIVIDER /
*DELIMITER :
*BUS_DELIMITER [ ]
*T_UNIT 1 PS
*C_UNIT 1 FF
*R_UNIT 1 OHM
*D_NET n1 3.5
*CONN
*I g1:Z O
*I g2:A I
*CAP
1 n1:1 2.5
2 g2:A 1
*RES
1 g1:Z n1:1 100
2 n1:1 g2:A 50
*END
*D_NET n2 2.25
*CONN
*END
"""
N1 = "set_parasitics n1 c #1 2500 c g2:A 1000 r g1:Z #1 100000 r #1 g2:A 50000"


def small_design():
    return Design(Netlist(NETLIST), Library(LIBRARY), Spef(SPEF))


class Replies(unittest.TestCase):
    DATA = (
        b"1 0 wns -2.500\nerror C1 3\n2 0 worst 2\na:D 1.000\nb:D 2.000\n3 1 path none\n"
        b"4 1 path setup q slack 1.000 credit 0.000 from c rise to c rise nodes 1\n"
        b"q rise 2.000\n5 1 paths 2\npath setup q slack 1.000 credit 0.000 from c rise to c rise nodes 2\n"
        b"a rise 1.000\nq rise 2.000\n"
        b"path setup q slack 1.500 credit 0.000 from c rise to c rise nodes 1\nq rise 2.000\n"
        b"6 1 what_if 3\ntried\nworst 1\nq 1.000\nwns 3.000\n7 1 worst 0\n8 1 paths 0\n9 1 at 1 clk rise 4\n"
        b"10 2 accepted\n"
    )
    COUNTS = [1, 1, 3, 1, 2, 6, 5, 1, 1, 1, 1]

    def test_where_each_ends(self):
        for step in (1, 7, len(self.DATA)):
            reader, found = ReplyReader(), []
            for at in range(0, len(self.DATA), step):
                found += reader.take(self.DATA[at : at + step])
            self.assertEqual(b"".join(it.data for it in found), self.DATA)
            self.assertEqual([it.data.count(b"\n") for it in found], self.COUNTS)
        self.assertEqual([it.error_line for it in found if not it.is_row], [3])
        self.assertEqual((found[-1].design, found[-1].sort), (2, b"accepted"))

    def test_what_is_no_row_ends_with_its_line(self):
        found = ReplyReader().take(b"\nnonsense worst 5\n1 0 worst x\n1 0\n")
        self.assertEqual([it.is_row for it in found], [False, False, True, False])

    def test_words(self):
        self.assertEqual(words_of(b" take \t 1\n"), [b"take", b"1"])
        self.assertEqual([words_of(it) for it in (b"\n", b" \t\n", b"# a word\n", b"  #a\n")], [[]] * 4)
        for wrong in (b"# gr\xfcn\n", b"#" * 65537 + b"\n"):
            self.assertEqual(len(words_of(wrong)), 1)
        self.assertEqual(words_of(b"commit_eco\r\n"), [b"commit_eco\r"])


class Addresses(unittest.TestCase):
    def test_what_is_one(self):
        self.assertEqual(wire.address_of("unix:/run/s").place, "/run/s")
        self.assertEqual(wire.address_of("s").place, "s")
        self.assertEqual(wire.address_of("tcp:127.0.0.1:7000").place, ("127.0.0.1", 7000))
        self.assertEqual(str(wire.address_of("tcp:localhost:7000")), "tcp:127.0.0.1:7000")

    def test_what_is_none(self):
        for word in ("tcp:0.0.0.0:7000", "tcp:10.0.0.1:7000", "tcp::7000", "tcp:host.example:7000", "tcp:[::]:7000"):
            with self.assertRaisesRegex(wire.WrongAddress, "ssh -N -L"):
                wire.address_of(word)
        for word in ("tcp:127.0.0.1:http", "tcp:127.0.0.1:65536", "tcp:127.0.0.1:", "unix:", "unix:/" + "a" * 107):
            with self.assertRaises(wire.WrongAddress):
                wire.address_of(word)

    def test_control_lines(self):
        self.assertEqual(wire.read_control(wire.control(who=[1, "ü"])), {"who": [1, "ü"]})
        for line in (
            b"take\n",
            wire.MARK + b"{\n",
            wire.MARK + b"[1]\n",
            wire.MARK + b"\xff\n",
            wire.MARK + b"[" * 100000 + b"\n",
        ):
            self.assertIsNone(wire.read_control(line))


class Sender:
    """Who says lines to a seat."""

    def __init__(self):
        self.name, self.base, self.has_said_all = "ann", None, False


class Seats(unittest.TestCase):
    """What is handed on to a session, and when; the test plays the server."""

    def setUp(self):
        self.folder = tempfile.mkdtemp()
        self.addCleanup(shutil.rmtree, self.folder)
        self.seat, self.ann = seats.Seat(1, self.folder), Sender()
        self.server = open(
            self.seat.names[0],
            "rb",
            buffering=0,
            opener=lambda name, _: seats.os.open(name, seats.os.O_RDONLY | seats.os.O_NONBLOCK),
        )
        self.addCleanup(self.server.close)
        self.assertTrue(self.seat.try_open())
        self.addCleanup(self.seat.close_output)
        self.addCleanup(self.seat.close_input)

    def say(self, *lines):
        for line in lines:
            self.seat.put(None if line is None else line.encode() + b"\n", self.ann)

    def handed(self):
        """The lines that the server can read now."""
        self.seat.pump()
        return (self.server.read() or b"").decode().split("\n")[:-1]

    def told(self, text):
        """What the server says, and the command that it is taken to answer."""
        item = self.seat.answered(ReplyReader().take(text.encode() + b"\n")[0])
        return item and item.texts()

    def test_one_command_at_a_time(self):
        self.say("# first", "", "report_wns setup", "take", "take")
        self.assertEqual(self.handed(), ["# first", "", "report_wns setup"])
        self.assertEqual(self.handed(), [])
        self.assertEqual(self.told("1 0 wns 1.000"), ["report_wns setup"])
        self.assertEqual(self.handed(), ["take"])

    def test_a_group_as_it_comes(self):
        self.say("begin_eco", "remove_net a", " commit_eco", "take")
        self.assertEqual(self.handed(), ["begin_eco", "remove_net a", " commit_eco"])
        self.assertEqual(self.told("1 1 accepted"), ["begin_eco", "remove_net a", "commit_eco"])
        self.assertEqual(self.seat.item.edits(), ["remove_net a"])
        self.assertEqual(self.handed(), ["take"])

    def test_a_wrong_line_answers_for_its_group(self):
        self.say("begin_eco", "rubbish")
        self.assertEqual(self.handed(), ["begin_eco", "rubbish"])
        self.told("error C1 2")
        self.say("remove_net a", "commit_eco", "take")
        self.assertEqual(self.handed(), ["remove_net a", "commit_eco", "take"])
        self.assertEqual(self.told("1 0 taken"), ["take"])

    def test_a_wrong_line_that_is_told_late(self):
        self.say("begin_eco", "rubbish", "commit_eco", "take")
        self.assertEqual(len(self.handed()), 3)
        self.told("error C1 2")
        self.assertEqual(self.handed(), ["take"])

    def test_an_end_of_a_draft_inside_a_group(self):
        """It is wrong there, and it is the draft's end, whether an earlier line was wrong or not."""
        for error in (4, 2):
            self.setUp()
            self.say(
                "begin_what_if",
                "remove_net a" if error == 4 else "rubbish",
                "begin_eco",
                "end_what_if",
                "end_what_if",
                "take",
            )
            self.assertEqual(len(self.handed()), 4)
            self.told(f"error C1 {error}")
            self.assertEqual(self.handed(), ["end_what_if"])
            self.told("error C1 5")
            self.assertEqual(self.handed(), ["take"])

    def test_what_is_left_open_is_closed(self):
        for lines, closing in (
            (["begin_eco", "remove_net a"], "commit_eco"),
            (["begin_what_if", "begin_eco", "remove_net a"], "end_what_if"),
        ):
            self.setUp()
            self.say(*lines, None)
            self.assertEqual(self.handed(), [*lines, "client_gone", closing])
            self.assertFalse(self.ann.has_said_all)
            reply = ReplyReader().take(f"error C1 {len(lines) + 1}\n".encode())[0]
            self.assertTrue(self.seat.is_own(reply))
            self.seat.answered(reply)
            self.assertEqual(self.handed(), [])
            self.assertTrue(self.ann.has_said_all)
            self.assertEqual(self.seat.errors, 0)

    def test_nothing_is_closed_where_nothing_is_open(self):
        self.say("begin_eco", "remove_net a", "commit_eco", None)
        self.assertEqual(len(self.handed()), 3)
        self.told("1 0 refused E2 a")
        self.assertEqual(self.handed(), [])
        self.assertTrue(self.ann.has_said_all)

    def test_long_lines(self):
        longest = "set_parasitics n " + "c #1 1 " * 9359
        self.say(f"{longest:65536}", "b" * 900000)
        self.assertEqual(self.handed(), [f"{longest:65536}"])
        self.told("1 0 refused E2 n")
        self.assertEqual(self.handed(), ["b" * seats.CUT_LINE])
        self.told("error C2 2")

    def test_late_replies_have_a_limit(self):
        self.say("take")
        self.handed()
        item, reply = (
            self.seat.item or seats.Item(self.ann, "ann", 1, [b"take\n"]),
            ReplyReader().take(b"1 0 " + b"x" * 1000 + b"\n")[0],
        )
        for _ in range(2000):
            self.seat.keep_late(item, reply)
        late, lost = self.seat.take_late()
        self.assertLessEqual(sum(len(it["reply"]) for it in late), seats.MOST_LATE)
        self.assertEqual(len(late) + lost, 2000)
        self.assertEqual(self.seat.take_late(), ([], 0))


class Collected(unittest.TestCase):
    def commands(self, *lines):
        collected = Lines()
        return [it for line in lines for it in [collected.take(line)] if it], collected.open

    def test_commands(self):
        draft = ["begin_what_if", "begin_eco", "remove_net a", "commit_eco", "drop_last", "end_what_if"]
        self.assertEqual(self.commands("# a", "", "take", *draft, "take"), ([["take"], draft, ["take"]], []))
        self.assertEqual(self.commands("begin_eco x", "remove_net a"), ([["begin_eco x"], ["remove_net a"]], []))
        self.assertEqual(self.commands("begin_eco", "remove_net a"), ([], ["begin_eco", "remove_net a"]))

    def test_what_stands_of_a_draft(self):
        lines = [
            "begin_what_if",
            "repower_gate a X2",
            "begin_eco",
            "remove_net b",
            "remove_net c",
            "commit_eco",
            "repower_gate d X9",
            "report_wns setup",
            "drop_last",
            "repower_gate e X4",
            "drop_last",
            "drop_last",
            "drop_last",
            "repower_gate f X8",
            "end_what_if",
        ]
        row = (
            "1 0 what_if 10\ntried\ntried\nrefused E3 X9\nwns 1.000\ndropped\ntried\ndropped\ndropped\nno_draft\n"
            "tried\n"
        )
        self.assertEqual(standing_edits(command_of(lines), row_of(row)), ["repower_gate f X8"])
        row = row.replace("wns 1.000\ndropped", "wns 1.000\nno_draft")
        self.assertEqual(
            standing_edits(
                command_of(lines), row_of(row.replace("dropped\ndropped\nno_draft", "dropped\nno_draft\nno_draft"))
            ),
            ["repower_gate a X2", "remove_net b", "remove_net c", "repower_gate f X8"],
        )


class Completion(unittest.TestCase):
    def setUp(self):
        design = small_design()
        self.names = completion.Names(design, [design.library.cells])

    def found(self, line):
        return completion.complete(line, lambda: self.names)[1]

    def test_commands(self):
        self.assertEqual(self.found("report_s"),
                         ["report_sizes", "report_skew", "report_slack", "report_slew", "report_summary"])
        self.assertEqual(self.found("advise"), ["advise", "advise_sizes", "advise_tns"])
        self.assertEqual(self.found("un"), ["undo"])
        self.assertEqual(self.found("begin"), ["begin_eco", "begin_what_if"])

    def test_each_place(self):
        for line, wanted in (
            ("report_at g1", ["g1:A", "g1:Z"]),
            ("report_at g", ["g1:", "g2:", "g3:"]),
            ("report_at g2:", ["g2:A", "g2:Z"]),
            ("report_at c", ["clk"]),
            ("report_at clk l", ["late"]),
            ("report_at clk late ", ["rise", "fall"]),
            ("report_wns ", ["setup", "hold"]),
            ("report_endpoint ", ["q", "r1:D"]),
            ("report_path r1:D h", ["hold"]),
            ("report_through r1:D setup g1:", ["g1:A", "g1:Z"]),
            ("report_through r1:D setup g1:A g2:Z", ["g2:Z"]),
            ("repower_gate g", ["g1", "g2", "g3"]),
            ("repower_gate g1 ", ["BUF"]),
            ("insert_buffer n", ["n1", "n2"]),
            ("insert_buffer n1 b1 m1 B", ["BUF"]),
            ("insert_buffer n1 b1 m1 BUF g2:A g", ["g1:", "g2:", "g3:"]),
            ("advise setup g1 INV g", ["g1", "g2", "g3"]),
            ("advise setup g1 ", ["BUF"]),
            ("insert_gate g9 ", ["BUF", "DFF", "INV"]),
            ("report_timing r", ["r1:D"]),
            ("report_timing_through r1:D setup g2:Z g1:", ["g1:A", "g1:Z"]),
            ("report_net n", ["n1", "n2"]),
            ("report_worst_paths setup 5 ", ["each"]),
            ("advise_tns setup g1 INV g2 B", ["BUF"]),
            ("advise_sizes setup ", ["wns", "tns"]),
            ("advise_sizes setup tns g1 g", ["g1", "g2", "g3"]),
            ("set_parasitics l", ["lone"]),
            ("set_parasitics n1 no", ["none"]),
            ("set_parasitics n1 c g2:", ["g2:A", "g2:Z"]),
            ("await 5 ", []),
            ("take ", []),
            ("nonsense ", []),
        ):
            self.assertEqual(self.found(line), wanted, line)

    def sized(self, early=lambda text: text):
        """Names where BUF has two sizes, and a cell of the same pins and arcs that does another thing."""
        buf = re.search(r" cell \(BUF\).*?\} \} \} \}\n", common.LIBRARY, re.S)[0].replace(
            "direction : output;", 'direction : output; function : "A";'
        )
        made = [
            buf.replace("(BUF)", "(BUF_X2)"),
            buf.replace("(BUF)", "(BUF_X4)"),
            buf.replace("(BUF)", "(BUF_T)").replace('"A";', '"A | A";', 1),
            buf.replace("(BUF)", "(BUF_F) { cell_footprint : other;", 1).replace("; {", ";", 1),
        ]
        text = common.LIBRARY.replace(" cell (DFF)", f"{''.join(made)} cell (DFF)").replace(
            " cell (BUF) {", " cell (BUF) { cell_footprint : buf;"
        )
        design = small_design()
        design.parts["g1"].cell = "BUF"
        return completion.Names(design, [Library(it).cells for it in (text, early(text))])

    def test_cells_of_a_resize_are_those_alike(self):
        self.names = self.sized()
        for line in ("repower_gate g1 ", "advise setup g1 ", "advise_tns hold g2 X g1 B", "repower_gate g1 BUF_"):
            self.assertEqual(self.found(line), ["BUF_T", "BUF_X2", "BUF_X4"], line)
        self.assertEqual(self.found("repower_gate g1 D"), ["DFF"])
        for line in ("insert_gate g9 ", "insert_buffer n1 b1 m1 ", "repower_gate absent "):
            self.assertEqual(len(self.found(line)), 6, line)

    def test_alike_in_both_libraries(self):
        self.names = self.sized(lambda text: text.replace("cell (BUF_X4)", "cell (BUF_X9)"))
        self.assertEqual(self.found("repower_gate g1 "), ["BUF_T", "BUF_X2"])

    def test_cells_of_other_functions_are_not_alike(self):
        cells = self.sized().libraries[0]
        self.assertTrue(cells["BUF_X2"].is_alike(cells["BUF_X4"]))
        self.assertFalse(cells["BUF_X2"].is_alike(cells["BUF_T"]))
        self.assertFalse(cells["BUF"].is_alike(cells["BUF_F"]))
        self.assertFalse(cells["BUF"].is_alike(cells["DFF"]))

    def test_templates_are_those_of_the_help(self):
        told = set(
            re.findall(r"^\| `([a-z]+(?:_[a-z]+)*)[ `]", (common.TOP / "docs" / "SCRIPTS.md").read_text(), re.M)
        ) - {"accepted", "refused"}
        self.assertLessEqual(told, set(completion.COMMANDS))

    def test_without_documents_commands_stay(self):
        self.assertEqual(completion.complete("report_wns s", lambda: None)[1], ["setup"])
        self.assertEqual(completion.complete("report_path r", lambda: None)[1], [])

    def test_of_many_some(self):
        self.assertEqual(len(completion.begins([f"g{it:04}" for it in range(2000)], "g")), completion.MOST)


class TakenBack(unittest.TestCase):
    """Each kind of edit, by hand; and that the design behind is the one before."""

    CASES = [
        (["repower_gate g1 BUF"], ["repower_gate g1 INV"]),
        (["insert_gate x BUF"], ["remove_gate x"]),
        (["insert_net m"], ["remove_net m"]),
        (["remove_net lone"], ["insert_net lone"]),
        (["set_parasitics n1 none"], [N1]),
        (["set_parasitics n1 c #1 7"], [N1]),
        (["set_parasitics lone c #1 7"], ["set_parasitics lone none"]),
        (["set_parasitics n2 none"], ["set_parasitics n2 c #1 2250"]),
        (["disconnect_pin g2:A"], ["connect_pin g2:A n1", N1]),
        (["connect_pin g3:Z lone"], ["disconnect_pin g3:Z"]),
        (
            ["disconnect_pin g2:A", "connect_pin g2:A n2"],
            ["disconnect_pin g2:A", "connect_pin g2:A n1", N1, "set_parasitics n2 c #1 2250"],
        ),
        (
            ["insert_buffer n1 b m BUF g2:A", "set_parasitics m c #1 5"],
            [
                "disconnect_pin b:A",
                "disconnect_pin g2:A",
                "connect_pin g2:A n1",
                "disconnect_pin b:Z",
                "remove_gate b",
                "remove_net m",
                N1,
            ],
        ),
        (
            ["disconnect_pin g2:A", "disconnect_pin g2:Z", "remove_gate g2"],
            ["insert_gate g2 INV", "connect_pin g2:Z n2", "connect_pin g2:A n1", "set_parasitics n2 c #1 2250", N1],
        ),
        (["repower_gate g1 BUF", "repower_gate g1 INV"], ["repower_gate g1 BUF", "repower_gate g1 INV"]),
    ]

    def state(self, design):
        return {
            key: design.value(key)
            for key in [*(("instance", it) for it in design.parts), *(("net", it) for it in design.wires)]
        }

    def test_each_kind(self):
        for edits, wanted in self.CASES:
            design = small_design()
            before = self.state(design)
            design.take(1, edits)
            found, notes = design.undo(1)
            self.assertEqual((sorted(found), notes), (sorted(wanted), []), edits)
            design.take(2, found)
            after = self.state(design)
            self.assertEqual(set(after), set(before), edits)
            for key in before:
                self.assertEqual(before[key][0], after[key][0], (edits, key))
                self.assertTrue(is_same(key, before[key], after[key]), (edits, key))

    def test_structure_comes_before_parasitics(self):
        design = small_design()
        design.take(1, ["insert_buffer n1 b m BUF g2:A"])
        names = [it.split(" ")[0] for it in design.undo(1)[0]]
        self.assertEqual(
            names,
            [
                "disconnect_pin",
                "disconnect_pin",
                "connect_pin",
                "disconnect_pin",
                "remove_gate",
                "remove_net",
                "set_parasitics",
            ],
        )

    def test_what_is_tied_stays_open(self):
        design = small_design()
        design.take(1, ["disconnect_pin g1:Z", "connect_pin g3:A n1"])
        edits, notes = design.undo(1)
        self.assertIn("disconnect_pin g3:A", edits)
        self.assertEqual(notes, ["g3:A of INV was tied to a constant, and stays open"])
        design = small_design()
        design.take(1, ["remove_gate g3"])
        self.assertEqual(
            design.undo(1), (["insert_gate g3 INV"], ["g3:A of INV was tied to a constant, and stays open"])
        )

    def test_what_another_changed_since(self):
        for edits, later, what in (
            (["repower_gate g1 BUF"], ["repower_gate g1 INV", "insert_net m"], None),
            (["repower_gate g1 BUF"], ["repower_gate g1 DFF"], "instance g1"),
            (["insert_net m"], ["connect_pin g3:Z m"], "net m"),
            (["insert_gate x BUF"], ["connect_pin x:A lone"], "instance x"),
            (["set_parasitics n1 none"], ["disconnect_pin g2:A"], "net n1"),
            (["set_parasitics n1 none"], ["set_parasitics n1 c #1 3"], "net n1"),
            (["insert_net m"], ["remove_net m"], "entry 2 took it back already: `undo 2` does it again"),
            (["repower_gate g1 BUF"], ["repower_gate g2 BUF", "set_parasitics n1 none"], ""),
        ):
            design = small_design()
            design.take(1, edits)
            design.take(2, later)
            if what == "":
                self.assertEqual(design.undo(1)[0], ["repower_gate g1 INV"])
                continue
            with self.assertRaises(CannotUndo) as told:
                design.undo(1)
            changed = f"entry 2 changed the {what or 'instance g1'} since: take that back first"
            self.assertEqual(str(told.exception), what if (what or "").startswith("entry") else changed)

    def test_what_took_an_entry_back(self):
        """It begins with what that left, and leaves what that began with; one that changes nothing takes none back."""
        design = small_design()
        for number, (edit, wanted) in enumerate(
            (
                ("repower_gate g1 BUF", None),
                ("repower_gate g1 BUF", None),
                ("repower_gate g1 INV", 1),
                ("repower_gate g1 BUF", 3),
                ("insert_net x", None),
                ("remove_net x", 5),
                ("repower_gate g1 INV", 4),
            ),
            1,
        ):
            design.take(number, [edit])
            self.assertEqual(design.changes[number].took_back, wanted, number)
        found = {it: standing_undo(design.taken_back, it) for it in range(1, 8)}
        self.assertEqual(found, {1: 3, 2: None, 3: None, 4: 7, 5: 6, 6: None, 7: None})
        with self.assertRaisesRegex(CannotUndo, "entry 6 took it back already: `undo 6` does it again"):
            design.undo(5)

    def test_after_what_came_since_is_taken_back(self):
        design = small_design()
        design.take(1, ["set_parasitics n1 none"])
        design.take(2, ["insert_gate x BUF"])
        design.take(3, ["connect_pin x:A n1"])
        design.take(4, design.undo(3)[0])
        self.assertEqual(design.undo(2)[0], ["remove_gate x"])
        self.assertEqual(design.undo(1)[0], [N1])

    def test_what_is_too_much(self):
        design = small_design()
        with self.assertRaisesRegex(CannotUndo, "there is no entry 7"):
            design.undo(7)
        design.take(1, ["set_parasitics n1 " + "c #1 100000000 " * 5000 + "c g2:A 1"])
        design.take(2, ["set_parasitics n1 none"])
        with self.assertRaisesRegex(CannotUndo, "the parasitics of n1 take a line of 75026 bytes"):
            design.undo(2)
        design.take(3, [f"insert_net m{it}" for it in range(1000)])
        self.assertEqual(len(design.undo(3)[0]), 1000)
        design.take(
            4,
            [
                it
                for number in range(300)
                for it in (
                    f"insert_gate x{number} BUF",
                    f"connect_pin x{number}:A lone",
                    f"connect_pin x{number}:Z m{number}",
                )
            ],
        )
        self.assertEqual(len(design.undo(4)[0]), 900)
        design.take(
            5,
            [
                "insert_buffer lone b5 n5 BUF " + " ".join(f"x{it}:A" for it in range(300)),
                *(f"remove_net m{it}" for it in range(300, 700)),
            ],
        )
        with self.assertRaisesRegex(CannotUndo, "that takes 1004 edits, and an ECO has 1000 at most"):
            design.undo(5)


@common.needs_program
class Answers(unittest.TestCase):
    """On an example with the wires of a SPEF an ECO changes answers; once it is taken back they are those before."""

    ROLES = ("sizes.lib", "sizes.lib", "accumulator.v", "accumulator.sdc", "accumulator.spef")
    QUESTIONS = ["report_worst setup 100", "report_worst hold 100", "report_tns setup", "report_path sum_5:D setup"]
    OUT = ["pass_2:A", "pass_2:B", "pass_2:Z", "carry_2:B"]
    ECOS = [
        ["repower_gate carry_1 NAND2_X4"],
        ["insert_buffer c_1 b9 m9 CLKBUF_X4 pass_2:B"],
        ["set_parasitics c_2 none"],
        ["disconnect_pin carry_2:A", "connect_pin carry_2:A c_1", "set_parasitics c_1 c #1 9000"],
        ["insert_gate b8 INV_X1", "insert_net m8", "connect_pin b8:A q_0"],
        [*(f"disconnect_pin {it}" for it in OUT), "remove_gate pass_2", "remove_net p_2"],
    ]

    def script(self, design):
        """The questions, and then for each ECO: it, the questions, what takes it back, the questions."""
        lines = list(self.QUESTIONS)
        for number, edits in enumerate(self.ECOS):
            design.take(2 * number + 1, edits)
            back = design.undo(2 * number + 1)[0]
            design.take(2 * number + 2, back)
            for it in (edits, back):
                lines += it if len(it) == 1 else ["begin_eco", *it, "commit_eco"]
                lines += self.QUESTIONS
        return "".join(f"{it}\n" for it in lines)

    def test_they_are_those_before(self):
        documents = [EXAMPLE / it for it in self.ROLES]
        design = Design(read_netlist(documents[2]), read_library(documents[0]), read_spef(documents[4]))
        with tempfile.TemporaryDirectory() as folder:
            file = pathlib.Path(folder, "s.eco")
            file.write_text(self.script(design))
            status, out, _ = common.run(common.PROGRAM, "run", *documents, "1", file)
        self.assertEqual(status, 0, out[:300])
        undone = {it: design.changes[it].took_back for it in design.changes}
        self.assertEqual(undone, {it: None if it % 2 else it - 1 for it in range(1, 2 * len(self.ECOS) + 1)})
        rows = re.split(r"(?m)^\d+ \d+ ", out[out.index("session 1 rows") : out.index("final ")])[1:]
        step = len(self.QUESTIONS) + 1
        told = [rows[at : at + step - 1] for at in range(0, len(rows), step)]
        self.assertEqual(len(told), 1 + 2 * len(self.ECOS))
        for number, edits in enumerate(self.ECOS):
            self.assertNotEqual(told[2 * number + 1], told[0], edits)
            self.assertEqual(told[2 * number + 2], told[0], edits)


if __name__ == "__main__":
    unittest.main()
