"""The quick ways of the tools' readers give what their slow ways give."""
import random
import tempfile
import unittest
import unittest.mock

import common
from lizdrog_tools import check_setup, verilog
from lizdrog_tools.liberty import parse_library
from lizdrog_tools.read_answers import Edited
from lizdrog_tools.spef import Spef, parse_spef
from lizdrog_tools.verilog import Joined, Netlist, parse_netlist

NETLIST = """// a comment (x);
module top (clk, d, \\q[0] ,q[1], e);
 input clk, d; (* keep = "a;b" *) input [1:0] e;
 output \\q[0] ; output [1:1] q; wire n1, n2 , \\u1/n;3 ;
 wire [0:2] v; wire \\wire ;
 DFF r1 (.D(d), .CK(clk), .Q(n1)); /* g0 (.A(x)); */ BUF \\u1/g1 ( .A (n1) , .Z( \\u1/n;3 ) );
 BUF g2(.A(1'b0), .Z()); BUF g3 (.A(v [ 2 ]), .Z(v[01]));
 BUF g4 (.A({n1}), .Z(n2[1:0])); BUF g5 (n1, n2);
`celldefine
 DFF r2 (
   .D(\\u1/n;3 ), // its data
   .CK(clk), .Q(\\q[0] )
 );
endmodule
"""
NETS = {"g2": {"A": None, "Z": None}, "g3": {"A": "v[2]", "Z": "v[1]"}, "g4": {"A": None, "Z": "n2[1]"}, "g5": {},
        "r1": {"D": "d", "CK": "clk", "Q": "n1"}, "u1/g1": {"A": "n1", "Z": "u1/n;3"},
        "r2": {"D": "u1/n;3", "CK": "clk", "Q": "q[0]"}}


def parts(netlist):
    made = [(it.name, it.cell, it.offset, it.nets, it.tied) for it in netlist.instances.values()]
    return netlist.name, netlist.ports, netlist.declared, made


class Verilog(unittest.TestCase):
    def test_statements(self):
        netlist = parse_netlist(NETLIST)
        self.assertEqual({name: it.nets for name, it in netlist.instances.items()}, NETS)
        self.assertEqual(netlist.instances["g2"].tied, {"A"})
        self.assertEqual(netlist.ports, {"clk": "input", "d": "input", "e[1]": "input", "e[0]": "input",
                                         "q[0]": "output", "q[1]": "output"})
        self.assertEqual(list(netlist.declared)[6:], ["n1", "n2", "u1/n;3", "v[0]", "v[1]", "v[2]"])
        for name, at in netlist.declared.items():
            self.assertTrue(NETLIST.startswith(name.partition("[")[0], at + (NETLIST[at] == "\\")), name)

    def test_statements_by_tokens(self):
        """Each statement token by token gives the same."""
        whole = parts(parse_netlist(NETLIST))
        for left_out in (("plain_instance",), ("plain_declaration",), ("plain_instance", "plain_declaration")):
            with unittest.mock.patch.multiple(Netlist, **{it: lambda _: False for it in left_out}):
                self.assertEqual(parts(parse_netlist(NETLIST)), whole)

    def test_modules_are_counted(self):
        for text, said in (("wire a;\n", "no module is found"),
                           (NETLIST + "module b (x); endmodule\n", "a second module, b"),
                           (NETLIST.replace("endmodule", ""), "the module top has no endmodule"),
                           (NETLIST.replace("endmodule", "// endmodule"), "the module top has no endmodule")):
            with self.assertRaisesRegex(ValueError, said):
                parse_netlist(text)
        text = NETLIST.replace("n1", "module_1").replace("a comment", "module top")
        self.assertEqual(parse_netlist(text).name, "top")


class Parasitics(unittest.TestCase):
    def test_words(self):
        """Comments and quoted texts have no words, wherever they touch; a section may stand behind nets."""
        text = ('*SPEF "IEEE *D_NET" // *D_NET x\n*DELIMITER : /*no*/\n*C_UNIT 1 FF *R_UNIT 1 OHM\n'
                '/* *PORTS p */"a"//b\n*NAME_MAP\n*1 n\\[1\\] *2 g/1 // *3 x\n'
                '*D_NET *1 2.5 /* c */ *CAP 1 *1:1 2.5 *END\n*PORTS p1 I *q *4 O\n'
                '*D_NET a//b 1 *END')
        spef = Spef(text)
        self.assertEqual((spef.map, list(spef.nets)), ({"*1": "n[1]", "*2": "g/1"}, ["n[1]", "a//b"]))
        self.assertEqual(spef.passed_over, {"*PORTS": 5})
        self.assertEqual(spef.odd_words, [("*q", text.index("*q"), "*PORTS")])
        net = spef.nets["n[1]"]
        self.assertEqual((net.caps, net.total, net.offset), ([("#1", 2500)], 2500, text.index("*D_NET *1")))

    def test_damaged_nets(self):
        """The quick look says of no net that it fits where the slow one finds something."""
        joined = Joined(parse_netlist(common.NETLIST), parse_library(common.LIBRARY))
        draw, seen = random.Random(1), set()
        rows = common.SPEF.partition("*CONN")[2].split("\n")
        words = ["*1:1", "*1:2", "*2:Z", "*3:D", "*2:A", "r2:D", "1", "*CAP", "*RES", "*END", "*INDUC", "*1:", "*PORTS"]
        for _ in range(1500):
            cut = [row.split() for row in rows]
            line = draw.choice([it for it in cut if it])
            line[draw.randrange(len(line))] = draw.choice(words)
            if draw.random() < 0.3:
                cut.insert(draw.randrange(len(cut)), ["9", *draw.choices(words[:6], k=2), "3"])
            spef = Spef(common.SPEF.partition("*CONN")[0] + "*CONN" + "\n".join(map(" ".join, cut)))
            with unittest.mock.patch.object(Spef, "surely_fits", lambda *_: False):
                slow = check_setup.misfit(joined, spef, "n2")
            self.assertEqual(check_setup.misfit(joined, spef, "n2"), slow, spef.text)
            seen.add(slow)
        self.assertGreater(len(seen), 10)

    def test_several_nets_a_call(self):
        with tempfile.NamedTemporaryFile("w", suffix=".spef") as file:
            file.write(common.SPEF + "*D_NET a 1.5\n*END\n*D_NET b 2\n*END\n")
            file.flush()
            lines = common.tool("net_parasitics", file.name, "b", "n2", "a")[1].splitlines()
            self.assertEqual(lines[::2], ["set_parasitics b c #1 2000", "set_parasitics a c #1 1500"])
            self.assertEqual(lines[1], common.tool("net_parasitics", file.name, "n2")[1].strip())
            status, out, err = common.tool("net_parasitics", file.name, "b", "c")
            self.assertEqual((status, out, "it has no net c" in err), (2, "", True))
            self.assertEqual(common.tool("net_parasitics", file.name, "b", "a", "--as", "c")[0], 2)

    def test_a_net_that_fits_is_seen_at_once(self):
        spef = parse_spef(common.SPEF)
        self.assertTrue(spef.surely_fits("n2", {"g1:Z", "r2:D"}))
        self.assertFalse(spef.surely_fits("n2", {"g1:Z"}))
        self.assertFalse(spef.surely_fits("n2", {"g1:Z", "r2:D", "r1:D"}))


class Designs(unittest.TestCase):
    ECOS = [["repower_gate g1 BUF"], ["insert_buffer n2 b1 n3 BUF r2:D"],
            ["disconnect_pin r2:D", "connect_pin r2:D n1"], ["insert_gate g9 BUF", "connect_pin g9:A n1"],
            ["remove_gate g9"]]
    DRAFTS = ["insert_buffer n1 x1 y1 BUF r1:D"], ["disconnect_pin r1:D"], ["remove_gate g1", "repower_gate r1 DFF"]

    @staticmethod
    def shape(joined):
        """What a design has, in no order."""
        used = {name: it for name, it in joined.nets.items() if it.drivers or it.sinks}
        nets = {name: (sorted(it.drivers), sorted(it.sinks)) for name, it in used.items()}
        return nets, joined.net_of, {name: it.cell for name, it in joined.netlist.instances.items()}, joined.endpoints()

    def fresh(self, edits):
        """The design after some edits, made anew."""
        edited = Edited(parse_netlist(common.NETLIST), parse_library(common.LIBRARY), [edits])
        return self.shape(edited.at(1))

    def test_each_design(self):
        edited = Edited(parse_netlist(common.NETLIST), parse_library(common.LIBRARY), self.ECOS)
        for number in range(len(self.ECOS) + 1):
            edits = [edit for eco in self.ECOS[:number] for edit in eco]
            self.assertEqual(self.shape(edited.at(number)), self.fresh(edits))
            for tried in self.DRAFTS:
                self.assertEqual(self.shape(edited.drafted(tried).at(number)), self.fresh([*edits, *tried]))
            self.assertEqual(self.shape(edited.at(number)), self.fresh(edits))

    def test_the_netlist_of_the_tools(self):
        """The statements that are read at once are read so."""
        with unittest.mock.patch.object(verilog.Netlist, "instance", side_effect=AssertionError):
            self.assertEqual(len(parse_netlist(common.NETLIST).instances), 3)


if __name__ == "__main__":
    unittest.main()
