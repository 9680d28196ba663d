"""The tool that tries wrong bodies: which function an edit changes, which edits go together, and what a check's lines
mean."""
import json
import pathlib
import shutil
import tempfile
import unittest

from lizdrog_dev import check_over_kept
from lizdrog_dev import check_over_stubs
from lizdrog_dev import try_edits

STORES = """const MOST: usize = 3;

/// A store.
#[derive(Drop)]
pub struct Store {
    rows: Items<u32>,
}

impl From<Memory> for Store {
    fn from(_: Memory) -> Store {
        Store { rows: none() }
    }
}
"""
EDITS = """impl<'a> Store {
    /// The first row.
    fn first(&self) -> Option<&u32>
        requires { length self.now.rows ≤ 3 }
        ensures { result ≡ first self.now.rows }
    {
        self.rows.first()
    }
}

#[cycle(halves)]
pub(crate) fn sum(rows: &[u32]) -> u32
    ensures { result ≡ sum rows.now }
{
    match rows {
        [] => MOST - 3,
        _ => sum(&rows[1..]),
    }
}
"""
SAID = """./proofs/edits/sum/Answers.antt:3:7: error: `returns`: the record has no field `in-Some`
note: src/edits.rt:7:9: it is not proved that what the function ensures holds when it returns (`returns`)
fn small::stores::Store::first: no proof: expected answers in ./proofs/stores/Store/first/Answers.antt; `search` did not prove `returns`
fn small::edits::sum: depends on a hole in `Rattle.small.proofs.stores.Store.first.Proof.first_spec`
only=2 holes=1
"""
NAMED = SAID.replace("sum: depends on a hole in",
                     "sum: not proved; it stands on `Rattle.small.proofs.edits.sum.Answers.returns`, which antt "
                     "refuses; over")


class Tries(unittest.TestCase):
    def setUp(self):
        self.folder = pathlib.Path(tempfile.mkdtemp())
        self.addCleanup(shutil.rmtree, self.folder)
        (self.folder / "src").mkdir()
        (self.folder / "src" / "stores.rt").write_text(STORES)
        (self.folder / "src" / "edits.rt").write_text(EDITS)

    def edit(self, old, new, file="src/edits.rt"):
        path = self.folder / "some.edit"
        path.write_text(f"file: {file}\nold: {old}\nnew: {new}\n")
        return try_edits.Edit(path, self.folder)

    def test_a_method_stands_under_the_module_of_its_type(self):
        edit = self.edit("        self.rows.first()", "        None")
        self.assertEqual((edit.functions, edit.kind), (["stores::Store::first"], ""))
        self.assertIn("        None\n", edit.texts["src/edits.rt"])

    def test_a_method_of_a_trait_stands_under_its_own_module(self):
        self.assertEqual(self.edit("rows: none()", "rows: all()", "src/stores.rt").functions,
                         ["stores::StoreFromMemory::from"])

    def test_an_edit_of_a_constant_is_one_of_the_functions_that_name_it(self):
        self.assertEqual(self.edit("const MOST: usize = 3;", "const MOST: usize = 4;", "src/stores.rt").functions,
                         ["edits::sum"])

    def test_edits_that_cannot_be_tried(self):
        self.assertEqual(self.edit("nowhere", "").why, "its text stands in src/edits.rt 0 times")
        self.assertEqual(self.edit("    rows: Items<u32>,", "    rows: u32,", "src/stores.rt").why,
                         "it changes no function")

    def test_functions_of_a_crate(self):
        self.assertEqual(try_edits.functions_of(self.folder), ["stores::Store::first", "edits::sum",
                                                               "stores::StoreFromMemory::from"])
        self.assertEqual(try_edits.in_cycles(self.folder), ["edits::sum"])

    def test_functions_that_are_taken_by_their_contracts_have_no_body(self):
        homes = try_edits.homes_of(self.folder)
        text = try_edits.without_bodies(EDITS, "src/edits.rt", homes, {"edits::sum"})
        self.assertEqual(text, EDITS.replace("self.rows.first()", "unreachable!()"))
        short = "pub fn discard(self) {}\n\nfn two(\n    a: u8,\n) -> u8 {\n    a\n}\n\nfn three() -> u8;\n"
        bare = (
            "pub fn discard(self) {\n    unreachable!()\n}\n\nfn two(\n    a: u8,\n) -> u8 {\n   "
            " unreachable!()\n}\n\nfn three() -> u8;\n"
        )
        self.assertEqual(try_edits.without_bodies(short, "src/edits.rt", homes, set()), bare)

    def test_a_kept_proof_is_of_the_sources_with_its_contracts_and_proofs(self):
        kept, lang = self.folder / "kept", "rlib/small.rlib/lang"
        (self.folder / "specs").mkdir()
        (self.folder / "specs" / "Rows.antt").write_text("first\n")
        texts = {f"{lang}/src/edits.rt": "fn first ( & self )\n    requires { length self.now.rows ≤ 3 } ;\n",
                 f"{lang}/antt/specs/Rows.antt": "first\n"}
        kept.mkdir()
        (kept / "made.json").write_text(json.dumps({"files": [[path, ""] for path in texts]}))
        for number, text in enumerate(texts.values()):
            (kept / str(number)).write_text(text)
        self.assertTrue(check_over_kept.is_of(kept, self.folder, "small"))
        (self.folder / "src" / "edits.rt").write_text(EDITS.replace("≤ 3", "≤ 4"))
        self.assertFalse(check_over_kept.is_of(kept, self.folder, "small"))
        (self.folder / "src" / "edits.rt").write_text(EDITS)
        (self.folder / "specs" / "Rows.antt").write_text("last\n")
        self.assertFalse(check_over_kept.is_of(kept, self.folder, "small"))

    def test_a_crate_without_bodies_has_holes_for_proofs(self):
        to = self.folder / "stub"
        check_over_stubs.write_stub("small", self.folder, to)
        self.assertIn("unreachable!()", (to / "src" / "stores.rt").read_text())
        # Functions of a ring keep their bodies.
        self.assertIn("MOST - 3", (to / "src" / "edits.rt").read_text())
        self.assertNotIn("self.rows.first()", (to / "src" / "edits.rt").read_text())
        self.assertIn("first_spec = ?", (to / "proofs" / "stores" / "Store" / "first" / "Proof.antt").read_text())
        self.assertFalse((to / "proofs" / "edits" / "sum").exists())

    def test_functions_that_are_checked_alone_keep_their_bodies(self):
        to = self.folder / "stub"
        check_over_stubs.write_stub("small", self.folder, to, ["stores::Store::first"])
        self.assertIn("self.rows.first()", (to / "src" / "edits.rt").read_text())
        self.assertFalse((to / "proofs" / "stores" / "Store" / "first" / "Proof.antt").exists())

    def test_the_functions_of_a_file_with_their_texts(self):
        homes = try_edits.homes_of(self.folder)
        then = check_over_stubs.texts_of(EDITS, "src/edits.rt", homes)
        now = check_over_stubs.texts_of(EDITS.replace("MOST - 3", "MOST - 2"), "src/edits.rt", homes)
        self.assertEqual(len([it for it in now if now[it] != then[it]]), 1)

    def test_how_far_a_check_is(self):
        log = self.folder / "log.txt"
        log.write_text("checked small::edits::sum, 1 of 3\n")
        self.assertEqual(try_edits.progress_of(log), "1 of 3 proofs, the last small::edits::sum")
        log.write_text("")
        self.assertEqual(try_edits.progress_of(log), "no proof is done")

    def test_no_two_edits_of_one_function_are_tried_together(self):
        first, again, other = self.edit("self.rows.first()", "None"), self.edit("self.rows.first()",
                                                                                "Some(0)"), self.edit("[] => MOST - 3",
                                                                                                      "[] => 1")
        self.assertEqual(list(try_edits.rounds([first, again, other], 9)), [[first, other], [again]])

    def test_what_a_check_says(self):
        open_goal, whole = self.edit("self.rows.first()", "None"), self.edit("[] => MOST - 3", "[] => 1")
        assumed = {"Rattle.small.proofs.stores.Store.first.Proof.first_spec"}
        for edit in (open_goal, whole):
            try_edits.judge(edit, SAID, "small", assumed)
        self.assertEqual((open_goal.kind, open_goal.why), ("refused", "goals: returns"))
        self.assertEqual(whole.kind, "PASSES")
        try_edits.judge(whole, SAID.partition("\n")[2], "small", set())
        self.assertEqual(whole.kind, "not tried")
        try_edits.judge(whole, NAMED, "small", assumed)
        self.assertEqual((whole.kind, whole.why), ("refused by names", "goals: returns"))

    def test_a_function_that_is_taken_by_its_contract(self):
        own = self.folder / "proofs" / "edits" / "sum"
        own.mkdir(parents=True)
        (own / "Answers.antt").write_text("")
        name = try_edits.write_hole(self.folder, "small", "edits::sum")
        self.assertEqual(name, "Rattle.small.proofs.edits.sum.Proof.sum_spec")
        self.assertEqual([it.name for it in own.iterdir()], ["Proof.antt"])
        self.assertTrue(try_edits.passes(f"depends on a hole in `{name}`", {name}))
        self.assertFalse(try_edits.passes(f"depends on a hole in `{name}`", set()))
