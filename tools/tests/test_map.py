"""The map of the crates, and what an auditor has to read: the pages have what the scripts of dev/ find."""
import sys
import unittest

import common
from lizdrog_dev import crate_map

DEV, DOCS = common.TOP / "dev", common.TOP / "docs"
# Groups of crates.txt on whose words the top call may rest. No engine, graph, path or store crate is among them.
READ_GROUPS = {"base", "without a store", "texts", "generated designs", "program"}
READ_CRATES = {"shell_core"}
# Words of other crates that are known to be among them.
KNOWN_WORDS = {("eco_analysis", "IsFaultless")}


def script(name, *words):
    return common.run(sys.executable, DEV / f"{name}.py", *words)


def groups():
    """The group of each crate, by the comments of crates.txt."""
    found, group = {}, ""
    for line in (common.TOP / "crates.txt").read_text().splitlines():
        if line.startswith("#"):
            group = line.lstrip("# ")
        elif line:
            found[line.partition(":")[0]] = group
    return found


class Map(unittest.TestCase):
    def test_no_crate_uses_one_above(self):
        status, _, errors = script("crate_map")
        self.assertEqual((status, errors), (0, ""))

    def test_page_has_the_map(self):
        """The table of the page has the groups, levels and crates of crates.txt, in their order, and says something of
        each."""
        crates = crate_map.read_crates((common.TOP / "crates.txt").read_text())
        text = (DOCS / "ARCHITECTURE.md").read_text()
        self.assertEqual(crate_map.with_table(crates, text), text)
        said = dict(crate_map.SAID.findall(text))
        self.assertEqual(list(said), [crate for crate, group in groups().items() if group != "tests"])
        self.assertTrue(all(said.values()), said)

    def test_a_table_is_made_of_the_file(self):
        crates = crate_map.read_crates("# base\nsta_units:\nnew: sta_units\n# tests\nbase_tests: new\n")
        text = "| Group | Level | Crate | What it does |\n|---|---|---|---|\n| x | 7 | `new` | says it |\n\nMore.\n"
        made = crate_map.with_table(crates, text)
        self.assertIn("| **base** | 0 | `sta_units` | Units and numbers", made)
        self.assertIn("| | 1 | `new` | says it |\n\nMore.\n", made)
        self.assertNotIn("base_tests", made)

    def test_change_of_a_crate(self):
        status, out, _ = script("crate_map", "shell_session")
        self.assertEqual(status, 0)
        self.assertIn("shell_session timing_shell live_tests shell_tests", out)
        self.assertEqual(script("crate_map", "no_such_crate")[0], 2)


class Audit(unittest.TestCase):
    def test_top_call_rests_on_no_engine(self):
        status, out, _ = script("audit_words", "--words")
        self.assertEqual(status, 0)
        of = groups()
        words = [(line.split()[0], line.split()[-1]) for line in out.splitlines()]
        self.assertGreater(len(words), 1000)
        others = {(crate, name) for crate, name in words if of[crate] not in READ_GROUPS and crate not in READ_CRATES}
        self.assertLessEqual(others, KNOWN_WORDS)

    def test_page_has_the_sum(self):
        total = script("audit_words")[1].splitlines()[-1]
        self.assertRegex(total, r"^\d{4} words, \d{4} lines in \d\d crates$")
        self.assertIn(f"**{total}**", (DOCS / "GUARANTEE.md").read_text())

    def test_words_of_another_call(self):
        status, out, _ = script("audit_words", "--call", "shell_core", "documents.rs", "read_all")
        self.assertEqual(status, 2)
        status, out, _ = script("audit_words", "--words", "--call", "levelizer", "leveling.rt", "levels")
        self.assertEqual(status, 0)
        self.assertIn(" AreLevels\n", out)

    def test_clauses_are_listed(self):
        out = script("clause_names", "shell_session")[1]
        self.assertIn("serve: ensures ends, kept, rising, shelf_count, completeness", out)
        self.assertEqual(script("clause_names", "no_such_crate")[0], 2)


if __name__ == "__main__":
    unittest.main()
