"""The documents: what they name is there."""
import os
import pathlib
import re
import sys
import unittest

import common

CRATES, DOCS, EDITS = common.TOP / "crates", common.TOP / "docs", common.TOP / "bench" / "must-fail"
PAGES = [
    it
    for it in [
        common.TOP / "README.md",
        common.TOP / "CHANGELOG.md",
        *DOCS.glob("*.md"),
        *common.TOP.glob("examples/**/README.md"),
    ]
    if it.exists()
]
TRIED = common.DEV / "cases" / "crates.tsv"
# The crate of a file that pages name without one.
RULES = "timing_rules"
# Definitions or laws alone, and the program.
NO_EDITS = (RULES, "bounded_changes", "timing_shell", "timing_live")


def index_rows():
    rows = re.findall(r"^\| (.*) \|$", (DOCS / "RULES.md").read_text(), re.M)
    return [row.split(" | ") for row in rows if not row.startswith("Rule | ")]


def crate_file(name):
    """The file of a crate that a page names: CRATE/src/FILE.rt, or CRATE/specs/FILE without its ending."""
    return CRATES / (name if name.endswith(".rt") else f"{name}.antt")


def rows_named(cell):
    """The rows of programs that a cell names: the program and the words of a case."""
    return [(program, f"case {case}") for program, case in re.findall(r"`(\w+_rows)/([^`]+)`", cell)]


def has_row(program, case):
    file = CRATES / program / "stdin"
    return file.is_file() and re.search(rf"(?m)^{re.escape(case)}\b", file.read_text()) is not None


def text_of(file):
    return file.read_text() if file.is_file() else ""


def why_not_applied(edit):
    """Why an edit cannot be applied to the sources of its crate: each of its old texts stands once in its file. None
    where it can be."""
    crate = edit.parent.name if EDITS in edit.parents else edit.parent.parent.name
    texts, name, old = {}, None, None
    for line in edit.read_text().splitlines():
        key, _, text = (
            line.partition(": ") if not line.startswith("new:") else ("new", "", line[len("new:") :].removeprefix(" "))
        )
        if key == "file":
            name = text
        elif key == "old":
            old = text
        elif key == "new":
            file = CRATES / crate / name
            if not file.is_file():
                return f"there is no {name}"
            source = texts.setdefault(name, file.read_text())
            if source.count(old) != 1:
                return f"{name} has a text {source.count(old)} times"
            texts[name] = source.replace(old, text)
    return None if texts and edit.suffix == ".edit" else "it has no pair of texts, or is not named as an edit"


class Documents(unittest.TestCase):
    def test_readme_is_short(self):
        self.assertLessEqual(len((common.TOP / "README.md").read_text().splitlines()), 100)

    def test_pages_are_of_their_size(self):
        status, out, _ = common.run(sys.executable, common.TOP / "dev" / "page_sizes.py", "--check")
        self.assertEqual(status, 0, out)

    def test_links_lead_somewhere(self):
        for page in PAGES:
            text = page.read_text()
            for name in re.findall(r"`((?:docs|tools|dev|bench|examples)/[\w./-]+|[A-Z]{4,}\.md)`", text):
                places = [common.TOP / name, DOCS / name, page.parent / name]
                self.assertTrue(any(it.exists() for it in places), f"{page.name} names {name}")
        for page in [*PAGES, *(DOCS / "log").glob("*.md")]:
            for name in re.findall(r"\]\(([^)#:]+)[^)]*\)", page.read_text()):
                self.assertTrue((page.parent / name).exists(), f"{page.name} has a link to {name}")

    def test_files_of_crates_are_there(self):
        for page in PAGES:
            for name in re.findall(r"`(?:crates/)?(\w+/(?:src/[\w/]+\.rt|specs/\w+))(?:\.antt)?`", page.read_text()):
                self.assertTrue(crate_file(name).is_file(), f"{page.name} names {name}")

    def test_commands_are_there(self):
        """Programs that blocks of commands start: those of this repository are files."""
        for page in PAGES:
            for block in re.findall(r"^```\n(.*?)^```", page.read_text(), re.S | re.M):
                for name in re.findall(r"(?m)^(?:\.\./)*(?:\./)?((?:tools|dev|bench)/[\w/]+\.(?:py|sh))", block):
                    self.assertTrue((common.TOP / name).is_file(), f"{page.name} starts {name}")

    def test_no_links(self):
        """`rt ci` refuses the repository where a link is in it."""
        links = []
        for folder, folders, names in os.walk(common.TOP):
            folders[:] = [it for it in folders if it not in (".git", "out")]
            links += [f"{folder}/{it}" for it in [*folders, *names] if os.path.islink(f"{folder}/{it}")]
        self.assertEqual(links, [])

    def test_definitions_of_the_index_are_there(self):
        for row in index_rows():
            self.assertEqual(len(row), 5, row)
            found = re.findall(r"`(?:(\w+)/specs/?)?(\b[A-Z]\w*)?`(?:: ((?:`\w+`(?:, )?)+))?", row[1])
            self.assertTrue(found, row)
            for crate, file, names in found:
                folder = CRATES / (crate or RULES) / "specs"
                self.assertTrue(folder.is_dir(), row)
                if file:
                    text = (folder / f"{file}.antt").read_text()
                    for name in re.findall(r"`(\w+)`", names):
                        found = re.search(rf"(?m)^(?:\w+ )*pub (?:record |data )?{name} |\b{name} :", text)
                        self.assertTrue(found, f"{row[0]}: {crate}/specs/{file} has no {name}")

    def test_tests_of_the_index_are_there(self):
        text = "\n".join(it.read_text() for it in CRATES.glob("*/src/**/*.rt"))
        gone = [
            f"{row[0]}: {name}"
            for row in index_rows()
            for name in re.findall(r"`(\w+)`", row[3])
            if f"fn {name}(" not in text and not has_row("shell_rows", f"case {name}")
        ]
        files = [(row[0], name) for row in index_rows() for name in re.findall(r"`([\w/]+\.rt)`", row[3])]
        gone += [f"{rule}: {name}" for rule, name in files
                 if not (CRATES / name if "/" in name else CRATES / "shell_tests" / "src" / "examples" / name).exists()]
        gone += [
            f"{row[0]}: {program} {case}"
            for row in index_rows()
            for program, case in rows_named(row[3])
            if not has_row(program, case)
        ]
        if gone:
            # A test may move at any time, and what the page says of it is no reason to refuse the change.
            self.skipTest(f"the index of docs/RULES.md names tests that are gone: {'; '.join(gone)}")

    def test_code_and_edits_of_the_index_are_there(self):
        gone = []
        for row in index_rows():
            folder, code = None, set()
            for name in re.findall(r"`([\w/]+\.rt)`", row[2]):
                crate, _, rest = name.partition("/")
                folder = (CRATES / crate / "src" / rest).parent if rest else folder
                code.add(folder / pathlib.Path(name).name)
            for file in code:
                self.assertTrue(file.is_file(), f"{row[0]}: {file}")
            named = re.fullmatch(r"`(?:(\w+)/)?(\w+)`( \(gate\))?", row[4])
            if named is None:
                gone.append(f"{row[0]}: it names no edit")
                continue
            crate, edit, gate = named.groups()
            crate = crate or re.match(r"`(\w+)/", row[2])[1]
            file = (CRATES / crate / "must-fail" if gate else EDITS / crate) / f"{edit}.edit"
            changed = re.findall(r"^file: (.*)$", file.read_text(), re.M) if file.is_file() else []
            gone += (
                []
                if code & {CRATES / crate / name for name in changed}
                else [f"{row[0]}: {crate}/{edit} changes none of its code"]
            )
        if gone:
            # As above: code may be cut anew at any time.
            self.skipTest(f"the index of docs/RULES.md names code or edits that are gone: {'; '.join(gone)}")

    def test_each_crate_is_tried_where_the_list_says(self):
        rows = [line.split("\t") for line in TRIED.read_text().splitlines()]
        text = (common.TOP / "crates.txt").read_text()
        crates = re.findall(r"(?m)^(\w+):", text[: text.index("\n# tests\n")])
        gone = [] if [row[0] for row in rows] == crates else ["its crates are not those of crates.txt, in their order"]
        for crate, test in rows:
            for file, name in re.findall(r"`([\w/]+\.rt)` `(\w+)`", test):
                gone += [] if f"fn {name}(" in text_of(CRATES / file) else [f"{crate}: {name}"]
            gone += [f"{crate}: {program} {case}" for program, case in rows_named(test) if not has_row(program, case)]
        if gone:
            # As above.
            self.skipTest(f"dev/cases/crates.tsv does not say where each crate is tried: {'; '.join(gone)}")

    def test_each_crate_with_code_has_an_edit(self):
        text = (common.TOP / "crates.txt").read_text()
        names = re.findall(r"(?m)^(\w+):", text[: text.index("\n# tests\n")])
        gone = [it for it in names if it not in NO_EDITS and not it.endswith("_laws") and not
                [*(EDITS / it).glob("*.edit"), *(CRATES / it / "must-fail").glob("*.edit")]]
        if gone:
            # As above.
            self.skipTest(f"no edit that must be refused makes these crates wrong: {' '.join(gone)}")

    def test_edits_that_must_be_refused_apply(self):
        edits = [*CRATES.glob("*/must-fail/*"), *EDITS.glob("*/*")]
        self.assertTrue(edits)
        gone = [f"{edit.relative_to(common.TOP)}: {why}" for edit in edits for why in [why_not_applied(edit)] if why]
        if gone:
            # As above: an edit that does not apply shows nothing, and is no reason to refuse the change.
            self.skipTest(f"edits that must be refused do not apply: {'; '.join(gone)}")

    def test_all_that_is_trusted_is_named(self):
        """The page names each type with an `unsafe impl`, each proof by hand, and each ported crate."""
        trusted = (DOCS / "GUARANTEE.md").read_text().partition("## What is trusted")[2].partition("\n## ")[0]
        said = set(re.findall(r"\w+", " ".join(re.findall(r"`([^`]+)`", trusted))))
        sources = "\n".join(text_of(it) for it in CRATES.glob("*/src/**/*.rt"))
        named = re.findall(r"(?m)^unsafe impl\b.* for (\w+)", sources)
        self.assertEqual(len(named), len(re.findall(r"(?m)^\s*(?!//).*\bunsafe\b", sources)))
        for file in CRATES.glob("*/proofs/**/Proof.antt"):
            named += file.parent.parts[-2:]
        crates = (common.TOP / "crates.txt").read_text().partition("\n# tests\n")[0]
        uses = dict(re.findall(r"(?m)^(\w+):(.*)$", crates))
        named += [it for used in uses.values() for it in used.split() if it not in uses]
        self.assertEqual(sorted(set(named) - said), [])

    def test_decisions_have_a_place(self):
        rows = re.findall(r"(?m)^\| (\d+) \| .* \| ([^|]*) \|$", (DOCS / "DECISIONS.md").read_text())
        self.assertEqual([int(it[0]) for it in rows], list(range(1, len(rows) + 1)))
        self.assertEqual(len(rows), len(re.findall(r"(?m)^\| \d+ \|", (DOCS / "DECISIONS.md").read_text())))
        for number, place in rows:
            names = re.findall(r"`([A-Z]\w+|\w+/[\w/.]+)`", place)
            self.assertTrue(names, number)
            for name in names:
                file = CRATES / (name if "/" in name else f"{RULES}/specs/{name}")
                self.assertTrue(file.exists() or file.with_suffix(".antt").exists(), f"{number}: {name}")

    def test_faults_have_all_codes(self):
        text = (DOCS / "FAULTS.md").read_text()
        lasts = (("L", 10), ("V", 6), ("S", 6), ("P", 5), ("C", 2), ("J", 5), ("E", 17))
        wanted = [f"{letter}{n}" for letter, last in lasts for n in range(1, last + 1)]
        self.assertEqual(wanted, re.findall(r"^\| ([A-Z]\d+) \|", text, re.M))


if __name__ == "__main__":
    unittest.main()
