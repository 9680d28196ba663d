"""The tools of the proofs: what the gate costs, and what functions drop."""
import contextlib
import io
import os
import pathlib
import re
import shutil
import signal
import subprocess
import sys
import tempfile
import time
import unittest

import common
from lizdrog_dev import build_libs, count_copies, crate_list, exits, gate_seconds, must_fail
from lizdrog_dev import real, small_repository, time_crates, unchecked_build, wrap_clauses

ROWS = """sta_units\tproof\t100.0\t120\t900\t10:00:00\t10:02:00
timing_defs\tproof\t60.0\t70\t800\t10:02:00\t10:03:10
timing_defs\ttests\t5.0\t6\t300\t10:03:10\t10:03:16
timing_defs\tedit\t7.0\t9\t300\t10:03:16\t10:03:25
timing_defs\tedit\t8.0\t9\t300\t10:03:16\t10:03:25
timing_shell\tcode\t90.0\t95\t700\t10:08:10\t10:09:45
liberty_cells\tproof\t240.0\t250\t2000\t10:04:00\t10:08:10
netlist_store\tproof\t160.0\t170\t1500\t10:04:00\t10:06:50
"""
LOG = """[   20.00] checked liberty_cells::a, 1 of 3
[   20.50] checked liberty_cells::b, 2 of 3
[   29.50] checked liberty_cells::c, 3 of 3
"""
SOURCE = """/// One.
pub fn store(alloc: Global, names: Names, count: u64) -> Result<Table, Memory>
    requires count < 9,
{
    let table = Table::of(alloc, count)?;
    let spare = Names::new(alloc)?;
    if 0 < count {
        let inner = names.copy();
        count(&inner)?;
    }
    match table.push(names) {
        Ok(()) => Ok(table),
        Err(_) => Err(Memory),
    }
}

fn plain(count: u64) -> u64 {
    match count {
        1 => 2,
        _ => 3,
    }
}
"""
# A process that is taken for a prover: its first word ends so, and it runs in a crate of a repository.
PROVER = (
    "import sys, time\nuntil = time.process_time() + 0.3\nwhile time.process_time() < until: pass\ntime.sleep(60)\n"
)


class Seconds(unittest.TestCase):
    def setUp(self):
        self.folder = pathlib.Path(tempfile.mkdtemp())
        self.addCleanup(shutil.rmtree, self.folder)

    def test_summary(self):
        (self.folder / "rows").write_text(ROWS)
        (self.folder / "log").write_text(LOG)
        status, out, err = common.tool("gate_seconds", "--table", "rows", "--log", "log", cwd=self.folder)
        self.assertEqual((status, err), (0, ""))
        self.assertIn("| `timing_defs` | 60 | 5 | 15 | 0 | 80 |\n", out)
        self.assertIn("| `timing_shell` | 0 | 0 | 0 | 90 | 90 |\n", out)
        self.assertIn("| all | 560 | 5 | 15 | 90 | 670 |\n", out)
        self.assertIn("Longest chain: 400 s: sta_units, timing_defs, liberty_cells.\n", out)
        warnings = [line for line in out.splitlines() if line.startswith("warning")]
        self.assertEqual(warnings, ["warning: the proof of netlist_store takes 160 s, and its budget is 150 s",
                                    "warning: the function liberty_cells::c takes 9.0 s, and 8 s is the most for one"])

    def test_lines_that_are_none(self):
        (self.folder / "rows").write_text(ROWS + "one two\n")
        status, _, err = common.tool("gate_seconds", "--table", "rows", cwd=self.folder)
        self.assertEqual(status, 1)
        self.assertIn("rows:9: this is no line of a check", err)

    def test_a_chain_goes_by_what_crates_use(self):
        uses = {"a": [], "b": ["a"], "c": ["a"], "d": ["b", "c", "smallvec"]}
        self.assertEqual(gate_seconds.longest_chain({"a": 1.0, "b": 5.0, "c": 2.0, "d": 1.0}, uses),
                         (7.0, ["a", "b", "d"]))

    def prover(self, folder, *words):
        """Begins a process that is taken for a prover, in a folder."""
        folder.mkdir(parents=True, exist_ok=True)
        (folder / words[0]).write_text(PROVER)
        ran = subprocess.Popen([str(self.folder / "rattle"), *words], cwd=folder)
        self.addCleanup(ran.wait)
        self.addCleanup(ran.kill)

    def watched(self, *wanted):
        """Watches until the file has all of these, and ends the watch; the file and what was told."""
        out = self.folder / "out.tsv"
        words = [sys.executable, common.DEV / "gate_seconds.py", "--out", out, "--under", f"{self.folder}/repository/"]
        watch = subprocess.Popen([str(it) for it in words], stdout=subprocess.PIPE, text=True)
        until = time.monotonic() + 60
        while time.monotonic() < until and not (out.exists() and all(re.search(it, out.read_text(), re.M)
                                                                     for it in wanted)):
            time.sleep(0.2)
        watch.terminate()
        told, _ = watch.communicate()
        self.assertEqual(watch.returncode, 0)
        return out.read_text(), told

    def test_a_prover_is_watched_until_the_watch_is_ended(self):
        (self.folder / "rattle").symlink_to(sys.executable)
        crates = self.folder / "repository" / "crates"
        self.prover(crates / "sta_units", "check", "--crate-name", "sta_units")
        self.prover(crates / "shell_tests", "build", "--crate-name", "shell_tests", "--test")
        self.prover(crates / "timing_shell", "build", "--crate-name", "timing_shell", "--crate-checked", "checked")
        self.prover(self.folder / "elsewhere", "check", "--crate-name", "cow_table")
        wanted = [rf"^{it}\t0\.[3-9]\t" for it in (r"sta_units\tproof", r"shell_tests\ttests", r"timing_shell\tcode")]
        rows, told = self.watched(*wanted)
        for it in wanted:
            self.assertRegex(rows, f"(?m){it}")
        self.assertNotIn("cow_table", rows)
        self.assertRegex(told, r"\| `sta_units` \| \d+ \| 0 \| 0 \| 0 \| \d+ \|")

    def test_an_edit_is_watched_where_rt_works_in_the_repository(self):
        """The toolchain tries edits in a folder of its own; that of a crate without others names no place here."""
        (self.folder / "rattle").symlink_to(sys.executable)
        edit, top = self.folder / "rt-edit-1", self.folder / "repository"
        edit.mkdir()
        top.mkdir()
        (edit / "check").write_text(PROVER)
        starting = f"import subprocess\nsubprocess.run([{str(self.folder / 'rattle')!r}, 'check', '--crate-name', " \
                   f"'sta_units', 'src/lib.rt'], cwd={str(edit)!r})\n"
        rt = subprocess.Popen([sys.executable, "-c", starting], cwd=top, start_new_session=True)
        self.addCleanup(rt.wait)
        self.addCleanup(os.killpg, rt.pid, signal.SIGKILL)
        self.assertRegex(self.watched(r"^sta_units\tedit\t0\.[3-9]\t")[0], r"^sta_units\tedit\t")

    def test_as_many_checks_as_there_is_room_for(self):
        gigabyte = 1 << 20
        self.assertEqual([gate_seconds.checks_at_once(processors, free * gigabyte) for processors, free in
                          ((4, 20), (4, 11), (4, 9), (4, 1), (1, 30), (16, 24))], [4, 3, 3, 2, 2, 8])
        (self.folder / "proc").mkdir()
        (self.folder / "proc" / "meminfo").write_text("MemTotal: 30000000 kB\nMemAvailable:   20000000 kB\n")
        self.assertEqual(gate_seconds.free_memory(str(self.folder)), 20000000)
        group = self.folder / "sys" / "fs" / "cgroup"
        group.mkdir(parents=True)
        (group / "memory.stat").write_text("anon 2048000\nfile 99\n")
        for limit, free in (("max", 20000000), ("10240000", 8000), ("99999999999999", 20000000)):
            (group / "memory.max").write_text(f"{limit}\n")
            self.assertEqual(gate_seconds.free_memory(str(self.folder)), free)
        self.assertRegex(common.tool("gate_seconds", "--checks-at-once")[1], r"^[2-9]\d*\n$")


class Exits(unittest.TestCase):
    def test_drops(self):
        found = {name: exits.drops_of(name, parameters, body, first) for name, parameters, body,
                 first in exits.functions_of(SOURCE)}
        store = found["store"]
        self.assertEqual(store.exits, 3)
        self.assertEqual(store.at_exits, [(5, ["names"]), (6, ["names", "table"]),
                                          (9, ["names", "table", "spare", "inner"])])
        self.assertEqual([name for _, name in store.at_ends], ["inner", "spare"])
        self.assertEqual(store.arms, [(13, "Err(_) => Err(Memory),")])
        self.assertEqual(found["plain"].count(), 0)
        self.assertIn("line 13: drops an error that is not named: Err(_) => Err(Memory),", "\n".join(store.details()))

    @unittest.skipUnless((common.TOP / ".git").exists(), "no history is here")
    def test_of_a_change_only_what_changed(self):
        status, out, err = common.tool("exits", "--changed", "HEAD", "timing_shell")
        self.assertEqual((status, out, err), (0, "", ""))
        status, _, err = common.tool("exits", "--changed", "nosuch", "timing_shell")
        self.assertEqual(status, 2)
        self.assertIn("nosuch is no commit", err)


class Gate(unittest.TestCase):
    """.ci/run in a repository of its own, with stand-ins for `rt` and for `./lizdrog`."""

    def setUp(self):
        self.top = pathlib.Path(tempfile.mkdtemp())
        self.addCleanup(shutil.rmtree, self.top)
        for folder in (".ci", "dev", "tools/lizdrog_tools"):
            shutil.copytree(common.TOP / folder, self.top / folder, ignore=shutil.ignore_patterns("__pycache__"))
        (self.top / "crates.txt").write_text("sta_units:\n")

    def run_gate(self, of_rt, of_test, **more):
        """The status of the gate where `rt ci` and the test end with these, and what it prints."""
        for file, text in (("bin/rt", f'echo "rt $* with $RT_JOBS"\nexit {of_rt}'),
                           ("lizdrog", f'echo "lizdrog $* $LIZDROG_SLURM"\nexit {of_test}')):
            (self.top / file).parent.mkdir(exist_ok=True)
            (self.top / file).write_text(f"#!/bin/sh\n{text}\n")
            (self.top / file).chmod(0o755)
        env = {**{name: text for name, text in os.environ.items() if name != "RT_JOBS"}, **more}
        env["PATH"] = f"{self.top}/bin:{env['PATH']}"
        return common.run(self.top / ".ci" / "run", env=env)

    def test_statuses(self):
        status, out, err = self.run_gate(0, 0)
        self.assertEqual((status, err), (0, ""))
        self.assertRegex(out, r"(?m)^rt ci with [2-9]\d*$")
        self.assertIn("lizdrog test --proved no\n", out)
        self.assertEqual(self.run_gate(3, 0)[0], 3)
        self.assertEqual(self.run_gate(0, 1)[0], 1)

    def test_a_number_of_checks_that_is_given_stays(self):
        self.assertIn("rt ci with 7\n", self.run_gate(0, 0, RT_JOBS="7")[1])


class Programs(unittest.TestCase):
    """The programs of bench/, which stand outside of crates/."""

    def setUp(self):
        self.folder = pathlib.Path(tempfile.mkdtemp())
        self.addCleanup(shutil.rmtree, self.folder)

    def test_what_they_name_is_there(self):
        uses = crate_list.uses_of_crates()
        for name, it in time_crates.KNOWN.items():
            self.assertTrue((time_crates.PROGRAMS / it.crate / "src" / "main.rt.txt").is_file(), name)
            self.assertLessEqual(set(it.uses), set(uses), name)
        self.assertEqual({it.crate for it in time_crates.KNOWN.values()},
                         {it.name for it in time_crates.PROGRAMS.iterdir()})
        files = [*common.BENCH.glob("programs/**/*.txt"), *common.BENCH.glob("plain/**/*.txt"),
                 common.BENCH / "board_stress.rt.txt"]
        for file in files:
            for crate, specs in re.findall(r"Rattle\.(\w+)\.specs\.([A-Z]\w*)\b", file.read_text()):
                if crate in uses:
                    self.assertTrue((common.TOP / "crates" / crate / "specs" / f"{specs}.antt").is_file(),
                                    f"{file.name} names {crate}.specs.{specs}")

    def test_a_repository_of_some_crates(self):
        small_repository.lay(self.folder, ["levelizer"])
        program = time_crates.KNOWN["levels"]
        crate = small_repository.add_crate(
            self.folder, program.crate, time_crates.PROGRAMS / program.crate, program.uses
        )
        self.assertEqual((self.folder / "crates.txt").read_text().splitlines(),
                         ["sta_units:", "timing_defs: sta_units smallvec thiserror", "levelizer: sta_units timing_defs",
                          "levels_bench: levelizer sta_units timing_defs"])
        self.assertTrue((crate / "proofs" / "arcs" / "Invariants.antt").is_file())
        self.assertEqual([*self.folder.rglob("*.txt")], [self.folder / "crates.txt"])
        source = "crates/levelizer/src/lib.rt"
        self.assertEqual((self.folder / source).read_text(), (common.TOP / source).read_text())

    def test_edits_that_were_refused(self):
        said = ("rt: must-fail levelizer/one.edit: refused, as it must be: here\n"
                "rt: must-fail levelizer/two.edit: NOT REFUSED: the crate is still proved with this edit\n"
                "rt: must-fail levelizer/three.edit: BAD EDIT: there is no file src/a.rt\n")
        self.assertEqual(must_fail.counted(said, 3), (1, "two.edit: NOT REFUSED  three.edit: BAD EDIT"))
        self.assertEqual(must_fail.counted("rattle: killed\n", 2), (0, "see the log"))
        self.assertEqual(must_fail.counted(said.splitlines()[0], 1), (1, ""))
        status, _, err = common.run(sys.executable, common.BENCH / "must_fail.py", "nosuch")
        self.assertEqual(status, 1)
        self.assertIn("there are no edits", err)

    def test_the_design_of_workers(self):
        netlist = time_crates.ranks_of_registers(2)
        self.assertEqual((netlist.count("DFF "), netlist.count("NAND2 "), netlist.count("wire ")), (2000, 2000, 3000))
        self.assertIn("NAND2 u2_1 (.A(w1_1), .B(w1_10), .Z(w2_1));\n", netlist)
        self.assertIn('cell_rise (d) { values ("4, 9, 14, 19, 24, 29, 34", "7, ', time_crates.registers_and_gates())

    @common.needs_program
    def test_a_chain_is_timed(self):
        words = [sys.executable, common.BENCH / "chain.py", "--count", "3", "--program", common.PROGRAM]
        status, out, err = common.run(*words)
        self.assertEqual((status, err), (0, ""))
        self.assertRegex(out, r"^\d\.\d{3} seconds for 3 inverters\nanswer: 1 0 slew 4\.000\n$")

    def test_a_toolchain_without_names(self):
        (self.folder / "rt").write_text("#!/bin/sh\necho 'usage: rt new FOLDER' >&2\nexit 2\n")
        (self.folder / "rt").chmod(0o755)
        env = {**os.environ, "PATH": f"{self.folder}:{os.environ['PATH']}"}
        status, out, err = common.tool("prove_by_crate", "sta_units", "cow_table", env=env)
        self.assertEqual((status, out), (2, ""))
        self.assertEqual(err, "prove_by_crate: `rt ci` of this toolchain takes no crate's name: prove them by "
                              "dev/build_libs.py sta_units cow_table\n")


class Libraries(unittest.TestCase):
    def test_each_library_is_told_with_its_last_line(self):
        """Libraries wait for those below them; those over one that failed are not built."""
        folder = pathlib.Path(tempfile.mkdtemp())
        self.addCleanup(shutil.rmtree, folder)

        class Crate:
            def __init__(self, name, deps, status=0):
                self.name, self.deps, self.status, self.folder = name, deps, status, f"{folder}/{name}"
                os.mkdir(self.folder)

            def below(self):
                return [below for it in self.deps for below in [*it.below(), it]]

            def build_rlib(self, flags, anew):
                self.out.write(f"checked\nlogic={'not-' * bool(self.status)}proved functions=3\n")
                return self.status

        low = Crate("low", [])
        bad = Crate("bad", [low], 1)
        crates = [low, bad, Crate("high", [bad]), Crate("other", [low])]
        tell = build_libs.teller(str(folder / "log"))
        with contextlib.redirect_stdout(io.StringIO()) as said:
            failed = build_libs.build_all(crates, {it.name: 1 for it in crates}, 1, tell)
        self.assertIn("low: built (0 s)\n", said.getvalue())
        self.assertEqual(failed, {"bad", "high"})
        lines = (folder / "log").read_text().splitlines()
        self.assertRegex(lines[0], r"^low: built \(0 s\): logic=proved functions=3$")
        self.assertIn("bad: FAILED, see out/build.log (0 s): logic=not-proved functions=3", lines)
        self.assertIn("high: not built, since a library below failed", lines)
        self.assertEqual(len(lines), 4)


class Clauses(unittest.TestCase):
    def test_a_wide_clause_is_broken_but_no_text_and_no_field(self):
        wide = "    ensures { Some words that are long and fill the line, " + "x" * 30 + ' (codes " from a text" ++ rest) and { field = value; } }'
        lines = wrap_clauses.wrapped(wide)
        self.assertTrue(all(len(line) <= wrap_clauses.WIDEST for line in lines), lines)
        self.assertEqual(" ".join(line.strip() for line in lines), wide.strip())
        self.assertTrue(all(line.count('"') % 2 == 0 and not line.strip().startswith("=") for line in lines), lines)


class Copies(unittest.TestCase):
    def test_crates_of_tests_and_rows_are_left_out(self):
        crates = count_copies.compared()
        self.assertLessEqual({"sta_units", "node_rows", "node_tests", "timing_shell"}, set(crates))
        self.assertFalse({"base_tests", "kernel_rows", "reader_rows", "shell_rows"} & set(crates))

    def test_what_is_compared(self):
        text = "/// One.\npub fn two(a: u64) -> u64\n    ensures { result ≡ a }\n{\n    a\n}\n\nfn short() {}\n"
        self.assertEqual(list(count_copies.functions(text)), [("two", ("fn two(a: u64) -> u64", "{", "a", "}"))])

    def test_a_lemma_is_its_statement_and_its_clauses(self):
        text = "-- why\npub same : (a : N) → a ≡ a\nsame a = refl\n\nmodule _ (b : N) where\n  one : b ≡ b\n  one = same b\n"
        found = list(count_copies.lemmas(text + "\n  abbrev pub Two : Type\n  Two = N\n"))
        same = ("same", True, ("same : (a : N) → a ≡ a", "same a = refl"))
        self.assertEqual(found, [same, ("one", False, ("one : b ≡ b", "one = same b"))])

    def test_the_crate_below_is_marked_whose_lemma_the_others_could_name(self):
        uses = {"low": [], "high": ["low"], "beside": []}
        self.assertEqual(count_copies.marked({"low": True, "high": False}, uses), ["low*", "high"])
        self.assertEqual(count_copies.marked({"low": False, "high": True}, uses), ["low", "high"])
        self.assertEqual(count_copies.marked({"low": True, "beside": False}, uses), ["low", "beside"])

    def test_help_does_not_count(self):
        status, out, _ = common.tool("count_copies", "--help")
        self.assertEqual(status, 0)
        self.assertNotIn("copies too many", out)


class BesideOpenSta(unittest.TestCase):
    def test_commands_of_lists(self):
        asked = "report_wns setup"
        for work, line, commands in (("resize", "u1 INVX2", ["repower_gate u1 INVX2", asked]),
                                     ("silent", "u1 INVX2", ["repower_gate u1 INVX2"]),
                                     ("buffer", "n[1] u1 A b1 n2", ["insert_buffer n[1] b1 n2 BUFX2 u1:A", asked]),
                                     ("path", "a/r1/D", ["report_path a/r1:D setup"]),
                                     ("paths", "r1/D", ["report_paths r1:D setup 20"])):
            with self.subTest(work):
                self.assertEqual(real.commands(work, [line]), commands)
        lines = [f"u{number} INVX2" for number in range(6)]
        self.assertEqual([len(it) for it in real.parts("sessions", lines)], [2, 2, 1, 1])
        self.assertEqual(real.parts("resize", lines), [lines])

    def test_counts_of_instructions(self):
        for text, count in (("12345,,instructions:u,100,100.00,,\n", 12345),
                            ("<not supported>,,instructions:u,0,100.00,,\n", None),
                            ("==12== \n==12== I   refs:      705,965,106\n", 705965106), ("", None)):
            self.assertEqual(real.count_of(text), count)

    def test_slacks_and_differences(self):
        self.assertEqual(real.last_slack("session 1 1\n1 0 wns 3.000\n2 1 accepted\n3 1 wns -2.500\n"), -2.5)
        list_of, load = real.Took(2.5, 5.0, 30.0, -1.0), real.Took(0.5, 1.0, 20.0, 0.0)
        self.assertEqual(list_of.less(load, 4), real.Took(0.5, 1.0, 30.0, -1.0))
        self.assertIn("| 0.50 (0.50 to 0.50) |", real.row_of("resize", 1, [(load, real.Took(1.0, 2.0, 1.0, 0.0))]))

    def test_a_folder_without_designs(self):
        with tempfile.TemporaryDirectory() as folder:
            status, _, err = common.run(sys.executable, common.BENCH / "real.py", folder)
        self.assertEqual(status, 1)
        self.assertRegex(err, "^real.py: .*apt-get install")


class Unchecked(unittest.TestCase):
    def test_checks_are_left_out(self):
        text = "  br i1 %1, label %2, label %3\n3:\n  call void @llvm.trap()\n  unreachable\n"
        with tempfile.TemporaryDirectory() as folder:
            checked, left = pathlib.Path(folder, "checked.ll"), pathlib.Path(folder, "left.ll")
            checked.write_text(text)
            self.assertEqual(unchecked_build.without_checks(checked, left), 1)
            self.assertEqual(left.read_text(), text.replace("  call void @llvm.trap()\n", ""))


if __name__ == "__main__":
    unittest.main()
