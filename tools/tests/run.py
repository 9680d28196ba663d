#!/usr/bin/env python3
"""Runs the tests of the tools: tools/tests/run.py [-v] [--program FILE] [WORD ..]

They need no proof and take some minutes. Tests that need the program take FILE, or the one that the gate has built,
else one built without proof (dev/quick_build.py), and else are skipped; the last line says how many. WORD takes only
tests with it in their name.
"""
import argparse
import os
import pathlib
import sys
import unittest

HERE = pathlib.Path(__file__).resolve().parent
sys.dont_write_bytecode = sys.pycache_prefix is None


def main():
    parser = argparse.ArgumentParser(description=__doc__, formatter_class=argparse.RawDescriptionHelpFormatter)
    parser.add_argument("-v", action="store_true", dest="is_verbose")
    parser.add_argument("--program", type=pathlib.Path, metavar="FILE")
    parser.add_argument("words", nargs="*", metavar="WORD")
    given = parser.parse_args()
    if given.program:
        os.environ["LIZDROG_TEST_PROGRAM"] = str(given.program.resolve())
    loader = unittest.TestLoader()
    loader.testNamePatterns = [f"*{it}*" for it in given.words] or None
    suite = loader.discover(str(HERE), pattern="test_*.py")
    ran = unittest.TextTestRunner(verbosity=2 if given.is_verbose else 1).run(suite)
    for reason in sorted({reason for _, reason in ran.skipped}):
        print(f"tools: skipped: {reason}")
    failed = len(ran.failures) + len(ran.errors)
    print(f"tools: {ran.testsRun - failed - len(ran.skipped)} tests passed, {failed} failed, {len(ran.skipped)} "
          "skipped")
    return 1 if failed or not ran.testsRun else 0


if __name__ == "__main__":
    sys.exit(main())
