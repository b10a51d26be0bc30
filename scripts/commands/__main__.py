"""Whole commands over small files: what they print, what they write, and how they end. Each run is made in threads and in one thread,
and has to do the same. From anywhere: python3 scripts/commands [TEST..], a test by its name, as test_runs.Runs.test_help_is_given.
It takes seconds once the program is built. REMUX names another program than the built one. A test of what isn't on the machine is left
out, and told. The last line counts the others; the status is 1 where something failed.
"""
import os
import sys
import unittest

here = os.path.dirname(os.path.realpath(__file__))
sys.path[:0] = [here, os.path.dirname(here)]

from does import PROGRAM


def main(names):
    if not os.access(PROGRAM, os.X_OK):
        sys.exit(f"{PROGRAM} isn't there: build it first")
    loader = unittest.defaultTestLoader
    tests = loader.loadTestsFromNames(names) if names else loader.discover(here)
    count = tests.countTestCases()
    result = unittest.TextTestRunner(verbosity=0).run(tests)
    wrong = {getattr(test, "test_case", test).id() for test, _ in result.failures + result.errors}
    for test, reason in result.skipped:
        print(f"left out: {test.id()}: {reason}")
    passed = result.testsRun - len(result.skipped) - sum(not name.startswith("setUpClass") for name in wrong)
    failed = count - len(result.skipped) - passed
    print(f"{passed} passed, {failed} failed")
    return 1 if failed or not passed else 0


if __name__ == "__main__":
    sys.exit(main(sys.argv[1:]))
