#!/usr/bin/env python3
"""Runs the tests of the tools, on small trees, by the built program kati and the real make, ninja and cc.

    python3 tools/tests [--kati PROGRAM] [--jobs N] [NAME]..

NAME is a test's name or the beginning of one, as test_build.Headers; all of them without one. A test whose program
isn't there is skipped. The names of tests that failed or were skipped are told, and the last line is `N passed, M
failed, K skipped`. Where one failed and the program kati is older than the source, this is said before.
The exit status is 1 where one failed, else 0.

The modules of tests run in N processes side by side, as many as there are processors without --jobs; the lines of each
are printed at its end.

KATI_RANDOM_TREES says how many trees test_random_edits, test_random_ported and test_random_ports try, and
KATI_RANDOM_SEED which.
Where KATI_INCLUDES is set, test_made_includes and test_made_includes_more try all their scenarios.

examples:
  python3 tools/tests
  python3 tools/tests test_build.Regenerating
  KATI=/usr/bin/kati python3 tools/tests test_port
  KATI_RANDOM_TREES=100 python3 tools/tests test_random_edits
"""
import argparse
import concurrent.futures
import os
import re
import subprocess
import sys
import unittest
from pathlib import Path

sys.dont_write_bytecode = True
HERE = Path(__file__).resolve().parent
COUNTED = re.compile(r"(\d+) passed, (\d+) failed, (\d+) skipped")
sys.path.insert(0, str(HERE))


class Result(unittest.TextTestResult):
    """Counts those that passed."""

    passed = 0

    def addSuccess(self, test):
        super().addSuccess(test)
        self.passed += 1


def tests_in(suite):
    """The tests of a suite, one by one."""
    for one in suite:
        if isinstance(one, unittest.TestSuite):
            yield from tests_in(one)
        else:
            yield one


def older_than_source(top):
    """The program kati and a source of it that is newer, if there is one."""
    program = Path(os.environ.get("KATI") or top / "crates/kati_program/out/kati_program")
    newest = max(top.glob("crates/*/src/**/*.rt"), key=lambda path: path.stat().st_mtime, default=None)
    if newest is not None and program.is_file() and program.stat().st_mtime < newest.stat().st_mtime:
        return program, newest.relative_to(top)
    return None


def run(tests):
    """Runs tests in this process, tells of each that failed or was skipped, and answers how many passed, failed and
    were skipped."""
    sys.stderr = sys.stdout
    done = unittest.TextTestRunner(stream=sys.stdout, verbosity=1, resultclass=Result).run(unittest.TestSuite(tests))
    for test, why in done.skipped:
        print(f"skipped: {test.id()}: {why}")
    failed = len(done.failures) + len(done.errors) + len(done.unexpectedSuccesses)
    older = older_than_source(HERE.parent.parent) if failed else None
    if older:
        print(f"{older[0]} is older than {older[1]}: build it anew, if a test failed for that")
    return done.passed, failed, len(done.skipped)


def run_apart(names):
    """Runs the tests of these names in a process of its own, and answers what that prints but its count, and how many
    passed, failed and were skipped; one failed where it tells no count."""
    ran = subprocess.run([sys.executable, str(HERE), "--jobs=1", *names], stdout=subprocess.PIPE,
                         stderr=subprocess.STDOUT, stdin=subprocess.DEVNULL)
    said, _, last = ran.stdout.decode("utf-8", "replace").rstrip("\n").rpartition("\n")
    counted = COUNTED.fullmatch(last)
    if not counted:
        return f"{said}\n{last}\n{' '.join(names)}: ended with status {ran.returncode} and without a count", (0, 1, 0)
    return said, tuple(map(int, counted.groups()))


def run_side_by_side(tests, jobs):
    """Runs the tests of each module in a process of its own, `jobs` of them side by side, the longest modules first;
    answers how many passed, failed and were skipped."""
    modules = {}
    for test in tests:
        modules.setdefault(type(test).__module__, []).append(test.id())
    longest_first = sorted(modules.values(), key=len, reverse=True)
    total = (0, 0, 0)
    with concurrent.futures.ThreadPoolExecutor(jobs) as pool:
        for done in concurrent.futures.as_completed([pool.submit(run_apart, names) for names in longest_first]):
            said, counts = done.result()
            print(said, flush=True)
            total = tuple(map(sum, zip(total, counts)))
    return total


def main():
    parser = argparse.ArgumentParser(prog="python3 tools/tests", description=__doc__,
                                     formatter_class=argparse.RawDescriptionHelpFormatter)
    parser.add_argument("--kati", metavar="PROGRAM", help="the program kati; without it KATI, then the built one")
    parser.add_argument("--jobs", metavar="N", type=int, default=len(os.sched_getaffinity(0)),
                        help="how many modules of tests run side by side; as many as there are processors without it")
    parser.add_argument("names", nargs="*", metavar="NAME", help="the beginning of a test's name")
    asked = parser.parse_args()
    if asked.kati:
        os.environ["KATI"] = os.path.abspath(asked.kati)
    found = [one for one in tests_in(unittest.TestLoader().discover(str(HERE)))
             if not asked.names or one.id().startswith(tuple(asked.names))]
    passed, failed, skipped = run(found) if asked.jobs == 1 else run_side_by_side(found, asked.jobs)
    print(f"{passed} passed, {failed} failed, {skipped} skipped")
    return 1 if failed or not found else 0


if __name__ == "__main__":
    sys.exit(main())
