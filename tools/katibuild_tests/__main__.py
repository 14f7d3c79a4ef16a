#!/usr/bin/env python3
"""Runs the tests of the package katibuild, by the real make, ninja, cc and the built program kati.

    python3 tools/katibuild_tests [--jobs N] [NAME]..

NAME is the beginning of a test's name, as test_rooms or test_thin.Thin; without a NAME all tests run. KATI names the
program kati; without KATI the checkout's own is used. Modules run side by side, as many as there are processors, or N.
The last line is `N passed, M failed`; the exit status is 1 if a test failed or none was found.
"""
from __future__ import annotations

import argparse
import concurrent.futures
import os
import re
import subprocess
import sys
import unittest
from pathlib import Path

sys.dont_write_bytecode = True
HERE = Path(__file__).resolve().parent
TOP = HERE.parent.parent
COUNTED = re.compile(r"(\d+) passed, (\d+) failed")
KATI, KATI_ASKED = "crates/kati_program/out/kati_program", "crates/kati_asked/out/kati_asked"


class Result(unittest.TextTestResult):
    """Counts the tests that passed."""

    passed = 0

    def addSuccess(self, test):
        super().addSuccess(test)
        self.passed += 1


def tests_in(suite):
    """The tests of a suite, one by one."""
    for one in suite:
        if isinstance(one, unittest.TestSuite):
            yield from tests_in(one)
        else:
            yield one


def run_here(tests):
    """Runs tests in this process; answers how many passed and failed."""
    sys.stderr = sys.stdout
    done = unittest.TextTestRunner(stream=sys.stdout, verbosity=1, resultclass=Result).run(unittest.TestSuite(tests))
    for test, why in done.skipped:
        print(f"skipped: {test.id()}: {why}")
    return done.passed, len(done.failures) + len(done.errors) + len(done.unexpectedSuccesses)


def run_apart(names):
    """Runs tests in a process of their own; answers what it prints, and how many passed and failed."""
    ran = subprocess.run([sys.executable, str(HERE), "--jobs=1", *names], stdout=subprocess.PIPE,
                         stderr=subprocess.STDOUT, stdin=subprocess.DEVNULL, check=False)
    printed, _, last = ran.stdout.decode("utf-8", "replace").rstrip("\n").rpartition("\n")
    counted = COUNTED.fullmatch(last)
    if not counted:
        return f"{printed}\n{last}\n{names[0]} and {len(names) - 1} more: status {ran.returncode}, no count", (0, 1)
    return printed, (int(counted[1]), int(counted[2]))


def run_side_by_side(tests, jobs):
    """Runs each module in a process of its own, `jobs` of them at once."""
    modules = {}
    for test in tests:
        modules.setdefault(type(test).__module__, []).append(test.id())
    total = (0, 0)
    with concurrent.futures.ThreadPoolExecutor(jobs) as pool:
        waiting = [pool.submit(run_apart, names) for names in sorted(modules.values(), key=len, reverse=True)]
        for done in concurrent.futures.as_completed(waiting):
            printed, counts = done.result()
            print(printed, flush=True)
            total = (total[0] + counts[0], total[1] + counts[1])
    return total


def name_programs():
    """Names the checkout's own programs in the environment, unless the caller named others."""
    for variable, path in (("KATI", TOP / KATI), ("KATI_ASKED", TOP / KATI_ASKED)):
        if not os.environ.get(variable) and path.is_file():
            os.environ[variable] = str(path)


def main():
    parser = argparse.ArgumentParser(prog="python3 tools/katibuild_tests", description=__doc__,
                                     formatter_class=argparse.RawDescriptionHelpFormatter)
    parser.add_argument("--jobs", metavar="N", type=int, default=len(os.sched_getaffinity(0)))
    parser.add_argument("names", nargs="*", metavar="NAME")
    given = parser.parse_args()
    name_programs()
    sys.path[:0] = [str(HERE), str(HERE.parent)]
    found = [one for one in tests_in(unittest.TestLoader().discover(str(HERE)))
             if not given.names or one.id().startswith(tuple(given.names))]
    passed, failed = run_here(found) if given.jobs == 1 else run_side_by_side(found, given.jobs)
    print(f"{passed} passed, {failed} failed")
    return 1 if failed or not found else 0


if __name__ == "__main__":
    sys.exit(main())
