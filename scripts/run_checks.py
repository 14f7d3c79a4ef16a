#!/usr/bin/env python3
"""Runs all checks of the repository, and ends with one line, `N passed, M failed`, which adds up theirs.

    scripts/run_checks.py [--gate COMMAND | --no-gate]

The checks are the gate, `rt ci`, which proves and builds everything; then, on what it built, the tests of the
tools (tools/tests), of which a short run of refuse_growths.py is one, the tests of the package katibuild
(tools/katibuild_tests), and check_docs.py. Their lines come through
as they are written. Each ends with a line `N passed, M failed` or `N passed, M failed, K skipped`; one that ends
without such a line, or with another status than 0 and no failure, counts as one failure. Where tests were skipped,
a line before the last says how many; which and why is among the lines of the check.

examples:
  scripts/run_checks.py
  scripts/run_checks.py --no-gate      all but the gate, on what was built before

The exit status is 0 where nothing failed, else 1.
"""
import argparse
import re
import shlex
import subprocess
import sys
from pathlib import Path

TOP = Path(__file__).resolve().parent.parent
COUNTED = re.compile(r"(\d+) passed, (\d+) failed(?:, (\d+) skipped)?")
SKIPPED = re.compile(r"skipped: .*")


class Count:
    """How many passed, failed and were skipped, and the lines that tell which were skipped."""

    def __init__(self, passed=0, failed=0, skipped=0, which=()):
        self.passed, self.failed, self.skipped, self.which = passed, failed, skipped, list(which)

    def add(self, other):
        self.passed += other.passed
        self.failed += other.failed
        self.skipped += other.skipped
        self.which += other.which


def run(command):
    """Runs a check, lets its lines through, and answers its count."""
    sys.stdout.flush()
    try:
        process = subprocess.Popen(command, cwd=TOP, stdin=subprocess.DEVNULL, stdout=subprocess.PIPE)
    except OSError as error:
        print(f"{command[0]}: {error.strerror}")
        return Count(failed=1)
    last, which = "", []
    for data in process.stdout:
        sys.stdout.buffer.write(data)
        sys.stdout.flush()
        line = data.decode("utf-8", "replace").strip()
        last = line or last
        which += [line] if SKIPPED.fullmatch(line) else []
    status, found = process.wait(), COUNTED.fullmatch(last)
    if not found:
        print(f"{' '.join(command)} ended with status {status} and without a count")
        return Count(failed=1)
    count = Count(int(found[1]), int(found[2]), int(found[3] or 0), which)
    if status and not count.failed:
        print(f"{' '.join(command)} ended with status {status}")
        count.failed = 1
    return count


def checks(gate):
    """The commands, in their order."""
    if gate:
        yield gate
    yield [sys.executable, "tools/tests"]
    yield [sys.executable, "tools/katibuild_tests"]
    yield [sys.executable, "scripts/check_docs.py"]


def main():
    parser = argparse.ArgumentParser(description=__doc__, formatter_class=argparse.RawDescriptionHelpFormatter)
    which = parser.add_mutually_exclusive_group()
    which.add_argument("--gate", default="rt ci", metavar="COMMAND", help="the gate; `rt ci` without it")
    which.add_argument("--no-gate", action="store_true", help="leaves the gate out")
    asked = parser.parse_args()
    total = Count()
    for command in checks(None if asked.no_gate else shlex.split(asked.gate)):
        total.add(run(command))
    if total.skipped:
        names = ", ".join(line.split(": ")[1] for line in total.which)
        print(f"{total.skipped} skipped: {names}")
    print(f"{total.passed} passed, {total.failed} failed")
    return 1 if total.failed else 0


if __name__ == "__main__":
    sys.exit(main())
