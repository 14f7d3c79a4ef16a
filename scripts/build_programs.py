#!/usr/bin/env python3
"""Proves what the programs kati and kati-asked depend on, crate by crate, and builds both; `make` runs it.

Before each crate it prints its number and how long the rest takes: at first at the speed of the machine of the gate's
marks (docs/DEVELOPING.md), then at the speed that the crates before it show. What was proved is kept, so a later run
does the rest.

examples:
  scripts/build_programs.py            proves and builds
  scripts/build_programs.py --list     the crates in the order in which they are proved

exit status:
  0    both programs are built
  1    a crate is not proved or a program is not built; the toolchain prints which and why
  3    the toolchain's program rt is not there
  64   wrong usage
  130  interrupted"""
import argparse
import shutil
import subprocess
import sys
import time
from pathlib import Path

sys.dont_write_bytecode = True
import crate_costs

ROOT = Path(__file__).resolve().parent.parent
PROGRAMS = ["kati_program", "kati_asked"]
FAILED, NO_TOOLCHAIN, WRONG_USAGE, INTERRUPTED = 1, 3, 64, 130
# Of what took a smaller part of its time most was kept, and it tells nothing of the machine.
KEPT = 0.1


def stands_on(text):
    """The crates of crates.txt, each with those that it stands on, libraries of the toolchain aside."""
    rows = dict(line.split(":", 1) for line in text.splitlines() if line and not line.startswith("#"))
    return {crate: [name for name in row.split() if name in rows] for crate, row in rows.items()}


def in_order(crates, wanted):
    """What these crates stand on and they themselves, each behind what it stands on."""
    found = {}

    def add(crate):
        for below in crates[crate]:
            add(below)
        found[crate] = True

    for crate in wanted:
        add(crate)
    return list(found)


class Clock:
    """How long the rest takes."""

    def __init__(self, costs, crates):
        self.costs, self.left, self.took, self.known = costs, list(crates), 0, 0

    def is_done(self, crate, seconds):
        """A crate took so many seconds."""
        self.left.remove(crate)
        reference = self.costs.reference(crate)
        if seconds > reference * KEPT > 0:
            self.took, self.known = self.took + seconds, self.known + reference

    def rest(self):
        """What to say of the time of what is left."""
        seconds = sum(map(self.costs.reference, self.left)) * (self.took / self.known if self.known else 1)
        whose = "as fast as before" if self.known else "on the machine of docs/DEVELOPING.md"
        return f"the rest takes {max(1, round(seconds / 60))} min {whose}, if nothing is kept"


def run(crate):
    """Proves a crate, or builds a program, which tells its help; answers whether that went well."""
    words = ["rt", "run", "--", "--help"] if crate in PROGRAMS else ["rt", "check"]
    # What the program prints is of no use here; what the toolchain says comes through.
    output = subprocess.DEVNULL if crate in PROGRAMS else sys.stderr
    return subprocess.run(words, cwd=ROOT / "crates" / crate, stdin=subprocess.DEVNULL, stdout=output).returncode == 0


def build(crates):
    """Proves and builds all; answers the exit status."""
    clock = Clock(crate_costs.read(), crates)
    for number, crate in enumerate(crates, 1):
        print(f"[{number}/{len(crates)}] {crate}: {clock.rest()}", flush=True)
        begun = time.monotonic()
        if not run(crate):
            print(f"{crate} failed", file=sys.stderr)
            return FAILED
        clock.is_done(crate, time.monotonic() - begun)
    for program in PROGRAMS:
        path = ROOT / "crates" / program / "out" / program
        if not path.is_file():
            print(f"no {path.relative_to(ROOT)} was built", file=sys.stderr)
            return FAILED
    return 0


class Parser(argparse.ArgumentParser):
    """A parser that ends with the project's status for wrong usage."""

    def error(self, message):
        self.print_usage(sys.stderr)
        self.exit(WRONG_USAGE, f"{self.prog}: {message}\n")


def main():
    parser = Parser(description=__doc__, formatter_class=argparse.RawDescriptionHelpFormatter)
    parser.add_argument("--list", action="store_true", help="print the crates, and do nothing else")
    asked = parser.parse_args()
    crates = in_order(stands_on((ROOT / "crates.txt").read_text(encoding="utf-8")), PROGRAMS)
    if asked.list:
        print("\n".join(crates))
        return 0
    if not shutil.which("rt"):
        print("no program rt: the toolchain is not on PATH", file=sys.stderr)
        return NO_TOOLCHAIN
    try:
        return build(crates)
    except KeyboardInterrupt:
        return INTERRUPTED


if __name__ == "__main__":
    sys.exit(main())
