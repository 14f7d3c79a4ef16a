#!/usr/bin/env python3
"""Runs the gate on a clean checkout of HEAD, and prints what it cost.

LOG gets the output of the gate. The script prints the gate's last line, the minutes, the processor minutes, and a table
of the processor seconds of each crate: its proof, its tests, its edits, and each check of an edit. It tells these apart
by the folder and the arguments of each prover process. If a machine has more work than processors, processor time
rises, too.

--speed proves one crate of an earlier commit, as the gate does. It prints the time of this machine and of the machine
of the gate's marks. Only by these can processor minutes of two machines be compared.

--record does both, the speed first, and writes scripts/crate_costs.txt if the gate passes.

examples:
  scripts/gate_cost.py                    the gate of HEAD
  scripts/gate_cost.py --record           the same, and writes the file of costs
  scripts/gate_cost.py HEAD~3 gate.log    the gate of an earlier commit, with its output in gate.log
  scripts/gate_cost.py --speed            the speed of the machine

exit status:
  0   the gate passed; with --speed: the crate is proved
  64  wrong usage
  any other status is that of the gate"""
import argparse
import os
import resource
import shutil
import subprocess
import sys
import tempfile
import threading
import time
from collections import Counter
from pathlib import Path

sys.dont_write_bytecode = True
import crate_costs

ROOT = Path(__file__).resolve().parent.parent
TICKS = os.sysconf("SC_CLK_TCK")
PARTS = ("proof", "tests", "edits")

# A commit at which the whole gate was measured, one of its crates, and the processor seconds of that crate's proof
# there.
MEASURED = "f18215d", "kt_text: memchr bstr thiserror", 60


class Sampler(threading.Thread):
    """The processor time of each process below a folder, as last seen, by its crate and what it is for."""

    def __init__(self, folder):
        super().__init__(daemon=True)
        self.folder, self.seen, self.ended = str(folder), {}, False

    def run(self):
        while not self.ended:
            for process in Path("/proc").iterdir():
                if process.name.isdigit():
                    self.look_at(process)
            time.sleep(1)

    def look_at(self, process):
        try:
            words = (process / "cmdline").read_bytes().decode(errors="replace").split("\0")
            if not words[0].endswith("/rattle"):
                return
            where = os.readlink(process / "cwd")
            fields = (process / "stat").read_text().rpartition(")")[2].split()
        except OSError:
            return
        if "--crate-name" not in words:
            return
        crate = words[words.index("--crate-name") + 1]
        if where.startswith(self.folder):
            part = "tests" if "--test" in words else "proof"
        elif "/rt-edit-" in where:
            part = "edits"
        else:
            return
        self.seen[process.name, fields[19]] = crate, part, (int(fields[11]) + int(fields[12])) / TICKS

    def table(self):
        """The seconds of each check, by crate and part, in the order in which the checks began."""
        costs = {}
        for _, (crate, part, seconds) in sorted(self.seen.items(), key=lambda it: int(it[0][1])):
            costs.setdefault(crate, {part: [] for part in PARTS})[part].append(seconds)
        return costs


def processor_seconds():
    used = resource.getrusage(resource.RUSAGE_CHILDREN)
    return used.ru_utime + used.ru_stime


def checkout(revision, folder):
    subprocess.run(["git", "clone", "-q", str(ROOT), str(folder)], check=True)
    subprocess.run(["git", "checkout", "-q", revision], cwd=folder, check=True)


def tell_speed():
    """Proves the measured crate alone, without its tests and edits; answers the processor seconds, and the status."""
    revision, line, wanted = MEASURED
    with tempfile.TemporaryDirectory(prefix="gate_") as name:
        folder = Path(name) / "checkout"
        checkout(revision, folder)
        crate = line.partition(":")[0]
        for other in (folder / "crates").iterdir():
            if other.name != crate:
                shutil.rmtree(other)
        shutil.rmtree(folder / "crates" / crate / "must-fail")
        (folder / "crates.txt").write_text(line + "\n")
        before = processor_seconds()
        one_job = {**os.environ, "RT_JOBS": "1"}
        ran = subprocess.run(["rt", "ci"], cwd=folder, env=one_job, stdout=subprocess.PIPE, stderr=subprocess.STDOUT,
                             text=True)
        took = processor_seconds() - before
    print(ran.stdout.rstrip().splitlines()[-1])
    print(f"{took:.0f} processor seconds for {crate} of {revision}, {took / wanted:.1f} of the {wanted} that it took "
          "there")
    return took, ran.returncode


def edits_in(folder):
    """How many edits each crate of a checkout has for the gate, which may take several processes for one."""
    return Counter(path.parent.parent.name for path in Path(folder).glob("crates/*/must-fail/*.edit"))


def costs_of(table, here, edits):
    """The costs of a table of the sampler, on a machine on which the measured crate takes so many seconds, with the
    number of edits of each crate."""
    rows = {crate: crate_costs.Cost(*(sum(row[part]) for part in PARTS), edits[crate])
            for crate, row in sorted(table.items())}
    return crate_costs.Costs(rows, here, MEASURED[2])


class Parser(argparse.ArgumentParser):
    """A parser that ends with the project's status for wrong usage."""

    def error(self, message):
        self.print_usage(sys.stderr)
        self.exit(64, f"{self.prog}: {message}\n")


def asked():
    """What the command line asks for."""
    parser = Parser(description=__doc__, formatter_class=argparse.RawDescriptionHelpFormatter)
    which = parser.add_mutually_exclusive_group()
    which.add_argument("--speed", action="store_true", help="only one crate of an earlier commit")
    which.add_argument("--record", action="store_true", help="also write scripts/crate_costs.txt")
    parser.add_argument("revision", nargs="?", default="HEAD", metavar="REVISION", help="a commit; HEAD without it")
    parser.add_argument("log", nargs="?", metavar="LOG", help="the file for the output of the gate")
    return parser.parse_args()


def main():
    words = asked()
    took, status = tell_speed() if words.speed or words.record else (None, 0)
    if words.speed or status:
        sys.exit(status)
    revision = words.revision
    before = processor_seconds()
    with tempfile.TemporaryDirectory(prefix="gate_") as name:
        folder = Path(name) / "checkout"
        checkout(revision, folder)
        sampler, started = Sampler(folder), time.time()
        sampler.start()
        path = Path(words.log or Path(name) / "log")
        with open(path, "wb") as log:
            status = subprocess.run([folder / ".ci/run"], stdout=log, stderr=subprocess.STDOUT).returncode
        sampler.ended = True
        print(path.read_text(errors="replace").rstrip().splitlines()[-1])
        minutes, of_processors = (time.time() - started) / 60, (processor_seconds() - before) / 60
        print(f"{minutes:.0f} minutes, {of_processors:.0f} processor minutes")
        print("| Crate | " + " | ".join(PARTS) + " | each edit |")
        for crate, row in sorted(sampler.table().items()):
            sums = " | ".join(f"{sum(row[part]):.0f}" for part in PARTS)
            print(f"| {crate} | {sums} | " + ", ".join(f"{it:.0f}" for it in row["edits"]) + " |")
        if words.record and status == 0:
            crate_costs.write(costs_of(sampler.table(), took, edits_in(folder)))
        sys.exit(status)


if __name__ == "__main__":
    main()
