#!/usr/bin/env python3
"""Runs a built kati on the cases, and refuses each allocation, read and write in turn.

An allocation is a call of malloc, calloc or realloc. The Nth is refused, for N from 1 until none is left. The Nth read
of a file fails, then gets one byte. The Nth write fails, takes one byte, then takes none. Of a case with more than
2,000 allocations (or reads, or writes) 2,000 are tried, evenly spread. scripts/refusing/outcomes.py has the outcomes
that the documents allow. A wrong outcome is printed with its case and its call. The last lines are
figures, and then `N passed, M failed`, by cases.

A shared object counts and refuses the calls; LD_PRELOAD puts it before the C library. cc compiles it from
scripts/refusing/refuse.c into a temporary folder. It counts from the program's main on.

examples:
  scripts/refuse_growths.py crates/kati_program/out/kati_program
  scripts/refuse_growths.py --quick crates/kati_program/out/kati_program
  scripts/refuse_growths.py --case 'one rule' --case 'empty makefile' --jobs 1 PROGRAM

exit statuses:
  0  each outcome is allowed
  1  an outcome is wrong
  2  wrong usage, an unknown case, no C compiler, or a program that cannot be tried (a static one)"""
import argparse
import glob
import os
import subprocess
import sys
import tempfile
from collections import Counter
from concurrent.futures import ProcessPoolExecutor
from functools import partial

sys.dont_write_bytecode = True
import run_cases
from refusing import outcomes, runs

QUICK = ("one rule", "canned recipe", "chain of pattern rules", "one file included twice", "check after a message")
SHOWN = 400


def name_of(case):
    return case[0][1].decode()


def all_cases():
    """The cases of all files."""
    paths = sorted(glob.glob(os.path.join(run_cases.DATA, "*.cases")))
    return [case for path in paths for case in run_cases.cases_in(path)]


def spread(count, most):
    """The numbers from 1 to count, or so many of them, evenly spread, with the first and the last."""
    if count <= most:
        return list(range(1, count + 1))
    return sorted({1 + place * (count - 1) // max(most - 1, 1) for place in range(most)})


def told(outcome):
    """An outcome in words."""
    outputs = ("output %r" % (outcome.out or b"")[:SHOWN], "error output %r" % (outcome.err or b"")[:SHOWN])
    return "status %s, %s, %s" % ((outcome.status,) + outputs)


class Trial:
    """The refusals of one case: what was counted, and what was wrong, in words."""

    def __init__(self, runner, case):
        self.runner, self.case = runner, case
        self.counts, self.wrong = Counter(), []

    def blame(self, refusal, words):
        what = "%s %d, %s" % refusal if refusal else "nothing refused"
        self.wrong.append("%s: %s: %s" % (name_of(self.case), what, words))

    def differences(self, outcome):
        """What an outcome has otherwise than the case says."""
        if outcome.status == runs.NO_END:
            return [told(outcome)]
        done = subprocess.CompletedProcess([], outcome.status, outcome.out, outcome.err)
        return list(run_cases.differences(self.case, done))

    def refuse(self, refusal):
        """Refuses one call, and looks at what comes."""
        outcome, record = self.runner.run(refusal)
        self.counts[refusal.call, refusal.way] += 1
        words = self.runner.words[1:]
        if not record.refused:
            self.blame(refusal, "the call never came, as it did with nothing refused: " + told(outcome))
        elif outcome not in outcomes.allowed_outcomes(words, refusal, self.own, self.own_record, record):
            self.blame(refusal, told(outcome))
        elif outcome == self.own:
            self.counts[refusal.call, refusal.way, "own"] += 1

    def refuse_none(self, call, number):
        """A refusal beyond the last call changes nothing."""
        refusal = runs.Refusal(call, number, "fail")
        outcome, record = self.runner.run(refusal)
        if record.refused or outcome != self.own:
            self.blame(refusal, "beyond the last call: " + told(outcome))

    def refuse_all(self, most):
        """Refuses the calls of a case, each in turn."""
        for call, ways in runs.WAYS.items():
            count = getattr(self.own_record, call)
            self.counts[call] += count
            for number in spread(count, most):
                for way in ways:
                    self.refuse(runs.Refusal(call, number, way))
            self.refuse_none(call, count + 1)

    def run(self, most):
        """Runs the case with nothing refused, and then with each call refused."""
        self.own, self.own_record = self.runner.run()
        if not self.own_record.started:
            raise runs.CannotTry("LD_PRELOAD isn't in force: the program is linked statically, or can't be run")
        for words in self.differences(self.own):
            self.blame(None, words)
        if not self.wrong:
            self.refuse_all(most)


def tried(program, shared_object, most, case):
    """The figures of a case, and its wrong outcomes."""
    with tempfile.TemporaryDirectory() as folder:
        trial = Trial(runs.Runner(program, shared_object, case, folder), case)
        trial.run(most)
    return trial.counts, trial.wrong


def figures(counts, cases, wrong):
    """The lines of the figures."""
    yield "cases: %d" % cases
    for call, ways in runs.WAYS.items():
        parts = ["%d %s (%d as the case)" % (counts[call, way], way, counts[call, way, "own"]) for way in ways]
        yield "%ss: %d; refused: %s" % (call, counts[call], ", ".join(parts))
    yield "wrong: %d" % wrong


def try_all(program, shared_object, cases, asked):
    """Tries the cases, prints what is wrong, and then the figures; whether all was right."""
    counts, wrong, failed = Counter(), 0, 0
    with ProcessPoolExecutor(max_workers=asked.jobs) as pool:
        for found, lines in pool.map(partial(tried, program, shared_object, asked.most), cases):
            counts.update(found)
            wrong, failed = wrong + len(lines), failed + bool(lines)
            for line in lines:
                print(line, flush=True)
    for line in figures(counts, len(cases), wrong):
        print(line)
    print("%d passed, %d failed" % (len(cases) - failed, failed))
    return failed == 0


def natural(word):
    """A number from 1."""
    if int(word) < 1:
        raise ValueError(word)
    return int(word)


def arguments():
    """The command line."""
    parser = argparse.ArgumentParser(description=__doc__, formatter_class=argparse.RawDescriptionHelpFormatter)
    parser.add_argument("program", metavar="PROGRAM", help="the built program, linked dynamically")
    parser.add_argument("--case", metavar="NAME", action="append", help="only the case of this name; may be repeated")
    parser.add_argument("--quick", action="store_true", help="only these cases: " + "; ".join(QUICK))
    parser.add_argument("--most", metavar="N", type=natural, default=2000,
                        help="refuse at most N growths, reads and writes of each case (%(default)s)")
    parser.add_argument("--jobs", metavar="N", type=natural, default=os.cpu_count() or 1,
                        help="cases at a time (the number of processors: %(default)s)")
    return parser, parser.parse_args()


def chosen_cases(parser, asked):
    """The cases that the command line asks for."""
    wanted = (asked.case or []) + (list(QUICK) if asked.quick else [])
    cases = all_cases()
    unknown = set(wanted) - {name_of(case) for case in cases}
    if unknown:
        parser.error("no case has this name: " + "; ".join(sorted(unknown)))
    return [case for case in cases if not wanted or name_of(case) in wanted]


def main():
    parser, asked = arguments()
    cases = chosen_cases(parser, asked)
    program = os.path.abspath(asked.program)
    if not os.access(program, os.X_OK):
        parser.error("not a program: " + asked.program)
    strange = runs.uncounted_imports(program)
    if strange:
        parser.error("the program imports calls that aren't counted: " + " ".join(strange))
    with tempfile.TemporaryDirectory() as scratch:
        try:
            return 0 if try_all(program, runs.built_object(scratch), cases, asked) else 1
        except runs.CannotTry as error:
            parser.error(str(error))


if __name__ == "__main__":
    sys.exit(main())
