#!/usr/bin/env python3
"""Tries the wrong bodies of crates, many at a time: the prover must refuse each.

An edit is a file of crates/CRATE/wrong-bodies, NAME.edit: a line 'file: src/x.rt', then pairs of lines 'old: TEXT' and
'new: TEXT'. Each old text is in the file exactly once. A round copies the repository with what earlier checks kept,
applies edits of different functions, runs one check, and reads which functions the check blames. An edit is

    refused      the check blames its function for a goal of the function's own
    no evidence  the check blames it, but the function is proved by hand (Invariants.antt counts) or by lemmas that its
                 attribute names; the edit changes the shape of the body (branches, ways out, calls), which may be
                 enough for a refusal; and NAME.control of wrong-bodies, which has the new shape and the old meaning, is
                 absent or not let through
    let through  its function is proved in spite of the edit, or only its callees kept it from being proved
    no refusal   the edited code does not compile, only a name of a proof file is gone, or the check gives no verdict:
                 write another body

An edit of a type, of a constant or of a function of a cycle has a round to itself. A function that calls an edited
function may not be judged; its edit is tried again in a later round. After a round without a verdict that names no
place, half of its edits are tried, until the edit that prevents the verdict is found. The work tree stays as it is. The
result of an edit is printed as soon as it is known.

examples:
  scripts/wrong_bodies.py                       all of wrong-bodies/
  scripts/wrong_bodies.py kt_list --must-fail   of one crate, those of must-fail/ as well
  scripts/wrong_bodies.py --record              keeps the counts in scripts/wrong_bodies.txt
  scripts/wrong_bodies.py --self-test           shows that an edit without a meaning is let through

exit status:
  0   all were refused
  1   one wasn't
  2   wrong usage"""
import argparse
import sys
import time
from pathlib import Path

sys.dont_write_bytecode = True
from bodies import counts, edits, trials

ROOT = Path(__file__).resolve().parent.parent
COUNTS = ROOT / "scripts/wrong_bodies.txt"
SELF_TEST = {
    "changes_nothing": ("src/sequence.rt", "self.items.as_slice()", "self.items.as_slice()"),
    "means_the_same": ("src/sequence.rt", "self.items.as_slice()", "&self.items.as_slice()[..]"),
}


def tried(crate, found, jobs):
    """The trial of a crate's edits, which are told one by one, and then counted."""
    def tell(edit):
        print(f"{crate} {edit.name}: {edit.outcome} ({edit.why})", flush=True)

    started = time.monotonic()
    trial = trials.Trial(ROOT, crate, found, jobs, tell).run()
    minutes = (time.monotonic() - started) / 60
    print(f"{crate}: {len(found)} edits, {trial.count(trials.REFUSED)} refused, "
          f"{trial.count(trials.NO_EVIDENCE)} without evidence, {trial.rounds} rounds, {minutes:.1f} minutes",
          flush=True)
    return trial


def self_test(jobs):
    """Whether two edits that change no meaning are let through."""
    found = [edits.Edit(name, file, [(old, new)]) for name, (file, old, new) in SELF_TEST.items()]
    return tried("kt_list", found, jobs).count(trials.LET_THROUGH) == len(found)


def parser():
    """The command line."""
    made = argparse.ArgumentParser(description=__doc__, formatter_class=argparse.RawDescriptionHelpFormatter)
    made.add_argument("crates", nargs="*", metavar="CRATE")
    made.add_argument("--jobs", type=int, default=2, help="jobs of each check")
    made.add_argument("--only", action="append", metavar="WORD",
                      help="edits with this word in their names; may stand again")
    made.add_argument("--must-fail", action="store_true", help="the edits of must-fail as well")
    made.add_argument("--record", action="store_true", help="writes what came of each crate, where all were tried")
    made.add_argument("--self-test", action="store_true", help="see that edits without a meaning are let through")
    return made


def main():
    asked = parser().parse_args()
    if asked.record and asked.only:
        parser().error("--record wants all edits of a crate")
    if asked.self_test:
        return 0 if self_test(asked.jobs) else 1
    folders = ["wrong-bodies"] + (["must-fail"] if asked.must_fail else [])
    is_good = True
    for crate in asked.crates or sorted(path.parent.name for path in (ROOT / "crates").glob("*/wrong-bodies")):
        trial = tried(crate, edits.of_crate(ROOT, crate, folders, asked.only), asked.jobs)
        is_good &= trial.count(trials.REFUSED) == len(trial.tried)
        if asked.record:
            counts.record(COUNTS, trial)
    return 0 if is_good else 1


if __name__ == "__main__":
    sys.exit(main())
