#!/usr/bin/env python3
"""Replaces proofs of several lines by one call of a tactic, where the checker accepts it.

Each equation of a crate's lemmas that takes several lines, or with --answers of its answers, is tried as
`grind (arith, ..)` and then as `search (rules, ..)`, with the lemmas that it names. What the checker refuses is put
back. What stays passes with half of the search's limits; `rt check --fix-imports` drops imports that nothing uses.
Definitions stay as they are. The script changes the work tree.

It checks the crate after each round, which takes long. --only checks one function instead. Choose one that calls
little, and whose answers name a lemma of each file by a `use` line, so that all lemmas are checked with it.

examples:
  scripts/shorter_proofs.py kt_list
  scripts/shorter_proofs.py kt_rules --only kt_rules::reading::kind_of
  scripts/shorter_proofs.py kt_list --answers

exit status:
  0   the check passes
  1   it does not
  2   wrong usage"""
import argparse
import subprocess
import sys
from pathlib import Path

sys.dont_write_bytecode = True
from shortening import candidates, rounds

ROOT = Path(__file__).resolve().parent.parent


def library():
    """The folder of the toolchain's library, whose definitions are known by their names; None where there is none."""
    ran = subprocess.run(["rt", "doc"], stdout=subprocess.PIPE, text=True, check=False)
    return Path(ran.stdout.strip()).parent if ran.returncode == 0 and ran.stdout.strip() else None


def parser():
    """The command line."""
    made = argparse.ArgumentParser(description=__doc__, formatter_class=argparse.RawDescriptionHelpFormatter)
    made.add_argument("crate", metavar="CRATE")
    made.add_argument("--answers", action="store_true", help="try answers instead of lemmas")
    made.add_argument("--only", metavar="FUNCTION", help="check only this function")
    made.add_argument("--jobs", type=int, default=2, help="jobs of each check")
    return made


def main():
    asked = parser().parse_args()
    crate = ROOT / "crates" / asked.crate
    if not (crate / "proofs").is_dir():
        parser().error(f"no proofs in crates/{asked.crate}")
    words = candidates.Words([folder for folder in (library(), ROOT / "crates") if folder is not None])
    paths = [path for path in sorted((crate / "proofs").rglob("*.antt"))
             if (path.name == rounds.ANSWERS) == asked.answers and path.name != "Invariants.antt"]
    command = ["rt", "check", "--margin", "--jobs", str(asked.jobs)] + (["--only", asked.only] if asked.only else [])
    trial = rounds.Rounds(crate, [rounds.ProofFile(path, words) for path in paths], command,
                          lambda line: print(f"{asked.crate}: {line}", flush=True))
    passes = trial.run()
    print(f"{asked.crate}: {trial.gained()} lines fewer" if passes else f"{asked.crate}: the check does not pass")
    return 0 if passes else 1


if __name__ == "__main__":
    sys.exit(main())
