"""scripts/shorter_proofs.py, with a program that stands for the toolchain: which proofs become shorter."""
import os
import shutil
import sys

from support import TOP, Tree

# It reads the crate's proof files as a prover would. A `grind` proves what names `easy`, a `search` what names `found`,
# and a proof that was written out proves all. What cites a refused lemma isn't checked.
PROVER = """
import re, sys
from pathlib import Path
is_fine, refused = True, []
for path in sorted(Path("proofs").rglob("*.antt")):
    for place, line in enumerate(path.read_text().split("\\n"), 1):
        name = line.split(" ")[0]
        if any(word in line for word in refused):
            print(f"./{path}:{place}:1: error: 1 declaration that depends on another, was not checked: {name}")
        elif ("= grind" in line and "easy" not in line) or ("= search" in line and "found" not in line):
            print(f"./{path}:{place}:9: error: `{name}`: no proof was found")
            refused.append(name)
            is_fine = False
sys.exit(0 if is_fine else 1)
"""
LEMMAS = """\
use Rattle.std.proofs.Common.{◌≡◌, ap, sym}
use Rattle.demo.proofs.Others.{easy, found, hard}
use Rattle.demo.specs.Demo.{shown}

-- on one line
pub short : (a : ℕ) → a ≡ a
short a = refl

pub first : (a : ℕ) → shown a ≡ a
unfolding shown
first a =
    ap shown (easy a)
    ∙ sym (easy a)

module _ (b : ℕ) where
  second : (a : ℕ) → a ≤ b
  second zero = refl
  second (suc a) =
      found
      (second a)

third : (a : ℕ) → IsShown a
third a = hard
  where
    step : ℕ

    step = first

-- a definition
number : (a : ℕ) → ℕ
number a =
    easy
    a
"""
SHORTER = """\
use Rattle.std.proofs.Common.{arith, rules, ◌≡◌, ap, sym}
use Rattle.demo.proofs.Others.{easy, found, hard}
use Rattle.demo.specs.Demo.{shown}

-- on one line
pub short : (a : ℕ) → a ≡ a
short a = refl

pub first : (a : ℕ) → shown a ≡ a
unfolding shown
first a = grind (arith, easy)

module _ (b : ℕ) where
  second : (a : ℕ) → a ≤ b
  second zero = refl
  second (suc a) = search (rules, found, second a)
"""


class ShorterProofs(Tree):
    """A repository with one crate."""

    def setUp(self):
        super().setUp()
        shutil.copytree(TOP / "scripts/shortening", self.top / "scripts/shortening",
                        ignore=shutil.ignore_patterns("__pycache__"))
        shutil.copy2(TOP / "scripts/shorter_proofs.py", self.top / "scripts")
        self.put("crates/demo/specs/Demo.antt", "pub shown : ℕ → ℕ\nshown a = a\n")
        (self.top.parent / "bin").mkdir()
        (self.top.parent / "prover.py").write_text(PROVER)
        self.program("bin/rt", f'test "$1" = doc && exit 1\nexec "{sys.executable}" "{self.top.parent}/prover.py"')

    def shortened(self, *words, status=0):
        """The last line of what is said."""
        path = f"{self.top.parent / 'bin'}:{os.environ['PATH']}"
        ran = self.run_in(sys.executable, "-B", "scripts/shorter_proofs.py", "demo", *words, PATH=path)
        self.assertEqual(ran.status, status, ran.all)
        return ran.out.splitlines()[-1]

    def test_what_a_tactic_finds_is_shorter(self):
        self.put("crates/demo/proofs/Lemmas.antt", LEMMAS)
        self.assertEqual(self.shortened(), "demo: 4 lines fewer")
        # What no tactic finds is as it was, and so is a definition.
        self.assertEqual(self.read("crates/demo/proofs/Lemmas.antt"), SHORTER + LEMMAS[LEMMAS.index("\nthird"):])

    def test_answers_are_tried_apart(self):
        answer = "pub returns : goal.returns\nreturns c =\n    easy\n    c\n"
        use = "use Rattle.demo.proofs.Others.{easy}\n"
        self.put_all({"crates/demo/proofs/f/Answers.antt": use + answer, "crates/demo/proofs/Lemmas.antt": LEMMAS})
        self.assertEqual(self.shortened("--answers"), "demo: 2 lines fewer")
        self.assertEqual(self.read("crates/demo/proofs/Lemmas.antt"), LEMMAS)
        self.assertEqual(self.read("crates/demo/proofs/f/Answers.antt"),
                         "use Rattle.std.proofs.Common.{arith}\n" + use
                         + "pub returns : goal.returns\nreturns c = grind (arith, easy)\n")

    def test_a_crate_that_is_not_there(self):
        ran = self.run_in(sys.executable, "-B", "scripts/shorter_proofs.py", "other")
        self.assertEqual((ran.status, ran.all.splitlines()[-1]),
                         (2, "shorter_proofs.py: error: no proofs in crates/other"))
