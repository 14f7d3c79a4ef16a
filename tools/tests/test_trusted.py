"""scripts/trusted_stated.py lists what the promise rests on: each name is followed, and nothing else is."""
import importlib
import subprocess
import sys
import tempfile
import unittest
from pathlib import Path

from support import TOP

SCRIPT = TOP / "scripts/trusted_stated.py"
sys.path.append(str(TOP / "scripts"))

PROGRAM = """ghost use Rattle.top.specs.Ends.{Ends};

fn NAME<'a>(
    words: &[String],
) -> u8
    ensures { Ends words.now result }
{
    whole(words)
}
"""
HOST = """impl Files for HostFiles {
    ghost use Rattle.top.specs.Seen.{seen_of};

    ghost seen = { seen_of };
}
"""
WORDS = """ghost use Rattle.top.specs.Refused.{Refuses, never};

impl Wordless {
    pub fn refuse(self) -> u8
        ensures told { Refuses self result }
    {
        never
    }
}
"""
TYPES = """pub struct Line {
    /// No Kind.
    pub text: Held,
    pub number: u64,
}

pub struct Held {
    bytes: Kind,
}

impl Model for Held {
    ghost Value = { List Byte };
}

pub enum Kind {
    Line,
    Other(Line),
}
"""
LOW = """-- The lowest (low's own).
use Rattle.std.specs.Prelude.{List, ◌++◌, codes, unsaid}

-- what is deep
abbrev pub deep : List Byte → List Byte
deep text = text ++ codes "unused unsaid" -- unused

-- in a comment and a string alone
abbrev pub unused : Type 0
unused = unsaid

-- a shape
pub data Shape : Type 0 where
  round : Shape
  square : Byte → Shape

-- steps, one after another
infixl 10 ◌>>=◌
abbrev pub ◌>>=◌ : Type 0 → Type 0
(step >>= next) = later step

-- what comes later
abbrev pub later : Type 0 → Type 0
later step = step
"""
ENDS = """-- How it ends (GNU make manual,
-- "Errors").
use Rattle.low.specs.Prelude.{deep as under, round}
use Rattle.low.specs.Low.{◌>>=◌}
use Rattle.low.specs.declared.Line.{Line}
use Rattle.low.specs.declared.Kind.TheVariants as told
use Rattle.std.specs.declared.cmp.Ordering.TheVariants as order

-- the end (kati's own). Nothing else is [The End]
abbrev pub Ends : Line → Type 0
Ends line = let told = (under, other) in told.0 order.Less

-- one of two
unfoldable mutual
  pub other : Line → Type 0
  other line = do
    x ← line
    another round

  -- the second
  pub another : Line → Type 0
  another line = other line
"""
SEEN = """-- What is seen (top's own).

-- all
abbrev pub seen_of : Type 0
seen_of = round
"""
REFUSED = """-- What is refused (top's own).

-- a code
pub record Refuses : Type 0 where
  pub never : Type 0

abbrev pub never : Type 0
never = Type 0
"""
TREE = {
    "crates.txt": "# from below\nlow:\nkt_low_tests: low\ntop: low\nkati_host: top\nkati_program: top\n"
                  "kati_asked: top\n",
    "docs/DESIGN.md": "",
    "crates/kati_program/src/main.rt": PROGRAM.replace("NAME", "kati_on_host"),
    "crates/kati_asked/src/main.rt": PROGRAM.replace("NAME", "asked_on_host"),
    "crates/kati_host/src/files.rt": HOST,
    "crates/kati_host/src/output.rt": HOST,
    "crates/kati_host/src/words.rt": WORDS,
    "crates/low/src/lib.rt": TYPES,
    "crates/low/specs/Low.antt": LOW,
    "crates/low/specs/Prelude.antt": "-- Passes names on.\npub use Rattle.low.specs.Low.{deep, round, unused}\n",
    "crates/top/specs/Ends.antt": ENDS,
    "crates/top/specs/Seen.antt": SEEN,
    "crates/top/specs/Refused.antt": REFUSED,
    "crates/kt_low_tests/specs/Rows.antt": "-- Rows.\n\n-- a row\nabbrev pub row : Type 0\nrow = Type 0\n",
}
# By hand: what the contracts name, and what that names in turn.
TRUSTED = {"low.specs.Low": {"deep", "Shape", "◌>>=◌", "later"}, "top.specs.Ends": {"Ends", "other", "another"},
           "top.specs.Seen": {"seen_of"}, "top.specs.Refused": {"Refuses"}}
LINES = [
    "- the contract `kati_on_host` in `crates/kati_program/src/main.rt`: `Ends`",
    "- the ghost member `seen` in `crates/kati_host/src/output.rt`: `seen_of`", "| low | 1 | 4 | 9 |",
    "## low", "### `specs/Low`", "The lowest (low's own). 4 definitions, 9 lines.", "- `deep` (5): what is deep",
    "- `Shape` (13): a shape", "- `◌>>=◌` (19): steps, one after another", "## top", "### `specs/Refused`",
    'How it ends (GNU make manual, "Errors"). 3 definitions, 8 lines.',
    "- `Ends` (10): the end (kati's own) [The End]", "- `other` (15): one of two", "- `another` (21): the second",
    "The definitions name 1 type of code. They see each as a record of its fields, or as its variants.",
    "- low: `Line` in `lib.rt`", "The fields of these have 1 further type:",
    "- low: `Held` in `lib.rt`, seen as `List Byte`",
    "- std, 4: `List`, `Ordering`, `codes`, `◌++◌`",
]
WRONG = [
    ("a definition without a comment", "crates/low/specs/Low.antt", "-- what is deep\n", "",
     "no comment: deep in low.specs.Low, line 4"),
    ("a comment that needs another", "crates/low/specs/Low.antt", "-- a shape\n", "-- The same for a shape\n",
     "a comment that needs the one before it: Shape in low.specs.Low, line 13"),
    ("a module whose source isn't named", "crates/top/specs/Seen.antt", " (top's own)", "",
     "no section of a manual at the head of top.specs.Seen"),
    ("a contract under another name", "crates/kati_asked/src/main.rt", "fn asked_on_host", "fn asked",
     "crates/kati_asked/src/main.rt has no contract asked_on_host"),
    ("a ghost member under another name", "crates/kati_host/src/output.rt", "ghost seen", "ghost known",
     "crates/kati_host/src/output.rt has no ghost member seen"),
]
STALE = "docs/TRUSTED.md isn't what the definitions say: scripts/trusted_stated.py --write writes it"


def put(root, tree):
    """Writes the files of a tree below a folder."""
    for name, text in tree.items():
        path = root / name
        path.parent.mkdir(parents=True, exist_ok=True)
        path.write_text(text, encoding="utf-8")


class Trusted(unittest.TestCase):
    def setUp(self):
        room = tempfile.TemporaryDirectory(prefix="kati-test-")
        self.addCleanup(room.cleanup)
        self.root = Path(room.name)
        put(self.root, TREE)

    def run_script(self, *words, status):
        """What the script prints, which has to end with the status."""
        done = subprocess.run([sys.executable, "-B", SCRIPT, "--root", self.root, *words], stdout=subprocess.PIPE,
                              stderr=subprocess.STDOUT, encoding="utf-8", check=False)
        self.assertEqual(done.returncode, status, done.stdout)
        return done.stdout.splitlines()

    def test_each_name_is_followed(self):
        found = importlib.import_module("trusted.listing").listing_of(self.root)
        names = {}
        for one in found.definitions():
            names.setdefault(one.module, set()).add(one.name)
        self.assertEqual(names, TRUSTED)
        self.assertEqual(found.named, {("low", "Line")})
        self.assertEqual(found.held, {("low", "Held")})

    def test_the_document(self):
        self.run_script("--write", status=0)
        text = (self.root / "docs/TRUSTED.md").read_text(encoding="utf-8")
        at = 0
        for line in LINES:
            with self.subTest(line):
                self.assertIn(f"\n{line}\n", text[at:])
            at = text.find(f"\n{line}\n", at) + 1
        self.assertIn("rests on: 9 of\n11, which are 21 of 25 lines.", text)
        self.assertLessEqual(max(map(len, text.splitlines())), 120)

    def test_what_is_counted(self):
        told = "9 definitions, 21 lines, 1 type, 1 type in their fields, 4 words"
        self.assertEqual(self.run_script("--count", status=0), [told])

    def test_a_document_that_is_compared(self):
        self.assertEqual(self.run_script(status=1), [STALE])
        self.run_script("--write", status=0)
        self.assertEqual(self.run_script(status=0), [])
        put(self.root, {"crates/low/specs/Low.antt": LOW.replace("what is deep", "what is deeper")})
        self.assertEqual(self.run_script(status=1), [STALE])
        self.run_script("--wrong", status=64)

    def test_what_is_not_listed_changes_nothing(self):
        self.run_script("--write", status=0)
        put(self.root, {"crates/kt_low_tests/specs/Rows.antt": "-- Rows.\n",
                        "crates/low/specs/Prelude.antt": TREE["crates/low/specs/Prelude.antt"] + "\n"})
        self.assertEqual(self.run_script(status=0), [])

    def test_what_the_list_needs(self):
        for what, name, old, new, told in WRONG:
            with self.subTest(what):
                self.assertEqual(TREE[name].count(old), 1)
                put(self.root, {**TREE, name: TREE[name].replace(old, new)})
                self.run_script("--write", status=1)
                self.assertEqual(self.run_script(status=1), [told])


if __name__ == "__main__":
    unittest.main()
