"""scripts/quick_clauses.py lists the clauses that go one way, and knows a label that doesn't say so."""
import subprocess
import sys
import tempfile
import unittest
from pathlib import Path

from support import TOP

SCRIPT = TOP / "scripts/quick_clauses.py"

LOW = """//! Names.

impl<'a> Names<'a> {
    /// Its number.
    #[inline]
    pub fn number_in(&self, name: &[u8]) -> Option<usize>
        requires { 0 < length name.now }
        ensures quick { IfSome result (λ number. slice_get self.now number
            ≡ Some name.now) }
    {
        None
    }

    // Whether a name comes next.
    fn is_next(&self) -> bool
        ensures quick_place { result ≡ true → self.now ≡ [] }
        ensures quick_text { IsTrue result → self.now ≡ [] }
        ensures same { self.new ≡ self.old }
    {
        false
    }

    // Remembers a name.
    // Idle: does nothing.
    fn remember(&mut self)
        ensures quick_kept { Keeps self.old self.new }
    {
    }

    fn plain(&self) -> bool {
        true
    }
}

fn may_end(text: &[u8]) -> bool
    ensures quick { result ≡ false → text.now ≡ [] }
{
    true
}

fn may_begin(text: &[u8]) -> bool
    ensures quick { is_some (first text.now) ≡ true → result ≡ true }
{
    true
}

fn known(text: &[u8]) -> Option<u8>
    ensures quick { (names : List Text) → Has names text.now → IfSome result (λ byte. byte ≡ 0) }
{
    None
}

fn put(text: &[u8]) -> Result<bool, AllocError>
    ensures quick_filled { IfOk result (λ known. known ≡ true → text.now ≡ []) }
{
    Ok(false)
}

fn texts(text: &[u8]) -> Result<Option<u8>, AllocError>
    ensures quick { IfOk result (λ found. IfSome found (λ byte. byte ≡ 0)) }
{
    Ok(None)
}

fn is_empty(text: &[u8]) -> bool
    ensures yes { result ≡ true → text.now ≡ [] }
    ensures no { result ≡ false → 0 < length text.now }
{
    text.is_empty()
}

fn first(text: &[u8]) -> Option<&u8>
    ensures { result ≡ head text.now }
    ensures within { IfSome result (λ _. 0 < length text.now) }
{
    text.first()
}
"""
TESTS = """fn numbers(names: &Names) {
    names.number_in(b"a");
}

#[test]
fn tells_numbers(rt: HostRuntime) {
    numbers(&names);
}

// What `may_end` tells.
// Nothing else.
#[test]
fn tells_ends(rt: HostRuntime) {
}

#[test]
fn has_none(rt: HostRuntime) {
    may_begin();
}
"""
TREE = {"crates.txt": "low:\nlow_tests: low\n", "crates/low/src/names.rt": LOW, "crates/low_tests/src/lib.rt": TESTS}
ROWS = """\
| low | `names.rt` | `Names::number_in` | `quick` | `None` | `tells_numbers` |
| low | `names.rt` | `Names::is_next` | `quick_place`, `quick_text` | `false` | |
| low | `names.rt` | `Names::remember` | `quick_kept` | does nothing | |
| low | `names.rt` | `may_end` | `quick` | `true` | `tells_ends` |
| low | `names.rt` | `may_begin` | `quick` | `true` | |
| low | `names.rt` | `known` | `quick` | `None` | |
| low | `names.rt` | `put` | `quick_filled` | `Ok(false)` | |
| low | `names.rt` | `texts` | `quick` | `Ok(None)` | |
"""
PLACE = "crates/low/src/names.rt: "
NO_LABEL = " has a clause that goes one way, whose label doesn't begin with quick"
WRITES = "scripts/quick_clauses.py --write writes docs/QUICK.md"
WRONG = [
    ("a clause without a label", "ensures quick { result ≡ false", "ensures { result ≡ false",
     [PLACE + "may_end" + NO_LABEL, "of no label: | low | `names.rt` | `may_end` | `quick` | `true` | `tells_ends` |",
      WRITES]),
    ("another label", "ensures quick_filled", "ensures filled",
     [PLACE + "put" + NO_LABEL, "of no label: | low | `names.rt` | `put` | `quick_filled` | `Ok(false)` | |", WRITES]),
    ("one of two labels", "ensures yes { result ≡ true → text.now ≡ [] }\n    ensures no {",
     "ensures quick { result ≡ false → 0 < 1 }\n    ensures no {",
     [PLACE + "is_empty" + NO_LABEL, "not in docs/QUICK.md: | low | `names.rt` | `is_empty` | `quick` | `true` | |",
      WRITES]),
    ("a clause that doesn't tell the idle body", "    // Idle: does nothing.\n", "",
     [PLACE + "Names::remember: nothing tells what an idle body is",
      "not in docs/QUICK.md: | low | `names.rt` | `Names::remember` | `quick_kept` | | |",
      "of no label: | low | `names.rt` | `Names::remember` | `quick_kept` | does nothing | |", WRITES]),
    ("a new label", "ensures { result ≡ head text.now }", "ensures quick_head { IfSome result (IsIn text.now) }",
     [PLACE + "first" + NO_LABEL, "not in docs/QUICK.md: | low | `names.rt` | `first` | `quick_head` | `None` | |",
      WRITES]),
]


class Labels(unittest.TestCase):
    def setUp(self):
        room = tempfile.TemporaryDirectory(prefix="kati-test-")
        self.addCleanup(room.cleanup)
        self.root = Path(room.name)
        for name, text in TREE.items():
            path = self.root / name
            path.parent.mkdir(parents=True, exist_ok=True)
            path.write_text(text, encoding="utf-8")
        (self.root / "docs").mkdir()

    def run_script(self, *words, status):
        """What the script prints, which has to end with the status."""
        done = subprocess.run([sys.executable, "-B", SCRIPT, "--root", self.root, *words], stdout=subprocess.PIPE,
                              stderr=subprocess.STDOUT, encoding="utf-8", check=False)
        self.assertEqual(done.returncode, status, done.stdout)
        return done.stdout.splitlines()

    def test_the_document(self):
        self.assertEqual(self.run_script(status=1)[-1], WRITES)
        self.assertEqual(self.run_script("--write", status=0), [])
        self.assertEqual(self.run_script(status=0), [])
        text = (self.root / "docs/QUICK.md").read_text(encoding="utf-8")
        self.assertTrue(text.endswith("|---|---|---|---|---|---|\n" + ROWS), text)

    def test_what_is_wrong(self):
        self.run_script("--write", status=0)
        path = self.root / "crates/low/src/names.rt"
        for what, old, new, wanted in WRONG:
            with self.subTest(what):
                self.assertEqual(LOW.count(old), 1)
                path.write_text(LOW.replace(old, new), encoding="utf-8")
                self.assertEqual(self.run_script(status=1), wanted)

    def test_a_test_that_is_called_no_more(self):
        self.run_script("--write", status=0)
        path = self.root / "crates/low_tests/src/lib.rt"
        path.write_text(TESTS.replace("numbers(&names);", "other(&names);"), encoding="utf-8")
        self.assertEqual(self.run_script(status=1)[0],
                         "not in docs/QUICK.md: | low | `names.rt` | `Names::number_in` | `quick` | `None` | |")

    def test_wrong_usage(self):
        self.run_script("--wrong", status=64)


if __name__ == "__main__":
    unittest.main()
