"""scripts/wrong_bodies.py, with a program that stands for the toolchain: what counts as refused."""
import collections
import importlib
import os
import re
import shutil
import sys
import unittest

from support import TOP, Tree, needs

# It reads the crate's one file as a prover would. A line with WRONG fails a goal of its function. In a cycle each of
# its functions is blamed then. Of `by_hand` any line that isn't as it was has an answer fail; but for one with QUIET.
PROVER = """
import re, sys
text = open("src/lib.rt").read()
with open("../../../log", "a+") as log:
    log.write(str(text.count("WRONG") + text.count("SAME")) + "\\n")
    log.seek(0)
    asked = len(log.readlines())
if "STUCK" in text and asked <= 20:
    sys.exit(1)
if "NONSENSE" in text:
    print("error: src/lib.rt:%d:1: expected `;`" % (text[:text.index("NONSENSE")].count("\\n") + 1))
    sys.exit(1)
bodies = re.findall(r"(#\\[cycle\\(round\\)\\]\\n)?pub fn (\\w+)\\(\\) {\\n(.*?)^}", text, re.MULTILINE | re.DOTALL)
wrong = {name for _, name, body in bodies if "WRONG" in body}
cycle = {name for is_in, name, _ in bodies if is_in}
wrong |= cycle if wrong & cycle else set()
for _, name, body in bodies:
    if name == "by_hand" and body != "    by_hand_is\\n" and "QUIET" not in body:
        print("./proofs/by_hand/Answers.antt:1:1: error: no such branch")
    print("fn demo::%s: %s" % (name, "did not prove ensures; else" if name in wrong else "proved"))
print("logic=trusted")
"""
CODE = """\
pub fn plain() {
    as_it_was
}

pub fn other() {
    as_it_is
}

#[cycle(round)]
pub fn first() {
    one
}

#[cycle(round)]
pub fn second() {
    two
}

pub fn by_hand() {
    by_hand_is
}

#[tactic(auto, using(crate::proofs::Lemmas::one))]
pub fn by_lemmas() {
    by_lemmas_is
}
"""


@needs("git")
class WrongBodies(Tree):
    """A repository with one crate."""

    def setUp(self):
        super().setUp()
        shutil.copytree(TOP / "scripts/bodies", self.top / "scripts/bodies",
                        ignore=shutil.ignore_patterns("__pycache__"))
        shutil.copy2(TOP / "scripts/wrong_bodies.py", self.top / "scripts")
        self.put_all({"crates.txt": "demo:\n", "crates/demo/src/lib.rt": CODE,
                      "crates/demo/proofs/by_hand/Answers.antt": "by_hand-returns : goal.by_hand-returns\n"})
        (self.top.parent / "bin").mkdir()
        (self.top.parent / "prover.py").write_text(PROVER)
        self.program("bin/rt", f'exec "{sys.executable}" "{self.top.parent}/prover.py"')
        self.run_in("git", "init", "-q", ".")

    def edit(self, name, old, new, ending="edit", folder="wrong-bodies"):
        self.put(f"crates/demo/{folder}/{name}.{ending}", f"file: src/lib.rt\nold: {old}\nnew: {new}\n")

    def tried(self, *words, status):
        """What is printed of the edits, in order, and last of the crate, without the minutes."""
        path = f"{self.top.parent / 'bin'}:{os.environ['PATH']}"
        temporary = self.top.parent / "rooms"
        temporary.mkdir(exist_ok=True)
        ran = self.run_in(sys.executable, "-B", "scripts/wrong_bodies.py", *words, PATH=path, TMPDIR=str(temporary))
        self.assertEqual(ran.status, status, ran.all)
        self.assertEqual(os.listdir(temporary), ["log"])
        return [line.rpartition(", ")[0] if "rounds" in line else line for line in ran.out.splitlines()]

    def test_each_outcome(self):
        self.edit("a_refused", "    as_it_was", "    WRONG")
        self.edit("b_through", "    as_it_is", "    SAME")
        self.edit("c_nonsense", "    as_it_is", "    NONSENSE")
        self.edit("d_absent", "not there", "x")
        self.assertEqual(self.tried(status=1), [
            "demo a_refused: refused (goal ensures)", "demo b_through: let through (proved)",
            "demo c_nonsense: no refusal (doesn't compile)",
            "demo d_absent: no refusal (an old text doesn't stand once)",
            "demo: 4 edits, 1 refused, 0 without evidence, 2 rounds"])

    def test_an_edit_of_a_cycle_is_tried_alone(self):
        self.edit("a_right", "    one", "    SAME")
        self.edit("b_wrong", "    two", "    WRONG")
        self.edit("c_plain", "    as_it_was", "    WRONG")
        # Beside b_wrong the goal of that would have blamed a_right.
        self.assertEqual(self.tried(status=1), [
            "demo a_right: let through (proved)", "demo b_wrong: refused (goal ensures)",
            "demo c_plain: refused (goal ensures)", "demo: 3 edits, 2 refused, 0 without evidence, 3 rounds"])
        self.assertEqual((self.top.parent / "rooms/log").read_text().split(), ["1", "1", "1"])

    def test_one_without_a_verdict_is_found_by_halves(self):
        self.edit("a_wrong", "    as_it_was", "    WRONG")
        self.edit("b_stuck", "    as_it_is", "    STUCK")
        self.edit("c_wrong", "    by_hand_is", "    WRONG")
        self.assertEqual(self.tried(status=1), [
            "demo a_wrong: refused (goal ensures)", "demo b_stuck: no refusal (the check gave no verdict)",
            "demo c_wrong: refused (goal ensures)", "demo: 3 edits, 2 refused, 0 without evidence, 5 rounds"])

    def test_answers_by_hand_want_a_control(self):
        why = "answer: no such branch"
        self.edit("wrong", "    by_hand_is", "    other")
        # It has the shape of the code, which is proved.
        self.assertEqual(self.tried(status=0)[0], f"demo wrong: refused ({why})")
        # What stands in a text is no branch.
        self.edit("wrong", "    by_hand_is", '    other b" || if (" b\'|\'')
        self.assertEqual(self.tried(status=0)[0], f"demo wrong: refused ({why})")
        self.edit("wrong", "    by_hand_is", "    if other { x }")
        self.assertEqual(self.tried(status=1)[0],
                         f"demo wrong: no evidence (proved by hand, and no control is beside it; {why})")
        # A control that is refused as well shows that the shape is enough.
        self.edit("wrong", "    by_hand_is", "    if SAME { x }", "control")
        self.assertEqual(self.tried(status=1)[0], f"demo wrong: no evidence (its control: refused; {why})")
        self.edit("wrong", "    as_it_was", "    SAME", "control")
        self.assertEqual(self.tried(status=1)[0],
                         f"demo wrong: no evidence (its control changes another function; {why})")
        self.edit("wrong", "    by_hand_is", "    if SAME { QUIET }", "control")
        self.assertEqual(self.tried(status=0), [f"demo wrong: refused ({why})",
                                                "demo: 1 edits, 1 refused, 0 without evidence, 2 rounds"])

    def test_lemmas_of_an_attribute_want_a_control(self):
        self.edit("wrong", "    by_lemmas_is", "    WRONG")
        self.assertEqual(self.tried(status=0)[0], "demo wrong: refused (goal ensures)")
        self.edit("wrong", "    by_lemmas_is", "    if WRONG { x }")
        why = "proved by named lemmas, and no control is beside it; goal ensures"
        self.assertEqual(self.tried(status=1)[0], f"demo wrong: no evidence ({why})")
        self.edit("wrong", "    by_lemmas_is", "    if SAME { x }", "control")
        self.assertEqual(self.tried(status=0)[0], "demo wrong: refused (goal ensures)")

    def test_what_loops_keep_wants_a_control(self):
        self.edit("wrong", "    as_it_was", "    if WRONG { x }")
        # A refusal under plain `auto` counts.
        self.assertEqual(self.tried(status=0)[0], "demo wrong: refused (goal ensures)")
        self.put("crates/demo/proofs/plain/Invariants.antt", "invariant-loop : goal.invariant-loop\n")
        why = "no evidence (proved by hand, and no control is beside it; goal ensures)"
        self.assertEqual(self.tried(status=1)[0], f"demo wrong: {why}")
        self.edit("wrong", "    one", "    if WRONG { x }")
        self.put("crates/demo/proofs/+round/Invariants.antt", "decreases-first : goal.decreases-first\n")
        # That calls go down is asked of every body; what a loop keeps is written for one.
        self.assertEqual(self.tried(status=0)[0], "demo wrong: refused (goal ensures)")
        self.put("crates/demo/proofs/+round/Invariants.antt", "invariant-first-loop : goal.invariant-first-loop\n")
        self.assertEqual(self.tried(status=1)[0], f"demo wrong: {why}")

    def test_controls_stand_in_one_folder(self):
        self.edit("wrong", "    by_hand_is", "    if other { x }", folder="must-fail")
        self.edit("wrong", "    by_hand_is", "    if SAME { QUIET }", "control")
        self.assertEqual(self.tried("--must-fail", status=0)[-1],
                         "demo: 1 edits, 1 refused, 0 without evidence, 2 rounds")

    def test_must_fail_holds_edits_alone(self):
        # The gate takes any other file there for an edit that can't be applied.
        others = [path for path in (TOP / "crates").glob("*/must-fail/*") if path.suffix not in (".edit", ".md")]
        self.assertEqual(others, [])

    def test_counts_are_kept(self):
        self.edit("right", "    as_it_is", "    SAME")
        self.edit("wrong", "    as_it_was", "    WRONG")
        self.put("scripts/wrong_bodies.txt", "# old\ndemo 9 9 9 9 9 9\n    gone: let through ()\nother 1 1 0 0 0 1\n")
        self.tried("--record", status=1)
        lines = self.read("scripts/wrong_bodies.txt").splitlines()
        self.assertEqual([line for line in lines if not line.startswith("#")],
                         ["demo 2 1 0 1 0 1", "    right: let through (proved)", "other 1 1 0 0 0 1"])
        self.assertEqual(self.tried("--record", "--only", "right", status=2), [])


class Recorded(unittest.TestCase):
    """scripts/wrong_bodies.txt beside the edits of the repository."""

    def setUp(self):
        sys.path.append(str(TOP / "scripts"))
        self.addCleanup(sys.path.remove, str(TOP / "scripts"))
        counts = importlib.import_module("bodies.counts")
        self.rows = counts.rows_of((TOP / "scripts/wrong_bodies.txt").read_text())

    def test_each_crate_has_a_row_for_all_of_its_edits(self):
        edits = [path for folder in ("wrong-bodies", "must-fail") for path in TOP.glob(f"crates/*/{folder}/*.edit")]
        found = collections.Counter(path.parent.parent.name for path in edits)
        self.assertEqual({crate: int(lines[0].split()[1]) for crate, lines in self.rows.items()}, found)

    def test_the_document_names_each_edit_that_is_not_refused(self):
        document = (TOP / "docs/DEVELOPING.md").read_text()
        for crate, (counts, *others) in self.rows.items():
            with self.subTest(crate):
                tried, refused = map(int, counts.split()[1:3])
                self.assertEqual(tried - refused, len(others))
                rows = " ".join(re.findall(rf"^\| {crate} \| (`.*`) \|$", document, re.MULTILINE))
                for name in (line.split(":")[0].strip() for line in others):
                    self.assertTrue(f"(`{name}` of {crate})" in document or f"`{name}`" in rows, name)
