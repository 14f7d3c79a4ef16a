"""scripts/check_docs.py finds what it is for: each test spoils one thing in a copy of the repository."""
import os
import re
import shutil
import subprocess
import sys
import tempfile
import unittest
from pathlib import Path

ROOT = Path(__file__).resolve().parent.parent.parent
KATI = Path(os.environ.get("KATI") or ROOT / "crates/kati_program/out/kati_program").resolve()
KATI_ASKED = Path(os.environ.get("KATI_ASKED") or ROOT / "crates/kati_asked/out/kati_asked").resolve()
PROGRAMS = [program for program in (KATI, KATI_ASKED) if program.is_file()]
IS_COMPLETE = len(PROGRAMS) == 2 and shutil.which("ninja") and shutil.which("cc")
SKIPS = unittest.skipUnless(IS_COMPLETE, "not there: kati, kati-asked, ninja or cc")


class Spoiling(unittest.TestCase):
    @classmethod
    def setUpClass(cls):
        cls.whole = Path(tempfile.mkdtemp(prefix="kati-test-"))
        cls.addClassCleanup(shutil.rmtree, cls.whole)
        left_out = shutil.ignore_patterns("out", ".git", "__pycache__", "*.edit")
        shutil.copytree(ROOT, cls.whole / "as_it_is", symlinks=True, ignore=left_out)

    def setUp(self):
        self.root = self.whole / self.id().rpartition(".")[2]
        # Links are quicker than copies; what is spoiled becomes a file of its own.
        shutil.copytree(self.whole / "as_it_is", self.root, symlinks=True, copy_function=os.link)

    def spoil(self, name, old, new):
        """Puts a text in the place of another, which has to be there."""
        path = self.root / name
        text = path.read_text(encoding="utf-8")
        self.assertIn(old, text)
        path.unlink()
        path.write_text(text.replace(old, new, 1), encoding="utf-8")

    def check(self, *checks, failed):
        """Runs the script, which has to fail so often, and answers what it said."""
        words = ["--root", self.root, "--kati", KATI, "--kati-asked", KATI_ASKED, *checks]
        done = subprocess.run([sys.executable, "-B", ROOT / "scripts/check_docs.py", *words], stdout=subprocess.PIPE,
                              stderr=subprocess.STDOUT, text=True, check=False)
        last = done.stdout.splitlines()[-1]
        self.assertRegex(last, r"^\d+ passed, \d+ failed(, \d+ skipped)?$", done.stdout)
        self.assertEqual(int(re.search(r"(\d+) failed", last).group(1)), failed, done.stdout)
        self.assertEqual(done.returncode, 1 if failed else 0)
        return done.stdout

    def test_as_it_is(self):
        self.check("options", "cases", "calls", "files", "specs", "walk", "shapes", "names", "crates", "lemmas",
                   "closed", "lines", "sizes", "gate", "picture", "tricks", "quick", "diagrams", "trusted",
                   failed=0)

    def test_an_option_that_only_the_code_has(self):
        self.spoil("crates/kati_args/src/command.rt", '.long("depth")', '.long("deep")')
        # docs/LANGUAGE.md; the help, the manual page and the completion for bash of both programs; zsh and fish.
        self.assertIn("--deep", self.check("options", failed=7 + len(PROGRAMS)))

    def test_an_option_that_a_manual_page_lacks(self):
        self.spoil("share/man/man1/kati-build.1", ".TP\n.B \\-\\-deps\n", ".TP\n.B deps\n")
        self.assertIn("kati-build and of its manual page differ: --deps", self.check("options", failed=1))

    def test_an_option_that_the_page_of_the_second_program_lacks(self):
        self.spoil("share/man/man1/kati-asked.1", ".BI \\-\\-depth", ".BI \\-\\-deep")
        self.assertIn("kati-asked and of its manual page differ: --deep, --depth", self.check("options", failed=1))

    def test_an_option_that_a_completion_lacks(self):
        self.spoil("share/fish/vendor_completions.d/kati.fish", "-l check ", "-l chek ")
        self.assertIn("--check, --chek", self.check("options", failed=1))

    def test_a_fault_that_the_language_lacks(self):
        self.spoil("docs/LANGUAGE.md", "| E36 |", "| E37 |")
        self.assertIn("E36, E37", self.check("faults", failed=2 if KATI.is_file() else 1))

    @unittest.skipUnless(KATI.is_file(), "not there: kati")
    def test_an_example_of_another_fault(self):
        row = "`endif` outside a conditional | "
        self.spoil("docs/LANGUAGE.md", row + "`endif` |", row + "`endef` |")
        self.assertIn("the example of E11", self.check("faults", failed=1))

    def test_a_makefile_that_is_not_its_case(self):
        self.spoil("docs/PORTING.md", "VPATH = src\n", "VPATH = source\n")
        self.check("cases", failed=1)

    def test_two_cases_of_one_name(self):
        self.spoil("crates/kati_cases/data/worked.cases", "case one rule\n", "case empty makefile\n")
        self.assertIn("    empty makefile\n", self.check("cases", failed=1))

    def test_a_call_without_a_test(self):
        tests = "crates/kt_text_tests/src/calls.rt"
        self.spoil(tests, 'functions::findstring(rt.alloc(), b"a", b"a b c")', 'b"a"')
        self.spoil(tests, 'functions::findstring(rt.alloc(), b"a", b"b c")', 'b""')
        said = self.check("calls", failed=1)
        self.assertIn("    kt_text: no test calls findstring\n", said)
        self.assertIn("    docs/TESTS.md is not current", said)

    def test_tests_that_are_written_anew(self):
        self.spoil("docs/TESTS.md", "`needles_are_found`", "`needles_are_lost`")
        self.check("calls", failed=1)
        self.is_written_by("tested_calls.py", "docs/TESTS.md")

    def test_a_method_and_a_function_of_one_name(self):
        # MemSink::new is called by its type; the many other calls of a `new` do not count.
        self.spoil("crates/kt_ninja_tests/src/writing.rt", "MemSink::new(", "OtherSink::new(")
        self.assertIn("docs/TESTS.md is not current", self.check("calls", failed=1))

    def test_a_file_that_is_not_there(self):
        self.spoil("docs/DEVELOPING.md", "scripts/run_cases.py", "scripts/walk_cases.py")
        self.assertIn("scripts/walk_cases.py", self.check("files", failed=1))

    def test_a_definition_that_is_not_there(self):
        proofs = self.root / "docs/PROOFS.md"
        proofs.unlink()
        self.spoil("docs/DESIGN.md", "`specs/FaultKinds.antt`", "`specs/FaultKindz.antt`")
        said = self.check("specs", failed=1)
        self.assertIn("docs/DESIGN.md names definitions that do not exist: specs/FaultKindz.antt\n", said)

    def test_a_definition_of_another_crate(self):
        self.spoil("docs/PROOFS.md", "`specs/RuleLine.antt`", "`specs/NinjaRead.antt`")
        self.assertIn("specs/NinjaRead.antt of kt_rules", self.check("specs", failed=1))

    def test_a_walk_that_goes_elsewhere(self):
        for old, new, said in (("`line_marks`, kt_text `logical.rt`", "`line_marks`, kt_text `cut.rt`",
                                "line_marks, kt_text cut.rt"),
                               ("| `blocks_of` in `Blocks`", "| `blocks_of` in `Kinds`", "blocks_of in Kinds"),
                               ("- **kt_text**: `Sorted` (", "- **kt_text**: `Sorts` (", "Sorts of kt_text")):
            self.spoil("docs/DESIGN.md", old, new)
            self.assertIn(f"    {said}\n", self.check("walk", failed=1))

    def test_a_shape_of_a_rule_that_is_no_type(self):
        for old, new, crate in (("| `RuleParts` |", "| `RuleHalves` |", "kt_syntax"),
                                ("(`RuleNumbers`, ", "(`RuleDigits`, ", "kt_rules"),
                                ("`TargetView`, `NeedsView` |", "`TargetView`, `NeedsLook` |", "kt_rules")):
            name = re.search(r"`(\w+)`[^`]*$", new).group(1)
            self.spoil("docs/DESIGN.md", old, new)
            self.assertIn(f"    {crate} has no type {name}", self.check("shapes", failed=1))

    def test_a_list_of_shapes_that_is_gone(self):
        self.spoil("docs/DESIGN.md", "### A rule, shape by shape", "### A rule")
        self.assertIn("    docs/DESIGN.md has no list below ### A rule, shape by shape", self.check("shapes", failed=1))

    def test_names_with_two_meanings(self):
        for name, old, new, said in (
                ("crates/kt_syntax/specs/views/Terms.antt", "pub byte_count :", "pub place_of :", "place_of: kt_list"),
                ("crates/kati_args/src/args.rt", "struct MacroWord", "struct LineText", "LineText: kati_args src/args"),
                ("crates/kt_eval/specs/expanding/Calls.antt", "pub data Request :", "pub data Joint :",
                 "Joint: kt_eval specs/expanding/Calls.antt, kt_syntax src/recipe.rt")):
            self.spoil(name, old, new)
            self.assertIn(f"    {said}", self.check("names", failed=1))

    def test_a_crate_that_stands_on_another_one(self):
        self.spoil("crates.txt", "kati_args: kt_list kt_text clap", "kati_args: kt_text kt_list kt_rules clap")
        self.assertIn("kati_args: kt_list kt_rules kt_text | kt_list kt_text\n", self.check("crates", failed=1))

    def test_a_crate_that_stands_on_laws(self):
        self.spoil("crates.txt", "kati_args: kt_list kt_text clap", "kati_args: kt_list kt_text kt_text_laws clap")
        self.assertIn("    kati_args: it stands on laws: kt_text_laws\n", self.check("crates", failed=1))

    def test_a_lemma_that_no_proof_of_code_needs(self):
        # In a block, so that its head belongs to it; and one by which a law alone is proved.
        lemmas, block = "crates/kt_text/proofs/lemmas/GroupLemmas.antt", "module _ {A : Type 0}\n    (a : A) where\n"
        self.spoil(lemmas, "-- ", block + "  pub spare : a ≡ a\n  spare = refl\n\n-- ")
        self.assertIn("    kt_text: spare in proofs/lemmas/GroupLemmas.antt\n", self.check("lemmas", failed=1))
        answers = self.root / "crates/kt_text/proofs/laws/spare/Answers.antt"
        answers.parent.mkdir(parents=True)
        answers.write_text("use Rattle.kt_text.proofs.lemmas.GroupLemmas.{spare}\n", encoding="utf-8")
        self.assertIn("    kt_text: spare in proofs/lemmas/GroupLemmas.antt\n", self.check("lemmas", failed=1))
        # The laws on limits are by the code.
        answers.parent.rename(answers.parent.with_name("one_deeper"))
        self.check("lemmas", failed=0)

    def test_a_lemma_that_an_attribute_needs_by_another(self):
        one = "spare : ℕ\nspare = 1\n\npub nearer : ℕ\nnearer = spare\n\n-- "
        self.spoil("crates/kt_text/proofs/lemmas/GroupLemmas.antt", "-- ", one)
        said = self.check("lemmas", failed=1)
        self.assertEqual(re.findall(r"^    kt_text: (\w+) in", said, re.MULTILINE), ["spare", "nearer"])
        self.spoil("crates/kt_text/src/logical.rt", "PhysicalLemmas::nul_places", "GroupLemmas::nearer")
        self.assertEqual(self.check("lemmas", failed=1).count("GroupLemmas"), 0)

    def test_a_trusted_module_that_imports_a_view(self):
        self.spoil("crates/kt_text/specs/Prelude.antt", "pub use ",
                   "pub use Rattle.kt_text.specs.views.Words.{put_word}\npub use ")
        self.assertIn("    kt_text specs/Prelude imports kt_text specs/views/Words\n", self.check("closed", failed=1))

    def test_a_view_that_imports_what_is_private(self):
        self.spoil("crates/kt_text/specs/views/Words.antt", "use ",
                   "use Rattle.kt_text.specs.inner.Sure as sure\nuse ")
        self.assertIn("    kt_text specs/views/Words imports kt_text specs/inner/Sure\n",
                      self.check("closed", failed=1))

    def test_a_definition_that_the_promise_does_not_need(self):
        self.spoil("crates/kati/specs/Exits.antt", "usage_code = 64\n",
                   "usage_code = 64\n\n-- the largest\nabbrev pub largest : ℕ\nlargest = 9\n")
        said = self.check("closed", failed=1)
        self.assertIn("    largest in kati specs/Exits: the promise does not rest on it\n", said)
        self.spoil("crates/kati/specs/Exits.antt", "code_of statuses.Done = 0", "code_of statuses.Done = largest")
        self.check("closed", failed=0)

    def test_a_definition_of_a_view_that_the_promise_needs(self):
        self.spoil("crates/kati_program/src/main.rt", "ghost use ",
                   "ghost use Rattle.kt_text.specs.views.Words.{put_word};\nghost use ")
        self.check("closed", failed=0)
        self.spoil("crates/kati_program/src/main.rt", "ensures { ", "ensures { put_word ")
        self.assertIn("    put_word in kt_text specs/views/Words: the promise rests on it\n",
                      self.check("closed", failed=1))

    def test_a_crate_that_uses_what_is_private_to_another(self):
        self.spoil("crates/kt_syntax/src/own.rt", "ghost use ",
                   "ghost use Rattle.kt_text.specs.inner.Sure.{IsSure};\nghost use ")
        self.spoil("crates/kt_text_laws/src/lib.rt", "//! ",
                   "// by kt_text::specs::inner::Marks::HasMarks\n//! ")
        self.spoil("crates/kt_text/src/mark.rt", "ghost use ",
                   "ghost use Rattle.kt_text.specs.inner.Sure.{IsSure};\nghost use ")
        said = self.check("closed", failed=1)
        self.assertEqual(re.findall(r"^    (\S+) uses (.*)$", said, re.MULTILINE),
                         [("kt_syntax/src/own.rt", "kt_text specs/inner/Sure"),
                          ("kt_text_laws/src/lib.rt", "kt_text specs/inner/Marks/HasMarks")])

    def test_a_crate_that_the_table_lacks(self):
        self.spoil("docs/DESIGN.md", "| kati_host | the host's", "| kati_hosts | the host's")
        said = self.check("crates", failed=1)
        self.assertIn("    kati_host: kati kt_eval kt_history kt_list kt_ninja | \n", said)
        self.assertIn("    kati_hosts:  | kati kt_eval kt_history kt_list kt_ninja\n", said)

    def test_a_link_that_leads_nowhere(self):
        self.spoil("docs/PORTING.md", "](#override)", "](#overriding)")
        self.assertIn("#overriding", self.check("files", failed=1))

    def test_a_long_line(self):
        self.spoil("README.md", "\n\n", "\n\n" + "x " * 61 + "\n\n")
        self.assertIn("README.md has lines", self.check("lines", failed=1))

    @SKIPS
    def test_an_example_that_prints_something_else(self):
        self.spoil("README.md", "-o prog main.o list.o'\n```", "-o prog list.o main.o'\n```")
        self.assertIn("-o prog main.o list.o'", self.check("examples", failed=1))

    @SKIPS
    def test_an_example_that_prints_nothing(self):
        self.spoil("docs/USING.md", "$ kati-compare\nsame: 3 commands", "$ kati-compare > log\nsame: 3 commands")
        self.check("examples", failed=1)

    def test_a_script_without_help(self):
        self.spoil("scripts/make_deb.py", "exit status:", "ends:")
        self.assertIn("make_deb.py --help: status 0, without exit status", self.check("scripts", failed=1))

    def test_a_script_that_no_document_lists(self):
        self.spoil("docs/DEVELOPING.md", "| `scripts/make_deb.py` |", "| `make deb` |")
        self.assertIn("docs/DEVELOPING.md differ: scripts/make_deb.py\n", self.check("scripts", failed=1))

    def test_a_gate_that_readme_does_not_name(self):
        self.spoil("README.md", "$ make check", "$ .ci/run")
        self.check("gate", failed=1)

    def test_a_picture_of_other_figures(self):
        self.spoil("docs/times.svg", "</svg>", "</svg >")
        self.assertIn("docs/times.svg", self.check("picture", failed=1))

    def test_a_trick_that_the_table_lacks(self):
        self.spoil("crates/kt_list/src/names.rt", "hashed in one write. Spares", "hashed. Spares")
        said = self.check("tricks", failed=1)
        names = "| the names lie one after another in one vector, and a name is hashed"
        self.assertIn(f"    not in docs/TRICKS.md: {names} | 40 bytes", said)
        self.assertIn(f"    in no head: {names} in one write | 40 bytes", said)

    def test_a_trick_that_does_not_say_what_it_spares(self):
        self.spoil("crates/kt_list/src/names.rt", ". Spares ", ", which spares ")
        self.assertIn("    crates/kt_list/src/names.rt: //! Fast: the names lie", self.check("tricks", failed=1))

    def is_written_by(self, script, name):
        """Whether a script says that a document is not current, and writes it as it is in the repository."""
        words = [sys.executable, "-B", ROOT / "scripts" / script, "--root", self.root]
        variables = {name: os.environ[name] for name in ("PATH", "HOME") if name in os.environ}
        for more, status in (([], 1), (["--write"], 0), ([], 0), (["--wrong"], 64)):
            with self.subTest(more):
                done = subprocess.run(words + more, env=variables, stdout=subprocess.PIPE, stderr=subprocess.STDOUT)
                self.assertEqual(done.returncode, status, done.stdout)
        self.assertEqual((self.root / name).read_bytes(), (ROOT / name).read_bytes())

    def test_tricks_that_are_written_anew(self):
        self.spoil("docs/TRICKS.md", "a name is hashed in one write |", "a name is hashed |")
        self.check("tricks", failed=1)
        self.is_written_by("tricks_stated.py", "docs/TRICKS.md")

    def test_a_clause_that_does_not_say_that_it_goes_one_way(self):
        self.spoil("crates/kt_syntax/src/leading.rt", "ensures quick {", "ensures {")
        self.assertIn("    crates/kt_syntax/src/leading.rt: leading_directive has a clause that goes one way",
                      self.check("quick", failed=1))

    def test_clauses_that_are_written_anew(self):
        self.spoil("docs/QUICK.md", "| `quick` | `None` |", "| `quick` | `false` |")
        self.check("quick", failed=1)
        self.is_written_by("quick_clauses.py", "docs/QUICK.md")

    def test_diagrams_that_are_not_current(self):
        for name, old, new, said in (
                ("docs/crates.svg", "</svg>", "</svg >", "docs/crates.svg is not current"),
                ("crates.txt", "kati_args: kt_list kt_text clap", "kati_args: kt_list kt_text kt_rules clap",
                 "docs/crates.svg is not current"),
                ("docs/pipeline.svg", ">read_rule<", ">read_rules<", "docs/pipeline.svg is not current"),
                ("crates/kati/src/goals.rt", "fn chosen_goals", "fn goals", "kati has no function chosen_goals")):
            self.spoil(name, old, new)
            self.assertIn(said, self.check("diagrams", failed=1))
            shutil.copy2(ROOT / name, self.root / name)

    def test_libraries_and_tests_are_no_crates_of_the_diagram(self):
        self.spoil("crates.txt", "kt_text_tests: kt_testing kt_text", "kt_text_tests: kt_testing kt_text kt_list")
        self.check("diagrams", failed=0)

    @unittest.skipUnless(shutil.which("dot"), "not there: dot")
    def test_diagrams_that_are_drawn_anew(self):
        for name in ("docs/crates.svg", "docs/pipeline.svg"):
            (self.root / name).unlink()
        words = [sys.executable, "-B", ROOT / "scripts/diagrams.py", "--root", self.root, "--write"]
        self.assertEqual(subprocess.run(words, check=False).returncode, 0)
        self.check("diagrams", failed=0)
        self.assertIn("<title>kt_eval</title>", (self.root / "docs/crates.svg").read_text())

    def test_diagrams_without_dot(self):
        (self.root / "docs/crates.svg").unlink()
        words = [sys.executable, "-B", ROOT / "scripts/diagrams.py", "--root", self.root, "--write"]
        done = subprocess.run(words, env={"PATH": "/nowhere"}, stderr=subprocess.PIPE, universal_newlines=True)
        self.assertEqual((done.returncode, done.stderr), (3, "diagrams.py: no program dot: install graphviz\n"))

    def test_sizes(self):
        words, before = "word " * 2800 + "\n", "\n## Cases\n"
        for text, is_long in ((words, True), (f"```\n{words}```\n", False), (f"    {words}", False),
                              (f"Words\n    {words}", True), (f"- Words\n\n  - | - {words}", True)):
            self.spoil("docs/DEVELOPING.md", before, f"\n{text}\n## Cases\n")
            with self.subTest(text[:20]):
                found = self.check("sizes", failed=int(is_long))
                self.assertEqual("docs/DEVELOPING.md has " in found, is_long)
            before = f"\n{text}\n## Cases\n"

    def test_a_document_without_a_limit(self):
        (self.root / "docs/OTHER.md").write_text("# Other\n")
        self.assertIn("    docs/OTHER.md has no limit in scripts/document_sizes.py", self.check("sizes", failed=1))
        (self.root / "docs/OTHER.md").rename(self.root / "docs/TRUSTED.md")
        self.check("sizes", failed=0)

    def test_a_limit_without_a_document(self):
        (self.root / "docs/PROVING.md").unlink()
        self.assertIn("    docs/PROVING.md has a limit, and does not exist", self.check("sizes", failed=1))

    def test_a_trusted_definition_with_another_comment(self):
        self.spoil("crates/kt_text/specs/Words.antt", "-- whether a byte is a colon\n", "-- whether a byte is `:`\n")
        self.assertIn("docs/TRUSTED.md isn't what the definitions say", self.check("trusted", failed=1))

    def test_a_trusted_definition_without_a_comment(self):
        self.spoil("crates/kt_text/specs/Words.antt", "-- whether a byte is a colon\n", "")
        self.assertIn("    no comment: is_colon in kt_text.specs.Words", self.check("trusted", failed=1))

    def test_a_definition_that_becomes_trusted(self):
        self.spoil("crates/kati/specs/Exits.antt", "code_of statuses.Done = 0", "code_of statuses.Done = largest")
        self.check("trusted", failed=0)
        self.spoil("crates/kati/specs/Exits.antt", "usage_code = 64\n",
                   "usage_code = 64\n\n-- the largest\nabbrev pub largest : ℕ\nlargest = 9\n")
        self.assertIn("docs/TRUSTED.md isn't what the definitions say", self.check("trusted", failed=1))

    def test_a_check_that_is_none(self):
        words = [sys.executable, "-B", ROOT / "scripts/check_docs.py", "everything"]
        done = subprocess.run(words, stderr=subprocess.PIPE, check=False)
        self.assertEqual(done.returncode, 64)


if __name__ == "__main__":
    unittest.main()
