"""scripts/run_checks.py: what comes through, what is added up, and how it ends. Other checks stand in for the real
ones."""
import os
import re
import shutil
import sys
from pathlib import Path

from support import TOP, Tree


class Running(Tree):
    """The runner in a repository of its own."""

    def setUp(self):
        super().setUp()
        (self.top / "scripts").mkdir()
        (self.top / "tools/tests").mkdir(parents=True)
        (self.top / "tools/katibuild_tests").mkdir()
        shutil.copy(TOP / "scripts/run_checks.py", self.top / "scripts")
        self.check("tools/tests/__main__.py", "3 passed, 0 failed, 0 skipped")
        self.check("tools/katibuild_tests/__main__.py", "2 passed, 0 failed")
        self.check("scripts/check_docs.py", "0 passed, 0 failed")

    def check(self, name, *lines, status=0):
        """A check that writes these lines and ends with this status."""
        self.put(name, "".join(f"print({line!r})\n" for line in lines) + f"import sys\nsys.exit({status})\n")
        return f"{sys.executable} {name}"

    def run_checks(self, *words):
        ran = self.run_in(sys.executable, "scripts/run_checks.py", *words)
        return ran.status, ran.out.splitlines()

    def test_counts_are_added_and_lines_come_through(self):
        gate = self.check("gate.py", "== one crate", "one: its tests passed", "12 passed, 0 failed")
        self.check("scripts/check_docs.py", "5 passed, 0 failed")
        status, lines = self.run_checks("--gate", gate)
        self.assertEqual((status, lines[-1]), (0, "22 passed, 0 failed"))
        self.assertEqual(lines[:3], ["== one crate", "one: its tests passed", "12 passed, 0 failed"])

    def test_a_failure_of_any_fails_all(self):
        for name in ("gate.py", "scripts/check_docs.py", "tools/tests/__main__.py",
                     "tools/katibuild_tests/__main__.py"):
            with self.subTest(name):
                self.setUp()
                gate = self.check("gate.py", "12 passed, 0 failed")
                self.check(name, "1 passed, 2 failed", status=1)
                status, lines = self.run_checks("--gate", gate)
                self.assertEqual(status, 1)
                self.assertRegex(lines[-1], r"^\d+ passed, 2 failed$")

    def test_a_check_without_a_count_or_with_a_bad_status_fails(self):
        well = "4 passed, 0 failed"
        for lines, status in ((["well"], 0), ([], 1), ([well], 1), ([well, "died"], 0)):
            with self.subTest(lines):
                gate = self.check("gate.py", *lines, status=status)
                ended, told = self.run_checks("--gate", gate)
                self.assertEqual(ended, 1)
                self.assertRegex(told[-1], r"^\d+ passed, 1 failed$")
        self.assertEqual(self.run_checks("--gate", "no/such/gate")[0], 1)

    def test_skipped_tests_are_told_before_the_last_line(self):
        self.check("tools/tests/__main__.py", "skipped: test_x.A.b: without ninja", "2 passed, 0 failed, 1 skipped")
        status, lines = self.run_checks("--no-gate")
        self.assertEqual((status, lines[-2:]), (0, ["1 skipped: test_x.A.b", "4 passed, 0 failed"]))

    def test_the_gate_calls_it(self):
        lines = (TOP / ".ci/run").read_text().split("\n")
        self.assertIn("exec scripts/run_checks.py", lines)
        self.assertTrue(re.search(r"default=\"rt ci\"", Path(TOP / "scripts/run_checks.py").read_text()))


class Tests(Tree):
    """The runner of these tests."""

    def test_what_is_skipped_is_counted(self):
        shutil.copy(TOP / "tools/tests/__main__.py", self.top)
        self.put("test_some.py", "import unittest\n\n\nclass A(unittest.TestCase):\n"
                 "    def test_well(self):\n        pass\n\n    def test_badly(self):\n        self.fail()\n\n"
                 "    @unittest.skip('without it')\n    def test_not(self):\n        pass\n")
        ran = self.run_in(sys.executable, ".")
        self.assertEqual(ran.status, 1)
        self.assertEqual(ran.out.splitlines()[-2:],
                         ["skipped: test_some.A.test_not: without it", "1 passed, 1 failed, 1 skipped"])
        self.assertNotIn("older", ran.out)
        ran = self.run_in(sys.executable, ".", "test_some.A.test_well")
        self.assertEqual((ran.status, ran.out.splitlines()[-1]), (0, "1 passed, 0 failed, 0 skipped"))

    def test_modules_run_apart(self):
        shutil.copy(TOP / "tools/tests/__main__.py", self.top)
        body = "import os\nimport unittest\n\n\nclass A(unittest.TestCase):\n    def test_it(self):\n        {}\n"
        for name in ("first", "second"):
            self.put(f"test_{name}.py", body.format("self.assertEqual(os.environ.setdefault('SET_BY', __name__), "
                                                    "__name__)"))
        self.put("test_third.py", body.format("os._exit(3)"))
        for words in ((), ("--jobs=2",)):
            ran = self.run_in(sys.executable, ".", *words)
            self.assertEqual((ran.status, ran.out.splitlines()[-1]), (1, "2 passed, 1 failed, 0 skipped"))
            self.assertIn("test_third.A.test_it: ended with status 3 and without a count\n", ran.out)

    def test_a_program_that_is_older_than_the_source_is_told_where_a_test_failed(self):
        self.put("crates/kt_x/src/a.rt", "")
        self.put("crates/kati_program/out/kati_program", "")
        program, source = self.top / "crates/kati_program/out/kati_program", self.top / "crates/kt_x/src/a.rt"
        tests = self.top / "tools/tests"
        tests.mkdir(parents=True)
        shutil.copy(TOP / "tools/tests/__main__.py", tests)
        (tests / "test_some.py").write_text("import unittest\n\n\nclass A(unittest.TestCase):\n"
                                            "    def test_well(self):\n        pass\n\n"
                                            "    def test_badly(self):\n        self.fail()\n")
        told = f"{program} is older than crates/kt_x/src/a.rt: build it anew, if a test failed for that\n"
        for older, names, is_told in ((program, [], True), (program, ["test_some.A.test_well"], False),
                                      (source, [], False)):
            with self.subTest((older.name, names)):
                os.utime(program)
                os.utime(source)
                os.utime(older, (1, 1))
                self.assertEqual(told in self.run_in(sys.executable, tests, *names, KATI="").out, is_told)
