"""scripts/try_cases.py, with a stand-in for the toolchain: which cases are tried, and what is told of them."""
import os
import re
import subprocess
import sys
import tempfile
import unittest
from pathlib import Path

ROOT = Path(__file__).resolve().parent.parent.parent
STORED = (ROOT / "crates/kati_cases/stdout").read_text(encoding="utf-8")
# Prints what the program kati_cases would, where the case of the variable FAILS fails; ends as STATUS says.
STAND_IN = """\
#!{python}
import os, re, sys
words = sys.argv[1:]
assert words[0] == "try" and os.path.isfile("src/main.rt"), words
for at, word in enumerate(words):
    if word == "--data":
        name, _, path = words[at + 1].partition("=")
        print(name[:-len(".cases")])
        for case in re.findall("^case (.*)$", open(path, encoding="utf-8").read(), re.MULTILINE):
            how = "FAILED by its output" if case == os.environ.get("FAILS") else "passed"
            print("  " + ("host" if case == "goal that is not UTF-8" else how) + ": " + case)
print("run=ended runners=1 proved=no", file=sys.stderr)
sys.exit(int(os.environ.get("STATUS", 0)))
"""


class Trying(unittest.TestCase):
    def ran(self, *words, **environment):
        """What the script says, and its status."""
        with tempfile.TemporaryDirectory() as folder:
            command = Path(folder, "rt")
            command.write_text(STAND_IN.format(python=sys.executable), encoding="utf-8")
            command.chmod(0o755)
            done = subprocess.run([sys.executable, "-B", ROOT / "scripts/try_cases.py", "--rt", command, *words],
                                  stdout=subprocess.PIPE, stderr=subprocess.STDOUT, text=True, check=False,
                                  env={**os.environ, **environment})
        return done.stdout, done.returncode

    def test_all_cases(self):
        passed, skipped = len(re.findall(r"^  passed: ", STORED, re.MULTILINE)), STORED.count("  host: ")
        self.assertEqual(self.ran(), (f"{passed} passed, 0 failed, {skipped} skipped\n", 0))

    def test_a_case_that_fails(self):
        told, status = self.ran("--case", "one rule", "--case", "double colon", FAILS="one rule")
        self.assertEqual(told, "worked.cases: FAILED by its output: one rule\n1 passed, 1 failed\n")
        self.assertEqual(status, 1)

    def test_one_case_of_all_fails_and_has_its_line(self):
        told, status = self.ran(FAILS="one rule")
        self.assertIn("worked.cases: FAILED by its output: one rule\n", told)
        self.assertNotIn("stdout", told)
        self.assertEqual(status, 1)

    def test_a_file(self):
        told, status = self.ran(ROOT / "crates/kati_cases/data/porting.cases")
        self.assertRegex(told, r"^\d\d passed, 0 failed\n$")
        self.assertEqual(status, 0)

    def test_a_case_that_has_no_line_in_the_stored_run(self):
        with tempfile.TemporaryDirectory() as folder:
            copy = Path(folder, "kati")
            for name in ("scripts/try_cases.py", "crates/kati_cases/src/main.rt", "crates/kati_cases/stdout"):
                (copy / name).parent.mkdir(parents=True, exist_ok=True)
                (copy / name).write_text((ROOT / name).read_text(encoding="utf-8"), encoding="utf-8")
            (copy / "crates/kati_cases/data").mkdir()
            for path in (ROOT / "crates/kati_cases/data").glob("*.cases"):
                more = b"case something new\nstatus 2\n" if path.stem == "porting" else b""
                (copy / "crates/kati_cases/data" / path.name).write_bytes(path.read_bytes() + more)
            command = Path(folder, "rt")
            command.write_text(STAND_IN.format(python=sys.executable), encoding="utf-8")
            command.chmod(0o755)
            words = [sys.executable, "-B", copy / "scripts/try_cases.py", "--rt", command]
            done = subprocess.run(words, stdout=subprocess.PIPE, text=True, check=False)
            self.assertIn("crates/kati_cases/stdout lacks the line:   passed: something new\n", done.stdout)
            self.assertEqual(done.returncode, 1)
            (copy / "crates/kati_cases/data/other.cases").write_text("", encoding="utf-8")
            done = subprocess.run(words, stdout=subprocess.PIPE, stderr=subprocess.PIPE, text=True, check=False)
            self.assertIn("not in FILES of crates/kati_cases/src/main.rt: other", done.stderr)
            self.assertEqual(done.returncode, 64)

    def test_nothing_was_tried(self):
        told, status = self.ran(STATUS="4")
        self.assertEqual((told, status), ("run=ended runners=1 proved=no\n", 2))
        told, status = self.ran("--rt", "no/such/command")
        self.assertEqual((told.splitlines()[-1], status), ("no/such/command: No such file or directory", 2))

    def test_wrong_usage(self):
        for words in (["--no-such-option"], ["--case", "no such case"], ["no/such.cases"]):
            with self.subTest(words):
                self.assertEqual(self.ran(*words)[1], 64)


if __name__ == "__main__":
    unittest.main()
