"""scripts/run_cases.py: cases that hold, cases that don't, and wrong usage."""
import os
import subprocess
import sys
import tempfile
import unittest
from pathlib import Path

ROOT = Path(__file__).resolve().parent.parent.parent
KATI = Path(os.environ.get("KATI") or ROOT / "crates/kati_program/out/kati_program").resolve()
GOOD = """\
case one rule
file Makefile
|a.o: a.c
|	cc -c a.c
status 0
has
| command = /bin/sh -c 'cc -c a.c'
|build a.o: r0 a.c
err

"""


@unittest.skipUnless(KATI.is_file(), f"not there: {KATI}")
class Running(unittest.TestCase):
    def ran(self, text, *words):
        """What the script says of a file of cases, and its status."""
        with tempfile.TemporaryDirectory() as folder:
            path = Path(folder, "some.cases")
            path.write_text(text, encoding="utf-8")
            done = subprocess.run([sys.executable, "-B", ROOT / "scripts/run_cases.py", *(words or (KATI, path))],
                                  stdout=subprocess.PIPE, stderr=subprocess.STDOUT, text=True, check=False)
        return done.stdout, done.returncode

    def test_a_case_that_holds(self):
        self.assertEqual(self.ran(GOOD), ("1 passed, 0 failed\n", 0))

    def test_each_part_of_a_case_may_fail(self):
        for old, new, said in (("status 0", "status 2", "status 0, not 2"),
                               ("cc -c a.c'", "cc a.c'", "output without its lines"),
                               ("err\n", "err\n|kati: *** no targets [E26]\n", "error output b''"),
                               ("has\n", "out\n", 'output b"# kati')):
            with self.subTest(new):
                told, status = self.ran(GOOD + GOOD.replace(old, new))
                self.assertIn("some.cases: one rule: " + said, told)
                self.assertEqual((told.splitlines()[-1], status), ("1 passed, 1 failed", 1))

    def test_the_cases_of_porting_hold(self):
        told, status = self.ran("", KATI, ROOT / "crates/kati_cases/data/porting.cases")
        self.assertRegex(told, r"^\d\d passed, 0 failed\n$")
        self.assertEqual(status, 0)

    def test_one_case(self):
        told = self.ran("", KATI, "--case", "one rule", "--case", "double colon")
        self.assertEqual(told, ("2 passed, 0 failed\n", 0))

    def test_wrong_usage(self):
        self.assertEqual(self.ran("", "--no-such-option")[1], 64)
        self.assertEqual(self.ran("", KATI, "--case", "no such case")[1], 64)


if __name__ == "__main__":
    unittest.main()
