"""The manual pages: nothing that man or mandoc has to say of them."""
import os
import shutil
import subprocess
import unittest
from pathlib import Path

PAGES = sorted((Path(__file__).resolve().parent.parent.parent / "share/man/man1").glob("*.1"))
PARTS = ["NAME", "SYNOPSIS", "DESCRIPTION", "OPTIONS", "EXIT STATUS", "FILES", "EXAMPLES", "DIFFERENCES FROM MAKE",
         "SEE ALSO"]


def told(*words, **variables):
    """What a command writes to the standard output and the standard error."""
    return subprocess.run([str(word) for word in words], stdout=subprocess.PIPE, stderr=subprocess.PIPE, text=True,
                          env={**os.environ, **variables}, check=False)


class Pages(unittest.TestCase):
    def test_there_is_one_for_each_command(self):
        names = ["kati-asked.1", "kati-build.1", "kati-compare.1", "kati-port.1", "kati.1"]
        self.assertEqual([page.name for page in PAGES], names)

    def test_each_names_all_others(self):
        for page in PAGES:
            with self.subTest(page.name):
                last = page.read_text(encoding="utf-8").partition(".SH SEE ALSO\n")[2].replace("\\-", "-")
                lacking = [other.stem for other in PAGES if other != page and f".BR {other.stem} (1)" not in last]
                self.assertEqual(lacking, [])

    def test_each_has_its_parts_in_order(self):
        for page in PAGES:
            with self.subTest(page.name):
                heads = [line[4:] for line in page.read_text(encoding="utf-8").splitlines() if line.startswith(".SH ")]
                self.assertEqual([head for head in heads if head != "ENVIRONMENT"], PARTS)

    def test_each_says_in_a_line_what_its_command_does(self):
        for page in PAGES:
            with self.subTest(page.name):
                name = page.read_text(encoding="utf-8").partition(".SH NAME\n")[2].partition("\n.SH")[0]
                self.assertRegex(name, rf"^{page.stem} \\- \w.*\w$")

    @unittest.skipUnless(shutil.which("mandoc"), "not there: mandoc")
    def test_mandoc_finds_nothing(self):
        for page in PAGES:
            with self.subTest(page.name):
                self.assertEqual(told("mandoc", "-Tlint", page).stdout, "")

    @unittest.skipUnless(shutil.which("man"), "not there: man")
    def test_man_warns_of_nothing(self):
        for page in PAGES:
            with self.subTest(page.name):
                done = told("man", "--warnings", "-E", "UTF-8", "-l", "-Tutf8", "-Z", page, LC_ALL="C.UTF-8",
                            MANWIDTH="80")
                self.assertEqual((done.returncode, done.stderr), (0, ""))


if __name__ == "__main__":
    unittest.main()
