"""scripts/times.py: what it measures of built trees and of Ninja files; --record replaces the table below its title."""
import importlib
import re
import subprocess
import sys
import unittest
from pathlib import Path

from support import LONG, TOP, kati, kati_asked, needs

sys.path.append(str(TOP / "scripts"))

HEAD = "| Case | N |"
DOCUMENT = f"""\
# Times

## One

Words.

{HEAD}
|---|---|
| old | 1 |

## Other

{HEAD}
|---|---|
| stays | 2 |

## None
"""


class Recording(unittest.TestCase):
    def setUp(self):
        self.recording = importlib.import_module("timing.recording")

    def test_the_table_below_the_title(self):
        printed = f"## One\n\n{HEAD}\n|---|---|\n| new | 3 |\n| more | 4 |\n"
        wanted = DOCUMENT.replace("| old | 1 |\n", "| new | 3 |\n| more | 4 |\n")
        self.assertEqual(self.recording.recorded(DOCUMENT, "One", printed), wanted)

    def test_another_head_and_a_title_without_a_table(self):
        printed = f"{HEAD}\n|---|---|\n"
        for title, text in (("One", "| Else |\n"), ("None", printed), ("Absent", printed), ("One", "")):
            with self.subTest((title, text)), self.assertRaises(ValueError):
                self.recording.recorded(DOCUMENT, title, text)

    def test_each_title_of_the_document(self):
        times = importlib.import_module("times")
        lines = (TOP / "docs/BENCHMARKS.md").read_text().splitlines()
        for name, (title, _) in times.TABLES.items():
            with self.subTest(name):
                self.assertEqual(self.recording.first_table(lines, title) is None, name == "text")


@needs("kati", "kati-asked", "make", "ninja", "ckati")
class Measuring(unittest.TestCase):
    """Tables at a hundredth of their size: milliseconds and megabytes in each cell, and no status but 0."""

    @unittest.skipUnless(Path("/usr/bin/time").is_file(), "not there: /usr/bin/time")
    def test_cells(self):
        cell = r"[\d,]+ \(\d+\)"
        for table, rows, wanted in (("nothing", 3, r"\| [\d,]+ " + rf"\| {cell} " * 5 + r"\|"),
                                    ("files", 2, rf"\| [\w -]+ \| 1,000 \| 0\.\d \| {cell} \| 0\.\d \| {cell} \|")):
            words = ["--kati", kati(), "--kati-asked", kati_asked(), "--small", "--runs", "1", table]
            done = subprocess.run([sys.executable, "-B", TOP / "scripts/times.py", *words], stdout=subprocess.PIPE,
                                  stderr=subprocess.DEVNULL, universal_newlines=True, timeout=LONG, check=True)
            found = [line for line in done.stdout.splitlines() if line.startswith("|")][2:]
            with self.subTest(table):
                self.assertEqual([line for line in found if not re.fullmatch(wanted, line)], [])
                self.assertEqual(len(found), rows)
