"""ask.opened: which files make and its commands open, as inotify shows them."""
from __future__ import annotations

import os
import subprocess
import tempfile
import unittest
from pathlib import Path

from katibuild.ask import opened
from katibuild.base import programs

# What the makefile has, and the files that it opens; paths are relative to the tree.
CASES = (
    ("the makefile", "all:\n", {"Makefile"}),
    ("an include", "include inc.mk\nall:\n", {"inc.mk"}),
    ("$(file <)", "X := $(file <data.txt)\nall:\n", {"data.txt"}),
    ("a script and what it reads", "X := $(shell ./v.sh)\nall:\n", {"v.sh", "lib.sh", "num.txt"}),
    ("cat in a folder", "X := $(shell cat src/deep/flag)\nall:\n", {"src/deep/flag"}),
    ("a link to a file of the tree", "X := $(shell cat near)\nall:\n", {"num.txt"}),
    ("a link that leads out", "X := $(shell cat far)\nall:\n", {"../out/target"}),
    ("a folder that leads out", "X := $(shell cat away/target)\nall:\n", {"../out/target"}),
    ("a file above", "X := $(shell cat ../VERSION)\nall:\n", {"../VERSION"}),
    ("a hidden folder", "X := $(shell cat .git/HEAD)\nall:\n", {".git/HEAD"}),
)
FILES = {"v.sh": "#!/bin/sh\n. ./lib.sh\nread x < num.txt\necho $x\n", "lib.sh": "\n", "num.txt": "1\n",
         "data.txt": "1\n", "inc.mk": "\n", "src/deep/flag": "1\n", "unread.txt": "1\n", ".git/HEAD": "x\n",
         "../out/target": "1\n", "../VERSION": "1\n"}


class Opened(unittest.TestCase):
    """Each case in a tree of its own."""

    def setUp(self):
        room = tempfile.TemporaryDirectory(prefix="kati-tests-")
        self.addCleanup(room.cleanup)
        self.top = Path(os.path.realpath(room.name)) / "tree"
        self.top.mkdir()
        for name, text in FILES.items():
            path = self.top / name
            path.parent.mkdir(parents=True, exist_ok=True)
            path.write_text(text)
        (self.top / "v.sh").chmod(0o755)
        (self.top / "near").symlink_to("num.txt")
        (self.top / "far").symlink_to("../out/target")
        (self.top / "away").symlink_to("../out")

    def seen_by(self, makefile):
        """What make opens while it reads a makefile."""
        (self.top / "Makefile").write_text(makefile)
        with opened.Watch(opened.folders(str(self.top), [makefile])) as watch:
            programs.run(["make", "-n"], str(self.top), os.environ, watch)
        self.assertTrue(watch.is_complete)
        return {os.path.relpath(path, self.top) for path in watch.opened}, watch.listed

    def test_cases(self):
        for name, makefile, files in CASES:
            with self.subTest(name):
                found, _ = self.seen_by(makefile)
                self.assertEqual(set(), files - found)
                self.assertNotIn("unread.txt", found)

    def test_listed_folders(self):
        _, listed = self.seen_by("X := $(wildcard src/deep/*) $(wildcard ../out/*)\nall:\n")
        self.assertEqual({str(self.top / "src/deep"), str(self.top.parent / "out")},
                         {os.path.realpath(one) for one in listed} & {
                             str(self.top / "src/deep"), str(self.top.parent / "out")})

    def test_many_files_do_not_overflow_the_queue(self):
        for number in range(20000):
            (self.top / "src" / f"f{number}").touch()
        with opened.Watch(opened.folders(str(self.top), [])) as watch:
            programs.run(["sh", "-c", "cat src/f*"], str(self.top), os.environ, watch)
        self.assertTrue(watch.is_complete)
        self.assertEqual(20000, len([one for one in watch.opened if "/src/f" in one]))


if __name__ == "__main__":
    subprocess.run(["make", "--version"], check=True)
    unittest.main()
