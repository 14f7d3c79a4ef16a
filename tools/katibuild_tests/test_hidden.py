"""ask.hidden: files that are hidden while make is read come back, wherever a run is killed."""
from __future__ import annotations

import json
import os
import tempfile
import unittest
from pathlib import Path
from unittest import mock

from katibuild.ask import hidden

NAMES = ("a", "b.d", "sub/c.d")
STEPS = ("rename", "unlink", "fsync")     # the calls that change what is on the disk
MOST = 12                                 # more than the steps of one run


class Killed(BaseException):
    """The process ends here; nothing behind this step runs."""


class Killer:
    """Ends a run before its step of a number; the calls that follow the end do nothing either, as of a dead process."""

    def __init__(self, limit):
        self.limit, self.count, self.patches = limit, 0, []

    def __enter__(self):
        for name in STEPS:
            real = getattr(os, name)
            self.patches.append(mock.patch.object(os, name, self.step(real)))
        for one in self.patches:
            one.start()
        return self

    def __exit__(self, *_):
        for one in self.patches:
            one.stop()

    def step(self, real):
        """The call as a step."""
        def call(*given, **more):
            self.count += 1
            if self.count > self.limit:
                raise Killed
            return real(*given, **more)
        return call


class Hidden(unittest.TestCase):
    """Each test in a tree of its own."""

    def setUp(self):
        room = tempfile.TemporaryDirectory(prefix="kati-tests-")
        self.addCleanup(room.cleanup)
        self.top = Path(os.path.realpath(room.name)) / "tree"
        self.folder = self.top / ".kati/hidden"
        self.fill()

    def fill(self):
        """Writes the files anew, each with its own name as its text."""
        (self.top / "sub").mkdir(parents=True, exist_ok=True)
        for name in NAMES:
            (self.top / name).write_text(name)

    def state(self):
        """The texts of the files, and what is left in the folder of hidden files."""
        texts = [(self.top / name).read_text() if (self.top / name).exists() else None for name in NAMES]
        left = sorted(os.listdir(self.folder)) if self.folder.exists() else []
        return texts, left

    def run_once(self):
        """What a run does: it restores what an earlier one left, hides, and restores."""
        hidden.restore(str(self.top), str(self.folder))
        with hidden.hidden(NAMES, str(self.top), str(self.folder)):
            pass

    def test_hides_and_restores(self):
        before = os.stat(self.top / "a").st_mtime_ns
        with hidden.hidden([*NAMES, "absent"], str(self.top), str(self.folder)) as names:
            self.assertEqual(set(NAMES), names)
            self.assertEqual([None] * 3, self.state()[0])
        self.assertEqual((list(NAMES), []), self.state())
        self.assertEqual(before, os.stat(self.top / "a").st_mtime_ns)

    def test_an_exception_restores(self):
        with self.assertRaises(KeyError):
            with hidden.hidden(NAMES, str(self.top), str(self.folder)):
                raise KeyError
        self.assertEqual((list(NAMES), []), self.state())

    def test_killed_at_each_pair_of_steps(self):
        tried, ended = 0, 0
        for first in range(MOST):
            for second in range(MOST):
                self.fill()
                for limit in (first, second):
                    try:
                        with Killer(limit):
                            self.run_once()
                    except Killed:
                        ended += 1
                hidden.restore(str(self.top), str(self.folder))
                tried += 1
                texts, left = self.state()
                with self.subTest(first=first, second=second):
                    self.assertEqual(list(NAMES), texts)
                    self.assertLessEqual(set(left), {"list.new"})
        self.assertEqual(144, tried)
        self.assertGreater(ended, 100)

    def test_a_present_file_is_not_overwritten(self):
        with hidden.hidden(NAMES, str(self.top), str(self.folder)):
            (self.top / "a").write_text("new")
        self.assertEqual((["new", "b.d", "sub/c.d"], []), self.state())

    def test_what_is_not_hidden(self):
        (self.top / "link").symlink_to("a")
        (self.top.parent / "outside").write_text("x")
        (self.top / "out").symlink_to("..")
        for name in ("link", "sub", "../outside", "out/outside", str(self.top / "a"), "absent"):
            with self.subTest(name):
                with hidden.hidden([name], str(self.top), str(self.folder)) as names:
                    self.assertEqual(frozenset(), names)
                    self.assertTrue((self.top.parent / "outside").exists() and (self.top / "a").exists())

    def test_hostile_journals(self):
        outside = self.top.parent / "planted"
        (self.top / "out").symlink_to("..")
        for journal in (["../planted"], [str(outside)], ["out/planted"], "x", {"a": 1}, [1], None):
            with self.subTest(journal=journal):
                self.folder.mkdir(parents=True, exist_ok=True)
                (self.folder / "list").write_text(json.dumps(journal))
                (self.folder / "0").write_text("evil")
                hidden.restore(str(self.top), str(self.folder))
                self.assertFalse(outside.exists())

    def test_a_folder_that_is_gone(self):
        with hidden.hidden(NAMES, str(self.top), str(self.folder)):
            (self.top / "sub").rmdir()
        self.assertEqual((["a", "b.d", None], []), self.state())


if __name__ == "__main__":
    unittest.main()
