"""Small trees with hard points, built by GNU make and by kati-build --ask, edited, and compared after each step."""
from __future__ import annotations

import unittest

from compared import Compared, add_tests
from hard_trees import TREES

OF_NINJA = "by Ninja's nature: "
# Where the files differ from make's, and why.
DIFFERENT = {
    "newer $?": OF_NINJA + "$? is all inputs",
    "double colons": OF_NINJA + "rules with '::' run all or none",
    "PRECIOUS, SECONDARY": OF_NINJA + "an absent secondary file is made again",
    "a phony name between": OF_NINJA + "a name without a file and a recipe stands for its inputs",
    "sources of a folder below, templates": "a command that lost an input runs again; make does not run it",
    "names that kati refuses": "refused with the makefile's line",
    "a library of this folder by -l": "make fails, after it has made one file; nothing is built here",
}
# Where the last build has work to do although make has none.
NEVER_SETTLES = {"make within make": "make's inner make says that all is up to date"}


class Hard(Compared):
    """One test for each tree."""

    def check_named(self, name):
        """Compares the builds of a tree of the table."""
        self.check(name, TREES[name], name in DIFFERENT, name not in NEVER_SETTLES)


add_tests(Hard, TREES, Hard.check_named)


class Count(unittest.TestCase):
    """How many of the trees are built as by make."""

    def test_most_are_built_as_by_make(self):
        self.assertEqual(66, len(TREES))
        self.assertLessEqual(DIFFERENT.keys(), TREES.keys())
        self.assertGreaterEqual(len(TREES.keys() - DIFFERENT.keys()), 58)


if __name__ == "__main__":
    unittest.main()
