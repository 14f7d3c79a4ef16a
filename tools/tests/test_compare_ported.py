"""kati-compare in trees that kati-port wrote: it tells of calls that the recipe's own shell runs what the port told."""
import unittest

from ported_trees import PortedTree
from support import needs
from test_by_recipes_shell import DIFFERS, OTHERS, RUNS, SAME


@needs("kati", "kati-asked", "make", "ninja")
class ComparedPorts(PortedTree):
    """What kati-compare says, and its status."""

    def test_calls_that_are_told_aside(self):
        for name, (makefile, call) in SAME.items():
            with self.subTest(name):
                self.put_all({"Makefile": makefile})
                self.port()
                ran = self.tool("kati-compare", "--builtin")
                self.assertEqual(ran.status, 0, ran.all)
                told, verdict = ran.out.splitlines()
                self.assertEqual(told, RUNS + call)
                self.assertRegex(verdict, r"^same: \d commands; calls that the recipe's shell runs aside$")

    def test_calls_that_may_have_another_value(self):
        for recipe, reason in OTHERS.items():
            with self.subTest(recipe):
                self.put_all({"Makefile": f"all: a b\na b:\n\t{recipe}\n", "sub/y": ""})
                self.port(status=DIFFERS)
                ran = self.tool("kati-compare", "--builtin")
                self.assertEqual(ran.status, 1, ran.all)
                self.assertIn(" may give the recipe's shell another value than make: " + reason, ran.out)
                self.assertRegex(ran.out.splitlines()[-1],
                                 r"^differ: what calls give that the recipe's shell runs; \d commands the same$")

    def test_another_difference_stays_one(self):
        self.put_all({"Makefile": "all: a b\na b:\n\techo $(shell echo made $@) $(MAKEFLAGS) > $@\n"})
        self.port("A=1", status=DIFFERS)
        ran = self.tool("kati-compare", "--builtin", "A=1")
        self.assertEqual(ran.status, 1, ran.all)
        self.assertIn("differ: 2 commands of make's alone, 2 of kati's alone, 0 the same\n", ran.out)


if __name__ == "__main__":
    unittest.main()
