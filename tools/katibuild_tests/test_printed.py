"""ask.printed and ask.database: texts as make 4.3 and 4.4 print them."""
from __future__ import annotations

import unittest

from katibuild.ask import database, printed
from katibuild.ask.answer import Rule
from katibuild.base.message import Place

AT = Place("Makefile", 2)
RULES = {name: (Rule((name,), (), recipe=("echo",), place=AT),) for name in ("x", "a 'b'", "all")}
RULES["m.o"] = (Rule(("m.o",), ("m.c",), recipe=("$(COMPILE.c) $<",)),)
RULES["t.y"] = (Rule(("t.y",), ("t.x",), is_intermediate=True, recipe=("cp",), place=AT),)
# name, what make printed, (target, place, lines) of each recipe. The heads are those of job.c: new_job in 4.3,
# and of 4.4, where --trace is --debug=print,why.
PRINTED = (
    ("4.3, absent", "Makefile:2: target 'x' does not exist\necho 1\n", [("x", AT, ["echo 1"])]),
    ("4.3, older", "Makefile:2: update target 'x' due to: a b\necho 1\n", [("x", AT, ["echo 1"])]),
    ("4.4, absent", "Makefile:2: update target 'x' due to: target does not exist\necho 1\n", [("x", AT, ["echo 1"])]),
    ("4.4, phony", "Makefile:2: update target 'all' due to: target is .PHONY\necho 1\n", [("all", AT, ["echo 1"])]),
    ("4.4, unknown", "Makefile:2: update target 'x' due to: unknown reasons\necho 1\n", [("x", AT, ["echo 1"])]),
    ("built-in", "<builtin>: target 'm.o' does not exist\ncc -c m.c\n", [("m.o", None, ["cc -c m.c"])]),
    ("two recipes", "Makefile:2: target 'x' does not exist\na\nb\nMakefile:2: target 'all' does not exist\nc\n",
     [("x", AT, ["a", "b"]), ("all", AT, ["c"])]),
    ("no lines", "Makefile:2: target 'x' does not exist\n:\nmake: Nothing to be done for 'all'.\n", [("x", AT, [])]),
    ("continued", "Makefile:2: target 'x' does not exist\na \\\n  b\\\\\nc \\\\\\\nd\n",
     [("x", AT, ["a \\\n  b\\\\", "c \\\\\\\nd"])]),
    ("quotes in a name", "Makefile:2: target 'a 'b'' does not exist\necho\n", [("a 'b'", AT, ["echo"])]),
    ("look-alike", "Makefile:2: target 'x' does not exist\necho Makefile:3: target 'x' does not exist\n"
     "true: 1: target 'x' does not exist\n",
     [("x", AT, ["echo Makefile:3: target 'x' does not exist", "true: 1: target 'x' does not exist"])]),
    ("look-alike in a continued line", "Makefile:2: target 'x' does not exist\necho \\\n"
     "Makefile:2: target 'x' does not exist\n", [("x", AT, ["echo \\\nMakefile:2: target 'x' does not exist"])]),
    ("messages", "hello\nMakefile:2: target 'x' does not exist\na\nmake: 'all' is up to date.\n"
     "make[1]: Entering directory '/a b'\nmake: Leaving directory '/'\n", [("x", AT, ["a"])]),
    ("text like a message", "Makefile:2: target 'x' does not exist\necho make: 'all' is up to date.\n",
     [("x", AT, ["echo make: 'all' is up to date."])]),
    ("intermediates", "Makefile:2: target 't.y' does not exist\ncp t.x t.y\nRemoving intermediate files...\nrm t.y\n",
     [("t.y", AT, ["cp t.x t.y"])]),
    ("a last line that removes", "Makefile:2: target 'x' does not exist\nrm x\n", [("x", AT, ["rm x"])]),
    ("member of an archive", "Makefile:9: target 'l.a(m)' does not exist\nar r l.a m\n",
     [("l.a(m)", Place("Makefile", 9), ["ar r l.a m"])]),
)
FILES = """\
# Make data base, printed on now
# Variables

# makefile (from 'Makefile', line 1)
define D
a

endef b = 1
endef
# default
CC = cc
# variable set hash-table stats:

# Pattern-specific Variable Values

%.x :
# makefile (from 'Makefile', line 3)
# SHELL := /bin/bash

# 1 pattern-specific variable values
# Implicit Rules

%.o: %.c
#  recipe to execute (from 'Makefile', line 7):
\tcc -c $<

# 1 implicit rules, 0 (0.0%) terminal.
# Files

# makefile (from 'Makefile', line 4)
x: V = 1
x: a .WAIT b | c
#  Phony target (prerequisite of .PHONY).
#  recipe to execute (from 'Makefile', line 5):
\techo \\

#  Phony target
\techo 2

# Not a target:
a:
#  Implicit rule search has been done.

.RECIPEPREFIX = >
c d: x
#  recipe to execute (from 'Makefile', line 9):
>one \\
>two

e: c d x
#  Also makes: f e

# Not a target:
.c.o:
#  Builtin rule
#  recipe to execute (built-in):
>cc

# files hash-table stats:
"""


class Printed(unittest.TestCase):
    """Each text by itself."""

    maxDiff = None

    def test_recipes(self):
        for name, output, wanted in PRINTED:
            with self.subTest(name):
                self.assertEqual(wanted, [tuple(one) for one in printed.recipes(output, RULES, False, "/bin/sh")])

    def test_one_shell(self):
        output = "Makefile:2: target 'x' does not exist\na \\\n  -b\n@c\nMakefile:2: target 'all' does not exist\nd\n"
        for program, first in (("/bin/sh", "a \\\n  -b\nc"), ("/usr/bin/perl", "a \\\n  -b\n@c")):
            with self.subTest(program):
                found = list(printed.recipes(output, RULES, True, program))
                self.assertEqual([[first], ["d"]], [one.texts for one in found])

    def test_database(self):
        found = database.parse(FILES)
        self.assertEqual(("a\n\nendef b = 1", True), found.variables["D"][1:3])
        self.assertEqual("cc", found.variables["CC"].value)
        self.assertEqual([("SHELL", "/bin/bash", "%.x"), ("V", "1", "x")],
                         [(one.name, one.value, one.target) for one in found.of_targets])
        self.assertEqual([(("%.o",), ("%.c",), ("cc -c $<",))],
                         [(one.targets, one.inputs, one.recipe) for one in found.patterns])
        self.assertEqual({"x", "a", "c d", "e"}, set(found.rules))
        self.assertEqual([Rule(("x",), ("a", ".WAIT", "b"), ("c",), True,
                               recipe=("echo \\\n", "#  Phony target", "echo 2"), place=Place("Makefile", 5))],
                         list(found.rules["x"]))
        self.assertEqual([Rule(("a",), is_target=False)], list(found.rules["a"]))
        self.assertEqual(("one \\\n>two",), found.rules["c d"][0].recipe)
        self.assertEqual((("e", "f"), ("c d", "x")), found.rules["e"][0][:2])


if __name__ == "__main__":
    unittest.main()
