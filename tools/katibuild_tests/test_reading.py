"""Makefiles that make remakes while it is asked: their recipes see what any run of make shows them."""
from __future__ import annotations

import unittest
from typing import NamedTuple, Tuple

from trees import Tree

# What make or the shell sets anew in each run, or what names the terminal.
DUMP = "env -0 | grep -zv '^_=\\|^MAKE_TERM\\|^OLDPWD' | sort -z | tr '\\0' '\\n'"


class Row(NamedTuple):
    """A makefile that includes `made.mk`, whose recipe writes what it sees; the arguments of make."""

    name: str
    makefile: str
    arguments: Tuple[str, ...] = ()


RULE = f"all: ; @:\ninclude made.mk\nmade.mk: ; {DUMP.replace('$', '$$')} > $@.seen; echo > $@\n"
INNER = "all: ; @:\ninclude made.mk\nmade.mk: ; $(MAKE) -s -f inner > $@; cp $@ $@.seen\n"
ROWS = (
    Row("the environment", RULE),
    Row("all variables are exported", "export\n" + RULE),
    Row("a variable of the command line", "export A = 1\n" + RULE, ("B=2 3",)),
    Row("flags of the makefile", "MAKEFLAGS += -r --no-print-directory\n" + RULE),
    Row("goals", "export G = $(MAKECMDGOALS)\n" + RULE, ("all",)),
    Row("an inner make writes the makefile", INNER),
    Row("an inner make with variables", INNER, ("B=2",)),
)


class Reading(Tree):
    """Each row, by make and by kati-build."""

    def seen(self, row, build):
        """What the recipe of `made.mk` saw."""
        self.start_again()
        self.put({"Makefile": row.makefile, "inner": "x: ; @echo V = $(MAKEFLAGS), $(B)\n"})
        ran = build(*row.arguments)
        self.assertEqual(0, ran.status, ran.said)
        return (self.top / "made.mk.seen").read_text()

    def test_recipes_of_makefiles(self):
        for row in ROWS:
            with self.subTest(row.name):
                self.assertEqual(self.seen(row, self.make), self.seen(row, self.build))


if __name__ == "__main__":
    unittest.main()
