"""No line of a recipe runs while the tools ask make: a makefile that has make take another shell is refused."""
import os
import unittest

from support import Tree, needs

from kati_tools.base import programs
from kati_tools.make import make_run, recipe_shell

# The line that is refused, and the makefile's first lines; a recipe of `out` then has lines that make runs even by -n.
OTHERS = {
    "override": (1, "override SHELL := /bin/bash\n"),
    "a definition": (1, "override define SHELL\n/bin/bash\nendef\n"),
    "by another name": (2, "N := SHELL\noverride $(N) := /bin/bash\n"),
    "by a template": (2, "E = $(1) SHELL := /bin/bash\n$(eval $(call E,override))\n"),
    "flags": (1, "MAKEFLAGS += SHELL=/bin/sh\n"),
    "for a target, hidden": (2, "O := over\n$(eval out: $(O)ride SHELL := /bin/sh)\n"),
    "for a pattern": (1, "o%: override SHELL := /bin/sh\n"),
    "for these goals alone": (2, "ifeq ($(MAKECMDGOALS),out)\noverride SHELL := /bin/bash\nendif\n"),
    "by an include that is made": (1, "override SHELL := /bin/sh\n-include made.mk\nmade.mk: ; touch RAN made.mk\n"),
    "in a recipe": (2, "some:\n\t$(eval override SHELL := /bin/sh)\n"),
}
RECIPE = "out: sub\n\t+touch RAN; $(MAKE) -C sub\n"
TAKEN = ("SHELL := /bin/bash\nMAKEFLAGS += -k --no-print-directory\n", "out: SHELL = /bin/bash\nexport SHELL\n",
         "define T\nSHELL = /bin/bash\nout: SHELL = /bin/bash\nendef\nU = $(eval $(T))\n",
         "MAKEFLAGS += CONFIG_SHELL=/bin/bash\noverride SHELL_OF = /bin/sh\n")


class Databases(unittest.TestCase):
    """What is found in what make tells."""

    def told(self, database):
        """What is said of it."""
        return recipe_shell.first_fault(database, "Makefile", "/room")

    def test_a_shell_of_the_tools_is_taken(self):
        for text in ("# command line\nSHELL = /room/noop", "out: SHELL = /room/noop", "# SHELL = /room/teller kati:$@",
                     "define T\nSHELL = /bin/sh\nendef", "T = out: SHELL = /bin/sh", "MAKEFLAGS = pn SHELL=/room/noop",
                     "SHELLS = /bin/sh", "# environment\nA = override B = SHELL"):
            self.assertIsNone(self.told(text + "\n"), text)

    def test_others_are_told_with_their_line(self):
        for text in ("# 'override' directive (from 'a.mk', line 7)\nSHELL := /bin/sh",
                     "%.o :\n# 'override' directive (from 'a.mk', line 7)\n# SHELL := /bin/sh",
                     "# makefile (from 'a.mk', line 7)\nMAKEFLAGS = SHELL=/bin/sh",
                     "# makefile (from 'a.mk', line 7)\nT = override SHELL := /bin/sh"):
            self.assertTrue((self.told(text + "\n") or "").startswith("a.mk:7: "), text)
        # A makefile that make reads as standard input has a line of the tools' own before it.
        self.assertTrue(self.told("# x (from '/tmp/Gm1x3y5z', line 7)\nSHELL = /bin/sh\n").startswith("Makefile:6: "))


@needs("kati", "kati-asked", "make", "ninja")
class Refused(Tree):
    """kati-port, kati-build --port and kati-compare refuse such a makefile; none runs a line of it."""

    def tried(self, *words):
        """What a tool says, which must have run nothing."""
        ran = self.tool(*words)
        self.assertEqual([path for path in self.top.rglob("*") if path.name == "RAN"], [], ran.all)
        self.assertFalse((self.top.parent / "RAN").exists(), ran.all)
        return ran

    def asked(self, text):
        """What is said of a makefile that begins with this text, as the tools look first; None where it is taken."""
        self.put("Makefile", text + RECIPE)
        room = os.path.join(self.top.parent, "room")
        os.makedirs(room, exist_ok=True)
        with programs.inside(self.top):
            try:
                make_run.MakeRun("Makefile", ["out"], [], room, {}).refuse_other_shells()
            except recipe_shell.OtherShell as found:
                return str(found)
        return None

    def test_make_tells_of_others(self):
        for name, (line, text) in OTHERS.items():
            told = self.asked(text) or "taken"
            self.assertTrue(told.startswith(f"Makefile:{line}: "), f"{name}: {told}")
            self.assertEqual(list(self.top.iterdir()), [self.top / "Makefile"])

    def test_make_tells_that_it_takes_the_one_of_the_tools(self):
        for text in TAKEN:
            self.assertIsNone(self.asked(text), text)

    def test_each_tool_refuses_it(self):
        self.put("sub/Makefile", f"all: ; touch {self.top.parent}/RAN\n")
        recipe = RECIPE.replace("touch ", f"touch {self.top.parent}/")
        self.put("Makefile", f"ifdef MAKE_VERSION\n{OTHERS['for a target, hidden'][1]}endif\n{recipe}")
        for words in (("kati-port", "--write", "Makefile"), ("kati-build", "--port", "--no-ninja"),
                      ("kati-compare", "--builtin")):
            ran = self.tried(*words)
            self.assertEqual(ran.status, 2 if words[0] == "kati-build" else 1, ran.all)
            self.assertIn("Makefile:3: override of SHELL", ran.said)


if __name__ == "__main__":
    unittest.main()
