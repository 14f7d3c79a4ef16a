"""Whether another text of an include may change the command that makes it."""
import unittest

from kati_tools.build import own_commands

INCLUDE = "V = 1\n# a version\nW := 2\n"
RULE = "v.mk: v.txt\n\tgen < $< > $@\n"
# The texts of other makefiles: by these it may, and by those it can't.
MAY = {
    "its recipe": "v.mk: v.txt\n\tgen $(V) > $@\n",
    "its recipe on the line of the rule": "v.mk: ; gen ${W} > $@\n",
    "a macro of its recipe": "A = x$(V)\nB := $(A)\nv.mk: ; gen $(B) > $@\n",
    "its prerequisites": "v.mk: $(V).txt\n\tgen > $@\n",
    "its own macro": "v.mk: F = $(V)\nv.mk: ; gen $(F) > $@\n",
    "a conditional": RULE + "ifeq ($(V),1)\nF = -x\nendif\n",
    "a conditional that tests whether it is there": RULE + "ifdef W\nF = -x\nendif\n",
    "a definition": "define T\n$(V)\nendef\nv.mk: ; gen $(T) > $@\n",
    "the shell, by a definition": RULE + "define T\n$(V)\nendef\nSHELL = $(T)\n",
    "the shell": RULE + "SHELL = A=$(V) /bin/sh\n",
    "the shell behind a tab": RULE + "\tA = $(V)\nw: ; x\n\tSHELL = $(A)\n",
    "a rule that may be its own": RULE + "$(V): ; x\n",
    "a pattern": "%.mk: %.txt\n\tgen > $@\n",
    "no recipe": "v.mk: v.txt\n",
    "a name that is computed": RULE + "A = $(B_$(C))\nB_1 = $(V)\n",
    "an include": RULE + "include $(V).mk\n",
    "an evaluation": RULE + "$(eval A = $(V))\n",
    "an export": RULE + "export V\n",
    "a name that a function is given": RULE + "N = V\nv.mk: F = $(value $(N))\n",
    "a name that a function computes": RULE + "A = $(call $(B),x)\nB_1 = $(V)\n",
    "all names": RULE + "ifneq ($(filter W%,$(.VARIABLES)),)\nF = -x\nendif\n",
    "a name of a letter": "A = $Vx\nv.mk: ; gen $(A) > $@\n",
    "a branch in its recipe": "v.mk: v.txt\nifdef X\n\tgen $(V) > $@\nelse\n\tgen > $@\nendif\n",
    "a definition of a computed name": RULE + "define $(X)\n$(V)\nendef\n",
    "a line that goes on": "v.mk: v.txt\n\tgen \\\n\t$(V) > $@\n",
}
CANNOT = {
    "another recipe": RULE + "all: out\nout: ; echo $(V)\n\techo $(W)\n",
    "another target's macro": RULE + "prog: F = $(V)\nprog: a.o\n",
    "another prerequisite": RULE + "# $(V)\nall: $(V).o\n",
    "a name that is computed otherwise": RULE + "A = $(C_$(B))\nB_1 = $(V)\n",
    "a definition that another recipe has": RULE + "define T\n$(V)\nendef\nall: ; echo $(T)\n",
}
# Includes that do more than to assign.
OTHERS = ("V = 1\nall: x\n", "ifdef A\nV = 1\nendif\n", "export V = 1\n", "$(X) = 1\n", "define V\n1\nendef\n",
          "include w.mk\n")


class OwnCommands(unittest.TestCase):
    """Small makefiles beside an include."""

    def test_it_may(self):
        for name, text in MAY.items():
            self.assertTrue(own_commands.may_hang_on_itself(INCLUDE, "v.mk", ["all:\n", text]), name)

    def test_it_cannot(self):
        for name, text in CANNOT.items():
            self.assertFalse(own_commands.may_hang_on_itself(INCLUDE, "v.mk", ["all:\n", text]), name)

    def test_it_may_where_it_does_more_than_to_assign(self):
        for text in OTHERS:
            self.assertTrue(own_commands.may_hang_on_itself(text, "v.mk", [RULE]), text)


if __name__ == "__main__":
    unittest.main()
