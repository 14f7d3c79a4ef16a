"""make is asked in the user's environment, and what of it a makefile refers to is handed to kati."""
import os
import unittest

from support import Tree, needs

from kati_tools.makefile.ported_text import PortedFile
from kati_tools.port import environment_names

# What a makefile has of the environment, in the commands of its recipe and in those of its calls.
HANDED = """\
CFLAGS += -I$(INC)
CC ?= gcc
LATE := x$(EARLY)
EARLY = 1
INC = inc
GIVEN = plain
ifdef DEBUG
D = -g
endif
V := $(shell echo $$MY_PATH)
out: ; echo $(CC) $(CFLAGS) $(D) $(V) $(LATE) $(GIVEN) '$(ODD)' $(HOME) > $@
"""
GIVEN = {"CC": "clang", "CFLAGS": "-O2", "DEBUG": "1", "MY_PATH": "/opt/x", "ODD": " a#b $(INC) ", "GIVEN": "no",
         "HOME": "/home/someone"}


def lines(text):
    """The lines of a makefile."""
    return PortedFile("Makefile", text).lines


class Names(unittest.TestCase):
    """Which variables of the environment a makefile hangs on."""

    def test_names(self):
        usual = environment_names.of_the_usual_rules()
        for text, wanted in {"A = $(B)\n": {"B"}, "A ?= 1\n": {"A"}, "A += 1\n": {"A"}, "A = 1\nC = $(A)\n": set(),
                             "ifdef A\nendif\nA = 1\n": {"A"},
                             "ifeq (1,$(B))\nA = 1\nendif\nC = $(A)\n": {"A", "B"},
                             "ifdef MAKE_VERSION\nA = $(B)\nelse\nA = $(C)\nendif\nD = $(A)\n": {"B"},
                             "ifndef MAKE_VERSION\nD = $(C)\nelse ifdef B\nA = 1\nendif\nD = $(A)\n": {"A", "B"},
                             "C := $(A)\nA = 1\n": {"A"},
                             "PATH := /x:$(PATH)\n": {"PATH"},
                             "all: $(A:.c=.o) ${B}\n\techo $(call C,$(D)) $$E\n": {"A", "B", "C", "D"},
                             "all: ; $(LINK.f) $(B)\n": {"B", "FC", "FFLAGS"},
                             "FC = 1\nA = $(F77)\n": {"F77"},
                             "A = $(origin B) $(SHELL) $(CURDIR) $(MAKEFLAGS)\n": {"B"}}.items():
            found = environment_names.referred(lines(text), ())
            self.assertEqual(set(found) - (usual - wanted), wanted, text)
        self.assertIn("CFLAGS", usual)
        self.assertNotIn("FC", usual)

    def test_names_that_commands_take(self):
        found = environment_names.referred(lines("A = 1\n"), ["echo $B ${C} $A '$1'"])
        self.assertTrue({"A", "B", "C"} < set(found))


@needs("kati", "kati-asked", "make", "ninja")
class Asked(Tree):
    """What kati makes of a makefile in an environment is what make makes of it there."""

    def makes(self, **environment):
        """What make writes into the file, which is taken away again."""
        ran = self.run_in("make", "-s", **environment)
        self.assertEqual(ran.status, 0, ran.all)
        return self.take()

    def take(self):
        """What stands in the file, which is taken away."""
        found = self.read("out")
        (self.top / "out").unlink()
        return found

    def test_a_value_and_a_command_have_what_the_environment_has(self):
        self.put("Makefile", HANDED)
        wanted = self.makes(**GIVEN)
        self.assertIn("clang -O2 -Iinc -g /opt/x x plain", wanted)
        self.assertEqual(self.tool("kati-build", "--port", **GIVEN).status, 0)
        self.assertEqual(self.take(), wanted)
        said = self.tool("kati-port", "--write", "Makefile", **GIVEN).all
        self.assertIn("what the environment has, in kati-values.mk: CC CFLAGS DEBUG HOME ODD\n", said)
        self.assertIn("kati's commands are make's\n", said)
        self.assertIn("same: 1 command\n", self.tool("kati-compare", "--builtin", **GIVEN).out)

    def test_values_asked_for_again_have_what_it_has_then(self):
        self.put("Makefile", HANDED)
        self.assertEqual(self.tool("kati-port", "--write", "Makefile", **GIVEN).status, 0)
        other = {"CFLAGS": "-O1", "EARLY": "2", "MY_PATH": "/opt/y"}
        self.assertEqual(self.tool("kati-port", "--values", **other).status, 0)
        self.assertEqual(self.tool("kati-build", "--builtin", **other).status, 0)
        found = self.take()
        self.assertEqual(found, self.makes(**other))
        self.assertIn(" -O1 -Iinc /opt/y x2 plain", found)

    def test_kati_build_asks_again_where_a_listed_variable_has_changed(self):
        self.put("Makefile", "V := $(shell echo $$MY_PATH)\nout: Makefile ; echo '$(V) $(GIVEN)' > $@\n")
        build = ("kati-build", "--port")
        self.assertEqual(self.tool(*build, MY_PATH="/a", GIVEN="1").status, 0)
        self.assertEqual(self.read("out"), "/a 1\n")
        self.assertEqual(self.run_in("ninja", MY_PATH="/a", GIVEN="1").status, 0)
        # A plain ninja doesn't see it.
        self.assertIn("no work to do", self.run_in("ninja", MY_PATH="/b", GIVEN="1").out)
        for name, value, given in (("MY_PATH", "/b 1", {"MY_PATH": "/b", "GIVEN": "1"}),
                                   ("GIVEN", "/b ", {"MY_PATH": "/b"}),
                                   ("GIVEN", "/b 2", {"MY_PATH": "/b", "GIVEN": "2"})):
            ran = self.tool(*build, **given)
            self.assertIn(f"${name} is another one: make is asked again\n", ran.said)
            self.assertEqual(self.read("out"), f"{value}\n")
        self.assertNotIn("asked again", self.tool(*build, MY_PATH="/b", GIVEN="2").said)

    def test_what_a_written_makefile_comes_to_name_is_asked_for(self):
        self.put("Makefile", "V := $(shell echo 1)\nout: ; echo '$(V)' > $@\n")
        self.assertEqual(self.tool("kati-port", "--write", "Makefile", MY="a").status, 0)
        build = ("kati-build", "--builtin")
        self.assertEqual(self.tool(*build, MY="a").said, "")
        for name in ("MY", "CURDIR"):
            self.put("Makefile", self.read("Makefile").replace("$(V)'", f"$({name}) $(V)'"))
            self.take()
            wanted = self.makes(MY="a")
            ran = self.tool(*build, MY="a")
            told = f"kati-values.mk has no {name}, which the makefile names now: make is asked again\n"
            self.assertIn(told, ran.said)
            self.assertEqual(self.take(), wanted)
            self.assertNotIn("asked again", self.tool(*build, MY="a").said)

    def test_each_call_runs_once_or_twice_and_holds_nothing_up(self):
        pipe = self.top.parent / "held"
        os.mkfifo(pipe)
        # What stays in the background waits until someone opens the pipe, as this test does in the end.
        self.put("Makefile", "V := $(shell echo x >> $$LOG; cat $$HELD > /dev/null & echo 1)\nexport V\n"
                             "out: ; echo $(V) $(shell echo y >> $$LOG; echo 2) > $@\n")
        log = self.top.parent / "log"
        ran = self.tool("kati-build", "--port", "--no-ninja", LOG=str(log), HELD=str(pipe))
        with open(os.open(pipe, os.O_RDWR), "wb"):
            self.assertEqual(ran.status, 0, ran.all)
        lines = log.read_text().split()
        self.assertIn(lines.count("x"), (1, 2))
        self.assertIn(lines.count("y"), (1, 2))

    def test_what_a_make_hands_to_another_is_not_handed_on(self):
        self.put("Makefile", "V := $(shell echo $$MAKELEVEL.$$MAKEFILES.$$MAKEFLAGS)\nout: ; echo '$(V)' > $@\n")
        self.put("more.mk", "out: more\n")
        wanted = self.makes()
        given = {"MAKEFILES": str(self.top / "more.mk"), "MAKEFLAGS": "rR", "MFLAGS": "-rR", "MAKELEVEL": "5"}
        self.assertEqual(self.tool("kati-build", "--port", **given).status, 0)
        self.assertEqual(self.take(), wanted)


if __name__ == "__main__":
    unittest.main()
