"""Goals beside the default one: `ninja clean`, `kati-build install`, and what a plain ninja does after them."""
from __future__ import annotations

import unittest

from sequences import BUILD, MAKE, NINJA, Compared, Sequence, Step

MAKEFILE = """\
all: prog out/y
prog: main.o
	@@ cc -o $@ $^
%.o: %.c
	@@ cc $(CFLAGS) -c -o $@ $<
out/y: a
	@@ mkdir -p out; cp a out/y
install: all
	@@ mkdir -p dest; cp prog $(wildcard out/*) dest
clean:
	@@ rm -f $(wildcard *.o) prog
fclean: ; @@ rm -f prog
re: fclean all
debug: CFLAGS = -DX=7
debug: all
test:
	@@ echo tested
.PHONY: all install clean fclean re debug test
"""
FILES = {"Makefile": MAKEFILE, "a": "1\n", "main.c": "int main(void){return 0;}\n"}
CONFIGURED = """\
ifeq (,$(filter clean,$(MAKECMDGOALS)))
include config.mk
endif
all: prog
prog: a
	@@ echo $(WITH) > prog
config.mk: configure
	@@ ./configure
clean:
	@@ rm -f prog
"""
GOAL_FLAGS = """\
all: CFLAGS += -DALL
ifeq ($(MAKECMDGOALS),debug)
all: CFLAGS += -DDEBUG
endif
all: prog
	@@ echo $(CFLAGS) $(shell cat prog) > flags
prog: a
	@@ echo prog $(CFLAGS) > prog
debug: all
.PHONY: all debug
"""


def goal(*words, by=BUILD, edit=":"):
    """A step that builds a goal."""
    return Step(edit, words, by)


SEQUENCES = (
    Sequence("clean after a build, by kati-build", FILES, (Step(), goal("clean"), Step()), is_settled=False),
    Sequence("clean after a build, by ninja", FILES, (Step(), goal("clean", by=NINJA), Step())),
    Sequence("an object that no rule names", FILES, (Step("touch z.o"), goal("clean", by=NINJA)), is_settled=False),
    Sequence("install from scratch", FILES, (goal("install"), Step("echo 2 > a", by=NINJA),
                                             goal("install"), goal("install", by=NINJA, edit="echo 3 > a"))),
    Sequence("re with all up to date", FILES, (Step(), goal("re"), goal("re", by=NINJA), Step()), is_settled=False),
    Sequence("re by make", FILES, (Step(), goal("re", by=MAKE), Step())),
    Sequence("a phony goal beside a folder of its name", FILES, (
        Step("mkdir test; echo > test/x"), goal("test", by=NINJA), goal("test", by=NINJA), goal("test"), goal("test")),
             is_settled=False),
    Sequence("a file with a goal's name", FILES, (
        Step("echo mine > install"), goal("install", by=NINJA), goal("install", by=NINJA), Step(),
        goal("clean", by=NINJA)), is_settled=False),
    Sequence("clean from scratch does not configure", {
        "Makefile": CONFIGURED, "a": "", "configure": "#!/bin/sh\necho WITH = x > config.mk\n"}, (
            goal("clean", edit="chmod +x configure"), goal("clean"), Step(by=NINJA))),
    Sequence("other variables", FILES, (
        Step(), Step("touch main.c", ("CFLAGS=-DX=1",), may_run=("out/y",)),
        Step("touch main.c", may_run=("out/y",)))),
    Sequence("flags of a goal", {"Makefile": GOAL_FLAGS, "a": "1\n"}, (
        goal("debug"), goal("debug", edit="echo 2 > a")), is_settled=False),
)


class Goals(Compared):
    """Each sequence by make and by kati-build."""

    def test_sequences(self):
        for sequence in SEQUENCES:
            self.compare(sequence)

    def test_a_goal_leaves_the_default_goal_alone(self):
        self.put({name: text.replace("@@", "@") for name, text in FILES.items()})
        self.build()
        before = self.read("build.ninja")
        self.build("debug")
        self.assertEqual(before, self.read("build.ninja"))
        ran = self.ninja("-t", "commands")
        self.assertNotIn("-DX=7", ran.said)

    def test_ninja_clean_deletes_no_file_with_a_goals_name(self):
        self.put({**{name: text.replace("@@", "@") for name, text in FILES.items()}, "install": "mine\n"})
        self.build()
        self.ninja("install")
        self.ninja("-t", "clean")
        self.assertEqual("mine\n", self.read("install"))


if __name__ == "__main__":
    unittest.main()
