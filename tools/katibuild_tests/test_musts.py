"""What must be as with make: trees in which an earlier kati-build harmed a file, or built something stale."""
from __future__ import annotations

import unittest

from sequences import MAKE, NINJA, Compared, Sequence, Step
from trees import BUILD

C = {"a.c": "int f(void){return 1;}\n", "b.c": "int g(void){return 2;}\n", "h.h": "#define H 3\n",
     "m.c": "#include \"h.h\"\nint f(void);int main(void){return H+f();}\n"}
HEADER = "echo '#define H %d' > h.h"
WITH_DEPFILES = "prog: m.o a.o\n\t@@ cc -o $@ $^\n%.o: %.c\n\t@@ cc -MMD -c -o $@ $<\n-include $(wildcard *.d)\n"
CONFIGURE = "#!/bin/sh\necho WITH = ${1:-defaults} > config.mak\n"


def header(number, by, **more):
    """A step in which a header changes."""
    return Step(HEADER % number, by=by, **more)


SEQUENCES = (
    Sequence("config.h that the user edits, and other flags", {
        "Makefile": "CFLAGS = -O1\nprog: prog.c config.h\n\t@@ $(CC) $(CFLAGS) -o $@ prog.c\n"
                    "config.h: ; @@ cp config.def.h config.h\n",
        "prog.c": "#include \"config.h\"\nint main(void){return COLOUR;}\n", "config.def.h": "#define COLOUR 1\n"}, (
            Step(), Step("echo '#define COLOUR 42' > config.h"), Step("echo '#define COLOUR 43' > config.h", by=NINJA),
            Step("echo '#define COLOUR 44' > config.h", environment={"CFLAGS": "-g"}),
            Step(may_run=("prog",), apart=("prog",)), Step("rm config.h"),
            Step("echo '/* def */' > config.def.h", by=NINJA),
            Step("echo '#define COLOUR 45' > config.h; sed -i s/-O1/-O0/ Makefile; touch *.c"), Step())),
    Sequence("an object whose recipe makes a folder", {
        "Makefile": "p: m.o\n\t@@ cc -o $@ $^\nm.o: m.c\n\t@@ mkdir -p .depend; cc -MMD -MF .depend/m.d -c -o $@ m.c\n"
                    "-include .depend/m.d\n", "m.c": "int main(void){return 0;}\n"}, (
            Step(), Step("echo >> m.c", by=NINJA), Step())),
    Sequence("a folder that a rule makes by mkdir, and other flags", {
        "Makefile": "prog: .o .o/a\n\t@@ cat .o/a > $@\n.o:\n\t@@ mkdir .o\n"
                    ".o/a: a | .o\n\t@@ cp a $@\n", "a": "1\n"}, (
            Step(), Step(words=("X=1",), may_run=("prog", ".o/a")), Step("echo 2 > a", words=("X=1",)))),
    Sequence("config.h of the user, from the first build on", {
        "Makefile": "prog: prog.c config.h\n\t@@ cat prog.c config.h > $@\nconfig.h: ; @@ cp config.def.h config.h\n",
        "prog.c": "p\n", "config.def.h": "def\n", "config.h": "mine\n"}, (
            Step(), Step("echo mine too > config.h"), Step("echo p2 > prog.c", by=NINJA))),
    Sequence("./configure as the rule says", {
        "Makefile": "include config.mak\nprog: a.c\n\t@@ echo built with $(WITH) > prog\n"
                    "config.mak: configure\n\t@echo please run ./configure; exit 1\n",
        "configure": CONFIGURE, "a.c": ""}, (
            Step("chmod +x configure; ./configure extra"), Step("touch configure; sleep 0.02; ./configure extra"),
            Step("touch configure; sleep 0.02; ./configure other; echo > a.c"), Step(by=NINJA))),
    Sequence("config.h of ./configure, which is no makefile", {
        "Makefile": "prog: a.c config.h\n\t@@ cat a.c config.h > $@\nconfig.h: configure\n"
                    "\t@echo please run ./configure; exit 1\n",
        "configure": "#!/bin/sh\necho ${1:-defaults} > config.h\n", "a.c": "a\n"}, (
            Step("chmod +x configure; sleep 0.02; ./configure extra"), Step(words=("CFLAGS=-g",), may_run=("prog",)),
            Step("echo b > a.c"), Step("touch configure; sleep 0.02; ./configure other", by=NINJA),
            Step("touch configure", by=NINJA), Step("./configure more"))),
    Sequence("an include without a dash that looks like a depfile", {
        "Makefile": "include deps.mk\nprog: in\n\t@@ cat $^ > $@\n", "deps.mk": "prog: extra\n", "in": "1\n",
        "extra": "2\n"}, (
            Step(), Step("echo 3 > extra", by=NINJA), Step("echo 'prog: more' >> deps.mk; echo 4 > more", by=NINJA),
            Step("echo 5 > more"))),
    Sequence("header dependencies of automake", {
        "Makefile": "include ./.deps/m.Po\nprog: m.o\n\t@@ cc -o $@ m.o\nm.o: m.c\n\t@@ cc -MT $@ -MD -MP "
                    "-MF .deps/m.Tpo -c -o $@ m.c && mv .deps/m.Tpo .deps/m.Po\n.DEFAULT_GOAL := prog\n",
        ".deps/m.Po": "# dummy\n", "m.c": "#include \"h.h\"\nint main(void){return H;}\n", "h.h": "#define H 3\n"}, (
            Step(), header(4, NINJA), header(5, "build"), header(6, MAKE), Step("echo >> m.c"), header(7, NINJA))),
    Sequence("settings that a build keeps after it has cleaned", {
        "Makefile": "-include .settings\nall: prog\nifneq ($(F),new)\n.pre: keep\nendif\nprog: a.o\n"
                    "\t@@ cat a.o > $@\na.o: a.c .pre\n\t@@ echo '[$(F)]' > $@\n.pre:\n\t@touch $@\n"
                    "keep: clean\n\t@echo F=new > .settings\nclean:\n\t@rm -f *.o\n.PHONY: all keep clean\n",
        "a.c": "a\n"}, (Step(), Step(), Step("touch a.c", by=NINJA))),
    Sequence("a rule and its file come by a pull", {
        "Makefile": "prog: a.c\n\t@@ cat a.c > $@\n", "a.c": "a\n"}, (
            Step(), Step("printf 'prog: a.c p.c\\n\\tcat a.c p.c > $@\\np.c: p.y\\n\\tcp p.y p.c\\n' > Makefile; "
                         "echo y > p.y; sleep 0.02; echo shipped > p.c; touch a.c"),
            Step("sleep 0.02; echo y2 > p.y", by=NINJA))),
    Sequence("a recipe fails and leaves half a file", {
        "Makefile": "prog: a\n\techo half > $@; test -f ok; cat a >> $@\n", "a": "a\n"}, (
            Step(), Step("touch ok; rm -f prog"), Step("echo b >> a"))),
    Sequence("a half-written file before the first build", {
        "Makefile": "prog: a\n\t@@ cat a > $@\n", "a": "a\n"}, (
            Step("echo half > prog; sleep 0.02; touch a"), Step())),
    Sequence("a tree that make built", {"Makefile": WITH_DEPFILES, **C}, (
        Step("make -s; echo > ../log"), header(4, NINJA), Step("echo >> a.c"))),
    Sequence("a tree that make built, and an edited header", {"Makefile": WITH_DEPFILES, **C}, (
        Step("make -s; sleep 0.02; " + HEADER % 5), Step())),
    Sequence(".depend where it exists", {
        "Makefile": "all: .depend prog\n.depend: m.c a.c\n\t@@ cc -MM m.c a.c > $@\nifneq ($(wildcard .depend),)\n"
                    "include .depend\nendif\nprog: m.o a.o\n\t@@ cc -o $@ $^\n%.o: %.c\n\t@@ cc -c -o $@ $<\n", **C}, (
            Step(), header(4, NINJA), header(5, NINJA), Step("echo '/**/' >> a.c", by=NINJA))),
    Sequence("parser.c shipped, the makefile edited", {
        "Makefile": "SRCS := $(wildcard *.c)\nprog: $(SRCS:.c=.o)\n\t@@ cat $^ > $@\n%.o: %.c\n\t@@ cp $< $@\n"
                    "parser.c: parser.y\n\t@@ cp $< $@\n", "a.c": "a\n", "parser.y": "p\n"}, (
            Step("sleep 0.02; echo shipped > parser.c"), Step("echo '# x' >> Makefile"),
            Step("echo a2 > a.c", by=NINJA), Step("echo p2 > parser.y"))),
    Sequence("y.c y.h of one recipe, y.h after y.c", {
        "Makefile": "all: p\np: y.c y.h\n\t@@ cat y.c y.h > p\ny.c y.h: g.y\n\techo c > y.c; echo h > y.h\n"
                    "y.h: y.c\n", "g.y": ""}, (Step(), Step("touch g.y"), Step())),
    Sequence("y.c shipped, y.h not needed", {
        "Makefile": "all: p\np: y.c\n\t@@ cat y.c > p\ny.c y.h: g.y\n\t@@ cp g.y y.c; cp g.y y.h\n",
        "g.y": "1\n"}, (Step("sleep 0.02; echo shipped > y.c"), Step(), Step("sleep 0.02; echo 2 > g.y"))),
    Sequence("a file that is written only if it changes", {
        "Makefile": "prog: a.o b.o\n\t@@ cat a.o b.o > prog\na.o b.o: config.h\n%.o: %.c\n\t@@ cat $< config.h > $@\n"
                    "config.h: config.in\n\t@sed s/x/y/ config.in > tmp; cmp -s tmp config.h || cp tmp config.h\n",
        "config.in": "x\n", "a.c": "1\n", "b.c": "1\n"}, (
            Step(), Step("touch config.in"), Step("touch config.in", by=NINJA), Step("echo x2 > config.in", by=NINJA),
            Step("touch config.in", by=NINJA)), is_settled=False),
    Sequence("header dependencies, by kati-build", {"Makefile": "export X=1\n" + WITH_DEPFILES, **C}, (
        Step(), header(4, NINJA), header(5, NINJA), header(6, "build"), Step("echo '#include \"h.h\"' >> a.c"),
        header(7, NINJA))),
    Sequence("header dependencies, by turns", {"Makefile": "export X=1\n" + WITH_DEPFILES, **C}, (
        Step(), header(4, MAKE), Step(), header(5, NINJA), Step(by=MAKE), header(6, MAKE), header(7, "build"),
        Step("echo >> a.c; make -s a.o; echo >> m.c"), Step("touch m.c", by=MAKE), Step())),
    Sequence("a source comes and goes", {
        "Makefile": "SRCS := $(wildcard *.c)\nprog: $(SRCS:.c=.o)\n\t@@ cc -o $@ $^\n%.o: %.c\n"
                    "\t@@ cc -MMD -c -o $@ $<\n-include $(SRCS:.c=.d)\n", **C}, (
            Step(), Step("echo '#include \"h.h\"' > k.c", by=NINJA), header(5, NINJA),
            Step("rm k.c", by=NINJA, apart=("prog",), may_run=("prog",)),
            Step("rm -f k.o k.d; echo '#include \"h.h\"' > k.c"), header(6, "build"))),
    Sequence("an always run recipe that leaves its file", {
        "Makefile": "prog: a.c lua.h\n\t@@ cat a.c lua.h > $@\n"
                    "lua.h: FORCE\n\t@echo 1 > tmp; cmp -s tmp $@ || cp tmp $@\nFORCE:\n", "a.c": "a\n"}, (
            Step(), Step(), Step(by=NINJA), Step("echo b > a.c", by=NINJA)),
        is_settled=False),
    Sequence("older files of a checkout", {"Makefile": WITH_DEPFILES, **C}, (
        Step("mkdir ../old; cp -p *.c *.h ../old"), Step("echo '#define H 9' > h.h; echo >> a.c"),
        Step("cp ../old/* .", by=NINJA), Step("rm -r ../old"))),
    Sequence("a rule of :: without prerequisites", {
        "Makefile": "all: x y z\nx::\n\t@@ echo x >> x\ny: x\n\t@@ cp x y\nz:: a\n\t@@ cp a z\n", "a": ""}, (
            Step(), Step(), Step("touch a", by=NINJA)), is_settled=False),
    Sequence("an intermediate source", {
        "Makefile": "SRCS := $(wildcard *.c)\nOBJS := $(SRCS:.c=.o) gram.o\nprog: $(OBJS)\n\t@@ cc -o $@ $(OBJS)\n"
                    ".c.o:\n\t@@ cc -c -o $@ $<\n.y.c:\n\t@@ cp $< $@\n",
        "main.c": "int f(void); int main(void) { return f(); }\n", "gram.y": "int f(void) { return 0; }\n"}, (
            Step(), Step(), Step(by=MAKE), Step("echo 'int f(void) { return 1; }' > gram.y", by=NINJA),
            Step("touch main.c", by=NINJA), Step("touch gram.y", by=MAKE), Step())),
    Sequence("an intermediate file of two", {
        "Makefile": "all: a.x a.y\n%.m: %.s\n\t@@ cp $< $@\n%.x: %.m\n\t@@ cp $< $@\n%.y: %.m\n\t@@ cp $< $@\n",
        "a.s": "1\n"}, (Step(apart=("a.m",)), Step("echo 2 > a.s", apart=("a.m",)))),
    Sequence("two stages", {
        "Makefile": "ifeq ($(wildcard conf),)\nall: conf\nelse\nall: prog\nendif\nconf:\n\t@@ touch $@\n"
                    "prog:\n\t@@ echo built > $@\n"}, (Step("make -s; make -s"), Step())),
)


SUCKLESS = """\
prog: prog.c config.h
	cat prog.c config.h > $@
CP = cp
config.h: | out ; $(CP) config.def.h $@
out: ; mkdir $@
"""
# name, what happens after a first build; OTHER gives the recipe of config.h another text
EDITED = (
    ("ninja -t clean", "echo mine > config.h; ninja -t clean; ninja"),
    ("the log is lost", "echo mine > config.h; rm .kati/.ninja_log; ninja"),
    ("another ninja's log", "echo mine > config.h; sed -i '1s/v[0-9]*/v4/' .kati/.ninja_log; ninja"),
    ("another text", "echo mine > config.h; $OTHER; ninja; ninja"),
    ("a file of before", "echo mine > old; touch -d 1999-01-01 old; cp -p old config.h; ninja"),
    ("clean after another text", "$OTHER; ninja; echo mine > config.h; ninja -t clean; ninja"),
    ("a file of before, after another text", "echo mine > old; $OTHER; ninja; cp -p old config.h; ninja; $BUILD"),
    ("clean after another text by kati-build", "$OTHER; $BUILD; echo mine > config.h; ninja -t clean; $BUILD"),
    ("a failed build for another text", "$OTHER; echo 'prog: x' >> Makefile; echo 'x: s; cp s x; exit 1' >> Makefile; "
     "touch s; ! ninja; echo mine > config.h; sed -i 's/; exit 1//' Makefile; ninja"),
    ("no build for another text", "$OTHER; $BUILD --no-ninja; echo mine > config.h; ninja"),
    ("--anew", "echo mine > config.h; $BUILD --anew"),
)
# How makefiles read a file that the build makes, while make reads them.
OF_A_PRODUCT = ("V := $(shell cat ver 2>/dev/null)", "V != cat ver 2>/dev/null || :", "V := $(file < ver)",
                "F = ver\nV := $(if $(wildcard $F),$(shell cat $F))", "W := $(shell cat ver 2>/dev/null)\nV = $(W)")


class Musts(Compared):
    """Each sequence by make and by kati-build."""

    def test_sequences(self):
        for sequence in SEQUENCES:
            self.compare(sequence)

    def test_the_text_of_a_file_that_is_built(self):
        """The second run builds by the text that the first run has made, although make would not; no run does twice."""
        for number, variable in enumerate(OF_A_PRODUCT):
            with self.subTest(variable):
                self.start_again()
                self.put({"Makefile": variable + "\nall: ver out other\nver: ver.in\n\techo ver >> log; cp $< $@\n"
                          "out: ver\n\techo $@ >> log; echo '[$(V)]' > $@\nother: ; echo $@ >> log; touch $@\n"})
                for text, ran in (("1", ["other", "out", "ver"]), ("2", ["out", "ver"])):
                    self.put({"ver.in": text + "\n", "log": ""})
                    self.assertEqual((0, ran), (self.build().status, sorted(self.read("log").split())))
                    self.put({"log": ""})
                    second = self.ninja() if number % 2 else self.build()
                    self.assertEqual((0, "out\n", f"[{text}]\n"), (second.status, self.read("log"), self.read("out")))
                self.assertFalse(self.build().has_work)

    def test_a_file_without_inputs_is_the_users(self):
        """What a user has made of such a file stays, whatever ninja or kati-build do."""
        for name, steps in EDITED:
            with self.subTest(name):
                self.start_again()
                self.put({"Makefile": SUCKLESS, "prog.c": "p\n", "config.def.h": "def\n"})
                self.assertEqual(0, self.build().status)
                self.assertEqual("def\n", self.read("config.h"))
                steps = steps.replace("; ", "; sleep 0.02; ").replace("$OTHER", "sed -i 's/= cp/= cp -f/' Makefile")
                self.sh(f"BUILD='{' '.join(BUILD)}'; {steps}")
                self.assertEqual("mine\n", self.read("config.h"))
                self.sh("rm config.h; ninja")
                self.assertEqual("def\n", self.read("config.h"))

    def test_a_file_without_inputs_and_another_text(self):
        """A file that is as the build left it is built by the new text, once."""
        self.put({"Makefile": "V = 1\nout: ; echo $(V) >> out\n"})
        self.build()
        for number, by in enumerate((self.ninja, self.build, self.ninja, self.ninja), 2):
            self.sh(f"sed -i 's/^V = .*/V = {number}/' Makefile")
            by()
            self.assertFalse(by().has_work)
        self.assertEqual("1\n2\n3\n4\n5\n", self.read("out"))

    def test_two_stages_in_one_run(self):
        self.put({"Makefile": "ifeq ($(wildcard conf),)\nall: conf\nelse\nall: prog\nendif\nconf: ; touch $@\n"
                              "prog: ; echo built > $@\n"})
        self.assertEqual(0, self.build().status)
        self.assertEqual("built\n", self.read("prog"))


if __name__ == "__main__":
    unittest.main()
