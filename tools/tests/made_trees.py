"""Trees that make builds before Ninja has a log for them: what `kati-build --as-made` is tried on.

Each has a makefile, in which four blanks stand for a tab; its other files; what is done after make, before kati-build
comes; and the cases, each what is done then, as a shell's text. Of some Ninja may make more than make, since it has no
line for what is in doubt."""
from typing import NamedTuple


class Made(NamedTuple):
    """A tree, with what happens to it."""
    makefile: str
    files: dict = {}
    before: str = ":"
    cases: tuple = (":",)
    is_more: bool = False


ONE = {"in": "1\n"}
PROGRAM = {"main.c": '#include "a.h"\nint main(void) { return A; }\n', "a.h": "#define A 0\n"}
OBJECT = {"x.c": '#include "a.h"\nint x;\n', "a.h": ""}
COPY = "all: out\nout: in\n    cp in out\n"
HEADERS = """\
CFLAGS = -MMD
all: main
main: main.o
    cc -o main main.o
main.o: main.c
    cc $(CFLAGS) -c main.c -o main.o
-include main.d
"""
TWO_OF_ONE_FILE = """\
all: x.o x.lo
x.o: x.c
    cc -MMD -c x.c -o x.o
x.lo: x.c
    cc -fPIC -MMD -c x.c -o x.lo
-include x.d
"""
IF_CHANGED = """\
all: main
main: main.c c.h
    cp main.c main
c.h: stamp{}
stamp: in
    cmp -s in c.h || cp in c.h; touch stamp
"""

PLAIN = {
    "a copy": Made(COPY, ONE, cases=(":", "touch in", "rm out", "touch out")),
    "a phony target with a file of its name":
        Made("all: out\n.PHONY: gen\ngen: ; echo x >> gen\nout: gen\n    cp gen out\n"),
    "a phony target that leaves its file":
        Made("all: out\n.PHONY: gen\ngen: ; test -f gen || echo x > gen\nout: gen\n    cp gen out\n"),
    "a file that is written where it changes":
        Made("all: main\nmain: main.c v.h\n    cat main.c v.h > main\nv.h: FORCE\n    echo 1 > v.t; cmp -s v.t v.h || "
             "cp v.t v.h\nFORCE:\n", {"main.c": "1"}, cases=(":", "touch main.c", "rm main")),
    "a source that a rule makes and nothing keeps":
        Made("all: x.o\n%.o: %.c\n    cp $< $@\n%.c: %.y\n    cp $< $@\n", {"x.y": "1"}, cases=(":", "touch x.y"),
             is_more=True),
    "two files of a pattern":
        Made("all: x.a x.b\n%.a %.b: %.in\n    cp $< $*.a; cp $< $*.b\n", {"x.in": "1"},
             cases=(":", "rm x.b", "touch x.in", "touch -d '3 days ago' x.a")),
    "a group": Made("all: a b\na b &: in\n    cp in a; cp in b\n", ONE,
                    cases=(":", "rm b", "touch -d '3 days ago' b")),
    "two targets of one rule": Made("all: a b\na b: in\n    cp in $@\n", ONE, cases=(":", "rm b")),
    "a folder for order alone":
        Made("all: obj/x\nobj/x: in | obj\n    cp in obj/x\nobj:\n    mkdir obj\n", ONE,
             cases=(":", "touch in", "touch obj")),
    "a folder as an input":
        Made("all: obj/x obj/y\nobj/x: in obj\n    cp in obj/x\nobj/y: in obj\n    cp in obj/y\nobj:\n    mkdir obj\n",
             ONE, cases=(":", "touch obj")),
    "a link": Made("all: l.so out\nl.so: l.so.1\n    ln -sf l.so.1 l.so\nl.so.1: in\n    cp in l.so.1\n"
                   "out: l.so\n    cp l.so out\n", ONE, cases=(":", "touch in")),
    "a copy that keeps its time":
        Made("all: out\nout: mid\n    cp -p mid out\nmid: in other\n    cp -p in mid\n", {**ONE, "other": "2"},
             cases=(":", "touch in")),
    "equal times": Made(COPY, ONE, "touch -d '2026-01-01 00:00:00.123456789' in out",
                        (":", "touch -d '2026-01-01 00:00:00.123456790' in")),
    "an output of the second 0": Made(COPY, ONE, "touch -d @0 out"),
    "an input of the second 0": Made(COPY, ONE, "touch -d @0 in"),
    "both of the second 0": Made(COPY, ONE, "touch -d @0 in; touch -d @0.5 out"),
    "times before 1970": Made(COPY, ONE, "touch -d @-500 in; touch -d @-100 out", is_more=True),
    "times to come": Made(COPY, ONE, "touch -d '1 hour' in; touch -d '1 hour' out"),
    "names that Ninja shortens":
        Made("all: ./x.o sub/../y.o d//z\n./x.o: ./x.c\n    cp x.c x.o\nsub/../y.o: x.c\n    cp x.c y.o\n"
             "d//z: x.c\n    cp x.c d/z\n", {"x.c": "1", "sub/keep": "", "d/keep": ""}, cases=(":", "touch x.c")),
    "names with other bytes":
        Made("all: a$$b ü.o 'q'\na$$b: in\n    cp in 'a$$b'\nü.o: in\n    cp in ü.o\n'q': in\n    cp in \"'q'\"\n",
             ONE, cases=(":", "touch in")),
    "a command with quotes and dollars":
        Made("all: out\nout: in\n    x='a b'; echo \"$$x it's $$$$\" > /dev/null; cp in out\n", ONE,
             cases=(":", "touch in")),
    "what a failed recipe left": Made("all: out\nout: in\n    echo half > out; test -f ok && echo whole > out\n", ONE),
    "made by other words": Made("X = 1\nall: out\nout: in\n    echo $(X) > out\n", ONE, "make -B X=2"),
    "a recipe that makes another file": Made("all: check\ncheck: in\n    cp in real; true\n", ONE),
    "an output that came with the sources":
        Made("all: out\nout: in\n    @true\n", {**ONE, "out": "1"}, "touch -d '1 day ago' out"),
    "a recipe that touches what it reads": Made("all: out\nout: in\n    cp in out; sleep 0.02; touch in\n", ONE),
    "make within make":
        Made("all: prog\nprog: lib/l.a in\n    cp lib/l.a prog\nlib/l.a: FORCE\n    $(MAKE) -C lib l.a\nFORCE:\n",
             {**ONE, "lib/Makefile": "l.a: l.c\n\tcp l.c l.a\n", "lib/l.c": "1"}, cases=(":", "touch lib/l.c")),
    "a step between is gone":
        Made("all: out\nout: mid\n    cp mid out\nmid: in\n    cp in mid\n", ONE, "rm mid"),
    "a step between is old":
        Made("all: e\nb: a\n    cp a b\nc: b\n    cp b c\nd: c\n    cp c d\ne: d\n    cp d e\n", {"a": "1"}, "touch c"),
    "a source that is changed before kati-build comes":
        Made("all: a b\na: in1\n    cp in1 a\nb: in2 a\n    cp in2 b\n", {"in1": "1", "in2": "1"}, "touch in1"),
    "the makefile as an input":
        Made("all: out\nout: in Makefile\n    cp in out\n", ONE, cases=(":", "touch Makefile")),
    "one of two goals is gone": Made("all: a b\na: in\n    cp in a\nb: in\n    cp in b\n", ONE, "rm b"),
    "a link that leads nowhere": Made("all: l\nl:\n    ln -sf nowhere l\n"),
    "a file that changes where its content does": Made(IF_CHANGED.format(" ;"), {"main.c": "1", **ONE},
                                                       cases=(":", "touch in", "touch main.c"), is_more=True),
    "the same by a recipe": Made(IF_CHANGED.format("\n    @:"), {"main.c": "1", **ONE}, "touch in; make -s",
                                 (":", "touch in"), is_more=True),
    "an include that is written by hand":
        Made("all: main\nmain: main.c\n    cp main.c main\n-include main.d\n",
             {"main.c": "1", "a.h": "1", "main.d": "main: a.h\n"}, cases=(":", "touch a.h")),
}

PORTED = {
    "header dependencies": Made(HEADERS, PROGRAM, cases=(":", "touch a.h", "touch main.c", "rm main.o")),
    "a header that is changed before kati-build comes": Made(HEADERS, PROGRAM, "touch a.h"),
    "no file of header dependencies is left": Made(HEADERS, PROGRAM, "rm main.d", (":", "touch a.h"), is_more=True),
    "an empty one": Made(HEADERS, PROGRAM, ": > main.d", (":", "touch a.h"), is_more=True),
    "a header that is gone, which -MP lets be":
        Made(HEADERS.replace("-MMD", "-MMD -MP"), PROGRAM,
             "rm a.h; echo 'int main(void) { return 0; }' > main.c; touch -d '2 days ago' main.c"),
    "headers in other folders":
        Made("all: o/main.o\no/main.o: main.c\n    cc -I. -MMD -MP -c main.c -o o/main.o\n-include o/main.d\n",
             {"main.c": '#include "./i/../i/a.h"\nint x;\n', "i/a.h": "", "o/keep": ""}, cases=(":", "touch i/a.h")),
    "a header that a rule makes":
        Made("all: main.o\nmain.o: main.c\n    cc -I. -MMD -c main.c -o main.o\ni/g.h: g.in\n    cp g.in i/g.h\n"
             "main.o: | i/g.h\n-include main.d\n",
             {"main.c": '#include "./i/g.h"\nint x;\n', "g.in": "", "i/keep": ""}, cases=(":", "touch g.in")),
    "headers with odd names":
        Made("all: main.o\nmain.o: main.c\n    cc -MMD -c main.c -o main.o\n-include main.d\n",
             {"main.c": '#include "a b.h"\n#include "c$d.h"\n#include "e#f.h"\nint x;\n',
              "a b.h": "", "c$d.h": "", "e#f.h": ""}, cases=(":", "touch 'a b.h'", "touch 'c$d.h'", "touch 'e#f.h'")),
    "header dependencies of before":
        Made(HEADERS.replace("cc $(CFLAGS)", "cc $(DEP)").replace("CFLAGS =", "DEP ="), PROGRAM,
             "sleep 0.02; echo '#define B' > b.h; echo '#include \"b.h\"\nint main(void) { return 0; }' > main.c; "
             "make -s DEP=", (":", "touch b.h")),
    "two objects with one file of header dependencies":
        Made(TWO_OF_ONE_FILE, OBJECT, cases=(":", "touch a.h"), is_more=True),
    "the same after a change": Made(TWO_OF_ONE_FILE, OBJECT, "touch a.h", is_more=True),
    "by the preprocessor's word":
        Made("all: x.o\n%.o: %.c\n    cc -Wp,-MMD,$*.d -c $< -o $@\n-include x.d\n", OBJECT, "touch a.h"),
    "by a script": Made("all: x.o\nx.o: x.c\n    sh cc.sh\n-include x.d\n",
                        {**OBJECT, "cc.sh": "cc -MMD -c x.c -o x.o"}, "touch a.h"),
    "moved to its name":
        Made("all: x.o\n%.o: %.c\n    cc -MMD -MF $*.Td -c $< -o $@ && mv -f $*.Td $*.d\n%.d: ;\n.PRECIOUS: %.d\n"
             "-include x.d\n", OBJECT, cases=(":", "touch a.h")),
    "in a folder of their own":
        Made("all: x.o\nx.o: x.c | dep\n    cc -MMD -MF dep/$*.d -c x.c -o x.o\ndep: ; mkdir dep\n"
             "-include $(wildcard dep/*)\n", OBJECT, "touch a.h", is_more=True),
    "by flags that macros hold":
        Made("D = -M\nE = MD\nall: x.o\nx.o: x.c\n    cc $(D)$(E) -c x.c -o x.o\n-include x.d\n", OBJECT, "touch a.h"),
    "in a recipe of its own":
        Made("all: x.o\n%.o: %.c\n    cc -MM $< > $*.d\n    cc -c $< -o $@\n-include $(wildcard *.d)\n", OBJECT,
             cases=(":", "touch a.h")),
    "the same before": Made("all: x.o\n%.o: %.c\n    cc -MM $< > $*.d\n    cc -c $< -o $@\n-include $(wildcard *.d)\n",
                            OBJECT, "touch a.h"),
    "one file for all, by a rule":
        Made("all: main\nmain: main.o\n    cc -o main main.o\nmain.o: main.c\n    cc -c main.c -o main.o\n"
             ".depend: main.c\n    cc -MM main.c > .depend\n-include .depend\n", PROGRAM, cases=(":", "touch a.h")),
    "a file for each, by a rule":
        Made("all: main\nmain: main.o\n    cc -o main main.o\n%.o: %.c\n    cc -c $< -o $@\n%.d: %.c\n"
             "    cc -MM -MT '$*.o $@' $< > $@\n-include main.d\n", PROGRAM, cases=(":", "touch a.h")),
    "a macro of a target": Made("all: a b\nb: F = 2\na b: in\n    echo $(F) > $@\n", ONE, cases=(":", "touch in")),
    "a value of the machine":
        Made("D := $(shell date +%N)\nall: out\nout: in\n    echo $(D) > out\n", ONE, is_more=True),
    "a step that nothing keeps is gone":
        Made("all: out\nout: mid\n    cp mid out\nmid: in\n    cp in mid\n.SECONDARY: mid\n", ONE, "rm mid",
             is_more=True),
    "what is newer": Made("all: out\nout: a b\n    echo $? >> out\n", {"a": "1", "b": "1"}, "touch b"),
    "an include that make makes":
        Made("include c.mk\nall: out\nout: in\n    echo $(V) > out\nc.mk: c.in\n    cp c.in c.mk\n",
             {**ONE, "c.in": "V = 1\n", "c.mk": "V = 0\n"}),
}
