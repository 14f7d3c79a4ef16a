"""Trees of makefiles with includes that rules make, and their edits, by name; `QUICK` are those of the gate."""
from include_scenarios import Scenario, Step, both, makefile, touched, without

# As kati-port writes them.
WILD = "include $(dir $(lastword $(MAKEFILE_LIST)))kati-values.mk\nSRCS := $(V_SRCS)\n"
VALUES = """# Written by kati-port, anew by kati-port --values: what make asks the machine for, and what it was told.
ifdef MAKE_VERSION
V_SRCS = $(wildcard *.c)
else
# $(wildcard *.c)
V_SRCS :=
endif
"""
PROGRAM = "CC = gcc\nprog: $(SRCS:.c=.o)\n\t@@ $(CC) -o $@ $^\n%.o: %.c\n\t@@ $(CC) -c -o $@ $<\n"
MANUAL = WILD + PROGRAM + """%.d: %.c
	@@ set -e; rm -f $@; $(CC) -MM $< > $@.$$$$; \\
	sed 's,\\($*\\)\\.o[ :]*,\\1.o $@ : ,g' < $@.$$$$ > $@; \\
	rm -f $@.$$$$
INC $(SRCS:.c=.d)
"""
DEPEND = WILD + PROGRAM + ".depend: $(SRCS)\n\t@@ $(CC) -MM $(SRCS) > .depend\nINC .depend\n"
SOURCES = {"a.c": '#include "a.h"\nint b(void);\nint main(void){return b()+A;}\n', "a.h": "#define A 0\n",
           "b.c": '#include "b.h"\nint b(void){return B;}\n', "b.h": "#define B 0\n"}
GAINS = {"a.h": '#include "c.h"\n#define A 2\n', "c.h": "#define C 1\n"}
LOSES = {"a.h": "#define A 3\n", "c.h": None}
X = {"x.c": '#include "b.h"\nint x(void){return B;}\n'}


def tree(text, word="include", **more):
    """A tree with this makefile, and sources; the makefile's INC is this word."""
    return {"Makefile": makefile(text.replace("INC", word)), "kati-values.mk": VALUES, **SOURCES, **more}


# What the manual's form says of a header that is gone ends make, until the file that says so is taken away.
MANUALS = [Step("header changed", {"a.h": "#define A 1\n"}), Step("header gains another", GAINS),
           Step("that one changed", {"c.h": "#define C 2\n"}), Step("out again and deleted", LOSES, anew=["a.d"]),
           Step("the last header deleted", {"a.h": None, "a.c": "int b(void);\nint main(void){return b();}\n"},
                anew=["a.d"]),
           Step("source added", X), Step("source deleted", {"x.c": None}, anew=["prog"]),
           Step("an include removed", without("b.d")), Step("touched", touched("b.h"))]
DEPENDS = [Step("header changed", {"a.h": "#define A 1\n"}), Step("header gains another", GAINS),
           Step("that one changed", {"c.h": "#define C 2\n"}), Step("out again and deleted", LOSES),
           Step("the last header deleted", {"a.h": None, "a.c": "int b(void);\nint main(void){return b();}\n"}),
           Step("source added", X), Step("source deleted", {"x.c": None}, anew=["prog", ".depend"]),
           Step("the include removed", without(".depend")), Step("touched", touched("b.h"))]
TREES = {f"{name} by {word}": Scenario(tree(text, word), *steps) for word in ("include", "-include")
         for name, text, steps in (("manual", MANUAL, MANUALS), ("depend", DEPEND, DEPENDS))}
OUT = "all: out\nout: in.txt\n\t@@ { echo $(V); cat in.txt; } > $@\n"


def config(head, tail, *steps, files=(), **more):
    """A scenario of a file that names a macro which an include gives."""
    return Scenario({"Makefile": makefile(head + OUT + tail), "in.txt": "i\n", **dict(files)}, *steps, **more)


SED = "config.mk: config.mk.in\n\t@@ sed s/@V@/x/ $< > $@\n"
OF_OUT = ["out"]
TREES["a configuration"] = config(
    "include config.mk\n", SED, Step("changed", {"config.mk.in": "V = @V@2\n"}, OF_OUT),
    Step("touched", touched("config.mk.in")), Step("removed", without("config.mk")),
    Step("another input", {"in.txt": "j\n"}), Step("by hand", {"config.mk": "V = hand\n"}, OF_OUT),
    Step("source of the include deleted", {"config.mk.in": None}), files={"config.mk.in": "V = @V@1\n"})
TREES["a configuration that may be absent"] = config(
    "-include config.mk\n", SED, Step("its source deleted", {"config.mk.in": None}, is_open=True),
    Step("another input", {"in.txt": "k\n"}, is_open=True), files={"config.mk.in": "V = @V@1\n"})
TREES["moved if changed"] = config(
    "include config.mk\n",
    "config.mk: config.status\n\t@@ sh config.status > tmp; cmp -s tmp $@ && rm tmp || mv tmp $@\n"
    "config.status: configure\n\t@@ sh configure > $@\n", Step("touched", touched("configure")),
    Step("changed", {"configure": "echo echo V = 2\n"}, OF_OUT), Step("nothing"),
    files={"configure": "echo echo V = 1\n"})
TREES["a recipe that leaves the file"] = config(
    "include c.mk\n", "c.mk: c.in\n\t@@ test -f $@ || cp c.in $@\n", Step("touched", touched("c.in")),
    files={"c.in": "V = 1\n"})
FORCED = "version.mk: FORCE\n\t@@ echo V = `cat ../ver` > ../vt; cmp -s ../vt $@ || cp ../vt $@\nFORCE:\n"
FORCED_HERE = FORCED.replace("../vt", "vt")
VERSION = {"../ver": "1\n"}


def versions(is_often=False):
    """The steps of a file that is made each time."""
    return [Step("nothing", is_often=is_often), Step("changed", {"../ver": "2\n"}, OF_OUT, is_often)]


TREES["forced"] = config("include version.mk\n", FORCED, *versions(), files=VERSION)
TREES["forced and a goal"] = config("-include version.mk\n", f"out: version.mk\n{FORCED}", *versions(True),
                                    files=VERSION, first=Step("first", is_often=True))
TREES["forced, by a file of the folder"] = config("include version.mk\n", FORCED_HERE, *versions(), files=VERSION)
TREES["forced, by a file that goes"] = config(
    "include version.mk\n", FORCED_HERE.replace("cp vt $@", "cp vt $@; rm -f vt"), *versions(), files=VERSION)
TREES["without prerequisites"] = config(
    "include version.mk\n", "version.mk:\n\t@@ echo V = 1 > $@\n", Step("removed", without("version.mk")),
    Step("nothing"))
TREES["two levels"] = config(
    "include a.mk\n", "a.mk: a.in\n\t@@ cp $< $@\n%.mk: %.src\n\t@@ cp $< $@\n",
    Step("the inner one changed", {"b.src": "V = 2\n"}, OF_OUT),
    Step("one more", {"a.in": "include b.mk c.mk\n", "c.src": "V = 3\n"}, OF_OUT),
    Step("removed", without("a.mk", "b.mk")),
    Step("without it", {"a.in": "include b.mk\n", "c.src": None}, OF_OUT),
    files={"a.in": "include b.mk\n", "b.src": "V = 1\n"})
TREES["one from another"] = config(
    "include a.mk b.mk\n", "a.mk: a.in b.mk\n\t@@ cat a.in b.mk > $@\nb.mk: b.in\n\t@@ cp $< $@\n",
    Step("changed", {"b.in": "V = 2\n"}, OF_OUT), Step("touched", touched("a.in")),
    files={"a.in": "W = 1\n", "b.in": "V = 1\n"})
BAD = "c.mk: c.in\n\t@@ grep -q good $< && cp $< $@\n"
BAD_ONE = {"c.in": "# bad\nV = 0\n"}
WORSE = [Step("bad again", {"c.in": "# bad\nV = 2\n"}), Step("another input", {"in.txt": "k\n"})]
TREES["a recipe that fails"] = config("include c.mk\n", BAD, Step("nothing"),
                                      Step("mended", {"c.in": "# good\nV = 1\n"}), *WORSE, files=BAD_ONE)
TREES["a recipe that fails and may"] = config(
    "-include c.mk\n", BAD, Step("nothing"), Step("mended", {"c.in": "# good\nV = 1\n"}, OF_OUT), *WORSE, files=BAD_ONE)
TREES["a recipe that makes no file and may"] = config(
    "-include c.mk\n", "c.mk: c.in\n\t@@ test ! -f really || cp c.in $@\n", Step("nothing"),
    Step("now it does", both({"really": ""}, touched("c.in")), OF_OUT), files={"c.in": "V = 0\n"})
# Those of the gate.
QUICK = ("manual by include", "depend by -include", "a configuration", "moved if changed", "two levels",
         "a recipe that fails")
