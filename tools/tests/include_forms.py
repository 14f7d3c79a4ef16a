"""More trees with includes that rules make, and their edits, by name: forms of rules, of names, and of headers."""
import os
from pathlib import Path

from include_scenarios import Scenario, Step, both, makefile, replaced, touched, without
from include_trees import DEPEND, GAINS, LOSES, MANUAL, OF_OUT, PROGRAM, SOURCES, WILD, X, config, tree

LISTED = MANUAL.replace(WILD, "SRCS = a.c b.c\n")
FOLDERS = ("SRCS = a.c b.c\n" + PROGRAM + "dep/%.d: %.c BAR dep\n\t@@ RECIPE\ndep:\n\t@@ mkdir -p dep\n"
           "-include $(SRCS:%.c=dep/%.d)\n")
IN_PLACE = "$(CC) -MM -MT $*.o -MT $@ $< > $@"
CHANGED = Step("header changed", {"a.h": "#define A 7\n"})
FORMS = {}


def folders(bar, recipe):
    """A tree of which the header dependencies stand in a folder."""
    return tree(FOLDERS.replace("BAR", bar).replace("RECIPE", recipe))


FORMS["a folder, order-only"] = Scenario(folders("|", IN_PLACE), CHANGED, Step("removed", without("dep")))
FORMS["a folder, by mv"] = Scenario(folders("|", IN_PLACE.replace("> $@", "> $@.t; mv $@.t $@")), CHANGED)
FORMS["a folder made by the recipe"] = Scenario(
    tree(FOLDERS.replace("BAR dep", "").replace("RECIPE", "mkdir -p dep; " + IN_PLACE)), CHANGED,
    Step("removed", without("dep")))
FORMS["suffix rules"] = Scenario(
    {"Makefile": makefile(".SUFFIXES: .c .o .d\ninclude a.d\nprog: a.o\n\t@@ gcc -o $@ $^\n.c.o:\n\t@@ gcc -c $<\n"
                          ".c.d:\n\t@@ gcc -MM $< > $@\n"),
     "a.c": '#include "a.h"\nint main(void){return A;}\n', "a.h": "#define A 0\n"},
    Step("header changed", {"a.h": "#define A 1\n"}),
    Step("without it", {"a.c": "int main(void){return 3;}\n", "a.h": None}))
WRITTEN = "SRCS = a.c b.c\n" + PROGRAM.replace(" -c ", " -MMD -c ") + "-include $(SRCS:.c=.d)\n"
GAINED = [CHANGED, Step("gains another", GAINS), Step("that one changed", {"c.h": "#define C 2\n"})]
FORMS["written beside the object"] = Scenario(tree(WRITTEN), *GAINED)
FORMS["written beside it, and a header goes"] = Scenario(tree(WRITTEN), *GAINED[1:], Step("it goes", LOSES))
FORMS["written, with an empty rule"] = Scenario(tree(WRITTEN + "%.d: ;\n"), *GAINED)
FORMS["written, and needed by the object"] = Scenario(
    tree(WRITTEN.replace("%.o: %.c", "%.o: %.c %.d") + "$(SRCS:.c=.d):\n"), *GAINED, Step("removed", without("b.d")))
ONE = ("-include .depend\nprog: a.o\n\t@@ gcc -o $@ $^\na.o: a.c\n\t@@ gcc -c -o $@ a.c\n"
       ".depend: a.c\n\t@@ gcc -MM a.c > $@\n")
FORMS["blanks and marks in names"] = Scenario(
    {"Makefile": makefile(ONE), "a.c": '#include "x y.h"\n#include "h#1.h"\nint main(void){return X+H;}\n',
     "x y.h": "#define X 0\n", "h#1.h": "#define H 0\n"},
    Step("a blank", {"x y.h": "#define X 1\n"}), Step("a mark", {"h#1.h": "#define H 1\n"}))
LONG_NAMES = [f"long_name_number_{number}.h" for number in range(6)]
FORMS["dollars and long lines"] = Scenario(
    {"Makefile": makefile(ONE), "d$1.h": "#define X 0\n", **dict.fromkeys(LONG_NAMES, ""),
     "a.c": "".join(f'#include "{name}"\n' for name in ["d$1.h", *LONG_NAMES]) + "int main(void){return X;}\n"},
    Step("a dollar", {"d$1.h": "#define X 1\n"}), Step("the last one", {LONG_NAMES[-1]: "/**/\n"}))
OWN = "V = 1\nall: out\nout: in.txt\n\t@@ { echo $(V); cat in.txt; } > $@\nMakefile: Makefile.in\n\t@@ cp $< $@\n"
FORMS["the makefile itself"] = Scenario(
    {"Makefile": makefile(OWN), "in.txt": "i\n", "Makefile.in": makefile(OWN)},
    Step("changed", replaced("Makefile.in", "V = 1", "V = 2"), OF_OUT), Step("touched", touched("Makefile.in")))
FORMS["sources by hand"] = Scenario(
    tree(LISTED, "-include"), Step("added", both(X, replaced("Makefile", "b.c\n", "b.c x.c\n"))),
    Step("header changed", {"b.h": "#define B 4\n"}), Step("deleted", without("x.c"), good=False),
    Step("out of the list", replaced("Makefile", "b.c x.c\n", "b.c\n"), anew=["prog"]))
MOVED = {"a.h": None, "inc/a.h": "#define A 5\n"}
FORMS["a header renamed"] = Scenario(
    tree(LISTED, "-include"),
    Step("renamed", {"a.h": None, "z.h": "#define A 5\n", "a.c": SOURCES["a.c"].replace("a.h", "z.h")}, anew=["a.d"]),
    Step("changed", {"z.h": "#define A 6\n"}))
for name, text, anew in (("moved", LISTED, ["a.d"]), ("moved, told by -MP", LISTED.replace("-MM", "-MM -MP"), [])):
    FORMS[f"a header {name}"] = Scenario(
        tree(text.replace("CC = gcc", "CC = gcc -Iinc"), "-include"), Step("moved", MOVED, anew=anew),
        Step("changed", {"inc/a.h": "#define A 6\n"}))
GENERATED = LISTED.replace("-MM", "-MM -MG") + "a.o: gen.h\ngen.h: gen.in\n\t@@ cp $< $@\n"
FORMS["a header that is made"] = Scenario(
    tree(GENERATED, "-include", **{"a.c": '#include "gen.h"\nint b(void);\nint main(void){return b()+G;}\n',
                                   "gen.in": "#define G 1\n"}),
    Step("nothing"), Step("changed", {"gen.in": "#define G 2\n"}))
FLAGS = "include config.mk\n" + LISTED.replace("-MM", "-MM $(FL)") + "config.mk: c.in\n\t@@ cp $< $@\n"
FORMS["flags from another include"] = Scenario(
    tree(FLAGS, "-include", **{"c.in": "FL = -DX=1\n"}), Step("flags", {"c.in": "FL = -DX=2\n"}, anew=["a.d", "b.d"]),
    Step("compiler", replaced("Makefile", "CC = gcc", "CC = gcc -O1"), anew=["a.d", "b.d", "a.o", "b.o"]),
    # make makes the others with the flags of before, and never again; ninja makes them twice.
    first=Step("first", is_often=True))
FORMS["by a program that is built"] = config(
    "include tab.mk\n", "tab.mk: gen tab.in\n\t@@ ./gen < tab.in > $@\ngen: gen.c\n\t@@ gcc -o $@ $<\n",
    Step("changed", {"tab.in": "V = 2\n"}, OF_OUT), Step("touched", touched("gen.c")),
    files={"gen.c": "#include <stdio.h>\nint main(void){int c;while((c=getchar())!=EOF)putchar(c);return 0;}\n",
           "tab.in": "V = 1\n"})
FORMS["a fault until it is made"] = Scenario(
    {"Makefile": makefile("-include config.mk\n$(if $(V),,$(error no V))\nall: ; @@\nconfig.mk: c.in\n\t@@ cp $< $@\n"),
     "c.in": "V = 1\n"}, first=Step("first", good=False))
FORMS["the first goal in an include"] = Scenario(
    {"Makefile": makefile("include t.mk\nout: in.txt\n\t@@ cp $< $@\nt.mk: t.in\n\t@@ cp $< $@\n"),
     "t.in": "first: out\n\techo > first\n", "in.txt": "i\n"},
    Step("another", {"t.in": "second: out\n\techo > second\n"}))
FORMS["new includes"] = config(
    "V = 0\n#X\n", "%.mk: %.in\n\t@@ cp $< $@\n", Step("one", replaced("Makefile", "#X", "include c.mk"), OF_OUT),
    Step("another without a rule", replaced("Makefile", "include c.mk", "include c.mk d.mk")),
    Step("with one", {"d.in": "W = 1\n"}), Step("none", replaced("Makefile", "include c.mk d.mk", "#X"), OF_OUT),
    files={"c.in": "V = 1\n"})
FORMS["objects that need them"] = Scenario(
    tree(LISTED.replace("%.o: %.c", "%.o: %.c %.d"), "-include"), Step("header changed", {"b.h": "#define B 5\n"}),
    Step("removed", without("b.d")))
for name, word in (("half-written", "-include"), ("half-written, needed", "include")):
    FORMS[name] = Scenario({"Makefile": makefile(ONE.replace("-include", word)),
                            "a.c": '#include "a.h"\nint main(void){return A;}\n'},
                           Step("a header comes", {"a.h": "#define A 1\n"}, good=True),
                           Step("it changes", {"a.h": "#define A 2\n"}, good=True))
FORMS["a command with its own macro"] = config(
    "include c.mk\n", "c.mk: c.in\n\t@@ echo V = x$(V) > $@\n", Step("touched", touched("c.in"), OF_OUT),
    files={"c.in": "V = 1\n"})
FORMS["a command with its own macro, settled"] = config(
    "include c.mk\n", "c.mk: c.in\n\t@@ echo V = $(or $(V),1) > $@\n", Step("touched", touched("c.in")),
    files={"c.in": "V = 1\n"})
FORMS["a rule without a recipe"] = config(
    "-include c.mk\n", "c.mk: c.in\n", Step("touched", touched("c.in")), Step("gone", without("c.mk"), OF_OUT),
    files={"c.in": "V = 1\n", "c.mk": "V = 3\n"})
FORMS["a second file of a recipe"] = config(
    "-include a.mk b.mk\n", "a.mk: g.in\n\t@@ cp $< $@; echo W = 2 > b.mk\n",
    Step("changed", {"g.in": "V = 4\n"}, OF_OUT), files={"g.in": "V = 1\n"})
AT_ONCE = both({"a.c": '#include "a.h"\n#include "n.h"\nint b(void);\nint main(void){return b()+N;}\n',
                "n.h": "#define N 1\n"}, without("x.c"))
for word in ("include", "-include"):
    for name, text in (("manual", MANUAL), ("depend", DEPEND)):
        FORMS[f"deleted and changed at once, {name} by {word}"] = Scenario(
            tree(text, word, **{"x.c": "int x;\n"}), Step("both", AT_ONCE), Step("header", {"n.h": "#define N 2\n"}))
FORMS["list and header at once"] = Scenario(
    tree(LISTED.replace("b.c\n", "b.c x.c\n", 1), **{"x.c": "int x;\n"}),
    Step("all", both(replaced("Makefile", "b.c x.c", "b.c y.c"), without("x.c"),
                     {"y.c": '#include "b.h"\nint y = B;\n', "b.h": "#define B 3\n"})),
    Step("header", {"b.h": "#define B 4\n"}))
FORMS["the goal clean"] = Scenario(
    tree(MANUAL + "clean:\n\t@@ rm -f *.o *.d prog\n.PHONY: clean\n", "-include"), CHANGED, goals=("clean",))
UNDER = "include c.mk\nifeq ($(USE),1)\ninclude e.mk\nendif\n"
FORMS["an include by the value of another"] = config(
    UNDER, "%.mk: %.in\n\t@@ cp $< $@\n", Step("taken", {"c.in": "USE = 1\nV = 1\n"}, OF_OUT),
    Step("changed", {"e.in": "V = f\n"}, OF_OUT), Step("not taken", {"c.in": "USE = 0\nV = 2\n"}, OF_OUT),
    Step("gone", {"e.in": None}), Step("touched", touched("c.in")),
    files={"c.in": "USE = 0\nV = 1\n", "e.in": "V = e\n"})


def away(folder):
    """Puts a source away, which keeps its date."""
    os.rename(Path(folder) / "x.c", Path(folder) / "x.old")


def back(folder):
    """Puts it back."""
    os.rename(Path(folder) / "x.old", Path(folder) / "x.c")


FORMS["a source with an old date"] = Scenario(
    tree(DEPEND, "-include", **{"x.c": "int x;\n"}), Step("away", away, anew=[".depend", "prog"]),
    Step("back", back, anew=[".depend", "prog"]))
FORMS["an include in an include"] = Scenario(
    {"Makefile": makefile("CC = gcc\nprog: a.o b.o\n\t@@ $(CC) -o $@ $^\n%.o: %.c\n\t@@ $(CC) -c -o $@ $<\n"
                          "%.d: %.c\n\t@@ $(CC) -MM -MT $*.o -MT $@ $< > $@\ninclude rules.mk\n"),
     "rules.mk": "SRCS = a.c b.c\ninclude $(SRCS:.c=.d)\n", **SOURCES},
    CHANGED, Step("one more", {"rules.mk": "SRCS = a.c b.c x.c\ninclude $(SRCS:.c=.d)\n", "x.c": "int x;\n"}))
for name, text in (("", DEPEND), (", told by -MP", DEPEND.replace("-MM", "-MM -MP"))):
    FORMS[f"a listed header goes{name}"] = Scenario(
        tree(text, "-include", **{"a.h": '#include "c.h"\n#define A 1\n', "c.h": "\n"}),
        Step("gone", {"a.h": "#define A 1\n", "c.h": None}), Step("its source touched", touched("a.c")))
