"""Parts of which the random trees of test_random_ported consist: each has lines of the makefile, and files.

In lines and texts `{}` stands for a number of its own, which an edit changes, `{one|two}` for one of these words, and
`{headers FOLDER}` for lines that include some of the folder's headers. Four blanks at the beginning of a line stand for
a tab. Files that are there at first are `files`; `more` are those that an edit may bring; `kept` are never taken away.
A part with `is_restless` runs something each time. No pattern of a part fits what a recipe makes."""
from typing import Dict, NamedTuple, Tuple


class Part(NamedTuple):
    """A part of a makefile, with the files that it leans on, and the targets of it that `all` needs."""

    lines: str
    targets: str
    files: Dict[str, str] = {}
    more: Dict[str, str] = {}
    kept: Tuple[str, ...] = ()
    is_restless: bool = False


# Copies a source with its headers, as a preprocessor.
COMPILER = """\
#!/bin/sh
headers=$(sed -n 's/^#include "\\(.*\\)"/\\1/p' "$1")
cat "$1" || exit 1
for one in $headers; do cat "${1%/*}/$one" || exit 1; done
echo "$2"
"""

SHELL_VALUES = Part("""\
VERSION := $(shell cat version.txt)
MODE != cat mode.txt
FIRST = $(shell head -1 notes/a.txt)
ifeq ($(shell cat mode.txt),debug)
MORE = $(shell wc -c < version.txt)
endif
values.out: Makefile
    echo '$(VERSION) $(MODE) $(FIRST) $(MORE) {}' > $@
""", "values.out", {"version.txt": "1.{}\n", "mode.txt": "{debug|fast}\n", "notes/a.txt": "a {}\nb {}\n"})

LISTED = Part("""\
PARTS := $(shell ls parts)
listed.out: $(PARTS:%=parts/%)
    cat $^ < /dev/null > $@
    echo $(PARTS) {} >> $@
""", "listed.out", {"parts/a": "a {}\n", "parts/b": "b {}\n"}, {"parts/c": "c {}\n", "parts/a.x": "x {}\n"})

FOUND = Part("""\
FOUND := $(sort $(shell find data -name '*.txt'))
found.out: $(FOUND)
    cat $(FOUND) < /dev/null > $@
    echo $(words $(FOUND)) >> $@
""", "found.out", {"data/a.txt": "a {}\n", "data/sub/b.txt": "b {}\n"},
             {"data/new/deep/c.txt": "c {}\n", "data/sub/d.txt": "d {}\n", "data/not.md": "{}\n"})

WILDCARD = Part("""\
SRCS := $(wildcard src/*.c)
OBJS := $(SRCS:src/%.c=obj/%.o)
lib.out: $(OBJS)
    cat $(OBJS) < /dev/null > $@
obj/%.o: src/%.c $(wildcard src/*.h)
    @mkdir -p obj
    sh cc.sh $< 'lib {}' > $@
""", "lib.out", {"cc.sh": COMPILER, "src/a.c": "{headers src}a {}\n", "src/b.c": "{headers src}b {}\n",
                 "src/one.h": "one {}\n"},
                {"src/c.c": "{headers src}c {}\n", "src/two.h": "two {}\n"}, ("cc.sh",))

MODULES = Part("""\
MODULES := $(notdir $(wildcard mods/*))
define module
$(1)_SRCS := $$(wildcard mods/$(1)/*.c)
-include mods/$(1)/opts.mk
$(1).mod: $$($(1)_SRCS)
    echo $(1) $$($(1)_OPTS) $$(words $$($(1)_SRCS)) > $$@
    cat $$($(1)_SRCS) < /dev/null >> $$@
modules: $(1).mod
endef
.PHONY: modules
modules:
$(foreach m,$(MODULES),$(eval $(call module,$(m))))
""", "modules", {"mods/red/r.c": "r {}\n", "mods/blue/b.c": "b {}\n", "mods/blue/opts.mk": "blue_OPTS = {}\n"},
               {"mods/red/s.c": "s {}\n", "mods/green/g.c": "g {}\n", "mods/red/opts.mk": "red_OPTS = {}\n"})

KITS = Part("""\
include $(wildcard kits/*/kit.mk)
kits.out: $(KIT_SRCS)
    cat $^ < /dev/null > $@
    echo $(KITS) >> $@
""", "kits.out", {
    f"kits/{name}/{file}": text for name in ("a", "b") for file, text in (
        ("kit.mk", "KIT_DIR := $(dir $(lastword $(MAKEFILE_LIST)))\nKITS += $(KIT_DIR){}\n"
                   "KIT_SRCS += $(wildcard $(KIT_DIR)*.k)\n"), ("one.k", "{}\n"))},
            {"kits/a/two.k": "{}\n", "kits/c/kit.mk": "KITS += c{}\n"})

TARGET_MACROS = Part("""\
FLAGS = base{}
deep.out: KIND = deep{}
deep.out: under.out
    cat under.out > $@
under.out: Makefile
    echo '$(KIND) $(FLAGS)' > $@
one.flag: FLAGS += one{}
%.flag: PATTERN = p{}
one.flag two.flag: Makefile
    echo '$(FLAGS) $(PATTERN)' > $@
unused: FLAGS = unused{}
unused: one.flag
""", "deep.out one.flag two.flag")

EXPORTS = Part("""\
export ONE = one{} $(shell cat exported.txt)
TWO = two{}
export TWO
THREE = {}
unexport THREE
define TEXT
line {}
second
endef
export TEXT
override OPTIONS += over{}
OPTIONS += never
FOUR ?= four{}
env.out: Makefile
    echo "$$ONE $$TWO $${THREE-none} $$TEXT" > $@
    echo '$(OPTIONS) $(FOUR)' >> $@
own.out: export FIVE = five{}
own.out: Makefile
    echo "$$FIVE $$ONE" > $@
""", "env.out own.out", {"exported.txt": "{}\n"})

SEARCHED = Part("""\
VPATH = va vb
vpath %.q vq
searched.out: one.p two.p three.q
    cat $^ > $@
%.up: %.p
    sed s/^/up/ $< > $@
""", "searched.out one.up", {"va/one.p": "one {}\n", "vb/two.p": "two {}\n", "vq/three.q": "three {}\n"},
                {"va/two.p": "first two {}\n", "two.p": "here {}\n", "vb/one.p": "second one {}\n"})

MANUALS = Part("""\
DSRCS := $(wildcard d/*.c)
depended.out: $(DSRCS:.c=.o)
    cat $^ < /dev/null > $@
d/%.o: d/%.c
    cc -E -P -DD={} -o $@ $<
d/%.d: d/%.c
    cc -MM -MT 'd/$*.o $@' $< > $@
-include $(DSRCS:.c=.d)
""", "depended.out", {"d/a.c": "{headers d}a {} D\n", "d/b.c": "{headers d}b {}\n", "d/x.h": "x {}\n"},
               {"d/c.c": "{headers d}c {}\n", "d/y.h": "y {}\n"})

ONE_DEPEND = Part("""\
ESRCS := $(wildcard e/*.c)
ones.out: $(ESRCS:.c=.i)
    cat $^ < /dev/null > $@
e/%.i: e/%.c
    cc -E -P $< -o $@
e/.depend: $(ESRCS)
    cc -MM $(ESRCS) | sed 's,^\\([^ ]*\\)\\.o:,e/\\1.i:,' > $@
include e/.depend
""", "ones.out", {"e/a.c": "{headers e}a {}\n", "e/b.c": "{headers e}b {}\n", "e/x.h": "x {}\n"},
                  {"e/c.c": "{headers e}c {}\n", "e/y.h": "y {}\n"}, ("e/a.c",))

COMPILED = Part("""\
MSRCS := $(wildcard m/*.c)
MOBJS := $(MSRCS:.c=.o)
CPPFLAGS += -DM={}
compiled.out: $(MOBJS)
    cat $^ < /dev/null > $@
m/%.o: m/%.c | m/made.gen
    cc $(CPPFLAGS) -MMD -MF $(@:.o=.d) -MT $@ -S -o $@ $<
m/made.gen: made.in
    sed 's/^/int made_/;s/$$/;/' $< > $@
-include $(MOBJS:.o=.d)
""", "compiled.out", {"m/a.c": "{headers m}#include \"made.gen\"\nint a_{};\n", "m/b.c": "{headers m}int b_{};\n",
                      "m/x.h": "int x_{};\n", "made.in": "{}\n"},
                {"m/c.c": "{headers m}int c_{};\n", "m/y.h": "int y_{};\n"}, ("made.in",))

GLOB_INCLUDE = Part("""\
include mk/*.mk
-include local.mk
glob.out: Makefile
    echo '$(GLOB) $(LOCAL)' > $@
""", "glob.out", {"mk/a.mk": "GLOB += a{}\n", "mk/b.mk": "GLOB += b{}\n"},
                    {"mk/c.mk": "GLOB += c{}\n", "local.mk": "LOCAL = {}\n"}, ("mk/a.mk",))

MADE_INCLUDE = Part("""\
include config.mk
config.mk: config.in
    sed s/^/CONFIG_/ config.in > $@
config.out: $(CONFIG_FILES)
    echo '$(CONFIG_A)' | cat - $(CONFIG_FILES) > $@
""", "config.out", {"config.in": "A = {}\nFILES = {cfg/a|cfg/b|cfg/a cfg/b}\n", "cfg/a": "a {}\n", "cfg/b": "b {}\n"},
                    {}, ("config.in", "cfg/a", "cfg/b"))

RECIPES = Part("""\
recipe.out: rec/one.txt rec/two.txt
    echo '$(shell cat rec/one.txt)' '$(shell wc -l < $<)' > $@
    echo "$(foreach f,$^,$(shell sed 1q $(f))) $(shell cat rec/other.txt)" >> $@
fitting.out: fit/*.t
    cat $^ > $@
told.out: Makefile
    echo '$(CURDIR) $(notdir $(realpath link)) $(file < told.txt) $(wildcard fit/*)' > $@
""", "recipe.out fitting.out told.out", {
    "rec/one.txt": "1 {}\n", "rec/two.txt": "2 {}\n", "rec/other.txt": "{}\n", "told.txt": "{}\n", "fit/a.t": "{}\n",
    "link": "-> rec/{one|two}.txt"}, {"fit/b.t": "{}\n", "fit/c.t": "{}\n"}, ("rec/one.txt", "rec/two.txt", "fit/a.t"))

TEMPLATES = Part("""\
PROGRAMS = $(basename $(notdir $(wildcard progs/*.txt)))
program_value = $(shell cat progs/$(1).txt)
define program
$(1).value := $$(call program_value,$(1))
$(1).prog: progs/$(1).txt
    echo '$$($(1).value) {}' > $$@
endef
$(foreach one,$(PROGRAMS),$(eval $(call program,$(one))))
programs.out: $(PROGRAMS:=.prog)
    cat $^ < /dev/null > $@
""", "programs.out", {"progs/p.txt": "{}\n", "progs/q.txt": "{}\n"}, {"progs/r.txt": "{}\n"})

SECOND = Part("""\
a_NEEDS = sec/a.s
b_NEEDS = sec/b.s $(wildcard sec/more/*.s)
.SECONDEXPANSION:
a.second b.second: %.second: $$($$*_NEEDS)
    cat $^ > $@
    echo {} >> $@
""", "a.second b.second", {"sec/a.s": "{}\n", "sec/b.s": "{}\n"}, {"sec/more/c.s": "{}\n"},
              ("sec/a.s", "sec/b.s"))

FORCED = Part("""\
forced.h: FORCE
    @echo 'version $(shell cat forced.txt)' > $@.new; cmp -s $@.new $@ || cp $@.new $@; rm -f $@.new
forced.out: forced.h
    cat forced.h > $@
FORCE:
""", "forced.out", {"forced.txt": "{}\n"}, is_restless=True)

INNER = Part("""\
.PHONY: inner
inner:
    $(MAKE) -s -C inner KIND={}
""", "inner", {"inner/Makefile":
               "all:\n\t@(cat $(wildcard *.in); echo '$(KIND) {}') > new; cmp -s new out || cp new out; rm new\n",
               "inner/a.in": "{}\n"},
             {"inner/b.in": "{}\n"}, ("inner/Makefile", "inner/a.in"), True)

PARTS = {name.lower(): part for name, part in list(globals().items()) if isinstance(part, Part)}
