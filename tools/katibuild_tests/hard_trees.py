"""Small trees with hard points: a makefile, the files beside it, arguments, and edits between builds."""
from __future__ import annotations

from compared import steps as steps_of

TREES = {}


def tree(name, makefile, files=None, words=(), steps=()):
    """Adds a tree to the table."""
    TREES[name] = steps_of(makefile, files, words, steps)


H4, H6 = "echo '#define H 4' > h.h", "echo '#define A 6' > a.h"
A_H = ("echo '#include \"a.h\"' > a.c; echo 'int f(void){return A;}' >> a.c; "
       "echo '#define A 5' > a.h")
C = {"a.c": "int f(void){return 1;}\n", "b.c": "int g(void){return 2;}\n",
     "m.c": "#include \"h.h\"\nint f(void);int main(void){return H+f();}\n", "h.h": "#define H 3\n"}
tree("plain", "p: m.o a.o\n    cc -o $@ $^\nm.o: h.h\n", C, steps=["echo '#define H 4' > h.h", "echo >> a.c"])
tree("shell in a recipe reads what the build makes", """
    all: out
    gen.txt: src.txt ; cp src.txt gen.txt
    out: gen.txt
        echo "[$(shell cat gen.txt)]" > out
    """, {"src.txt": "1\n"}, steps=["echo 2 > src.txt"])
tree("wildcard in a recipe finds what the build makes", """
    all: out
    d/x: ; mkdir -p d; echo x > d/x
    out: d/x
        echo "[$(wildcard d/*)]" > out
    """)
tree("mkdir under if wildcard", """
    all: o/a o/b
    o/a o/b: src
        $(if $(wildcard $(@D)),,mkdir -p $(@D);) cp src $@
    """, {"src": "1\n"}, steps=["echo 2 > src"])
tree("mkdir by shell in a recipe", """
    all: o/a o/b
    o/a o/b: src
        $(if $(wildcard $(@D)),,$(shell mkdir -p $(@D)))cp src $@
    """, {"src": "1\n"}, steps=["echo 2 > src"])
tree("newer $?", """
    lib: a b
        echo $? >> lib
    """, {"a": "1\n", "b": "1\n"}, steps=["echo 2 > a"])
tree("second expansion", """
    a_SRCS = 1 2
    all: a b
    .SECONDEXPANSION:
    a b: $$(addsuffix .x,$$($$@_SRCS)) | $$(@D)/dir
        echo $@ $^ - $| > $@
    %.x: ; echo $* > $@
    ./dir: ; mkdir dir
    """)
tree("macros of targets, inherited", """
    F = 1
    all: p q
    p: F = 2
    p: sub ; echo p $(F) > p
    sub: ; echo sub $(F) > sub
    q: F += 3
    q: ; echo q $(F) > q
    %.z: F = z
    r.z: ; echo $(F) > $@
    all: r.z
    s: private F = 9
    s: t ; echo $(F) > s
    t: ; echo $(F) > t
    all: s
    """)
tree("export, unexport", """
    export A = one
    B = two
    export B
    unexport HOME
    t: export C = $@-c
    all: t u
    t u: ; echo "$$A $$B $$C [$$HOME]" > $@
    """)
tree("export of all", """
    export
    X = 1
    Y = $(X)2
    all: ; echo "$$X $$Y" > t
    """)
tree("override", """
    override F += -x
    all: ; echo $(F) > t
    """, words=["F=-g"])
tree("ONESHELL", """
    .ONESHELL:
    all: t
    t:
        @cd d
        x='two
        lines'
        echo "$$x $$PWD" | sed 's,/[^ ]*/,,' > ../t
    """, {"d/k": ""})
tree("ONESHELL with bash and flags", """
    .ONESHELL:
    SHELL = /bin/bash
    .SHELLFLAGS = -euo pipefail -c
    t: d/k
        a=(1 2 3)
        echo $${a[1]} > $@
        false | true || echo failed >> $@
    """, {"d/k": ""})
tree("ONESHELL with python", """
    .ONESHELL:
    SHELL = /usr/bin/python3
    t: d/k
        import sys
        if True:
            open("t", "w").write("it's $@")
    """, {"d/k": ""})
tree("POSIX", """
    .POSIX:
    t: ; false; echo x > t
    u: ; echo $(CC) > u
    all: u
    """, words=["u"])
tree("double colons", """
    all: t
    t:: a ; echo one $^ >> t
    t:: b ; echo two $^ >> t
    """, {"a": "", "b": ""}, steps=["echo 1 > b"])
tree("grouped targets", """
    all: x y z.h z.c
    x y &: s ; cp s x; cp s y
    %.h %.c: %.in ; cp $< $*.h; cp $< $*.c
    """, {"s": "1\n", "z.in": "2\n"}, steps=["echo 2 > s", "echo 3 > z.in"])
tree("archive members", """
    lib.a: lib.a(a.o) lib.a(b.o)
        ranlib lib.a
    """, C, steps=["echo >> a.c"])
tree("archive members, several and alone", """
    all: lib.a(a.o b.o)
    """, C, steps=["echo >> a.c"])
tree("WAIT", """
    all: a .WAIT b
    a b: ; echo $@ >> log; touch $@
    .WAIT:
    """)
tree("a circle", """
    all: a b
    a: b ; echo a > a
    b: a ; echo b > b
    """)
tree("VPATH", """
    VPATH = src:inc
    p: m.o a.o ; cc -o $@ $^
    m.o: h.h
    %.o: %.c ; cc -Iinc -c -o $@ $<
    """, {"src/m.c": C["m.c"], "src/a.c": C["a.c"], "inc/h.h": C["h.h"]}, steps=["echo '#define H 4' > inc/h.h",
          "cp src/a.c a.c; echo 'int zz;' >> a.c"])
tree("-lm", """
    p: m.o a.o -lm ; echo $^ > libs; cc -o $@ $^
    m.o: h.h
    """, C)
tree("intermediate files", """
    all: a.c3
    %.c2: %.c1 ; cp $< $@
    %.c3: %.c2 ; cp $< $@
    """, {"a.c1": "1\n"}, steps=["echo 2 > a.c1"])
tree("PRECIOUS, SECONDARY", """
    .SECONDARY:
    .PRECIOUS: %.c2
    all: a.c3
    %.c2: %.c1 ; cp $< $@
    %.c3: %.c2 ; cp $< $@
    """, {"a.c1": "1\n"}, steps=["echo 2 > a.c1", "rm a.c2"])
tree("empty recipes", """
    all: t u
    t: s ; cp s t
    s: ;
    u: v ; echo u >> u
    v:
    """, {"s": "1\n"}, steps=["echo 2 > s"])
tree("missing separator", "all: t\n    echo\nx y z\n", {})
tree("no rule", "all: t\nt: nothing.c ; echo t > t\n", {})
tree("error in a recipe not needed", "all: ; echo > t\nx: ; $(error no)\n", {})
tree("make within make", """
    X = 1
    all: lib/l p
    .PHONY: lib/l
    lib/l: ; $(MAKE) -C lib X=$(X) ; 
    p: lib/l ; cp lib/l p
    """, {"lib/Makefile": "l: s\n\techo $(X) $(Y) $(MAKELEVEL) > l; cat s >> l\n", "lib/s": "1\n"},
     words=["Y=hello world"], steps=["echo 2 > lib/s"])
tree("lines with +", "all: ; +echo > t\n    -false\n    @echo 2 > u\n", {})
tree("a makefile that make makes", """
    include config.mk
    all: ; echo $(V) > t
    config.mk: config.in ; sed s/x/V/ config.in > config.mk
    """, {"config.in": "x = 1\n"}, steps=["echo 'x = 2' > config.in"])
tree(".depend by cc -MM", """
    p: m.o a.o ; cc -o $@ $^
    .depend: m.c a.c ; cc -MM m.c a.c > .depend
    -include .depend
    """, C, steps=[H4, A_H, H6])
tree("the manual's %.d", """
    S = m.c a.c
    p: $(S:.c=.o) ; cc -o $@ $^
    %.d: %.c
        set -e; rm -f $@; cc -MM $< > $@.$$$$; sed 's,\\($*\\)\\.o[ :]*,\\1.o $@ : ,g' < $@.$$$$ > $@; rm -f $@.$$$$
    include $(S:.c=.d)
    """, C, steps=[H4, A_H, H6])
tree("-MMD and -include *.d", """
    S = $(wildcard *.c)
    p: $(patsubst %.c,%.o,$(S)) ; cc -o $@ $^
    %.o: %.c ; cc -MMD -c -o $@ $<
    -include *.d
    """, {"m.c": C["m.c"], "a.c": C["a.c"], "h.h": C["h.h"]},
     steps=[H4, "echo 'int k(void){return 1;}' > k.c", "echo >> a.c"])
tree("generated sources", """
    p: m.o gen.o ; cc -o $@ $^
    gen.c gen.h: g.in ; cp g.in gen.c; echo '#define H 3' > gen.h
    m.o: gen.h
    """, {"m.c": "#include \"gen.h\"\nint f(void);int main(void){return H+f();}\n", "g.in": C["a.c"]},
     steps=["echo 'int f(void){return 7;}' > g.in"])
tree("a header beside its source, by no rule", """
    p: m.o gen.o ; cc -o $@ $^
    gen.c: g.in ; cp g.in gen.c; echo '#define H 3' > gen.h
    m.o: gen.c gen.h
    m.o: m.c ; cc -c m.c
    """, {"m.c": "#include \"gen.h\"\nint f(void);int main(void){return H+f();}\n", "g.in": C["a.c"]},
     steps=["echo 'int f(void){return 7;}' > g.in"])
tree("clean before prog", """
    all: clean prog
    clean: ; rm -f prog log2
    prog: s ; cp s prog; echo x >> log
    .PHONY: clean all
    """, {"s": "1\n"}, steps=["true"])
tree("ignored errors", """
    Q = -@
    define canned
    -false
    echo 1 > t
    endef
    all: t u v
    t: ; $(canned)
    u:
        $(Q)false
        echo u > u
    v:
        @-false; echo v > v
        @echo w >> v
    """)
tree("defines of many lines", """
    define two
    echo 1 > $(1)
    echo 2 >> $(1)
    endef
    all: a b
    a: ; $(call two,a)
    b:
        $(call two,b)
        echo "it's \\
          more" >> b
        echo 'one\\
        two' >> b # c\\
        echo three >> b
    """)
tree("odd names", """
    all: a\\ b c$$d e\\#f g@h i+j k,l m~n
    a\\ b: ; echo 1 > 'a b'
    c$$d: ; echo 1 > 'c$$d'
    e\\#f g@h i+j k,l m~n: ; echo 1 > '$@'
    """)
tree("names that kati refuses", """
    all: x%y z*w
    x%y: ; echo 1 > 'x%y'
    z*w: ; echo 1 > 'z*w'
    """)
tree("goals of the command line", """
    ifneq ($(filter two,$(MAKECMDGOALS)),)
    X = two
    else
    X = one
    endif
    all: ; echo $(X) > t
    two three: ; echo $(X) > $@
    """, words=["two", "three"])
tree("a value of the time", "T := $(shell date +%s%N)\nall: t\nt: s ; echo $(T) > t.not; cp s t\n", {"s": "1\n"},
     steps=["echo 2 > s"])
tree("eval in a recipe", "all: t\nt: ; $(eval X = 3)echo $(X) > t\n")
tree("file in a recipe", "all: t\nt: ; $(file >t,one line)\n    cat t > u\n")
tree("a folder with a blank, CURDIR", "all: ; echo $(notdir $(CURDIR)) > t; echo $(abspath x) | sed 's,.*/,,' >> t\n")
tree("DEFAULT", "all: x.q\n.DEFAULT: ; echo $@ > $@\n")
tree("static patterns and vpath", """
    vpath %.in src
    all: a.out b.out
    a.out b.out: %.out: %.in ; cp $< $@
    """, {"src/a.in": "1\n", "src/b.in": "2\n"}, steps=["echo 3 > src/b.in"])
tree("built-in rules", "p: m.o a.o\n    $(CC) $(LDFLAGS) -o $@ $^\nm.o: h.h\nx.o: x.s\n", C, words=["CFLAGS=-O1", "p"])
tree("always made, restat", """
    all: v.o
    v.h: FORCE ; echo 1 > v.new; cmp -s v.new v.h || cp v.new v.h; rm v.new
    FORCE:
    v.o: v.h ; cp v.h v.o; echo x >> log
    """, steps=["true", "true"])
tree("the two spellings of a name", """
    all: o//a ./b
    o//a: ; mkdir -p o; echo 1 > o/a
    b: o/a ; cp o/a b
    o/a: ; mkdir -p o; echo 2 > o/a
    """)
tree("multiple words SHELL", "SHELL = /usr/bin/env bash\nall: ; echo $$BASH > t\n")
tree("RECIPEPREFIX", ".RECIPEPREFIX = >\nall: t\nt:\n> echo 1 > t\n")
tree("SHELL of a target", "all: t u\nt: SHELL = /bin/bash\nt u: ; echo $$0 > $@\n")
tree("shell in a recipe by bash", "SHELL = /bin/bash\nall: ; echo $(shell echo $$BASH_VERSION | cut -c1) > t\n")
tree("remade by a goal's own pattern", "all: $(patsubst %.in,%.out,$(wildcard *.in))\n%.out: %.in ; cp $< $@\n",
     {"a.in": "1\n"}, steps=["echo 2 > b.in", "rm a.in; rm -f a.out"])
tree("define with export of lines", "define X\none\ntwo\nendef\nexport X\nall: ; echo \"$$X\" > t\n")
tree("goals in order", """
    all: prog
    clean: ; rm -f prog
    prog: s ; cp s prog; echo x >> log
    .PHONY: clean all
    """, {"s": "1\n"}, words=["clean", "all"], steps=["true"])
tree("a script that reads a file", """
    V := $(shell ./version.sh)
    all: t
    t: s ; echo $(V) > t
    """, {"s": "1\n", "VERSION": "1.0\n", "version.sh": "#!/bin/sh\ncat \"$(dirname $0)/VERSION\"\n"},
     steps=["echo 1.1 > VERSION; touch s"])
tree("an include that comes into being", """
    X = 1
    -include local.mk
    all: t
    t: s ; echo $(X) > t
    """, {"s": "1\n"}, steps=["echo X = 2 > local.mk; touch s"])
tree("sources of a folder below, templates", """
    D = src lib
    define unit
    $(1)_OBJ := $$(patsubst %.c,%.o,$$(wildcard $(1)/*.c))
    OBJ += $$($(1)_OBJ)
    $(1)/%.o: $(1)/%.c
    	$$(CC) -D$(1) -c -o $$@ $$<
    endef
    $(foreach d,$(D),$(eval $(call unit,$(d))))
    p: $(OBJ) ; cc -o $@ $^
    .DEFAULT_GOAL := p
    """, {"src/m.c": "int f(void);int main(void){return f();}\n", "lib/a.c": C["a.c"]},
     steps=["echo 'int k;' > lib/k.c", "rm lib/k.c"])
tree("a value of the environment", """
    all: t
    t: s ; echo $(MODE) $${MODE} > t
    """, {"s": "1\n"})
tree("INTERMEDIATE, named", """
    .INTERMEDIATE: mid
    all: end
    mid: s ; cp s mid
    end: mid ; cp mid end
    """, {"s": "1\n"}, steps=["echo 2 > s"])
tree("a phony name between", """
    all: t
    t: mid ; echo t >> t
    mid: s
    """, {"s": "1\n"}, steps=["true"])
tree("a library of this folder by -l", """
    p: m.o -lx ; cc -o $@ $^
    m.o: h.h
    libx.a: a.o ; ar rcs $@ $^
    vpath lib%.a .
    """, C, steps=["echo >> a.c"])
