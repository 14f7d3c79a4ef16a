"""Groups of targets and the order of recipes, in trees that GNU make and kati-build --ask build and edit."""
from __future__ import annotations

import unittest

from compared import Compared, add_tests, steps

IN = {"in": "1\n"}
EDIT = ["echo 2 > in", "echo 3 > in"]
TREES = {
    # -- one recipe, several targets
    "two files of one recipe": steps("""
        p: y.c y.h ; cat y.c y.h > p; echo p >> log
        y.c y.h: in ; cp in y.c; cp in y.h; echo y >> log
        """, IN, steps=EDIT),
    "three files, one not named": steps("""
        p: a b ; cat a b > p
        a b c: in ; cp in a; cp in b; cp in c; echo abc >> log
        """, IN, steps=EDIT),
    "one file that is shipped and one that nothing needs": steps("""
        p: y.c ; cp y.c p
        y.c y.h: in ; cp in y.c; cp in y.h
        """, {"in": "1\n", "y.c": "shipped\n"}, steps=["true", *EDIT]),
    "the second file needs the first": steps("""
        p: y.c y.h ; cat y.c y.h > p
        y.c y.h: in ; cp in y.c; cp in y.h
        y.h: y.c
        """, IN, steps=EDIT),
    "each run makes one of two": steps("""
        all: x y
        x y: in ; sh step
        """, {"in": "1\n", "step": "if [ -e x ]; then cp in y; else cp in x; fi\n"}),
    "texts that differ by their targets": steps("""
        all: x y
        x y: in ; cp in $@; echo $@ >> log.$@
        """, IN, steps=EDIT),
    "a group of which one is needed": steps("""
        all: x
        x y &: in ; cp in x; cp in y; echo xy >> log
        """, IN, steps=EDIT),
    "a group with further prerequisites": steps("""
        all: x y
        x y &: in ; cat in > x; cat in more > y; echo xy >> log
        y: more
        """, {"in": "1\n", "more": "m\n"}, steps=["echo n > more", *EDIT]),
    "a pattern of two targets": steps("""
        all: a.x b.x b.y
        %.x %.y: %.in ; cp $< $*.x; cp $< $*.y; echo $* >> log.$*
        """, {"a.in": "1\n", "b.in": "1\n"}, steps=["echo 2 > b.in"]),
    "phony targets of one recipe": steps("""
        .PHONY: x y
        all: x y
        x y: in ; echo run >> log
        """, IN),
    # -- folders
    "a folder as prerequisite": steps("""
        all: out/a out/b
        out: ; mkdir out
        out/a out/b: in | out ; cp in $@
        """, IN, steps=EDIT),
    "a folder in a folder": steps("""
        all: out/sub/a
        out/sub: out ; mkdir out/sub
        out: ; mkdir out
        out/sub/a: in | out/sub ; cp in $@
        """, IN, steps=EDIT),
    "a folder that nothing names": steps("""
        all: out/a
        out/a: in ; mkdir -p out; cp in $@
        """, IN, steps=EDIT),
    "an object whose recipe makes a folder first": steps("""
        m.o: in ; mkdir -p .depend; cp in m.o
        """, IN, steps=EDIT),
    "a folder that is there": steps("""
        all: out/a
        out: ; mkdir -p out
        out/a: in | out ; cp in $@
        """, {"in": "1\n", "out/k": ""}, steps=EDIT),
    # -- order
    "WAIT with what only the second needs": steps("""
        all: a .WAIT b
        a: ; sleep 0.2; echo a >> log; touch a
        b: c ; echo b >> log; touch b
        c: ; echo c >> log; touch c
        .WAIT:
        """),
    "WAIT twice, with a shared prerequisite": steps("""
        all: a .WAIT b .WAIT d
        a: s ; sleep 0.1; echo a >> log; touch a
        b: s ; sleep 0.1; echo b >> log; touch b
        d: ; echo d >> log; touch d
        s: ; echo s >> log; touch s
        .WAIT:
        """),
    "NOTPARALLEL without prerequisites": steps("""
        .NOTPARALLEL:
        all: z y x w
        z: ; sleep 0.1; echo z > z
        y: ; cat z > y; echo y >> y
        x: ; cat y > x; echo x >> x
        w: ; cat x > w
        """),
    "clean before all": steps("""
        re: clean all
        all: prog
        prog: a.o b.o ; cat a.o b.o > prog; echo prog >> log
        %.o: %.c ; cp $< $@; echo $@ >> log.$@
        clean: ; rm -f *.o prog
        .PHONY: re all clean
        """, {"a.c": "a\n", "b.c": "b\n"}, steps=["echo c > a.c"]),
    "fclean, clean and all": steps("""
        NAME = prog
        all: $(NAME)
        $(NAME): a.o ; cp a.o $(NAME); echo prog >> log
        a.o: a.c ; cp a.c a.o; echo a.o >> log
        clean: ; rm -f a.o
        fclean: clean ; rm -f $(NAME)
        re: fclean all
        .PHONY: all clean fclean re
        """, {"a.c": "a\n"}, words=["re"], steps=["echo c > a.c"]),
    "a file that an earlier recipe removes": steps("""
        all: first second
        first: in ; rm -f second; cp in first
        second: in ; cp in second; echo second >> log
        """, IN, steps=EDIT),
    # -- sources and names
    "a file without inputs that is there": steps("""
        prog: config.h in ; cat config.h in > prog
        config.h: ; cp config.def.h config.h
        """, {"in": "1\n", "config.h": "mine\n", "config.def.h": "default\n"}, steps=["echo edit > config.h", *EDIT]),
    "a file without inputs that is absent": steps("""
        prog: config.h in ; cat config.h in > prog
        config.h: ; cp config.def.h config.h
        """, {"in": "1\n", "config.def.h": "default\n"},
        steps=["echo edit > config.h", "rm config.h", "echo new > config.def.h", *EDIT]),
    "a phony target beside a folder of its name": steps("""
        .PHONY: test
        test: prog ; echo run >> log
        prog: in ; cp in prog
        """, {"in": "1\n", "test/k": ""}, steps=EDIT),
    "a phony target beside a file of its name": steps("""
        .PHONY: install
        install: prog ; echo run >> log
        prog: in ; cp in prog
        """, {"in": "1\n", "install": "read me\n"}, steps=EDIT),
    "a phony FORCE beside a file of its name": steps("""
        .PHONY: FORCE
        prog: FORCE in ; cp in prog; echo run >> log
        """, {"in": "1\n", "FORCE": ""}, steps=EDIT),
    "a FORCE without a file": steps("""
        prog: FORCE in ; cp in prog; echo run >> log
        FORCE:
        """, IN, steps=EDIT),
    "a goal that is only a file": steps("all: in ; cp in all\n", IN, words=["in"]),
    "a command of more bytes than an argument has": steps("""
        N := $(shell seq 1 9999)
        prog: in ; sort -o prog $(foreach n,$(N),./././././././././in)
        """, IN, steps=EDIT),
    "many short commands of one recipe": steps("""
        N := $(shell seq 1 999)
        define line
        : some words to make it long, and a number to tell the lines apart: $(n); echo $(n) >> $@.new
        
        endef
        prog: in ; rm -f $@.new
        	$(foreach n,$(N),$(line))mv $@.new $@
        """, IN, steps=EDIT),
}


class Order(Compared):
    """One test for each tree."""

    def check_named(self, name):
        """Compares the builds of a tree of the table."""
        self.check(name, TREES[name])


add_tests(Order, TREES, Order.check_named)


class Clean(Compared):
    """`ninja -t clean` deletes nothing that make would leave alone."""

    def test_clean_leaves_what_ninja_did_not_make(self):
        tree = TREES["a phony target beside a file of its name"]
        self.put({"Makefile": tree.makefile + "config.h: ; echo > config.h\ninstall: config.h\n", **tree.files,
                  "config.h": "mine\n"})
        self.assertEqual(0, self.build().status)
        self.ninja("-t", "clean")
        self.assertEqual(("read me\n", "mine\n", None), tuple(map(self.read, ("install", "config.h", "prog"))))

    def test_clean_leaves_a_file_that_came_with_the_tree(self):
        """Until its inputs change, and Ninja makes it."""
        self.put({"Makefile": "prog: p.c\n\tcp p.c $@\np.c: p.y\n\tcp p.y $@\n", "p.y": "y\n"})
        self.sh("sleep 0.02; echo shipped > p.c")
        for edit, left in ((":", "shipped\n"), ("sleep 0.02; echo z > p.y", None)):
            self.sh(edit)
            self.assertEqual((0, 0), (self.build().status, self.build("X=1").status))
            self.ninja("-t", "clean")
            self.assertEqual((left, None), tuple(map(self.read, ("p.c", "prog"))))


if __name__ == "__main__":
    unittest.main()
