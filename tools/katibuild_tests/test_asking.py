"""ask: rules, includes, failures and recipes that are left to make, as make itself has them; and its cost."""
from __future__ import annotations

import os
import shutil
import subprocess
import tempfile
import unittest
from pathlib import Path

from katibuild.ask import asking, reading
from katibuild.ask.question import Question
from katibuild.base import message
from katibuild.base.message import Stop

# name, makefile, goals: make fails, and its last words are ours
FAILURES = (
    ("separator", "all:\nx\n", ()),
    ("no rule", "all: p q\np: ; touch p\n", ()),
    ("no rule, needed by another", "all: p\np: q ; touch p\n", ()),
    ("unknown goal", "all: ; touch a\n", ("nowhere",)),
    ("no targets", "X = 1\n", ()),
    ("error while make reads", "all:\n$(error no compiler)\n", ()),
    ("error in a recipe", "all: ; $(error no compiler)\n", ()),
    ("include", "include nowhere.mk\nall:\n", ()),
    ("include that cannot be made", "include conf.mk\nall:\nconf.mk: ; @echo run configure; exit 1\n", ()),
    ("a library", "all: -lnowhere ; touch all\n", ()),
    ("recursive variable", "X = $(X)\nall: ; echo $(X)\n", ()),
)
# name, makefile, target, what its rules are: inputs, order-only, (phony, double colon, intermediate), targets with it
RULES = (
    ("inputs", "all: b a b | c d\n", "all", [(("b", "a", "b"), ("c", "d"), (0, 0, 0), ())]),
    ("double colon", "all:: a ; echo\nall:: b ; echo\n", "all",
     [(("a",), (), (0, 1, 0), ()), (("b",), (), (0, 1, 0), ())]),
    ("phony", ".PHONY: all\nall: a ; echo\n", "all", [(("a",), (), (1, 0, 0), ())]),
    ("group", "all: x\nx y &: a ; echo\n", "x", [(("a",), (), (0, 0, 0), ("y",))]),
    ("pattern of two", "all: t.x t.y\n%.x %.y: a ; echo\n", "t.x", [(("a",), (), (0, 0, 0), ("t.y",))]),
    ("names with blanks", "all: a\\ b c ; echo\na\\ b: ; echo\n", "all", [(("a b", "c"), (), (0, 0, 0), ())]),
    ("archive", "all: l(a) l(b)\n(%): ; echo\n", "all", [(("l(a)", "l(b)"), (), (0, 0, 0), ())]),
    ("intermediate", "all: t.z\n%.z: %.y ; echo\n%.y: s ; echo\n", "t.y", [(("s",), (), (0, 0, 1), ())]),
    ("built-in", "all: m.o\n", "m.o", [(("m.c",), (), (0, 0, 0), ())]),
    ("two places", "all: a ; echo\nall: b\nall: | c\n", "all", [(("a", "b"), ("c",), (0, 0, 0), ())]),
    ("colon in a name", "all: a\\:b ; echo\na\\:b: ; echo\n", "a:b", [((), (), (0, 0, 0), ())]),
)
NAMES = ("a", "b", "c", "d", "s", "m.c")
# name, makefile, the includes: (path, present, has a rule, always made)
INCLUDES = (
    ("plain", "include c.mk\nall:\n", [("c.mk", 1, 0, 0)]),
    ("absent", "-include gone.mk\nall:\n", [("gone.mk", 0, 0, 0)]),
    ("depfiles", "-include m.d n.d\nall:\n", [("m.d", 1, 0, 0), ("n.d", 1, 0, 0)]),
    ("made", "-include made.mk\nall:\nmade.mk: s ; cp s made.mk\n", [("made.mk", 1, 1, 0)]),
    ("made each time", "-include made.mk\nall:\nmade.mk: FORCE ; cmp -s s $@ || cp s $@\nFORCE:\n",
     [("made.mk", 1, 1, 1)]),
    ("in a folder", "include inc/*.mk\nall:\n", [("inc/sub.mk", 1, 0, 0)]),
    ("makefiles of the goals", "ifneq ($(MAKECMDGOALS),clean)\ninclude c.mk\nendif\nall:\n", [("c.mk", 1, 0, 0)]),
)
FILES = {"c.mk": "C = 1\n", "m.d": "m.o: m.c \\\n  h.h\nh.h:\n", "n.d": "m.o: m.c\n\tcc\n", "inc/sub.mk": "S = 1\n",
         **{name: "# text\n" for name in NAMES}}
# name, makefile, the targets whose recipes are left to make
LEFT = (
    ("reads what is built", "all: out\nout: gen ; echo $(shell cat gen) > out\ngen: ; echo 1 > gen\n", {"out"}),
    ("reads a source", "all: out\nout: s ; echo $(shell cat s) > out\n", set()),
    ("reads its inputs", "all: out\nout: gen ; echo $(shell cat $<) > out\ngen: ; echo 1 > gen\n", {"out"}),
    ("lists what a pattern builds", "all: out\nout: x.q y.q ; echo $(wildcard *.q) > out\n%.q: ; echo 1 > $@\n",
     {"out"}),
    ("lists through a variable", "Q = $(wildcard $(P))\nP = *.q\nall: out\nout: x.q ; echo $(Q) > out\n"
     "x.q: ; echo 1 > $@\n", {"out"}),
    ("lists sources", "all: out\nout: ; echo $(wildcard *.c) > out\n", set()),
    ("a folder of its own", "all: o/out\no/out: s ; $(if $(wildcard $(@D)),,mkdir $(@D);) cp s $@\n", set()),
    ("writes", "all: out\nout: s ; $(file >out.rsp,$^)cat out.rsp > out\n", {"out"}),
    ("writes in a pattern", "all: x.q\n%.q: s ; $(file >$@.rsp,$^)cat $@.rsp > $@\n", {"x.q"}),
    ("writes for a group", "all: x\nx y &: s ; $(file >l,$@)cp l x; cp l y\n", {"x"}),
    ("of a goal's variables", "F = 1\nall: F = 2\nall: out\ngen: ; echo 1 > gen\n"
     "out: gen ; echo $(F) $(MAKECMDGOALS) $(shell cat gen) > out\n", {"out"}),
    ("by another shell", "SHELL = /bin/bash\nall: out\nout: gen ; @echo $$BASH $(shell echo $$BASH; cat gen) > out\n"
     "gen: ; echo 1 > gen\n", {"out"}),
)
FEW, MANY = 3000, 9000        # rules


class Asking(unittest.TestCase):
    """Each case in a tree of its own."""

    maxDiff = None

    def setUp(self):
        room = tempfile.TemporaryDirectory(prefix="kati-tests-")
        self.addCleanup(room.cleanup)
        self.top = Path(os.path.realpath(room.name)) / "tree"
        self.environment = {"PATH": os.defpath, "HOME": "/", "LANG": "C.UTF-8"}

    def question(self, makefile, goals=()):
        """A fresh tree with a makefile, and what is asked there."""
        shutil.rmtree(self.top, ignore_errors=True)
        for name, text in {**FILES, "Makefile": makefile}.items():
            (self.top / name).parent.mkdir(parents=True, exist_ok=True)
            (self.top / name).write_text(text)
        return Question(str(self.top), None, tuple(goals), (), self.environment)

    def answer(self, makefile, goals=()):
        """What make answers."""
        question = self.question(makefile, goals)
        return asking.ask(question, reading.read(question))

    def make(self, *arguments):
        """make's status and errors."""
        ran = subprocess.run(["make", *arguments], cwd=self.top, env=self.environment, stdout=subprocess.PIPE,
                             stderr=subprocess.PIPE, check=False)
        return ran.returncode, ran.stderr.decode()

    def test_failures_are_told_in_makes_own_words(self):
        for name, makefile, goals in FAILURES:
            with self.subTest(name):
                question = self.question(makefile, goals)
                with self.assertRaises(Stop) as stopped:
                    asking.ask(question, reading.read(question))
                status, said = self.make("-n", *goals)
                self.assertEqual(2, status)
                self.assertEqual(2, stopped.exception.status)
                last = said.rstrip("\n").rsplit("\n", 1)[-1]
                self.assertEqual(last, message.lines_of(stopped.exception.message).replace("kati-build: ", "", 1))

    def test_rules(self):
        for name, makefile, target, wanted in RULES:
            with self.subTest(name):
                found = [one for one in self.answer(makefile).rules if one.targets[0] == target]
                self.assertEqual(wanted, [(one.inputs, one.order_only, (one[3:6]), one.targets[1:]) for one in found])

    def test_includes(self):
        for name, makefile, wanted in INCLUDES:
            with self.subTest(name):
                self.assertEqual(wanted, [one[:4] for one in self.answer(makefile).includes if one.path != "Makefile"])

    def test_no_include_of_other_goals(self):
        found = self.answer(INCLUDES[-1][1] + "clean:\n", ["clean"]).includes
        self.assertEqual(["Makefile"], [one.path for one in found])

    def test_a_file_that_another_recipe_leaves(self):
        """Where no other recipe names the file, make's own refusal stands."""
        for recipe, beside, is_taken in (("cp s p.c; cp s p.h", "p.h", True), ("cp s p.c; cp s p.h", "q.h", False),
                                         ("cp s $@; cp s $*.h", "p.h", True), ("cp s $@", "q.h", False),
                                         ("cp s $@", "-lp", False)):
            with self.subTest(recipe=recipe, beside=beside):
                text = f"all: t\nt: p.c {beside} ; cp p.c t\np.c: s ; {recipe}\n"
                if is_taken:
                    self.assertEqual((beside,), self.answer(text).unmade)
                else:
                    with self.assertRaises(Stop):
                        self.answer(text)

    def test_marks_that_are_not_known(self):
        for recipe, is_known in (("$(if $(filter x,$(V)),-)true", False), ("$(if $(filter x,$(V)),@)true", True),
                                 ("$(if $(V),-)true", True), ("$(or $(V),-)true", True), ("-$(subst x,y,true)", True),
                                 ("$(subst x,y,true)", True)):
            with self.subTest(recipe):
                self.assertEqual([is_known], [line.is_mark_known for line in self.answer(f"all: ; {recipe}\n").lines])

    def test_left_recipes_do_what_make_does(self):
        """make reads a folder once, and so may miss what its own run builds: it runs the recipe a second time."""
        for name, makefile, wanted in LEFT:
            with self.subTest(name):
                answer = self.answer(makefile)
                self.assertEqual(wanted, answer.left)
                self.assertEqual({"Makefile", "inc", *FILES}, self.files())
                for line in answer.lines:
                    ran = subprocess.run([*line.shell, line.text], cwd=self.top, env=self.environment, check=False)
                    self.assertEqual(0, ran.returncode)
                ours = {one: (self.top / one).read_bytes() for one in self.files() if (self.top / one).is_file()}
                self.question(makefile)
                self.assertEqual(0, self.make()[0])
                for target in wanted:
                    (self.top / target).unlink()
                    self.assertEqual(0, self.make()[0])
                self.assertEqual(ours, {one: (self.top / one).read_bytes() for one in self.files()
                                        if (self.top / one).is_file()})

    def files(self):
        """The names in the tree."""
        return {str(one.relative_to(self.top)) for one in self.top.rglob("*")}

    def test_a_double_colon_recipe_that_writes_is_refused(self):
        with self.assertRaises(Stop) as stopped:
            self.answer("all:: s\n\t$(file >out,x)\n")
        self.assertEqual(("Makefile", 2), stopped.exception.message.place)
        self.assertEqual({"Makefile", "inc", *FILES}, self.files())

    def cost(self, count):
        """The processor time of asking for so many rules, in seconds."""
        rules = "".join(f"t{n}: s ; @cp s t{n}\n" for n in range(count))
        question = self.question(f"all: {' '.join(f't{n}' for n in range(count))}\n{rules}")
        before = sum(os.times()[:4])
        answer = asking.ask(question, reading.read(question))
        self.assertEqual(count, len(answer.lines))
        return sum(os.times()[:4]) - before

    def test_the_cost_is_linear(self):
        few, many = (min(self.cost(count) for _ in range(2)) for count in (FEW, MANY))
        self.assertLess(many, few * MANY / FEW * 1.7)


if __name__ == "__main__":
    unittest.main()
