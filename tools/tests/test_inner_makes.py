"""kati-build --port where commands run make: inner makes get the words and the jobs that make gives them, one runs at a
time, and .NOTPARALLEL is kept."""
import os
import unittest

from kati_tools.build import inner_makes
from support import Tree, needs

# What an inner make was given, in a file.
INNER = "CC = cc\nout: FORCE\n\t@echo '$(CC)' '$(X)' $(MAKELEVEL) $(filter -j%,$(MAKEFLAGS)) > out\nFORCE:\n"
OUTER = "CC = cc\nall: lib/out\nlib/out: FORCE\n\t+$(MAKE) -s -C lib out\nFORCE:\n"
# Two jobs of an inner make, of which each waits for the other one to begin; a third one gives up for them.
TOGETHER = """\
WAIT = n=0; until test -e begun.$(1); do n=$$((n+1)); test $$n -lt 500 || exit 1; sleep 0.02; done
both: one two
one: ; touch begun.1; $(call WAIT,2); touch one
two: ; touch begun.2; $(call WAIT,1); touch two
"""
# A command that is told when another one like it runs at the same time.
ALONE = "\tmkdir busy && sleep 0.1 && rmdir busy && touch $@\n"


class Commands(unittest.TestCase):
    """Which commands run make, and the flags."""

    def test_which_run_make(self):
        for text, wanted in {"make -C lib": True, "cd lib && make": True, "for d in a b; do make -C $d; done": True,
                             "A=1 B=2 /usr/bin/gmake x": True, "x=`make -s v`; echo $x": True, "exec make": True,
                             "echo make it": False, "cc -o make main.o": False, "rm -f make": False,
                             "test -d a || make a": True}.items():
            self.assertEqual(inner_makes.runs_make(f"/bin/sh -c '{text}'"), wanted, text)

    def test_flags(self):
        self.assertEqual(inner_makes.flags(3, []), "-j3")
        self.assertEqual(inner_makes.flags(0, ["A=1", "B=a b\\$(C)"]), "-j -- A=1 B=a\\ b\\\\$$(C)")
        self.assertEqual(inner_makes.flags(None, []), f"-j{len(os.sched_getaffinity(0))}")


@needs("kati", "kati-asked", "make", "ninja")
class InnerMakes(Tree):
    """A makefile with one in a folder below it."""

    def build(self, *words):
        ran = self.tool("kati-build", "--port", *words)
        self.assertEqual(ran.status, 0, ran.all)
        return ran

    def test_they_get_the_words_as_by_make(self):
        self.put_all({"Makefile": OUTER, "lib/Makefile": INNER})
        for words in ([], ["CC=clang"], ["CC=clang -a", "X=a\"b$$c\\d`e`"], ["X=1", "X=2"]):
            with self.subTest(words=words):
                self.assertEqual(self.run_in("make", "-j3", *words).status, 0)
                wanted = self.read("lib/out")
                os.unlink(self.top / "lib/out")
                ran = self.build(*words, "--", "-j3")
                self.assertEqual(self.read("lib/out"), wanted, ran.all)
                self.assertNotIn("differ", ran.all)
                os.unlink(self.top / "lib/out")
                self.ninja()
                self.assertEqual(self.read("lib/out"), wanted)

    def test_the_jobs_stay_when_ninja_translates_again(self):
        self.put_all({"Makefile": OUTER, "lib/Makefile": INNER})
        self.build("--", "-j", "7")
        self.put("Makefile", f"{OUTER}# changed\n")
        self.ninja()
        self.assertEqual(self.read("lib/out").split()[-2:], ["1", "-j7"])

    def test_an_inner_make_runs_several_jobs(self):
        self.put_all({"Makefile": "all: ; $(MAKE) -C lib both\n", "lib/Makefile": TOGETHER})
        self.build("--", "-j2")
        self.assertTrue((self.top / "lib/one").exists() and (self.top / "lib/two").exists())

    def test_one_inner_make_runs_at_a_time(self):
        self.put_all({"Makefile": "all: a b c\na b c: ; $(MAKE) -f inner.mk $@\n", "inner.mk": f"a b c:\n{ALONE}"})
        self.build("--", "-j4")
        self.assertIn("pool kati_inner_makes\n depth = 1\n", self.read("build.kati/translated.ninja"))

    def test_where_nothing_runs_make_nothing_is_added(self):
        self.put_all({"Makefile": "all: out\nout: ; echo $(MAKE) > out\n"})
        self.build("X=1")
        text = self.read("build.kati/translated.ninja")
        self.assertFalse("pool" in text or "MAKEFLAGS" in text, text)

    def test_notparallel_is_kept(self):
        for head in (".NOTPARALLEL:\n", "ifdef X\nelse\n.NOTPARALLEL:\nendif\n"):
            with self.subTest(head):
                self.put_all({"Makefile": f"all: a b c\n{head}a b c:\n{ALONE}"})
                self.build("--", "-j4")
                self.run_in("rm", "-r", "a", "b", "c", "build.kati", "build.ninja")

    def test_notparallel_in_a_branch_that_is_not_taken(self):
        self.put_all({"Makefile": "all: a\nifdef X\n.NOTPARALLEL:\nendif\na: ; touch a\n"})
        self.build()
        self.assertNotIn("pool", self.read("build.kati/translated.ninja"))


if __name__ == "__main__":
    unittest.main()
