"""kati-port and circles that make drops: a rule that makes a source from its object, as `.o.c:`, of which make makes
nothing."""
import shutil
import unittest

from ported_trees import PortedTree, tree_of
from support import needs

# What the recipe of such a rule says: make doesn't run it.
RAN = "echo ran >> ran.txt; touch $@"
SOURCES = {"a.c": "a\n", "b.c": "b\n"}
RULES = "prog: a.o b.o\n\tcat $^ > $@\n%.o: %.c\n\tcp $< $@\n"
# Of each circle that kati gets without the rule: the files, and words that stand in the makefile afterwards.
PORTED = {
    "a suffix rule beside make's own rule":
        ({"Makefile": "COMPILE.c = cp $< $@; :\nprog: a.o b.o\n\tcat $^ > $@\n"
                      f".o.c:\n\t{RAN}\n", **SOURCES},
         ["ifdef MAKE_VERSION\n.o.c:\nelse\n.kati_circle_1:\nendif\n\techo ran"]),
    "a pattern rule with its recipe on the line":
        ({"Makefile": f"{RULES}%.c: %.o; {RAN}\n\t# and more\n\ttrue\n", **SOURCES},
         ["else\n.kati_circle_1: ; echo ran >> ran.txt; touch $@\nendif\n\t# and more\n"]),
    "a rule with two targets, and one with two prerequisites":
        ({"Makefile": f"{RULES}%.x %.c: %.o\n\t{RAN}\nprog: d.r d.p\n%.r: %.p\n\tcp $< $@\n%.p: %.q\n\tcp $< $@\n"
                      f"%.q: %.p %.r\n\t{RAN}\n", "d.q": "q\n", **SOURCES},
         ["%.x %.c: %.o\nelse\n.kati_circle_1:\n", "%.q: %.p %.r\nelse\n.kati_circle_2:\n"]),
    "a rule with two colons":
        ({"Makefile": f"{RULES}%.c:: %.o\n\t{RAN}\n", **SOURCES}, ["%.c:: %.o\nelse\n.kati_circle_1:\nendif\n"]),
    "a rule in a branch, before its recipe":
        ({"Makefile": f"{RULES}ifdef X\n%.x: %.y\nelse\n%.c: %.o\nendif\n\t{RAN}\n", **SOURCES}, []),
    "an include, and a source in another folder":
        ({"Makefile": "O = a.o sub/c.o\ninclude mk/rules.mk\n", "sub/c.c": "c\n",
          "mk/rules.mk": f"prog: $(O)\n\tcat $^ > $@\n.c.o:\n\tcp $< $@\n.o.c:\n\t{RAN}\n", **SOURCES}, []),
}
CIRCLE = f"{RULES}%.c: %.o\n\t{RAN}\n"
# What make makes by the recipe of a circle's rule, or may, from nothing or where something is edited: kati refuses it.
REFUSED = {
    "a source that isn't there": {"Makefile": CIRCLE, "b.c": "b\n"},
    "the source as a goal": {"Makefile": f"all: a.c prog\n{CIRCLE}", **SOURCES},
    "a source with another prerequisite": {"Makefile": f"{CIRCLE}a.c: a.in\n", "a.in": "", **SOURCES},
    "one with an order-only prerequisite": {"Makefile": f"{CIRCLE}a.c: | a.in\n", "a.in": "", **SOURCES},
    "another use of the rule": {"Makefile": f"all: prog c.c\n{CIRCLE}", "c.o": "", **SOURCES},
    "a static pattern rule": {"Makefile": f"{RULES}a.c b.c: %.c: %.o\n\t{RAN}\n", **SOURCES},
    "a rule of one file": {"Makefile": f"{RULES}a.c: a.o\n\t{RAN}\n", **SOURCES},
    "no rule with a recipe": {"Makefile": f"{RULES}a.c: a.o\n", **SOURCES},
    "a recipe behind the rule of another branch":
        {"Makefile": f"{RULES}ifndef X\n%.c: %.o\nelse\n%.x: %.y\nendif\n\t{RAN}\n", **SOURCES},
}
EDITED = {"Makefile": "prog: a.o b.o\n\tcat $^ > $@; echo $@ >> log.txt\n%.o: %.c\n\tcat $< > $@; echo $@ >> log.txt\n"
                      f"a.o: a.h\n.o.c:\n\t{RAN}\n", "a.h": "h\n", **SOURCES}


@needs("kati", "kati-asked", "make", "ninja")
class Circles(PortedTree):
    """Ported and built as by make, or refused as by kati itself."""

    def check_is_told(self):
        """make says that it drops a circle; answers what it would run."""
        ran = self.run_in("make", "-n")
        self.assertRegex(ran.said, r"make: Circular \S+ <- \S+ dependency dropped\.\n")
        return ran.out

    def check_is_refused(self, fault=r"kati: \*\*\* circular: [abc]\.[co] \[E28\]"):
        """kati-port says so, and changes nothing."""
        before = self.read("Makefile")
        ran = self.tool("kati-port", "--write", "Makefile")
        self.assertEqual(ran.status, 1, ran.all)
        self.assertRegex(ran.said, fault)
        self.assertEqual(self.read("Makefile"), before)

    def test_circles_without_a_use(self):
        for name, (files, words) in PORTED.items():
            with self.subTest(name):
                self.put_all(files)
                self.assertNotIn("ran.txt", self.check_is_told())
                self.assertIn("kati's commands are make's\n", self.check_construct(files, words))
                self.assertNotIn("ran.txt", self.made())
                before = {path: path.read_text() for path in self.top.rglob("*") if path.is_file()}
                again = self.port().out
                self.assertIn("Makefile: kati takes it as it is\n", again)
                self.assertIn("kati's commands are make's\n", again)
                self.assertEqual({path: path.read_text() for path in before}, before)
                ran = self.tool("kati-compare", "--builtin")
                self.assertRegex(ran.out, r"^same: \d commands\n$", ran.said)

    def test_another_language(self):
        self.put_all(PORTED["a rule with two colons"][0])
        german = {"LC_ALL": "C.UTF-8", "LANGUAGE": "de"}
        ran = self.tool("kati-port", "--write", "Makefile", **german)
        self.assertIn("kati's commands are make's\n", ran.out, ran.said)
        self.assertEqual(self.tool("kati-compare", "--builtin", **german).out, "same: 3 commands\n")

    def test_circles_with_a_use(self):
        for name, files in REFUSED.items():
            with self.subTest(name):
                self.put_all(files)
                self.check_is_told()
                self.check_is_refused()

    def test_uses_are_what_make_runs(self):
        for name in ("a source that isn't there", "the source as a goal", "another use of the rule"):
            with self.subTest(name):
                self.put_all(REFUSED[name])
                self.assertIn("ran.txt", self.check_is_told())

    def test_what_make_makes_each_time_is_compared(self):
        text = f"{RULES}ifdef MAKE_VERSION\n.PHONY: a.c\na.c: a.o\n\t{RAN}\nendif\n"
        self.put_all({"Makefile": text, **SOURCES})
        self.assertIn("ran.txt", self.check_is_told())
        ran = self.tool("kati-compare", "--builtin")
        self.assertEqual(ran.status, 1, ran.all)
        self.assertIn("- echo ran >> ran.txt; touch a.c\n", ran.out)
        self.assertIn("differ: 1 command of make's alone, 0 of kati's alone, 3 the same", ran.out)

    def test_another_rule_that_kati_would_take(self):
        text = f"{RULES}.SUFFIXES: .p\n.o.c:\n\t{RAN}\n.p.c:\n\techo p > $@\n"
        self.put_all({"Makefile": text, "a.p": "", **SOURCES})
        self.assertNotIn("echo p", self.check_is_told())
        self.check_is_refused("a.c: make drops a circle here, and makes it by no rule; kati would, by another one\n")

    def test_edits(self):
        self.put_all(EDITED)
        twin = self.top.with_name("twin")
        shutil.copytree(self.top, twin)
        for edit in ("nothing", "a.c", "a.h", "b.c"):
            for top in (self.top, twin) if edit != "nothing" else ():
                self.let_time_pass()
                (top / edit).write_text(f"{edit} is another one\n")
            ran = self.tool("kati-build", "--port", "-j1")
            self.assertEqual(ran.status, 0, ran.all)
            self.assertEqual(self.run_in("make", "-C", twin).status, 0)
            by_ninja, by_make = tree_of(self.top), tree_of(twin)
            self.assertEqual(*(sorted(tree.pop("log.txt").split()) for tree in (by_ninja, by_make)))
            self.assertEqual(by_ninja, by_make)
            self.assertNotIn("ran.txt", by_make)
            self.assertIn("no work to do", self.ninja())

    def test_a_source_that_goes(self):
        self.put_all(EDITED)
        self.assertEqual(self.tool("kati-build", "--port").status, 0)
        for name in ("b.c", "b.o"):
            (self.top / name).unlink()
        self.assertIn("ran.txt; touch b.c\n", self.check_is_told())
        ran = self.tool("kati-build", "--port")
        self.assertEqual(ran.status, 2, ran.all)
        self.assertIn("kati-build: b.c is gone: make is asked again\n", ran.said)
        self.assertIn(" circular: ", ran.said)


if __name__ == "__main__":
    unittest.main()
