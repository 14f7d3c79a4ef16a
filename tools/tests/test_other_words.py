"""kati-build --port for one goal after another: make is asked once for each, as long as what a port came from stays,
and the first port for a goal begins with what those for others have found out."""
import argparse
import json
import shutil

from support import Tree, kati, kati_asked, needs

from kati_tools.port import other_words, port_record

MAKEFILE = "V := $(shell cat n.txt)\nall: out\nout: a.c ; echo $(V) > out\n" \
    "install: out ; echo $(shell echo i) $(V) $(P) > installed\nclean: ; rm -f out installed\n" \
    "stuck: ; $(eval A := 1) true\n"

# With what kati refuses, in the makefile and in the recipes of some goals.
OBJECTS = """\
VERSION := $(shell cat version.txt)
SRCS := $(wildcard src/*.c)
OBJS = $(SRCS:.c=.o)
export LC_ALL = C
export KIND = a  b
CC ?= cc
override CFLAGS += -O0
DESTDIR ?= $(CURDIR)/dest
\tifeq ($(VERSION),1)
LIBS = -lm
\tendif
all: prog
prog: $(OBJS) ; cat $^ > $@
src/%.o: src/%.c ; echo $(CC) $(CFLAGS) $(VERSION) $(LIBS) $< > $@
debug: CFLAGS += -g
debug: prog
install: prog ; mkdir -p $(DESTDIR); cp prog $(DESTDIR)/$(shell cat name.txt)
test: prog ; $(foreach one,$(wildcard tests/*.txt),cat $(one) &&) echo "$$KIND"
clean: ; rm -f prog $(wildcard src/*.o)
.PHONY: all install test clean debug
"""


@needs("kati", "kati-asked", "make", "ninja")
class Goals(Tree):
    """What is asked of make where the goals change."""

    def setUp(self):
        super().setUp()
        self.count = self.top.parent / "count"
        self.make = self.program("counted-make", f'echo >> {self.count}\nexec {shutil.which("make")} "$@"')
        self.put_all({"Makefile": MAKEFILE, "n.txt": "1\n", "a.c": ""})

    def asked(self, *words, said=""):
        """How often make is asked by a build for these words, which says no more than this."""
        self.count.write_text("")
        ran = self.tool("kati-build", "--port", *words, MAKE=self.make)
        self.assertEqual((ran.status, ran.said), (0, said), ran.all)
        return self.count.read_text().count("\n")

    def test_back_and_forth(self):
        others = "kati-build: other words are given: make is asked again\n"
        self.assertGreater(self.asked(), 0)
        for words in (["install"], ["clean"], ["install", "P=2"]):
            self.assertGreater(self.asked(*words, said=others), 0)
        for words in ([], ["install"], ["clean"], ["install", "P=2"], []):
            with self.subTest(words):
                self.assertEqual(self.asked(*words), 0)
        self.assertEqual((self.read("out"), self.read("installed")), ("1\n", "i 1 2\n"))
        self.ninja()
        self.assertEqual(self.asked("install"), 0)
        self.assertEqual(self.read("installed"), "i 1\n")

    def test_what_has_changed_meanwhile(self):
        self.asked()
        self.asked("install", said="kati-build: other words are given: make is asked again\n")
        self.put("n.txt", "2\n")
        for words in ([], ["install"]):
            said = "kati-build: n.txt has changed: make is asked again\n"
            self.assertGreater(self.asked(*words, said=said), 0)
            self.assertEqual(self.asked(*words), 0)
        self.assertEqual(self.read("installed"), "i 2\n")

    def test_a_port_that_is_stuck_leaves_the_one_of_before(self):
        self.asked()
        before = self.read("build.ninja")
        ran = self.tool("kati-build", "--port", "stuck")
        self.assertEqual(ran.status, 2, ran.all)
        self.assertEqual(self.asked(), 0)
        self.assertEqual(self.read("build.ninja"), before)

    def test_what_was_put_aside_and_is_not_as_it_was(self):
        self.asked()
        self.asked("install", said="kati-build: other words are given: make is asked again\n")
        aside = self.top / "build.kati/aside"
        for spoil in (lambda one: (one / "ported.json").write_text("{"), lambda one: shutil.rmtree(one / "ported"),
                      lambda one: next(one.rglob("Makefile")).write_text("")):
            place = next(aside.iterdir())
            spoil(place)
            words = json.loads(self.read("build.kati/ported.json"))["words"][1:]
            self.tool("kati-build", "--port", *([] if words else ["install"]))
            self.assertEqual((self.read("out"), self.read("installed")), ("1\n", "i 1\n"))

    def test_a_link_in_its_place_is_not_followed(self):
        home = self.top.parent / "home"
        home.mkdir()
        self.asked()
        (self.top / "build.kati/aside").symlink_to(home)
        self.asked("install", said="kati-build: other words are given: make is asked again\n")
        self.assertEqual(list(home.iterdir()), [])
        self.assertEqual(self.asked(), 0)

    def test_not_all_are_kept(self):
        (self.top / "build.kati").mkdir()
        record = {"place": "", "tools": "", "watched": {}, "written": {}, "folder": "", "report": [], "taken": [],
                  "differing": None, "difference": None, "depth": None}
        for number in range(12):
            words = ["Makefile", f"P={number}"]
            self.put("build.kati/ported.json", json.dumps({**record, "words": words}))
            asked = argparse.Namespace(makefile="Makefile", words=[f"P={number + 1}"], depth=None)
            other_words.OtherWords(port_record.Record(asked, str(self.top / "build.kati"))).put_aside()
            self.let_time_pass()
        kept = [json.loads(one.read_text())["words"][1] for one in self.top.glob("build.kati/aside/*/ported.json")]
        self.assertEqual(sorted(kept, key=lambda one: int(one[2:])), [f"P={number}" for number in range(4, 12)])


@needs("kati", "kati-asked", "make", "ninja")
class OtherGoals(Tree):
    """The first port for a goal, after one for another goal of the same makefiles."""

    def setUp(self):
        super().setUp()
        self.counted = self.top.parent / "counted"
        programs = {"KATI": ("kati", kati()), "KATI_ASKED": ("asked", kati_asked()), "MAKE": ("make", "make")}
        self.around = {key: self.program(f"{name}-counted", f'echo {name} >> {self.counted}\nexec {path} "$@"')
                       for key, (name, path) in programs.items()}

    def lay_objects(self, count=3):
        """A tree of so many objects."""
        self.put_all({"Makefile": OBJECTS, "version.txt": "1\n", "name.txt": "it\n", "tests/a.txt": "a\n"})
        self.put_all({f"src/f{number}.c": "" for number in range(count)})

    def port(self, *words, status=0):
        """What a port for these words comes to: the translation, and what it says; then how often make and kati are run
        for it."""
        self.counted.write_text("")
        ran = self.tool("kati-build", "--port", "--no-ninja", *words, **self.around)
        self.assertEqual(ran.status, status, ran.all)
        told = self.counted.read_text().split()
        said = [line for line in ran.said.split("\n") if not line.endswith("make is asked again")]
        return (self.read("build.kati/translated.ninja"), said), (told.count("make"), told.count("kati"))

    def assert_as_from_nothing(self, *words, status=0):
        """A port after others comes to what one from nothing does."""
        found = self.port(*words, status=status)[0]
        self.tool("kati-build", "--remove")
        self.assertEqual(found, self.port(*words, status=status)[0])

    def test_it_costs_what_is_of_its_own(self):
        self.lay_objects(100)
        anew = self.port()[1]
        self.assertTrue(anew[0] > 3 and anew[1] > 2, anew)
        # make's commands for the goal, the values of its own calls, what is exported now; kati once, and --check. By
        # another macro all that make tells may be another value.
        for words, runs in ((["install"], (3, 2)), (["test"], (3, 2)), (["clean"], (3, 2)),
                            (["install", "DESTDIR=x"], (anew[0], 2))):
            with self.subTest(words):
                found = self.port(*words)[1]
                self.assertLessEqual(found[0], runs[0])
                self.assertLessEqual(found[1], runs[1])

    def test_it_comes_to_what_a_port_from_nothing_does(self):
        self.lay_objects()
        for words in (["install"], ["test"], ["debug"], ["install", "DESTDIR=x", "VERSION=2"]):
            with self.subTest(words):
                self.port()
                self.assert_as_from_nothing(*words)

    def test_goals_that_the_makefile_names_are_asked_for_anew(self):
        self.put("Makefile", "ifneq ($(filter clean,$(MAKECMDGOALS)),)\nA := $(shell echo c)\nelse\n"
                             "A := $(shell echo o)\nendif\nall: ; echo $(A) > out\nclean: ; echo $(A) > out\n")
        self.port()
        self.assert_as_from_nothing("clean")
        self.assertIn("echo c > out", self.read("build.kati/translated.ninja"))

    def test_what_has_changed_since_is_asked_for_anew(self):
        makefile = "-include more.mk\nA := $(shell cat a.txt)\nall: ; echo $(A) > out\n" \
            "install: ; echo $(A) $(MORE) $(shell cat b.txt) > out\n"
        self.put_all({"Makefile": makefile, "a.txt": "1\n", "b.txt": "1\n"})
        for change, out in (({"a.txt": "2\n"}, "2 1"), ({"b.txt": "2\n"}, "2 2"),
                            ({"more.mk": "MORE := $(shell echo m)\n"}, "2 m 2"),
                            ({"more.mk": "MORE := $(shell echo n)\n"}, "2 n 2"),
                            ({"Makefile": makefile.replace("$(MORE)", "$(MORE)!")}, "2 n! 2")):
            with self.subTest(change):
                self.port()
                self.put_all(change)
                self.port("install")
                self.assertIn(f"echo {out} > out", " ".join(self.read("build.kati/translated.ninja").split()))

    def test_what_nothing_shows_to_have_changed(self):
        hidden = self.program("hidden", "cat $(dirname $0)/hidden.txt")
        (self.top.parent / "hidden.txt").write_text("1\n")
        self.put("Makefile", f"export A := $(shell {hidden})\nB = $(eval B := $(shell {hidden}))$(B)\n"
                             "all: ; echo $(A) $(B) > out\ninstall: ; echo $(A) $(B) $$A > out\n")
        self.port()
        (self.top.parent / "hidden.txt").write_text("2\n")
        self.port("install")
        self.assertIn("A=\"2\" /bin/sh -c 'echo 2 2 $$A > out'", self.read("build.kati/translated.ninja"))

    def test_an_include_that_came_since_is_read(self):
        self.put_all({"Makefile": "all: ; echo $(A) > out\ninstall: ; echo $(A) $(shell echo i) > out\n"
                                  "-include $(addsuffix .mk,own)\n"})
        self.port()
        self.put("own.mk", "A := $(shell echo a)\n")
        self.assert_as_from_nothing("install")
        self.assertIn("echo a i > out", self.read("build.kati/translated.ninja"))

    def test_what_was_kept_and_is_not_as_it_was(self):
        self.lay_objects()
        for change in (lambda text: "", lambda text: text[:-1], lambda text: text.replace("V", "W")):
            self.tool("kati-build", "--remove")
            self.port()
            self.put("build.kati/other-goals.json", change(self.read("build.kati/other-goals.json")))
            found = self.port("clean")
            self.tool("kati-build", "--remove")
            self.assertEqual(found, self.port("clean"))

    def test_what_differed_before_is_no_cause_to_ask_anew(self):
        self.put("Makefile", "ifdef MAKE_VERSION\nSHELL = /bin/bash\nendif\nA := $(shell echo a)\n"
                             "all: ; echo $(A) > out\ninstall: ; echo $(A) $(shell echo i) > out\n")
        self.port(status=5)
        self.assertLessEqual(self.port("install", status=5)[1][0], 4)

    def test_a_difference_is_told_for_a_goal_too(self):
        self.put("Makefile", "A := $(shell echo a)\nall: ; echo $(A) > out\n"
                             "install: one two ; cat one two > three\none: ; echo 1 > one\n"
                             "two: force ; echo $? > two\nforce:\n")
        self.port()
        self.assert_as_from_nothing("install", status=5)
