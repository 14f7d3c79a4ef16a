"""A first build by kati-build in a tree that make, ./configure or the user has written to: what make would leave, it
leaves. What make leaves is seen by make itself, in a copy of the tree."""
import os
import subprocess
from pathlib import Path
from typing import NamedTuple

from support import LONG, Tree, needs

CONFIGURE = "#!/bin/sh\necho WITH = ${1:-defaults} > config.mak\n"
USES = "include config.mak\nprog: a.c\n\techo built with $(WITH) > prog\n"
FAILING = USES + "config.mak: configure\n\t@echo please run ./configure; exit 1\n"
SUCKLESS = "prog: prog.c config.h\n\tcat prog.c config.h > prog\nconfig.h:\n\tcp config.def.h config.h\n"
GNU = """\
include config.mak
prog: a.c config.h ; cat a.c config.h > prog
config.mak: configure ; @echo please run ./configure; exit 1
config.h: ; cp config.def.h config.h
Makefile: Makefile.in ; ./config.status
clean: ; rm -f prog
"""
DEPEND = """\
all: prog
prog: parser.c main.c ; cat parser.c main.c > prog
parser.c: parser.y ; bison-that-is-not-here parser.y
include .depend
.depend: main.c ; echo 'prog: a.h' > .depend
"""


class Known(NamedTuple):
    """A tree: its makefile and files, what is done in it before kati-build comes, each as a shell's text, and the files
    that make then makes."""
    makefile: str
    files: dict
    before: str = ":"
    made: tuple = ()


TREES = {
    "./configure was run, and its rule wants nothing":
        Known(USES + "config.mak:\n\t./configure\n", {"configure": CONFIGURE, "a.c": ""}, "sh configure extra",
              ("prog",)),
    "./configure was run, and its rule fails":
        Known(FAILING, {"configure": CONFIGURE, "a.c": ""}, "sh configure extra", ("prog",)),
    "the user has edited what a rule copies":
        Known(SUCKLESS, {"prog.c": "", "config.def.h": "1\n"}, "echo mine > config.h", ("prog",)),
    "all is built": Known(SUCKLESS, {"prog.c": "", "config.def.h": "1\n"}, "echo mine > config.h; make -s"),
    "a source came later":
        Known(SUCKLESS, {"prog.c": "", "config.def.h": "1\n"}, "make -s; sleep 0.02; touch prog.c", ("prog",)),
    "a makefile that a rule makes":
        Known(GNU, {"configure": "", "config.def.h": "", "a.c": "", "Makefile.in": ""},
              "touch -d '1 minute ago' Makefile.in configure; echo W = 1 > config.mak; echo mine > config.h",
              ("prog",)),
    "a generated source that was shipped, and an include that isn't made yet":
        Known(DEPEND, {"parser.y": "", "main.c": "", "a.h": "", "parser.c": "1\n"},
              "touch -d '1 minute ago' parser.y", (".depend", "prog")),
    "the same where all but the include is built":
        Known(DEPEND, {"parser.y": "", "main.c": "", "a.h": "", "parser.c": "1\n", "prog": "1\n"},
              "touch -d '1 minute ago' parser.y main.c a.h; touch -d '1 second ago' parser.c", (".depend",)),
}


class Compared(Tree):
    """A tree and a copy of it."""

    def shell(self, text, folder=None):
        self.let_time_pass()
        subprocess.run(["sh", "-c", text], cwd=folder or self.top, check=True, timeout=LONG, stdout=subprocess.DEVNULL)
        self.let_time_pass()

    def copy(self):
        """A copy of the tree, with its times."""
        copy = Path(f"{self.top}.copy")
        subprocess.run(["rm", "-rf", str(copy)], check=True)
        subprocess.run(["cp", "-a", str(self.top), str(copy)], check=True)
        return copy

    def states(self, folder):
        """The files of a folder, each with its text and time; but for those of kati-build and ninja."""
        found = {}
        for at, folders, names in os.walk(folder):
            folders[:] = [name for name in folders if name != "build.kati"]
            paths = [Path(at, name) for name in names if name not in ("build.ninja", "Makefile.log")]
            found.update({str(path.relative_to(folder)): (path.read_bytes(), path.stat().st_mtime_ns)
                          for path in paths})
        return found

    def begin(self, known):
        """Writes a tree, as it is before kati-build comes."""
        subprocess.run(["rm", "-rf", str(self.top)], check=True)
        self.put_all({"Makefile": known.makefile, **known.files})
        if "configure" in known.files:
            (self.top / "configure").chmod(0o755)
        self.shell(known.before)


@needs("kati", "kati-asked", "make", "ninja")
class FirstBuilds(Compared):
    """The trees above, and what is told."""

    def test_it_leaves_what_make_leaves(self):
        for name, known in TREES.items():
            for words in ([], ["--port"]):
                with self.subTest(name, words=words):
                    self.begin(known)
                    copy, before = self.copy(), self.states(self.top)
                    self.assertEqual(subprocess.run(["make", "-s"], cwd=copy, timeout=LONG, check=False,
                                                    stdout=subprocess.DEVNULL).returncode, 0)
                    by_make = self.states(copy)
                    self.assertEqual({one for one in by_make if by_make[one] != before.get(one)}, set(known.made))
                    ran = self.tool("kati-build", *words)
                    self.assertEqual(ran.status, 0, ran.all)
                    after = self.states(self.top)
                    self.assertEqual({one for one in after if after[one] != before.get(one)}, set(known.made), ran.all)
                    self.assertEqual({one: text for one, (text, _) in after.items()},
                                     {one: text for one, (text, _) in by_make.items()})
                    self.ninja()
                    self.assertEqual(self.states(self.top), after)
                    self.assertIn("no work to do", self.ninja())

    def test_a_failing_recipe_changes_no_time_and_configure_helps(self):
        for words in ([], ["--port"]):
            with self.subTest(words):
                self.begin(TREES["./configure was run, and its rule fails"])
                self.assertEqual(self.tool("kati-build", *words).status, 0)
                before = (self.top / "config.mak").stat().st_mtime_ns
                self.touch("configure")
                self.let_time_pass()
                for _ in range(2):
                    ran = self.run_in("ninja")
                    self.assertEqual(ran.status, 1)
                    self.assertIn("please run ./configure", ran.all)
                    self.assertEqual((self.top / "config.mak").stat().st_mtime_ns, before)
                self.shell("./configure other")
                for command in (["ninja"], ["make"], ["ninja"], [self.tool_path("kati-build"), *words]):
                    ran = self.run_in(*command)
                    self.assertEqual(ran.status, 0, ran.all)
                self.assertEqual(self.read("prog"), "built with other\n")

    def test_an_include_that_may_fail_keeps_its_time_and_is_tried_again(self):
        self.put_all({"Makefile": "-include c.mk\nout: in ; echo $(V) > out\n"
                                  "c.mk: c.in\n\ttest -f ok && cp c.in c.mk\n",
                      "in": "", "c.mk": "V = 1\n"})
        self.let_time_pass()
        self.put("c.in", "V = 2\n")
        before = (self.top / "c.mk").stat().st_mtime_ns
        for command in ([self.tool_path("kati-build")], ["ninja"], ["ninja"]):
            ran = self.run_in(*command)
            self.assertEqual((ran.status, self.read("out")), (0, "1\n"), ran.all)
            self.assertIn("test -f ok", ran.all)
            self.assertEqual((self.top / "c.mk").stat().st_mtime_ns, before)
        self.put("ok", "")
        self.ninja()
        self.assertEqual(self.read("out"), "2\n")

    def test_another_environment_makes_no_file_without_inputs(self):
        self.begin(Known("CFLAGS = -O1\n" + SUCKLESS, {"prog.c": "", "config.def.h": "1\n"}))
        self.assertEqual(self.tool("kati-build", "--port").status, 0)
        self.put("config.h", "mine\n")
        self.assertEqual(self.tool("kati-build", "--port", CFLAGS="-g").status, 0)
        self.assertEqual((self.read("config.h"), self.read("prog")), ("mine\n", "mine\n"))
        os.unlink(self.top / "build.kati/.ninja_log")
        self.ninja()
        self.assertEqual(self.read("config.h"), "mine\n")

    def test_clean_spares_what_make_would_not_make_again(self):
        self.begin(TREES["a makefile that a rule makes"])
        self.assertEqual(self.tool("kati-build", "--port").status, 0)
        self.ninja("-t", "clean")
        names = {path.name for path in self.top.iterdir()}
        self.assertEqual({"Makefile", "config.mak", "config.h", "prog"} & names, {"Makefile", "config.mak", "config.h"})
        self.assertEqual(self.run_in("make").status, 0)

    def test_what_is_told(self):
        self.begin(TREES["a source came later"])
        self.assertEqual(self.tool("kati-build").said, "kati-build: files that exist and stay as they are: 1\n"
                                                       "kati-build: files that exist and are rebuilt: prog\n")
        self.assertEqual(self.tool("kati-build").said, "")

    def test_ten_names_are_told_and_then_a_count(self):
        names = [f"o{number:02}" for number in range(13)]
        self.put("Makefile", f"all: {' '.join(names)}\n{' '.join(names)}: in ; cp in $@\n")
        self.put("in", "")
        self.shell("make -s; sleep 0.02; touch in; rm o12")
        said = self.tool("kati-build").said
        self.assertEqual(said, f"kati-build: files that exist and are rebuilt: {', '.join(names[:10])} and 2 more\n")

    def test_anew_rebuilds_everything(self):
        text = "all: a b\na: in ; cp in a\nb: a ; cp a b\n"
        self.put_all({"Makefile": text, "in": "1\n"})
        self.shell("make -s")
        for _ in range(2):
            before = self.states(self.top)
            self.assertEqual(self.tool("kati-build", "--anew").said,
                             "kati-build: files that exist and are rebuilt: a, b\n")
            after = self.states(self.top)
            self.assertEqual({name for name in after if after[name] != before[name]}, {"a", "b"})
            self.let_time_pass()
        self.assertEqual(self.tool("kati-build").out, "ninja: no work to do.\n")


@needs("kati", "kati-asked", "make", "ninja")
class BesideOthers(Compared):
    """A second Ninja file in a folder."""

    def setUp(self):
        super().setUp()
        self.put_all({"Makefile": "out: in ; cp in out\nclean: ; rm -f out\n.PHONY: clean\n", "in": "1\n"})
        self.assertEqual(self.tool("kati-build").status, 0)

    def test_it_is_refused_and_anew_is_named(self):
        before = self.states(self.top)
        for words in ([], ["--no-ninja"], ["--as-made"]):
            ran = self.tool("kati-build", "-o", "debug.ninja", *words)
            self.assertEqual((ran.status, ran.out, ran.said),
                             (64, "", "kati-build: build.ninja is here too, and the files that exist may be made by "
                                      "its words\nhelp: kati-build --anew rebuilds everything\n"))
            self.assertEqual(self.states(self.top), before)
            self.assertFalse((self.top / "debug.kati").exists())
        ran = self.tool("kati-build", "-o", "debug.ninja", "--anew")
        self.assertEqual((ran.status, ran.said), (0, "kati-build: files that exist and are rebuilt: out\n"))
        self.assertEqual(self.tool("kati-build", "-o", "debug.ninja").out, "ninja: no work to do.\n")

    def test_one_that_makes_nothing_that_exists_is_not(self):
        ran = self.tool("kati-build", "-o", "clean.ninja", "clean")
        self.assertEqual((ran.status, ran.said), (0, ""))
        self.assertFalse((self.top / "out").exists())


@needs("kati", "kati-asked", "make", "ninja", "cc")
class Folders(Compared):
    """Folders of sources with the name of a target."""

    def test_a_new_source_is_seen(self):
        for folder in ("lib", "src", "test"):
            for words in ([], ["--port"]):
                with self.subTest(folder, words=words):
                    subprocess.run(["rm", "-rf", str(self.top)], check=True)
                    sources = f"$(wildcard {folder}/*.c)" if words else "$(SRCS)"
                    more = "" if words else f"SRCS = {folder}/a.c\n-include {folder}/more.mk\n"
                    self.put_all({"Makefile": f"{more}all: {folder}\n.PHONY: all {folder}\n{folder}: x\nx: {sources}\n"
                                              "\tcat $^ > x\n", f"{folder}/a.c": "a\n"})
                    self.let_time_pass()
                    self.assertEqual(self.tool("kati-build", *words).status, 0)
                    self.ninja()
                    self.put(f"{folder}/b.c", "b\n")
                    if not words:
                        self.put(f"{folder}/more.mk", f"SRCS += {folder}/b.c\n")
                    self.let_time_pass()
                    self.ninja()
                    self.assertEqual(self.read("x"), "a\nb\n")
                    self.assertEqual(self.run_in("make", "-q").status, 0)
