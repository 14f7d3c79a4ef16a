"""keep: what a translation depends on, by tables: variables, git commands, calls in makefiles, names that count."""
from __future__ import annotations

import os
import unittest
from pathlib import Path

from katibuild.ask.answer import Answer, Include
from katibuild.ask.question import Question
from katibuild.keep import dependencies, environment, stale
from katibuild.keep.record import BuildRecord, Dependencies, FileState, load, save
from katibuild.keep.request import Request
from trees import Tree

# A text of a makefile, the environment, and variables that count with their values.
NAMED = (
    ("CFLAGS ?= -O2\n", {}, {"CFLAGS": None}),
    ("CFLAGS ?= -O2\n", {"CFLAGS": "-g"}, {"CFLAGS": "-g"}),
    ("all: ; echo $(WHO)\n", {}, {"WHO": None}),
    ("all: ; echo $(WHO) ${THEM}\n", {"THEM": "x"}, {"WHO": None, "THEM": "x"}),
    ("all: ; echo $$HOME_OF\n", {"HOME_OF": "/h", "OTHER": "1"}, {"HOME_OF": "/h"}),
    ("all: ; cc x.c\n", {"UNNAMED": "1"}, {"CC": None}),
)
NOT_NAMED = ("MAKEFLAGS", "MAKELEVEL", "PWD", "SHLVL", "TERM", "UNNAMED")
# A shell text, and whether it only asks git something.
GIT = (
    ("git describe --always", True), ("git -C .. rev-parse HEAD 2>/dev/null", True), ("cd x && git log -1", True),
    ("(git status; true)", True), ("git --git-dir=.git tag", True), ("git fetch", False), ("digit x", False),
    ("git submodule update --init", False), ("git describe; git pull", False), ("echo git", False), ("ls", False),
)
# A text of a makefile, variables, the shell texts that are known, and those that are not.
CALLS = (
    ("V := $(shell cat ver)\n", {}, ("cat ver",), ()),
    ("V := $(shell cat $(F))\n", {"F": "ver"}, ("cat ver",), ()),
    ("V := $(shell cat ${F}x $$HOME)\n", {"F": "$(G)", "G": "g"}, ("cat gx $HOME",), ()),
    ("V := $(shell (cd a; ls))\n", {}, ("(cd a; ls)",), ()),
    ("V := $(shell cat $(wildcard x))\n", {}, (), ("cat $(wildcard x)",)),
    ("V := $(shell cat $(UNKNOWN))\n", {}, (), ("cat $(UNKNOWN)",)),
    ("V != git describe\n", {}, ("git describe",), ()),
    ("V := $(shell a \\\n   b)\n", {}, ("a  b",), ()),
    ("V := $(shell cat $(F))\n", {"F": "$(F)"}, (), ("cat $(F)",)),
    ("V := $(shell cat\n", {}, (), ()),
    ("all: ; echo x\n", {}, (), ()),
)
# A name in a folder, and whether it counts, by dependencies with some of each kind.
COUNTING = Dependencies({}, {}, {}, {}, apart=("x.d",), shown=(".obj",), kinds=((".", ".P"),), literal=(".config",))
COUNTS = (
    (".", "a.c", True), (".", ".kati", False), (".", "build.ninja", False), ("sub", "build.ninja", True),
    (".", "x.d", False), (".", "y.d", True), (".", ".obj", True), (".", ".other", False), (".", ".y.P", True),
    ("sub", ".y.P", False), (".", ".config", True), ("sub", ".config", True), (".", ".a.c.swp", False),
    (".", "a.c~", False), (".", "#a.c#", False), (".", ".#a.c", False), (".", "4913", False), (".", "49130", True),
)


class Tables(unittest.TestCase):
    """Each row of each table."""

    def test_variables(self):
        for text, environ, expected in NAMED:
            with self.subTest(text=text, environ=environ):
                given = {**environ, "MAKEFLAGS": "x", "TERM": "x", "PWD": "x"}
                found = environment.named([text], ["CFLAGS"], given, has_calls=False)
                self.assertLessEqual(expected.items(), found.items())
                self.assertEqual(set(), set(NOT_NAMED) & found.keys() - expected.keys())

    def test_path_counts_for_calls(self):
        self.assertEqual("/bin", environment.named([], [], {"PATH": "/bin"}, has_calls=True)["PATH"])
        self.assertNotIn("PATH", environment.named([], [], {"PATH": "/bin"}, has_calls=False))

    def test_restored(self):
        self.assertEqual({"A": "1", "C": "3"}, environment.restored({"A": "0", "B": "2", "C": "3"},
                                                                    {"A": "1", "B": None}))

    def test_git(self):
        for text, is_git in GIT:
            with self.subTest(text):
                self.assertEqual(is_git, environment.is_git(text))

    def test_calls(self):
        for text, variables, known, other in CALLS:
            with self.subTest(text):
                self.assertEqual((known, other), tuple(environment.calls([text], variables)))

    def test_counting(self):
        for folder, name, does_count in COUNTS:
            with self.subTest(folder=folder, name=name):
                self.assertEqual(does_count, stale.Counting(COUNTING).counts(folder, name))

    def test_all_hidden_names_count_where_a_call_lists_them(self):
        counting = stale.Counting(COUNTING._replace(is_all_shown=True))
        self.assertEqual([True, False, False], [counting.counts(".", one) for one in (".other", ".a.swp", "x~")])


class OfTrees(Tree):
    """In a tree."""

    def setUp(self):
        super().setUp()
        before = os.getcwd()
        os.chdir(self.top)
        self.addCleanup(os.chdir, before)
        self.question = Question(str(self.top), None, (), (), {})

    def answer(self, **more):
        """An answer of one makefile."""
        return Answer((), (), (), (), (Include("Makefile", True),), frozenset(), frozenset(), makefiles=("Makefile",),
                      **more)

    def test_every_file_counts_where_the_kernel_watched_a_part(self):
        self.put({"Makefile": "", "sub/a": "1\n", ".git/x": "", ".kati/y": ""})
        found = dependencies.of(self.answer(is_watched=False), self.question, {}, ())
        self.assertEqual({"Makefile", "sub/a"}, set(found.files))
        self.assertIn("inotify", " ".join(found.unseen))
        self.assertEqual({"Makefile"}, set(dependencies.of(self.answer(), self.question, {}, ()).files))

    def test_a_record_is_read_as_it_was_written(self):
        state = FileState(1, 2, 3, 4, "x")
        names = {"a\udcff.c": state, "b": None}
        depends = Dependencies(names, {}, {"X": None, "Y": "\u00e4"}, {"git tag": "1"}, kinds=((".", ".d"),))
        record = BuildRecord(Request(None, ("all",), ("X=1",), jobs=3), depends, outputs=("o",), hidden={"a.d": "a.o"})
        save("record", record)
        self.assertEqual(record, load("record"))
        Path("record").write_bytes(Path("record").read_bytes().replace(b'"format":1', b'"format":2'))
        self.assertIsNone(load("record"))

    def test_the_shell_line_prints_what_the_record_says(self):
        self.put({"Makefile": "", "sub/a b": "1\n", "sub/new\nline": "2\n", ".kati/": ""})
        (self.top / "link").symlink_to("sub")
        os.utime("sub/a b", ns=(10 ** 18, 10 ** 18 + 5))
        found = dependencies.of(self.answer(is_watched=False), self.question, {}, ())
        stale.write_look(".kati", found._replace(files={**found.files, "absent": None}))
        self.assertEqual(0, os.system(stale.shell_line(".kati")))
        os.utime("sub/a b", ns=(10 ** 18, 10 ** 18 + 6))
        self.assertNotEqual(0, os.system(stale.shell_line(".kati")))


if __name__ == "__main__":
    unittest.main()
