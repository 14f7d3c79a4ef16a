"""Edits that a translation must not miss: what `$(shell)`, `$(wildcard)` and includes read, by kati-build and by ninja.

Each row is a makefile, the files of its tree, an edit, and what sees the edit. What must be built is what make builds
then.
"""
from __future__ import annotations

import unittest
from typing import NamedTuple

from trees import Tree

OUT = "out:\n\techo \"$(V)\" > $@\n"
FILES = {"ver.txt": "1\n", "conf/a.mk": "C += a\n", "dir/n.txt": "n\n"}
GIT = ("git init -q . 2>/dev/null; git config user.email a; git config user.name b; git add ver.txt; "
       "git commit -qm one")
BY_WILDCARD = ("rw = $(foreach d,$(wildcard $(1:=/*)),$(call rw,$d,$2) $(filter $(subst *,%,$2),$d))\n"
               "V := $(call rw,conf dir,*.txt)\n" + OUT)


class Row(NamedTuple):
    """A tree and an edit; `setup` and `edit` are shell texts."""

    name: str
    makefile: str
    edit: str
    setup: str = ":"
    is_rebuilt: bool = True                   # make builds something else after the edit


def shell(text, name="", edit="", setup=":", is_rebuilt=True):
    """A row of a variable that a shell text gives."""
    return Row(name or text, f"V := $(shell {text})\n{OUT}", edit, setup, is_rebuilt)


ROWS = (
    Row("a file by a variable", "F := ver.txt\nV := $(shell cat $(F))\n" + OUT, "echo 2 > ver.txt"),
    shell("cat < ver.txt", edit="echo 2 > ver.txt"),
    shell(". ./ver.txt; echo $$X", edit="echo X=2 > ver.txt", setup="echo X=1 > ver.txt"),
    Row("$(file <)", "V := $(file < ver.txt)\n" + OUT, "echo 2 > ver.txt"),
    shell("test -e FLAG && echo yes", edit="echo > FLAG"),
    shell("test -f more/flag && echo yes", edit="touch more/flag", setup="mkdir more"),
    shell("cat conf/FLAG 2>/dev/null", edit="echo 1 > conf/FLAG"),
    shell("ls sub 2>/dev/null", edit="mkdir sub; echo > sub/x"),
    shell("test -d .x && echo yes", edit="mkdir .x"),
    shell("cat .x/y 2>/dev/null", edit="mkdir .x; echo 1 > .x/y"),
    shell("ls -a dir", edit="echo > dir/.hidden"),
    Row("wildcard of a plain name", "V := $(wildcard FLAG)\n" + OUT, "echo > FLAG"),
    Row("wildcard of a folder", "V := $(wildcard sub)\n" + OUT, "mkdir sub"),
    Row("wildcard of a name in a folder", "V := $(if $(wildcard cfg/x),yes,no)\n" + OUT, "touch cfg/x", "mkdir cfg"),
    Row("wildcard of a hidden name", "V := $(wildcard .config)\n" + OUT, "echo > .config"),
    Row("wildcard of two levels", "V := $(wildcard */*.txt)\n" + OUT, "mkdir e; echo > e/q.txt"),
    Row("wildcard of two levels, a file", "V := $(wildcard */*.txt)\n" + OUT, "echo > dir/q.txt"),
    Row("include of a wildcard", "include $(wildcard conf/*.mk)\nV = $(C)\n" + OUT, "echo 'C += b' > conf/b.mk"),
    Row("include of a wildcard, one disappears", "include $(wildcard conf/*.mk)\nV = $(C)\n" + OUT, "rm conf/b.mk",
        "echo 'C += b' > conf/b.mk"),
    Row("-include of names by the shell", "include $(shell ls conf | sed s,^,conf/,)\nV = $(C)\n" + OUT,
        "echo 'C += b' > conf/b.mk"),
    Row("-include of an absent file", "-include later.mk\nV = $(C)\n" + OUT, "echo 'C = c' > later.mk"),
    Row("wildcard in a condition", "ifneq ($(wildcard conf/b.mk),)\nV = yes\nelse\nV = $(shell echo no)\nendif\n" + OUT,
        "echo > conf/b.mk"),
    Row("wildcard in a recipe", "out:\n\techo \"$(wildcard dir/*)\" > $@\n", "echo > dir/q"),
    Row("shell in a recipe", "out:\n\techo \"$(shell cat ver.txt)\" > $@\n", "echo 2 > ver.txt"),
    Row("realpath of a link", "V := $(notdir $(realpath l))\n" + OUT, "ln -sfn dir l", "ln -s ver.txt l"),
    Row("realpath of an absent file", "V := $(notdir $(realpath FLAG))\n" + OUT, "echo > FLAG"),
    shell("cat l", "a link to a file that changes", "echo 2 > ver.txt", "ln -s ver.txt l"),
    shell("cat l", "a link that leads elsewhere", "ln -sfn dir/v l", "ln -s ver.txt l; echo 7 > dir/v"),
    shell("cat l", "a link that leads out", "echo 2 > ../away", "echo 1 > ../away; ln -s ../away l"),
    shell("cat ../VERSION", edit="echo 2 > ../VERSION", setup="echo 1 > ../VERSION"),
    shell("cat ../LATER 2>/dev/null", edit="echo 2 > ../LATER"),
    Row("wildcard above", "V := $(wildcard ../more/*)\n" + OUT, "echo > ../more/x", "mkdir -p ../more"),
    Row("a folder of the tree that is a link", "V := $(wildcard sub/*)\n" + OUT, "echo > ../other/x",
        "mkdir -p ../other; ln -s ../other sub"),
    shell("git log --format=%s -1", edit="git commit -q --allow-empty -m two", setup=GIT),
    shell("git tag", edit="git tag v1", setup=GIT),
    shell("git diff --quiet || echo dirty", edit="echo 2 > ver.txt", setup=GIT),
    shell("./describe", "git in a script", "git commit -q --allow-empty -m two",
          GIT + "; printf '#!/bin/sh\\ngit log --format=%%s -1\\n' > describe; chmod +x describe"),
    Row("wildcards over plain words", "V := $(foreach d,conf dir,$(wildcard $d/*))\n" + OUT, "echo > dir/zz"),
    Row("wildcard by call", "f = $(wildcard $(1)/*)\nV := $(call f,conf) $(call f,dir)\n" + OUT, "echo > dir/zz"),
    Row("recursive wildcard", BY_WILDCARD, "echo > dir/s/y.txt", "mkdir dir/s; echo > dir/s/x.txt"),
    Row("recursive wildcard, a new folder", BY_WILDCARD, "mkdir dir/t; echo > dir/t/y.txt",
        "mkdir dir/s; echo > dir/s/x.txt"),
    shell("find dir -name '*.txt' | sort", edit="echo > dir/z.txt"),
    Row("the makefile, with an older time", "V := 1\n" + OUT, "sed -i s/1/2/ Makefile; touch -d '2 days ago' Makefile"),
    Row("an include, with an older time", "include conf/a.mk\nV = $(C)\n" + OUT,
        "echo C = z > conf/a.mk; touch -d '2 days ago' conf/a.mk"),
    shell("cat ver.txt", "a file of $(shell cat), with an older time",
          "echo 2 > ver.txt; touch -d '2 days ago' ver.txt"),
    shell("cat ver.txt", "a file with its old time and size", "touch -r ver.txt t; echo 2 > ver.txt; "
          "touch -r t ver.txt; rm t"),
    shell("cat ver.txt", "a file that is renamed into place", "echo 2 > new; touch -r ver.txt new; mv new ver.txt"),
)
NOTHING = (
    ("touch .x.swp", "a file of vim"), ("touch x~", "a backup"), ("touch 4913", "vim's trial"),
    ("touch '#x#' '.#x'", "files of Emacs"), ("touch .hidden", "a hidden name"),
    ("mkdir -p .git; touch .git/index.lock", "a name in a hidden folder"),
    ("touch Makefile", "the makefile's time alone"), ("cat ver.txt > new; mv new ver.txt", "the same bytes"),
    ("touch new; rm new", "a file that came and is gone"),
)


class Losses(Tree):
    """Each row in a tree of its own."""

    def start(self, row):
        """Builds the tree of a row."""
        self.put({**FILES, "Makefile": row.makefile})
        self.sh(row.setup)
        ran = self.build()
        self.assertEqual(0, ran.status, ran.said)
        # what the first build itself made
        self.assertEqual(0, self.build().status)
        return self.read("out")

    def by_make(self):
        """What make builds."""
        self.assertEqual(0, self.make("-s", "-B").status)
        return self.read("out")

    def test_edits_by_plain_ninja(self):
        for row in ROWS:
            with self.subTest(row.name):
                self.setUp()
                before = self.start(row)
                self.sh(row.edit)
                ran = self.ninja()
                built = self.read("out")
                self.assertEqual((0, self.by_make()), (ran.status, built), ran.said)
                self.assertEqual(row.is_rebuilt, before != built, "make builds the same")
                self.assertEqual(1, len(ran.reasons), ran.said)

    def test_edits_by_kati_build(self):
        for row in ROWS[::5]:
            with self.subTest(row.name):
                self.setUp()
                self.start(row)
                self.sh(row.edit)
                ran = self.build()
                built = self.read("out")
                self.assertEqual((0, self.by_make()), (ran.status, built), ran.said)

    def test_edit_after_edit_by_plain_ninja(self):
        """A file without inputs is ninja's, however often a plain ninja makes it, until the user edits it."""
        self.start(shell("cat ver.txt"))
        for edit, text in (("echo 2 > ver.txt", "2\n"), ("echo 3 > ver.txt", "3\n"),
                           ("echo mine > out; echo 4 > ver.txt", "mine\n")):
            self.sh(f"sleep 0.05; {edit}")
            ran = self.ninja()
            self.assertEqual((0, text), (ran.status, self.read("out")), ran.said)

    def test_what_is_nothing(self):
        for edit, name in NOTHING:
            with self.subTest(name):
                self.setUp()
                self.start(Row("", "V := $(shell cat ver.txt) $(wildcard *.c)\n" + OUT, ""))
                self.sh(edit)
                for ran in (self.ninja(), self.ninja(), self.build()):
                    self.assertEqual((0, [], False), (ran.status, ran.reasons, ran.has_work), ran.said)


if __name__ == "__main__":
    unittest.main()
