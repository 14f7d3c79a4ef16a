"""ask: while make is asked no line of a recipe runs, whatever SHELL, MAKEFLAGS and the like say."""
from __future__ import annotations

import os
import tempfile
import unittest
from pathlib import Path

from katibuild.ask import asking, reading
from katibuild.ask.question import Question
from katibuild.base.message import Stop

# name, makefile (four blanks are a tab), arguments, the calls that `$(shell)` makes while make is asked once
RUNS = (
    ("plus", "all: a b c d\na: ; +touch a\nb: ; touch b; $(MAKE) -v\nc: ; @touch c # $(MAKE)\nd:: ; +rm d\n", "", ()),
    ("inner make", "all: ; $(MAKE) -C .. clean; rm x\n", "", ()),
    ("MAKE is a program", "MAKE = rm\nall: ; $(MAKE) -rf x\n", "", ()),
    ("output sync", "MAKEFLAGS += -Otarget -j4\nall: a b\na: ; +touch a\nb: ; +touch b\n", "", ()),
    ("output sync by override", "override MAKEFLAGS = -Orecurse -j4\nall: a b\na: ; +touch a\nb: ; +cp a b\n", "", ()),
    ("output sync by line", "MAKEFLAGS += -Oline\nall: ; +touch a\n", "", ()),
    ("jobs of the user", "all: a b\na b: ; +touch $@\n", "-j4|-Otarget", ()),
    ("shells of targets", "all: a b.x\na: SHELL = /bin/bash\na: ; +touch a\n%.x: SHELL = /bin/bash\n%.x: ; +touch b\n",
     "", ()),
    ("shells of all", "%: SHELL = /bin/bash\nall: a ; +touch x\na: ; +touch a\n", "", ()),
    ("override of a target", "all: a\na: override SHELL = /bin/bash\na: ; +touch a\n", "", ()),
    ("private shell", "all: private SHELL = /bin/bash\nall: a ; +touch x\na: ; +touch a\n", "", ()),
    ("shell by eval", "all: a\n$(eval a: SHELL = /bin/bash)\n$(eval SHELL = /bin/bash)\na: ; +touch a\n", "", ()),
    ("shell of the user", "all: a\na: ; +touch a\n", "SHELL=/bin/bash", ()),
    ("override", "override SHELL := /bin/bash\nall: ; +touch a\n", "", ()),
    ("shell with arguments", "SHELL = /usr/bin/env bash\nall: ; +touch a\n", "", ()),
    ("shell without a folder", "SHELL := bash\nall: ; +touch a\n", "", ()),
    ("no shell", "SHELL =\nall: ; +touch a\n", "", ()),
    ("another program", "SHELL = /usr/bin/perl\n.SHELLFLAGS = -e\nall: ; +touch a\n", "", ()),
    ("the shell is a canary", "SHELL = sh\nall: ; +touch a\n", "", ()),
    ("flags", ".SHELLFLAGS = -c 'touch a' touch\nall: ; +touch a\n", "", ()),
    ("one shell", ".ONESHELL:\nall:\n    +touch a\n    +touch b\n", "", ()),
    ("one shell, another program", ".ONESHELL:\nSHELL = perl\n.SHELLFLAGS = -e\nall:\n    +touch a\n    +touch b\n", "",
     ()),
    ("posix", ".POSIX:\nall: ; +touch a\n    -+touch b\n", "", ()),
    ("second expansion", ".SECONDEXPANSION:\nall: $$(shell touch s) ; +touch a\n", "", ("touch s",)),
    ("shell in a recipe", "all: ; +echo $(shell touch s)\n", "", ("touch s",)),
    ("no PATH", "all: ; +touch a\nexport KATI_AT = x\nunexport PATH\n", "", ()),
    ("names of the tools", "all: ; +touch a\nKATI_OWN = x\nexport KATI_AT\nkati-environment: ; touch b\n", "", ()),
    ("prefix", ".RECIPEPREFIX = >\nall:\n>+touch a\n", "", ()),
    ("environment first", "MAKEFLAGS += -e\nall: ; +touch a\n", "", ()),
    ("no dry run", "MAKEFLAGS := $(filter-out n,$(MAKEFLAGS))\nall: ; touch a\n", "", ()),
    ("exported to all", "export\nall: a\na: T = 1\na: ; rm -f x; touch a\n", "", ()),
    ("recorded", "all: a\na: export T = 1\na: ; rm -f x; touch a\n", "", ()),
    ("intermediate", "all: a.z\n.INTERMEDIATE: a.y\n%.z: %.y ; cp $< $@\n%.y: %.x ; cp $< $@\na.z: export T = 1\n", "",
     ()),
    ("special targets by ::", ".PHONY:: all\n.NOTPARALLEL::\n.PRECIOUS:: b\nall: a.z ; +touch a\n.INTERMEDIATE: a.y\n"
     "%.z: %.y ; cp $< $@\n%.y: %.x ; cp $< $@\na.z: export T = 1\n", "", ()),
    ("eval in a recipe", "N = S\nall: ; $(eval X := $$(SHELL)) $(eval $(Y) := 1)+touch $(X)\nY = Z\n", "", ()),
    ("a lazy variable beside the word SHELL", "lazy = $(eval $1 = $$(eval $1 := $(value $1))$$($1))\n"
     "KERNEL = $(shell touch k)\n$(call lazy,KERNEL)\nNAMES = TERM SHELL $(if $(KERNEL),KERNEL)\n"
     "print = echo $1=$($1);\nall: vars ; +touch a\nvars: ; @$(foreach one,$(NAMES),$(call print,$(one)))\n", "",
     ("touch k",)),
    ("delete on error", ".DELETE_ON_ERROR:\nall: ; +touch a; false\n", "", ()),
    ("goal that removes", "all: ; touch a\nclean: ; +rm -rf *\n", "clean", ()),
    ("default recipe", "all: nothing\n.DEFAULT: ; +touch $@\n", "", ()),
    ("double colon", "all:: ; +touch a\nall:: ; +mv a b\n", "", ()),
)
# name, makefile, line of the refusal
REFUSED = (
    ("eval in a recipe", "all: a\na: b ; +touch a\nb: ; $(eval SHELL = /bin/bash)+touch b\n", 3),
    ("override by eval in a recipe", "all: a\na:\n    $(eval override SHELL := /bin/bash)\n    +touch a\n", 3),
    ("eval of a called text", "define SET\nSHELL = /bin/bash\nendef\nall: ; $(eval $(call SET)) +touch a\n", 4),
    ("eval in a variable of a recipe", "X = $(eval SHELL = /bin/bash)\nall: ; $(X) +touch a\n", 1),
    ("eval of a computed name", "set = $(eval override $1 := $2)\nall: ; $(call set,SHELL,/bin/bash)+touch a\n", 1),
    ("eval of a called name", "N := SHELL\nall: ; $(eval $(N) = /bin/bash)+touch a\n", 2),
    ("eval of names in a list", "set = $(eval override $1 := /bin/bash)\nNAMES = TERM SHELL\n"
     "all: ; $(foreach one,$(NAMES),$(call set,$(one)))+touch a\n", 1),
    ("eval by a composed name", "K = all\nset_all = $(eval override $1 := /bin/bash)\n"
     "all: ; $(call set_$K,SHELL)+touch a\n", 2),
    ("eval for a target by a name", "N := SHELL\nall: b a\nb: ; $(eval a: $(N) = /bin/bash)+touch b\n"
     "a: ; +touch a\n", 3),
    ("eval of a name from an eval", "all: a ; $(eval override $(N) := /bin/bash)+touch b\n"
     "a: ; $(eval N := SHELL)+touch a\n", 1),
    ("eval of a name of a target", "all: N = SHELL\nall: ; $(eval override $(N) = /bin/bash)+touch a\n", 2),
    ("undefined by eval", "all: ; $(eval override undefine SHELL)+touch a\n", 1),
    ("eval of a text that is called", "define SET\noverride $1 := /bin/bash\nendef\n"
     "all: ; $(eval $(call SET,SHELL))+touch a\n", 4),
    ("eval of flags", "all: ; $(eval .SHELLFLAGS = -e) +touch a\n", 1),
    ("eval for a target", "all: a ; $(eval a: SHELL = /bin/bash) +touch x\na: ; +touch a\n", 1),
    ("eval in a second expansion", ".SECONDEXPANSION:\nall: $$(eval SHELL = /bin/bash) ; +touch a\n", 2),
    ("override by a second expansion", ".SECONDEXPANSION:\nall: $$(eval override SHELL := /bin/bash)\n    +touch a\n",
     2),
    ("MAKEFLAGS", "MAKEFLAGS += SHELL=/bin/bash\nall: ; +touch a\n", 1),
    ("shell of a target from a program", "all: ; +touch a\nall: SHELL = $(shell echo /bin/bash)\n", 2),
)
CANARIES = ("cc", "rm", "cp", "mv", "install", "sh", "bash", "perl", "touch", "make2")


def states(top):
    """The files of a folder: when and how large they were written."""
    found = ((entry.name, entry.stat()) for entry in os.scandir(top))
    return {name: (one.st_mtime_ns, one.st_ctime_ns, one.st_size, one.st_ino) for name, one in found}


class Canary(unittest.TestCase):
    """Each makefile in a tree of its own, with a PATH whose programs write down each call and do nothing."""

    def setUp(self):
        room = tempfile.TemporaryDirectory(prefix="kati-tests-")
        self.addCleanup(room.cleanup)
        self.room = Path(os.path.realpath(room.name))
        self.log = self.room / "log"
        (self.room / "bin").mkdir()
        for name in CANARIES:
            path = self.room / "bin" / name
            path.write_text(f"#!/bin/sh\necho \"${{0##*/}} $*\" >> {self.log}\n")
            path.chmod(0o755)

    def ask(self, makefile, given):
        """Asks make; answers the calls of canaries, and whether the tree is as before."""
        self.log.write_text("")
        with tempfile.TemporaryDirectory(dir=self.room) as top:
            makefile = makefile.replace("\n    ", "\n\t")
            for name, text in (("Makefile", makefile), ("a.x", ""), ("a.y", "own"), ("x", "")):
                Path(top, name).write_text(text)
            before = states(top)
            environment = {"PATH": f"{self.room}/bin:/usr/bin:/bin", "HOME": "/", "SHELL": "/bin/bash"}
            options = tuple(one for one in given.split("|") if "=" in one or one.startswith("-"))
            goals = tuple(one for one in given.split("|") if one and one not in options)
            question = Question(top, None, goals, options, environment)
            try:
                asking.ask(question, reading.read(question))
            finally:
                self.assertEqual(before, states(top))
        return tuple(self.log.read_text().split("\n")[:-1])

    def test_nothing_runs(self):
        for name, makefile, given, calls in RUNS:
            with self.subTest(name):
                self.assertEqual(set(calls), set(self.ask(makefile, given)))

    def test_refused_with_its_line(self):
        for name, makefile, line in REFUSED:
            with self.subTest(name):
                with self.assertRaises(Stop) as stopped:
                    self.ask(makefile, "")
                self.assertEqual("", self.log.read_text())
                self.assertEqual((2, "Makefile", line), (stopped.exception.status, *stopped.exception.message.place))


if __name__ == "__main__":
    unittest.main()
