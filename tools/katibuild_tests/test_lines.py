"""ask: the lines of recipes, their shells, environments and marks, as a real build by make has them."""
from __future__ import annotations

import functools
import os
import re
import shutil
import tempfile
import textwrap
import unittest
from pathlib import Path
from unittest import mock

import recording_shell
from katibuild.ask import asking, reading, recorded
from katibuild.ask.question import Question

# name, makefile (four blanks are a tab), arguments, whether the recorder has to write down each line
CASES = (
    ("plain", "all: a b\na: ; touch a\nb: a\n    cp a b\n", "", False),
    ("echo", "all: ; @echo one\n    echo two\n    @ echo three\n", "", False),
    ("ignored", "all:\n    -true one\n    true two\n    - true three\n", "", False),
    ("plus", "all: ; +echo one\n    @+echo two\n    +-echo three\n", "", False),
    ("marks in any order", "all: ; -@echo one\n    @-echo two\n    @ - + echo three\n", "", False),
    ("marks in a variable", "Q = @\nI = -\nall: ; $(Q)echo one\n    $(I)$Q echo two\n    $(NO)echo three\n", "", False),
    ("quiet by a variable of the user", "Q = @\nall: ; $(Q)echo one\n", "Q=", False),
    ("marks by if", "all: ; $(if $(V),,@)echo one\n    $(if $(V),-,-@)echo two\n", "", False),
    ("marks by if, given", "all: ; $(if $(V),,@)echo one\n    $(if $(V),,-)echo two\n", "V=1", False),
    ("command that echoes itself", "CC = @echo CC $@; true\nall: x\nx: ; $(CC) -c x\n    echo other\n", "", False),
    ("canned", "define two\n@echo 1\n-echo 2\nendef\nall: ; $(two)\n    echo 3\n", "", False),
    ("canned behind marks", "define two\n@echo 1\necho 2\nendef\nall: ; -$(two)\nb:\n    @$(two)\nall: b\n", "", False),
    ("called", "define two\n@echo $1\necho $1 $2\nendef\nall: ; $(call two,a b,c)\n    -${call two,d}\n", "", False),
    ("called in a call", "define in\n-echo in $1\nendef\ndefine out\n$(call in,$1)\n@echo out\nendef\n"
     "all: ; $(call out,x)\n", "", False),
    ("references alone", "N =\nL = $(if $(filter x,$(N)),-)echo l\ndefine T\necho 1\n-echo 2\nendef\n"
     "all:\n    $(N)\n    $(L)\n    -echo one\n    $(if a,$(T))\n    $(subst x,y,echo z)\n    @-echo two\n", "", False),
    ("silent", ".SILENT:\nall: ; echo one\n    -echo two\n", "", False),
    ("silent targets", ".SILENT: a\nall: a b\na: ; echo one\nb: ; echo two\n", "", False),
    ("ignoring targets", ".IGNORE: a\nall: a b\na: ; echo one\nb: ; echo two\n", "", False),
    ("ignoring", ".IGNORE:\nall: a\na: ; echo one\n", "", False),
    ("MAKEFLAGS has s", "MAKEFLAGS += -s\nall: ; echo one\n", "", False),
    ("MAKEFLAGS has i", "MAKEFLAGS += -i\nall: ; echo one\n    echo two\n", "", False),
    ("one shell", ".ONESHELL:\nall: a\n    @x=1\n    echo $$x\na: ; echo one\n    echo two\n", "", False),
    ("one shell, marks within", ".ONESHELL:\nall: ; @echo one\n    -echo two \\\n      -three\n    +@echo four\n", "",
     False),
    ("one shell, not Bourne's", ".ONESHELL:\nSHELL = /bin/bash\n.SHELLFLAGS = -e -c\nall: ; echo one\n    echo two\n",
     "", False),
    ("posix", ".POSIX:\nall: ; echo one\n    -echo two\n", "", False),
    ("posix, ignored by a variable", ".POSIX:\nI = -\nall: ; $(I)echo one\n    echo two\n", "", False),
    ("bash", "SHELL = /bin/bash\nall: ; [[ a = a ]] && echo $$0 $(SHELL)\n", "", False),
    ("bash with flags", "SHELL := /bin/bash\n.SHELLFLAGS := -eu -o pipefail -c\nall: ; echo one\n", "", False),
    ("shell of a target", "all: a b\na: SHELL = /bin/bash\na: ; [[ a = a ]]\nb: ; echo b\n", "", True),
    ("shell of a target by a variable", "B = /bin/bash\nall: a b\na: SHELL = $(B)\na: c ; [[ a = a ]]\n"
     "b: ; echo b\nc: ; [[ c = c ]]\n", "", True),
    ("shell of a pattern", "all: a.x b\n%.x: SHELL = /bin/bash\n%.x: ; [[ a = a ]]\nb: ; echo b\n", "", True),
    ("flags of a target", "all: a b\na: .SHELLFLAGS = -x -c\na: ; echo a\nb: ; echo b\n", "", True),
    ("exported", "export A = one\nB = two\nexport B\nexport C := $$x\nall: ; echo $$A $$B\n", "", False),
    ("unexported", "unexport HOME\nUSER = me\nall: ; echo $$HOME\n", "", False),
    ("everything is exported", "export\nA = 1\nall: ; echo $$A\n", "", False),
    ("exported text of lines", "define A\none\ntwo 'x'\nendef\nexport A\nall: ; echo \"$$A\"\n", "", False),
    ("exported by a target", "all: a b\na: export A = for $@\na: ; echo $$A\nb: ; echo $$A\n", "", True),
    ("an exported variable of a target", "export A = 1\nall: a b\na: A = 2\na: ; echo $$A\nb: ; echo $$A\n", "", True),
    ("everything is exported, and a target's", "export\nA = 1\nall: a b\na: A = 2\na b: ; echo $$A\n", "", True),
    ("an exported variable of the target", "export A = $(@F)\nall: a b\na b: ; echo $$A\n", "", True),
    ("an exported variable through others", "export A = $(B)\nB = $(C)\nC = 1\nall: a b\na: C = 2\na b: ; echo $$A\n",
     "", True),
    ("a variable of the user's for a target", "all: a b\na: GIVEN = x\na b: ; echo $$GIVEN\n", "", True),
    ("variables of targets", "F = 1\nall: a b\na: F = 2\na: c ; echo $(F)\nb: F += 3\nb: ; echo $(F)\nc: ; echo $(F)\n"
     "%.z: F = z\nr.z: ; echo $(F)\nall: r.z\n", "", False),
    ("given on the command line", "F = 1\nall: ; echo $(F)\n", "F=-g|G=a b", False),
    ("overridden", "override F += -x\nall: ; echo $(F)\n", "F=-g", False),
    ("flags for inner makes", "MAKEFLAGS += -rR --no-print-directory\nall: a ; +@echo inner\na: ; echo $(MAKELEVEL)\n",
     "", False),
    ("inner make", "all: a\n    $(MAKE) -f in x\na: ; echo a\n", "", False),
    ("inner make by name", "all: ; make -f in x F=1\n", "G=1", False),
    ("continued", "all: ; echo a \\\n      b\n    echo 'c\\\n    d' \\\\\n    echo e\n", "", False),
    ("double colon", "all:: ; echo one\nall:: ; @echo two\n    -echo three\n", "", False),
    ("group", "all: a\na b &: ; touch a b\n    @echo $@\n", "", False),
    ("static pattern", "all: a.o b.o\na.o b.o: %.o: ; @echo $* > $@\n", "", False),
    ("second expansion", ".SECONDEXPANSION:\nX_a = c\nall: a\na: $$(X_$$@) ; echo $^\nc: ; touch c\n", "", False),
    ("archive", "all: l.a(a) l.a(b)\n(%): ; @echo $@ $%\n    touch $%\n", "", False),
    ("info in a recipe", "all: ; $(info said)echo one\n    @echo two\n", "", True),
    ("info in a variable of a target", "all: L = $(info Makefile:2: target 'all' does not exist)\n"
     "all: ; $(L)echo one\n    @echo two\n", "", True),
    ("shell in a recipe", "all: ; echo $(shell echo x; echo y)\n", "", False),
    ("names with blanks", "all: a\\ b\na\\ b: ; @touch 'a b'\n", "", False),
    ("prefix", ".RECIPEPREFIX = >\nall:\n>@echo one\n>echo two \\\n>  three\n", "", False),
    ("nothing to run", "all: a b c\na: ;\nb: ; @:\nc: ; $(NO)\n    echo c\n", "", False),
    ("lines that look like heads", "T = target 'all' does not exist\nall: ; true \"Makefile:2: $(T)\"\n"
     "    true 'update target '\\''x'\\'' due to: y'\n", "", False),
    ("output sync", "MAKEFLAGS += -Otarget -j4\nall: a b\na: ; echo a\nb: a ; +echo b\n", "", False),
    ("environment first", "MAKEFLAGS += -e\nGIVEN = makefile\nall: ; echo $(GIVEN)\n", "", False),
    ("order-only", "all: a\na: | d ; cp d/x a\nd: ; mkdir d\n    touch d/x\n", "", False),
    ("vpath", "VPATH = s\nall: a\na: x ; cp $< a\n", "", False),
)
JOBS = re.compile(r"(?:-j\d+|--jobserver-\S+) ?")      # Ninja has its own job tokens
FILES = {"in": "x: ; echo $(MAKELEVEL) $(MAKEFLAGS) $(F)\n", "s/x": "x\n"}


class Lines(unittest.TestCase):
    """Each case in a fresh tree."""

    maxDiff = None

    def setUp(self):
        room = tempfile.TemporaryDirectory(prefix="kati-tests-")
        self.addCleanup(room.cleanup)
        self.room = Path(os.path.realpath(room.name))

    def fresh(self, makefile):
        """A fresh tree with a makefile."""
        top = self.room / "tree"
        shutil.rmtree(top, ignore_errors=True)
        for name, text in {**FILES, "Makefile": makefile}.items():
            (top / name).parent.mkdir(parents=True, exist_ok=True)
            (top / name).write_text(text)
        return top

    def asked(self, makefile, arguments, mode):
        """The lines as the tools read them: by what they decide, by printed or by recorded lines."""
        top = self.fresh(makefile)
        environment = recording_shell.clean_environment()
        question = Question(str(top), None, (), tuple(arguments), environment)
        found = reading.read(question)
        with mock.patch.object(recorded, "reason", {"as decided": recorded.reason, "printed": lambda *_: "",
                                                    "recorded": lambda *_: "wanted"}[mode]):
            answer = asking.ask(question, found)
        self.assertEqual({"Makefile", *FILES, "s"}, {str(one.relative_to(top)) for one in top.rglob("*")})
        return answer

    def test_lines(self):
        shell = recording_shell.Shell(self.room)
        for name, text, given, is_recorded in CASES:
            makefile = textwrap.dedent(text).replace("\n    ", "\n\t")
            arguments = given.split("|") if given else []
            wanted = recording_shell.seen(shell, arguments, functools.partial(self.fresh, shell.makefile(makefile)),
                                          recording_shell.clean_environment())
            for mode in ("as decided", "recorded", *(() if is_recorded else ("printed",))):
                with self.subTest(name, mode=mode):
                    self.check(wanted, self.asked(makefile, arguments, mode).lines)

    def check(self, wanted, lines):
        """Lines are a real build's, in its order; MAKEFLAGS and the like only where they are given."""
        kept = [tuple(pair for pair in line.environment if pair[0] not in recording_shell.OWN) for line in lines]
        self.assertEqual([line[:5] for line in wanted],
                         [(line.text, line.shell, environment, line.is_echoed, line.is_ignored)
                          for line, environment in zip(lines, kept)])
        for line, real in zip(lines, wanted):
            inner = tuple(pair for pair in sorted(line.environment) if pair[0] in recording_shell.OWN)
            wanted_inner = tuple((name, JOBS.sub("", value).rstrip()) for name, value in sorted(real.inner))
            has_flags = bool(wanted_inner[0][1])
            self.assertEqual(wanted_inner if has_flags or "make " in line.text else (), inner)

    def test_when_lines_are_recorded(self):
        for name, text, given, is_recorded in CASES:
            with self.subTest(name), mock.patch.object(asking, "recorded_lines", return_value=[]) as used:
                self.asked(text.replace("\n    ", "\n\t"), given.split("|") if given else [], "as decided")
                self.assertEqual(is_recorded, used.called)


if __name__ == "__main__":
    unittest.main()
