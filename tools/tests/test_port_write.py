"""kati-port --write: each construct is ported, make does what it did, and what ninja builds is what make builds."""
import errno
import os
import resource
import signal
import subprocess

from ported_trees import PortedTree, tree_of
from support import LONG, TOOLS, needs, without_at_work

from kati_tools.base import programs
from kati_tools.port import writing

# The status of a port of which some commands differ from those of make.
DIFFERS = 5

INCLUDE = "include $(dir $(lastword $(MAKEFILE_LIST)))kati-values.mk"
# Of each construct: the files, and words that stand in the makefile or in kati-values.mk afterwards.
CONSTRUCTS = {
    "shell": ({"Makefile": "N := $(shell cat n.txt)\nall: ; echo $(N) > out\n", "n.txt": "7\n"},
              ["N := $(V_N)", "V_N = $(shell cat n.txt)", "V_N := 7", "# $(shell cat n.txt) reads n.txt "]),
    "shell in a deferred macro and a condition":
        ({"Makefile": "U = $(shell uname -s)\nifeq ($(shell echo a),a)\nB = yes\nendif\nall: ; echo $(U) $(B) > out\n"},
         ["U = $(V_U)", "ifeq ($(V_shell),a)"]),
    "shell in a recipe": ({"Makefile": "all:\n\techo $(shell echo one two) $(sort b a) > out\n"}, ["echo $(V_shell)"]),
    "shell in a loop":
        ({"Makefile": "N := $(foreach n,a b,$(shell echo $(n)$(n)))\nall: ; echo $(N) > out\n"},
         ["V_N = $(foreach n,a b,$(shell echo $(n)$(n)))", "V_N := aa bb"]),
    "shell in a macro that has several values":
        ({"Makefile": "F = a\nT = $(shell echo $(F))\nU = x$(T)\nifneq (,$(findstring a,$(T)))\nX = 1\nendif\nF = b\n"
                      "ifneq (,$(findstring b,$(U)))\nY = 2\nendif\nall: ; echo $(X) $(Y) ${T} $(T:b=c) > out\n"},
         ["T = $(shell echo $(F))", "ifneq (,$(findstring a,$(V_T)))", "V_T = $(T)", "V_T := a"]),
    "shell in a macro that is called":
        ({"Makefile": "twice = $(shell echo $(1)$(1))\nN := $(call twice,a) $(call twice,b)\nall: ; echo $(N) > out\n"},
         ["V_N := aa", "V_N_2 := bb", "twice = $(shell echo $(1)$(1))"]),
    "shell and wildcard of an argument without brackets":
        ({"Makefile": "twice = $(shell echo $1$1)\nall_in = $(wildcard $1$2) $(foreach d,$(wildcard $1*),"
                      "$(call all_in,$d/,$2))\nN := $(call twice,a) $(call twice,b)\nS := $(call all_in,t/,*.t)\n"
                      "all: ; echo $(N) $(S) > out\n", "t/a.t": "", "t/sub/b.t": "", "t/sub/c": ""},
         ["V_N := aa", "V_N_2 := bb", "t/a.t", "t/sub/b.t"]),
    "shell in a body of define":
        ({"Makefile": "define R\n$(1): ; echo $(1) $(shell echo x) > $(1)\nendef\nall: a b\n"
                      "$(foreach n,a b,$(eval $(call R,$(n))))\n"}, ["$(V_shell)"]),
    "shell behind two dollars":
        ({"Makefile": "define R\nN := $$(shell echo '1')\nendef\n$(eval $(R))\n"
                      "M = $(eval M := $$(wildcard *.c))$(M)\nO := $(M)\nall: ; echo $(N) $(O) > out\n", "a.c": ""},
         ["N := $$(V_shell)", "M = $(eval M := $$(V_M))$(M)"]),
    "dollars and marks in values":
        ({"Makefile": "N := $(shell printf '$$A \\043 b ')\nall: ; echo '$(N)|' > out\n"}, ["V_N := $$A \\# b $()"]),
    "one call with two values":
        ({"Makefile": "D = a\nM := $(wildcard $(D)/*.c)\nD = b\nN := $(wildcard $(D)/*.c)\n"
                      "all: ; echo $(M) $(N) > out\n", "a/1.c": "", "b/2.c": ""}, ["V_M := a/1.c", "V_N := b/2.c"]),
    "wildcard": ({"Makefile": "S = $(wildcard *.c)\nall: $(S:.c=.x)\n\tcat $^ > out\n%.x: %.c ; echo $< > $@\n",
                  "a.c": "", "b.c": ""}, ["# $(wildcard *.c)\nV_S := a.c b.c"]),
    "origin and flavor":
        ({"Makefile": "ifeq ($(origin P),undefined)\nP = /usr\nendif\nall: ; echo $(P) $(flavor P) > out\n"},
         ["ifeq ($(V_origin),undefined)"]),
    "abspath and realpath": ({"Makefile": "T := $(realpath .)\nall: ; echo $(T) $(abspath x) > out\n"}, ["V_T := "]),
    "!=": ({"Makefile": "N != echo 1 \\\n 2\nall: ; echo $(N) > out\n"},
           ["N != echo 1 \\\n 2\nelse\nN = $(V_N)\nendif\n", "V_N = $(shell echo 1 2)"]),
    "a number sign by !=":
        ({"Makefile": "N != printf 'a\\043b'\nall: ; echo '$(N)' $(shell echo '$(N)') > out\n"}, []),
    "!= is deferred":
        ({"Makefile": "N != echo 1\nN += $(O) $(flavor N)\nO = 2\nall: ; echo $(N) > out\n"}, []),
    "*.c among names": ({"Makefile": "all: *.c\n\techo $^ > out\n", "a.c": "", "b.c": ""},
                        ["all: $(V_value)", "V_value = *.c", "V_value := a.c b.c"]),
    "*.c in a macro that rules need":
        ({"Makefile": "S = s/*.c\nall: $(S)\n\techo $^ > out\n", "s/a.c": "", "s/b.c": ""},
         ["S = $(V_S)", "V_S = s/*.c"]),
    "MAKEFILE_LIST": ({"Makefile": "D := $(dir $(abspath $(lastword $(MAKEFILE_LIST))))\nall: ; echo $(D) > out\n"},
                      ["MAKEFILE_LIST := $(filter-out %kati-values.mk,$(MAKEFILE_LIST))"]),
    "MAKEFILE_LIST alone": ({"Makefile": "D := $(lastword $(MAKEFILE_LIST))\nall: ; echo $(D) > out\n"},
                            ["V_D := Makefile\n"]),
    "what tells of the run": ({"Makefile": "all: ; echo $(CURDIR) '$(MAKECMDGOALS)' $(HOME) > out\n"},
                              ["CURDIR := /", "MAKECMDGOALS :=\n"]),
    "a target's macro that isn't needed":
        ({"Makefile": "F = -O2\nall: ; echo $(F) > out\ndebug: F += -g\ndebug: all\n"},
         ["ifdef MAKE_VERSION\ndebug: F += -g\nendif\n"]),
    "a target's macro that is needed":
        ({"Makefile": "F = -O2 $(G)\nG = 1\nall: a b c\na: F += -g,$(H)\nb: F = -O3\na b c: ; echo $(F) > $@\nH = h\n"},
         ["ifdef MAKE_VERSION\na: F += -g,$(H)\nelse\nF_HERE = -g,$(H)\nendif\n",
          "F = $(F_BEFORE)$(if $(filter $(F_TARGETS),$@), $(F_HERE))"]),
    "a macro of two targets of which one needs the other":
        ({"Makefile": "F = 0\nall: a d\na b: F += 1\na: b ; echo $(F) > a\nb d: c ; echo $(F) > $@\n"
                      "c: ; echo $(F) > c\n"}, ["F_TARGETS = a b c\n", "F_TARGETS_2_TIMES = b c\n"]),
    "a macro of a target without commands":
        ({"Makefile": "F = 0\nall: b c\nc: F += 1\nc: ;\nb: ; echo $(F) > b\n"}, []),
    "a goal's macro": ({"Makefile": "F = -O2\nall: F += -g\nall: a b\na b: ; echo $(F) > $@\n"},
                       ["F = $(F_BEFORE) $(F_HERE)"]),
    "macros of targets that others need":
        ({"Makefile": "F = 0\nall: one two\none: F = 1\ntwo: F = 2\nown: F += own\none: shared own ; echo $(F) > $@\n"
                      "two: shared b ; echo $(F) > $@\nshared b own: ; echo $(F) > $@\n"}, []),
    "an immediate macro of a target":
        ({"Makefile": "X := 1\nF := '$$$$x'\nall: a b\na: F += $(X)\nb: Y := $(X)\nX := 2\n"
                      "a b: ; echo $(F) $(Y) > $@\n"},
         []),
    "a private macro of a target":
        ({"Makefile": "F = 0\nall: a\na: private F = 1\na: b ; echo $(F) > a\nb: ; echo $(F) > b\n"}, []),
    "a pattern's macro": ({"Makefile": "F = 0\nall: a.x b\n%.x: F = x\na.x b: ; echo $(F) > $@\n"}, []),
    "?= of a target": ({"Makefile": "F = 0\nall: a b\na: F ?= 1\nb: G ?= 2\na b: ; echo $(F) $(G) > $@\n"}, []),
    "export of a value": ({"Makefile": "export LANG_ = a \"b\" $$c\nall: ; echo \"$$LANG_\" > out\n"},
                          ["ifdef MAKE_VERSION\nexport LANG_ = a \"b\" $$c\nelse\nLANG_ = "]),
    "export of names": ({"Makefile": "A = 1\nB = 2\nC = 3\nexport A B\nall: ; echo $$A $$B $$C > out\n"},
                        ["SHELL := A=\"$(A)\" B=\"$(B)\" "]),
    "export of all": ({"Makefile": "A = 1\nB = 2\nexport\nall: ; sh x.sh $$A > out\n", "x.sh": "echo $1 $B\n"},
                      ["SHELL := A=\"$(A)\" B=\"$(B)\" "]),
    "export of all but values":
        ({"Makefile": "export\nN := $(shell echo 1)\nall: ; env | grep -c ^V_ > out; echo $(N) >> out\n"},
         ["unexport V_", " V_N"]),
    "export to an inner make":
        ({"Makefile": "export\nA = 1\nB = -x -y\nC = 'c'\nall: ; $(MAKE) -C sub\n",
          "sub/Makefile": "ifdef A\nF = yes\nendif\nall: ; echo $(F) $(B) $(C) > out\n"}, []),
    ".EXPORT_ALL_VARIABLES": ({"Makefile": ".EXPORT_ALL_VARIABLES:\nA = 1\nall: ; echo $$A > out\n"}, ["A=\"$(A)\""]),
    "unexport": ({"Makefile": "A = 1\nexport A\nunexport A\nall: ; echo $$A > out\n"},
                 ["ifdef MAKE_VERSION\nunexport A\nendif"]),
    "override": ({"Makefile": "F = 1\noverride F += 2\noverride define D\na\nb\nendef\n"
                              "all: ; echo $(F) '$(word 2,$(D))' > out\n"},
                 ["else\nF += 2\nendif", "else\ndefine D\na\nb\nendef\nendif"]),
    "undefine": ({"Makefile": "F = 1\nundefine F\nall: ; echo $(F) > out\n"}, ["else\nF =\nendif"]),
    "private": ({"Makefile": "private F = 1\nall: ; echo $(F) > out\n"}, ["else\nF = 1\nendif"]),
    "conditionals behind a tab":
        ({"Makefile": "F = 1\n\tifeq ($(F),1)\n\tG = 2\n\telse\nG = 3\n\tendif\nall: ; echo $(G) > out\n"},
         ["        ifeq ($(F),1)\n", "        endif\n"]),
    "a word behind a tab": ({"Makefile": "\tinclude a.mk\nall: ; echo $(A) > out\n", "a.mk": "A = 1\n"},
                            ["        include a.mk"]),
    "header dependencies": ({"Makefile": "all: ; echo > out\n-include *.d\n", "x.d": "all: x.h\n", "x.h": ""},
                            ["-include *.d\nelse\n-include $(V_names)\nendif", "V_names := x.d\n"]),
    "an include that make makes":
        ({"Makefile": "all: ; echo $(A) > out\ninclude config.mk\nconfig.mk: config.in ; sed s/@/=/ $< > $@\n",
          "config.in": "A @ 5\n"}, []),
    "VPATH": ({"Makefile": "VPATH = src:inc\nall: a.x b.x c\n%.x: %.c h.h\n\techo $< $^ > $@\n"
                           "c: d.c h.h\n\techo $< $^ > $@\n",
               "src/a.c": "", "b.c": "", "src/d.c": "", "inc/h.h": ""},
              ["ifndef MAKE_VERSION\n%.x: src/%.c"]),
    "VPATH and a built-in rule":
        ({"Makefile": "VPATH = src\nCC = sh cc.sh\nall: main.o\n\tcat main.o > out\n", "cc.sh": "echo $4 > $3\n",
          "src/main.c": ""}, []),
    "vpath": ({"Makefile": "vpath %.c src\nall: a.x\n\tcat $< > out\n.SUFFIXES: .c .x\n.c.x:\n\techo $< > $@\n",
               "src/a.c": ""}, ["ifdef MAKE_VERSION\nvpath %.c src\nendif"]),
    ".SECONDEXPANSION":
        ({"Makefile": "a_S = 1 2\nb_S = 3\nall: a b\n.SECONDEXPANSION:\na b: $$($$@_S)\n\techo $^ > $@\n",
          "1": "", "2": "", "3": ""}, ["else\na: 1 2\nb: 3\na b:\nendif\n"]),
    "a call that depends on the target":
        ({"Makefile": "all: a b\na b: ; echo $(if $(wildcard $@.c),with,without) > $@\n", "a.c": ""},
         ["V_wildcard = $(V_wildcard_$@)",
          "# $(wildcard a.c)\nV_wildcard_a := a.c\n# $(wildcard b.c)\nV_wildcard_b :=\n"]),
    "a call that depends on an argument":
        ({"Makefile": "A = a\ndefine set\n$(if $(findstring undefined,$(origin $(1))),$(eval $(1) = $(2)))\nendef\n"
                      "$(call set,A,x)\n$(call set,B,y)\nall: ; echo $(A) $(B) > out\n"},
         ["V_origin = $(V_origin_$(1))", "V_origin_A := file\nV_origin_B := undefined\n"]),
    "SHELL in a recipe where something is exported":
        ({"Makefile": "export A = 1\nall: ; '$(SHELL)' -c 'echo $$A' > out\n"}, ["'$(V_SHELL)' -c"]),
    "names with a wildcard of several macros":
        ({"Makefile": "D = .\nall: $(D)/d/* c ; echo $(^F) > out\n", "d/a": "", "d/b": "", "c": ""},
         ["all: $(V_names) c", "V_names = $(D)/d/*"]),
    "includes": ({"Makefile": "include a/b.mk\nall: ; echo $(A) $(B) > out\n",
                  "a/b.mk": "A := $(shell echo 1)\nB = 2\n"}, []),
    "deep nesting": ({"Makefile": "A0 = x\n" + "".join(f"A{n} = $(A{n - 1})\n" for n in range(1, 130))
                      + "all: ; echo $(A129) > out\n"}, []),
}

# What nothing is known for: the makefile, and words that are said.
STUCK = {
    ".ONESHELL": (".ONESHELL:\nall:\n\tA=1\n\techo $$A\n", ["Makefile:1: ", "[E22]", "backslashes"]),
    ".WAIT": ("all: a .WAIT b\na b: ; echo\n.WAIT: ; true\n", ["Makefile:1: ", "[E22]", "order-only"]),
    "archive members": ("all: lib.a(a.o)\n%.o: ; touch $@\n", ["Makefile:1: ", "[E20]", "by one rule"]),
    "a circle": ("X := $(shell echo)\nall: a\na: b ; echo\nb: a ; echo\n", ["circular: ", "[E28]", "take one of the"]),
}


@needs("kati", "kati-asked", "make", "ninja")
class Writing(PortedTree):
    """What is written, and what is said."""

    def test_each_construct(self):
        for name, (files, words) in CONSTRUCTS.items():
            with self.subTest(name):
                self.check_construct(files, words)

    def test_where_nothing_is_known_no_file_changes(self):
        for name, (makefile, words) in STUCK.items():
            with self.subTest(name):
                self.put_all({"Makefile": makefile})
                ran = self.port(status=1)
                self.assertEqual([word for word in words if word not in ran.said], [], ran.all)
                self.assertEqual(self.read("Makefile"), makefile)
                self.assertEqual([path.name for path in self.top.iterdir()], ["Makefile"])

    def test_what_kati_takes_stays(self):
        self.copy_example()
        before = self.made()
        self.assertIn("kati takes it as it is", self.port().out)
        self.assertEqual(self.made(), before)

    def test_a_second_port_changes_nothing(self):
        self.put_all({"Makefile": "N := $(shell echo 1)\nexport A = 1\nall: ; echo $(N) $$A > out\n"})
        self.port()
        before = self.read("Makefile")
        self.assertIn("kati takes it as it is", self.port().out)
        self.assertEqual(self.read("Makefile"), before)

    def test_make_finds_the_values_of_a_folder_with_a_blank(self):
        self.put_all({"a b/Makefile": "N := $(shell echo 1)\nall: ; echo $(N)\n", "other.mk": ""})
        place = str(self.top / "a b/Makefile")
        words = (["-C", "a b"], ["-f", "a b/Makefile"], ["-f", place],
                 ["-C", "a b", "-f", "../other.mk", "-f", "Makefile"])
        wanted = [self.run_in("make", "-n", "--no-print-directory", *one).all for one in words]
        ran = self.run_in("env", "-C", "a b", self.tool_path("kati-port"), "--write", "Makefile")
        self.assertIn("kati's commands are make's\n", ran.out, ran.all)
        self.assertEqual([self.run_in("make", "-n", "--no-print-directory", *one).all for one in words], wanted)
        for tool in (["kati-port", "Makefile"], ["kati-compare"], ["kati-port", "--write", "Makefile"]):
            ran = self.run_in("env", "-C", "a b", self.tool_path(tool[0]), *tool[1:])
            self.assertEqual(ran.status, 0, ran.all)
        self.assertIn("kati takes it as it is", ran.out)

    def test_diff_writes_nothing(self):
        self.put_all({"Makefile": "N := $(shell echo 1)\nall: ; echo $(N)\n"})
        before = self.made()
        ran = self.port("--diff")
        self.assertIn(f"-N := $(shell echo 1)\n+{INCLUDE}\n+N := $(V_N)\n", ran.out)
        self.assertIn("+++ b/kati-values.mk\n", ran.out)
        self.assertIn("make's commands are as before: 1\n", ran.said)
        self.assertEqual(self.made(), before)

    def test_goals_and_macros_are_those_of_the_words(self):
        self.put_all({"Makefile": "F = 1\nall: ; echo $(F) $(shell echo all)\ndebug: F = 2\n"
                                  "debug: ; echo $(F) $(shell echo $(X)) > out\n"})
        self.port("debug", "X=given")
        self.assertIn("V_shell := given\n", self.read("kati-values.mk"))
        self.assertIn("echo $(F) $(shell echo all)", self.read("Makefile"))
        self.assertEqual(self.tool("kati-build", "debug").status, 0)
        self.assertEqual(self.read("out"), "2 given\n")

    def test_a_word_that_wins_over_the_makefile_is_told(self):
        for words, is_told in (([], False), (["G=2"], False), (["F=2"], True)):
            self.put_all({"Makefile": "override F = 1\nG = 1\nall: ; echo $(F) $(G)\n"})
            said = self.port(*words, status=5 if is_told else 0).out
            self.assertEqual("the word F=.. of the command line wins over the makefile for kati" in said, is_told)

    def test_what_shell_writes_is_told_and_not_here(self):
        self.put_all({"Makefile": "N := $(shell echo 1 | tee n.h)\nall: n.h ; echo $(N)\n"})
        self.assertIn("$(shell ..) writes n.h while make reads", self.port().out)
        self.assertFalse((self.top / "n.h").exists())

    def test_what_kati_and_make_do_otherwise_is_told(self):
        self.put_all({"Makefile": "N := $(shell echo 1)\nall: ; echo $(N) 'a\\\n\t'\n"})
        said = self.port(status=5).out
        self.assertIn("Makefile: make has ['a\\\\n'], kati ['a']: echo 1 'a\\\\n'\n", said)
        self.assertIn("kati's commands differ: 1 of make's alone, 1 of kati's alone", said)

    def test_how_makefiles_are_made_is_no_difference(self):
        self.put_all({"Makefile": "C := $(CURDIR)/conf.mk\n-include $(C)\nall: $(C) ; echo $(V) > out\n"
                                  "$(C): $(CURDIR)/conf.in conf.1 ; @cp $< $@\n%.1: ; @echo > $@\n"
                                  "$(CURDIR)/conf.in: ; @echo V = 1 > $@\n\t@mkdir -p .\nall: part\n"
                                  "part: ; @mkdir -p .\n"})
        self.assertIn("kati's commands are make's", self.port().out)

    def test_commands_that_are_others_each_time(self):
        self.put_all({"Makefile": "D := $(shell date +%N)\nN := $(shell echo 1)\nall: ; echo $(D) > out; echo $(N)\n"
                                  "\techo $(N) > out\n"})
        said = self.port(status=5).out
        self.assertIn("make's commands are as before: 2, 1 of them another one each time\n", said)
        self.assertIn("kati's commands differ: 1 of make's alone, 1 of kati's alone\n", said)
        self.assertEqual(self.makes_commands().splitlines()[1], "echo 1 > out")

    def test_what_the_file_of_values_itself_changes(self):
        self.put_all({"Makefile": "N := $(shell echo 1)\nall: * ; echo $^\n"})
        self.assertIn("make's commands would change\n", self.port(status=1).said)
        self.assertEqual(sorted(path.name for path in self.top.iterdir()), ["Makefile"])
        self.put_all({"Makefile": "D = .\nS := $(wildcard *) $(wildcard $(D)/*)\nall: ; echo $(S) > ../out\n"})
        wanted = self.makes_commands()
        self.assertIn("kati's commands are make's", self.port().out)
        self.assertEqual(self.makes_commands(), wanted)
        self.assertEqual(self.tool("kati-build", "--builtin").status, 0)
        self.assertEqual(f"echo {self.read('../out').strip()} > ../out\n", wanted)

    def test_blanks_within_quotes_count(self):
        own = "define T\nA =\nA += y\nendef\n$(eval $(T))\n"
        self.put_all({"Makefile": f"N := $(shell echo 1)\n{own}all: ; echo \"[$(A)]\" $(A) $(N) > out\n"})
        said = self.port(status=5).out
        self.assertIn('make has ["[y]"], kati ["[ y]" ]: echo "[y]" y 1 > out\n', said)
        self.assertIn("kati's commands differ in blanks within quotes, which count: 1\n", said)
        self.assertIn("in blanks within quotes, which count: 1\n", self.tool("kati-build", "--port").said)
        self.put_all({"Makefile": f"N := $(shell echo 1)\n{own}all: ; echo -D$(A) $(N) > out\n"})
        self.assertIn("kati's commands differ: 1 of make's alone, 1 of kati's alone\n", self.port(status=5).out)
        self.put_all({"Makefile": f"N := $(shell echo 1)\n{own}all: ; echo $(A) $(N) > out\n"})
        self.assertIn("kati's commands are make's, blanks aside\n", self.port().out)

    def test_the_forms_of_files_stay(self):
        text = "N := $(shell echo 1)\r\nall: ; echo $(N)\r\n"
        self.put_all({})
        (self.top / "real.mk").write_bytes(text.encode())
        (self.top / "real.mk").chmod(0o640)
        (self.top / "Makefile").symlink_to("real.mk")
        self.port()
        self.assertTrue((self.top / "Makefile").is_symlink())
        self.assertEqual((self.top / "real.mk").stat().st_mode & 0o777, 0o640)
        self.assertEqual((self.top / "real.mk").read_bytes(),
                         f"{INCLUDE}\r\nN := $(V_N)\r\nall: ; echo $(N)\r\n".encode())

    def test_makefiles_and_values_above(self):
        self.put_all({"lib/v.h": "7\n", "mk/a.mk": "A := $(shell cat ../lib/v.h)\n",
                      "prog/Makefile": "include ../mk/a.mk\nall: ; echo $(A) $(wildcard ../lib/*) > out\n"})
        prog = self.top / "prog"
        ran = subprocess.run([TOOLS / "kati-port", "--write", "Makefile"], cwd=prog, stdout=subprocess.PIPE, text=True,
                             check=True)
        self.assertIn("kati's commands are make's", ran.stdout)
        self.assertEqual(self.read("mk/a.mk").split("\n")[-2], "A := $(V_mk_a_A)")
        self.assertIn("V_mk_a_A := 7\n", self.read("prog/kati-values.mk"))
        self.assertIn("V_wildcard := ../lib/v.h\n", self.read("prog/kati-values.mk"))

    def test_a_rule_that_needs_a_file_outside_by_a_value(self):
        self.put_all({"Makefile": "T := $(shell pwd)/..\nall: a.o\n%.o: %.c $(T)/inc/a.h\n\tcat $^ > $@\n",
                      "a.c": "c\n", "../inc/a.h": "h\n"})
        said = self.port().out
        self.assertIn("kati's commands are make's", said)
        self.assertEqual(self.built_by_make()["a.o"], "c\nh\n")
        self.assertEqual(self.tool("kati-build", "--builtin").status, 0)
        self.assertEqual(self.read("a.o"), "c\nh\n")

    def test_a_makefile_that_make_reads_in_another_folder(self):
        for named, how in (("$(CURDIR)/Makefile", "-f $(F)"), ("../$(lastword $(MAKEFILE_LIST))", "-f $(F)"),
                           ("--file=$(CURDIR)/Makefile", "$(F)")):
            self.put_all({"Makefile": f"N := $(shell echo 1)\nF := {named}\nall: ; cd sub && $(MAKE) \\\n {how} out\n"
                                      "out: ; echo $(N) > out\n", "sub/x": ""})
            wanted = self.built_by_make()
            self.assertIn("kati's commands are make's", self.port().out)
            text = self.read("Makefile")
            self.assertEqual(self.built_by_make(), wanted)
            self.assertEqual(self.port().out.split("\n", 1)[0], "Makefile: kati takes it as it is")
            self.assertEqual(self.read("Makefile"), text)
            self.assertEqual(self.tool("kati-port", "--values").out, "kati-values.mk: as before\n")
            self.assertEqual(self.tool("kati-build", "--builtin").status, 0)
            self.assertEqual(tree_of(self.top), wanted)
            self.assertEqual(self.tool("kati-port", "Makefile").out.count("MAKEFILE_LIST"), 0)

    def test_a_makefile_that_others_read(self):
        self.put_all({"sub/Makefile": "N := $(shell echo 1)\nout: ; echo $(N) > out\n",
                      "Makefile": "all: ; $(MAKE) -f sub/Makefile\n", "more.mk": "include sub/Makefile\n"})
        wanted = self.built_by_make()
        self.assertEqual(self.run_in("env", "-C", "sub", self.tool_path("kati-port"), "--write", "Makefile").status, 0)
        self.assertEqual(self.built_by_make(), wanted)
        self.assertEqual(self.run_in("make", "-n", "-f", "more.mk").out, "echo 1 > out\n")
        self.assertIn("kati's commands are make's", self.tool("kati-port", "--write", "more.mk").out)

    def test_makefiles_that_make_writes_anew(self):
        text = "N := $(shell echo 1)\n{} = 1\nall: ; echo $(N) $(X) > out\n" \
            "{}: conf\n\t@sed 's/^X = .*/X = 2/' $@ > new && mv new $@ && touch made && echo more > conf.old\n"
        for name, makefile, more in (("Makefile", text.format("X", "Makefile"), {}),
                                     ("x.mk", "include x.mk\n" + text.format("Y", "x.mk"), {"x.mk": "X = 1\n"})):
            for again in range(2):
                self.put_all({"Makefile": makefile, "conf": "", "conf.old": "", **more})
                os.utime(self.top / name, (1, 1))
                wanted = self.built_by_make()
                if not again:
                    # Ninja makes it first, as make does.
                    self.assertEqual(self.tool("kati-build", "--port").status, 0)
                    self.assertEqual(tree_of(self.top), wanted)
            said = self.port().out
            self.assertIn(f"made first, as make does: {' '.join(sorted([name, 'conf.old']))} made\n", said)
            self.assertIn("kati's commands are make's", said)
            self.assertIn("X = 2\n", self.read(name))
            self.assertEqual(self.built_by_make(), wanted)

    def test_a_call_that_varies_in_a_recipe(self):
        # The recipe's own shell runs it.
        self.check_construct({"Makefile": "all: a b\na b:\n\techo $(shell echo made $@) > $@\n"},
                             ["V_shell = $$(echo made $@)"])

    def test_the_rule_of_default(self):
        # Under -B make would make its makefile by such a rule.
        self.put_all({"Makefile": "all: a b c\n\tcat a b > out\n.DEFAULT:\n\techo $@ > $@\nb: ; echo own > b\n",
                      "c": ""})
        wanted = self.built_by_make()
        # make, asked for all commands, tells how it would make c, which is there.
        self.port(status=DIFFERS)
        self.assertIn("ifdef MAKE_VERSION\n.DEFAULT:\nelse\na:\nendif\n\techo $@ > $@\n", self.read("Makefile"))
        self.assertEqual(self.built_by_make(), wanted)
        self.assertEqual(self.tool("kati-build", "--builtin").status, 0)
        self.assertEqual(tree_of(self.top), wanted)

    def test_dependencies_that_make_makes(self):
        self.put_all({"Makefile": "all: ; echo > out\ninclude depend.mk\ndepend.mk: ; echo 'all: x.h' > $@\n",
                      "x.h": ""})
        wanted = self.built_by_make()
        self.port()
        self.assertIn("ifdef MAKE_VERSION\ninclude depend.mk\nelse\n-include depend.mk\nendif", self.read("Makefile"))
        self.assertEqual(self.built_by_make(), wanted)
        self.assertEqual(self.tool("kati-build", "--builtin").status, 0)
        self.assertEqual(tree_of(self.top), wanted)

    def test_the_command_that_builds_sees_headers(self):
        self.put_all({"Makefile": "CFLAGS = -MMD\nprog: a.o\n\t$(CC) -o $@ $^\n-include *.d\n", "a.h": "",
                      "a.c": "#include \"a.h\"\nint main(void) { return 0; }\n"})
        line = self.port().out.splitlines()[-1]
        self.assertEqual(line, "Makefile: kati-build --builtin --deps builds it")
        ran = self.tool(*line.split()[1:-2])
        self.assertEqual(ran.status, 0, ran.all)
        self.ninja()
        self.touch("a.h")
        self.assertIn("-c -o a.o a.c", self.ninja())

    def test_where_make_fails(self):
        self.put_all({"Makefile": "all: absent ; echo $(shell echo)\n"})
        self.assertIn("make itself ends with status 2: ", self.port(status=1).said)

    def test_where_one_file_cant_be_written_none_is(self):
        self.put_all({"Makefile": "before\n", "file": ""})
        with self.assertRaises(OSError):
            writing.Writing({str(self.top / "Makefile"): "after\n", str(self.top / "file/b.mk"): "after\n"}).write()
        self.assertEqual(self.read("Makefile"), "before\n")
        self.assertEqual(sorted(path.name for path in self.top.iterdir()), ["Makefile", "file"])

    def test_the_file_that_cant_be_written_is_told(self):
        self.put_all({"Makefile": "before\n"})
        name, limits = str(self.top / "Makefile"), resource.getrlimit(resource.RLIMIT_FSIZE)
        resource.setrlimit(resource.RLIMIT_FSIZE, (10, limits[1]))
        try:
            with self.assertRaises(OSError) as raised:
                writing.Writing({name: "after" * 10}).write()
        finally:
            resource.setrlimit(resource.RLIMIT_FSIZE, limits)
        self.assertEqual(programs.told(raised.exception), f"{name}: File too large")
        # Of a copy the one that is written.
        error = OSError(errno.ENOSPC, "No space left on device", "from", None, "to")
        self.assertEqual(programs.told(error), "to: No space left on device")
        self.assertEqual([path.name for path in self.top.iterdir()], ["Makefile"])
        self.assertEqual(self.read("Makefile"), "before\n")

    def test_wrong_usage(self):
        self.put_all({})
        self.assertEqual(self.tool("kati-port", "--write").status, 64)
        self.assertEqual(self.tool("kati-port", "--write", "A=b").status, 64)
        self.assertEqual(self.tool("kati-port", "--write", "absent").status, 3)

    def test_the_makefile_by_make_s_option(self):
        self.put_all({"other.mk": "N := $(shell echo 1)\nall: ; echo $(N)\nmore: ; echo $(N) $(X) more\n"})
        ran = self.tool("kati-port", "--write", "more", "X=2", "-f", "other.mk")
        self.assertEqual(ran.status, 0, ran.all)
        self.assertIn("kati-build --builtin -f other.mk more X=2 builds it\n", ran.out)
        self.assertEqual(self.tool("kati-port", "--values", "-fother.mk", "more").out, "kati-values.mk: as before\n")
        self.assertEqual(self.tool("kati-port", "-f", "other.mk").out.splitlines()[-1], "kati takes other.mk")
        self.assertEqual(self.tool("kati-port", "--macros", "-f", "other.mk").out, "V_N=1\n")
        for mode in ("--write", "--values", "--macros", "--builtin"):
            self.assertEqual(self.tool("kati-port", mode, "-f", "absent.mk").status, 3)
            self.assertEqual(self.tool("kati-port", mode, "-f", "other.mk", "-f", "other.mk").status, 64)

    def test_without_a_name_it_is_the_makefile_that_make_reads(self):
        for words in ([], ["X=2"]):
            with self.subTest(words):
                self.put_all({"Makefile": "N := $(shell echo 1)\nall: ; echo $(N) $(X)\n"})
                ran = self.tool("kati-port", "--write", *words)
                self.assertEqual(ran.status, 0, ran.all)
                self.assertIn(" ".join(["kati-build --builtin", *words, "builds it\n"]), ran.out)

    def test_an_interrupt_changes_nothing(self):
        self.put_all({"Makefile": "X := $(shell touch started; sleep 600)\nall: ; echo $(X)\n"})
        before = self.made()
        words = [TOOLS / "kati-port", "--write", "Makefile"]
        process = subprocess.Popen(words, cwd=self.top, stdout=subprocess.PIPE, stderr=subprocess.STDOUT, text=True,
                                   start_new_session=True, env={**os.environ, "TMPDIR": str(self.top.parent)},
                                   preexec_fn=lambda: signal.signal(signal.SIGINT, signal.SIG_DFL))
        self.wait_for(lambda: list(self.top.parent.rglob("started")))
        os.killpg(process.pid, signal.SIGINT)
        said = process.communicate(timeout=LONG)[0]
        self.assertEqual(process.returncode, 130, said)
        self.assertEqual(without_at_work(said), "kati-port: interrupted; no file was changed\n")
        self.assertEqual(self.made(), before)
        self.assertEqual(sorted(path.name for path in self.top.parent.iterdir()), ["tree"])
