"""kati-port: what it finds is what kati refuses, by the same number; what means something else; values of macros."""
import os
import re
import shlex

from support import Tree, kati, needs

from kati_tools.makefile import advice
from kati_tools.port import leaning, scanning

# Each makefile has one form that kati refuses, in the line of this number.
REFUSED = [
    ("all: ; echo $(A)\nA = $(shell ls)\n", 2, "E16"),
    ("all: ; echo $(shell ls)\n", 1, "E16"),
    ("A = $(wildcard *.c)\nall: ; echo $A\n", 1, "E16"),
    ("all: ; echo ${realpath x}\n", 1, "E16"),
    ("X := $(origin Y)\nall: ; echo\n", 1, "E16"),
    ("X := $(call subst,a,b,c)\nall: ; echo\n", 1, "E16"),
    ("define X\necho $(abspath x)\nendef\nall: ; $(X)\n", 2, "E16"),
    ("A != ls\nall: ; echo\n", 1, "E17"),
    ("export A = b\nall: ; echo\n", 1, "E17"),
    ("override A = b\nall: ; echo\n", 1, "E17"),
    ("undefine A\nall: ; echo\n", 1, "E17"),
    ("vpath %.c src\nall: ; echo\n", 1, "E17"),
    ("all: *.c ; echo\n", 1, "E20"),
    ("SRC = a?.c\nall: $(SRC:.c=.o) ; echo\n", 1, "E20"),
    ("all: ~/x ; echo\n", 1, "E20"),
    ("all: lib.a(x.o) ; echo\n", 1, "E20"),
    ("all: ; echo\n.ONESHELL:\n", 2, "E22"),
    ("all: a .WAIT b ; echo\n", 1, "E22"),
    (".SECONDEXPANSION:\nall: ; echo\n", 1, "E22"),
    ("all: ; echo\nall: CFLAGS = -g\n", 2, "E23"),
    ("%.o: private A += b\nall: ; echo\n", 1, "E23"),
    ("a: b\na:: c ; echo\n", 2, "E24"),
    ("all: ; $(eval A = b)\n", 1, "E32"),
    ("all:\n\t$(eval A = b)\n", 2, "E32"),
    ("a b &: c\nall: ; echo\n", 1, "E35"),
    ("A = b\n\tifdef A\nall: ; echo\n\tendif\n", 2, "E06"),
    ("A = b\n\techo\nall: ; echo\n", 2, "E06"),
    ("ifdef NO\nx: y\nendif\n\tifdef A\nall: ; echo\n\tendif\n", 4, "E06"),
    ("ifeq(a,b)\nall: ; echo\nendif\n", 1, "E05"),
    ("a b = c\nall: ; echo\n", 1, "E05"),
    ("include no.mk\nall: ; echo\n", 1, "E04"),
    ("-include *.d\nall: ; echo\n", 1, "E20"),
    ("ifeq ($(shell ls),)\nA = b\nendif\nall: ; echo\n", 1, "E16"),
    ("private A = b\nall: ; echo\n", 1, "E17"),
    ("load x.so\nall: ; echo\n", 1, "E17"),
    ("-load x.so\nall: ; echo\n", 1, "E17"),
    ("unexport A\nall: ; echo\n", 1, "E17"),
    ("all: a\\%b ; echo\n", 1, "E20"),
    (".DEFAULT: ; echo\nall: ; echo\n", 1, "E22"),
    (".IGNORE:\nall: ; echo\n", 1, "E22"),
    (".EXPORT_ALL_VARIABLES:\nall: ; echo\n", 1, "E22"),
    ("FILES = readme $(addprefix data/,*)\nall: $(FILES) ; echo\n", 1, "E20"),
    ("all: $(foreach d,a b,$(d)/*.c) ; echo\n", 1, "E20"),
    ("LIB = lib.a\nall: $(LIB)(x.o) ; echo\n", 2, "E20"),
]

# Forms that kati takes otherwise than make, and words of the advice.
OTHERWISE = [
    ("all: a.o ; echo\na.o: a.h\na.h: ; echo\n", 1, "--builtin"),
    ("OBJS = a.o b.o\nall: $(OBJS) ; $(LD_) $^\n", 1, "--builtin"),
    ("prog: prog.o\nprog.o: ; echo\n", 1, "--builtin"),
    ("all: ; $(CC) -c x\n", 1, "--builtin"),
    (".c.o: x.h ; cc $<\nall: ; echo\n", 1, "explicit rule"),
    ("all: ; echo $?\n", 1, "$^"),
    ("all: ; cd $(CURDIR)\n", 1, "empty"),
    ("all: ; cd $(HOME)\n", 1, "environment"),
    ("VPATH = src\nall: ; echo\n", 1, "no effect"),
    (".RECIPEPREFIX = >\nall: ; echo\n", 1, "no effect"),
    ("all: ; echo $%\n", 1, "empty"),
    ("all:: ; echo\n", 1, "each time"),
    (".NOTPARALLEL:\nall: ; echo\n", 1, "-j1"),
    ("all:\n\techo one; # first \\\n\techo two\n", 2, "line of its own"),
    ("ifdef MAKE_VERSION\nx:\nelse\nall: ; cd $(CURDIR)\nendif\n", 4, "empty"),
    ("ifndef MAKE_VERSION\nall: ; cd $(CURDIR)\nelse\nx:\nendif\n", 2, "empty"),
    ("ifdef MAKE_VERSION\nifdef X\nelse\nx: X = Y\nendif\nendif\nall: ; cd $(CURDIR)\n", 7, "empty"),
    ("all: -lm ; echo\n", 1, "library"),
    ("all: ; echo\n$(info x)\nifndef D\n# d\n\tA = 1\nendif\n", 5, "indent it by spaces"),
    ("define T\n$1: ; echo\nendef\nall: ; echo\n$(eval $(call T,b))\n\n\tinclude a.mk\n", 7, "indent it by spaces"),
    ("all:\n\tifdef X\n\techo\n\tendif\n", 2, "shell"),
    ("all: ; $(MAKE) -C lib\nmore: ; ${MAKE} -C more\n", 1, "runs make"),
    ("all: ; echo\n%.o: %.c ; cc $<\n.c.o: ; mine $<\n", 3, "pattern rules"),
    ("lib.a: lib.a(a.o b.o) ; ar r lib.a\n", 1, "several names"),
    ("lib.a(a.o  b.o): a.h ; echo\na.h: ; echo\n", 1, "several names"),
    ("-include config.mk\nall: ; echo\nconfig.mk: ; echo A = b > $@\n", 1, "kati-build does, kati doesn't"),
    ("all: ; echo\nsinclude config.mk\n%.mk: %.in ; cp $< $@\n", 2, "kati-build does, kati doesn't"),
    ("SRC = a.c\nall: ; echo\n-include $(SRC:.c=.d)\n%.d: %.c ; cc -MM $< > $@\n", 3, "kati-build does, kati doesn't"),
]

# What looks like such forms and is none.
FINE = [
    "all: ; echo '$$(shell ls)' $$? '*.c'\n",
    "# $(shell ls)\nall: ; echo\n",
    "VPATH = .\nall: ; echo\n",
    "CC = cc\nAR ?= ar\nall: a.o ; $(CC) $(AR)\n%.o: %.c ; $(CC) -c $<\n",
    "all: a.o ; echo\n.c.o: ; echo $<\n",
    "OBJS = a.o\nall: $(OBJS) ; echo\n$(OBJS): %.o: %.c ; cc -c $<\n",
    "clean: ; rm -f *.o\nJUNK = *.o\nmore: ; rm -f $(JUNK)\n",
    "ifeq ($(A),b)\nt: c\nelse\nt: d\nendif\n\techo\nc d: ; echo\n",
    "export = x\nall: ; echo $(export)\n",
    "define R\n$(1): ; echo $(1)\nendef\n$(eval $(call R,all))\n",
    "a b &: c ; echo\nc: ; echo\n",
    "all: a\\:b ; echo\na\\:b: ; echo\n",
    "all: ; echo\nifdef MAKE_VERSION\nall: X = y\ndefine a\nendif\nendef\nexport X\nendif\n",
    "ifndef MAKE_VERSION\nall: ; echo\nelse\nall: $(shell ls)\nendif\n",
    "all:\n\techo one \\#a '# b' \"it's # c\" $${d#e} f#g \\\n\t  two\n",
    "MAKE = gmake\nall: ; $(MAKE) -C lib\n",
    "define R\nall:\nendef\n$(R)\n\tA=1 echo\n",
    "all:\n$(info x) b: ; echo\n\tA=1 echo\n",
    "all: ; echo\n%.o: %.cc ; c++ $<\n.c.o: ; cc $<\n",
    "-include config.mk\nall: ; echo\nconfig.mk: ;\n%.mk:\n",
    "-include a.c\nall: ; echo\na.c: ; touch $@\n",
    "SRC = a.c\nall: ; echo\n-include $(SRC:.c=.d)\n%.d: ;\n%.x: %.y ; echo\n",
    "all: $(addprefix x,a b) $(subst *,,a*) ; echo\nxa xb a: ; echo\n",
    "all: a(b)c ; echo\na(b)c: ; echo\n",
    "A := one\nall: $(A) | dir ; echo $| $(@D) $(<F)\none: ; echo\ndir: ; mkdir dir\n",
]


@needs("kati")
class Porting(Tree):
    """What is found, beside what kati says."""

    def port(self, status, *words):
        ran = self.tool("kati-port", *words)
        self.assertEqual(ran.status, status, ran.all)
        return ran.out.splitlines()

    def test_what_kati_refuses_is_found_by_its_number(self):
        for makefile, line, number in REFUSED:
            with self.subTest(makefile):
                self.write(Makefile=makefile)
                kati_says = self.run_in(kati()).said
                self.assertIn(f"[{number}]", kati_says)
                found = self.port(1, "Makefile")
                place = re.findall(r"^(Makefile:\d+): .* \[(E\d+)\] ", found[0])
                self.assertEqual(place, [(f"Makefile:{line}", number)])
                self.assertIn(f"1 {number}", found[-2])
                self.assertEqual(found[-1], f"kati's first fault: {kati_says.strip()}")

    def test_a_makefile_that_is_not_there(self):
        for there, told in (("", ""), ("makefile", "; makefile is there")):
            if there:
                self.put(there, "all: ; true\n")
            for words in ((), ("--write",), ("--macros",)):
                with self.subTest((there, words)):
                    ran = self.tool("kati-port", *words, "Makefile")
                    self.assertEqual((ran.status, ran.all), (3, f"kati-port: no file Makefile{told}\n"))

    def test_what_means_something_else(self):
        for makefile, line, words in OTHERWISE:
            with self.subTest(makefile):
                self.write(Makefile=makefile)
                found = self.port(1, "Makefile")
                self.assertTrue(found[0].startswith(f"Makefile:{line}: "), found)
                self.assertIn("[no fault]", found[0])
                self.assertIn(words, found[0])
                self.assertEqual(found[1:], ["Makefile: 1 in the way: 1 no fault", "kati takes Makefile"])

    def test_each_kind_of_advice_is_given(self):
        untried = set(advice.ADVICE)
        for makefile, *_ in REFUSED + OTHERWISE:
            self.write(Makefile=makefile)
            scan = scanning.Scan(())
            scan.file_of(str(self.top / "Makefile"))
            untried -= {one.kind for one in scan.findings + leaning.findings(scan, False)}
        self.assertEqual(untried, set())

    def test_what_stands_in_nobodys_way(self):
        for makefile in FINE:
            with self.subTest(makefile):
                self.write(Makefile=makefile, a_c="")
                self.assertEqual(self.port(0, "Makefile"), ["Makefile: nothing in the way", "kati takes Makefile"])

    def test_the_example(self):
        self.copy_example()
        self.assertEqual(self.port(0, "Makefile"), ["Makefile: nothing in the way", "kati takes Makefile"])

    def test_all_at_once_in_includes_too(self):
        self.write(Makefile="include a.mk\nall: x.o ; $(CC)\n\techo $(shell ls) $(shell pwd)\n",
                   a_mk="export A\n\nB != ls\ninclude b/c.mk\n", b__c_mk="vpath %.c src\n")
        found = self.port(1, "Makefile")
        self.assertEqual([one.split(" ")[0] for one in found[:-2]],
                         [*["Makefile:2:"] * 2, *["Makefile:3:"] * 2, "a.mk:1:", "a.mk:3:", "b/c.mk:1:"])
        self.assertEqual(found[-2], "Makefile: 7 in the way: 2 E16, 3 E17, 2 no fault")

    def test_a_fault_that_only_kati_finds(self):
        self.write(Makefile="ifdef X\nall: ; echo\n")
        self.assertEqual(self.port(1, "Makefile"), ["Makefile: nothing found beside kati's own fault",
                                                    "kati's first fault: Makefile:1: *** missing endif [E12]"])

    def test_given_macros_and_built_in_files(self):
        self.write(Makefile="all: x.o ; $(CC) $(LD)\n", x_c="")
        self.assertEqual(self.port(1, "Makefile", "CC=cc")[-2], "Makefile: 2 in the way: 2 no fault")
        self.assertEqual(self.port(0, "--builtin", "Makefile")[-2], "Makefile: nothing in the way")

    def test_what_is_assigned_to_a_given_macro_is_never_met(self):
        self.write(Makefile="A := $(shell ls)\nB != ls\nC = $(A)\nall: ; echo $(C) $(shell pwd)\n")
        self.assertEqual(self.port(1, "Makefile")[-2], "Makefile: 3 in the way: 2 E16, 1 E17")
        self.assertEqual(self.port(1, "Makefile", "A=x")[-2], "Makefile: 2 in the way: 1 E16, 1 E17")

    # What isn't taken, and what is.
    BRANCHES = [
        ("ifdef X\nexport A\nelse\nA = b\nendif\nall: ; echo\n", {"Makefile:2:"}),
        ("ifeq ($(X),)\nA = b\nelse\nexport A\nall: ; $(CC)\nendif\nall: ; echo\n", {"Makefile:4:", "Makefile:5:"}),
        ("ifeq (a,b)\nexport A\nelse ifdef Y\nexport B\nelse\n  ifdef Z\nA != ls\n  endif\nendif\nall: ; echo\n",
         {"Makefile:2:", "Makefile:4:", "Makefile:7:"}),
        ("ifdef X\nifdef MAKE_VERSION\nexport A\nelse\nexport B\nendif\nendif\nall: ; echo\n", {"Makefile:5:"}),
        ("ifdef X\ninclude sub.mk\nendif\nall: ; echo\n", {"sub.mk:1:", "sub.mk:3:"}),
        ("X = 1\ninclude sub.mk\nall: ; echo\n", {"sub.mk:3:"}),
        ("all: ; echo\nifdef X\n\techo $(shell ls)\nendif\n\techo\n", {"Makefile:3:"}),
        ("all: ; echo\n\techo\nifdef X\n\techo $(CC)\nendif\n", {"Makefile:4:"}),
        ("define D\nifdef X\nexport A\nendif\nendef\nifdef X\nexport B\nendif\nall: ; echo\n", {"Makefile:7:"}),
    ]

    def test_what_stands_in_branches_that_are_not_taken(self):
        self.write(sub_mk="A = $(HOME)\nifndef X\nexport A\nendif\n")
        for makefile, idle in self.BRANCHES:
            with self.subTest(makefile):
                self.write(Makefile=makefile)
                ran = self.tool("kati-port", "Makefile")
                lines = ran.out.splitlines()
                self.assertEqual({one.split(" ")[0] for one in lines[:-2] if "not taken] " in one}, idle)
                others = [one for one in lines[:-2] if "not taken] " not in one]
                self.assertEqual(ran.status, 1 if others else 0)
                self.assertIn("in branches that aren't taken", lines[-2])
                self.assertEqual(lines[-1], "kati takes Makefile")

    def test_a_use_that_is_taken_counts(self):
        self.write(Makefile="ifdef X\nall: ; $(CC)\nendif\nall: ; $(CC)\n")
        self.assertEqual([one[:11] for one in self.port(1, "Makefile")[:-2]], ["Makefile:4:"])

    def test_what_stands_behind_a_fault_counts(self):
        self.write(Makefile="ifdef X\nexport A\nendif\nexport B\nifdef X\nexport C\nendif\nall: ; echo\n")
        found = self.port(1, "Makefile")
        self.assertEqual([one.split("]")[0] for one in found[:-2]],
                         ["Makefile:2: export A [E17, not taken", "Makefile:4: export B [E17",
                          "Makefile:6: export C [E17"])
        self.assertEqual(found[-2], "Makefile: 2 in the way: 2 E17; 1 in branches that aren't taken")
        self.assertEqual(found[-1], "kati's first fault: Makefile:4: *** refused form export [E17]")

    def test_a_word_takes_a_branch(self):
        self.write(Makefile="ifdef X\nexport A\nendif\nall: ; echo\n")
        self.assertIn("[E17]", self.port(1, "Makefile", "X=1")[0])
        self.assertIn("[E17, not taken]", self.port(0, "Makefile")[0])
        self.assertIn("[E17, not taken]", self.port(0, "--builtin", "Makefile")[0])

    def test_several_makefiles(self):
        self.write(a_mk="all: ; echo\n", b_mk="all: ; echo $(shell ls)\n")
        self.assertEqual([one for one in self.port(1, "a.mk", "b.mk") if "takes" in one or "first" in one],
                         ["kati takes a.mk", "kati's first fault: b.mk:1: *** refused function shell [E16]"])

    def test_without_a_name_it_is_what_make_reads(self):
        for name in ("Makefile", "makefile", "GNUmakefile"):
            self.put(name, f"all: ; echo {name}\n")
            self.assertEqual(self.port(0)[-1], f"kati takes {name}")
            self.assertEqual(self.port(0, "X=1")[-1], f"kati takes {name}")
            self.assertEqual(self.run_in("make", "all").out.split()[-1], name)

    def test_wrong_usage_and_absent_files(self):
        self.assertEqual(self.tool("kati-port").status, 64)
        self.assertEqual(self.tool("kati-port", "A=b").status, 64)
        self.assertEqual(self.tool("kati-port", "absent").status, 3)


@needs("kati", "make")
class Macros(Tree):
    """kati-port --macros."""

    MAKEFILE = "A = $(shell echo \"it's\" '$$x' '*  y')\nB := $(wildcard *.c) z\nC = $(A)\n" \
        "D += $(shell touch ran; pwd)\n" \
        "all: ; printf '%s\\n' '$(subst ','\\'',$(A))' '$(B)' '$(D)' > out\n"

    def test_the_words_give_kati_what_make_has(self):
        self.write(Makefile=self.MAKEFILE, a_c="", b_c="")
        ran = self.tool("kati-port", "--macros", "Makefile")
        self.assertEqual(ran.status, 0, ran.all)
        words = [shlex.split(line) for line in ran.out.splitlines()]
        self.assertEqual([[one.split("=")[0] for one in line] for line in words], [["A"], ["B"], ["D"]])
        self.assertFalse((self.top / "ran").exists())
        self.assertEqual(self.run_in("make").status, 0)
        wanted = self.read("out")
        self.assertIn(str(self.top), wanted)
        (self.top / "out").unlink()
        port, build = self.tool_path("kati-port"), self.tool_path("kati-build")
        built = self.run_in("sh", "-c", f"{port} --macros Makefile | xargs {build}")
        self.assertEqual(built.status, 0, built.all)
        self.assertEqual(self.read("out"), wanted)

    def test_a_double_colon_behind_phony(self):
        self.write(Makefile="A := $(shell echo 1)\n.PHONY:: all\nall: ; echo $(A)\n")
        ran = self.tool("kati-port", "--macros", "Makefile")
        self.assertEqual((ran.status, ran.out), (0, "A=1\n"), ran.all)

    def test_without_such_macros_there_are_no_words(self):
        self.copy_example()
        ran = self.tool("kati-port", "--macros", "Makefile")
        self.assertEqual((ran.status, ran.out), (0, ""))

    def macros_of(self, folder, status=0, **environment):
        """The words that kati-port says in a folder of the tree."""
        port = self.tool_path("kati-port")
        ran = self.run_in("sh", "-c", f"cd {folder} && {port} --macros Makefile", **environment)
        self.assertEqual(ran.status, status, ran.all)
        self.said = ran.said
        return [shlex.split(line)[0] for line in ran.out.splitlines()]

    def by_make(self, folder, *names):
        """The same words by make itself, which stands where it is asked."""
        asked = "".join(f"$(info {name}=$({name}))" for name in names)
        return self.run_in("make", "-s", "-C", folder, "--no-print-directory", "--eval", f"told: ; @:{asked}",
                           "told").out.splitlines()

    def test_what_stands_above_this_folder(self):
        self.put("lib/v.h", "#define V 7\n")
        for up in ("..", "$(CURDIR)/..", "./.."):
            for depth in ("prog", "prog/deep"):
                with self.subTest((up, depth)):
                    name = f"{up}/.." if depth == "prog/deep" else up
                    self.put(f"{depth}/Makefile", f"V := $(shell sed -n 's/.define V //p' {name}/lib/v.h)\n"
                             f"H := $(wildcard {name}/lib/*.h)\nT := $(shell cd {name}; pwd)\nall: ; echo\n")
                    wanted = self.by_make(depth, "V", "H", "T")
                    self.assertEqual(wanted[0], "V=7")
                    self.assertEqual(wanted[2], f"T={self.top}")
                    self.assertEqual(self.macros_of(depth), wanted)

    def test_an_include_above_that_names_what_is_above_it(self):
        self.put("rules.mk", "X := $(shell cat $(TOP)/../above.txt)\n")
        self.put("a/Makefile", "TOP = ..\ninclude $(TOP)/rules.mk\nY := $(shell cat ../rules.mk | wc -l)\n"
                               "all: ; echo\n")
        self.assertEqual(self.macros_of("a"), ["Y=1"])

    def test_the_folder_keeps_its_name(self):
        self.put("prog/Makefile", "N := $(shell basename $$PWD)\nall: ; echo\n")
        self.assertEqual(self.by_make("prog", "N"), ["N=prog"])
        self.assertEqual(self.macros_of("prog"), ["N=prog"])

    def test_the_home_folder_is_not_copied(self):
        self.put("home/prog/Makefile", "X := $(shell cat ../x)\nall: ; echo\n")
        self.put("home/x", "7\n")
        self.assertEqual(self.macros_of("home/prog", HOME=self.top / "home"), ["X=7"])

    def test_pipes_and_their_kin_are_not_copied(self):
        os.mkfifo(self.top / "pipe")
        self.write(Makefile="X := $(shell echo x)\nall: ; echo\n")
        self.assertEqual(self.macros_of("."), ["X=x"])

    def test_make_s_status_counts(self):
        self.write(Makefile="X := $(shell echo x)\ninclude gen.mk\ngen.mk: ; exit 3\nall: ; echo\n")
        self.assertEqual(self.run_in("make", "-n").status, 2)
        self.assertEqual(self.macros_of(".", 3), [])
        self.assertIn("make -pn ends with status 2", self.said)
        self.assertIn("gen.mk", self.said)

    @needs("git")
    def test_version_control_is_asked(self):
        self.write(Makefile="V := $(shell git rev-list --count HEAD)\nall: ; echo\n")
        who = ["-c", "user.name=a", "-c", "user.email=a@b"]
        for words in (["init", "-q"], ["add", "Makefile"], [*who, "commit", "-q", "-m", "one"]):
            self.assertEqual(self.run_in("git", *words).status, 0)
        self.assertEqual(self.by_make(".", "V"), ["V=1"])
        self.assertEqual(self.macros_of("."), ["V=1"])
        self.put("sub/Makefile", "V := $(shell git rev-list --count HEAD)\nW := $(shell git ls-files ..)\n"
                                 "X := $(shell git status --short | wc -l)\nall: ; echo\n")
        for folder in ("sub", "tree/sub"):
            with self.subTest(folder):
                wanted = self.by_make(folder, "V", "W", "X")
                self.assertEqual(wanted[0], "V=1")
                self.assertEqual(self.macros_of(folder), wanted)
                # The same in another work tree, where git has a file in the place of its folder.
                if folder == "sub":
                    for words in (["add", "sub"], [*who, "commit", "-q", "--amend", "-m", "one"],
                                  ["worktree", "add", "-q", "tree"]):
                        self.assertEqual(self.run_in("git", *words).status, 0)
