"""kati-port --write where make has variables in the environment of commands: kati's commands have them, or it is
told."""
import shutil

from support import Tree, needs

# What an include exports that two programs read; C is a macro of theirs.
OF_INCLUDES = {
    "a value": "export A = 1\n",
    "names": "A = 1\nB = 2\nexport A\n",
    "names that are computed": "A = 1\nNAMES = A\nexport $(NAMES)\n",
    "unexport": "export A = 1\nexport B = 2\nunexport A\n",
    "unexport and again": "A = 1\nexport A\nunexport A\nexport A\n",
    "all": "A = 1\nexport\n",
    "all but one": "A = 1\nB = 2\nexport\nunexport A\n",
    "a define": "export define A\none\nendef\n",
    "override": "override export A = 1\n",
    "by a person": "ifdef MAKE_VERSION\nexport A = $(C) \"b\" $$c\nendif\n",
    "by a person for make alone": "ifdef MAKE_VERSION\nexport A = 1\nelse\nA = 2\nendif\n",
    "by a person and by eval": "ifdef MAKE_VERSION\n$(eval export A = 1)\nendif\n",
    "in a branch that make takes": "ifndef X\nifdef MAKE_VERSION\nexport A = 1\nendif\nendif\n",
    "in a branch that make doesn't take":
        "A = 1\nifdef X\nifdef MAKE_VERSION\nexport A = 1\nendif\nendif\nifeq ($(A),2)\nexport A\nendif\n",
    "for a target": "all: export A = 1\nall: B = 2\nexport B\n",
    "in the other branch": "A = 1\nifndef MAKE_VERSION\nelse\nexport A\nendif\n",
}
# What a makefile exports: its text, and words that stand in it afterwards.
OF_MAKEFILES = {
    "a value that hangs on the target":
        ("export A = of $@\nall: a b\na b: ; echo \"$$A\" > $@\n", ["SHELL = A=", "$(KATI_SHELL)"]),
    "a value that a target has":
        ("export A = 1\nall: a b\na: A = '\"2\"'\na: c\na b c: ; echo \"$$A\" > $@\n", ["SHELL = A="]),
    "a target's override before another value of it":
        ("export A = 1\nall: a b\na: override A = 2\na: A = 3\na: A += 4\na: b\nb: A = 5\na b: ; echo \"$$A\" > $@\n",
         []),
    "two overrides of a target":
        ("export A = 1\nall: a b\na: override A = 2\na: A = 3\na: override A = 4\na: override A += 5\n"
         "a b: ; echo \"$$A\" > $@\n", []),
    "a target that is named twice": ("export A = 1\nall: a b\na a: A += 2\na b: ; echo \"$$A\" > $@\n", []),
    "a value that hangs on what a target has":
        ("export A = a $(B)\nB = b $(C)\nall: a b\na: C = 1\na b: ; echo \"$$A\" > $@\n", ["SHELL = A="]),
    "a value of the list of makefiles":
        ("export A = $(MAKEFILE_LIST)\nall: ; echo \"$$A\" > out\n", []),
    "a value of the list of makefiles, and of what a target has":
        ("export A = $(lastword $(MAKEFILE_LIST)) $(notdir $(abspath b/c)) $(C)\nall: a b\na: C = 1\n"
         "a b: ; echo \"$$A\" > $@\n", []),
    "for a target": ("all: a b\na: export A = 1\na: c\na b c: ; echo \"$${A-none}\" > $@\n",
                     ["SHELL = $(if $(filter $(A_TARGETS),$@),A="]),
    "all, of which a target alone has one": ("export\nall: a b\na: A = 1\na b: ; echo \"$${A-none}\" > $@\n", []),
    "what a shell can't have": ("all: a\na: export A-B = 1\na: ; echo $(A-B) > $@\n", []),
    "for two targets": ("all: a b c\na: export A = 1\nb: export A = 2\na b c: ; echo \"$${A-none}\" > $@\n", []),
    "for a target that needs all": ("all: export A = 1\nall: a b\na b: ; echo \"$${A-none}\" > $@\n", ["SHELL = A="]),
    "what the environment has without an export":
        ("PATH := /nowhere:$(PATH)\nall: ; echo \"$$PATH\" > out\n", ["SHELL := PATH="]),
    "a home": ("export HOME = /nowhere\nall: ; echo \"$$HOME\" > out\n", []),
    "what hangs on make's flags":
        ("export A = $(if $(findstring p,$(firstword -$(MAKEFLAGS))),told,built)\nall: ; echo \"$$A\" > out\n",
         ["SHELL := A="]),
    "several lines":
        ("define A\none '1' \"$$X\"\n\t\\two\\n `3`\n\nfour\nendef\nexport A\nall: ; echo \"$$A\" > out\n",
         ["A=\"$$(printf %b "]),
    "several lines that hang on the target":
        ("define A\none $@\ntwo\nendef\nexport A\nall: a b\na b: ; echo \"$$A\" > $@\n", ["SHELL = A=\"$$(printf %b "]),
    "flags of make": ("export A = of $(MAKEFLAGS)\nexport B := of $(MAKEFLAGS)\nall: ; echo \"$$A $$B\" > out\n", []),
    "by goals": ("ifeq ($(MAKECMDGOALS),)\nexport A = 1\nendif\nall: ; echo \"$${A-none}\" > out\n", []),
    "not for other goals": ("ifneq ($(MAKECMDGOALS),)\nexport A = 1\nendif\nall: ; echo \"$${A-none}\" > out\n", []),
    "for a target, what a test's own environment has":
        ("all: a b\na: export LC_ALL = C\na b: ; echo \"$$LC_ALL\" > $@\n", []),
    "for a target, what the environment has": ("all: a b\na: PATH := $(PATH):/x\na b: ; echo \"$$PATH\" > $@\n", []),
    "all, one of them by name": ("export LANGUAGE = 1\nexport\nall: ; printenv LANGUAGE > out\n",
                                 ["LANGUAGE=\"$(LANGUAGE)\""]),
}
# Makefiles by which kati's commands have another value for a target than make's, with the lines that tell of it.
OTHER_FOR_A_TARGET = {
    "the origin of what a target alone has":
        ("export A = $(origin B)\nall: a b\na: B = 1\na b: ; echo \"$$A\" > $@\n",
         ["- A=file in the environment of a", "+ A=undefined in the environment of a"]),
    "the flavor of what a target alone has":
        ("all: a b\na: export A = $(flavor B)\na: B = 1\na b: ; echo \"$$A\" > $@\n",
         ["- A=recursive in the environment of a", "+ A=undefined in the environment of a"]),
}
# What a script tells of names that no text has, and makefiles that export all macros, with those.
BY_NAME = "for name in $1; do eval \"echo \\\"\\${$name-none}\\\"\"; done\n"
OF_ALL = {
    "a special target": (".EXPORT_ALL_VARIABLES:\nA = 1\nB = 2\nall: ; sh ./a.sh 'A B' > out\n", "A B"),
    "a bare export": ("export\nA = '1' \"$$X\"\nall: ; sh ./a.sh A > out\n", "A"),
    "what make has by itself":
        ("export\nA = $(wildcard *.sh)\nall: ; sh ./a.sh 'A CURDIR MAKEFILE_LIST GNUMAKEFLAGS' > out\n",
         "A CURDIR GNUMAKEFLAGS MAKEFILE_LIST"),
    "what hangs on the target": ("export\nA = of $@\nall: a b\na b: ; sh ./a.sh A > $@\n", "A"),
    "what targets have": ("export\nA = 1\nall: a b\na: A += 2\nb: B = 3\na b: ; sh ./a.sh 'A B' > $@\n", "A"),
    "what isn't exported":
        ("export\nunexport A B\nA = 1\nC = 1\nall: a b\na: A = 2\na: B = 2\na b: ; sh ./a.sh 'A B C' > $@\n", "C"),
}
# The same, by which not all macros reach kati's commands, with the line that tells so.
NOT_OF_ALL = {
    "of several lines":
        ("export\nA = 1\ndefine T\na\nb\nendef\nall: ; sh ./a.sh T > out\n", "T"),
    "too many":
        ("export\n" + "".join(f"A{one:03} = {one}\n" for one in range(101)) + "all: ; sh ./a.sh A077 > out\n",
         "A000, A001, A002, A003, A004 and 99 more"),
    "too long":
        (f"export\nA = {'a' * 4000}\nall: ; sh ./a.sh A > out\n", "A, CURDIR, GNUMAKEFLAGS, MAKEFILE_LIST"),
    "what kati can't make":
        ("export\nA = $(shell echo $@)\nall: ; sh ./a.sh A > out\n", "A, CURDIR, GNUMAKEFLAGS, MAKEFILE_LIST"),
}


@needs("kati", "kati-asked", "make", "ninja")
class Exporting(Tree):
    """A build by make and one by ninja, after a port."""

    def port(self, *words, folder="."):
        """What a port says."""
        ran = self.run_in("env", "-C", folder, self.tool_path("kati-port"), "--write", "Makefile", *words)
        self.assertEqual(ran.status, 5 if "kati's commands differ" in ran.out else 0, ran.all)
        return ran.out

    def built(self, folder, *words):
        """The texts of the files that a build makes in a folder; they are taken away again."""
        before = set((self.top / folder).iterdir())
        ran = self.run_in("env", "-C", folder, *words)
        self.assertEqual(ran.status, 0, ran.all)
        new = [path for path in (self.top / folder).iterdir() if path not in before and path.is_file()]
        found = {path.name: path.read_text() for path in new if path.name not in ("build.ninja", ".ninja_log")}
        for path in new:
            path.unlink()
        return found

    def by_kati(self, *words, folder="."):
        """The same by kati-build."""
        shutil.rmtree(self.top / folder / "build.kati", ignore_errors=True)
        return self.built(folder, self.tool_path("kati-build"), "--builtin", *words)

    def test_what_an_include_exports_reaches_the_commands_of_each_program(self):
        own = "C = c\ninclude ../mk/a.mk\nall: ; echo \"$${A-none} $${B-none}\" > out\n"
        for name, include in OF_INCLUDES.items():
            with self.subTest(name):
                shutil.rmtree(self.top)
                self.put_all({"mk/a.mk": include, "one/Makefile": own, "two/Makefile": own})
                wanted = self.built("one", "make")
                self.port(folder="one")
                self.assertIn("kati's commands are make's\n", self.port(folder="two"))
                for folder in ("one", "two"):
                    self.assertEqual(self.by_kati(folder=folder), wanted)
                self.assertEqual(self.built("two", "make"), wanted)

    def test_what_a_makefile_exports_reaches_its_commands(self):
        for name, (makefile, words) in OF_MAKEFILES.items():
            with self.subTest(name):
                shutil.rmtree(self.top)
                self.put_all({"Makefile": makefile})
                wanted = self.built(".", "make")
                self.assertIn("kati's commands are make's\n", self.port())
                text = self.read("Makefile")
                self.assertEqual([word for word in words if word not in text], [], text)
                self.assertEqual(self.built(".", "make"), wanted, text)
                self.assertEqual(self.by_kati(), wanted, text)
                self.assertEqual(self.tool("kati-compare", "--builtin").status, 0, text)
                self.assertIn("kati takes it as it is", self.port(), name)

    def test_what_no_text_names_reaches_commands_where_all_is_exported(self):
        for name, (makefile, handed) in OF_ALL.items():
            with self.subTest(name):
                shutil.rmtree(self.top)
                self.put_all({"Makefile": makefile, "a.sh": BY_NAME})
                wanted = self.built(".", "make")
                said = self.port()
                self.assertIn("kati's commands are make's\n", said)
                told = next((line for line in said.split("\n") if ": exported, by SHELL " in line), "").split()
                self.assertEqual([one for one in handed.split() if one not in told], [], said)
                self.assertEqual(self.built(".", "make"), wanted)
                self.assertEqual(self.by_kati(), wanted, self.read("Makefile"))
                self.assertIn("kati's commands are make's\n", self.port())
                self.assertEqual(self.by_kati(), wanted, self.read("Makefile"))

    def test_what_is_not_handed_on_where_all_is_exported_is_told(self):
        for name, (makefile, names) in NOT_OF_ALL.items():
            with self.subTest(name):
                shutil.rmtree(self.top)
                self.put_all({"Makefile": makefile, "a.sh": BY_NAME})
                wanted = self.built(".", "make")
                line = f"- {names} in the environment of commands, as make exports all macros\n"
                said = self.port()
                self.assertIn(f"Makefile: {line}Makefile: kati's commands differ in their environment\n", said)
                self.assertEqual(self.built(".", "make"), wanted)
                self.assertNotEqual(self.by_kati(), wanted)
                shutil.rmtree(self.top)
                self.put_all({"Makefile": makefile, "a.sh": BY_NAME})
                ran = self.tool("kati-build", "--port", "--no-ninja")
                self.assertEqual(ran.status, 5, ran.all)
                self.assertIn(line, ran.all)

    def test_what_make_makes_before_it_has_read_all_macros_is_told(self):
        self.put_all({"Makefile": "export\ninclude a.mk\nall: ; echo $(A) > out\n"
                                  "a.mk: ; sh ./a.sh A > b; echo A = 1 > $@\n", "a.sh": BY_NAME})
        self.assertEqual(self.built(".", "make"), {"a.mk": "A = 1\n", "b": "none\n", "out": "1\n"})
        said = self.port()
        self.assertIn("Makefile: - a.mk, b: made before make has read all macros, which it exports\n"
                      "Makefile: kati's commands differ in their environment\n", said)

    def test_another_value_for_a_target_is_told(self):
        for name, (makefile, lines) in OTHER_FOR_A_TARGET.items():
            with self.subTest(name):
                shutil.rmtree(self.top)
                self.put_all({"Makefile": makefile})
                said = self.port()
                self.assertEqual([line for line in lines if f"Makefile: {line}\n" not in said], [], said)
                self.assertIn("Makefile: kati's commands differ in their environment\n", said)
                self.assertNotEqual(self.by_kati(), self.built(".", "make"))
                self.assertIn("in the environment of a\n", self.tool("kati-compare", "--builtin").out)

    def test_blanks_in_a_value_of_a_target(self):
        self.put_all({"Makefile": "A =\nA += 1\nexport A\nall: a b\na: A += 2\na b: ; echo $$A > $@\n"})
        self.assertIn("kati's commands are make's\n", self.port())
        self.assertEqual(self.tool("kati-compare", "--builtin").out, "same: 2 commands\n")
        self.put("Makefile", self.read("Makefile").replace("A_HERE = 2", "A_HERE = 3"))
        self.assertEqual(self.tool("kati-compare", "--builtin").out,
                         "- A='1 2' in the environment of a\n+ A='1 3' in the environment of a\n"
                         "differ: the environment of commands; 2 commands the same\n")

    def test_a_value_that_is_another_each_time_is_not_told(self):
        self.put_all({"Makefile": "export A = $(B)$(shell date +%N)\nall: a b\na: B = 1\na b: ; echo \"$$A\" > $@\n"})
        self.assertIn("kati's commands are make's\n", self.port())

    def test_what_does_not_reach_them_is_told(self):
        self.put_all({"Makefile": "define A\n1\n2\n\nendef\nexport A\nexport B = 3\nall: ; echo \"$$A $$B\" > out\n"})
        said = self.port()
        self.assertIn("Makefile: - A='1\\n2\\n' in the environment of commands\n"
                      "Makefile: kati's commands differ in their environment\n", said)
        self.assertEqual((self.built(".", "make"), self.by_kati()), ({"out": "1\n2\n 3\n"}, {"out": " 3\n"}))
        said = self.tool("kati-build", "--port").said
        self.assertEqual(said.count("kati-build: - A='1\\n2\\n' in the environment of commands\n"), 1, said)

    def test_what_the_command_line_exports_is_told_where_a_command_asks_for_it(self):
        makefile = "all: ; echo \"$$A\" $(A) $(B) > out\n"
        self.put_all({"Makefile": makefile})
        said = self.port("A=1", "B=2")
        self.assertIn("Makefile: - A=1 in the environment of commands\n"
                      "Makefile: kati's commands differ in their environment\n", said)
        self.assertEqual(self.built(".", "make", "A=1", "B=2"), {"out": "1 1 2\n"})
        self.put("Makefile", makefile.replace("$$A", "-"))
        self.assertIn("kati's commands are make's\n", self.port("A=1", "B=2"))
        for text in ("all: ; sh a.sh\n", "all: ; $(MAKE) -C b\n"):
            self.put_all({"Makefile": text, "a.sh": "echo $A\n", "b/Makefile": "all: ; echo $(A)\n"})
            said = self.port("A=1", "B=2")
            self.assertIn("Makefile: - A=1 in the environment of commands\n", said)
            self.assertNotIn("B=2 in", said)
            self.assertIn("- A=1 in the environment of commands\n", self.tool("kati-compare", "A=1", "B=2").out)
        self.put("Makefile", "A = 2\nexport A\n" + makefile)
        self.assertIn("kati's commands are make's\n", self.port("A=1", "B=2"))
        self.assertEqual(self.by_kati("A=1", "B=2"), {"out": "1 1 2\n"})

    def test_what_make_exports_no_more_is_told(self):
        self.put_all({"Makefile": "export A = 1\nexport B = 2\nall: ; echo \"$$A\" > out\n"})
        self.port()
        self.put("Makefile", self.read("Makefile").replace("export A = 1\n", "A = 1\n"))
        self.assertIn("Makefile: + A=1 in the environment of commands\n", self.port())

    def test_a_value_that_kati_has_not_is_asked_for_again(self):
        self.put_all({"Makefile": "ifdef MAKE_VERSION\nexport A = $(N)\nendif\nN = 1\nall: ; echo \"$$A\" > out\n"})
        self.port()
        self.assertEqual(self.by_kati(), {"out": "1\n"})
        self.put("Makefile", self.read("Makefile").replace("N = 1\n", "N = 2\n"))
        self.assertEqual(self.tool("kati-port", "--values").out, "kati-values.mk: 1 value is another\n")
        self.assertEqual((self.built(".", "make"), self.by_kati()), ({"out": "2\n"}, {"out": "2\n"}))
