"""The differences from GNU make that docs/LANGUAGE.md, section 11, names: make and kati run on a makefile for each."""
import re
import subprocess
import unittest
from typing import NamedTuple

from support import Tree, kati, needs

# The version of make that docs/LANGUAGE.md describes.
DESCRIBED = "GNU Make 4.3"
COMMAND = re.compile(r"^ command = (.*)$", re.MULTILINE)
PIECE = re.compile(r"/bin/sh -c '((?:[^']|'\\'')*)'(?!\\)")


class Case(NamedTuple):
    """A makefile, what make and kati make of it, the files that exist, and the goals. What they make of it are the
    commands, or else make's exit status and the number of kati's fault."""
    makefile: str
    make: object
    kati: object
    files: str = ""
    goals: str = ""


MACHINE = {
    "the first rule sets the default goal": Case(
        "all: ; echo all\nifeq ($(.DEFAULT_GOAL),)\n.DEFAULT_GOAL := help\nendif\nhelp: ; echo help\n",
        ["echo all"], ["echo help"]),
    "an empty default goal": Case("a: ; echo a\n.DEFAULT_GOAL :=\nb: ; echo b\n", ["echo b"], ["echo a"]),
    "a goal that is only a file": Case("all: ; true\n", ["make: Nothing to be done for 'x'."], "E27", "x", "x"),
    "the name of a macro on the command line": Case(
        "E = C\nall: ; echo [$(C1)]\n", ["echo [1]"], ["echo []"], "", "C$(E)1=1 all"),
}
RULES = {
    "a double-colon rule": Case("all:: x ; echo 1\nall:: ; echo 2\nx: ; touch x\n", ["touch x", "echo 1", "echo 2"],
                                ["echo 1 && echo 2", "touch x"]),
    "a circular dependency": Case("a: a ; echo\n", ["echo"], "E28"),
    "a second recipe of a group": Case("a b &: ; x\na: ; y\n", ["y"], "E36"),
    "the target of a group's recipe": Case("b.o a.o &: c ; gen $@ $<\n", ["gen b.o c", "make: 'a.o' is up to date."],
                                           ["gen a.o c"], "c", "b.o a.o"),
    "what a member of a group needs": Case(
        "all: p.c ; cc $<\np.c p.h &: p.y ; bison $<\np.h: types.h\ntypes.h: ; gen $@\n",
        ["gen types.h", "bison p.y", "cc p.c"], ["cc p.c", "bison p.y"], "p.y"),
    "what a target of a pattern rule needs": Case(
        "all: p.c ; cc $<\n%.c %.h: %.y ; bison $<\np.h: types.h\ntypes.h: ; gen $@\n",
        ["gen types.h", "bison p.y", "cc p.c"], ["cc p.c", "bison p.y"], "p.y"),
    "prerequisites of several rules": Case("a: b\na: c ; x\na: d ; echo $^\n", ["echo d c b"], ["echo d b c"], "b c d"),
    "an order-only prerequisite of two lists": Case("x: | b ; echo $^\nx: a b\n", ["echo b a"], ["echo a b"], "a b"),
    "a target that is named twice": Case("all all: b ; echo $+\n", ["echo b b"], ["echo b"], "b"),
    "a static pattern that does not match": Case("x: m%: y ; echo\n", ["echo"], "E21", "y"),
    "a pattern beside a name": Case("a.q %.o: y ; z\nall: a.q\n", ["z"], "E05", "y", "a.q"),
    "a colon from an expansion": Case("E = p:q\nx.o: %.o: $(E)%.s ; echo $<\n", ["echo p:qx.s"], "E05", "p:qx.s"),
    "an assignment in a target": Case("x c=d: ; echo $@\n", ["echo d"], "E27", "", "d"),
    "a blank behind a backslash": Case(r"all: b \ " + "\n\techo '$^'\n", [r"echo 'b \'"], ["echo 'b  '"],
                                       "b \\"),
    "an escaped backslash before a colon": Case("a\\\\: ; echo $@\n", ["echo a\\"], "E05"),
    "a semicolon from an expansion": Case("S = ;\nall: b $(S) echo 1\n", ["echo 1"], [], "b"),
    "two spellings of one file": Case("all: a/b a//b\na/b: ; one\na//b: ; two\n", ["one", "two"], "E31"),
    "a recipe of its own for a target of a pattern rule": Case(
        "all: p.c p.h\n%.c %.h: %.y ; bison $<\np.h: ; own $@\n", ["bison p.y"], ["bison p.y", "own p.h"], "p.y"),
}
SEARCH = {
    "the order of suffix rules": Case(".SUFFIXES: .o .c .y\n.y.o: ; fromy $<\n.c.o: ; fromc $<\nall: x.o\n",
                                      ["fromc x.c"], ["fromy x.y"], "x.c x.y"),
    "a suffix rule behind a pattern rule": Case(".SUFFIXES: .o .c\nall: x.o\n%.o: %.c ; one\n.c.o: ; two\n", ["one"],
                                                ["two"], "x.c"),
    "a suffix rule with two colons": Case(".SUFFIXES: .o .c\nall: x.o\n.c.o:: ; cc $<\n", ["cc x.c"], [], "x.c"),
    "a pattern rule that is there twice": Case("all: p.c\n%.c %.h: %.y ; one\n%.c %.h: %.y ; two\n", ["one"], ["two"],
                                               "p.y"),
    "the prerequisite of a terminal rule": Case("all: x.c\n%.c:: %.y ; yacc $<\n%.y: %.in ; gen $<\n", ["yacc x.y"],
                                                ["yacc x.y", "gen x.in"], "x.y x.in"),
    "a name that .SECONDARY knows": Case(
        ".SECONDARY: x.o\n%.p: %.o ; A $<\n%.p: %.c ; B $<\n%.o: %.s ; S $<\nall: x.p\n", ["S x.s", "A x.o"], ["B x.c"],
        "x.c x.s"),
    "a rule without recipe that matches": Case("all: x.o\n%: %.x ; cp $<\n%.o:\n",
                                               2, ["cp x.o.x"], "x.o.x"),
    "an empty stem beside a folder": Case("all: d/x.a\nx%.a: ; echo m\n", ["echo m"], []),
}
RECIPES = {
    "a prefix behind a continuation": Case("all:\n\t@\\\n\t-false\n", ["\\", "-false"], ["{ false || :; }"]),
    "a continuation": Case("all: ; echo a\\\n b\n", ["echo a\\", " b"], ["echo a b"]),
    "two lines of a macro": Case("define r\nx \\\\\n-y\nendef\nall:\n\t$(r)\n", ["x \\\\", "y"],
                                 [r"x \\ && { y || :; }"]),
    "newer prerequisites": Case("all: a b ; echo [$?]\nb: ; touch $@\n", ["touch b", "echo [b]"],
                                ["echo [a b]", "touch b"], "a all"),
    "folders of names": Case("my\\ file: ; echo [$(@D)]\n", ["echo [. .]"], ["echo [.]"]),
    "eval": Case("all: ; $(eval X = 1) echo $(X)\n", ["echo 1"], "E32"),
}
TEXT = {
    "a byte order mark": Case("\ufeffCFLAGS = -g\nall: ; cc $(CFLAGS)\n", ["cc -g"], ["cc "]),
    "a form feed": Case("\f\nall: ; echo\n", ["echo"], "E05"),
    "a form feed in a list": Case("L = a\fb\nall: ; echo $(words $(L))\n", ["echo 2"], ["echo 1"]),
    "a dollar at the end": Case("A = x$\nall: ; echo $(A)\n", ["echo x$"], ["echo x"]),
    "a reference of a parenthesis": Case("all: ; echo [$((A))]\n", ["echo [)]"], ["echo []"]),
    "an empty value before +=": Case("A =\nA += y\nall: ; echo [$(A)]\n", ["echo [y]"], ["echo [ y]"]),
    "an empty value after +=": Case("A = x\nA +=\nall: ; echo [$(A)]\n", ["echo [x]"], ["echo [x ]"]),
    "an empty macro after +=": Case("A :=\nA +=\nifdef A\nall: ; echo set\nendif\nelse: ; echo unset\n",
                                    ["echo unset"], ["echo set"]),
    "backslashes before a continuation": Case("A = a\\\\\\\nb\nall: ; echo '$(A)'\n", ["echo 'a\\ b'"],
                                              [r"echo 'a\\ b'"]),
    "empty results": Case("all: ; echo [$(patsubst a,,a b)]\n", ["echo [ b]"], ["echo [b]"]),
    "blanks between words": Case("all: ; echo [$(wordlist 1,2,a   b c)]\n", ["echo [a   b]"], ["echo [a b]"]),
    "a pattern without words": Case("all: ; echo [$(patsubst ,x,)]\n", ["echo [x]"], ["echo []"]),
    "a pattern of two words": Case("all: ; echo $(patsubst a b,x,a b)\n", ["echo x"], ["echo a b"]),
    "the order of sort": Case("all: ; echo $(sort a é z)\n", ["echo é a z"], ["echo a z é"]),
    "call of a function": Case("all: ; echo $(call words,a b)\n", ["echo 2"], "E16"),
    "an argument that is not given": Case("f = [$(2)]\n2 = x\nall: ; echo $(call f,a)\n", ["echo [x]"], ["echo []"]),
    "a value that is overridden": Case("A := $(error no)\nall: ; echo $(A)\n", 2, ["echo 1"], "", "A=1 all"),
    "a name with blanks": Case("B = x y\n$(B) = 1\nall: ; echo $(x y)\n", ["echo 1"], "E09"),
    "a conditional behind a tab": Case("A = 1\n\tifdef A\nA = 2\n\tendif\nall: ; echo $(A)\n", ["echo 2"], "E06"),
    "blanks within parentheses": Case("ifeq ( a,a)\nall: ; echo same\nelse\nall: ; echo not\nendif\n", ["echo not"],
                                      ["echo same"]),
    "ifdef without a name": Case("ifdef\nX = 1\nendif\nall: ; echo [$(X)]\n", ["echo []"], "E15"),
    "a tab line behind a call": Case("$(info x)\n\tA = 1\nall: ; echo [$(A)]\n", ["x", "echo [1]"], ["echo []"]),
}


def is_described():
    """Whether the make on PATH has the version that docs/LANGUAGE.md describes."""
    try:
        told = subprocess.run(["make", "--version"], stdout=subprocess.PIPE, check=False).stdout.decode()
    except OSError:
        return False
    return told.startswith(DESCRIBED + "\n")


@needs("kati", "make")
@unittest.skipUnless(is_described(), f"not there: {DESCRIBED}")
class Differences(Tree):
    """Each case differs as the document says."""

    def of_make(self, case):
        """What make prints of the commands that it would run, or its status where it stops."""
        ran = self.run_in("make", "-n", "-r", "-R", *case.goals.split())
        return ran.status or ran.out.splitlines()

    def of_kati(self, case):
        """kati's commands in the order of its file, or the number of its fault."""
        ran = self.run_in(kati(), "--files", "list", *case.goals.split())
        if ran.status:
            return re.search(r"\[(E\d\d)\]", ran.said).group(1)
        commands = [command.replace("$$", "$") for command in COMMAND.findall(ran.out)]
        return [PIECE.sub(lambda piece: piece.group(1).replace("'\\''", "'"), command) for command in commands]

    def check(self, cases):
        for about, case in cases.items():
            with self.subTest(about):
                for path in list(self.top.iterdir()):
                    path.unlink()
                self.put_all({"Makefile": case.makefile, **dict.fromkeys(case.files.split(), "")})
                self.put("list", case.files.replace(" ", "\n") + "\n")
                self.assertEqual((self.of_make(case), self.of_kati(case)), (case.make, case.kati))

    def test_the_machine(self):
        self.check(MACHINE)

    def test_rules(self):
        self.check(RULES)

    def test_search(self):
        self.check(SEARCH)

    def test_recipes(self):
        self.check(RECIPES)

    def test_text(self):
        self.check(TEXT)


if __name__ == "__main__":
    unittest.main()
