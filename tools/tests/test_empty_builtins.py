"""Recipe lines that begin with a variable that make has built in and nobody defines: kati-build and kati-compare stop,
and nothing is written. Where make itself runs another command than kati, a line is one of those."""
import unittest

from kati_tools.build import empty_builtins
from support import Tree, needs

HELP = ("help: kati-build --port builds with make's own {}; kati-build --builtin adds make's built-in variables and "
        "rules\n")
# A makefile, and the places of lines that begin with such a variable, each with its name.
REFUSED = [
    ("prog: main.c ; $(CC) $(CFLAGS) -o $@ $<\n", [("Makefile:1", "CC")]),
    ("prog: main.c\n\t@echo by $(CC)\n\t-@ ${CC} -o $@ $<\n", [("Makefile:3", "CC")]),
    ("all: x\nx:\n\techo > x\n\t+$(RM) prog\n", [("Makefile:4", "RM")]),
    ("all: a.o\n%.o: %.c\n\t$(COMPILE.c) $<\n", [("Makefile:3", "COMPILE.c")]),
    ("LINK = $(CC) -o\nprog: main.c\n\t$(LINK) $@ $<\n", [("Makefile:3", "CC")]),
    ("include link.mk\nprog: main.c\n\t$(LINK) $@ $<\n", [("link.mk:2", "CC")]),
    ("CC += -Wall\nprog: main.c ; $(CC) -o $@ $<\n", [("Makefile:2", "CC")]),
    ("ifdef NONE\nCC = cc\nendif\nprog: main.c\n\t$(CC) -o $@ $<\n", [("Makefile:5", "CC")]),
    ("C = CC\nprog: main.c\n\t$($(C)) -o $@ $<\n", [("Makefile:3", "CC")]),
    ("all: a b\na: ; $(AR) rcs a\nb: ; $(CXX) b\n", [("Makefile:2", "AR"), ("Makefile:3", "CXX")]),
]
# A makefile, words of the command line, and what makes its target: nothing is wrong with these.
BUILT = [
    ("CC = sh\nprog: ; $(CC) -c 'echo > prog'\n", []),
    ("CC ?= sh\nprog: ; $(CC) -c 'echo > prog'\n", []),
    ("prog: ; $(CC) -c 'echo > prog'\n", ["CC=sh"]),
    ("CC =\nprog: ; $(CC) echo > prog\n", []),
    ("ifeq ($(CC),)\nCC = sh\nendif\nprog: ; $(CC) -c 'echo > prog'\n", []),
    ("ifndef CC\nA = sh\nelse\nA = $(CC)\nendif\nprog: ; $(A) -c 'echo > prog'\n", []),
    ("prog: ; echo $(CC) > prog\nclean: ; $(RM) prog\n", []),
    ("prog: ; echo $$(CC) > /dev/null; echo > prog\n", []),
    ("include cc.mk\nprog: ; $(CC) -c 'echo > prog'\n", []),
]
FILES = {"main.c": "int main(void) { return 0; }\n", "a.c": "", "link.mk": "# the linker\nLINK := $(CC) -o\n",
         "cc.mk": "CC := sh\n"}


@needs("kati", "kati-asked", "make", "ninja")
class EmptyBuiltins(Tree):
    """The tools on makefiles with such lines, and without."""

    def setUp(self):
        super().setUp()
        self.put_all(FILES)

    def names(self):
        return sorted(path.name for path in self.top.iterdir())

    def told(self, places):
        lines = [f'{place}: a recipe line begins with "$({name})", which make has built in and no makefile defines\n'
                 for place, name in places]
        return "".join(lines) + HELP.format(" and ".join(name for _, name in places))

    def test_they_are_told_and_nothing_is_written(self):
        for makefile, places in REFUSED:
            with self.subTest(makefile):
                self.put("Makefile", makefile)
                before = self.names()
                for words in (["kati-build"], ["kati-build", "--no-ninja"], ["kati-compare"],
                              ["kati-compare", "--build"]):
                    ran = self.tool(*words)
                    self.assertEqual((ran.status, ran.out, ran.said), (2, "", self.told(places)), words)
                    self.assertEqual(self.names(), before)

    def test_make_runs_other_commands_there_than_kati(self):
        for makefile, _ in REFUSED:
            with self.subTest(makefile):
                self.put("Makefile", makefile)
                ran = self.run_in("make", "-n")
                self.assertEqual(ran.status, 0, ran.all)
                self.assertTrue(any(word in ran.out for word in ("cc ", "rm -f ", "ar ", "g++ ")), ran.out)

    def test_without_the_program_that_tells_names(self):
        with self.without_asked():
            for makefile, places in REFUSED[:6]:
                self.put("Makefile", makefile)
                ran = self.tool("kati-build")
                self.assertEqual((ran.status, ran.said), (2, self.told(places)))

    def test_all_else_is_built(self):
        for makefile, words in BUILT:
            with self.subTest(makefile):
                self.put("Makefile", makefile)
                ran = self.tool("kati-build", *words)
                self.assertEqual((ran.status, ran.said), (0, ""))
                self.assertTrue((self.top / "prog").exists())
                self.assertEqual(self.tool("kati-build", "--remove").status, 0)
                (self.top / "prog").unlink()

    def test_with_makes_own_variables_it_is_built(self):
        self.put("Makefile", REFUSED[0][0])
        for option in ("--builtin", "--port"):
            self.assertEqual(self.tool("kati-build", option).status, 0)
            self.assertTrue((self.top / "prog").exists())
            self.assertEqual(self.tool("kati-build", "--remove").status, 0)
            (self.top / "prog").unlink()
        self.assertEqual(self.tool("kati-compare", "--builtin").status, 0)

    def test_a_build_of_before_is_kept(self):
        self.put("Makefile", BUILT[0][0])
        self.assertEqual(self.tool("kati-build").status, 0)
        before = self.read("build.ninja"), self.read("build.kati/translated.ninja")
        self.put("Makefile", REFUSED[0][0])
        ran = self.tool("kati-build")
        self.assertEqual((ran.status, ran.said), (2, self.told(REFUSED[0][1])
                                                  + "kati-build: nothing is written; build.ninja stays as it is\n"))
        self.assertNotEqual(self.run_in("ninja").status, 0)
        self.assertEqual((self.read("build.ninja"), self.read("build.kati/translated.ninja")), before)


class Candidates(unittest.TestCase):
    """The variables that are looked for, which are none for most makefiles."""

    def test_candidates(self):
        for text, given, wanted in [
                ("a: ; $(CC)\n", [], ["CC"]), ("a: ; ${RM} x\n", [], ["RM"]), ("a: ; $(CFLAGS)\n", [], []),
                ("CC = c\na: ; $(CC)\n", [], []), ("  CC := c\na: ; $(CC)\n", [], []),
                ("override CC ?= c\na: ; $(CC)\n", [], []), ("CC += c\na: ; $(CC)\n", [], ["CC"]),
                ("a: ; $(CC)\n", ["CC=c"], []), ("if\nifdef X\nCC = c\nendif\na: ; $(CC)\n", [], ["CC"]),
                ("X = \\\nCC = c\na: ; $(CC)\n", [], ["CC"]), ("a: CC = c\na: ; $(CC)\n", [], ["CC"]),
                ("define X\nCC = c\nendef\na: ; $(CC:c=d)\n", [], ["CC"])]:
            self.assertEqual(empty_builtins.candidates([text], given), wanted, text)


if __name__ == "__main__":
    unittest.main()
