"""kati-build --port where a `$(shell)` in a recipe reads what the build makes: the first build is make's."""
import unittest

from support import Tree, needs

from kati_tools.port import command_reads

# Makefiles whose recipes read version.txt, which a rule makes.
READING = {
    "as it is": "out: version.txt\n\techo $(shell cat version.txt 2>/dev/null) > $@\n",
    "among other words": "out: version.txt\n\techo a $(shell cat version.txt 2>/dev/null)b > $@\n",
    "by a macro": "FILE = version.txt\nout: version.txt\n\techo $(shell cat $(FILE) 2>/dev/null) > $@\n",
    "in braces": "out: version.txt\n\techo ${shell cat ./version.txt 2>/dev/null} > $@\n",
    "by a pattern": "out: version.txt\n\techo $(shell cat v*.txt) $(shell echo version.*) > $@\n",
    "by a list of this folder": "out: version.txt\n\techo $(shell ls | grep vers) > $@; cat version.txt >> $@\n",
    "by find": "out: version.txt\n\techo $(shell find . -name 'v*.txt') > $@; cat version.txt >> $@\n",
    "twice": "out: version.txt\n\techo $(shell cat version.txt 2>/dev/null) > $@\n"
             "\techo $(shell wc -l < version.txt) >> $@\n",
}
MAKES = "all: out\nversion.txt: in ; cp in version.txt\n"


@needs("kati", "kati-asked", "make", "ninja")
class OfTheRecipesShell(Tree):
    """What the first build makes, and the next ones."""

    def test_the_first_build_and_the_next_are_makes(self):
        for name, rule in READING.items():
            with self.subTest(name):
                self.put_all({"Makefile": MAKES + rule, "in": "42\n"})
                self.assertEqual(self.run_in("make").status, 0)
                wanted = self.read("out")
                self.assertEqual(self.run_in("rm", "-r", "out", "version.txt").status, 0)
                ran = self.tool("kati-build", "--port")
                self.assertEqual((ran.status, self.read("out")), (0, wanted), ran.all)
                self.put("in", "43\n")
                self.ninja()
                self.assertEqual(self.read("out"), wanted.replace("42", "43"))
                self.run_in("rm", "-r", "out", "version.txt", "build.kati", "build.ninja")

    def test_what_a_pattern_finds_is_told(self):
        self.put("Makefile", "S = $(wildcard *.y)\nall: out\ng/a g/b: ; mkdir -p g; touch $@\n"
                             "out: g/a g/b $(S)\n\techo $(wildcard g/*) > $@\n")
        self.assertEqual(self.run_in("make").status, 0)
        wanted = self.read("out")
        self.assertEqual(self.run_in("rm", "-r", "out", "g").status, 0)
        ran = self.tool("kati-build", "--port")
        self.assertIn("kati-build: Makefile:5: $(wildcard g/*) finds g/a, g/b, which the build makes; kati has what it "
                      "gives before the build\n", ran.said)
        self.assertNotIn("Makefile:1:", ran.said)
        self.ninja()
        self.assertEqual(self.read("out"), wanted)

    def test_what_the_target_does_not_need_is_told(self):
        self.put_all({"Makefile": MAKES.replace("out", "out version.txt")
                                  + "V = $(shell cat version.txt \\\n  2>/dev/null)\n"
                                  "out: in\n\techo $(subst 4,5,$(V))$(wildcard v*.txt) > $@\n", "in": "42\n"})
        self.assertEqual(self.run_in("make").status, 0)
        wanted = self.read("out")
        self.run_in("rm", "out", "version.txt")
        ran = self.tool("kati-build", "--port", "-j1")
        for place in ("Makefile:3: $(shell cat version.txt 2>/dev/null) reads", "Makefile:6: $(wildcard v*.txt) finds"):
            self.assertIn(f"kati-build: {place} version.txt, which the build makes; kati has what it gives before the "
                          "build\n", ran.said)
        self.assertEqual(self.read("out"), wanted)

    def test_what_a_wildcard_does_not_find_is_not(self):
        self.put("Makefile", "S = $(wildcard *.y)\nall: a.y b\na.y: ; touch $@\n"
                             "b: $(S)\n\techo $(if $(wildcard $@),there,new) $(wildcard a) > $@\n")
        ran = self.tool("kati-port", "--write", "Makefile")
        self.assertEqual((ran.status, "which the build makes" in ran.all), (0, False), ran.all)

    def test_what_a_recipe_reads_of_the_sources_stays_a_value(self):
        self.put_all({"Makefile": "all: out\nout: in\n\techo $(shell cat in) > $@\n", "in": "42\n"})
        ran = self.tool("kati-build", "--port")
        self.assertEqual((ran.status, self.read("out")), (0, "42\n"), ran.all)
        values = [path.read_text() for path in self.top.rglob("kati-values.mk")]
        self.assertEqual([text.count(" := 42\n") for text in values], [1])


AGAIN = ", which the build makes: kati-build has that made first, and make asked again\n"
# Makefiles whose recipes have values that hang on version.txt or g-a, which rules make before.
HANGING = {
    "of a function": "out: version.txt\n\techo $(subst 4,5,$(shell cat version.txt)) > $@\n",
    "of a macro": "V = $(shell cat version.txt 2>/dev/null)\nout: version.txt\n\techo $(V) > $@\n",
    "of macros of a target": "V = $(shell wc -c < version.txt)\nBIG = $(if $(filter 3,$(V)),big,small)\n"
                             "out: FLAGS = $(BIG) $(V)\nout: part ; echo $(FLAGS) > $@\n"
                             "part: | version.txt ; touch $@\n",
    "of a name": "out: g-a version.txt\n\techo $(if $(wildcard $<),there,not there) > $@\ng-a: ; touch $@\n",
}


@needs("kati", "kati-asked", "make", "ninja")
class MadeFirst(Tree):
    """What values in recipes hang on is made before the makefile is translated."""

    def by_make(self):
        """What make makes from nothing; that is taken away again."""
        self.clean()
        self.assertEqual(self.run_in("make").status, 0)
        wanted = self.read("out")
        self.clean()
        return wanted

    def clean(self):
        self.run_in("rm", "-f", "out", "part", "version.txt", "g-a")

    def is_as_make(self, wanted, *call):
        """Runs kati-build, and looks at what it makes, in this run and the next; answers what it said."""
        ran = self.tool("kati-build", *call)
        self.assertEqual((ran.status, self.read("out")), (0, wanted), ran.all)
        self.assertNotIn("out", self.made_anew(self.ninja))
        return ran.said

    def is_as_make_after_edits(self, *call):
        """Builds from nothing, again from nothing, and after an edit."""
        wanted = self.by_make()
        said = self.is_as_make(wanted, *call)
        self.clean()
        self.is_as_make(wanted, *call)
        self.put("in", "43 more\n")
        wanted = self.by_make()
        self.ninja()
        self.assertEqual(self.read("out"), wanted)
        return said

    def test_each_build_by_a_port_is_makes(self):
        for name, rule in HANGING.items():
            with self.subTest(name):
                self.put_all({"Makefile": MAKES + rule, "in": "42\n"})
                said = self.is_as_make_after_edits("--port")
                self.assertIn(AGAIN, said)
                self.clean()
                self.run_in("rm", "-r", "build.kati", "build.ninja")

    def test_each_build_by_a_written_makefile_is_makes(self):
        for name, rule in HANGING.items():
            with self.subTest(name):
                self.put_all({"Makefile": MAKES + rule, "in": "42\n"})
                ran = self.tool("kati-port", "--write", "Makefile")
                self.assertIn(AGAIN, ran.out)
                self.is_as_make_after_edits("--builtin")
                self.clean()
                self.run_in("rm", "-r", "build.kati", "build.ninja", "kati-values.mk")

    def test_what_its_recipe_does_not_make_has_an_end(self):
        self.put_all({"Makefile": "V = $(shell cat version.txt 2>/dev/null)\nout: version.txt\n\techo 1$(V) > $@\n"
                                  "version.txt: in ; @true\n", "in": "42\n"})
        wanted = self.by_make()
        ran = self.tool("kati-build", "--port")
        self.assertEqual((ran.status, self.read("out")), (0, wanted), ran.all)
        self.ninja()
        self.assertEqual(self.tool("kati-build", "--port").status, 0)

    def test_what_is_another_one_each_time_has_an_end(self):
        self.put("Makefile", "all: out\nversion.txt: FORCE\n\techo x >> $@\nFORCE:\n"
                             "out: version.txt\n\techo $(words $(shell cat version.txt)) > $@\n")
        ran = self.tool("kati-build", "--port")
        self.assertEqual(ran.status, 0, ran.all)
        self.assertIn("\nkati-build: another text each time that ninja makes it, so that values hang on what it was: "
                      "version.txt\n", ran.all)
        self.assertEqual(int(self.read("out")), len(self.read("version.txt").split()) - 1)

    def test_a_recipe_that_fails_ends_the_build(self):
        self.put_all({"Makefile": MAKES.replace("cp", "false;") + HANGING["of a function"], "in": "42\n"})
        self.assertEqual(self.run_in("make").status, 2)
        for _ in range(2):
            ran = self.tool("kati-build", "--port")
            self.assertEqual((ran.status, (self.top / "out").exists()), (1, False), ran.all)
        self.put("Makefile", MAKES + HANGING["of a function"])
        self.is_as_make(self.by_make(), "--port")


class Found(unittest.TestCase):
    """Which of many names a command finds."""

    def test_by_patterns_and_folders(self):
        names = ["a.x", "ab", "b.x", "b/a.x", "b/c/a.x", "bc/d.x"]
        for command, wanted in {"ls": {"a.x", "ab", "b.x"}, "ls b": {"b/a.x"}, "ls -R b": {"b/a.x", "b/c/a.x"},
                                "echo a*": {"a.x", "ab"}, "cat b/?.x": {"b/a.x"}, "cd b && ls": {"b/a.x"},
                                "find b -name '*.x'": {"b/a.x", "b/c/a.x"}, "find . -name 'd*'": {"bc/d.x"},
                                "ls a.x": set(), "cat a.x": set(), "uname": set()}.items():
            self.assertEqual(command_reads.found_of(names, command), wanted, command)


if __name__ == "__main__":
    unittest.main()
