"""Calls of `$(shell ..)` that the recipe's own shell runs for kati: they are told aside, unless that shell is seen to
have another value than make."""
from ported_trees import PortedTree
from support import needs

ASIDE = "kati's commands are make's, calls that the recipe's shell runs aside\n"
RUNS = "for kati the recipe's own shell runs, when it comes to it: "
DIFFERS = 5
# Makefiles with such a call, and the call.
SAME = {
    "another value for each target": ("all: a b\na b:\n\techo $(shell echo made $@) > $@\n", "$(shell echo made $@)"),
    "a file that the build makes":
        ("all: out\nout: flags\n\tcat flags\n\techo $(shell cat flags) > $@\nflags: ; echo x y > $@\n",
         "$(shell cat flags)"),
    "a line of nothing else, behind another one":
        ("all: out\nout: force\n\t-echo 1 > out\n\t$(shell touch out || true)\n\techo 2 >> out\nforce:\n",
         "$(shell touch out || true)"),
    "within quotes": ("all: a b\na b:\n\techo \"$(shell echo $@)\" > $@\n", "$(shell echo $@)"),
}
# Recipes of the targets a and b in which the recipe's shell has another value, or may have, and why.
OTHERS = {
    "echo new > x.txt\n\techo $(shell cat x.txt 2> /dev/null; echo $@) > $@": "its recipe names x.txt before it",
    "cd sub && echo $(shell basename $$(pwd); echo $@) > ../$@": "it is run in another folder",
    "V=$(shell echo $@); echo $$V > $@": "a variable of the shell gets it",
    "i=1; echo $(shell echo $$i $@) > $@": "it names a variable that the recipe sets",
    "$(shell test $@ = c && echo :)\n\techo > $@": "a fault of its own ends the recipe, where make goes on",
    "echo \"$(shell echo $@; echo y)\" > $@": "it stands within quotes, and make has a y",
    "echo $(shell echo \"'$@  x'\") > $@": "make's shell reads 'a  x' as its own text",
}


@needs("kati", "kati-asked", "make", "ninja")
class ByRecipesShell(PortedTree):
    """What a port says of them, and its status."""

    def test_calls_that_are_told_aside(self):
        for name, (makefile, call) in SAME.items():
            with self.subTest(name):
                said = self.check_construct({"Makefile": makefile}, [])
                self.assertIn(f"Makefile: {RUNS}{call}\nMakefile: {ASIDE}", said)
                self.put_all({"Makefile": makefile})
                built = self.built_by_make()
                ran = self.tool("kati-build", "--port", "--no-ninja")
                self.assertEqual((ran.status, ran.said), (0, f"kati-build: {RUNS}{call}\n"))
                self.ninja()
                for file, text in built.items():
                    self.assertEqual(self.read(file), text)
                # What the build has made since has nothing asked again.
                self.assertEqual(self.tool("kati-build", "--port", "--no-ninja").all, "")

    def test_calls_that_an_earlier_port_wrote(self):
        for name, (makefile, call) in SAME.items():
            with self.subTest(name):
                self.put_all({"Makefile": makefile})
                self.port()
                written = self.read("Makefile"), self.read("kati-values.mk")
                self.assertIn(f"Makefile: {RUNS}{call}\nMakefile: {ASIDE}", self.port().out)
                self.assertEqual((self.read("Makefile"), self.read("kati-values.mk")), written)
                self.put("Makefile", written[0] + "all: c d\nc d:\n\techo $(shell echo more $@) > $@\n")
                self.assertIn(f"Makefile: {RUNS}{call}, $(shell echo more $@)\nMakefile: {ASIDE}", self.port().out)

    def test_calls_that_may_have_another_value(self):
        for recipe, reason in OTHERS.items():
            with self.subTest(recipe):
                self.put_all({"Makefile": f"all: a b\na b:\n\t{recipe}\n", "sub/y": ""})
                said = self.port(status=DIFFERS).out
                self.assertIn(" may give the recipe's shell another value than make: " + reason, said)
                self.assertIn("kati's commands differ in what calls give that the recipe's shell runs\n", said)

    def test_another_difference_stays_one(self):
        self.put_all({"Makefile": "all: a b\na b:\n\techo $(shell echo made $@) $(MAKEFLAGS) > $@\n"})
        self.assertIn("kati's commands differ: 2 of make's alone, 2 of kati's alone\n",
                      self.port("A=1", status=DIFFERS).out)
