"""kati-build by makefiles with includes that rules make: several jobs, a port, header dependencies beside them, make
and ninja in turn, and runs that are killed; and what isn't as make."""
import os
import subprocess
import unittest
from unittest import mock

import include_forms
import include_trees
from include_scenarios import Compared, Scenario, Step, contents
from support import TOOLS, Tree, kati, kati_asked, needs
from kati_tools.build import rule_heads

MANUAL = include_trees.tree(include_forms.LISTED)
USING = "include v.mk\nout: ; echo $(V) > out\n"
MANY = os.environ.get("KATI_INCLUDES")
TRIED = ("manual by include", "depend by -include", "two levels", "forced") if MANY else ("depend by -include",)
SOURCES = 500 if MANY else 20


@needs("kati", "kati-asked", "make", "ninja", "gcc")
class More(Tree):
    """The same scenarios otherwise."""

    def compare(self, name, *words, jobs="-j1"):
        """Tries a scenario by these words of kati-build."""
        scenario = {**include_trees.TREES, **include_forms.FORMS}[name]
        place = self.top / name.replace(" ", "_")
        Compared(self, scenario, place, words, jobs).run()

    def test_eight_jobs(self):
        for name in TRIED:
            with self.subTest(name):
                self.compare(name, jobs="-j8")

    def test_header_dependencies_beside(self):
        for name in (*TRIED, "written, with an empty rule") if MANY else TRIED:
            with self.subTest(name):
                self.compare(name, "--deps")

    def test_make_and_ninja_in_turn(self):
        self.put_all(MANUAL)
        for edit in ({}, {"a.h": "#define A 1\n"}, include_trees.GAINS, {"c.h": "#define C 2\n"}):
            for first, second in (("make", "ninja"), ("ninja", "make")):
                self.put_all(edit)
                self.let_time_pass()
                words = {"make": ["make"], "ninja": [TOOLS / "kati-build"] if not edit else ["ninja"]}
                for one in (first, second):
                    ran = self.run_in(*words[one], RAN_LOG="/dev/null")
                    self.assertEqual(ran.status, 0, ran.all)
                self.assertEqual(self.run_in("make", "-q").status, 0)
            self.assert_quiet()

    def assert_quiet(self):
        """Tries that of three runs of ninja the last has nothing to do."""
        for _ in range(3):
            said = self.run_in("ninja", RAN_LOG="/dev/null").out
        self.assertEqual(said, "ninja: no work to do.\n")

    def killing(self, count):
        """The environment in which kati-asked is killed at this run of it, with whatever has run it; once."""
        counted, killed = self.top.parent / "runs", self.top.parent / "killed"
        counted.write_text("")
        killed.unlink(missing_ok=True)
        do = (f"echo >> {counted}\n[ -e {killed} ] || [ $(wc -l < {counted}) -ne {count} ] || "
              f"{{ touch {killed}; kill -9 -$(ps -o pgid= -p $$ | tr -d ' '); }}")
        path = self.program("killing", f"{do}\nexec {kati_asked()} \"$@\"")
        return {"KATI": kati(), "KATI_ASKED": path, "RAN_LOG": "/dev/null"}, killed

    def test_killed_at_a_run_of_kati(self):
        for count in range(1, 20) if MANY else (2, 6):
            with self.subTest(count=count):
                subprocess.run(["find", ".", "-mindepth", "1", "-delete"], cwd=self.top, check=True)
                self.put_all(MANUAL)
                environment, killed = self.killing(count)
                with mock.patch.dict(os.environ, environment):
                    subprocess.run([TOOLS / "kati-build"], cwd=self.top, stdin=subprocess.DEVNULL, capture_output=True,
                                   start_new_session=True, check=False)
                    if not (self.top / "build.ninja").exists():
                        self.tool("kati-build")
                    self.ninja()
                names = {name for name in contents(self.top) if not name.startswith(("a.d.", "b.d."))}
                self.assertEqual(names, {*MANUAL, "a.d", "b.d", "a.o", "b.o", "prog"} - {"kati-values.mk"})
                if not killed.exists():
                    return

    def test_statements_and_names_change_while_a_run_is_killed(self):
        text = "all: out\nout: c.mk ; cat c.mk > out\n-include c.mk\n"
        self.put_all({"Makefile": text, "c.mk": "# one\n", "c.in": "# two\n"})
        self.assertEqual(self.tool("kati-build").status, 0)
        for rule in ("c.mk: c.in ; cp c.in c.mk\n", ""):
            self.put("Makefile", text + rule)
            self.die_before_the_file_of_ninja()
            self.assertEqual(self.run_in("ninja").status, 0)
            self.assertEqual(self.read("out"), self.read("c.mk"))

    def test_a_phony_include_is_told(self):
        self.put_all({"Makefile": ".PHONY: v.mk\n-include v.mk\nout: ; echo $(V) > out\nv.mk: ; echo V = 1 > v.mk\n",
                      "v.mk": "V = 0\n"})
        ran = self.tool("kati-build")
        self.assertEqual((ran.status, self.read("out"), self.read("v.mk")), (0, "0\n", "V = 0\n"), ran.all)
        self.assertIn("kati-build: v.mk: make runs the recipe of this include at each run, as it is phony, and ninja "
                      "only where a goal needs it\n", ran.said)

    def test_an_include_by_a_double_colon_is_not_made(self):
        self.put_all({"Makefile": f"{USING}v.mk:: ; echo V = 1 > v.mk\n", "v.mk": "V = 0\n"})
        self.assertEqual(self.run_in("make").status, 0)
        wanted = contents(self.top)
        (self.top / "out").unlink()
        self.assertEqual(self.tool("kati-build").status, 0)
        self.assertEqual(contents(self.top), wanted)

    def test_what_ninja_shows_is_the_command_as_it_was(self):
        self.put_all({"Makefile": f"{USING}v.mk: v.in ; cp v.in v.mk\n", "v.in": "V = 0\n"})
        self.assertIn("[1/2] /bin/sh -c 'cp v.in v.mk'\n", self.tool("kati-build").out)

    def test_a_fault_that_an_include_does_not_mend(self):
        self.put_all({"Makefile": f"{USING}v.mk: v.in ; cp v.in v.mk\n", "v.in": "$(\n"})
        ran = self.tool("kati-build")
        self.assertEqual(ran.status, 1, ran.all)
        self.assertIn("v.mk:1: *** ", ran.all)
        self.assertIn("v.mk:1: *** ", self.run_in("ninja").all)
        self.put("v.in", "V = 2\n")
        self.ninja()
        self.assertEqual(self.read("out"), "2\n")

    def die_before_the_file_of_ninja(self):
        """A run of the generator that ends before it puts the file in place that ninja reads."""
        code = ("import sys, os; sys.path.insert(0, sys.argv.pop(1)); from kati_tools.base import files; "
                "from kati_tools.port import building; real = files.put; "
                "files.put = lambda *given: (real(*given), given[1].endswith('translated.ninja') and os._exit(9)); "
                "sys.argv[0] = sys.argv.pop(1); building.main(sys.argv[1:])")
        ran = self.run_in("python3", "-B", "-S", "-c", code, TOOLS.parent / "share/kati", TOOLS / "kati-build",
                          "--no-ninja")
        self.assertEqual(ran.status, 9, ran.all)


class RuleHeads(unittest.TestCase):
    """Whether the text of a makefile may make a name, by which a run of kati is spared."""

    def test_rules_that_may(self):
        for text in ("a.mk: b ; c\n", "b a.mk: c\n", "b \\\n a.mk: c\n", "%.mk: %.in\n", "%: %.sh\n", "$(X): c\n",
                     "$(X:.in=.mk): c\n", ".in.mk:\n", "a.mk:: b\n", "define R\n$(1): $(2)\nendef\n",
                     "R = a.mk: b\n$(R)\n", "%.mk: %.in ; echo 'x: y' > $@\n"):
            with self.subTest(text):
                self.assertTrue(rule_heads.may_make(text, ["Makefile", "a.mk"]))

    def test_rules_that_may_not(self):
        for text in ("b: a.mk\n\ta.mk: c\n", "%.o: %.c\n", "$(X:.c=.o): c\n", ".c.o:\n", "X := a.mk\n",
                     "S = $(X:.c=.mk)\n", "# a.mk: b\n", "X = a.mk\nb: c\n", "$(D)/%.o: %.c\n"):
            with self.subTest(text):
                self.assertFalse(rule_heads.may_make(text, ["Makefile", "a.mk"]))


@needs("kati", "kati-asked", "make", "ninja", "gcc")
class Ported(Tree):
    """The same scenarios by kati-build --port, where values are make's own."""


def ported(scenario):
    """A test of a scenario."""
    def test(self):
        files = {name: text for name, text in scenario.files.items() if name != "kati-values.mk"}
        files["Makefile"] = files["Makefile"].replace(include_trees.WILD, "SRCS := $(wildcard *.c)\n")
        other = Scenario(files, *scenario.steps[1:], goals=scenario.goals, first=scenario.steps[0])
        Compared(self, other, self.top, ["--port"]).run()
    return test


# A port wants make to take the makefile at first; and what the compiler writes Ninja reads then, for which a header
# that is gone is no fault.
FAILING = ("a recipe that fails", "a fault until it is made", "half-written, needed",
           "written beside it, and a header goes")
for name, scenario in {**include_trees.TREES, **include_forms.FORMS}.items():
    if name not in FAILING and MANY or name == "two levels":
        setattr(Ported, f"test_{name.replace(' ', '_').replace(',', '')}", ported(scenario))


@needs("kati", "kati-asked", "make", "ninja", "gcc")
class Large(Tree):
    """Many sources."""

    def test_what_runs(self):
        files = {"Makefile": include_trees.makefile(include_trees.MANUAL.replace("INC", "-include")),
                 "kati-values.mk": include_trees.VALUES, "common.h": "#define C 0\n"}
        for number in range(SOURCES):
            body = "int main(void){return 0;}\n" if number == 0 else ""
            files[f"s{number}.c"] = (f'#include "common.h"\n#include "s{number}.h"\n'
                                     f"int f{number}(void){{return C+S{number};}}\n{body}")
            files[f"s{number}.h"] = f"#define S{number} {number}\n"
        steps = [Step("all", {"common.h": "#define C 1\n"}), Step("one", {"s7.h": "#define S7 99\n"}),
                 Step("one more", {"zz.c": "int zz(void){return 0;}\n"})]
        Compared(self, Scenario(files, *steps), self.top, jobs="-j4").run()
