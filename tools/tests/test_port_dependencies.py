"""Header dependencies and includes that make makes, as kati-port and kati-build --port have them."""
from support import Tree, needs

from kati_tools.makefile import includes

HEADER = {"a.h": "#define A 1\n", "a.c": '#include "a.h"\nint main(void) { return A; }\n'}
MOVED = """prog: a.o
	cc -o $@ a.o
a.o: a.c
	cc -MMD -MF a.d.tmp -MT $@ -c -o $@ $<
	@touch a.d.tmp
	@if cmp a.d.tmp a.d > /dev/null 2> /dev/null; then \\
		rm -f a.d.tmp; \\
	else \\
		mv a.d.tmp a.d; \\
	fi
-include a.d
"""
REWRITTEN = """prog: a.o
	cc -o $@ a.o
a.o: a.c
	cc -MD -c -o $@ $<
	@sed -e "s,^,,"  a.d > a.P; rm -f a.d
-include a.P
"""
BY_RULE = """prog: a.o
	cc -o $@ a.o
.depend: a.c
	cc -MM a.c > .depend
include .depend
"""
WRITTEN = "OBJS = a.o\nprog: $(OBJS)\n\tcc -o $@ $^\n%.o: %.c\n\tcc -MMD -MP -c -o $@ $<\n-include $(OBJS:.o=.d)\n"
LEFT = WRITTEN.replace("-MMD -MP -c -o $@ $<", "-c -o $@ $<\n\t@cc -MM -MP $*.c > $*.d")
LEFT_TOLD = ("kati-build: only make reads the header dependencies in a.d: ninja doesn't rebuild for a changed header\n"
             "kati-build: help: write header dependencies by -MMD in the command that compiles, which ninja reads; or "
             "run kati-build --anew after a header has changed\n")
MADE = ("all: out\ninclude gen.mk\nV := $(shell echo 1)\ngen.mk: gen.in\n\tsed s/^/GEN=/ gen.in > $@\n"
        "out: Makefile\n\techo $(GEN) > $@\n")


@needs("kati", "kati-asked", "make", "ninja", "cc")
class Dependencies(Tree):
    """Builds by kati-build --port."""

    def build(self, *words):
        """What kati-build --port says, which ends well."""
        ran = self.tool("kati-build", "--port", *words)
        self.assertEqual(ran.status, 0, ran.all)
        return ran.all

    def test_what_is_left_to_make_is_told_at_each_run(self):
        # kati refuses one header by two names.
        self.put_all({"Makefile": LEFT, "h.h": "#ifndef H\n#define H 1\n#endif\n", "sub/s.h": '#include "../h.h"\n',
                      "a.c": '#include "h.h"\n#include "sub/s.h"\nint main(void) { return H; }\n'})
        self.build()
        self.assertIn(LEFT_TOLD, self.ninja())
        for _ in range(2):
            self.assertIn(LEFT_TOLD, self.build())
        self.put("h.h", "#define H 2\n")
        self.assertNotEqual(self.run_in("make", "-q").status, 0)
        self.assertNotIn("cc ", self.ninja())
        self.build("--anew")
        self.assertEqual(self.run_in("./prog").status, 2)
        self.put("Makefile", WRITTEN.replace("-MMD", "-MMD -MF $*.d"))
        self.assertNotIn("only make reads", self.build())

    def assert_quiet(self):
        """Tries that the second of two runs has nothing to do."""
        self.ninja()
        self.assertEqual(self.ninja(), "ninja: no work to do.\n")

    def test_a_changed_header_is_seen(self):
        for name, text in (("moved", MOVED), ("rewritten", REWRITTEN), ("by a rule", BY_RULE), ("written", WRITTEN)):
            with self.subTest(name):
                self.put_all({"Makefile": text, **HEADER})
                self.build()
                self.assert_quiet()
                self.put("a.h", f"#define A {len(name)}\n")
                self.ninja()
                self.assertEqual(self.run_in("./prog").status, len(name))
                self.assert_quiet()

    def test_files_of_the_compiler_that_make_includes_stay_for_make(self):
        self.put_all({"Makefile": WRITTEN, **HEADER})
        self.build()
        self.assertIn("a.h", self.read("a.d"))
        self.put("a.h", "#define A 7\n")
        self.assertIn("-o a.o a.c", self.run_in("make").out)
        self.assertEqual(self.run_in("./prog").status, 7)

    def test_files_of_the_compiler_with_other_names(self):
        for names in ("$(ALL)", "$(OBJS) t.o"):
            text = "ALL = a.o t.o\n" + WRITTEN.replace("-MP", "-MF $(@:.o=.mk)").replace(
                "$(OBJS:.o=.d)", f"$(patsubst %.o, %.mk, {names})")
            self.put_all({"Makefile": text, **HEADER})
            for value in (1, 7):
                self.put("a.h", f"#define A {value}\n")
                self.build()
                self.assertIn("a.h", self.read("a.mk"))
                self.assertEqual(self.run_in("./prog").status, value)
                self.assert_quiet()
            self.put("a.h", "#define A 8\n")
            self.assertIn("-o a.o a.c", self.run_in("make").out)
            self.run_in("rm", "-r", "a.o", "a.mk", "prog", "build.kati", "build.ninja", ".ninja_log", ".ninja_deps")

    def test_what_the_names_of_an_include_may_be(self):
        for name, pattern in (("$(patsubst %.o, %.mk, $(OBJS) t.o)", "*.mk"), ("$(OBJS:%.o=$(D)/%.d)", "*.d"),
                              ("$(sort a.d b.d)", "*.d"), ("$(sort a.d b.mk)", "*"), ("$(subst .o,.d,a.o)", "*"),
                              ("$(if $(X),a.mk,$(OBJS:.o=.d))", "*"), ("d/$(if $(X),$(OBJS:.o=.d))", "d/*.d"),
                              ("$(addprefix d/,$(notdir $(OBJS:=.P)))", "*.P"), ("$(shell find . -name '*.d')", "*"),
                              ("$(addsuffix .d,$(OBJS) t)", "*.d"), ("$(call names,a.c)", "*"),
                              ("$(patsubst /t/%,../%,$(patsubst /t/s/%,%,a.d))", "*a.d")):
            self.assertEqual(includes.named_in(f"include {name}\n"), [pattern])

    def test_ninja_reads_what_the_compiler_writes_and_kati_does_not(self):
        self.put_all({"Makefile": WRITTEN, **HEADER})
        self.build()
        self.ninja()
        self.put("a.h", "#define A 2\n")
        self.assertNotIn("translating", self.ninja())

    def test_an_include_of_a_wildcard_is_no_header_dependency(self):
        self.put_all({"Makefile": "include mk/*.mk\nout: in ; cat in extra $(MORE) > $@\n", "mk/a.mk": "out: extra\n",
                      "in": "1\n", "extra": "1\n"})
        self.build()
        self.put("extra", "2\n")
        self.ninja()
        self.assertEqual(self.read("out"), "1\n2\n")
        self.put_all({"mk/b.mk": "MORE = $(shell echo more)\n", "more": "3\n"})
        self.ninja()
        self.assertEqual(self.read("out"), "1\n2\n3\n")

    def test_lines_that_end_in_cr_lf_and_an_include_that_is_made(self):
        self.put("Makefile", "all: out .depend\r\nout:\r\n\techo hi > out\r\n.depend:\r\n\techo \"x.o: x.h\" > $@\r\n"
                             "include .depend\r\n")
        for _ in range(2):
            self.build()
            self.assert_quiet()
        self.assertEqual(self.read("out"), "hi\n")

    def test_an_include_that_make_makes_stays_a_statement(self):
        for is_by_make in (False, True):
            with self.subTest(is_by_make=is_by_make):
                self.put_all({"Makefile": MADE, "gen.in": "a\n"})
                if is_by_make:
                    self.assertEqual(self.run_in("make").status, 0)
                self.build()
                self.put("gen.in", "b\n")
                self.ninja()
                self.assertEqual(self.read("out"), "b\n")
                self.put("Makefile", MADE + "# more\n")
                self.ninja()
                self.put("gen.in", "c\n")
                self.ninja()
                self.assertEqual((self.read("gen.mk"), self.read("out")), ("GEN=c\n", "c\n"))
                for name in ("gen.mk", "out"):
                    (self.top / name).unlink()

    def test_an_include_whose_recipe_has_what_kati_refuses_and_no_goal_needs(self):
        # For an empty .SUFFIXES make tells its database, which says what has a recipe.
        for rule in ("gen.mk: gen.in\n", "%.mk: %.in $(wildcard *.ins)\n", ".SUFFIXES:\n%.mk: %.in\n"):
            with self.subTest(rule):
                self.put_all({"Makefile": f"NAME = $(shell echo GEN)\nall: out\ninclude gen.mk\n{rule}"
                                          "\tsed 's/^/$(NAME)=/' $< > $@\nout: Makefile ; echo $(GEN) > $@\n",
                              "gen.in": "a\n"})
                self.assertNotIn("makes no include", self.build())
                self.put("gen.in", "b\n")
                self.ninja()
                self.assertEqual(self.read("out"), "b\n")
                self.assert_quiet()

    def test_a_makefile_that_make_writes_anew(self):
        for value, copied in ((":= $(shell echo 1)", "Makefile.in"), ("= 1", "$(shell echo Makefile).in")):
            with self.subTest(copied):
                text = (f"V {value}\nall: out\nMakefile: Makefile.in\n\tcp {copied} Makefile\n"
                        "out: Makefile\n\techo {} $(V) > out\n")
                self.put_all({"Makefile": text.format("one"), "Makefile.in": text.format("one")})
                self.build()
                self.ninja()
                self.put("Makefile.in", text.format("two"))
                self.ninja()
                self.assertEqual((self.read("out"), self.read("Makefile")), ("two 1\n", text.format("two")))
                self.assert_quiet()

    def test_dependencies_that_kati_refuses_are_told(self):
        self.put_all({"Makefile": "S := $(shell echo main)\nprog: $(S).o\n\tcat $^ > $@\nmain.o: ; echo > $@\n"
                                  "-include $(S).d\n",
                      "main.d": "main.o: a//b.h a/b.h\na//b.h:\na/b.h:\n", "a/b.h": ""})
        ran = self.tool("kati-port", "--write", "Makefile")
        self.assertIn("Makefile: kati refuses header dependencies, so that ninja doesn't see a change of what they "
                      "name: main.d\n", ran.all)
        self.assertEqual(self.tool("kati-build", "--builtin").status, 0)
