"""kati-build --port, kati-port --values, and what keeps the values of kati-values.mk true."""
import json
import os
import shutil
import tempfile
from pathlib import Path

from support import TOOLS, TOP, Tree, kati, needs

from kati_tools.port import watched

MAKEFILE = "include conf/a.mk\nS := $(wildcard *.c)\nout: $(S:.c=.x)\n\tcat $^ > out; echo $(N) $(U) >> out\n" \
    "%.x: %.c ; cat $< > $@\n"
VALUES = "build.kati/ported/tree/kati-values.mk"


@needs("kati", "kati-asked", "make", "ninja")
class Building(Tree):
    """kati-build --port."""

    def setUp(self):
        super().setUp()
        self.put("Makefile", MAKEFILE)
        self.put("conf/a.mk", "N := $(shell cat n.txt)\nU = $(shell uname)\n")
        for name in ("a.c", "b.c"):
            self.put(name, f"{name}\n")
        self.put("n.txt", "1\n")

    def build(self, *words, status=0):
        ran = self.tool("kati-build", "--port", *words)
        self.assertEqual(ran.status, status, ran.all)
        return ran.all

    def test_the_makefiles_stay_and_ninja_is_enough(self):
        before = {name: self.read(name) for name in ("Makefile", "conf/a.mk")}
        self.build()
        self.assertEqual(self.read("out"), "a.c\nb.c\n1 Linux\n")
        self.assertEqual({name: self.read(name) for name in before}, before)
        self.assertFalse((self.top / "kati-values.mk").exists())
        self.ninja()
        self.assertIn("no work to do", self.ninja())

    def test_a_new_source_is_asked_for(self):
        self.build()
        self.ninja()
        self.put("c.c", "c.c\n")
        self.assertIn("kati-build: *.c fits other files: make is asked again\n", self.ninja())
        self.assertEqual(self.read("out"), "a.c\nb.c\nc.c\n1 Linux\n")
        self.assertIn("V_S := a.c b.c c.c\n", self.read(VALUES))
        (self.top / "a.c").unlink()
        self.ninja()
        self.assertEqual(self.read("out"), "b.c\nc.c\n1 Linux\n")

    def test_a_file_that_a_command_names_is_asked_for_again(self):
        self.build()
        self.ninja()
        self.put("n.txt", "2\n")
        self.ninja()
        self.assertEqual(self.read("out"), "a.c\nb.c\n2 Linux\n")
        self.assertIn("no work to do", self.ninja())

    def test_a_file_that_a_command_names_by_its_whole_path(self):
        self.put("Makefile", "N := $(shell cat $(CURDIR)/n.txt $(abspath ..)/above.txt)\nall: ; echo $(N) > out\n")
        self.put("../above.txt", "a\n")
        self.build()
        for name, text in (("n.txt", "2 a\n"), ("../above.txt", "2 2\n")):
            self.put(name, "2\n")
            self.ninja()
            self.assertEqual(self.read("out"), text)

    def test_a_file_that_commands_in_loops_and_macros_name(self):
        self.put("Makefile", "get = $(shell cat $(1).txt)\nX := $(foreach f,a b,$(shell cat $f.txt))\n"
                             "all: out\nout: Makefile ; echo $X $(call get,c) $(firstword $(shell cat $@.txt)) > $@\n")
        for name in ("a", "b", "c", "out"):
            self.put(f"{name}.txt", f"{name}\n")
        self.build()
        for name, text in (("a", "1 b c out\n"), ("c", "1 b 1 out\n"), ("out", "1 b 1 1\n")):
            self.put(f"{name}.txt", "1\n")
            self.ninja()
            self.assertEqual(self.read("out"), text)
        self.assertIn("no work to do", self.ninja())

    def test_a_file_that_a_command_names_and_the_build_makes(self):
        self.put("Makefile", "all: v.h\nv.h: $(if $(wildcard v.h),$(if $(findstring 1,$(shell cat v.h)),,force))\n"
                             "v.h: ; echo 1 > $@\n.PHONY: force\nforce:\n")
        self.build()
        self.ninja()
        self.assertIn("no work to do", self.ninja())
        self.put("v.h", "2\n")
        self.ninja()
        self.assertEqual(self.read("v.h"), "1\n")

    def test_the_file_that_a_command_names_where_it_stands(self):
        self.put("Makefile", "F := a.txt\nN := $(shell cat $(F))\nF := b.txt\nall: ; echo $(N) > out\n")
        self.put("a.txt", "1\n")
        self.put("b.txt", "b\n")
        self.build()
        self.put("a.txt", "2\n")
        self.ninja()
        self.assertEqual(self.read("out"), "2\n")

    def test_a_changed_include_is_ported_again(self):
        self.build()
        self.ninja()
        self.put("conf/a.mk", "N := $(shell echo changed)\nexport U = x\n")
        self.ninja()
        self.assertEqual(self.read("out"), "a.c\nb.c\nchanged x\n")

    def test_an_include_that_comes_into_being(self):
        self.put("Makefile", MAKEFILE + "M := local\n-include $(M).mk\n")
        self.build()
        self.ninja()
        self.put("local.mk", "U := $(shell echo local)\n")
        self.ninja()
        self.assertEqual(self.read("out"), "a.c\nb.c\n1 local\n")

    def test_what_the_makefiles_do_not_read_changes_no_port(self):
        self.put("Makefile", MAKEFILE + "-include $(X)\n")
        self.build()
        words = json.loads(self.read("build.kati/ported.json"))["watched"]
        self.assertEqual(sorted(word for word in words if not word.startswith(watched.ENVIRONMENT)),
                         ["*.c", "Makefile", "conf/a.mk", "n.txt"])

    def test_where_the_port_is_stuck_the_build_stays(self):
        self.build()
        before = self.read("build.ninja"), self.read("build.kati/translated.ninja")
        self.put("Makefile", MAKEFILE + ".ONESHELL:\n")
        said = self.build(status=2)
        self.assertIn("Makefile:6: *** refused target .ONESHELL [E22]\n", said)
        self.assertIn("kati-build: kati ended with status 2; build.ninja stays as it is\n", said)
        self.assertEqual((self.read("build.ninja"), self.read("build.kati/translated.ninja")), before)
        self.put("Makefile", MAKEFILE)
        self.build()

    def test_where_make_fails_it_is_not_kati_that_ended(self):
        self.put("Makefile", "include config.mk\nall: ; echo $(shell echo)\n")
        said = self.build(status=2)
        self.assertIn("make itself ends with status 2: ", said)
        self.assertIn("\nkati-build: make ended with status 2\n", said)
        self.assertNotIn("configure", said)
        self.put("configure", "")
        self.assertIn("\nconfigure is here: run ./configure first, if that isn't done\n", self.build(status=2))

    def test_a_fault_by_what_make_takes_tells_of_the_port(self):
        ran = self.tool("kati-build")
        self.assertEqual(ran.status, 2, ran.all)
        self.assertIn("kati-build: kati ended with status 2\nkati-build: is it a makefile for GNU make? ", ran.said)
        self.assertNotIn("--port", self.tool("kati-build", "--no-ninja").said)
        self.put("Makefile", "$(error no)\n")
        self.assertNotIn("--port", self.tool("kati-build").said)

    def test_a_stuck_port_leaves_nothing(self):
        self.put("Makefile", MAKEFILE + ".ONESHELL:\n")
        self.build(status=2)
        self.assertEqual(sorted(path.name for path in self.top.iterdir()), ["Makefile", "a.c", "b.c", "conf", "n.txt"])

    def test_what_make_makes_first_is_made(self):
        self.put("Makefile", MAKEFILE + "include made.mk\nmade.mk: made.in ; cp $< $@\n")
        self.put("made.in", "U = made\n")
        self.build()
        self.assertEqual(self.read("out"), "a.c\nb.c\n1 made\n")
        self.put("made.in", "U = again\n")
        self.ninja()
        self.assertEqual(self.read("out"), "a.c\nb.c\n1 again\n")

    def test_includes_above_and_by_their_whole_path(self):
        self.put("mk/one.mk", "A := $(shell echo one)\n")
        self.put("mk/two.mk", "B := $(shell echo two)\n")
        self.put("prog/Makefile", "TOP := $(shell cd .. && pwd)\ninclude ../mk/one.mk\ninclude $(TOP)/mk/two.mk\n"
                                  "all: ; echo $(A) $(B) > out\n")
        prog = self.top / "prog"
        ran = self.run_in("sh", "-c", f"cd {prog} && {self.tool_path('kati-build')} --port")
        self.assertEqual(ran.status, 0, ran.all)
        self.assertEqual(self.read("prog/out"), "one two\n")
        self.assertEqual(self.read("mk/one.mk"), "A := $(shell echo one)\n")

    def test_a_rule_that_needs_a_file_outside_by_a_value(self):
        self.put("Makefile", "T := $(shell pwd)/..\nall: a.o\n%.o: %.c $(T)/inc/a.h\n\tcat $^ > $@\n")
        self.put("../inc/a.h", "h\n")
        self.assertNotIn("differ", self.build())
        self.assertEqual(self.read("a.o"), "a.c\nh\n")
        self.put("../inc/a.h", "i\n")
        self.ninja()
        self.assertEqual(self.read("a.o"), "a.c\ni\n")

    def test_header_dependencies_that_a_compiler_writes(self):
        self.put("Makefile", "S := $(shell echo main)\nCFLAGS += -MMD\nprog: $(S).o\n\tcc -o $@ $^\n"
                             "-include $(S).d\n")
        self.put("main.c", '#include "sub/../main.h"\nint main(void) { return 0; }\n')
        self.put("main.h", "")
        self.put("sub/x", "")
        self.build()
        self.ninja()
        self.assertIn("no work to do", self.ninja())
        self.touch("main.h")
        self.assertIn("-o main.o main.c", self.ninja())

    def test_dependencies_that_kati_refuses(self):
        self.put("Makefile", "S := $(shell echo main)\nprog: $(S).o\n\tcat $^ > $@\nmain.o: ; echo > $@\n"
                             "-include $(S).d\n")
        self.put("main.d", "main.o: a//b.h a/b.h\na//b.h:\na/b.h:\n")
        self.put("a/b.h", "")
        self.build()
        self.ninja()

    def test_words_and_goals(self):
        self.put("Makefile", MAKEFILE + "F = 1\ndebug: F = $(N)\ndebug: ; echo $(F) > debug\n")
        self.build("-o", "debug.ninja", "debug", "N=given")
        self.assertEqual(self.read("debug"), "given\n")
        self.put("conf/a.mk", "U = x\n")
        self.assertEqual(self.run_in("ninja", "-f", "debug.ninja").status, 0)

    def test_the_makefile_is_the_one_that_make_reads(self):
        self.put("GNUmakefile", "N := $(shell echo gnu)\nout: ; echo $(N) > out\n")
        self.build()
        self.assertEqual(self.read("out"), "gnu\n")
        for name in ("GNUmakefile", "Makefile"):
            (self.top / name).unlink()
        self.assertIn("kati-build: no makefile\n", self.build(status=2))

    def test_commands_that_differ_are_told_once(self):
        self.put("Makefile", "N := $(shell echo 1)\nall: ; echo $(N) 'a\\\n\t'\n")
        self.assertIn("kati-build: make has ", self.build())
        self.assertNotIn("kati-build: make has ", self.build())


@needs("kati", "kati-asked", "make", "ninja")
class Again(Tree):
    """When kati-build --port ports again, which is when it asks make."""

    LOOP = "S := $(foreach d,src lib,$(wildcard $(d)/*.c))\nout: $(S) ; echo $^ > out\n"
    CALLED = "in = $(wildcard $(1)/*.c)\nS := $(call in,src) $(call in,lib)\nout: $(S) ; echo $^ > out\n"

    def setUp(self):
        super().setUp()
        # Where no name of the tree leads, so that what make writes there while it is asked stays.
        counts = tempfile.TemporaryDirectory()
        self.addCleanup(counts.cleanup)
        self.count = Path(counts.name) / "count"
        for name, text in {"make": f"echo >> {self.count}\nexec {shutil.which('make')}", "version": "echo 1;"}.items():
            path = self.top.parent / "bin" / name
            path.parent.mkdir(exist_ok=True)
            path.write_text(f"#!/bin/sh\n{text} \"$@\"\n")
            path.chmod(0o755)
        self.environment = {"MAKE": str(self.top.parent / "bin/make"),
                            "PATH": f"{self.top.parent / 'bin'}:{os.environ['PATH']}"}
        for name in ("src/a.c", "lib/b.c"):
            self.put(name, "")

    def asks(self, *words, tool=None):
        """Whether make is asked in a run, which must end well."""
        self.count.write_text("")
        build = [] if words[:1] == ("ninja",) else [tool or self.tool_path("kati-build"), "--port"]
        ran = self.run_in(*build, *words, **self.environment)
        self.assertEqual(ran.status, 0, ran.all)
        return self.count.read_text() != ""

    def test_values_that_hang_on_the_list_of_files(self):
        for makefile in (self.LOOP, self.CALLED):
            with self.subTest(makefile):
                self.put("Makefile", makefile)
                self.assertTrue(self.asks())
                self.assertFalse(self.asks("ninja"))
                self.assertEqual(self.read("out"), "src/a.c lib/b.c\n")
                self.put("doc/new.c", "")
                self.assertFalse(self.asks("ninja"))
                self.put("src/c.c", "")
                self.assertTrue(self.asks("ninja"))
                self.assertFalse(self.asks("ninja"))
                self.assertEqual(self.read("out"), "src/a.c src/c.c lib/b.c\n")
                for name in ("src/c.c", "out", "doc/new.c", "build.ninja"):
                    (self.top / name).unlink()

    def test_a_wildcard_by_arguments_is_asked_for(self):
        self.put("Makefile", "define R\n$(1).out: Makefile ; echo $(if $(wildcard $(1).x),with,without) > $$@\nendef\n"
                             "all: a.out b.out\n$(foreach n,a b,$(eval $(call R,$(n))))\n")
        self.assertTrue(self.asks())
        self.assertFalse(self.asks("ninja"))
        self.put("b.x", "")
        self.assertTrue(self.asks("ninja"))
        self.assertEqual((self.read("a.out"), self.read("b.out")), ("without\n", "with\n"))

    def test_patterns_among_the_names_of_rules_are_asked_for(self):
        self.put("Makefile", "D = .\nX = src/*.c made lib/*.c\nout: $(X) $(D)/src/* $(D)/lib/*.c ; echo $^ > out\n"
                             "made: ; echo > made\n")
        wanted = self.run_in("make", "-n").out
        self.assertTrue(self.asks())
        self.assertEqual(wanted, f"echo > made\necho {self.read('out').strip()} > out\n")
        self.assertFalse(self.asks("ninja"))
        self.put("src/c.c", "")
        wanted = self.run_in("make", "-n", "-B").out
        self.assertTrue(self.asks("ninja"))
        self.assertEqual(wanted, f"echo > made\necho {self.read('out').strip()} > out\n")

    def test_a_pattern_that_all_names_fit(self):
        self.put("Makefile", "D = .\nS := $(wildcard $(D)/*)\nall: src/a.c ; echo $(S) > ../out\n")
        self.assertTrue(self.asks())
        self.put("new", "")
        wanted = "./Makefile ./lib ./new ./src\n"
        self.assertTrue(self.asks("ninja"))
        self.assertEqual(self.read("../out"), wanted)

    def test_a_pattern_that_leaves_letters_out(self):
        self.put("Makefile", "S := $(wildcard src/[^a]*.c)\nout: src/a.c ; echo $(S) > out\n")
        self.assertTrue(self.asks())
        self.put("src/b.c", "")
        self.assertTrue(self.asks("ninja"))
        self.assertEqual(self.run_in("make", "-n", "-B").out, f"echo {self.read('out').strip()} > out\n")

    def test_the_folders_of_patterns_are_watched_by_any_list(self):
        self.put("list.txt", "")
        for makefile in (self.LOOP, "S := $(wildcard src/*.c)\nout: $(S) lib/b.c ; echo $^ > out\n"):
            with self.subTest(makefile):
                self.put("Makefile", makefile)
                self.asks("--files-from", "list.txt")
                self.put("src/c.c", "")
                self.asks("ninja")
                self.assertEqual(self.read("out"), "src/a.c src/c.c lib/b.c\n")
                for name in ("src/c.c", "out", "build.ninja"):
                    (self.top / name).unlink()

    def test_a_wildcard_that_stands_alone_and_in_a_loop(self):
        self.put("Makefile", "A := $(wildcard src/*.c)\nB := $(foreach p,src/*.c lib/*.c,$(wildcard $(p)))\n"
                             "out: $(B) ; echo $(A) $(B) > out\n")
        self.asks()
        self.put("src/c.c", "")
        self.asks("ninja")
        self.assertEqual(self.read("out"), "src/a.c src/c.c src/a.c src/c.c lib/b.c\n")

    def test_a_branch_that_a_wildcard_opens_is_ported_too(self):
        self.put("Makefile", "V := $(shell version)\nifneq ($(wildcard local.txt),)\nN := $(shell cat local.txt)\n"
                             "endif\nout: src/a.c ; echo $(V) $(N) > out\n")
        self.assertTrue(self.asks())
        self.put("local.txt", "new\n")
        self.assertTrue(self.asks("ninja"))
        self.assertEqual(self.read("out"), "1 new\n")
        self.assertFalse(self.asks("ninja"))

    def test_all_is_asked_for_again_by_values(self):
        self.put("Makefile", "V := $(shell version)\nout: src/a.c ; echo $(V) > out\n")
        self.asks()
        version = self.top.parent / "bin/version"
        version.write_text(version.read_text().replace("1", "2"))
        self.assertFalse(self.asks())
        self.assertEqual(self.read("out"), "1\n")
        self.assertTrue(self.asks("--values"))
        self.assertEqual(self.read("out"), "2\n")
        self.assertNotIn("--values", self.read("build.ninja"))
        self.assertFalse(self.asks())

    def test_all_of_a_written_makefile_is_asked_for_again_by_values(self):
        self.put("Makefile", "V := $(shell version)\nout: src/a.c ; echo $(V) > out\n")
        self.assertEqual(self.tool("kati-build", "--values").status, 64)
        for words, value in ((["kati-port", "--write", "Makefile"], None), (["kati-build"], "1\n"),
                             (["kati-build"], "1\n"), (["kati-build", "--values"], "2\n")):
            ran = self.tool(*words, **self.environment)
            self.assertEqual(ran.status, 0, ran.all)
            self.assertTrue(value is None or self.read("out") == value)
            version = self.top.parent / "bin/version"
            version.write_text(version.read_text().replace("1", "2") if value else version.read_text())
        self.assertIn("kati-build: kati-values.mk: 1 value is another\n", ran.said)

    def test_other_tools_port_anew(self):
        self.put("Makefile", "V := $(shell version)\nout: src/a.c ; echo $(V) > out\n")
        room = self.top.parent / "installed"
        self.environment["KATI"] = str(kati())
        shutil.copytree(TOP / "share/kati", room / "share/kati")
        shutil.copytree(TOOLS, room / "tools", ignore=shutil.ignore_patterns("tests"))
        tool = room / "tools/kati-build"
        self.assertTrue(self.asks(tool=tool))
        self.assertFalse(self.asks(tool=tool))
        path = room / "share/kati/kati_tools/port/mending.py"
        path.write_text(path.read_text() + "# Another version.\n")
        self.assertTrue(self.asks(tool=tool))
        self.assertFalse(self.asks(tool=tool))

    def test_another_kati_ports_anew(self):
        self.put("Makefile", "V := $(shell version)\nout: src/a.c ; echo $(V) > out\n")
        program = self.top.parent / "kati"
        self.environment["KATI"] = str(program)
        for text in ("#!/bin/sh\n", "#!/bin/sh\n# Another one.\n"):
            program.write_text(f"{text}exec {kati()} \"$@\"\n")
            program.chmod(0o755)
            self.assertTrue(self.asks())
            self.assertFalse(self.asks())


@needs("kati", "kati-asked", "make", "ninja")
class Values(Tree):
    """kati-values.mk, once it is written."""

    def setUp(self):
        super().setUp()
        self.put("Makefile", "N := $(shell cat n.txt)\nU := $(shell cat ../outside)\nS := $(wildcard *.c)\n"
                             "out: $(S) n.txt\n"
                             "\techo $(N) $(U) $(S) $(if $(wildcard $@.c),with,without) $(CURDIR) > out\n")
        self.put("n.txt", "1\n")
        self.put("a.c", "")
        self.put("../outside", "u1\n")
        ran = self.tool("kati-port", "--write", "Makefile")
        self.assertEqual(ran.status, 0, ran.all)

    def out(self):
        """What the commands that ninja runs write."""
        return self.read("out").replace(f" {self.top}", "")

    def test_values_are_asked_for_again(self):
        ran = self.tool("kati-port", "--values")
        self.assertEqual((ran.status, ran.out), (0, "kati-values.mk: as before\n"), ran.all)
        self.put("n.txt", "2\n")
        self.put("out.c", "")
        self.put("../outside", "u2\n")
        ran = self.tool("kati-port", "--values")
        self.assertEqual((ran.status, ran.out), (0, "kati-values.mk: 4 values are others\n"), ran.all)
        self.assertEqual(self.tool("kati-build").status, 0)
        self.assertEqual(self.out(), "2 u2 a.c out.c with\n")

    def test_a_build_asks_make_where_a_pattern_fits_others(self):
        self.assertEqual(self.tool("kati-build").status, 0)
        self.put("b.c", "")
        self.assertIn("kati-build: *.c fits other files: make is asked again\n", self.ninja())
        self.assertEqual(self.out(), "1 u1 a.c b.c without\n")
        self.ninja()
        self.assertIn("no work to do", self.ninja())

    def test_a_build_asks_make_where_a_file_has_changed(self):
        self.assertEqual(self.tool("kati-build").status, 0)
        self.put("n.txt", "3\n")
        self.ninja()
        self.assertEqual(self.out(), "3 u1 a.c without\n")
        self.assertNotIn("as before", self.tool("kati-build", MAKE="no/such/make").all)
        self.put("n.txt", "4\n")
        ran = self.run_in("ninja", MAKE="no/such/make")
        self.assertEqual(ran.status, 0, ran.all)
        self.assertIn("kati-values.mk is as before: no program no/such/make", ran.all)

    def test_so_it_does_without_kati_asked(self):
        with self.without_asked():
            self.assertEqual(self.tool("kati-build").status, 0)
            self.ninja()
            self.put("n.txt", "3\n")
            self.ninja()
        self.assertEqual(self.out(), "3 u1 a.c without\n")

    def test_values_by_targets_are_asked_for_again(self):
        self.put("Makefile", "all: a b\na b: ; echo $(if $(wildcard $@.x),with,without) > $@\n")
        self.put("a.x", "")
        self.assertEqual(self.tool("kati-port", "--write", "Makefile").status, 0)
        (self.top / "a.x").unlink()
        self.put("b.x", "")
        self.assertEqual(self.tool("kati-port", "--values").status, 0)
        self.assertEqual(self.tool("kati-build").status, 0)
        self.assertEqual((self.read("a"), self.read("b")), ("without\n", "with\n"))

    def test_values_by_arguments_are_asked_for_again_once(self):
        self.put("Makefile", "define prog\n$(1): Makefile ; echo $(shell cat $(1).txt) > $$@\nendef\nall: a b\n"
                             "$(foreach p,a b,$(eval $(call prog,$(p))))\n")
        for name in ("a", "b"):
            self.put(f"{name}.txt", f"{name}\n")
        self.assertEqual(self.tool("kati-port", "--write", "Makefile").status, 0)
        self.assertEqual(self.tool("kati-build").status, 0)
        self.put("a.txt", "1\n")
        self.assertIn("kati-build: kati-values.mk: 1 value is another\n", self.tool("kati-build").all)
        self.assertEqual((self.read("a"), self.read("b")), ("1\n", "b\n"))
        self.assertNotIn("kati-values.mk", self.tool("kati-build").all)

    def test_a_second_port_keeps_the_values(self):
        text = self.read("Makefile")
        self.put("Makefile", text + "\techo $(shell echo more) >> out\n")
        ran = self.tool("kati-port", "--write", "Makefile")
        self.assertEqual(ran.status, 0, ran.all)
        self.assertIn("kati's commands are make's", ran.out)
        self.assertEqual(self.read("Makefile"), text + "\techo $(V_shell) >> out\n")
        self.assertIn("V_N := 1\n", self.read("kati-values.mk"))
        self.assertIn("V_shell := more\n", self.read("kati-values.mk"))

    def test_goals_are_those_of_the_run(self):
        self.put("Makefile", "ifeq ($(MAKECMDGOALS),debug)\nF = -g\nendif\nN := $(shell echo 1)\n"
                             "all: ; echo $(F) $(N) '$(MAKECMDGOALS)' > out\ndebug: all\n")
        wanted = {}
        for goals in ([], ["debug"], ["all"]):
            self.assertEqual(self.run_in("make", *goals).status, 0)
            wanted[" ".join(goals)] = self.read("out")
        self.assertEqual(len(set(wanted.values())), 3)
        for ported in ([], ["debug"]):
            self.assertEqual(self.tool("kati-port", "--write", "Makefile", *ported).status, 0)
            for goal, text in wanted.items():
                self.assertEqual(self.tool("kati-build", *goal.split()).status, 0)
                self.assertEqual(self.read("out"), text)

    def test_without_such_a_file(self):
        shutil.rmtree(self.top)
        self.top.mkdir()
        self.assertEqual(self.tool("kati-port", "--values").status, 3)
        self.put("Makefile", "all:\n")
        self.put("kati-values.mk", "X = 1\n")
        ran = self.tool("kati-port", "--values")
        self.assertEqual(ran.status, 3)
        self.assertIn("isn't as kati-port wrote it", ran.said)
