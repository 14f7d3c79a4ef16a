"""kati-build: building, translating again, what is kept and what is replaced."""
import contextlib
import os

from support import TOOLS, Tree, kati, needs

# A shell's program stands for kati-asked: kati's text, a NUL, and the names that a translation asked for.
ASKED = f"""{kati()} "$@"; printf '\\000files.txt\\nmakefile\\nMakefile\\nconf/x86.mk\\n'"""
OWN = ["build.ninja", "build.kati/files.txt", "build.kati/translated.ninja"]


@needs("kati", "ninja", "cc")
class Building(Tree):
    """One run of kati-build."""

    def build(self, *words, **environment):
        ran = self.tool("kati-build", *words, **environment)
        self.assertEqual(ran.status, 0, ran.all)
        return ran.all

    def test_the_example_is_built_once(self):
        self.copy_example()
        self.assertNotIn("translating", self.build())
        self.assertEqual(self.run_in("./prog").status, 0)
        self.assertEqual(self.made_anew(self.build), [])
        self.assertEqual(self.made_anew(self.ninja), [])
        self.assertIn("no work to do", self.ninja())

    def test_files_are_replaced_only_where_their_bytes_differ(self):
        self.copy_example()
        self.build("--no-ninja")
        self.assertEqual(self.made_anew(lambda: self.build("--no-ninja")), [])
        self.put("config.mk", "CC = cc\nCFLAGS = -O2\n")
        self.assertEqual(self.made_anew(lambda: self.build("--no-ninja")),
                         ["build.ninja", "translated.ninja"])

    def test_a_fault_keeps_the_build_of_before_and_has_katis_status(self):
        self.copy_example()
        self.build()
        before = [self.read(name) for name in OWN]
        self.put("config.mk", "X := $(shell ls)\n")
        ran = self.tool("kati-build")
        self.assertEqual(ran.status, 2)
        self.assertIn("config.mk:1: *** refused function shell [E16]\n", ran.said)
        self.assertIn("build.ninja stays as it is", ran.said)
        self.assertEqual([self.read(name) for name in OWN], before)
        self.assertEqual(sorted(path.name for path in self.top.glob("build.kati/*.new")), [])

    def test_a_fault_without_a_build_leaves_none(self):
        self.write(Makefile="all: ; echo $(shell ls)\n")
        for words in ([], ["--builtin"], ["-f", "absent"], ["--builtin", "-f", "absent"]):
            with self.subTest(words):
                self.assertEqual(self.tool("kati-build", *words).status, 2)
                self.assertEqual([path.name for path in self.top.iterdir()], ["Makefile"])

    def test_words_go_to_kati_and_to_ninja(self):
        self.write(other_mk="one: ; echo $(A) > one\ntwo: ; echo two > two\n")
        said = self.build("-f", "other.mk", "--depth", "5", "two", "one", "A=given", "--", "-v", "one")
        self.assertIn("echo given > one", said)
        self.assertEqual(self.read("one"), "given\n")
        self.assertFalse((self.top / "two").exists())
        self.ninja()
        self.assertEqual(self.read("two"), "two\n")

    def test_another_file_for_another_goal(self):
        self.copy_example()
        self.build()
        before = self.read("build.ninja")
        self.build("-o", "clean.ninja", "clean")
        self.assertFalse((self.top / "prog").exists())
        self.assertEqual(self.read("build.ninja"), before)
        self.assertTrue((self.top / "clean.kati/translated.ninja").exists())

    def test_wrong_usage_and_absent_programs(self):
        self.write(Makefile="all: ; true\n")
        self.assertEqual(self.tool("kati-build", "--no-such-option").status, 64)
        ran = self.tool("kati-build", "-k4")
        self.assertEqual(ran.status, 64)
        self.assertTrue(ran.said.endswith("unrecognized arguments: -k4; ninja's own stand after --\n"), ran.said)
        for words in (["-jx"], ["-j"], ["-j", "-1"]):
            self.assertEqual(self.tool("kati-build", *words).status, 64, words)
        self.assertEqual(self.tool("kati-build", "--depth", "0").status, 64)
        self.assertEqual(self.tool("kati-build", "--kati", "no/such/program").status, 3)
        self.assertEqual(self.tool("kati-build", "--files-from", "no/such/list").status, 3)
        self.assertEqual(self.tool("kati-build", NINJA="no/such/ninja").status, 3)

    def test_a_number_of_jobs_is_ninjas(self):
        self.write(Makefile="all: ; true\n", shown='#!/bin/sh\necho "$*"\n')
        (self.top / "shown").chmod(0o755)
        for words, wanted in (["-j4"], "-j4"), (["-j", "2", "all", "--", "-v"], "-j2 -v"), (["--", "-j3"], "-j3"):
            with self.subTest(words):
                said = self.build(*words, NINJA=str(self.top / "shown"))
                self.assertTrue(said.rstrip().endswith(f" {wanted}"), said)

    def test_a_file_of_another_program_stays(self):
        self.write(Makefile="all: ; echo all\n", build_ninja="rule r\n command = echo\nbuild all: r\n")
        ran = self.tool("kati-build")
        self.assertEqual(ran.status, 64)
        self.assertIn("build.ninja isn't kati-build's", ran.said)
        self.assertEqual(self.read("build.ninja"), "rule r\n command = echo\nbuild all: r\n")
        self.put("build.ninja", self.run_in(kati()).out)
        self.build()
        self.build("-o", "sub/folder/x.ninja")

    @needs("make")
    def test_a_makefile_that_make_alone_reads_is_told_of(self):
        self.write(GNUmakefile="all: ; echo gnu\n", Makefile="all: ; echo plain\n")
        for name in ("kati-build", "kati-compare"):
            with self.subTest(name):
                self.assertEqual(self.tool(name).said, f"{name}: make reads GNUmakefile here, and kati doesn't: name "
                                                       "it by -f GNUmakefile\n")
                self.assertEqual(self.tool(name, "-f", "GNUmakefile").said, "")

    def test_a_folder_without_a_makefile_in_which_another_tool_makes_one(self):
        for name, hint in (("configure.ac", "run autoreconf -i and ./configure first"),
                           ("configure", "run ./configure first")):
            self.put(name, "")
            for words in (["kati-build"], ["kati-build", "--port"], ["kati-build", "--builtin"], ["kati-compare"]):
                with self.subTest(words):
                    ran = self.tool(*words)
                    self.assertEqual((ran.status, ran.said), (2, f"{words[0]}: no makefile, but {name}: {hint}\n"))
        self.put("Makefile", "all: ; true\n")
        self.assertNotIn("no makefile", self.tool("kati-build").said)

    def test_lines_behind_a_tab_that_kati_ignores(self):
        told = ("stands behind a tab: make takes it, as no rule is open there, and kati ignores it; indent it by "
                "spaces\n")
        self.put_all({"Makefile": "$(info x)\n\tA = 1\nall: ; @echo $(A) > out\ninclude a.mk\n",
                      "a.mk": "ifdef NONE\n\tifdef A\nX = 1\nendif\nendif\n"})
        self.assertEqual(self.run_in("make", "-s").status, 0)
        self.assertEqual(self.read("out"), "1\n")
        ran = self.tool("kati-build")
        self.assertEqual((ran.status, "a.mk:5: " in ran.said), (2, True), ran.said)
        self.assertIn(f"kati-build: Makefile:2: A = 1 {told}kati-build: a.mk:2: ifdef A {told}", ran.said)
        self.put("a.mk", "")
        self.assertIn(f"x\nkati-build: Makefile:2: A = 1 {told}", self.tool("kati-build").said)
        self.assertEqual(self.read("out"), "\n")
        self.put("Makefile", "all: ; @echo\n\tA = 1\n$(info x)\n        A = 1\n")
        self.assertEqual(self.tool("kati-build", "--no-ninja").said, "x\n")

    def test_a_makefile_that_can_be_read_but_once(self):
        self.write(Makefile="all: ; echo all\n")
        for command in ("kati-build -f /dev/stdin", "kati-compare -f /dev/stdin", "kati-port /dev/stdin"):
            for line in (f"{TOOLS}/{command} < Makefile", f"cat Makefile | {TOOLS}/{command}"):
                with self.subTest(line):
                    ran = self.run_in("sh", "-c", line)
                    self.assertEqual(ran.status, 64, ran.all)
                    self.assertIn("/dev/stdin is no file that can be read again", ran.said)
        self.assertEqual(sorted(path.name for path in self.top.iterdir()), ["Makefile"])

    def test_ninjas_status_is_its_own(self):
        self.write(Makefile="all: ; exit 3\n")
        self.assertEqual(self.tool("kati-build").status, 1)

    def test_names_with_blanks_and_dollars(self):
        self.write(Makefile="all: a\\ b ; echo $(A)\na\\ b: ; touch '$@'\n")
        self.put("new folder/of $x.c", "")
        self.build("-o", "a $x.ninja", "A='one  $$HOME'")
        self.assertIn("new folder/of $x.c\n", self.read("a $x.kati/files.txt"))
        self.put("new folder/other.c", "")
        self.ninja("-f", "a $x.ninja")
        self.assertIn("new folder/other.c\n", self.read("a $x.kati/files.txt"))

    def test_compile_commands(self):
        self.write(Makefile="a.o: a.c ; cc -c -DX='\"y z\"' $< -o $@\n", a_c="")
        self.build("--compile-commands")
        self.assertIn('"cc",\n   "-c",\n   "-DX=\\"y z\\"",\n   "a.c"', self.read("compile_commands.json"))

    def test_built_in_rules(self):
        self.write(Makefile="CFLAGS = -O1\nprog: prog.o part.o\nprog.o: part.h\n", part_h="", part_c="int part = 0;\n",
                   prog_c='#include "part.h"\nextern int part;\nint main(void) { return part; }\n')
        said = self.build("--builtin", "--", "-v")
        self.assertIn("cc -O1   -c -o prog.o prog.c", said)
        self.assertEqual(self.run_in("./prog").status, 0)
        self.assertEqual(self.made_anew(self.ninja), [])


@needs("kati", "ninja", "cc")
class Regenerating(Tree):
    """What plain ninja does after kati-build."""

    def start(self, *words, **environment):
        """Builds, until not even the folders are newer than the translation: what comes then comes of an edit alone."""
        ran = self.tool("kati-build", *words, **environment)
        self.assertEqual(ran.status, 0, ran.all)
        self.ninja()
        self.assertEqual(self.run_in("ninja").out, "ninja: no work to do.\n")

    def test_an_edit_in_an_include(self):
        self.copy_example()
        self.start()
        self.put("config.mk", "CC = cc\nCFLAGS = -O2 -DEDITED\n")
        self.assertIn("-O2 -DEDITED -c main.c", self.ninja("-v"))
        self.assertEqual(self.made_anew(self.ninja), [])

    @needs("make")
    def test_a_new_source(self):
        self.write(Makefile="all: x.o\n%.o: %.s\n\tas $< -o $@\n%.o: %.c\n\tcc -c $< -o $@\n", x_c="")
        self.start()
        self.put("x.s", "")
        wanted = self.run_in("make", "-n", "-r", "-R", "-B").out.strip()
        self.assertEqual(wanted, "as x.s -o x.o")
        self.assertIn(wanted, self.ninja("-v"))
        self.assertEqual(self.made_anew(self.ninja), [])

    def test_a_new_source_in_a_folder(self):
        self.write(Makefile="all: sub/x.o\n%.o: %.s\n\tas $< -o $@\n%.o: %.c\n\tcc -c $< -o $@\n", sub__x_c="")
        self.start("-f", "Makefile")
        self.ninja()
        self.put("sub/x.s", "")
        self.assertIn("as sub/x.s -o sub/x.o", self.ninja("-v"))

    def test_a_new_source_in_a_new_folder(self):
        self.write(Makefile="all: sub/x.o\n%.o: new/%.c\n\tcc -c $< -o $@\n%.o: %.c\n\tcc -c $< -o $@\n")
        self.put("sub/x.c", "")
        self.start()
        self.put("new/sub/x.c", "")
        self.put("sub/new/x.c", "")
        self.assertIn("cc -c sub/new/x.c -o sub/x.o", self.ninja("-v"))

    def test_an_absent_include_comes_into_being(self):
        for name in ("local.mk", "conf/deep/local.mk"):
            with self.subTest(name):
                self.write(Makefile=f"-include {name}\nout: Makefile ; echo '$(A)' > out\n")
                self.start()
                self.assertEqual(self.read("out"), "\n")
                self.assertIn("no work to do", self.ninja())
                self.put(name, "A = there\n")
                self.ninja()
                self.assertEqual(self.read("out"), "there\n")
                (self.top / name).unlink()
                self.ninja()
                self.assertEqual(self.read("out"), "\n")

    def test_an_absent_include_of_a_list_in_a_file(self):
        self.write(Makefile="-include conf/local.mk\nout: Makefile ; echo '$(A)' > out\n", list_txt="x.c\n")
        self.start("--files-from", "list.txt")
        self.put("conf/local.mk", "A = there\n")
        self.ninja()
        self.assertEqual(self.read("out"), "there\n")

    def test_a_list_in_a_file_is_what_its_lines_name(self):
        self.write(Makefile="all: a.o b.o\n%.o: %.c ; cp $< $@\n", a_c="", b_c="")
        for text in ("a.c\nb.c\n", "b.c\na.c", "b.c\r\n\r\na.c\r\n", "\na.c\n\n\nb.c\na.c\n\n"):
            with self.subTest(text):
                (self.top / "list.txt").write_bytes(text.encode())
                self.start("--files-from", "list.txt")
                self.assertTrue((self.top / "a.o").exists() and (self.top / "b.o").exists())
                self.ninja("-t", "clean")

    def test_an_absent_include_among_many(self):
        names = [f"mk/m{number}.mk" for number in range(1200)]
        self.write(Makefile=f"A = absent\n-include {' '.join(names)}\nout: Makefile ; echo '$(A)' > out\n")
        for name in names[:7] + names[8:]:
            self.put(name, "")
        self.start()
        self.assertEqual(self.read("out"), "absent\n")
        self.assertIn("no work to do", self.ninja())
        self.put(names[7], "A = there\n")
        self.ninja()
        self.assertEqual(self.read("out"), "there\n")
        (self.top / names[8]).unlink()
        self.ninja()
        self.assertNotIn(f"    {names[8]} $\n", self.read("build.ninja"))

    def test_an_include_goes_with_its_line(self):
        self.copy_example()
        self.start()
        (self.top / "config.mk").unlink()
        self.put("Makefile", self.read("Makefile").replace("include config.mk", "CC = cc\nCFLAGS = -O1 -Wall"))
        found = self.made_anew(self.ninja)
        # kati-asked, where it is there, tells other names.
        self.assertEqual([name for name in found if name != "asked.txt"], ["build.ninja", "files.txt"])
        self.assertEqual(self.made_anew(self.ninja), [])

    def test_a_fault_stops_ninja_and_keeps_the_build(self):
        self.copy_example()
        self.start()
        before = self.read("build.ninja"), self.read("build.kati/translated.ninja")
        good = self.read("Makefile")
        self.put("Makefile", good + "endif\n")
        self.touch("main.c")
        ran = self.run_in("ninja")
        self.assertNotEqual(ran.status, 0)
        self.assertIn(f"Makefile:{len(good.splitlines()) + 1}: *** stray endif [E11]", ran.all)
        self.assertNotIn("main.c", ran.all)
        self.assertEqual((self.read("build.ninja"), self.read("build.kati/translated.ninja")), before)
        self.put("Makefile", good)
        self.assertIn("-c main.c -o main.o", self.ninja("-v"))

    def test_clean_keeps_both_files(self):
        self.copy_example()
        self.start()
        self.ninja("-t", "clean")
        self.assertFalse((self.top / "prog").exists())
        for name in ("build.ninja", "build.kati/translated.ninja"):
            self.assertTrue((self.top / name).exists())
        self.ninja()
        self.assertTrue((self.top / "prog").exists())

    def test_what_the_build_makes_is_no_source(self):
        self.copy_example()
        self.start()
        listed = self.read("build.kati/files.txt")
        self.ninja()
        self.put("new.h", "")
        self.ninja()
        self.assertEqual(sorted(self.read("build.kati/files.txt").splitlines(True)),
                         sorted([*listed.splitlines(True), "new.h\n"]))

    def lose_rule(self, goal):
        """A source that is made loses its rule."""
        rule, pattern = "gen.c: ; echo 'int x;' > gen.c\n", "all: gen.o\n%.o: %.c\n\tcc -c $< -o $@\n"
        self.write(Makefile=pattern + rule)
        self.start(goal)
        self.assertNotIn("gen.c\n", self.read("build.kati/files.txt"))
        self.put("Makefile", pattern)
        self.ninja()
        self.assertIn("gen.c\n", self.read("build.kati/files.txt"))
        self.touch("gen.c")
        self.assertEqual(self.made_anew(self.ninja), ["gen.o"])

    def test_a_made_source_whose_rule_is_gone_is_a_source(self):
        self.lose_rule("all")

    def test_so_it_is_where_kati_would_find_no_rule_without_it(self):
        self.lose_rule("gen.o")

    def test_an_include_that_the_build_makes(self):
        rule = "made.mk: from.txt ; sed s/^/A=/ from.txt > made.mk\n"
        self.write(Makefile="-include made.mk\nout: made.mk ; echo '$(A)' > out\n" + rule, from_txt="one\n")
        self.start()
        self.ninja()
        self.assertEqual(self.read("out"), "one\n")
        self.touch("from.txt")
        self.put("from.txt", "two\n")
        self.ninja()
        self.assertEqual(self.read("out"), "two\n")

    def test_a_run_that_ended_before_it_wrote_the_file_of_ninja(self):
        self.write(Makefile="include a.mk\nout: ; echo '$(A)' > out\n", a_mk="A = 1\n")
        self.start()
        before = self.read("build.ninja")
        self.assertIn("build a.mk: phony\n", before)
        self.put("Makefile", self.read("Makefile") + "out: a.mk\na.mk: from ; cp from a.mk\n")
        self.put("from", "A = 2\n")
        self.ninja()
        self.assertNotIn("build a.mk: phony\n", self.read("build.ninja"))
        self.put("build.ninja", before)
        os.utime(self.top / "build.ninja", (1, 1))
        self.start()
        self.assertNotIn("build a.mk: phony\n", self.read("build.ninja"))
        self.ninja()
        self.assertEqual(self.read("out"), "2\n")

    def watched(self):
        """What the translation depends on, as build.ninja says it."""
        statement = self.read("build.ninja").split("\nbuild build.ninja: kati_build")[1].split("\nbuild")[0]
        return statement.split(" $\n    ")[1:]

    def test_an_include_with_a_computed_name(self):
        # With kati-asked, where it is there, and without it.
        for context in (contextlib.nullcontext(), self.without_asked()):
            with self.subTest(context), context:
                self.write(Makefile="ARCH = x86\ninclude conf/$(ARCH).mk\nout: Makefile ; echo $(A) > out\n",
                           conf__x86_mk="A = one\n")
                self.start()
                self.put("conf/x86.mk", "A = two\n")
                self.ninja()
                self.assertEqual(self.read("out"), "two\n")

    @needs("kati-asked")
    def test_what_kati_asks_for_is_watched_and_nothing_else(self):
        makefile = "ARCH = x86\ndefine read\n-include $(1)/$(ARCH).mk\nendef\n" \
            "$(foreach one,conf more,$(eval $(call read,$(one))))\nifdef NO\ninclude no.mk\nendif\n" \
            "out: Makefile ; echo '$(A) $(B)' > out\n"
        self.write(Makefile=makefile, conf__x86_mk="A = one\n", conf__arm_mk="A = no\n", no_mk="")
        self.start()
        watched = self.watched()
        self.assertEqual([name for name in watched if name.endswith(".mk") or "akefile" in name],
                         ["Makefile", "conf/x86.mk"])
        self.assertIn(".", watched)
        self.put("more/x86.mk", "B = two\n")
        self.ninja()
        self.assertEqual(self.read("out"), "one two\n")
        self.assertIn("more/x86.mk", self.watched())

    def test_kati_asked_tells_what_is_watched(self):
        self.write(Makefile="ARCH = x86\ninclude conf/$(ARCH).mk\nout: Makefile ; echo $(A) > out\n",
                   conf__x86_mk="A = one\n", conf__arm_mk="A = three\n")
        self.start("--kati-asked", self.program("asked", ASKED))
        self.assertIn("conf/x86.mk", self.watched())
        self.assertNotIn("conf/arm.mk", self.watched())
        self.put("conf/x86.mk", "A = two\n")
        self.ninja()
        self.assertEqual(self.read("out"), "two\n")

    @needs("git")
    def test_the_list_of_git(self):
        self.copy_example()
        self.write(_gitignore="*.o\nprog\nbuild.ninja\nbuild.kati/\nignored/\n", ignored__x_c="")
        self.assertEqual(self.run_in("git", "init", "-q").status, 0)
        self.run_in("git", "add", "main.c")
        self.start("--files-from", "git")
        listed = self.read("build.kati/files.txt")
        self.start("--files-from", "git")
        self.assertEqual(self.read("build.kati/files.txt"), listed)
        names = listed.splitlines()
        self.assertIn("main.c", names)
        self.assertIn("list.c", names)
        self.assertNotIn("ignored/x.c", names)
        self.assertNotIn("prog", names)
        self.put("sub/new.c", "")
        self.ninja()
        self.assertIn("sub/new.c", self.read("build.kati/files.txt").splitlines())
        self.assertEqual(self.made_anew(self.ninja), [])


@needs("kati", "ninja", "cc")
class Headers(Tree):
    """kati-build --deps."""

    SOURCE = '#include "a.h"\nint x = A;\n'

    def built(self, recipe, *words):
        """Builds the file a.o by a recipe, and answers what is made anew when a.h changes."""
        self.write(Makefile=f"FLAGS = -MMD\nall: a.o\na.o: a.c\n\t{recipe}\n", a_c=self.SOURCE, a_h="#define A 1\n")
        ran = self.tool("kati-build", "--deps", *words)
        self.assertEqual(ran.status, 0, ran.all)
        self.said = ran.said
        self.ninja()
        self.touch("a.h")
        found = self.made_anew(self.ninja)
        self.assertEqual(self.made_anew(self.ninja), [])
        listed = ["--files", "build.kati/files.txt", "--check", "build.kati/translated.ninja"]
        self.assertEqual(self.run_in(kati(), *listed).status, 0)
        return found

    def test_where_the_compiler_writes_them(self):
        for recipe in ("cc -MMD -c a.c -o a.o", "cc -MD -c a.c", "cc -c -MMD -MF x.dep a.c -o a.o",
                       "cc -c -MD -MFx.dep -o a.o a.c", "@mkdir -p 'd d'; cc $(FLAGS) -MF 'd d/x' -c $< -o $@",
                       "cc -Wp,-MMD,w.d -c a.c", "cc -Wp,-MP,-MMD,w.d -c a.c",
                       "cc -MMD -MF t.tmp -c a.c -o a.o && mv -f t.tmp t.d",
                       "cc -MMD -c a.c -o a.o; cp a.o b.o"):
            with self.subTest(recipe):
                self.assertIn("a.o", self.built(recipe))

    def test_without_the_flags_nothing_is_known(self):
        self.assertEqual(self.built("cc -c a.c -o a.o"), [])
        self.assertNotIn("depfile", self.read("build.kati/translated.ninja"))

    def test_a_program_that_is_compiled_and_bound_at_once(self):
        self.write(Makefile="prog: main.c ; cc -MMD main.c -o prog\n", a_h="#define A 0\n",
                   main_c='#include "a.h"\nint main(void) { return A; }\n')
        self.tool("kati-build", "--deps")
        self.put("a.h", "#define A 7\n")
        self.ninja()
        self.assertEqual(self.run_in("./prog").status, 7)

    def test_where_it_cannot_be_told_it_is_said(self):
        self.assertEqual(self.built("cc -MMD -MF `echo x.d` -c a.c -o a.o"), [])
        self.assertIn("a.o: it can't be told", self.said)

    def test_two_outputs_that_write_one_file(self):
        self.write(Makefile="all: a.o a.so\na.o a.so: a.c ; cc -MMD -c a.c -o $@\n", a_c=self.SOURCE,
                   a_h="#define A 1\n")
        ran = self.tool("kati-build", "--deps")
        self.assertIn("a.o, a.so: header dependencies are written to one file, a.d", ran.said)
        self.assertNotIn("depfile", self.read("build.kati/translated.ninja"))

    def test_two_outputs_that_write_a_file_each(self):
        self.write(Makefile="FLAGS = -O1\nall: x\na.o a.so: a.c ; cc $(FLAGS) -c a.c -o $@\n"
                            "x: a.o a.so ; cc $(FLAGS) -shared -o $@ a.o\n", a_c=self.SOURCE, a_h="#define A 1\n")
        ran = self.tool("kati-build", "--deps", "FLAGS=-O1 -fPIC -MMD -MF $@.d")
        self.assertEqual((ran.status, ran.said), (0, ""), ran.all)
        self.ninja()
        self.assertEqual(self.ninja(), "ninja: no work to do.\n")
        self.touch("a.h")
        self.assertEqual(self.made_anew(self.ninja), ["a.o", "a.so", "x"])

    def test_a_header_that_is_gone(self):
        self.built("cc -MMD -c a.c -o a.o")
        (self.top / "a.h").unlink()
        self.put("a.c", "int x;\n")
        self.assertIn("a.o", self.made_anew(self.ninja))
