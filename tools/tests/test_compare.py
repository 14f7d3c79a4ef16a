"""kati-compare: the same commands, and how it is told where they aren't."""
import os
import shutil
import signal
import subprocess

from support import TOP, Tree, needs


@needs("kati", "ninja", "make")
class Comparing(Tree):
    """The commands alone."""

    def compared(self, status, *words):
        ran = self.tool("kati-compare", *words)
        self.assertEqual(ran.status, status, ran.all)
        return ran.out

    def differ(self, makefile, makes, katis, *words):
        """make and kati are known to differ on this makefile (docs/LANGUAGE.md, section 11)."""
        self.write(Makefile=makefile)
        lines = self.compared(1, *words).splitlines()
        self.assertEqual([line[2:] for line in lines if line.startswith("- ")], makes)
        self.assertEqual([line[2:] for line in lines if line.startswith("+ ")], katis)

    def same(self, makefile, count, *words):
        self.write(Makefile=makefile)
        self.assertEqual(self.compared(0, *words), f"same: {count} command{'s' * (count != 1)}\n")

    def test_the_example(self):
        self.copy_example()
        self.assertEqual(self.compared(0), "same: 3 commands\n")
        self.assertEqual(self.compared(0, "prog", "clean", "sources"), "same: 5 commands\n")
        self.assertTrue(self.compared(0, "prog", "CFLAGS=-O3 -DX='a b'").startswith("same: 3 commands; make had the"))
        self.assertFalse((self.top / "prog").exists())

    def test_what_is_known_to_differ(self):
        self.differ("A =\nA += y\nall: ; echo [$(A)]\n", ["echo [y]"], ["echo [ y]"])
        self.differ("A = $(patsubst a,,a b)\nall: one ; echo '[$A]'\none: ; echo one\n",
                    ["echo '[ b]'"], ["echo '[b]'"])
        self.differ("all: x.o\n%.o: %.c ; one\n.c.o: ; two\nx.c: ; touch $@\n", ["one"], ["two"])

    def test_what_one_has_more_often(self):
        self.differ("A =\nA += y\nall: a b\n\techo '[$(A)]'\na: ; echo $(A)\nb: ; echo '[y]'\n",
                    ["echo '[y]'"], ["echo '[ y]'"])

    def test_blanks_between_words_alone(self):
        self.write(Makefile="A =\nA += y\nall: a\n\techo one\na: ; echo $(A) ' z'\n")
        self.assertEqual(self.run_in("make", "-n", "a").out, "echo y ' z'\n")
        self.assertEqual(self.compared(0), "same: 2 commands, 1 of them but for blanks\n")

    def test_a_blank_before_a_semicolon(self):
        self.write(Makefile="L = a b/\nall: ; for i in $(L:b/=); do echo $$i ; done\n")
        self.assertEqual(self.run_in("make", "-n").out, "for i in a ; do echo $i ; done\n")
        self.assertEqual(self.compared(0), "same: 1 command, 1 of them but for blanks\n")
        self.differ("L = a b/\nall: ; echo '$(L:b/=);'\n", ["echo 'a ;'"], ["echo 'a;'"])

    def test_a_double_colon_behind_phony(self):
        self.same(".PHONY:: all\nall: ; echo\n", 1)

    def test_blanks_in_quotes_count(self):
        self.differ("A =\nA += y\nall: ; echo \"$(A)\" \\$(A)\n", ['echo "y" \\y'], ['echo " y" \\ y'])

    def test_what_a_shell_says_is_make_s_own(self):
        kept = "ifdef MAKE_VERSION\nOS := $(shell echo one; true)\nB != echo two\nelse\nOS = {}\nB = two\nendif\n"
        self.write(Makefile=kept.format("one") + "all: ; echo $(OS) $(B)\n")
        self.assertEqual(self.run_in("make", "-n").out, "echo one two\n")
        self.assertEqual(self.compared(0), "same: 1 command\n")
        self.differ(kept.format("") + "all: ; echo $(OS) $(B)\n", ["echo one two"], ["echo  two"])

    def test_a_shell_is_asked_by_the_makefile_s_own(self):
        self.write(Makefile="SHELL = /bin/bash\nifdef MAKE_VERSION\nX := $(shell echo {a,b})\nelse\nX = a b\nendif\n"
                            "all: ; echo $(X) $(SHELL)\n")
        self.assertEqual(self.run_in("make", "-n").out, "echo a b /bin/bash\n")
        self.assertEqual(self.compared(0), "same: 1 command\n")

    def test_make_knows_the_makefile_by_its_name(self):
        self.write(version_sh="echo 1.2\n", b_mk="ifdef MAKE_VERSION\nB := $(lastword $(MAKEFILE_LIST))\nelse\n"
                   "B := b.mk\nendif\n", Makefile="ifdef MAKE_VERSION\nDIR := $(dir $(lastword $(MAKEFILE_LIST)))\n"
                   "V := $(shell sh $(DIR)version.sh)$(words $(MAKEFILE_LIST))\nelse\nV := 1.21\nendif\n"
                   "include b.mk\nall: ; echo $(V) $(B)\n")
        self.assertEqual(self.run_in("make", "-n").out, "echo 1.21 b.mk\n")
        self.assertEqual(self.compared(0), "same: 1 command\n")

    def test_a_recipe_line_that_make_runs_even_so_is_not_run(self):
        self.same("ifdef MAKE_VERSION\nX := $(shell echo x)\nelse\nX = x\nendif\nall: ; +touch run $(X)\n", 1)
        self.assertFalse((self.top / "run").exists())

    def test_an_include_that_make_would_first_make(self):
        self.write(Makefile="-include config.mk\nprog$(EXT): main.c ; cc -o $@ $<\nconfig.mk: ; echo EXT=.x > $@\n",
                   main_c="")
        told = self.compared(1).splitlines()
        self.assertTrue(told[0].startswith("not compared: make would first make what it includes"), told)
        self.assertEqual(told[1:], ["  echo EXT=.x > config.mk"])
        self.assertFalse((self.top / "config.mk").exists())
        self.assertIn("cc -o prog.x main.c", self.run_in("make", "-n").out)
        self.assertEqual(self.compared(0), "same: 1 command\n")

    def test_an_include_that_is_out_of_date(self):
        self.write(config_mk="A = old\n", from_txt="new\n", main_c="",
                   Makefile="include config.mk\nall: ; echo $(A)\nconfig.mk: from.txt ; sed 's/^/A = /' $< > $@\n")
        os.utime(self.top / "config.mk", (1, 1))
        self.assertTrue(self.compared(1).startswith("not compared: "))
        self.assertIn("echo new", self.run_in("make", "-n").out)
        self.assertEqual(self.compared(0), "same: 1 command\n")

    def test_an_include_that_the_goals_need_too(self):
        makefile = "include config.mk\nprog: main.c config.mk ; cc -o $@ $<\nconfig.mk: ; echo A = b > $@\n"
        self.write(Makefile=makefile, main_c="", config_mk="A = b\n")
        by_make = self.run_in("make", "-n", "-B").out.splitlines()
        self.assertIn("echo A = b > config.mk", by_make)
        self.assertEqual(self.compared(0), "same: 2 commands\n")
        self.differ(makefile.replace("main.c config.mk", "main.c $(N)") + "ifdef MAKE_VERSION\nelse\nall: more\n"
                    "more: ; echo more\nendif\nall: prog\n", [], ["echo more"], "all")

    def test_an_include_that_the_goals_need_too_is_made_silently(self):
        makefile = "-include a.d\nprog: a.c a.d ; cc -o $@ $<\n%.d: %.c\n\t@true $< \\\n\t  > $@\n"
        self.write(Makefile=makefile, a_c="", a_d="")
        self.assertEqual(self.run_in("make", "-n", "-B", "-r").out, "cc -o prog a.c\n")
        self.assertEqual(self.compared(0), "same: 2 commands\n")
        self.differ("ifndef MAKE_VERSION\nB = b.d\nendif\n" + makefile.replace("a.d ;", "a.d $(B) ;")
                    + "b.d: ; @echo b\n", [], ["echo b"])

    def test_the_environment_of_commands(self):
        export = "ifdef MAKE_VERSION\nexport A = 1\n{}endif\nall: ; echo $$A\n"
        for more, lines in (("", ["- A=1"]), ("else\nSHELL := A=\"2\" $(SHELL)\n", ["- A=1", "+ A=2"]),
                            ("else\nSHELL := B=\"1\" A=\"1\" $(SHELL)\n", ["+ B=1"])):
            self.write(Makefile=export.format(more))
            self.assertEqual(self.compared(1).splitlines(),
                             [*(f"{line} in the environment of commands" for line in lines),
                              "differ: the environment of commands; 1 command the same"])
        self.same(export.format("else\nSHELL := A=\"1\" $(SHELL)\n"), 1)

    def test_the_environment_of_commands_where_all_is_exported(self):
        export = "A = 1\nifdef MAKE_VERSION\nexport\nendif\n"
        self.same(f"{export}all: ; echo $(A)\n", 1)
        self.write(Makefile=f"{export}all: ; sh x.sh\n", x_sh="echo $A\n")
        self.assertIn("- A=1 in the environment of commands\n", self.compared(1))

    def test_an_environment_that_make_does_not_tell(self):
        self.write(Makefile="ifdef MAKE_VERSION\n$(if $(findstring n,$(MAKEFLAGS)),,$(error no))\nendif\nall: ; echo\n")
        self.assertEqual(self.compared(1), "what make's commands have in their environment isn't known\n"
                         "differ: the environment of commands; 1 command the same\n")

    def test_the_environment_is_told_without_running_anything(self):
        self.write(Makefile="-include a.mk\nall: ; echo\na.mk: Makefile\n\ttouch b\n\t+touch c\n", a_mk="")
        os.utime(self.top / "a.mk", (1, 1))
        self.assertTrue(self.compared(1).startswith("not compared: "))
        self.assertEqual(sorted(path.name for path in self.top.iterdir()), ["Makefile", "a.mk"])

    def test_words_of_which_make_knows_nothing(self):
        self.write(Makefile="ifdef MAKE_VERSION\nA := $(shell echo one)\nendif\nall: ; echo $(A)\n")
        self.assertEqual(self.run_in("make", "-n").out, "echo one\n")
        self.assertEqual(self.compared(0, "A=two"), "same: 1 command; make had the macros of the command line too, "
                                                    "see --words-for-kati\n")
        self.assertEqual(self.compared(1, "--words-for-kati", "A=two").splitlines()[:2], ["- echo one", "+ echo two"])
        self.assertEqual(self.compared(0, "--words-for-kati", "A=one", "all"), "same: 1 command\n")

    def test_nothing_is_said_to_be_nothing(self):
        self.write(Makefile="all:\n")
        self.assertIn("nothing to compare", self.compared(0))

    def test_shells_and_quotes(self):
        self.same("SHELL = /bin/bash\n.SHELLFLAGS = -ec\nall: ; echo \"it's\" '$(SHELL)' && echo b || :; } \n", 1)
        self.same("all:\n\t-false\n\t@echo a 'b' \\'c\\' && { echo d || :; }\n\t-@echo '||' \"&&\"\n", 3)

    def test_continued_lines(self):
        self.same("all:\n\techo one \\\n\t  two \\\n\t\tthree\n\techo 'a' \\\\\n\tlast\n", 3)
        # Within single quotes the shell keeps what continues the line, and kati has none.
        self.differ("all:\n\techo 'a\\\n\tb'\n", ["echo 'a\\"], ["echo 'ab'"])

    def test_all_goals_count(self):
        self.same("a: c ; echo a\nb: c ; echo b\nc: ; echo c\n", 3, "a", "b")

    def test_a_recursive_make_is_not_run(self):
        self.same("all:\n\t$(MAKE) -f other.mk\n\t+touch run\nother.mk: ; touch $@\n", 2)
        self.assertFalse((self.top / "run").exists())

    def test_includes_are_not_made_and_messages_are_no_commands(self):
        self.put("a.mk", "")
        self.same("-include a.mk\n%.mk: ; touch $@ run\n$(info told)\nall: ; echo $(info more)told\n", 1)
        self.assertFalse((self.top / "run").exists())

    def test_intermediate_files_stay(self):
        self.write(a_y="", Makefile="all: a.o\n%.o: %.c ; cc -c $<\n%.c: %.y ; yacc -o $@ $<\n")
        self.assertEqual(self.compared(0), "same: 2 commands\n")

    def test_the_suffix_list(self):
        self.same("all: x.o\n.c.o: ; cc -c $<\n.xx.o: ; no $<\nx.c: ; touch $@\n", 2)

    def test_what_make_takes_from_the_environment_is_told(self):
        self.write(Makefile="all: ; echo '$(CFLAGS)'\n")
        ran = self.tool("kati-compare", CFLAGS="-O9", MAKEFLAGS="CFLAGS=-O8", MAKELEVEL="2")
        self.assertEqual((ran.status, ran.out), (1, "- echo '-O9'\n+ echo ''\n"
                         "differ: 1 command of make's alone, 1 of kati's alone, 0 the same\n"))

    def test_built_in_rules_on_both_sides(self):
        for makefile in ("prog: prog.o\n", "prog: prog.o ; $(CC) -o $@ $^\n.c.o: ; mine $(CFLAGS) $<\n",
                         "prog: prog.o\n%.o: %.c ; mine $<\n", "prog: prog.o\nprog.o: ; mine $(RM)\n"):
            with self.subTest(makefile):
                self.write(prog_c="")
                self.same("CFLAGS = -g\n" + makefile, 2, "--builtin")

    def test_a_built_in_rule_that_kati_has_not_is_told(self):
        self.write(doc_tex="")
        self.differ("all: doc.dvi ; cat doc.dvi\n", ["tex doc.tex"], [], "--builtin")

    def test_faults(self):
        self.write(Makefile="all: ; echo $(shell ls)\n")
        ran = self.tool("kati-compare")
        self.assertEqual(ran.status, 2)
        self.assertIn("Makefile:1: *** refused function shell [E16]", ran.said)
        self.write(Makefile="all: absent ; echo\n")
        ran = self.tool("kati-compare")
        self.assertEqual(ran.status, 3)
        self.assertIn("No rule to make target 'absent'", ran.said)
        self.assertNotIn("--builtin", ran.said)
        self.assertEqual(self.tool("kati-compare", "--check", "x").status, 64)
        self.assertEqual(self.tool("kati-compare", MAKE="no/such/make").status, 3)


    def test_a_fault_of_make_s_alone(self):
        self.write(Makefile="all: ; echo\nifdef MAKE_VERSION\n$(error no)\nendif\n")
        self.assertIn("Makefile:3: *** no.  Stop.", self.run_in("make").said)
        ran = self.tool("kati-compare")
        self.assertEqual(ran.status, 3)
        self.assertIn("make ends with status 2 where kati has no fault:\nMakefile:3: *** no.  Stop.", ran.said)

    def test_a_rule_of_make_s_own_that_is_missing(self):
        self.write(Makefile="prog: prog.o ; cc -o $@ $^\n", prog_c="")
        self.assertEqual(self.run_in("make", "-n").status, 0)
        ran = self.tool("kati-compare")
        self.assertEqual(ran.status, 3)
        self.assertIn("No rule to make target 'prog.o'", ran.said)
        self.assertIn("make takes it with its own rules: try --builtin", ran.said)
        self.assertEqual(self.compared(0, "--builtin"), "same: 2 commands\n")


@needs("kati", "ninja", "make", "cc")
class Building(Tree):
    """kati-compare --build."""

    def compared(self, status, *words):
        ran = self.tool("kati-compare", "--build", *words)
        self.assertEqual(ran.status, status, ran.all)
        return ran.out

    def test_the_example(self):
        self.copy_example()
        self.assertEqual(self.compared(0), "same: 3 commands\nsame: 3 files came into being\n")
        there, wanted = (sorted(path.name for path in top.iterdir()) for top in (self.top, TOP / "example"))
        self.assertEqual(there, wanted)

    def test_other_bytes_and_files_of_one_side(self):
        recipe = "echo '[$(A)]' > out; touch '_$(A)'; ln -s x link"
        self.write(Makefile=f"A =\nA += y\nall: out $(A)\nout: ; {recipe}\ny: ; touch y\n")
        lines = self.compared(1).splitlines()
        self.assertIn("! out: other bytes", lines)
        self.assertIn("- _y: made by make alone", lines)
        self.assertIn("+ _ y: made by ninja alone", lines)
        self.assertFalse([line for line in lines if "link" in line[2:6] or line.endswith(" y: other bytes")])

    def test_a_build_that_fails(self):
        self.write(Makefile="all: ; exit 3\n")
        self.assertIn("the build by ninja failed with status 1", self.compared(1))

    def test_nothing_comes_into_being(self):
        self.write(Makefile="all: ; echo\n")
        self.assertIn("no file came into being", self.compared(0))

    def test_a_folder_that_was_built_is_built_again(self):
        self.put("Makefile", "all: a b\na: x ; cat x > a; echo > a.d\nb: a ; cp a b\n")
        self.put("x", "")
        self.assertEqual(self.run_in("make").status, 0)
        (self.top / "a.d").unlink()
        before = self.made()
        self.assertEqual(self.compared(0), "same: 2 commands\nsame: 3 files came into being\n")
        self.assertEqual(self.made(), before)

    def test_the_folder_stays_as_it_is(self):
        self.copy_example()
        shutil.copy(self.top / "main.c", self.top / "prog")
        before = self.made()
        self.compared(0)
        self.assertEqual(self.made(), before)

    def test_what_stands_above_is_copied_too(self):
        self.put("lib/v.h", "#define V 7\n")
        self.put("prog/main.c", '#include "../lib/v.h"\nint main(void) { return V; }\n')
        self.put("prog/Makefile", "TOP = ..\nall: prog ../lib/out\nprog: main.c ; cc -o $@ $<\n"
                                  "../lib/out: ; cp $(TOP)/lib/v.h $@\n")
        before = self.made()
        ran = self.run_in("sh", "-c", f"cd prog && {self.tool_path('kati-compare')} --build")
        self.assertEqual((ran.status, ran.said), (0, ""), ran.all)
        self.assertEqual(ran.out, "same: 2 commands\nsame: 2 files came into being\n")
        self.assertEqual(self.made(), before)
        self.assertEqual(self.run_in("sh", "-c", "cd prog && make -s && ./prog").status, 7)

    def test_what_is_made_above_is_compared(self):
        self.put("prog/Makefile", "ifdef MAKE_VERSION\nV = 1\nelse\nV = 2\nendif\nO = ../no\n"
                                  "all: ../out/a ; @echo as ../no/a\n../out/a: ; mkdir -p ../out; echo $(V) > $@\n")
        self.put("kept", "")
        before = self.made()
        ran = self.run_in("sh", "-c", f"cd prog && {self.tool_path('kati-compare')} --build", HOME=self.top)
        self.assertEqual(ran.status, 1, ran.all)
        self.assertIn("! ../out/a: other bytes\n", ran.out)
        self.assertEqual(self.made(), before)

    def test_nothing_is_left_of_a_run_that_is_ended(self):
        self.write(Makefile="ifdef MAKE_VERSION\nA := $(shell echo > started; exec sleep 1000)\nendif\nall: ; echo\n")
        scratch = self.top.parent / "scratch"
        scratch.mkdir()
        process = subprocess.Popen([self.tool_path("kati-compare")], cwd=self.top, start_new_session=True,
                                   env={**os.environ, "TMPDIR": str(scratch)}, stdout=subprocess.PIPE,
                                   stderr=subprocess.PIPE, text=True)
        self.wait_for((self.top / "started").exists)
        self.assertNotEqual(list(scratch.iterdir()), [])
        os.killpg(process.pid, signal.SIGTERM)
        self.assertEqual(process.communicate(), ("", "kati-compare: interrupted\n"))
        self.assertEqual(process.returncode, 130)
        self.assertEqual([path.name for path in scratch.iterdir() if path.name.startswith("kati-")], [])

    def test_a_copy_of_the_home_folder_is_too_much(self):
        self.put("home/prog/Makefile", "all: ; cat ../x > out\n")
        self.put("home/x", "")
        compare = self.tool_path("kati-compare")
        ran = self.run_in("sh", "-c", f"cd home/prog && {compare} --build", HOME=self.top / "home")
        self.assertEqual(ran.status, 3, ran.all)
        self.assertIn(f"Makefile needs .., which is {self.top}/home: too much", ran.said)

    def test_what_kati_build_wrote_is_not_in_the_copies(self):
        self.write(Makefile="S = b.c\nifdef MAKE_VERSION\nS := $(wildcard b*)\nendif\nout: ; echo $(S) > out\n", b_c="")
        self.assertEqual(self.tool("kati-build", "--no-ninja").status, 0)
        self.assertIn("same: 1 file came into being\n", self.run_in(self.tool_path("kati-compare"), "--build").out)

    def test_a_build_in_copies_is_told(self):
        self.write(Makefile="out: ; pwd > out\n")
        why = "kati-compare: built in copies of this folder: the environment has KATI_COPIES\n"
        for copies, said in (("", ""), ("1", why)):
            ran = self.tool("kati-compare", "--build", KATI_COPIES=copies)
            self.assertEqual((ran.status, ran.said), (0, said), ran.all)

    def test_words_for_kati_alone(self):
        self.write(Makefile="ifdef MAKE_VERSION\nA := $(shell echo one)\nendif\nout: ; echo $(A) > out\n")
        self.assertEqual(self.compared(0, "A=one", "--words-for-kati"),
                         "same: 1 command\nsame: 1 file came into being\n")
        self.assertIn("! out: other bytes", self.compared(1, "A=two", "--words-for-kati"))
        self.assertIn("same: 1 file", self.compared(0, "A=two"))
