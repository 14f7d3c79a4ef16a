"""What "kati's commands are make's" means: the same text as the shell reads it, flags of the shell and environment; and
what is told where they aren't."""
import shutil

from support import Tree, needs

SAME = "kati's commands are make's(, blanks aside)?\n"
DIFFERS = 5
# Makefiles of which the commands mean the same once they are ported; kati takes each as it is, with another meaning.
MENDED = {
    "a newline within single quotes": "all: out\nout:\n\techo 'a,b' | sed 's/,/\\\n\t/' > out\n",
    "quoted text of several lines with a reference":
        "X = a\\b\nall: out\nout:\n\tprintf '%s|' '$(X)\\\n\t\t $$HOME\\\n\tz' \"it's\" 'q' > out\n",
    "a comment that goes on": "all: out\nout:\n\t# make the file \\\n\techo hello > out\n\ttouch out\n",
    "a comment that goes on behind a command": "all: out\nout:\n\techo a > out # first \\\n\techo b >> out\n",
    "a comment in a loop": "all: out\nout:\n\t@for x in a b; do \\\n\t  # each \\\n\t  echo $$x >> out; \\\n\tdone\n",
    "another macro for .POSIX": ".POSIX:\nall: ; @echo $(CC) $(CFLAGS) > out\n",
}

# Trees of which kati makes what make makes once they are ported, and would make something else, or nothing.
TREES = {
    "a conditional in the recipe of a rule that searches folders":
        {"Makefile": "VPATH = src\nall: b.o\n%.o: %.c\nifneq ($(Q),)\n\t@echo CC $<\nendif\n\tcat $< > $@\n",
         "src/b.c": "b\n"},
    "a conditional round a rule that searches folders":
        {"Makefile": "VPATH = src\nall: b.o\nifdef Q\n%.o: %.c\n\techo q > $@\nelse\n%.o: %.c\n\tcat $< > $@\nendif\n",
         "src/b.c": "b\n"},
    "a source here and in a folder that is searched":
        {"Makefile": "VPATH = src\nCC = sh cc.sh\nall: a.o b.x\n%.x: %.y\n\tcat $< > $@\n", "src/a.c": "", "a.c": "",
         "cc.sh": "echo $4 > $3\n", "src/b.y": "src\n", "b.y": "here\n"},
    "a source here and in a folder, and another one by a rule that names it":
        {"Makefile": "VPATH = va vb\nall: s.out one.up two.up\ns.out: one.p two.p\n\tcat $^ > $@\n%.up: %.p\n"
                     "\tcat $< > $@\n", "va/one.p": "one\n", "vb/two.p": "two\n", "two.p": "here\n"},
    "rules that name folders which are searched":
        {"Makefile": "VPATH = va vb vc\nall: a.o b.o c.o d.o\n%.o: va/%.c\n\techo first > $@; cat $^ >> $@\n"
                     "%.o: %.c | d.c\n\techo searched > $@; cat $+ >> $@\n"
                     "%.o: vb/%.c\n\techo last > $@; cat $^ >> $@\n",
         "va/a.c": "a\n", "vb/b.c": "b\n", "vc/c.c": "c\n", "d.c": "d\n"},
    "a call behind what a rule searches for":
        {"Makefile": "VPATH = src\nall: b.o\n%.o: %.c $(wildcard *.h)\n\tcat $^ > $@\n", "src/b.c": "b\n",
         "a.h": "h\n"},
    "a rule of make's own that is taken back":
        {"Makefile": "%: %.c\n%.o: %.c\n\tcp $< $@\n%: %.o\n\tcat $< > $@\nall: x\n.DEFAULT_GOAL := all\n"
                     ".PRECIOUS: x.o\n", "x.c": "x\n"},
    **{f"-r by {words}": {"Makefile": f"{words} += -r\nall: out\nout: foo ; cp foo out\n", "foo": "a\n",
                          "foo.sh": "b\n"}
       for words in ("MAKEFLAGS", "export MAKEFLAGS", "override MAKEFLAGS")},
    "no suffixes": {"Makefile": ".SUFFIXES:\nall: x\n%: %.q\n\tcp $< $@\nx.c: ; touch x.c\n", "x.q": "q\n"},
    "a program from a script": {"Makefile": "all: foo\n", "foo.sh": "echo hi\n"},
    "a tab before an assignment behind a reference":
        {"Makefile": "define PROG\n$(1): ; echo $(1)\nendef\n$(eval $(call PROG,b))\nifndef DEBUG\n\tF += -O2\nendif\n"
                     "all: ; @echo F=$(F) > out\n.DEFAULT_GOAL = all\n"},
    "a tab before a conditional behind a reference":
        {"Makefile": "E =\n$(E)\n\tifndef DEBUG\n\tF := 1\n\tendif\nall: ; @echo F=$(F) > out\n"},
    "a tab before a conditional in a branch that isn't taken":
        {"Makefile": "X := none\nifneq ($(X),none)\n  ifeq ($(X),a)\n\tifeq ($(Y),1)\n    Z := 1\n    endif\n  else\n"
                     "    $(error not here)\n  endif\nendif\nall: ; @echo ok > out\n"},
    "a double colon without a recipe":
        {"Makefile": "CC = sh cc.sh\nUTILS = a b\nall:: $(UTILS)\n$(UTILS):: lib\nlib: ; touch $@\n", "a.c": "",
         "b.c": "", "cc.sh": "shift $(($# - 1)); echo program > $1\n"},
    "a folder that is named as a suffix":
        {"Makefile": "O = .o\nall: $(O) .o/a.x .o/b.x ; ls .o > all\n.o/%.x: %.c\n\tcp $< $@\n$(O):\n\tmkdir .o\n",
         "a.c": "a\n", "b.c": "b\n"},
    "a folder that is made before what lies in it":
        {"Makefile": "all: obj prog\nobj/a obj/s/b: ; mkdir -p obj/s; echo > $@\nobj: in ; mkdir obj\n"
                     "prog: obj/a obj/s/b ; ls obj > $@\n", "in": ""},
    "a library":
        {"Makefile": "LIBS = -lm\nall: out\nout: in $(LIBS) -lc ; echo $^ > out\n", "in": ""},
}


class Meant(Tree):
    """What the tests of this module do."""

    def make(self, *words, status=0):
        """The texts of the files that make's build makes, in a copy of the folder."""
        return self.built("make", *words, status=status)

    def built(self, *command, status=0):
        """The texts of the files that a build by this command makes, in a copy of the folder."""
        room = self.top.parent / "copy"
        shutil.rmtree(room, ignore_errors=True)
        shutil.copytree(self.top, room, symlinks=True)
        before = set(room.rglob("*"))
        ran = self.run_in("env", "-C", room, *command)
        self.assertEqual(ran.status != 0, status != 0, ran.all)
        self.said = ran.all
        return {path.name: path.read_text() for path in room.rglob("*") if path not in before and path.is_file()
                and "build.kati" not in path.parts and path.name not in ("build.ninja", ".ninja_log", ".ninja_deps")}

    def kati_build(self, *words, status=0):
        """The same by kati-build --port."""
        return self.built(self.tool_path("kati-build"), "--port", *words, status=status)

    def port(self, *words, status=0):
        """What a port that is written says."""
        ran = self.tool("kati-port", "--write", "Makefile", *words)
        self.assertEqual(ran.status, status, ran.all)
        return ran.out


@needs("kati", "kati-asked", "make", "ninja")
class Mended(Meant):
    """kati gets a command that means the same."""

    def test_texts_that_the_shell_reads_otherwise(self):
        for name, makefile in MENDED.items():
            with self.subTest(name):
                self.put_all({"Makefile": makefile})
                wanted = self.make()
                self.assertEqual(self.kati_build(), wanted, self.said)
                self.assertNotIn("differ", self.said)
                self.assertRegex(self.port(), SAME)
                self.assertEqual(self.make(), wanted)
                self.assertEqual(self.built(self.tool_path("kati-build"), "--builtin"), wanted, self.said)

    def test_trees_of_which_kati_would_make_something_else(self):
        for name, texts in TREES.items():
            with self.subTest(name):
                shutil.rmtree(self.top)
                self.put_all(texts)
                wanted = self.make()
                self.assertEqual(self.kati_build(), wanted, self.said)
                self.assertNotIn("differ", self.said)
                self.assertRegex(self.port(), SAME)
                self.assertEqual(self.make(), wanted)

    def test_what_a_recipe_takes_away_is_made_behind_it(self):
        self.put_all({"Makefile": "all: clean x y\nclean: ; rm -f x\nx: ; echo x > $@\ny: x ; cp x $@\n"})
        wanted = self.make()
        for _ in range(2):
            ran = self.tool("kati-build", "--port")
            self.assertEqual((ran.status, {name: self.read(name) for name in wanted}), (0, wanted), ran.all)
            self.assertNotIn("differ", ran.said)
        self.assertIn("echo x > x", self.ninja())
        self.assertEqual({name: self.read(name) for name in wanted}, wanted)

    def test_flags_of_make_are_those_of_a_users_run(self):
        self.put_all({"Makefile": "all: ; @echo '[$(MAKEFLAGS)][$(MFLAGS)]' $(A) > out\n"})
        self.assertRegex(self.port(), SAME)
        self.assertEqual(self.kati_build(), self.make())
        said = self.port("A=1", status=DIFFERS)
        self.assertIn("make has ['[ -- A=1][]'], kati ['[][]']: ", said)

    def test_a_word_that_the_makefile_overrides(self):
        self.put_all({"Makefile": "F = a\noverride F += b\nF += c\nall: ; @echo '[$(F)]' > out\n"})
        for word in ("F=1", "F=2"):
            wanted = self.make(word)
            self.assertEqual(wanted, {"out": f"[{word[2:]} b]\n"})
            self.assertEqual(self.kati_build(word), wanted, self.said)
            self.assertNotIn("differ", self.said)
        self.assertEqual(self.kati_build(), self.make())

    def test_appending_to_nothing_and_nothing_puts_no_blank(self):
        self.put_all({"Makefile": "A := $(NONE)\nA += $(strip $(NONE))\nB =\nB += y\nC := x\nC += $(NONE)\n"
                                  "D = $(NONE)\nD += z\nE := 1\nE += 2\nexport A B C D E\n"
                                  "all: ; @echo \"[$$A][$$B][$$C][$$D][$$E]\" "
                                  "'[$(A)][$(B)][$(C)][$(D)][$(E)]' > out\n"})
        wanted = self.make()
        self.assertEqual(wanted, {"out": "[][y][x][ z][1 2] [][y][x][ z][1 2]\n"})
        self.assertEqual(self.kati_build(), wanted, self.said)
        self.assertRegex(self.port(), SAME)
        self.assertEqual(self.make(), wanted)
        for line, value in (("B =", "B = w"), ("C := x", "C :=")):
            self.put("Makefile", self.read("Makefile").replace(f"{line}\n", f"{value}\n"))
        wanted = self.make()
        self.assertEqual(self.built(self.tool_path("kati-build"), "--builtin"), wanted, self.said)

    def test_appending_behind_a_tab(self):
        # As git's makefile does it, in a branch.
        self.put_all({"Makefile": "C =\nA = 1\nifdef A\n\tC += x\n\tD := $(NONE)\n\tD += y\nendif\n"
                                  "all: ; @echo '[$(C)][$(D)]' > out\n"})
        wanted = self.make()
        self.assertEqual(wanted, {"out": "[x][y]\n"})
        self.assertEqual(self.kati_build(), wanted, self.said)
        self.assertRegex(self.port(), SAME)
        self.assertEqual(self.make(), wanted)

    def test_posix_has_the_shell_end_at_a_fault(self):
        self.put_all({"Makefile": ".POSIX:\nout:\n\tfalse; echo reached > out\n"})
        self.assertEqual(self.make(status=2), {})
        self.assertEqual(self.kati_build(status=1), {})
        self.assertRegex(self.port(), SAME)


@needs("kati", "kati-asked", "make", "ninja")
class Told(Meant):
    """A difference is told, in a line and by the status."""

    # make's own shell is dash or bash; each reads a quoted text that ends with a newline, which no shell prints.
    OTHER = "all: out\nout: Makefile\n\tprintf %s 'a\\\n\t' > out\n"

    def test_a_text_that_nothing_mends_is_told_by_what_differs(self):
        self.put_all({"Makefile": self.OTHER})
        said = self.port(status=DIFFERS)
        self.assertIn("Makefile: make has ['a\\\\n'], kati ['a']: printf %s 'a\\\\n' > out\n", said)
        self.assertIn("Makefile: kati's commands differ: 1 of make's alone, 1 of kati's alone\n", said)

    def test_the_line_of_a_difference_is_short_and_stands_for_all_that_are_alike(self):
        flags = " ".join(f"-I{number}" for number in range(400))
        self.put_all({"Makefile": f"F = {flags}\nall: a b c\na b c: ; @echo $(F) 'z\\\n\t' > $@\n"})
        told = [line for line in self.port(status=DIFFERS).split("\n") if "make has" in line]
        self.assertEqual(len(told), 1, told)
        self.assertIn("make has ['z\\\\n'], kati ['z'] (3 times): echo -I0 ", told[0])
        self.assertLess(len(told[0]), 150)

    def test_kati_build_says_it_in_its_last_line_each_time(self):
        self.put_all({"Makefile": self.OTHER})
        line = "kati-build: kati's commands differ: 1 of make's alone, 1 of kati's alone"
        for _ in range(2):
            ran = self.tool("kati-build", "--port")
            self.assertEqual((ran.status, ran.said.rstrip().split("\n")[-1]), (0, line), ran.all)
        self.put_all({"Makefile": self.OTHER.replace("printf", "false; exit 1; printf")})
        ran = self.tool("kati-build", "--port")
        self.assertEqual((ran.status, ran.said.rstrip().split("\n")[-1]), (1, line), ran.all)

    def test_the_status_without_ninja_and_that_which_ninja_hears(self):
        self.put_all({"Makefile": self.OTHER})
        self.assertEqual(self.tool("kati-build", "--port", "--no-ninja").status, DIFFERS)
        self.put("Makefile", self.OTHER.replace("%s", "%s%s"))
        self.ninja()
        self.assertEqual(self.read("out"), "a")
        self.put("Makefile", "all: out\nout: ; echo a > out\n")
        self.assertEqual(self.tool("kati-build", "--port", "--no-ninja").status, 0)
        self.assertEqual(self.tool("kati-port", "--write", "--diff", "Makefile").status, 0)
        self.put("Makefile", self.OTHER)
        self.assertEqual(self.tool("kati-port", "--write", "--diff", "Makefile").status, DIFFERS)

    def test_newer_prerequisites(self):
        self.put_all({"Makefile": "newer = $(filter-out FORCE,$?)\nprog: a.o ; cat a.o > prog\n"
                                  "a.o: a.c FORCE\n\t$(if $(newer),cat a.c > a.o,@:)\nFORCE:\n.PHONY: FORCE\n",
                      "a.c": "a\n"})
        said = self.port(status=DIFFERS)
        self.assertIn("Makefile: $? is all prerequisites for kati, and the newer ones for make (Makefile:1)\n", said)
        self.assertIn("Makefile: ninja makes anew each time what make may leave, by $?: a.o\n", said)
        self.assertIn("Makefile: kati's commands differ in when they are run\n", said)
        self.put_all({"Makefile": "lib.a: a.c ; ar rc $@ $?\n"})
        self.assertIn("$? is all prerequisites for kati", self.port())

    def test_what_another_recipe_takes_away(self):
        makefile = "all: kill x y\nkill: ; rm -f x\nx: ; echo x$^ > $@\n" \
            "y: y.o ; cp y.o $@; rm y.o\ny.o: ; echo y > $@\n"
        self.put("Makefile", makefile)
        told = "kill takes x away, which make makes again in the same run, and ninja in the next one;"
        said = self.port(status=DIFFERS)
        self.assertIn(told, said)
        self.assertNotIn("y.o", said)
        self.assertIn("kati's commands differ in when they are run\n", said)
        self.assertIn(told, self.tool("kati-build", "--port", "--no-ninja").said)

    def test_a_link_that_is_made_once(self):
        told = "l: ln -s fails where the link stands, for make and ninja, "
        for command in ("ln -s $< $@", "ln -sf $< $@", "rm -f $@; ln -s $< $@", "test -e $@ || ln -s $< $@"):
            self.put_all({"Makefile": f"all: l\nl: in ; {command}\n", "in": ""})
            for said in (self.tool("kati-port", "--write", "Makefile").out,
                         self.tool("kati-build", "--port", "--no-ninja").said):
                (self.assertIn if command == "ln -s $< $@" else self.assertNotIn)(told, said)

    def test_a_double_colon_that_stands_more_than_once(self):
        self.put_all({"Makefile": "CC = sh cc.sh\nall: a\na:: b\na:: c\nb c: ; touch $@\n", "a.c": "",
                      "cc.sh": "shift $(($# - 1)); echo program > $1\n"})
        told = "a:: has no recipe and stands there more than once: make looks for an implicit rule for each, "
        self.assertEqual(self.port(status=DIFFERS).count(told), 1)
        self.assertEqual(self.tool("kati-build", "--port", "--no-ninja").said.count(told), 1)

    def test_a_double_colon_for_which_make_finds_a_rule_without_commands(self):
        tree = {"Makefile": "all: a x\na:: b\na:: c\nb c: ; touch $@\n%: %.in ;\nx: F = 1\nx: ; echo $(F) > x\n",
                "a.in": ""}
        self.put_all(tree)
        said = self.port()
        self.assertIn("kati's commands are make's\n", said)
        self.assertNotIn("implicit rule", said)
        self.put_all(tree)
        self.assertNotIn("implicit rule", self.tool("kati-build", "--port", "--no-ninja").said)

    def test_what_make_finds_in_a_folder_that_is_searched(self):
        self.put_all({"Makefile": "VPATH = obj\nall: x.o y.o\n%.o: %.c\n\tcp $< $@\n", "x.c": "", "y.c": "",
                      "obj/x.o": ""})
        said = self.port(status=DIFFERS)
        self.assertIn("x.o stands in a folder that is searched, as obj/x.o:", said)
        self.assertNotIn("y.o", said)

    def test_another_shell(self):
        self.put_all({"Makefile": "ifdef MAKE_VERSION\nSHELL = /bin/bash\nendif\nall: ; echo > out\n"})
        said = self.port(status=DIFFERS)
        self.assertIn("Makefile: make runs commands by /bin/bash -c, kati by /bin/sh -c\n"
                      "Makefile: kati's commands differ in the shell and its flags\n", said)
