"""What $(shell ..) writes while make reads a makefile that is ported."""
from support import Tree, needs


@needs("kati", "ninja", "make")
class Written(Tree):
    """It comes into the folder as by make, and is told."""

    def test_a_file_that_a_recipe_needs(self):
        self.put("Makefile", "V := $(shell echo x > made.txt; echo 1)\nout:\n\tcat made.txt > out; echo $(V) >> out\n")
        ran = self.tool("kati-build", "--port")
        told = "kati-build: $(shell ..) wrote made.txt while make read the makefile\n"
        self.assertEqual((ran.status, ran.said), (0, told))
        self.assertEqual(self.read("out"), "x\n1\n")
        # It is said once.
        self.assertEqual(self.tool("kati-build", "--port").said, "")

    def test_a_file_above_that_a_recipe_needs(self):
        self.put("Makefile", "V := $(shell echo x > ../made.txt; echo 1)\nout:\n\tcat ../made.txt > out\n")
        told = "$(shell ..) wrote ../made.txt while make read the makefile\n"
        for copies in ("", "1"):
            ran = self.tool("kati-build", "--port", KATI_COPIES=copies)
            self.assertEqual((ran.status, ran.said), (0, f"kati-build: {told}"))
            self.assertEqual(self.read("out"), "x\n")
            self.run_in("rm", "-r", "out", "../made.txt", "build.kati", "build.ninja")

    def test_a_folder_that_a_call_makes(self):
        # Nothing is told of the other one, since Ninja makes it.
        for call, writes, wrote in (
                ("X := $(shell mkdir -p deps obj)", "$(shell ..) writes deps/ while make reads the makefile",
                 "$(shell ..) wrote deps/ while make read the makefile"),
                ("X = $(shell test -d deps || mkdir -p deps obj)", "$(shell ..) of recipes writes deps/",
                 "$(shell ..) of recipes wrote deps/")):
            self.put("Makefile", f"{call}\nall: obj/a.o\nobj/%.o: %.c\n\t$(X)cp $< deps/$*.d && cp $< $@\n")
            self.put("a.c", "a\n")
            self.assertIn(f": {writes}; kati doesn't\n", self.tool("kati-port", "--diff", "Makefile").said)
            ran = self.tool("kati-build", "--port")
            self.assertEqual((ran.status, ran.said), (0, f"kati-build: {wrote}\n"))
            self.assertEqual((self.read("deps/a.d"), self.read("obj/a.o")), ("a\n", "a\n"))
            ran = self.tool("kati-build", "--port")
            self.assertEqual((ran.status, ran.said, ran.out.split("\n")[-2]), (0, "", "ninja: no work to do."))
            # As by make the folder comes again, also after a port for which it was there.
            for values in ([], ["--values"]):
                self.assertEqual(self.tool("kati-build", "--port", *values).said, "")
                self.run_in("rm", "-r", "deps", "obj")
                self.assertIn("kati-build: deps is gone: make is asked again\n", self.ninja())
                self.assertEqual((self.read("deps/a.d"), self.read("obj/a.o")), ("a\n", "a\n"))
            self.run_in("rm", "-r", "deps", "obj", "build.kati", "build.ninja")

    def test_a_folder_of_what_has_no_command(self):
        self.put("Makefile", "$(shell mkdir -p .d)\nall: a.o\n%.o: %.c\n%.o: %.c .d/%.d\n\tcp $< .d/$*.Td\n"
                             "\tmv .d/$*.Td .d/$*.d; cp $< $@\n.d/%.d: ;\ninclude $(wildcard .d/a.d)\n")
        self.put("a.c", "# a\n")
        self.assertEqual(self.run_in("make").status, 0)
        wanted = self.read("a.o")
        self.run_in("rm", "-r", "a.o", ".d")
        ran = self.tool("kati-build", "--port")
        self.assertEqual((ran.status, self.read("a.o")), (0, wanted), ran.all)

    def test_a_folder_that_a_call_makes_for_another_goal(self):
        self.put("Makefile", "X := $(shell mkdir -p obj)\nobj/a: ; echo a > $@\nb: ; echo b > obj/b\n")
        self.assertEqual(self.tool("kati-build", "--port", "obj/a").said, "")
        self.run_in("rm", "-r", "obj")
        ran = self.tool("kati-build", "--port", "b")
        self.assertEqual((ran.status, ran.said, self.read("obj/b")), (
            0, "kati-build: other words are given: make is asked again\n"
               "kati-build: $(shell ..) wrote obj/ while make read the makefile\n", "b\n"))

    def test_commands_that_hang_on_a_folder_that_a_call_makes(self):
        # make has the first recipe alone say it, as git's makefile does.
        self.put("Makefile", "define made\n$(if $(wildcard $(@D)),,@echo MKDIR $(@D) >> log;$(shell mkdir -p $(@D)))\n"
                             "endef\nall: x o/a o/b\nx o/a o/b: in\n\t$(call made)\n\tcp $< $@\n")
        self.put("in", "")
        said = self.run_in("make", "-n").out
        self.assertEqual(said.splitlines(), ["cp in x", "echo MKDIR o >> log;", "cp in o/a", "cp in o/b"])
        self.run_in("rm", "-r", "o")
        for copies in ("", "1"):
            ran = self.tool("kati-build", "--port", KATI_COPIES=copies)
            self.assertEqual((ran.status, ran.said), (0, ""))
            self.assertEqual(self.read("log"), "MKDIR o\n")
            ran = self.tool("kati-build", "--port", KATI_COPIES=copies)
            self.assertEqual((ran.status, ran.said, ran.out), (0, "", "ninja: no work to do.\n"))
            self.run_in("rm", "-r", "o", "x", "log", "build.kati", "build.ninja", ".ninja_log", ".ninja_deps")
        ran = self.tool("kati-port", "--write", "Makefile")
        self.assertEqual(ran.status, 0, ran.all)
        self.assertIn("kati's commands are make's\n", ran.out)
        self.assertEqual(self.run_in("make", "-n").out, said)

    def test_a_file_elsewhere(self):
        place = self.top.parent / "elsewhere"
        place.mkdir()
        (place / "read.txt").write_text("1\n")
        self.put("Makefile", f"P = {place}\nV := $(shell cat $(P)/read.txt /proc/version > /dev/null)\n"
                             "W := $(shell echo x > $(P)/'p'; cd $(P); echo x > o; echo 1)\nout:\n\techo $(W) > out\n")
        told = f"$(shell ..) wrote outside of this folder while make was asked: {place}/o {place}/p\n"
        for copies in ("", "1"):
            self.let_time_pass()
            ran = self.tool("kati-build", "--port", "--no-ninja", KATI_COPIES=copies)
            self.assertEqual((ran.status, ran.said), (0, f"kati-build: {told}"))
            self.run_in("rm", "-r", "build.kati", "build.ninja")
            self.assertIn(f"Makefile: {told}", self.tool("kati-port", "--diff", "Makefile", KATI_COPIES=copies).said)
