"""share/kati: make's usual macros and rules, and what a makefile's own rules do beside them."""
import shutil

from support import TOP, Tree, kati, needs


@needs("kati", "make", "ninja")
class Builtin(Tree):
    """The two files."""

    def test_they_say_what_make_says(self):
        ran = self.run_in(TOP / "scripts/check_builtin.py")
        self.assertEqual(ran.status, 0, ran.all)

    def test_a_changed_rule_is_seen(self):
        shutil.copytree(TOP / "share", self.top / "share")
        (self.top / "scripts").mkdir()
        shutil.copy(TOP / "scripts/check_builtin.py", self.top / "scripts")
        rules = self.read("share/kati/builtin-rules.mk")
        for old, new in (("$(COMPILE.c)", "$(COMPILE.cc)"), ("%.c: %.y %.y", "%.c: %.yy %.yy")):
            with self.subTest(new):
                self.assertIn(old, rules)
                self.put("share/kati/builtin-rules.mk", rules.replace(old, new))
                ran = self.run_in("scripts/check_builtin.py", KATI=kati())
                self.assertEqual(ran.status, 1)

    def test_an_absent_macro_is_seen(self):
        shutil.copytree(TOP / "share", self.top / "share")
        (self.top / "scripts").mkdir()
        shutil.copy(TOP / "scripts/check_builtin.py", self.top / "scripts")
        macros = self.read("share/kati/builtin-macros.mk")
        self.put("share/kati/builtin-macros.mk", macros.replace("MAKEINFO = makeinfo\n", ""))
        ran = self.run_in("scripts/check_builtin.py", KATI=kati())
        self.assertEqual((ran.status, ran.out.split("\n")[1]), (1, "MAKEINFO is absent, and for make 'makeinfo'"))

    def commands(self, makefile):
        """make's commands with its own rules, and those of kati-build --builtin."""
        self.write(Makefile=makefile, a_c="", b_y="")
        by_make = self.run_in("make", "-n", "-B").out.splitlines()
        ran = self.tool("kati-build", "--builtin", "--no-ninja")
        self.assertEqual(ran.status, 0, ran.all)
        by_kati = self.run_in("ninja", "-t", "commands").out.splitlines()
        return by_make, [line.split("'")[1] for line in by_kati]

    def test_own_rules_come_first(self):
        for rule in ("%.o: %.c\n\tmine $<\n", ".c.o:\n\tmine $<\n", "a.o: a.c\n\tmine $<\n",
                     "%.o: %.c a.h\n\tmine $<\na.h: ; touch a.h\n"):
            with self.subTest(rule):
                by_make, by_kati = self.commands("all: a.o\n" + rule)
                self.assertIn("mine a.c", by_make)
                self.assertCountEqual(by_kati, by_make)

    def test_macros_of_languages_without_rules(self):
        by_make, by_kati = self.commands(
            "FC ?= no\nFFLAGS = -g\nall: a.o\n\techo $(FC) $(F77) $(MAKEINFO) $(LINK.f) $(OBJC) a\n")
        self.assertIn("echo f77 f77 makeinfo f77 -g   cc a", by_make)
        self.assertCountEqual(by_kati, by_make)

    def test_own_macros_count(self):
        by_make, by_kati = self.commands("CC ?= no\nCFLAGS += -g\nCOMPILE.c += -Wall\nall: a.o\n")
        self.assertEqual(by_make, ["cc -g   -c -Wall -o a.o a.c"])
        self.assertEqual(by_kati, by_make)
