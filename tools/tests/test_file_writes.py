"""Ports of makefiles in which `$(file >NAME,TEXT)` of recipes writes files: for kati the recipe's own shell does."""
from support import Tree, needs

MACROS = "A = a, b\nall: out\n"
# Recipes that write files, after these macros.
WRITING = {
    "alone": "out: in\n\t$(file >$@,$(A) $<)$(file >>$@,c)\n",
    "before a command": "out: in\n\t$(file >rsp,$(A) %s ' \\n \"$$x\" # d)cat rsp > $@\n",
    "before a mark": "out: in\n\t$(file > rsp,x)@-cat rsp > $@; false\n",
    "behind a command": "out: in\n\t@cp rsp $@ $(file >rsp,a \\\n\t  b)$(file >>rsp,$^)\n",
    "in a loop": "out: in\n\t@: $(file >$@)\n\t@$(foreach o,$^ x y,$(file >>$@,$o,$(A)))\n",
    "nothing, and an empty line": "out: in\n\t$(file >$@)\n\t$(file >>$@,)\n",
    "in a rule of one line": "out: in ; $(file >rsp,$(A))cp rsp $@\n",
}
# The same that the recipe's shell can't do as make does.
LEFT = {
    "in a body": "define WRITE\n$(file >rsp,$(A))\ncp rsp $@\nendef\nout: in ; $(WRITE)\n",
    "in a macro": "WRITE = $(file >rsp,$(A))cp rsp $@\nout: in\n\t$(WRITE)\n",
    "under a condition in a rule of one line": "out: in ; $(if $(A),$(file >rsp,$(A)))cp rsp $@\n",
    "under a condition": "out: in\n\t$(if $(A),$(file >rsp,$(A)))cp rsp $@\n",
    "what the recipe reads before it": "out: in\n\tcat rsp > $@\n\t$(file >rsp,$(A))\n",
}


@needs("kati", "kati-asked", "make", "ninja")
class FileWrites(Tree):
    """What is written by make, and what ninja writes."""

    def lay(self, rules):
        """Writes the makefile."""
        self.put_all({"Makefile": MACROS + rules, "in": "in\n"})

    def by_make(self):
        """What make makes from nothing; that is taken away again."""
        self.clean()
        self.assertEqual(self.run_in("make").status, 0)
        wanted = self.read("out")
        self.clean()
        return wanted

    def clean(self):
        self.run_in("rm", "-f", "out", "rsp")

    def test_a_port_writes_what_make_does(self):
        for name, rules in WRITING.items():
            with self.subTest(name):
                self.lay(rules)
                wanted = self.by_make()
                ran = self.tool("kati-build", "--port")
                self.assertEqual((ran.status, self.read("out")), (0, wanted), ran.all)
                self.assertNotIn("commands differ", ran.said)
                self.assertIn("for kati the recipe's own shell runs, when it comes to it: $(f", ran.said)
                self.assertEqual([name for name in self.made_anew(self.ninja) if name in ("out", "rsp")], [])
                self.lay(rules.replace("$(A)", "other"))
                wanted = self.by_make()
                self.ninja()
                self.assertEqual(self.read("out"), wanted)
                self.clean()
                self.run_in("rm", "-r", "build.kati", "build.ninja")

    def test_a_written_makefile_is_for_both(self):
        for name, rules in WRITING.items():
            with self.subTest(name):
                self.lay(rules)
                wanted = self.by_make()
                ran = self.tool("kati-port", "--write", "Makefile")
                self.assertEqual(ran.status, 0, ran.all)
                self.assertIn("kati's commands are make's, calls that the recipe's shell runs aside\n", ran.out)
                self.assertEqual(self.by_make(), wanted)
                ran = self.tool("kati-build", "--builtin")
                self.assertEqual((ran.status, self.read("out")), (0, wanted), ran.all)
                self.clean()
                ran = self.tool("kati-compare", "--builtin")
                self.assertEqual((ran.status, "\nsame: " in ran.out), (0, True), ran.all)
                self.run_in("rm", "-r", "build.kati", "build.ninja", "kati-values.mk")

    def test_what_the_shell_cannot_do_is_a_difference(self):
        for name, rules in LEFT.items():
            with self.subTest(name):
                self.lay(rules)
                self.by_make()
                ran = self.tool("kati-port", "--diff", "Makefile")
                self.assertEqual(ran.status, 5, ran.all)
                self.assertIn("Makefile: kati's commands differ in ", ran.said)

    def test_what_make_writes_while_it_reads_is_none(self):
        self.lay("$(file >list,$(A))\nout: list ; cp list $@\nother: ; $(file >rsp,x)\n")
        wanted = self.by_make()
        self.run_in("rm", "-f", "list")
        ran = self.tool("kati-build", "--port")
        self.assertEqual((ran.status, self.read("out")), (0, wanted), ran.all)
        self.assertNotIn("commands differ", ran.said)
