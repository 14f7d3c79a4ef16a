"""scripts/record_commands.py: the commands of make's build and of ninja's, recorded by a shell in the way of both."""
import re
import sys

from support import TOP, Tree, needs

SCRIPT = TOP / "scripts/record_commands.py"


@needs("kati", "kati-asked", "make", "ninja", "bash")
class Recording(Tree):
    """What it prints for small trees."""

    def record(self, *words, status, **environment):
        """What it prints, without seconds; it must end with this status."""
        ran = self.run_in(sys.executable, SCRIPT, "--port", *words, **environment)
        self.assertEqual(ran.status, status, ran.all)
        return re.sub(r"; \d+\.\d s$", "", ran.all, flags=re.MULTILINE)

    def test_the_same_commands(self):
        self.put_all({"Makefile": "export A = 1\nall: out\nout: in\n\t# a comment \\\n\tsort  in \\\n\t  > out\n"
                                  "\t@echo 'a,b' | sed 's/,/\\\n\t/' >> out\n\t@echo $(MAKE) >> out\n", "in": "b\na\n"})
        self.assertEqual(self.record(".", status=0), ".: same, 3 commands\n")
        self.assertEqual(sorted(path.name for path in self.top.iterdir()), ["Makefile", "in"])

    def test_a_build_that_fails_is_compared_as_far_as_it_goes(self):
        self.put_all({"Makefile": "all: a b\na: ; false\nb: ; echo > b\n"})
        self.assertEqual(self.record(".", status=0), ".: same, make's build fails, 2 commands\n")

    def test_other_commands(self):
        """The recipe of `a` sees by its own text which build it is in."""
        self.put_all({"Makefile": "all: a b\na b:\n\techo $(shell echo made $@) > $@\n"})
        found = self.record("--most", "1", ".", status=1).split("\n")
        self.assertEqual(found[0], ".: differ, 2 commands, 2 only make's, 2 only ninja's")
        self.assertRegex(found[1], r"^  - 'echo made [ab] > [ab]'$")
        self.assertRegex(found[2], r"^  \+ 'echo .*shell echo made|^  \+ .*echo made")

    def test_a_text_that_the_shell_reads_from_a_file(self):
        self.put_all({"Makefile": ".ONESHELL:\nall:\n\tA=1\n\techo $$A\n"})
        ran = self.run_in(sys.executable, SCRIPT, "--ask", ".")
        self.assertIn(".: same, 1 commands;", ran.all)

    def test_makefiles_of_a_list(self):
        self.put_all({"one/Makefile": "all: ; @echo\n", "two/sub/x.mk": "all: ; @echo $(A)\n",
                      "three/Makefile": "all: absent\n",
                      "list": "# A rule.\none/Makefile  # 1.0\ntwo/sub/x.mk\nthree/Makefile\nfour/m\n"})
        found = self.record("--list", "list", ".", status=0).split("\n")
        self.assertEqual(found[:2], ["one/Makefile: same, 1 commands", "two/sub/x.mk: same, 1 commands"])
        self.assertRegex(found[2], r"^three/Makefile: not make's, make: \*\*\* No rule to make target 'absent'")
        self.assertEqual(found[3:], ["makefiles    3", "that count   2", "same         2", "differ       0",
                                     "refused      0", "failed       0", "absent: four/m", ""])

    def test_wrong_usage(self):
        self.assertIn("record_commands.py: no folder absent\n", self.record("absent", status=64))
        self.record("--no-such-option", status=64)

    def test_help(self):
        said = self.record("--help", status=0)
        self.assertEqual([word for word in ("examples:", "exit status:", "--shell", "--most") if word not in said], [])
