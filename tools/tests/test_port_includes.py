"""kati-port --write where several programs, each ported in its folder, read one include."""
from support import Tree, needs


@needs("kati", "kati-asked", "make")
class Including(Tree):
    """A tree of programs."""

    def port(self, folder):
        """What a port says that changes no command."""
        ran = self.run_in("env", "-C", folder, self.tool_path("kati-port"), "--write", "Makefile")
        self.assertEqual(ran.status, 0, ran.all)
        self.assertIn("kati's commands are make's\n", ran.out)
        return ran.out

    def makes_commands(self, folder):
        """What make would do in a folder."""
        ran = self.run_in("make", "-n", "-s", "-C", folder)
        self.assertEqual(ran.status, 0, ran.all)
        return ran.out

    def test_an_include_has_makes_calls_for_others_that_read_it(self):
        other = "include ../mk/a.mk\nall: ; echo other $(A)\n"
        self.put_all({"mk/a.mk": "A := $(shell echo $(F))\n", "other/Makefile": f"F = 2\n{other}",
                      "one/Makefile": "F = 1\ninclude ../mk/a.mk\nall: ; echo $(A)\n", "one/rules": other})
        self.port("one")
        for name, said in (("one/rules", "echo other \n"), ("other/Makefile", "echo other 2\n")):
            ran = self.run_in("make", "-n", "--no-print-directory", "-C", name.split("/")[0], "-f", name.split("/")[1])
            self.assertEqual(ran.out, said)
        text = self.read("mk/a.mk")
        self.assertIn("Makefile: 1 value in kati-values.mk: 1 shell\n", self.port("other"))
        self.assertEqual(self.read("mk/a.mk"), text)

    def test_what_another_port_adds_to_an_include_changes_no_program(self):
        own = "N = $(shell echo own)\ntree_common_N = $(shell echo too)\ninclude ../common.mk\n" \
            "all: ; echo $(tree_common_N) $(N) $(shell echo one) $(M)\n"
        include = "ifdef B\nN := $(shell echo b)\nifeq ($(shell echo one),one)\nM = 1\nendif\nendif\n"
        self.put_all({"common.mk": include, "a/Makefile": own, "b/Makefile": f"B = 1\n{own}"})
        self.port("a")
        self.assertEqual(self.makes_commands("a"), "echo too own one \n")
        self.port("b")
        self.assertEqual(self.makes_commands("a"), "echo too own one \n")
        self.assertEqual(self.makes_commands("b"), "echo too b one 1\n")
        # A value of both is two macros.
        text = self.read("common.mk")
        self.assertEqual(text.split("ifdef B\n")[0], "ifdef MAKE_VERSION\nV_tree_common_N = $(shell echo b)\n"
                         "V_tree_common_shell = $(shell echo one)\nendif\n")
        for line in ("V_shell = $(shell echo one)", "V__tree_common_N = $(shell echo too)"):
            self.assertIn(f"\n{line}\n", self.read("b/kati-values.mk"))
        self.assertIn("Makefile: 2 values in kati-values.mk: 2 shell\n", self.port("a"))
        self.assertEqual(self.makes_commands("a"), "echo too own one \n")
        self.assertIn("Makefile: kati takes it as it is\n", self.port("a"))
        self.assertEqual(self.read("common.mk"), text)

    def test_macros_of_targets_that_another_program_needs_too_or_does_not_need(self):
        include = "F = 0\ndebug: F += 1\nall: G = 2\ndebug: F += 3\n"
        own = "all: ; echo $(F) $(G)\ninclude ../mk/a.mk\n"
        self.put_all({"mk/a.mk": include, "one/Makefile": own, "two/Makefile": f"all: debug\n{own}debug: ; echo $(F)\n",
                      "three/Makefile": f"{own}debug: ; echo $(G)\n"})
        wanted = {folder: self.makes_commands(folder) for folder in ("one", "two", "three")}
        for folder in ("one", "two", "three", "one", "two"):
            self.port(folder)
        self.assertEqual(self.read("mk/a.mk").count("ifdef MAKE_VERSION\n"), 3)
        self.assertEqual({folder: self.makes_commands(folder) for folder in wanted}, wanted)
        text = self.read("mk/a.mk")
        for folder in wanted:
            self.assertIn("Makefile: kati takes it as it is\n", self.port(folder))
        self.assertEqual(self.read("mk/a.mk"), text)

    def test_the_shell_that_an_include_names_where_two_programs_export(self):
        own = "export A = 1\ninclude ../mk/a-b.mk\n"
        self.put_all({"mk/a-b.mk": "all: ; '$(SHELL)' -c 'echo $$A'\n", "one/Makefile": own, "two/Makefile": own})
        text = "ifdef MAKE_VERSION\nV_mk_a_b_SHELL = $(SHELL)\nendif\nall: ; '$(V_mk_a_b_SHELL)' -c 'echo $$A'\n"
        for folder in ("one", "two", "one"):
            self.port(folder)
            self.assertEqual(self.read("mk/a-b.mk"), text)
            self.assertEqual(self.makes_commands(folder), "'/bin/sh' -c 'echo $A'\n")
        self.assertEqual(self.read("two/kati-values.mk"), self.read("one/kati-values.mk"))

    def test_includes_of_one_name_in_two_folders(self):
        both = "include a/m.mk b/m.mk\nall: of-a of-b\n"
        self.put_all({"a/m.mk": "of-a: ; echo $(shell echo a)\n", "a/Makefile": "include m.mk\n",
                      "b/m.mk": "of-b: ; echo $(shell echo b)\n", "b/Makefile": "include ../b/m.mk\n",
                      "Makefile": f".DEFAULT_GOAL = all\n{both}", "sub/Makefile": f"all:\ninclude ../m.mk\n",
                      "m.mk": both.replace("include ", "include ../").replace(" b/", " ../b/")})
        for folder in ("a", "b", "sub", "."):
            self.port(folder)
            for other in (".", "sub"):
                self.assertEqual(self.makes_commands(other), "echo a\necho b\n", f"{other} after a port of {folder}")
        self.assertIn("\nV_a_m_shell = $(shell echo a)\nV_b_m_shell = $(shell echo b)\n", self.read("kati-values.mk"))

    def test_a_port_keeps_the_names_that_an_include_has(self):
        text = "ifdef MAKE_VERSION\nV_A = $(shell echo 1)\nendif\nA := $(V_A)\n"
        self.put_all({"mk/a-b.mk": text + "B := $(shell echo 1)\n",
                      "one/Makefile": "include ../mk/a-b.mk\nall: ; echo $(A) $(B) $(shell echo 1)\n"})
        self.port("one")
        self.assertEqual(self.read("mk/a-b.mk"), text + "B := $(V_A)\n")
        self.assertIn("\nV_shell = $(shell echo 1)\n", self.read("one/kati-values.mk"))
