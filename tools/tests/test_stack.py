"""The deepest makefiles that kati takes, in half the usual stack: `--depth 400` and 4 MB.

Each shape nests one way as deep as the limit lets it: one level more is a fault, so it is as deep as it says. Each
level leaves a mark in the Ninja file, and the marks were worked out by hand.
"""
from support import Tree, kati, needs

# The greatest --depth, and the stack in blocks of 1,024 bytes, as `ulimit -s` takes it.
LEVELS = 400
STACK = 4096

UP = range(1, LEVELS + 1)
DOWN = range(LEVELS, 0, -1)


def each(levels, form, last):
    """A line, or a piece, for each level, with its number and the next one; the last level has a form of its own."""
    return "".join(form.format(i, i + 1) for i in range(1, levels)) + last.format(levels)


def nested(levels, opens, inner=""):
    """References in one another, each with its number."""
    return "".join(opens.format(i) for i in range(1, levels + 1)) + inner + ")" * levels


@needs("kati")
class Stack(Tree):
    """A run in little stack: its Ninja file, and the fault of one level more."""

    def deepest(self):
        return self.run_in("sh", "-c", f'ulimit -s {STACK} && exec "$@"', "sh", kati(), "--depth", LEVELS)

    def gives(self, write, *lines):
        """A shape of all levels gives these lines of a Ninja file, without a message; one level more is a fault."""
        write(LEVELS)
        ran = self.deepest()
        self.assertEqual((ran.status, ran.said), (0, ""))
        self.assertEqual(ran.out.splitlines(), ["# kati", *lines, "default all"])
        write(LEVELS + 1)
        ran = self.deepest()
        self.assertEqual((ran.status, ran.out), (2, ""))
        self.assertRegex(ran.said, r"^[^\n]*: \*\*\* nesting too deep \[E08\]\n$")

    def needs_names(self, write, names):
        """A shape makes these the prerequisites of `all`."""
        self.gives(write, f"build all: phony {' '.join(map(str, names))}")

    def makefile(self, form):
        """Writes a makefile of so many levels, by a function of their number."""
        return lambda levels: self.put("Makefile", form(levels))

    def test_values(self):
        self.needs_names(self.makefile(
            lambda levels: each(levels, "V{0} = {0} $(V{1})\n", "V{0} = {0}\n") + "all: $(V1)\n"), UP)

    def test_values_in_a_recipe(self):
        self.gives(self.makefile(
            lambda levels: each(levels, "V{0} = {0} $(V{1})\n", "V{0} = {0}\n") + "all: ; echo $(V1)\n"),
            "rule r0", f" command = /bin/sh -c 'echo {' '.join(map(str, UP))}'", "build all: r0")

    def test_computed_names(self):
        # The innermost reference has a name without a dollar, and so is no level.
        self.needs_names(self.makefile(
            lambda levels: "N1 := end\n" + "".join(f"N{i + 1} := N{i}\n" for i in range(1, levels + 1))
            + "all: " + "$(" * (levels + 1) + f"N{levels + 1}" + ")" * (levels + 1) + "\n"), ["end"])

    def test_substitution_references(self):
        self.needs_names(self.makefile(
            lambda levels: each(levels, "V{0} = $(V{1}:%=%-)\n", "V{0} = x\n") + "all: $(V1)\n"),
            ["x" + "-" * (LEVELS - 1)])

    def test_includes(self):
        def write(levels):
            self.put("Makefile", "include f1.mk\n")
            for level in range(1, levels):
                self.put(f"f{level}.mk", f"include f{level + 1}.mk\nall: {level}\n")
            self.put(f"f{levels}.mk", f"all: {levels}\n")

        self.needs_names(write, DOWN)

    def test_calls_in_arguments_of_calls(self):
        self.needs_names(self.makefile(lambda levels: "f = $(1)-\nall: " + nested(levels, "$(call f,", "x") + "\n"),
                         ["x" + "-" * LEVELS])

    def test_calls_in_values_of_calls(self):
        self.needs_names(self.makefile(
            lambda levels: each(levels, "F{0} = {0} $(call F{1},$(1))\n", "F{0} = {0} $(1)\n")
            + "all: $(call F1,x)\n"), [*UP, "x"])

    def test_evals_in_names_of_macros(self):
        self.needs_names(self.makefile(
            lambda levels: each(levels, "E{0} := A{0}$$(eval $$(E{1})) = {0}\n", "E{0} := A{0} = {0}\n")
            + "$(eval $(E1))\nall: " + " ".join(f"$(A{i})" for i in range(1, levels + 1)) + "\n"), UP)

    def test_evals_in_conditions(self):
        self.needs_names(self.makefile(
            lambda levels: each(levels, "define E{0} :=\nifdef NO\nelse ifeq ($$(eval $$(E{1})),)\nall: {0}\nendif\n"
                                        "endef\n", "E{0} := all: {0}\n") + "$(eval $(E1))\n"), DOWN)

    def test_foreachs(self):
        self.needs_names(self.makefile(lambda levels: "all: " + nested(levels, "$(foreach a{0},{0},$(a{0}) ") + "\n"),
                         UP)

    def test_ifs(self):
        self.needs_names(self.makefile(lambda levels: "all: " + nested(levels, "$(if y,{0} ") + "\n"), UP)

    def test_ifs_in_a_condition(self):
        self.needs_names(self.makefile(
            lambda levels: "ifeq (" + nested(levels, "$(if y,{0}-") + ","
            + "".join(f"{i}-" for i in range(1, levels + 1)) + ")\nall: x\nendif\n"), ["x"])
