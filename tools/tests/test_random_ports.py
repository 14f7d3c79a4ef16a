"""Random makefiles that are ported: make builds by them what it did, and where the port says that kati's commands are
make's, ninja builds it too, what commands take from their environment included.

The seed is fixed. KATI_RANDOM_TREES says how many are tried, and KATI_RANDOM_SEED which."""
import os
import random
import shutil

from support import Tree, needs

from kati_tools.base.programs import DIFFERS  # noqa: E402

TREES = int(os.environ.get("KATI_RANDOM_TREES", "20"))
SEED = int(os.environ.get("KATI_RANDOM_SEED", "4"))

MACROS = [f"M{number}" for number in range(8)]
WORDS = ["ab", "c.c", "src/x.c", "d.o", "e-1", "yes", "1.2"]
AUTOMATIC = ["$@", "$<", "$^", "$(@F)", "$(<F)"]
# What kati refuses, or has no value for.
ASKING = ["$(shell echo {word})", "$(shell cat version.txt)", "$(wildcard src/*.c)", "$(wildcard *.txt)",
          "$(notdir $(wildcard src/*))", "$(origin CC)", "$(origin {macro})", "$(notdir $(abspath src/../{word}))",
          "$(notdir $(realpath version.txt))", "$(notdir $(CURDIR))", "$(MAKECMDGOALS)", "$(MAKELEVEL)"]
CALLS = ["$(patsubst %.c,%.o,{0})", "$(sort {0})", "$(foreach v,{0},[$(v)])", "$(call F,{0},{1})", "$(words {0})",
         "$(if {0},{1},{0})", "$(filter %.c yes,{0})", "$(subst a,b,{0})", "$(or {0},{1})", "$(addprefix p-,{0})"]
CONDITIONS = ["ifdef {macro}", "ifndef {macro}", "ifeq ({0},{1})", "ifneq \"{0}\" \"{word}\"",
              "ifeq ($(origin {macro}),undefined)", "ifeq ($(shell echo yes),yes)"]
OTHERS = {"version.txt": "3.1\n", "src/x.c": "x\n", "src/y.c": "y\n", "c.c": "c\n"}


class RandomMakefile:
    """A makefile with an include. A deferred macro names later ones alone, so that none goes in a circle."""

    def __init__(self, seed):
        self.chance = random.Random(seed)
        self.targets = [f"o{number}" for number in range(self.chance.randint(2, 5))]
        # How much of what kati refuses there is, and of nested calls.
        self.asking, self.nesting = self.chance.random() / 2, self.chance.random() / 3
        self.has_exports = self.chance.random() < 0.5

    def files(self):
        """The files, by name."""
        include = [line for _ in range(self.chance.randint(0, 4)) for line in self.statement()]
        lines = ["F = $(1)-$(2)", "include own.mk"]
        lines += [line for _ in range(self.chance.randint(2, 8)) for line in self.statement()]
        lines += [f"all: {' '.join(self.targets)}"]
        lines += [line for number in range(len(self.targets)) for line in self.rule(number)]
        return {**OTHERS, "Makefile": "\n".join([*lines, ""]), "own.mk": "\n".join([*include, ""])}

    def text(self, macros=tuple(MACROS), depth=2, more=()):
        """Some words that name these macros, or `more`."""
        return " ".join(self.word(macros, depth, more) for _ in range(self.chance.randint(1, 3)))

    def word(self, macros, depth, more):
        kind = self.chance.random()
        if more and kind < 0.2:
            return self.chance.choice(more)
        if macros and kind < 0.5:
            return f"$({self.chance.choice(macros)})"
        if depth and self.chance.random() < self.asking:
            return self.chance.choice(ASKING).format(word=self.chance.choice(WORDS), macro=self.chance.choice(MACROS))
        if depth and self.chance.random() < self.nesting:
            return self.chance.choice(CALLS).format(*(self.text(macros, depth - 1, more) for _ in range(2)))
        return self.chance.choice(WORDS)

    def statement(self, depth=1):
        """The lines of a statement."""
        kinds = [self.assignment] * 5 + [self.of_target] + [self.export] * self.has_exports
        return self.chance.choice(kinds + [lambda: self.conditional(depth - 1)] * depth)()

    def assignment(self):
        number = self.chance.randrange(len(MACROS))
        later = self.text(MACROS[number + 1:])
        value = {":=": self.text(), "!=": f"echo {self.chance.choice(WORDS)}"}
        operator = self.chance.choice(["=", "=", ":=", ":=", "?=", "+=", "!="])
        return [f"{MACROS[number]} {operator} {value.get(operator, later)}"]

    def of_target(self):
        number, words = self.chance.randrange(len(MACROS)), ["", "", "override ", "export "][:3 + self.has_exports]
        targets = self.chance.choice([*self.targets, "all", "other", "o%"])
        return [f"{targets}: {self.chance.choice(words)}{MACROS[number]} {self.chance.choice(['=', '+='])} "
                f"{self.text(MACROS[number + 1:])}"]

    def export(self):
        number = self.chance.randrange(len(MACROS))
        return [self.chance.choice([f"{MACROS[number]} += {self.chance.choice(WORDS)}\nexport {MACROS[number]}",
                                    f"export {MACROS[number]} := {self.text()}", f"unexport {MACROS[number]}",
                                    f"export {MACROS[number]} = {self.text(MACROS[number + 1:])}"])]

    def conditional(self, depth):
        condition = self.chance.choice(CONDITIONS).format(self.text(), self.text(), word=self.chance.choice(WORDS),
                                                          macro=self.chance.choice(MACROS))
        other = ["else", *self.statement(depth)] if self.chance.random() < 0.5 else []
        return [condition, *self.statement(depth), *other, "endif"]

    def rule(self, number):
        """A rule whose recipe writes what it has of macros and of the environment."""
        needs_of = [name for name in self.targets[number + 1:] if self.chance.random() < 0.4]
        needs_of += [name for name in OTHERS if self.chance.random() < 0.3]
        told = "".join(f' "$${{{name}-none}}"' for name in self.chance.sample(MACROS, 3))
        return [f"{self.targets[number]}: {' '.join(needs_of)}",
                f"\tprintf '%s\\n' '{self.text(more=AUTOMATIC)}'{told} > $@",
                f"\t@echo '{self.text(more=AUTOMATIC)}' >> $@"]


@needs("kati", "kati-asked", "make", "ninja")
class RandomPorts(Tree):
    """What make builds before and after a port, and ninja."""

    def built(self, targets, *words):
        """The words in the files that a build makes; they are taken away again."""
        ran = self.run_in(*words)
        self.assertEqual(ran.status, 0, ran.all)
        found = {name: self.read(name).split() for name in targets}
        for name in targets:
            (self.top / name).unlink()
        return found

    def is_same(self, seed):
        """Compares the builds of one makefile; answers whether the port says that they are the same."""
        makefile = RandomMakefile(seed)
        self.put_all(makefile.files())
        wanted = self.built(makefile.targets, "make")
        ran = self.run_in(self.tool_path("kati-port"), "--write", "Makefile")
        is_said = "kati's commands are make's" in ran.out
        self.assertEqual(ran.status, 0 if is_said else DIFFERS, ran.all)
        self.assertEqual(self.built(makefile.targets, "make"), wanted)
        if not is_said:
            return False
        by_kati = self.built(makefile.targets, self.tool_path("kati-build"), "--builtin")
        self.assertEqual(by_kati, wanted, ran.out)
        return True

    def test_make_builds_what_it_did_and_ninja_the_same(self):
        count = 0
        for seed in range(SEED * 1000, SEED * 1000 + TREES):
            with self.subTest(seed=seed):
                shutil.rmtree(self.top)
                count += self.is_same(seed)
        self.assertGreaterEqual(count, TREES * 0.8)
