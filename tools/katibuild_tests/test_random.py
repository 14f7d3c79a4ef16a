"""Random edits and builds: after each step, the program is what make builds from scratch.

KATI_RANDOM_TREES says how many trees are tried, KATI_RANDOM_SEED which.
"""
from __future__ import annotations

import os
import random
import unittest

from trees import Ran, Tree

FORMS = (
    "%.o: %.c\n\t$(CC) $(CFLAGS) -MMD -c -o $@ $<\n-include $(SRCS:.c=.d)\n",
    "%.o: %.c\n\t$(CC) $(CFLAGS) -MMD -MP -c -o $@ $<\n-include $(wildcard *.d)\n",
    "%.o: %.c\n\t$(CC) $(CFLAGS) -c -o $@ $<\n%.d: %.c\n\t$(CC) -MM -MP -MT $*.o -MT $@ $< > $@\n"
    "include $(SRCS:.c=.d)\n",
    "%.o: %.c\n\t$(CC) $(CFLAGS) -c -o $@ $<\n.depend: $(SRCS)\n\t$(CC) -MM $(SRCS) > $@\n-include .depend\n",
    "%.o: %.c\n\t@mkdir -p .deps\n\t$(CC) $(CFLAGS) -MMD -MP -MF .deps/$*.d -c -o $@ $<\n"
    "-include $(wildcard .deps/*.d)\n",
)
HEAD = "SRCS := $(wildcard *.c)\nCFLAGS = -O0\nprog: $(SRCS:.c=.o)\n\t$(CC) -o $@ $^\nclean:\n\trm -f *.o prog\n"
HEADERS = ("a.h", "b.h", "c.h")


class Random(Tree):
    """Sequences of edits; the sum of all headers' values is what the program prints."""

    def main_text(self, rng):
        """A main program that includes some headers."""
        names = rng.sample(HEADERS, rng.randint(1, 3))
        values = " + ".join(name[0].upper() for name in names)
        includes = "".join(f'#include "{name}"\n' for name in names)
        return f'{includes}#include <stdio.h>\nint main(void) {{ printf("%d\\n", {values}); return 0; }}\n'

    def edit(self, rng):
        """One edit, and what it was."""
        kind = rng.choice(("header", "header", "main", "add", "remove", "flag", "touch", "older", "nothing", "object"))
        if kind == "header":
            name = rng.choice(HEADERS)
            self.put({name: f"#define {name[0].upper()} {rng.randint(1, 999)}\n"})
        elif kind == "main":
            self.put({"main.c": self.main_text(rng)})
        elif kind == "add":
            self.put({f"x{rng.randint(1, 3)}.c": f'#include "a.h"\nstatic int x = A + {rng.randint(1, 9)};\n'})
        elif kind == "remove":
            self.sh("rm -f x*.c x*.d .deps/x*.d")
        elif kind == "flag":
            self.sh(f"sed -i 's/^CFLAGS = .*/CFLAGS = -O{rng.randint(0, 1)}/' Makefile")
        elif kind == "touch":
            self.sh("touch main.c a.h")
        elif kind == "older":
            self.sh("cp -p main.c old; touch -d '3 days ago' old; mv old main.c")
        elif kind == "object":
            self.sh("rm -f main.o")
        return kind

    def printed(self):
        """What the program prints."""
        return Ran([self.top / "prog"], self.top).said

    def from_scratch(self):
        """What make's program prints, built from scratch elsewhere."""
        self.sh("rm -rf ../scratch; mkdir ../scratch; cp *.c *.h Makefile ../scratch")
        ran = Ran(["make", "-s"], self.top.parent / "scratch")
        self.assertEqual(0, ran.status, ran.said)
        return Ran([self.top.parent / "scratch/prog"], self.top).said

    def try_tree(self, seed):
        """One tree, edited twelve times."""
        rng = random.Random(seed)
        self.start_again()
        self.put({"Makefile": HEAD + FORMS[seed % len(FORMS)], "main.c": self.main_text(rng),
                  **{name: f"#define {name[0].upper()} {rng.randint(1, 999)}\n" for name in HEADERS}})
        history = []
        ran = self.build()
        for _ in range(12):
            self.assertEqual(0, ran.status, f"{history}\n{ran.said}")
            self.assertEqual(self.from_scratch(), self.printed(), f"{history}\n{ran.said}")
            edits = [self.edit(rng) for _ in range(rng.randint(1, 2))]
            by = rng.choice((self.build, self.ninja, self.ninja, self.make))
            history.append((edits, by.__name__))
            ran = by()

    def test_random_trees(self):
        first = int(os.environ.get("KATI_RANDOM_SEED", "1"))
        for seed in range(first, first + int(os.environ.get("KATI_RANDOM_TREES", "2"))):
            with self.subTest(seed=seed):
                self.try_tree(seed)


if __name__ == "__main__":
    unittest.main()
