"""A tree that is built by GNU make and by kati-build --ask at the same path, step by step."""
from __future__ import annotations

import textwrap
from typing import NamedTuple

from trees import Tree

DONE = ("up to date", "Nothing to be done")
UNLIKE = ".not"                  # files that hold the time are not compared


class Steps(NamedTuple):
    """`words` are arguments of make; each of the `steps` is a shell command, after which the tree is built again."""

    makefile: str
    files: dict
    words: list
    steps: list


def steps(makefile, files=None, words=(), steps=()):
    """A tree; four blanks at the beginning of a makefile's line are a tab."""
    return Steps(textwrap.dedent(makefile).lstrip("\n").replace("    ", "\t"), files or {}, list(words), list(steps))


class Compared(Tree):
    """Each tree is built from scratch, after each step, and once more."""

    def states(self, tree, build):
        """What each build leaves: whether it failed, the files, and what it printed."""
        self.start_again()
        self.put({"Makefile": tree.makefile, **tree.files})
        found = []
        for step in (None, *tree.steps, None):
            if step:
                self.sh(f"sleep 0.02; {step}")
            ran = build(*tree.words)
            files = {name: data for name, data in self.contents().items() if not name.endswith(UNLIKE)}
            found.append((ran.status != 0, files, ran))
        return found

    def check(self, name, tree, is_different=False, settles=True):
        """Compares the builds of a tree; one that is listed as different must be that."""
        made, built = self.states(tree, self.make), self.states(tree, self.build)
        if is_different:
            self.assertNotEqual([one[:2] for one in made], [one[:2] for one in built], "built as by make after all")
            return
        for number, (of_make, ours) in enumerate(zip(made, built)):
            with self.subTest(name, step=number):
                self.assertEqual(of_make[0], ours[0], ours[2].said)
                self.assertEqual(of_make[1], ours[1], ours[2].said)
        is_done = any(words in made[-1][2].said for words in DONE)
        self.assertFalse(is_done and settles and not built[-1][0] and built[-1][2].has_work, built[-1][2].said)


def add_tests(case, trees, check):
    """Adds a test for each of the trees to a class."""
    for number, name in enumerate(trees):
        setattr(case, f"test_{number:02}_{name.replace(' ', '_')}", lambda self, name=name: check(self, name))
