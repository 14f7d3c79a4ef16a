"""Makefiles with includes that rules make: the scenarios of tools/tests, each step by make and by kati-build --ask."""
from __future__ import annotations

import os
import sys
import unittest
from pathlib import Path

from trees import BUILD, OWN

sys.path.append(str(Path(__file__).resolve().parent.parent / "tests"))

import include_forms  # noqa: E402
import include_scenarios  # noqa: E402
import include_trees  # noqa: E402
from support import Tree, needs  # noqa: E402

ALL = {**include_trees.TREES, **include_forms.FORMS}
GONE = ("it goes",)
QUICK = 7          # without KATI_INCLUDES each so-manieth scenario is tried, and those that the old tests always try


class Asked(include_scenarios.Compared):
    """A scenario with kati-build --ask in the place of the old one: make as it is says what must be.

    What Ninja alone makes, as its command has changed (`anew`), may run and may differ. An include that make makes at
    each run is made by Ninja, too: a plain ninja reads it at its next start, kati-build in the same run.
    """

    is_by_kati_build = False

    def by_ninja(self, is_first=False):
        return include_scenarios.Outcome([*BUILD, *self.scenario.goals, self.jobs] if is_first or self.is_by_kati_build
                                         else ["ninja", *self.goals(), self.jobs], self.ninja)

    def goals(self):
        """The Ninja file of other goals."""
        found = list((self.ninja / ".kati/goals").glob("*/build.ninja"))
        return ["-f", str(found[0].relative_to(self.ninja))] if self.scenario.goals and found else []

    def try_step(self, step, is_first):
        for folder in (self.make, self.ninja):
            self.test.let_time_pass()
            step.edit_in(folder)
        self.test.let_time_pass()
        made, built = self.by_make(), self.by_ninja(is_first or not (self.ninja / "build.ninja").exists())
        said = f"\n{made.said}\n-- ninja:\n{built.said}"
        is_gone = step.label in GONE and made.status != 0     # Ninja takes a header that is gone for a changed one
        self.test.assertEqual(made.status == 0 or is_gone, built.status == 0,
                              f"status {made.status} and {built.status}{said}")
        if made.status == 0:
            self.compare(step, made, built, said)
            one, other = contents(self.make), contents(self.ninja)
            more = set(built.ran) if step.anew else ()
            include_scenarios.without(*(name for name in {*step.anew, *more} if one.get(name) != other.get(name)))(
                self.make)
            self.by_make()
            self.test.assertEqual(contents(self.make), contents(self.ninja), f"the files{said}")
            self.try_quiet(step, self.by_make().ran)

    def compare(self, step, made, built, said):
        """What ran, and the files."""
        includes = {name for name in {*made.ran, *built.ran} if self.INCLUDES.fullmatch(name)}
        free = {*step.anew, *includes}
        # what is made anew has users
        more = set(built.ran) if step.anew else set(made.ran)
        self.test.assertLessEqual(set(made.ran) - free, set(built.ran), f"what ran{said}")
        self.test.assertEqual(set(), set(built.ran) - free - more, f"what ran{said}")
        one, other = contents(self.make), contents(self.ninja)
        same = {*one, *other} - {*step.anew} - (set(built.ran) - set(made.ran) if step.anew else set())
        self.test.assertEqual({name: one.get(name) for name in same}, {name: other.get(name) for name in same},
                              f"the files{said}")


def contents(folder):
    """The files of a folder but for those of kati-build and ninja."""
    found = {}
    for at, folders, names in os.walk(folder):
        folders[:] = [name for name in folders if name not in OWN]
        paths = [Path(at) / name for name in names if name not in (*OWN, *include_scenarios.OWN)]
        found.update({str(path.relative_to(folder)): path.read_bytes() for path in paths})
    return found


@needs("kati", "make", "ninja", "gcc")
class Includes(Tree):
    """Trees, and edits of them."""

    def setUp(self):
        super().setUp()
        before = include_scenarios.contents
        include_scenarios.contents = contents
        self.addCleanup(setattr, include_scenarios, "contents", before)


def tried(name, scenario):
    """A test of a scenario."""
    def test(self):
        compared = Asked(self, scenario, self.top, words=("--ask", "--port"))
        compared.is_by_kati_build = name.startswith("forced")
        compared.run()
    return test


for number, name in enumerate(ALL):
    if os.environ.get("KATI_INCLUDES") or name in include_trees.QUICK or number % QUICK == 0:
        setattr(Includes, f"test_{name.replace(' ', '_').replace(',', '')}", tried(name, ALL[name]))


if __name__ == "__main__":
    unittest.main()
