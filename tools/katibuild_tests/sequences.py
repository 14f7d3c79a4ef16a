"""Sequences of edits and builds: each is done by make, and then by kati-build in an equal tree at the same path."""
from __future__ import annotations

import time
from typing import Mapping, NamedTuple, Tuple

from trees import Tree

BUILD, NINJA, MAKE = "build", "ninja", "make"


class Step(NamedTuple):
    """An edit, a shell text, and the build after it.

    `by` says what builds in kati-build's tree: kati-build, a plain ninja, or make, as for builds by turns. `apart` are
    files that differ by nature.
    """

    edit: str = ":"
    words: Tuple[str, ...] = ()
    by: str = BUILD
    environment: Mapping[str, str] = {}
    apart: Tuple[str, ...] = ()
    may_run: Tuple[str, ...] = ()                # targets that Ninja alone makes here, by its nature
    most_readings: int = 2


class Sequence(NamedTuple):
    """A tree, by the texts of its files, and what happens in it. Recipes with `@@` write their target to a log."""

    name: str
    files: Mapping[str, str]
    steps: Tuple[Step, ...]
    is_settled: bool = True                      # a build with no edit has nothing to do


class After(NamedTuple):
    """What there is after a step."""

    status: int
    contents: Mapping[str, object]
    ran: Tuple[str, ...]
    said: str
    readings: int


def unequal(one, other):
    """The files that differ, each with the beginning of what both have."""
    return {name: (str(one.get(name))[:60], str(other.get(name))[:60]) for name in one.keys() | other.keys()
            if one.get(name) != other.get(name)}


class Compared(Tree):
    """Does sequences by make and by kati-build."""

    def log(self):
        """The targets that recipes wrote since the last call, sorted."""
        path = self.top.parent / "log"
        found = tuple(sorted(path.read_text().split())) if path.exists() else ()
        path.write_text("")
        return found

    def done(self, sequence, is_by_make):
        """What there is after each step of a sequence."""
        self.start_again()
        self.put({name: text.replace("@@", "@echo $@ >> ../log;") for name, text in sequence.files.items()})
        found = []
        for step in sequence.steps:
            time.sleep(0.02)                     # two times in a row differ, however coarse the clock is
            self.sh(step.edit)
            self.log()
            call = self.make if is_by_make else getattr(self, step.by)
            ran = call(*step.words, **step.environment)
            contents = {name: data for name, data in self.contents().items() if name not in step.apart}
            found.append(After(ran.status, contents, self.log(), ran.said, len(ran.reasons)))
        return found

    def compare(self, sequence):
        """Holds kati-build's steps against make's: status, files, and what ran."""
        made, built = self.done(sequence, True), self.done(sequence, False)
        for number, (step, one, other) in enumerate(zip(sequence.steps, made, built), 1):
            with self.subTest(sequence=sequence.name, step=number, edit=step.edit):
                said = f"\n-- make:\n{one.said}\n-- kati-build:\n{other.said}"
                self.assertEqual(one.status == 0, other.status == 0, said)
                self.assertEqual({}, unequal(one.contents, other.contents), said)
                self.assertEqual(set(), set(other.ran) - {*one.ran, *step.may_run}, said)
                self.assertEqual(one.ran, tuple(name for name in other.ran if name not in step.may_run or
                                                name in one.ran), said)
                self.assertLessEqual(other.readings, step.most_readings, said)
        if sequence.is_settled and built[-1].status == 0:
            self.check_settled(sequence)

    def check_settled(self, sequence):
        """A build in a tree in which nothing changed has nothing to do, and a ninja after that, too."""
        words = [] if sequence.steps[-1].by == NINJA else list(sequence.steps[-1].words)
        self.build(*words)
        self.log()
        for ran in (self.build(*words), *([] if words else [self.ninja()])):
            with self.subTest(sequence=sequence.name, settled=True):
                self.assertEqual((0, [], False, ()), (ran.status, ran.reasons, ran.has_work, self.log()), ran.said)
