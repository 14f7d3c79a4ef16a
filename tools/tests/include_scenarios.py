"""Scenarios of includes that rules make: trees and edits, each step under make and under ninja in equal trees."""
import collections
import os
import re
import shutil
import time
from pathlib import Path

from support import TOOLS, Ran

OWN = ("build.ninja", ".ninja_log", ".ninja_deps", "kati-values.mk")
LOG = "RAN_LOG"


def makefile(text):
    """A makefile's text in which `@@` begins a recipe that tells of its target."""
    return text.replace("@@", f"@echo $@ >> $${LOG};")


class Step:
    """An edit, which is given the folder, or files by their names.

    `anew` are files that ninja makes anew by itself, as their command has changed or what is said of them can't be so
    any more; for make they are taken away. Where `is_often`, ninja may make a target several times that is made each
    time. `good` says whether both end well, where only that is compared. Where `is_open`, the makefile is translated at
    each run, since a file is gone that an include needs."""

    def __init__(self, label, edit=None, anew=(), is_often=False, good=None, is_open=False):
        self.label, self.edit, self.anew, self.is_often, self.good = label, edit, anew, is_often, good
        self.is_open = is_open

    def edit_in(self, folder):
        """Does the edit in a folder."""
        if callable(self.edit):
            self.edit(folder)
        elif self.edit:
            write(folder, self.edit)


class Scenario:
    """A tree of files by their names and the steps of its edits, after a first one without any."""

    def __init__(self, files, *steps, goals=(), first=None):
        self.files, self.steps, self.goals = files, [first or Step("first"), *steps], goals


def write(folder, files):
    """Writes files by their names; those of None are taken away."""
    for name, text in files.items():
        path = Path(folder) / name
        path.parent.mkdir(parents=True, exist_ok=True)
        if text is None:
            path.unlink()
        else:
            path.write_text(text)


def without(*names):
    """An edit that takes files and folders away, if they are there."""
    def edit(folder):
        for name in names:
            path = Path(folder) / name
            if path.is_dir():
                shutil.rmtree(path)
            elif path.exists():
                path.unlink()
    return edit


def touched(*names, later=0):
    """An edit that gives files the time of now, or of some seconds later."""
    def edit(folder):
        for name in names:
            times = (time.time() + later,) * 2 if later else None
            os.utime(Path(folder) / name, times)
    return edit


def replaced(name, text, other):
    """An edit that replaces a text in a file."""
    def edit(folder):
        path = Path(folder) / name
        before = path.read_text()
        assert text in before, (name, text)
        path.write_text(before.replace(text, other))
    return edit


def both(*edits):
    """An edit that does several, one after another."""
    def edit(folder):
        for one in edits:
            Step("", one).edit_in(folder)
    return edit


def contents(folder):
    """The files of a folder, but for those of kati-build and ninja, by their names."""
    found = {}
    for at, folders, names in os.walk(folder):
        folders[:] = [name for name in folders if name != "build.kati"]
        paths = [Path(at) / name for name in names if name not in OWN]
        found.update({str(path.relative_to(folder)): path.read_bytes() for path in paths})
    return found


class Outcome:
    """What a command did: its status, the targets of which recipes told, and what it said."""

    def __init__(self, words, folder):
        log = folder.parent / f"{folder.name}.log"
        log.write_text("")
        ran = Ran(words, folder, **{LOG: str(log)})
        self.status, self.said = ran.status, ran.all
        self.ran = collections.Counter(log.read_text().split("\n")[:-1])


class Compared:
    """A scenario in two equal folders below another one, of which each step is tried: by make in one, in the other by
    kati-build with these words and then by ninja."""

    # What make makes while it is asked for values tells of itself, too: includes, and what they are made from, as `make
    # -n` makes them.
    INCLUDES = re.compile(r".*\.(d|mk|depend|in)|\.depend|Makefile|dep|gen(\.h)?|config\.status")

    def __init__(self, test, scenario, place, words=(), jobs="-j1"):
        self.test, self.scenario, self.words, self.jobs = test, scenario, words, jobs
        self.is_port = "--port" in words
        self.is_asked = self.is_port or "kati-values.mk" in scenario.files
        self.make, self.ninja = Path(place) / "make/tree", Path(place) / "ninja/tree"
        for folder in (self.make, self.ninja):
            folder.mkdir(parents=True)
            write(folder, scenario.files)

    def run(self):
        """Tries all steps."""
        for number, step in enumerate(self.scenario.steps):
            with self.test.subTest(step=step.label):
                self.try_step(step, number == 0)

    def by_make(self):
        """What make does."""
        return Outcome(["make", *self.scenario.goals], self.make)

    def by_ninja(self, is_first=False):
        """What stands against it: kati-build at first, then ninja alone."""
        first = [TOOLS / "kati-build", *self.words, *self.scenario.goals, "--"]
        return Outcome([*(first if is_first else ["ninja"]), self.jobs], self.ninja)

    def try_step(self, step, is_first):
        """Tries a step: what ran, the status, the files; then two runs with nothing to do."""
        for folder in (self.make, self.ninja):
            self.test.let_time_pass()
            step.edit_in(folder)
        without(*step.anew)(self.make)
        self.test.let_time_pass()
        made, built = self.by_make(), self.by_ninja(is_first)
        said = f"\n{made.said}\n-- ninja:\n{built.said}"
        self.test.assertEqual(made.status == 0, built.status == 0, f"status {made.status} and {built.status}{said}")
        if step.good is None:
            counts = set if step.is_often or self.is_port else self.counted
            self.test.assertEqual(counts(self.with_asked(made, built)), counts(built.ran), f"what ran{said}")
            self.test.assertEqual(contents(self.make), contents(self.ninja), "the files")
        else:
            self.test.assertEqual(step.good, built.status == 0, said)
        if made.status == 0 and built.status == 0:
            self.try_quiet(step, self.by_make().ran)

    def counted(self, ran):
        """How often each ran; once for what may have been made again while make was asked."""
        return {name: 1 if self.is_asked and self.INCLUDES.fullmatch(name) else many
                for name, many in collections.Counter(ran).items()}

    def with_asked(self, made, built):
        """What ran by make, with what may have run in the other folder while make was asked."""
        more = set(built.ran) - set(made.ran) if self.is_asked else ()
        return [*made.ran.elements(), *filter(self.INCLUDES.fullmatch, more)]

    def try_quiet(self, step, again):
        """Tries that nothing runs but what make runs again; at the second time no translation either."""
        for number in (1, 2):
            built = self.by_ninja()
            asked = set(filter(self.INCLUDES.fullmatch, built.ran)) if self.is_asked else set()
            more = set(built.ran) - set(again) - asked
            self.test.assertEqual((set(), 0), (more, built.status), f"{number}: {built.said}")
        if not again and not step.is_open:
            self.test.assertNotIn("translating", built.said, step.label)
