"""Includes of header dependencies, which a command writes: who reads them for kati.

Where a compiler writes such a file by itself, as by -MMD, Ninja reads it, and the include is for make alone: each
compilation would have the makefile read again. All others kati reads, as those that a rule makes by `cc -MM`, or that
a recipe writes by `sed` from what the compiler wrote, or moves where it differs. They may be absent for kati."""
import fnmatch
import functools
import os
import re

from ..base import files
from ..build import header_dependencies
from ..makefile import quick_looks, statements
from ..makefile.syntax import Kind
from . import asking_kati, freezing_names
from .mender import Mender

NAMES = re.compile(r"\.(d|dep|deps|P|depend)$|(^|/)\.?(deps?|depends?|dependencies)(\.mk)?(/|$)")
WRITES = re.compile(r"(?<![\w-])-MM?D\b")


def is_one(name):
    """Whether a file of this name has header dependencies, or none yet: it is none where it has more than rules."""
    return bool(NAMES.search(name)) and quick_looks.has_rules_alone(
        files.read(name) or "" if os.path.isfile(name) else "")


def is_written(name, written):
    """Whether Ninja reads a file, or all that fit a pattern, of those that compilers write."""
    name = os.path.normpath(name)
    return any(fnmatch.fnmatch(one, name) for one in written) if "*" in name else name in written


def softened(text):
    """An include line that takes an absent file for an empty one."""
    return text.replace("include", "-include", 1) if statements.first_word(text)[0] == "include" else text


class DependencyIncludes(Mender):
    """The includes of header dependencies of a port. `lines` are those that stand for make alone, with the names in
    them; `read` those of them that kati reads as well, `unread` the names that it refuses."""

    def __init__(self, port):
        super().__init__(port)
        self.lines, self.read, self.unread, self.is_tried = {}, set(), [], False

    def texts(self):
        """The names in all includes, where a compiler writes such files."""
        return [" ".join(line.says.names) for line in self.all_lines()] if self.has_compilers() else []

    @functools.cached_property
    def by_compilers(self):
        """The names that compilers write, by make's commands: they may be as those of other makefiles."""
        found = [header_dependencies.written_in(text) for text in self.port.first.commands[1] if WRITES.search(text)]
        return {os.path.normpath(name) for name in found if name}

    def are_meant(self, names):
        """Whether names are those of header dependencies: by what they are called, or as compilers write some of them
        and the others, which aren't there, end in the same way."""
        if all(map(NAMES.search, names)):
            return bool(names)
        written = [name for name in names if os.path.normpath(name) in self.by_compilers]
        endings = {os.path.splitext(name)[1] for name in written}
        return all(os.path.splitext(name)[1] in endings and not os.path.exists(name)
                   for name in set(names).difference(written))

    def names_in(self, lines):
        """The names that these lines include, as make has them, patterns among them as they are."""
        told = self.port.run.values([" ".join(line.says.names) for line in lines])
        return {line: (names or "").split() for line, names in zip(lines, told)}

    def wrap(self):
        """Keeps the lines that include nothing else for make alone, for now; answers whether there are any."""
        return any([self.add(line, names) for line, names in self.names_in(self.all_lines()).items()])

    def all_lines(self):
        """The lines that include something."""
        return [line for line in self.port.lines()
                if line.kind is Kind.INCLUDE and not (line.is_tab or line.is_wrapped)]

    def has_compilers(self):
        """Whether a compiler may write such files, and Ninja reads them."""
        return self.port.asked.has_deps and any(WRITES.search(file.before) for file in self.port.ported.values())

    def begin(self):
        """The same where a compiler writes such files, and Ninja reads them."""
        if self.has_compilers():
            self.wrap()

    def add(self, line, names):
        """Keeps a line for make alone, for now, if it includes nothing else; answers whether it does."""
        if not self.are_meant(names):
            return False
        line.wrap()
        self.lines[line] = names
        return True

    def take(self, line):
        """The same for a line that kati refuses."""
        return self.add(line, self.names_in([line])[line])

    def have_read(self, lines):
        """Has kati read what lines include, if it is there; answers whether there are such lines."""
        freezing_names.freeze_includes(self.port, lines)
        for line in lines:
            self.lines.setdefault(line, [])
            self.read.add(line)
            line.wrap(softened)
        return bool(lines)

    def settle(self, translation):
        """Has kati read those that Ninja doesn't read, if it takes them; answers whether a line has changed."""
        found = header_dependencies.Dependencies(translation.statements).files.values() if self.lines else ()
        written = set(map(os.path.normpath, found))
        more = [line for line, names in self.lines.items() if line not in self.read and not set(names) <= {*self.unread}
                and not self.are_written(names, written, translation)]
        return self.have_read(more) or self.try_all()

    @staticmethod
    def are_written(names, written, translation):
        """Whether Ninja reads what these names are: compilers write some, and nothing makes the others, which aren't
        there, as those of objects that the goals don't need."""
        others = [name for name in names if not is_written(name, written)]
        made = translation.outputs if others else ()
        return len(others) < len(names) and not any(os.path.exists(name) or os.path.normpath(name) in made
                                                    for name in others)

    def try_all(self):
        """Tries those that are there already; where kati refuses one, all are for make alone. Answers whether a line
        has changed by that."""
        if self.is_tried or not self.port.first.hidden:
            return False
        self.is_tried = True
        if asking_kati.translate(self.port, is_hiding=False).status == 0:
            return False
        self.wrap()
        for line, names in self.lines.items():
            line.wrap()
            self.unread += names
        self.read.clear()
        self.port.note("kati refuses header dependencies, so that ninja doesn't see a change of what they name: "
                       + " ".join(self.unread))
        return True

    def left(self, translation):
        """The names in lines for make alone that Ninja doesn't read either, where they are there or kati refuses them:
        Ninja doesn't see a change of what they name."""
        named = [name for line, names in self.lines.items() if line not in self.read for name in names]
        if not named:
            return []
        found = header_dependencies.Dependencies(translation.statements).files.values()
        written = set(map(os.path.normpath, found))
        there = {*self.unread, *self.port.first.hidden, *filter(os.path.exists, named)}
        return [name for name in dict.fromkeys(named) if name in there and not is_written(name, written)]

    def end(self):
        """Counts what was done."""
        for line in self.lines:
            self.port.tell("read dependencies" if line in self.read else "dependencies")
