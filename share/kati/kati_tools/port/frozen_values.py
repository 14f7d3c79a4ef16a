"""kati-values.mk: macros that are make's own call for make, and for kati the value that make gave.

Each value of kati's stands below a comment that says where it came from, so that it can be had again:

- `# $(wildcard src/*.c)`: the files that fit;
- `# names: src/*.c main.o`: names of a rule, patterns among them, the same;
- `# $(shell cat version.txt) reads version.txt 1c291ca3`: what make was told while a file, or another word that is
  watched (watched.py), had this sum, or `none` where it wasn't there; so too of a loop or a macro that runs such
  commands;
- `# $(shell uname)`, and all else: what make was told when the file was written;
- `# made first`: files that the build makes, and that values in recipes hang on: kati-build has them made before it
  translates, where they aren't there.

Where one of these isn't so any more, make is asked for all of them again."""
import fnmatch
import os
import re

from ..makefile import ported_text
from ..build import translating
from . import watched

NAME = translating.VALUES
TITLE = "# Written by kati-port, anew by kati-port --values: what make asks the machine for, and what it was told.\n"
RUN, ENVIRONMENT, NAMES, FIRST = "tells of the run", "of the environment", "names: ", "made first"
MADE_FIRST = "KATI_MADE_FIRST"
FOR_SHELL = translating.FOR_SHELL
# kati's shell itself, where SHELL gives commands exported variables too.
KATIS_SHELL = "$(or $(KATI_SHELL),$(SHELL))"
HIDING = f"MAKEFILE_LIST := $(filter-out %{NAME},$(MAKEFILE_LIST))"
READS = re.compile(r"# .* reads (\S+ (?:none|[0-9a-f]{8})(?:, \S+ (?:none|[0-9a-f]{8}))*)$", re.MULTILINE)
ENTRY = re.compile(r"# (.*)\n(\S+) (:?=) ?(.*)\n")
OF_PATTERN, OF_COMMAND = "$(wildcard ", "$(shell "


def escaped(value):
    """A value as an immediate assignment has it."""
    value = value.replace("$", "$$").replace("#", "\\#")
    # Blanks at the beginning of a value would be dropped, a backslash at its end would go on, and blanks there are
    # hard to see.
    value = re.sub(r"^(?=[ \t])", "$()", value)
    return value + "$()" if value.endswith(("\\", " ", "\t")) else value


def with_sums(source, words, sum_of=watched.sum_of):
    """A source that says what these words are now, which are watched, as `sum_of` has their sums."""
    sums = ", ".join(f"{word} {sum_of(word)}" for word in dict.fromkeys(words))
    return f"{source} reads {sums}" if words else source


def without_sums(source):
    """A source without what it says of words that are watched."""
    before, found, _ = source.rpartition(" reads ")
    return before if found else source


def command_of(source):
    """The command of a source that is a call of `shell`; None of another one."""
    return source[len(OF_COMMAND):-1] if source.startswith(OF_COMMAND) and source.endswith(")") else None


def pattern_of(source):
    """The pattern of a source that is a call of `wildcard`; None of another one."""
    pattern = source[len(OF_PATTERN):-1] if source.startswith(OF_PATTERN) and source.endswith(")") else None
    return None if pattern is None or set(pattern) & set("$()") else pattern


def own_names(patterns):
    """The names of kati-values.mk that these patterns of make's `wildcard` fit."""
    split = map(os.path.split, patterns.split())
    return [os.path.join(folder, NAME) for folder, pattern in split
            if os.path.abspath(folder) == os.getcwd() and fnmatch.fnmatchcase(NAME, pattern.replace("[^", "[!"))]


def with_fitting(names):
    """Names as make has them in a rule: a pattern is what it fits."""
    return " ".join(filter(None, (watched.fitting(one) if watched.is_pattern(one) else one for one in names.split())))


def assigned(name, operator, text):
    """The line of an assignment."""
    return f"{name} {operator} {text}" if text else f"{name} {operator}"


def text_of_environment(value):
    """A value of the environment as a deferred assignment has it: what is in it, and what is appended to it, is
    expanded where it is used, as make has it."""
    return escaped(value).replace("$$", "$")


class Value:
    """A macro of the file: make's text, kati's value, and what it came from. A deferred one is text that kati expands
    where it stands, and may have a table of values by their names; `sources` says of some where they came from, so
    that they stand by themselves. The lines that name it have its prefix."""

    def __init__(self, name, makes, katis, source, is_deferred=False):
        self.name, self.makes, self.katis, self.source, self.is_deferred = name, makes, katis, source, is_deferred
        self.table, self.sources, self.prefix = {}, {}, ported_text.PREFIX

    def lines(self):
        """What stands of it in kati's branch."""
        text = self.katis if self.is_deferred else escaped(self.katis)
        operator = "=" if self.is_deferred else ":="
        return [f"# {self.source}", assigned(self.name, operator, text),
                *(assigned(name, ":=", escaped(value)) for name, value in self.table.items()
                  if name not in self.sources),
                *(line for name, source in self.sources.items()
                  for line in (f"# {source}", assigned(name, ":=", escaped(self.table[name]))))]


class Values:
    """The macros of the file, in the order in which they came; `kept` is the file as it stood, if it did. `prefixes`
    are those of the files that are ported, `environment` has the values of the environment that kati gets, and `first`
    the names of what is made first."""

    def __init__(self, kept=None):
        self.all, self.kept, self.prefixes, self.environment, self.first = [], kept, set(), {}, set()
        self.taken, self.taken_words = "", set()
        # How many of them the names and the table of texts know, and the last number behind a name.
        self.count, self.names, self.by_texts, self.numbers = 0, set(), {}, {}

    def take(self, text):
        """Has no macro get a name that stands in a text."""
        self.taken, self.taken_words = text, set(re.findall(r"\w+", text))

    def take_in(self):
        """Has the names and the table of texts know all."""
        for one in self.all[self.count:]:
            self.names.add(one.name)
            self.by_texts.setdefault((one.prefix, one.makes, one.katis, one.is_deferred), one)
        self.count = len(self.all)

    def add(self, line, wanted, makes, katis, source, is_deferred=False):
        """The name of a macro of a line for these two texts: the wanted one behind the line's prefix, with a number
        where that is taken."""
        self.take_in()
        found = self.by_texts.get((line.prefix, makes, katis, is_deferred))
        if found is not None and not found.table and (found.makes, found.katis) == (makes, katis):
            return found.name
        first = self.free_of_others(line.prefix, wanted)
        number = self.numbers.get(first, 1)
        name = first if number == 1 else f"{first}_{number}"
        while name in self.names or name in self.taken_words:
            number += 1
            name = f"{first}_{number}"
        self.numbers[first] = number
        self.all.append(Value(name, makes, katis, source, is_deferred))
        self.all[-1].prefix = line.prefix
        return name

    def drop_unused(self, references, ported):
        """Takes the macros out that had these references, of which none of these files has any more."""
        texts = [file.text() for file in ported] if references else []
        names = {one[len("$("):-1] for one in references if not any(one in text for text in texts)}
        self.take_in()
        self.all = [one for one in self.all if one.name not in names]
        self.by_texts = {texts: one for texts, one in self.by_texts.items() if one.name not in names}
        self.count = len(self.all)

    def free_of_others(self, prefix, wanted):
        """A name behind a prefix; where it begins as those of another file do, one more `_` parts it from them."""
        others = tuple(one for one in self.prefixes if len(one) > len(prefix))
        return f"{prefix}_{wanted}" if f"{prefix}{wanted}".startswith(others) else f"{prefix}{wanted}"

    def head(self, file):
        """What make needs at the beginning of an include, which other makefiles may read too, if it isn't there."""
        text, there = file.text(), {line.text for line in file.lines}
        lines = [f"{one.name} = {one.makes}" for one in self.all if f"$({one.name})" in text]
        lines = [line for line in lines if line not in there]
        return [ported_text.MAKES_ALONE, *lines, "endif"] if lines else []

    def text(self, run, hiding):
        """The text of the file; `run` has what tells of the run, and `hiding` the lines by which make hands on nothing
        of the file."""
        before = self.kept.entries if self.kept else []
        kept = [one for one in before if one.source != FIRST]
        lines = [ported_text.MAKES_ALONE, *(self.kept.makes_lines if self.kept else [])]
        lines += [f"{one.name} = {one.makes}" for one in self.all]
        lines += [line for line in hiding if line not in lines]
        lines += ["else", *(line for one in [*kept, *self.all] for line in one.lines())]
        told = {name: value for name, value in run.items() if name not in {one.name for one in kept}}
        lines += [line for name, value in told.items() for line in (f"# {RUN}", assigned(name, ":=", escaped(value)))]
        lines += [line for name, value in self.environment.items() if name not in {one.name for one in kept}
                  for line in (f"# {ENVIRONMENT}", assigned(name, "=", text_of_environment(value)))]
        first = self.first.union(*(one.text.split() for one in before if one.source == FIRST))
        lines += [f"# {FIRST}", assigned(MADE_FIRST, ":=", " ".join(sorted(first)))] if first else []
        return TITLE + "\n".join([*lines, "endif", ""])


def of_wildcard(pattern, value):
    """The source of a value that make's `wildcard` gave for a pattern: the files that fit tell whether it still has
    it, where they are found alike; else their sum does."""
    source = f"$(wildcard {pattern})"
    return source if watched.fitting(pattern) == value.strip() else with_sums(source, pattern.split())


def other_patterns(text):
    """The patterns of the values that fit other files now."""
    for source, _, operator, value in ENTRY.findall(text):
        pattern = pattern_of(source)
        if operator == ":=" and pattern is not None and escaped(watched.fitting(pattern)) != value:
            yield pattern
        elif operator == ":=" and source.startswith(NAMES) and escaped(with_fitting(source[len(NAMES):])) != value:
            yield source[len(NAMES):]


def other_place(text):
    """The folder that the values name as the one that make runs in, where it isn't this one."""
    for source, name, _, value in ENTRY.findall(text):
        if source == RUN and name == "CURDIR" and escaped(os.getcwd()) != value:
            yield value


def other_environment(text):
    """The variables of which the environment has another value than these values."""
    for source, name, _, value in ENTRY.findall(text):
        if source == ENVIRONMENT and text_of_environment(os.environ.get(name, "")) != value:
            yield name


def variables(text):
    """The words to watch for the values of the environment."""
    return [watched.ENVIRONMENT + name for source, name, _, _ in ENTRY.findall(text) if source == ENVIRONMENT]


def made_first(text):
    """The names of what is made first for these values."""
    return [name for source, _, _, value in ENTRY.findall(text) if source == FIRST for name in value.split()]


def stale(text):
    """What to say of the first thing that isn't as it was when make was asked; None where all is."""
    changed = watched.first_changed(dict(read_with_sums(text)))
    others = [f"{pattern} fits other files" for pattern in other_patterns(text)]
    others += [f"this folder was {place}" for place in other_place(text)]
    others += [f"${name} is another one" for name in other_environment(text)]
    return changed or next(iter(others), None)


def read_with_sums(text):
    """The words that are watched, each with the sum that it had."""
    return [tuple(pair.split(" ")) for line in READS.findall(text) for pair in line.split(", ")]


def words_of(text):
    """The words to watch for the values."""
    sources = [line[len("# "):] for line in text.split("\n") if line.startswith("# ")]
    named = [word for one in sources if one.startswith(NAMES) for word in one[len(NAMES):].split()]
    patterns = [word for one in map(pattern_of, sources) for word in watched.of_wildcard(one or "")]
    return [*(word for word, _ in read_with_sums(text)), *patterns, *filter(watched.is_pattern, named)]
