"""The files that a makefile may ask for, by its `include` lines: a guess, for where kati-asked isn't there.

A name that holds a reference is taken as a pattern, which each listed file fits that it could name. So more files
are watched than are read, rather than fewer; what a watched file costs is a translation when it changes."""
import fnmatch
import os
import re

from ..base import files
from ..base.programs import Stop
from . import quick_looks, references, statements
from .statements import INCLUDES

# The word after which a file has to be there.
HARD = "include"
MOST = 2**20
# Functions, and which of their arguments have the words whose endings those of the value have.
GIVING = {"patsubst": slice(1, 2), "addsuffix": slice(1), "filter": slice(1), "if": slice(1, None),
          "or": slice(None), **dict.fromkeys(("sort", "strip", "filter-out", "wildcard", "foreach", "addprefix", "join",
                                              "firstword", "lastword", "notdir"), slice(-1, None))}
# What names a makefile has.
MAKEFILES = re.compile(r"(^|/)(GNUmakefile|[Mm]akefile[^/]*|[Mm]ake\.[^/]*|[^/]*\.(mk|mak|make))$")


def absent(makefile):
    """What stops at a makefile that isn't there: it tells of another one beside it that make would read."""
    folder = os.path.dirname(makefile)
    others = [os.path.join(folder, name) for name in ("GNUmakefile", "makefile", "Makefile")]
    found = next((f"; {name} is there" for name in others if os.path.isfile(name)), "")
    return Stop(f"no file {makefile}{found}")


def joined(text):
    """The lines of a makefile, continued ones joined."""
    return quick_looks.without_continuations(text).split("\n")


def words_giving(text):
    """The words that tell what the words of a value end in, by the text in the reference that gives it: what a
    substitution puts in, or the words that a function hands on; none where that isn't known."""
    function, blank, rest = text.partition(" ")
    if not blank or function not in GIVING:
        return text[text.find("=", text.find(":")) + 1:].split() if ":" in text and "=" in text else []
    given = rest.split(",")
    # What puts another beginning before words leaves them their endings.
    keeps = function == "patsubst" and all(one.rstrip().endswith("%") for one in given[:2])
    return " ".join(given[2:] if keeps else given[GIVING[function]]).split()


def ending_in(text):
    """What the words of a value all end in: what they have in common behind a `%` or `*`; empty where that holds other
    marks."""
    endings = [re.split(r"[%*]", word)[-1] for word in words_giving(text)]
    ending = os.path.commonprefix([one[::-1] for one in endings])[::-1]
    return "" if set(ending) & set("(){}$:=") else ending


def pattern_between(text, found, start, end):
    """A piece of a text as a pattern, of which these are the references."""
    parts, last = [], start
    for one in found:
        inside = pattern_between(text, one.inner, *one.inside)
        parts += [text[last:one.start], "*", ending_in(inside) if one.is_bracketed else ""]
        last = one.end
    return "".join([*parts, text[last:end]])


def pattern_of(name):
    """A name as a pattern: each reference is any text; one that gives its words an ending, as $(OBJS:.o=.d), keeps
    the ending."""
    return pattern_between(name, references.forest(name), 0, len(name)) if "$" in name else name


def included_by(line):
    """The includes of a line, and of the texts in it that `eval` reads."""
    texts = [one.argument.replace("$$", "$") for one in references.references(line) if one.function == "eval"]
    return filter(None, map(statements.include, [statements.without_comment(line), *texts]))


def named_in(text, words=INCLUDES):
    """The names and patterns after `include` in a makefile's text, or after one of these words."""
    # A look at each line first takes a tenth of the time.
    lines = [line.rstrip("\r") for line in joined(text) if HARD in line]
    names = [name for line in lines for one in included_by(line) if one.word in words for name in one.names]
    return [pattern_of(name) for name in names]


def fitting(pattern, listed):
    """The files that a name or a pattern may mean."""
    if "*" not in pattern:
        return [pattern]
    # `?` and `[` stand for themselves, since kati refuses them in an include's name.
    form = re.compile(fnmatch.translate(re.sub(r"([?\[])", r"[\1]", pattern)))
    return [name for name in listed if form.match(name)]


def asked(makefiles, listed):
    """The names that may be asked for, each once: the makefiles, and what they and their includes may include."""
    left, found = list(reversed(makefiles)), {}
    while left:
        name = left.pop()
        if name in found or "\0" in name:
            continue
        found[name] = True
        if os.path.isfile(name) and os.path.getsize(name) <= MOST:
            patterns = named_in(files.read(name))
            left += [one for pattern in reversed(patterns) for one in fitting(pattern, listed)]
    return list(found)
