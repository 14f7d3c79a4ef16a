"""How far above this folder makefiles name files: from as far up a scratch copy begins."""
import os
import re

from ..base import files
from . import includes, references, sources

# `..` as a part of a path, with those that follow it, and what stands before: a folder that a value gives, a path's
# beginning, or some other folder, which `..` leaves again. And a line in which such a value is this folder's own path.
UP = re.compile(r"(?<![\w.~-])\.\.(?:/+\.\.)*(?![\w.~-])")
BEGINNING = re.compile(r"(?<![\w./)}~-])(?:\./+)*$")
# A command goes into a folder below this one.
INTO = re.compile(r"(?:-C[ \t]*|--directory[ =]|\bcd[ \t]+)([\w+@-][\w.+@/-]*)")
# A name behind `..` that holds no reference and no pattern.
PLAIN = re.compile(r"/+([\w.+@-]+)(?![\w.+@$*?\[%{-])")
OF_THIS_FOLDER = re.compile(r"CURDIR|MAKEFILE_LIST|\bPWD\b|\bpwd\b")


def texts_of(makefile):
    """The makefile's name, and the texts of it and of what it may include, as far as that has a makefile's name."""
    if not os.path.isfile(makefile):
        raise includes.absent(makefile)
    listed = [name for name in sources.walk(set())[0] if includes.MAKEFILES.search(name)]
    named = includes.asked([makefile], listed)
    return [makefile, *(files.read(name) for name in named if os.path.isfile(name))]


def is_any_there(name):
    """Whether a name stands above this folder, as far up as a value before it may lead."""
    return any(os.path.lexists(os.path.join(*[".."] * count, name)) for count in (1, 2, 3))


def ups(text, is_there):
    """How far up a makefile's text goes by itself, how far behind a value that may have gone up already, and how far
    behind anything. One folder up for a name that isn't there is none but in the last."""
    alone = behind = most = 0
    for line in includes.joined(text):
        for match in UP.finditer(line):
            count, before, name = match.group().count(".."), line[:match.start()], PLAIN.match(line, match.end())
            is_behind, most = before.rstrip("/").endswith((")", "}")), max(most, count)
            count = max(count - levels_down(before), 0)
            if count == 1 and name and not is_there(name.group(1)):
                continue
            if BEGINNING.search(before) or is_behind and OF_THIS_FOLDER.search(line):
                alone = max(alone, count)
            elif is_behind:
                behind = max(behind, count)
    return alone, behind, most


def levels_down(before):
    """How far down a command is that stands behind this text, as one behind `cd DIR &&`; not where that is behind the
    bracket of a shell of its own."""
    found = list(INTO.finditer(before))
    if not found or ")" in references.without_references(before[found[-1].end():], ""):
        return 0
    parts = [part for part in found[-1].group(1).split("/") if part not in ("", ".")]
    return 0 if ".." in parts else len(parts)


def levels(texts, is_there=is_any_there):
    """How many folders above this one makefiles name, for what is there."""
    alone, behind, _ = map(max, zip(*(ups(text, is_there) for text in texts)))
    return alone and alone + behind


def most_levels(texts):
    """How many they may name at most."""
    _, behind, most = map(max, zip(*(ups(text, bool) for text in texts)))
    return most + behind
