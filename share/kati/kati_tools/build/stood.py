"""Which includes that rules make, makefiles among them, were there before ninja could make them, as those that
./configure has written: ninja is to make them where file times alone say so, as make does.

Each include is looked for when a translation has it first; what was found then holds as long as translations have
it."""
import os

from ..base import files
from . import depfile_text

THERE, ABSENT = "+", "-"


def known(path):
    """The includes that a file of them has, each with whether it was there."""
    lines = (files.read(path) or "").split("\n")
    return {line[1:]: line[0] == THERE for line in lines if line[:1] in (THERE, ABSENT)}


def now(path, made, put):
    """The same for these `MadeIncludes`: those that the file doesn't have are looked for. What this run has `put` there
    itself, make has just made."""
    before = known(path)
    return {name: before[name] if name in before else os.path.lexists(name) and name not in put for name in made.names}


def text(found):
    """The text of the file."""
    return "".join(f"{THERE if was_there else ABSENT}{name}\n" for name, was_there in found.items())


def without_dependencies(found, made):
    """Those that were there, but for files of header dependencies."""
    return {name for name, was_there in found.items()
            if was_there and not depfile_text.is_named_as_one(name)
            and not (name in made.dependencies and made.text_of(name).strip())}
