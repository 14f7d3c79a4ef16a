"""What makes the makefiles that make reads: Ninja makes them first, as make does, whether the goals need them or not.
So kati is asked about that, too, once it takes the makefile for the goals."""
import functools
import os
import re

from ..build import rule_heads
from ..makefile import includes, quick_looks
from . import asking_kati, frozen_values

# Names that a prerequisite can have.
PLAIN = re.compile(r"[\w./+@,~-]+")
# What stands in make's database in the lines of a file that has a recipe.
OF_RECIPE = "\n#  recipe to execute"
# kati's faults in what a recipe or a name expands to; others are of rules that make each other, which stay.
MENDED = ("E16", "E18", "E32")


# A database is large.
@functools.lru_cache(1)
def recipes_in(database):
    """Whether files have a recipe, by their names, as make's database tells; more names may be no files."""
    found = {}
    for part in database.split("\n\n"):
        while part.startswith("#"):
            part = part.partition("\n")[2]
        name = part[:part.find(":")]
        found[name] = found.get(name, False) or OF_RECIPE in part
    return found


def with_recipes(port, names):
    """Those of these files that have a recipe, or may have one, as make's database tells it once make has looked for
    the rules of all makefiles, which it does before anything; None where it doesn't tell."""
    told = recipes_in(port.run.ended_with or "")
    return {name for name in names if told.get(name, True)} if any(told.values()) else None


def names_of(port, made):
    """The makefiles that make reads and rules may make, but for those that the goals have `made`. A name that holds a
    reference may be that of each, but is hardly the makefile's own; what make has told of them counts."""
    read = [name for name in sorted(port.first.read) if PLAIN.fullmatch(name)]
    texts = [quick_looks.without_continuations(file.before) for file in port.ported.values()]
    others = [name for name in read if name != port.makefile]
    may_make = any(rule_heads.may_make(text, others) for text in texts)
    own = [name for name in read if name == port.makefile and any(quick_looks.may_have_rule(text, name)
                                                                  for text in texts)]
    found = [name for name in [*(others if may_make else []), *own] if name not in made]
    told = with_recipes(port, found) if found else None
    return found if told is None else [name for name in found if name in told]


def without_recipes(port):
    """The makefiles that make includes, or would where they are there, of which it has told that it has no recipe for
    them; with the file of values, which is this tool's."""
    named = {name for file in port.ported.values() for name in includes.named_in(file.before)}
    names = {port.makefile, *port.first.read, *map(os.path.normpath, named)}
    told = with_recipes(port, names)
    return [] if told is None else sorted([frozen_values.NAME, *(names - told)])


def fault(port, translation):
    """What kati says where it has a fault in what makes makefiles, beside a translation for the goals; else None."""
    names = names_of(port, translation.outputs)
    found = asking_kati.translate_for(port, names) if names else None
    return found if found is not None and found.status == 2 else None
