"""Circles that make drops: where it comes back to a file that it is about to make, it leaves that prerequisite out, and
says so.

A target of which it has left all prerequisites out, and which stands here, is a file for it, as any without a rule. By
-B, which has it tell what it would do from nothing, it would run the recipe all the same: so it is told to leave that
file alone."""
import os
import re

from . import database

DROPPED = re.compile(r"^make(?:\[\d+\])?: Circular (\S+) <- (\S+) dependency dropped\.$", re.MULTILINE)
# Such a line in any language.
TOLD = re.compile(r"^make(?:\[\d+\])?: .*\S <- \S", re.MULTILINE)


class Circles:
    """The prerequisites that make left out, by their targets; those of these, with a recipe, that are files for it by
    that; and what it knows of all targets: by its database and what it said beside that, in English."""

    def __init__(self, text, said):
        self.left_out, self.known = {}, database.targets(text)
        for target, need in DROPPED.findall(said):
            self.left_out.setdefault(target, set()).add(need)
        self.files = [name for name in self.left_out if self.is_file(name)]

    def is_file(self, name):
        """Whether such a target has no prerequisite any more, and stands here."""
        known = self.known.get(name)
        is_made = known is not None and known.recipe is not None
        return is_made and not (known.needs or known.is_phony) and os.path.isfile(name)


def are_told(said):
    """Whether make says that it drops circles, in any language."""
    return " <- " in said and TOLD.search(said) is not None


def words(names):
    """The words by which make leaves files alone, by -B, too."""
    return [word for name in names for word in ("-o", name)]
