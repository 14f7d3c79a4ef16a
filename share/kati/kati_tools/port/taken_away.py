"""Recipes that take away what another target of the same build makes, as `killxa: ; rm -f xa` of `all: killxa xa`: make
then makes that anew in the same run, and ninja, which looks at all files before it runs anything, in its next one. So
it hangs on that recipe for kati."""
import fnmatch
import os
import re

from ..build import comparing
from . import command_reads, watched
from .mender import Mender

REMOVES, DEEP = re.compile(r"\brm\b"), re.compile(r"-\w*[rR]\w*|--recursive")
# Names that stand in a rule as they are.
PLAIN = re.compile(r"[\w./+-]+")


def removed_by(command):
    """The names and patterns that a command of kati's takes away, as seen from this folder."""
    for text in comparing.unwrapped(command) if "rm" in command and REMOVES.search(command) else ():
        for one in (one for one in command_reads.simple_commands(text) if one.program == "rm"):
            is_deep = any(DEEP.fullmatch(word) for word in one.words)
            for name in one.operands():
                path = os.path.normpath(os.path.join(one.folder, name))
                yield from (path, f"{path}/*") if is_deep else (path,)


def names_among(removed, names):
    """Those of the names that are among these names and patterns."""
    patterns = filter(watched.is_pattern, removed)
    return {name for name in removed if name in names}.union(*(fnmatch.filter(names, one) for one in patterns))


def needed_by(statement, by_output):
    """The names that a statement hangs on, by however many others."""
    found, left = set(), list(statement.inputs)
    while left:
        name = os.path.normpath(left.pop())
        if name not in found:
            found.add(name)
            left += by_output[name].inputs if name in by_output else []
    return found


def outputs_of(translation):
    """The statements of a translation by the names that they make."""
    return {os.path.normpath(name): one for one in translation.statements for name in one.outputs}


def found_in(translation):
    """Each statement that takes files of others away, with these: not those that it hangs on, as what is taken away
    after it was made is gone for both, nor those that hang on it, as both make these anew."""
    by_output = outputs_of(translation)
    makers = {name: one for name, one in by_output.items() if one.command is not None}
    for one in translation.statements:
        found = names_among(set(removed_by(one.command or "")), makers)
        found = {name for name in found if makers[name] is not one}
        found = found - needed_by(one, by_output) if found else found
        found = {name for name in found if not needed_by(makers[name], by_output).intersection(one.outputs)}
        if found:
            yield one, sorted(found)


def told(translation):
    """A line for each recipe that takes such files away before they are made."""
    for one, found in found_in(translation):
        yield (f"{' '.join(one.outputs)} takes {' '.join(found)} away, which make makes again in the same run, and "
               "ninja in the next one; have it made anew by a prerequisite")


class TakenAway(Mender):
    """What a recipe takes away, and make makes anew behind it, hangs on that recipe for kati, as `xa: killxa`, as far
    as its commands stay what they are. `before` has these."""

    def __init__(self, port):
        super().__init__(port)
        self.lines, self.before = None, {}

    def settle(self, translation):
        """Finds them; answers whether that changes the makefile."""
        by_output = outputs_of(translation)
        if self.lines is not None:
            other = [name for name, command in self.before.items() if by_output[name].command != command]
            self.lines = {name: needed for name, needed in self.lines.items() if name not in other}
            self.before = {}
            return bool(other)
        self.lines = {}
        for one, names in found_in(translation):
            for name in names:
                if len(one.outputs) == 1 and self.comes_first(one, by_output[name]) \
                        and all(map(PLAIN.fullmatch, [name, *one.outputs])):
                    self.lines.setdefault(name, one.outputs[0])
                    self.before[name] = by_output[name].command
        return bool(self.lines)

    def comes_first(self, one, other):
        """Whether make runs the commands of a statement before those of another one."""
        places = {text.strip(): at for at, text in reversed(list(enumerate(self.port.first.commands[1])))}
        at = [[places.get(text.strip()) for text in comparing.unwrapped(each.command)] for each in (one, other)]
        return all(at) and None not in at[0] + at[1] and max(at[0]) < min(at[1])

    def tail(self):
        """The rules by which they hang on it."""
        return [f"{name}: {needed}" for name, needed in (self.lines or {}).items()]

    def end(self):
        """Counts them."""
        for _ in self.lines or ():
            self.port.tell("taken away")
