"""The variables of the environment on which makefiles hang.

A macro that a makefile refers to and doesn't settle has for make the value of the environment. kati reads none, so it
gets that value in kati-values.mk. And make is asked again where such a variable has changed, or one that a command of
`$(shell ..)` names."""
import functools
import os

from ..base import files
from ..make import make_commands
from ..make.command_environment import NAME, OWN
from ..make.exported_names import of_the_shell
from ..makefile import references
from ..base.programs import SHARE

# What make tells of its run by itself; the folder is known without.
OF_THE_RUN = {*OWN, "CURDIR", "MAKE_COMMAND", "MAKE_HOST", "MAKE_VERSION", "MAKE_TERMERR", "VPATH"}
DEFINED = {"ifdef", "ifndef"}
BEGINNING = {*DEFINED, "ifeq", "ifneq"}
KEEPING = {"?=", "+="}


@functools.lru_cache(None)
def of_the_usual_rules():
    """The names to which make's usual rules come."""
    return come_to(name for name in named_in(usual("builtin-rules.mk")) if not name.startswith("KATI_"))


@functools.lru_cache(None)
def by_usual_macros():
    """The names to which each of make's usual macros refers."""
    lines = (line.partition(" = ") for line in usual("builtin-macros.mk").split("\n") if not line.startswith("#"))
    return {name: named_in(value) for name, _, value in lines}


def usual(name):
    """The text of one of the makefiles that come with kati."""
    return files.read(os.path.join(SHARE, name)) or ""


def come_to(names):
    """These names, and those that they come to by make's usual macros."""
    found, left = set(), set(names)
    while left:
        found |= left
        left = {name for one in left for name in by_usual_macros().get(one, ())} - found
    return found


@functools.lru_cache(1 << 16)
def named_in(text):
    """The macros that references of a text mean or ask of."""
    found = (one for one in references.references(text) if one.function in (None, *references.ASK_OF_A_MACRO))
    return frozenset(one.named() for one in found) - {None}


def referred_by(line):
    """The names to which a line of a makefile refers: by references, in conditions, and where it keeps a value."""
    found = named_in(line.text) if "$" in line.text else frozenset()
    words = line.joined.split(None, 3)
    words = words[1:] if words[:1] == ["else"] else words
    if words and words[0] in DEFINED:
        found = found.union(words[1:2])
    name, operator = assigned_by(line)
    return found | {name} if operator in KEEPING else found


def assigned_by(line):
    """The macro that a line assigns, whatever words stand before it, and the operator; empty texts for another one."""
    found = line.assignment()
    return found[:2] if found else ("", "")


class Conditions:
    """The conditionals round a line. What stands for one of the two programs alone has for the other another form, so
    it counts as standing there always, and kati's form as nothing."""

    def __init__(self):
        # Of each whether it hangs on what only make knows, and whether its branch is kati's alone.
        self.open = []

    def come_by(self, line):
        """Takes in a line that begins or ends a branch."""
        words = [] if line.is_tab or line.is_body else line.joined.split(None, 2)
        if words and words[0] in BEGINNING:
            is_of_programs = words[1:2] == ["MAKE_VERSION"]
            self.open.append((not is_of_programs, is_of_programs and words[0] == "ifndef"))
        elif words[:1] == ["else"] and self.open:
            is_open, is_katis = self.open.pop()
            self.open.append((is_open or len(words) > 1, not is_open and not is_katis))
        elif words[:1] == ["endif"] and self.open:
            self.open.pop()

    def is_any(self):
        """Whether make may come by or not."""
        return any(is_open for is_open, _ in self.open)

    def is_katis(self):
        """Whether kati alone comes by."""
        return any(is_katis for _, is_katis in self.open)


def hanging(lines):
    """The names to which lines, and the usual rules behind them, refer before they have a value by the lines,
    whichever branch make takes."""
    found, settled, conditions = set(), set(), Conditions()
    for line in lines:
        conditions.come_by(line)
        if conditions.is_katis():
            continue
        found |= referred_by(line) - settled
        name, operator = assigned_by(line)
        settled |= {name} if operator and operator not in KEEPING and not conditions.is_any() else set()
    return found | (come_to(found | of_the_usual_rules()) - settled)


def names_among(found, commands):
    """Those of the names that are `found` which the environment may have, with those of these commands."""
    found = {*found, *(name for one in commands for name in of_the_shell(one))}
    return sorted(name for name in found if NAME.fullmatch(name) and name not in OF_THE_RUN)


def referred(lines, commands):
    """The names of the environment on which makefiles with these lines hang, and these commands of their calls; those
    that aren't there now count too."""
    return names_among(hanging(lines), commands)


def watched(lines, found, commands):
    """The names of which make is asked again where the environment has another value: those that are `found` and those
    of the commands, and macros that lines assign, since make hands those that the environment has to its commands with
    its own value."""
    assigned = {assigned_by(line)[0] for line in lines}
    return sorted({*names_among(found, commands), *filter(NAME.fullmatch, assigned - OF_THE_RUN)})


def values_of(found):
    """The values of the environment, by those of the names that are `found`, but for those of several lines."""
    given, names = make_commands.environment(), names_among(found, ())
    return {name: given[name] for name in names if name in given and "\n" not in given[name]}


def handed(lines):
    """The values of the environment that kati gets, by their names, as makefiles with these lines have them."""
    return values_of(hanging(lines))


def hand(port):
    """Gives kati what the makefiles of a port refer to, and notes of which variables make is asked again."""
    lines = list(port.lines())
    found = hanging(lines)
    port.values.environment = values_of(found)
    asked = [command for call in port.probes.commands for command in port.probes.asked_of(call)]
    port.first.of_environment = watched(lines, found, asked)
