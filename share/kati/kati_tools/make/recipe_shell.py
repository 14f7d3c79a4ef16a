"""The shell of recipes: while the tools ask make, it is one that runs no line, given as SHELL on make's command line. A
makefile that has make take another one is found before a line may run, and refused.

make tells by its database, behind all makefiles and before any goal: which SHELL it has, for all and for targets; what
MAKEFLAGS has; and texts that would override SHELL once they are expanded in a recipe."""
import os
import re

from ..base.programs import Stop
from .database import BEGIN

WRONG = 1
NAME = "SHELL"
# Where make says that what follows stands, in the locale C; a value, for all, for a target or for a pattern.
PLACE = re.compile(r"#.* \(from '(.*)', line (\d+)\):?$")
SHELL = re.compile(r"(?:# |[^\t#=]*: )?(define )?SHELL(?: :{0,3}=)?(?: (.*))?")
FLAGS = re.compile(r"(?:# |[^\t#=]*: )?MAKEFLAGS :{0,3}= ?(.*)")
# A text that overrides SHELL where a recipe expands it.
LATER = re.compile(r"\boverride\b.*\bSHELL\b[ \t]*(?:[:+?!]|::|:::)?=")
GIVEN_BY_FLAGS = re.compile(r"(?:^|\s)SHELL[:+?!]*=(\S*)")
# How make names a makefile that it reads as standard input.
STANDARD_INPUT = re.compile(r"-|.*/Gm\w{6}")
# What is read behind all makefiles: where they have another shell, make ends before it makes anything.
GUARD = """\
ifneq ($(and $(filter command,$(origin SHELL)),$(filter {room}/%,$(firstword $(value SHELL))),\
$(if $(filter-out SHELL={room}/%,$(filter {forms},$(MAKEFLAGS))),,1)),1)
$(error the makefiles override SHELL)
endif
"""


# What is read behind them where make is to tell its database alone.
ASKED = "$(error asked)\n"
FORMS = " ".join(f"SHELL{operator}%" for operator in ("=", ":=", "::=", ":::=", "+=", "?=", "!="))


class OtherShell(Stop):
    """A makefile has make run recipes by another shell than the one that it is given."""

    def __init__(self, words):
        super().__init__(words, WRONG)


def guard(room):
    """The text that is read behind all makefiles, where the shell stands in the folder `room`."""
    return GUARD.format(forms=FORMS, room=room.replace("$", "$$").replace("#", "\\#").replace("%", "\\%"))


def place_of(found, makefile):
    """The place that make tells, where it reads the makefile as standard input behind one line of the tools' own."""
    if found is None:
        return makefile
    name, number = found.group(1), int(found.group(2))
    return f"{makefile}:{number - 1}" if STANDARD_INPUT.fullmatch(name) else f"{name}:{number}"


def fault_in(line, room, is_body):
    """What is wrong with a line of the database, where something is."""
    shell, flags = (None if is_body else form.fullmatch(line) for form in (SHELL, FLAGS))
    if shell and (shell.group(1) or not (shell.group(2) or "").startswith(room + os.sep)):
        return "override of SHELL"
    values = GIVEN_BY_FLAGS.findall(flags.group(1)) if flags else []
    if any(not value.startswith(room + os.sep) for value in values):
        return "SHELL by MAKEFLAGS"
    may_run = not line.startswith("#") and ("eval" in line or not line.startswith("\t"))
    return "override of SHELL" if may_run and LATER.search(line) else None


def lines_with_name(database):
    """The lines of a database, which begins with a newline, that have the name SHELL: where each begins and ends, and
    whether it stands between a `define` and its `endef`. All others, which are most, are passed over unread."""
    last, is_body, at = 0, False, database.find(NAME)
    while at >= 0:
        begin = database.rfind("\n", 0, at)
        opened, closed = database.rfind("\ndefine ", last, begin), database.rfind("\nendef\n", last, begin + 1)
        is_body = is_body if opened == closed else opened > closed
        end = database.find("\n", at)
        end = end if end >= 0 else len(database)
        yield begin + 1, end, is_body
        last, at = begin, database.find(NAME, end)


def first_fault(database, makefile, room):
    """The place in make's database that tells of a shell that isn't one of the folder `room`, and what is wrong there;
    None where none is."""
    database = f"\n{database}"
    for begin, end, is_body in lines_with_name(database):
        words = fault_in(database[begin:end], room, is_body)
        if words:
            place = place_before(database[1:end].split("\n"))
            return f"{place_of(place, makefile)}: {words}"
    return None


def place_before(lines):
    """The place that make told last in these lines of its database; None where what it told last has none."""
    for line in filter(lambda line: line[:1] == "#", reversed(lines)):
        found = PLACE.fullmatch(line)
        if found or line.startswith("# ") and "=" not in line:
            return found
    return None


def database_in(text):
    """make's database in what it printed, and commands before it: these too where it speaks another language."""
    before, mark, database = text.partition(BEGIN)
    return database if mark else before


def refuse_others(look, makefile, room):
    """Stops where make's database, which `look` answers, tells of a shell that isn't one of the folder `room`; answers
    the database. The place of a fault is told in the locale C alone."""
    database = database_in(look())
    if first_fault(database, makefile, room):
        database = database_in(look(LC_ALL="C"))
        fault = first_fault(database, makefile, room)
        if fault:
            raise OtherShell(f"{fault}, and so lines of recipes would run while make is asked what it would do; make's "
                             "own command line is to say which shell it has")
    return database
