"""The values of kati-values.mk, kept true by kati-build where kati-port wrote such a file."""
from ..base import files, words
from ..build import translating
from . import frozen_values, watched
from ..base.programs import Stop, say

TOOL = "kati-build"


def values():
    """The text of kati-values.mk of this folder, where kati-port wrote one; else an empty one."""
    text = files.read(frozen_values.NAME) or ""
    return text if text.startswith(frozen_values.TITLE) else ""


def ask_make(asked):
    """Has make told again what a command gives of which a file has changed."""
    # What it takes to ask make takes time to load, and is seldom needed.
    from . import write_command
    makefile = asked.makefile or translating.default_makefile()
    try:
        lines = write_command.renew_values(makefile, words.goals_of(asked.words), words.macros_of(asked.words), [])
    except Stop as stop:
        lines = [f"{frozen_values.NAME} is as before: {stop}"]
    for line in lines:
        say(TOOL, line)


def lacking(names):
    """What to say of what the values lack and the makefiles of these names have come to name; None where they lack
    none."""
    # Loaded here, since it takes time, and is for makefiles alone that are newer.
    from . import lacking_names
    return lacking_names.told(names, values())


def keep_true(asked, names):
    """Makes values anew where one of them may be another, or where the makefiles of these names want one more: then
    make is asked for all of them."""
    why = frozen_values.stale(values()) or lacking(names)
    if asked.values or why:
        if why:
            say(TOOL, f"{why}: make is asked again")
        ask_make(asked)


def made_first():
    """The files that are made first for the values."""
    return frozen_values.made_first(values())


def inputs():
    """The files and folders that the values come from."""
    return watched.inputs(frozen_values.words_of(values()))
