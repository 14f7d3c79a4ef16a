"""What kati-build writes beside makefiles: folders of its own, and the Ninja files that they are named after. make
sees none of them where kati-build hasn't run, so it is to see none where it has.

A folder of kati-build's has the lock from the first run on, and what kati wrote once that is there."""
import functools
import os

from . import files

ENDING, LOCK, TRANSLATED = ".kati", "lock", "translated.ninja"
# Where kati's fault stands while includes are made; the folder of the marks of includes that are out of date, and that
# of the links by which ninja sees includes; and which includes were there before ninja could make them.
FAULT, MARKS, LINKS, STOOD = "fault.txt", "stale", "includes", "stood.txt"
# Where ports for other words of the command line stand.
ASIDE = "aside"
# The file whose time is that of a run's start; and the one that says of which form the other files are: each change of
# a form has a number of its own.
BEGUN, VERSION, FORM = ".begun", "version", "3\n"
# That ninja's log lacks what was there before the first build, since only what makes includes was known by then.
UNTAKEN = ".untaken"
# How often one ninja has had the makefile translated.
TRIES = ".tries"
# What a shell does to see whether anything is new.
LOOK = ".look"
# The sum of the compile_commands.json that stands beside the folder, where kati-build has written it.
COMMANDS = "compile_commands.sum"
FIRST_LINE = "# Written by kati-build, which writes it anew when the makefile changes.\n"


@functools.lru_cache(None)
def rooms_in(folder):
    """The names of kati-build's own folders in a folder, without their ending."""
    found = [one for one in files.entries(folder)[0] if one.name.endswith(ENDING)]
    return {one.name[:-len(ENDING)] for one in found
            if any(os.path.exists(os.path.join(folder, one.name, name)) for name in (LOCK, TRANSLATED))}


def begins_as_output(path):
    """Whether a file begins as the Ninja files of kati-build do."""
    with open(path, "rb") as file:
        return file.read(len(FIRST_LINE)) == FIRST_LINE.encode()


def is_own(folder, name):
    """Whether this name in a folder is one of kati-build's."""
    stem, ending = os.path.splitext(name)
    if stem not in rooms_in(os.path.abspath(folder)):
        return False
    path = os.path.join(folder, name)
    return ending == ENDING or os.path.isfile(path) and begins_as_output(path)


def among(folder, names):
    """Those of these names in a folder that are kati-build's."""
    return {name for name in names if is_own(folder, name)} if rooms_in(os.path.abspath(folder)) else set()


def others(paths):
    """Those of these paths of which `is_below` isn't so; each folder of theirs is looked at once."""
    looked, found = {}, []
    for path in paths:
        folder, name = os.path.split(path.rstrip("/"))
        if folder not in looked:
            looked[folder] = (folder not in ("", path) and is_below(folder), bool(rooms_in(os.path.abspath(folder))))
        is_inside, has_own = looked[folder]
        if not (is_inside or has_own and is_below(path)):
            found.append(path)
    return found


def is_below(path):
    """Whether a path is one of kati-build's, or leads into one of its folders."""
    folder, name = os.path.split(path.rstrip("/"))
    return name not in ("", ".", "..") and is_own(folder, name) or folder not in ("", path) and is_below(folder)
