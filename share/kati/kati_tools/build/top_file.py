"""The Ninja file of kati-build: it takes in what kati wrote, and has it written anew.

Ninja first makes the file that it reads, if that is an output. So a statement makes this file from all that the
translation depends on, by kati-build itself, and ninja reads the file again where that changed it:

- `restat`: where nothing changed, ninja goes on as it was. This file says when what kati wrote has changed, so it
  changes with that.
- `generator`: `ninja -t clean` leaves the file alone, and another spelling of the command alone makes nothing
  anew.
- A file that is gone would stop ninja, so each stands as a `phony` output, which may be absent. One that isn't
  there yet can't be an input, unless the statements make it; the folder in which it would come into being is one. So
  is each folder of the list of sources.
- What kati wrote is an input itself: one that is emptied is made anew. A run writes it before this file.
- Ninja's own log stands in a folder that nothing depends on, or each run of ninja would change what this file
  depends on.
- A shell is asked first whether anything is new, where kati-build has written what it is to look at
  (shell_look.py): Python takes longer to start than all else, where nothing is."""
import os
import re
import shlex
import time

from ..base import files, own_files
from . import ninja_text
from ..base.programs import bytes_of, text_of

# Of so many names those that are listed aren't looked for again, which takes longer than to take the list apart.
MANY = 1000
# The shell that is asked first, and its answer where nothing is new: none else counts, as of a file that is emptied.
SHELL, SAME = "/bin/sh", "same"
# The goal of a file that has nothing but what makes includes.
FAULTS_NAME = "_kati_fault_"
UNUSUAL = re.compile(r"^\./|/\.|//|/$", re.MULTILINE)
# One of these stands in names of which one is unusual, with a line's end behind each.
MARKS = (b"./", b"/.", b"//", b"/\n")
CHANGED = re.compile(r"# What kati wrote changed at (\d+)\.\n")
BEFORE_INPUT = " $\n    "
TEMPLATE = own_files.FIRST_LINE + """\
# What kati wrote changed at {changed}.
builddir = {room}
rule kati_build
 command = {command}
 description = kati-build: translating {makefile}
 generator = 1
 restat = 1
build {output}: kati_build{inputs}
{fault}{present}subninja {translated}
"""
# Where the file has nothing but what makes includes: kati's fault, which is told where they are made and it lasts.
FAULT = """\
rule kati_build_fault
 command = cat {file} >&2; exit 2
 description = kati
build {name}: kati_build_fault
"""
# A file between two others: it has nothing but the translation, so that one that is killed is begun again.
BETWEEN = own_files.FIRST_LINE + """\
builddir = {room}
rule kati_build
 command = {command}
 description = kati-build: translating {makefile}
 generator = 1
build {output}: kati_build kati_build_always
build kati_build_always: phony
"""


def inputs_in(text):
    """The names that the file depends on by a text of it."""
    return {ninja_text.plain(piece.partition("\n")[0]) for piece in text.split(BEFORE_INPUT)[1:]}


def has_unusual(joined):
    """Whether one of these names, each with a line's end, may be another one for Ninja."""
    return any(mark in joined for mark in MARKS)


def normal(names):
    """Names also as Ninja has them."""
    return names | {os.path.normpath(name) for name in names if "/" in name and UNUSUAL.search(name)}


def plain(names):
    """Names as Ninja has them, each once; mostly they are that already, which one look at all of them tells."""
    joined = bytes_of("\n".join(["", *names, ""]))
    if not has_unusual(joined) and b"\n/" not in joined:
        return list(dict.fromkeys(names))
    return list(dict.fromkeys(map(plain_name, names)))


def plain_name(name):
    """A name as Ninja has it."""
    # Two slashes at the beginning, which Python keeps, are one for Ninja.
    return re.sub("^//+", "/", os.path.normpath(name))


def watched(asked, listing, output, made=()):
    """The names that the translation depends on, each once: files that are there, or that are `made`, and folders; but
    for the highest folder, which Ninja takes for a name of no letters, and so for one that isn't there."""
    there = set(listing.names) if listing.is_found and len(asked) > MANY else ()
    there = {*there, *made} if made else there
    names = [name if name in there or os.path.lexists(name) else files.nearest_folder(name) for name in asked]
    found = plain([*names, *listing.watched, *listing.folders])
    return [name for name in found if name not in (output, "/")]


def made_of(names, heads):
    """Those of these names that the statements make."""
    if heads.are_names and not has_unusual(heads.joined + b"\n"):
        return set(map(text_of, set(map(bytes_of, names)).intersection(heads.all)))
    return normal(heads.outputs()).intersection(names)


def is_later(name, other):
    """Whether the first of two files is later than the other, or one isn't there."""
    try:
        return os.stat(name).st_mtime_ns > os.stat(other).st_mtime_ns
    except OSError:
        return True


def text(build, names, translation, is_new, includes=None):
    """The text of the file for a `Build`; `names` are those that it depends on, and `includes` the statements of those
    that rules make. A folder with the name of a target stands there by its absolute path, which no rule makes.

    What kati wrote, by `translation`, is new or isn't: then what the file says of it that is there is still so, if
    the run that wrote it came to its end."""
    before = files.read(build.output) or ""
    changed = None if is_new or is_later(build.translated, build.output) else CHANGED.search(before)
    # Mostly the statements make none of the names, and the same text says so, which needs no look at them.
    if changed and not includes and filled(build, names, set(), changed.group(1)) == before:
        return before
    made = made_of(names, translation.heads)
    names = [os.path.abspath(name) if name in made and os.path.isdir(name) else name for name in names]
    return filled(build, names, made, changed.group(1) if changed else time.time_ns(), includes)


def word(name):
    """A name of a file as a word of a shell, which no program takes for an option."""
    return shlex.quote(name if name.startswith("/") else f"./{name}")


def asked_first(build, command):
    """The command that asks a shell before this one."""
    look = word(os.path.join(build.room, own_files.LOOK))
    return f"[ \"$({SHELL} {look} 2>/dev/null)\" = {SAME} ] || {command}"


def generator(build, is_asked_first=False):
    """What fills the parts of both kinds of files that translate again."""
    command = " ".join(map(shlex.quote, build.command()))
    return {"room": ninja_text.escaped_value(build.room),
            "command": ninja_text.escaped_value(asked_first(build, command) if is_asked_first else command),
            "makefile": ninja_text.escaped_value(build.makefile()), "output": ninja_text.escaped(build.output)}


def between(build):
    """The text of the file between two others."""
    return BETWEEN.format(**generator(build))


def filled(build, names, made, changed, includes=None):
    """The text by the names that the file depends on, those of them that the statements make, and when what kati wrote
    changed."""
    absent = [name for name in plain(includes.phonies) if name not in names] if includes else []
    present = ninja_text.all_escaped([name for name in [*names, *absent] if name not in made])
    fault = FAULT.format(file=ninja_text.escaped_value(shlex.quote(build.fault)), name=FAULTS_NAME)
    return TEMPLATE.format(
        **generator(build, is_asked_first=True),
        changed=changed,
        fault=fault if includes and includes.made.is_first else "",
        inputs="".join(f"{BEFORE_INPUT}{name}" for name in ninja_text.all_escaped([*names, build.translated])),
        present="".join(f"build {name}: phony\n" for name in present),
        translated=ninja_text.escaped(build.translated))
