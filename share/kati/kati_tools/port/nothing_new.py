"""Whether a run of kati-build has nothing new to translate, by what the last one noted: then it ends before kati runs,
and before what ports is loaded."""
import os
import sys

from ..base import files, own_files
from ..base.programs import SHARE, own_sources, say
from ..build import translating, unchanged

# What is noted of a build, in forms that a version of these tools has.
NOTED = ("ported.json", "other-goals.json", "asked.txt", "outside.txt", unchanged.NAME)


def drop_of_other_version(build):
    """Drops what tools of another version noted; ninja's own log and the build of before stay."""
    path = os.path.join(build.room, own_files.VERSION)
    if files.read(path) == own_files.FORM:
        return
    if os.path.exists(build.translated):
        say("kati-build", f"{build.room} is of another version of kati-build: made anew")
    for name in NOTED:
        files.remove(os.path.join(build.room, name))
    aside = os.path.join(build.room, own_files.ASIDE)
    if os.path.lexists(aside):
        # Loaded here alone, since it takes time and is seldom needed.
        from . import other_words
        other_words.take_away(aside)
    files.keep(path, own_files.FORM, build.room)


def tools_of(build):
    """The files of these tools that a translation comes from: of a port all, as its record has a sum of them."""
    if build.asked.port:
        return list(own_sources())
    modules = (one for name, one in sorted(sys.modules.items()) if name.startswith("kati_tools."))
    builtin = (translating.MACROS, translating.RULES) if build.asked.builtin else ()
    return [*(one.__file__ for one in modules if one.__file__), *(os.path.join(SHARE, name) for name in builtin)]


def files_beside(build):
    """The files that a translation comes from beside makefiles and these tools, and those that it writes: each is as it
    was, or all is made anew."""
    commands = ["compile_commands.json"] if build.asked.compile_commands else []
    return [*commands, *filter(None, [build.kati, build.program]), build.translated, build.output, build.list,
            build.names]


def note(build, names, folders, inputs):
    """Notes what a translation came from, with these names and folders, which it read as `inputs`; nothing where it
    makes nothing but includes, for a makefile of which kati has a fault."""
    noted = unchanged.Noted(build.room)
    # It is of another note, or came with the tree, whose text no shell is to run.
    files.remove(os.path.join(build.room, own_files.LOOK))
    if build.looked_at is None:
        noted.forget()
    else:
        noted.note(build.command(), [*names, *tools_of(build)], files_beside(build), folders, build.looked_at, inputs)


def are_values_true(build):
    """Whether no value may be another now, of a port or of kati-values.mk, where these tools are as they were noted."""
    if build.asked.port:
        from . import port_record
        record = port_record.Record(build.asked, build.room)
        kept = record.kept()
        return kept is not None and record.changed(kept, are_tools_as_noted=True) is None
    if os.path.isfile(translating.VALUES):
        from . import frozen_values, kept_values
        return frozen_values.stale(kept_values.values()) is None
    return True


def makefiles(build):
    """The makefiles by which the folders outside this one are listed, whose bytes are to be read."""
    if not build.asked.port:
        return dict.fromkeys(build.names_before())
    from .port_record import FOLDER
    walked = os.walk(os.path.join(os.path.abspath(build.room), FOLDER))
    return dict.fromkeys(os.path.join(at, name) for at, _, names in walked for name in names)


def is_so(build):
    """Whether all is as the last run noted it."""
    asked, noted = build.asked, unchanged.Noted(build.room)
    if asked.values or asked.as_made or build.program is None or not noted.is_so(build.command()):
        return False
    if not are_values_true(build):
        return False
    listing = translating.lister(asked, build.output, build.room).listing(makefiles(build))
    is_list = unchanged.has_same_files(listing, files.content(build.list) or b"", build.made_before)
    return is_list and noted.folders == listing.folders
