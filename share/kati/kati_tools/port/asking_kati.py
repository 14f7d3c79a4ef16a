"""What kati says of the files of a port."""
import argparse
import contextlib
import os
import shutil

from ..base import files, words
from ..base.programs import bytes_of
from ..build import translating
from . import frozen_values

# A makefile that needs what is to be made, and its goal.
NEEDING, NEEDED = "needing.mk", "_kati_port_needs_"


def words_for_kati(port):
    """The macros of the command line that are so for kati; others are assigned at the beginning of the makefile."""
    return [word for word in port.asked.macros if words.name_of(word) not in port.for_kati.taken_words]


def asked_of_kati(port):
    """What kati is asked, for the files as they are now."""
    return argparse.Namespace(kati=port.asked.kati, makefile=port.makefile, builtin=True, depth=port.for_kati.depth,
                              words=[*port.asked.goals, *words_for_kati(port)], files_from=port.asked.files_from)


def list_anew(port):
    """Makes the list of files anew, for the makefiles as they are now; answers whether it is another one."""
    before, names = port.listing, dict.fromkeys([*port.ported, frozen_values.NAME])
    port.listing_has_values = os.path.isfile(frozen_values.NAME)
    port.listing = translating.listing(asked_of_kati(port), names)
    return before is None or before.text != port.listing.text


def has_other_list(port):
    """The same where kati takes the makefiles, and some have changed since the list was made: what they name outside of
    this folder is in it."""
    if port.is_list_sure:
        return False
    port.is_list_sure = True
    with hiding(port):
        return list_anew(port)


def translate(port, is_hiding=True):
    """What kati says of the files as they are now; where `is_hiding`, the dependencies aren't there for it."""
    room = os.path.join(port.room, "kati")
    os.makedirs(room, exist_ok=True)
    with hiding(port) if is_hiding else contextlib.nullcontext():
        # Faults in reading don't hang on the list, so it is made anew where kati takes the makefile first, where
        # nothing more is mended, and where the file of values has come into being.
        is_new = port.listing is None or port.listing_has_values != os.path.isfile(frozen_values.NAME)
        if is_new:
            list_anew(port)
        translator, is_first = translating.Translator(asked_of_kati(port), room), port.is_list_sure is None
        found = translated(translator, port)
        if found.status == 0:
            port.is_list_sure = is_first
            if is_first and not is_new and list_anew(port):
                found = translated(translator, port)
        return found


def translate_for(port, names):
    """What kati says where these names are to be made, by the list of the last translation, which stays."""
    room = os.path.join(port.room, "kati-needing")
    os.makedirs(room, exist_ok=True)
    asked = asked_of_kati(port)
    needing = os.path.join(room, NEEDING)
    files.write(needing, bytes_of(f"include {asked.makefile}\n.PHONY: {NEEDED}\n{NEEDED}: {' '.join(names)}\n"))
    asked.makefile, asked.words = needing, [NEEDED, *words_for_kati(port)]
    with hiding(port):
        return translating.Translator(asked, room).with_list(port.listing, port.dropped)


def translated(translator, port):
    """The translation by the list of a port, which begins with what the last one found that the build makes."""
    found = translator.translate(port.listing, lambda: port.dropped)
    # A fault tells nothing of what is made.
    port.dropped = found.dropped if found.status == 0 else port.dropped
    return found


@contextlib.contextmanager
def hiding(port):
    """Moves the dependencies that make made away for a while."""
    place = os.path.join(port.room, "kati", "hidden")
    os.makedirs(place, exist_ok=True)
    moved = [(name, os.path.join(place, str(number))) for number, name in enumerate(port.first.hidden)]
    for name, other in moved:
        shutil.move(name, other)
    try:
        yield
    finally:
        for name, other in moved:
            shutil.move(other, name)
