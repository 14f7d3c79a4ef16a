"""Ports for other goals and macros of the command line: where others are given, the port that is there is put aside,
and takes its place again where its words are given again. Whether it still holds its own record says."""
import hashlib
import json
import os
import shutil

from ..base import files, own_files
from .port_record import FOLDER, RECORD, Record
from ..base.programs import bytes_of

# So many are kept, those that were put aside last.
MOST = 8


def take_away(path):
    """Takes away a folder, a link or a file."""
    if os.path.isdir(path) and not os.path.islink(path):
        shutil.rmtree(path, ignore_errors=True)
    else:
        files.remove(path)


def move(names, folder, other):
    """Moves what is there of these names from one folder into another."""
    for name in (name for name in names if os.path.lexists(os.path.join(folder, name))):
        os.replace(os.path.join(folder, name), os.path.join(other, name))


class OtherWords:
    """The ports for other words than those of a record, which stands in the folder of kati-build's own."""

    def __init__(self, record):
        self.record, self.folder = record, os.path.join(record.room, own_files.ASIDE)

    def place(self, words, depth):
        """The folder of the port for these words."""
        return os.path.join(self.folder, hashlib.sha256(bytes_of(json.dumps([words, depth]))).hexdigest()[:16])

    def put_aside(self):
        """Puts the port that is there aside, where it is for other words; nothing is there then. The record goes first:
        without it nothing counts as a port."""
        kept = self.record.kept()
        if kept is not None and not self.record.has_these_words(kept):
            place = self.place(kept["words"], kept["depth"])
            if os.path.islink(self.folder):
                files.remove(self.folder)
            take_away(place)
            os.makedirs(place)
            move((RECORD, FOLDER), self.record.room, place)
            self.drop_oldest()
        for name in (RECORD, FOLDER):
            take_away(os.path.join(self.record.room, name))

    def bring_back(self):
        """Gives the port for the words that are given its place; answers its record, None where there is none."""
        place = self.place(self.record.words(), self.record.asked.depth)
        if any(map(os.path.islink, (self.folder, place))) or Record(self.record.asked, place).kept() is None:
            return None
        self.put_aside()
        move((FOLDER, RECORD), place, self.record.room)
        take_away(place)
        return self.record.kept()

    def drop_oldest(self):
        """Takes away those that were put aside first, where there are too many."""
        places = [one.path for one in os.scandir(self.folder)]
        for place in sorted(places, key=lambda one: os.lstat(one).st_mtime_ns)[:-MOST]:
            take_away(place)
