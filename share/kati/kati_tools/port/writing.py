"""The writing of the files that a port changes: all or none, wherever it is ended. They are on the disk before they
take the place of the old ones, so that a loss of power leaves the old or the new."""
import contextlib
import os
import tempfile

from ..base import files, interrupting
from . import frozen_values
from ..base.programs import LEFT, bytes_of


class Writing:
    """The writing of new texts, after which it is known whether a file was changed."""

    def __init__(self, texts):
        self.texts, self.is_done, self.new = texts, False, {}
        # The folders in which something comes into being, each once.
        self.folders = {}

    def write(self, check=lambda: None):
        """Writes files whole: all of them are written beside their places before the first takes its place. Before that
        `check` is called, which stops it where it mustn't be."""
        LEFT.append(self.take_away)
        try:
            for name, text in self.texts.items():
                self.write_beside(place_of(name), text)
            check()
            with interrupting.put_off():
                for place in list(self.new):
                    os.replace(self.new[place], place)
                    del self.new[place]
                    self.is_done = True
            for folder in self.folders:
                # One that can't be read is brought to the disk by the system, later.
                with contextlib.suppress(OSError):
                    files.to_disk(folder)
        finally:
            self.take_away()

    def write_beside(self, place, text):
        """Writes a text into a new file beside a place, with the place's mode; an error names the place."""
        try:
            self.make_folder(os.path.dirname(place))
            with interrupting.put_off():
                handle, self.new[place] = tempfile.mkstemp(prefix=".kati-port-", dir=os.path.dirname(place))
            with open(handle, "wb") as file:
                file.write(bytes_of(text))
            is_there = os.path.exists(place) and not os.path.islink(place)
            os.chmod(self.new[place], os.stat(place).st_mode & 0o7777 if is_there else 0o666 & ~umask())
            files.to_disk(self.new[place])
        except OSError as error:
            raise OSError(error.errno, error.strerror, place) from error

    def make_folder(self, folder):
        """Makes a folder where it isn't there, and notes in which folders that changes something."""
        nearest = self.folders[folder] = folder
        while not os.path.isdir(nearest):
            nearest = os.path.dirname(nearest)
            self.folders[nearest] = nearest
        os.makedirs(folder, exist_ok=True)

    def take_away(self):
        """Takes away the new files that have no place yet; once."""
        with interrupting.put_off():
            for name in self.new.values():
                with contextlib.suppress(OSError):
                    os.unlink(name)
            self.new.clear()
            if self.take_away in LEFT:
                LEFT.remove(self.take_away)


def place_of(name):
    """The path at which a file is written: of a makefile that is a link, that to which it leads; but no link leads to
    the file of values, which is the tools' own."""
    folder, last = os.path.split(name)
    return os.path.join(os.path.realpath(folder), last) if last == frozen_values.NAME else os.path.realpath(name)


def umask():
    """The bits that a new file doesn't get."""
    found = os.umask(0)
    os.umask(found)
    return found
