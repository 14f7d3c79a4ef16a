"""What is saved while kati-port runs: no makefile is written over that isn't the one that was read, and no value is
kept of what was there before."""
import hashlib

from ..base import files, scratch
from ..build import begun
from . import frozen_values, watched
from ..base.programs import Stop, bytes_of


def sum_of(data):
    """What tells bytes from others; None of None."""
    return None if data is None else hashlib.sha256(data).digest()


class Read:
    """What was read of makefiles: the sums of their bytes by their names. Of those that make makes, which are others in
    the place where make is asked, the time counts."""

    def __init__(self, ported):
        made = {*ported.first.made, *ported.first.remade}
        self.sums = {name: None if name in made else sum_of(bytes_of(file.before))
                     for name, file in ported.ported.items()}


class Beginning:
    """The beginning of a port, whose scratch folder is `room`."""

    def __init__(self, room):
        self.start, self.values = begun.Start(room), files.content(frozen_values.NAME)

    def refuse_saved(self, read):
        """Stops where a makefile that was read, or the file of values, isn't any more as it was."""
        changed = [name for name, was in read.sums.items() if self.is_saved(name, was)]
        changed += [frozen_values.NAME] if files.content(frozen_values.NAME) != self.values else []
        if changed:
            raise Stop(f"{changed[0]} was saved while it was ported: no file was changed; run kati-port again")

    def is_saved(self, name, was):
        """Whether a makefile, of which the bytes had this sum, has others."""
        return self.start.is_newer(name) if was is None else sum_of(files.content(name)) != was

    def newer(self, text):
        """Of the words that the values of a file with this text hang on the first one of which something is newer than
        the beginning; None where nothing is."""
        words = frozen_values.words_of(text)
        return next((word for word in words if any(map(self.start.is_newer, watched.inputs_of(word)))), None)


def ported_as_it_is(port):
    """The beginning of the call `port`, which is given a scratch folder, and what it answers, first of it what is to be
    written; it is made again where something was saved meanwhile that a value hangs on."""
    before = None
    for _ in range(begun.TIMES):
        with scratch.room("kati-port-") as room:
            beginning, found = Beginning(room), port(room)
        values = found[0].values
        newer, sums = beginning.newer(values), watched.sums_of(frozen_values.words_of(values))
        if newer is None or sums == before:
            return beginning, found
        before = sums
    raise Stop(f"{newer} changes each time while make is asked: run kati-port again when that is over")
