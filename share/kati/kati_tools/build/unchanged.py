"""Whether a translation would be the one that is there, which is seen without kati.

Ninja asks for a translation where a folder has another time, as it has each time where a recipe that always runs makes
a file and takes it away again. So it is noted what a translation came from: the words, the files that it read, by their
times, lengths and places, the folders, the list of files, and which files were there that count only where they
change. What was as new as the start of that run isn't known, and so is another."""
import os

from ..base import files
from ..base.programs import text_of

NAME = ".inputs"
# What a name was; of a file its times, its length and its place are noted.
FOLDER, FILE, ABSENT, UNKNOWN = "folder", "file", "-", "?"
# What stands before a name that counts where it comes or goes, and is there.
THERE = "+"


def identity(name):
    """What tells a file from one that was written since, in its place or in another one."""
    try:
        found = os.stat(name)
    except (OSError, ValueError):
        return ABSENT
    return f"{found.st_mtime_ns} {found.st_ctime_ns} {found.st_size} {found.st_ino}"


def state(name):
    """What counts of a name: of a folder only that it is one."""
    return FOLDER if os.path.isdir(name) else identity(name)


def kind(name):
    """What a name is now."""
    return FOLDER if os.path.isdir(name) else FILE if os.path.exists(name) else ABSENT


class Noted:
    """What a translation came from, in the folder `room`: words, names of files, folders, and files that are there or
    aren't."""

    def __init__(self, room):
        self.path = os.path.join(room, NAME)

    def note(self, words, names, own, folders, looked_at, inputs):
        """Notes it, where the start of the run is known; `own` are files that the run wrote itself. Those that it put
        in place and then read are known by what tells them from others."""
        def state_of(name):
            is_unknown = inputs.start.is_newer(name) and not os.path.isdir(name)
            return inputs.put.get(os.path.normpath(name), UNKNOWN) if is_unknown else state(name)

        states = [(name, state_of(name)) for name in dict.fromkeys(names)]
        states += [(name, identity(name)) for name in own]
        lines = ["\0".join(words), "\0".join(folders), "\0".join(looked_at),
                 "\0".join(f"{state} {name}" for name, state in states)]
        files.replace(self.path, "\n".join(lines) + "\n", os.path.dirname(self.path))

    def forget(self):
        """Takes the note away."""
        files.remove(self.path)

    def read(self):
        """Reads the note; answers whether there is one."""
        lines = text_of(files.content(self.path) or b"").split("\n")
        if len(lines) != 5:
            return False
        self.words = lines[0]
        self.folders, self.looked_at, self.states = ([one for one in line.split("\0") if one] for line in lines[1:4])
        return True

    def is_so(self, words):
        """Whether all is as it was noted, for these words, folders and the list of files aside."""
        if not self.read() or self.words != "\0".join(words):
            return False
        there = all(os.path.exists(one[1:]) == (one[0] == THERE) for one in self.looked_at)
        return there and all(map(is_as_noted, self.states))

    def names(self):
        """The noted names, each with what it was: a folder, a file, absent or unknown."""
        for one in self.states:
            state, _, name = one.partition(" ")
            if state in (FOLDER, ABSENT, UNKNOWN):
                yield state, name
            else:
                yield FILE, one.split(" ", 4)[4]


def is_as_noted(one):
    """Whether a file has the state that stands before its name."""
    if one.startswith(f"{FOLDER} "):
        return os.path.isdir(one[len(FOLDER) + 1:])
    if one[:2] in (f"{ABSENT} ", f"{UNKNOWN} "):
        return one[0] == ABSENT and not os.path.lexists(one[2:])
    mtime, ctime, size, place, name = one.split(" ", 4)
    return identity(name) == " ".join((mtime, ctime, size, place))


def has_same_files(listing, before, made):
    """Whether a listing gives the list of before, as the text of a file of it: what came since is but what the build
    makes, which `made` is called for."""
    now, then = set(listing.names), set(text_of(before).split("\n")) - {""}
    new = now - then
    if not then <= now or listing.certain is None:
        return then == now
    return new.isdisjoint(listing.certain) and (not new or new <= made())
