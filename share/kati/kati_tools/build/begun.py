"""When a run began to read, and what has changed since: what is saved while a run reads it is looked at again.

Ninja can't see it: for a statement whose output stayed as it was, ninja 1.11 keeps the time that the newest input has
after the run; and an output that is written is newer than an input that was saved while the run read it."""
import os
import stat
import time

from ..base import files, own_files
from . import unchanged

# So often what is read may change meanwhile.
TIMES = 3
# So often a run waits a millisecond until the disk's time is later than that of this folder.
MOST_WAITS = 20


def newest_time(name):
    """When a file, a folder or a link to one was last written or renamed; 0 where it isn't there."""
    found = 0
    # A link is looked at first, and then what it leads to.
    for look in (os.lstat, os.stat):
        try:
            status = look(name)
        except (OSError, ValueError):
            break
        found = max(found, status.st_mtime_ns, status.st_ctime_ns)
        if not stat.S_ISLNK(status.st_mode):
            break
    return found


class Start:
    """The time at which a run begins to read: that of a file which it writes first, so that it is the disk's own."""

    def __init__(self, room):
        path = os.path.join(room, own_files.BEGUN)
        for _ in range(MOST_WAITS):
            files.write(path, b"")
            os.utime(path)
            self.at = os.stat(path).st_mtime_ns
            # What this run itself did to the folder is no change, as where it made the one of its own.
            if not self.is_newer("."):
                break
            time.sleep(0.001)

    def is_newer(self, name):
        """Whether a file or a folder is as new as the start, or newer."""
        return newest_time(name) >= self.at


class Inputs:
    """The files that a run reads; its own files stand in the folder `room`."""

    def __init__(self, room):
        self.room, self.start, self.there, self.contents = room, None, set(), {}
        # Files that this run has put in place before it read them, each with what tells it from one written since.
        self.put = {}

    def begin(self, names):
        """Begins to read. Of those names that are known already it is kept what is there, as far as their times won't
        tell."""
        self.start, self.put = Start(self.room), {}
        self.there = {name for name in names if os.path.lexists(name)}
        self.contents = {name: files.content(name) for name in self.there if self.start.is_newer(name)}

    def take(self, names):
        """Has what this run itself has put in place be as at the start."""
        self.put.update((name, unchanged.identity(name)) for name in names)
        self.contents.update((name, files.content(name)) for name in names)
        self.there.update(names)

    def is_as_before(self, name):
        """Whether what is in a file is known to be what was in it at the start."""
        known = [self.contents[one] for one in (name, os.path.normpath(name)) if one in self.contents]
        return bool(known) and known[0] == files.content(name)

    def changed(self, names):
        """Those of these names of which it isn't known that they are as they were at the start; folders aside, and what
        kati-build itself writes, which a pattern may name."""
        gone = [name for name in self.there if not os.path.lexists(name)]
        newer = [name for name in names if self.start.is_newer(name) and not os.path.isdir(name)]
        found = gone + [name for name in newer if not self.is_as_before(name)]
        return [name for name in found if not own_files.is_below(name)]
