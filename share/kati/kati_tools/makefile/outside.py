"""The folders outside this one that rules name: `../inc/h.h`, `$(TOP)/src/%.c`, `/usr/include/x.h`.

kati chooses a pattern rule by the files that exist, so what stands in these folders is in its list too, spelled as
the makefile spells it. How they are found is a module of its own, which takes time to load, and runs where they
aren't found in a record."""
import binascii
import os

from ..base import files
from ..base.programs import bytes_of, text_of

RECORD = "outside.txt"
# A text without any of these names no such folder.
MARKS = (b"..", b" /", b"\t/", b"=/", b":/", b",/", b"(/")


def has_marks(data):
    """Whether a text, as bytes, may name a folder outside this one. Backwards is twice as fast."""
    return (b"/" in data or data.rfind(b"..") >= 0) and any(data.rfind(mark) >= 0 for mark in MARKS)


def marked(makefiles):
    """Those of the makefiles that may name such a folder, with their bytes by their names; `makefiles` has them too, or
    None where they are to be read."""
    read = {name: files.content(name) if known is None else known for name, known in makefiles.items()}
    read = {name: data for name, data in read.items() if data}
    # Mostly none does, which one look at all of them tells.
    if not has_marks(b"\n".join(read.values())):
        return {}
    return {name: data for name, data in read.items() if has_marks(data)}


def sum_of(parts):
    """A sum of bytes, which are given in parts."""
    found = 0
    for part in parts:
        found = binascii.crc32(part, binascii.crc32(b"%d\n" % len(part), found))
    return f"{found:08x}"


class Folders:
    """The folders outside this one that makefiles name, as they spell them; each is looked at once. `found` are the
    makefiles that are `marked`, `seen` has the names of all, and `macros` are those of the command line.

    The file `record` has what was found before, by sums of all that it hangs on."""

    def __init__(self, found, seen, macros=(), record=None):
        self.found, self.seen, self.macros, self.looked = found, seen, macros, {}
        self.all = self.recorded(record) if record else None
        if self.all is None:
            from . import paths_outside
            text, included = paths_outside.text_of_makefiles(found, seen, macros, marked)
            self.all = paths_outside.folders(text, self.look)
            if record:
                lists = [self.sum_of_texts(included), self.sum_of_folders(self.looked)], included, self.looked, self.all
                files.replace(record, "\n".join(map("\0".join, lists)), os.path.dirname(record))

    def recorded(self, record):
        """What the record has, where all is as it was; else None."""
        lists = [text.split("\0") if text else [] for text in text_of(files.content(record) or b"").split("\n")]
        if len(lists) != 4 or lists[0][:1] != [self.sum_of_texts(lists[1])]:
            return None
        # By the same texts the same folders are looked at.
        return lists[3] if lists[0][1:] == [self.sum_of_folders(lists[2])] else None

    def sum_of_texts(self, included):
        """A sum of the makefiles and macros; `included` are the names that macros give to includes."""
        more = marked(dict.fromkeys(name for name in included if name not in self.seen))
        names = "\0".join([*self.macros, "", *self.found, "", *more])
        return sum_of([bytes_of(names), *self.found.values(), *more.values()])

    def sum_of_folders(self, looked):
        """A sum of the names of the folders that are in these."""
        below = ["/".join([folder, *sorted(one.name for one in self.look(folder)[0])]) for folder in looked]
        return sum_of([bytes_of("\0".join(below))])

    def look(self, folder):
        """The entries of a folder that are folders, and the names of its files."""
        folder = folder.rstrip("/") or "/"
        if folder not in self.looked:
            self.looked[folder] = files.entries(folder)
        return self.looked[folder]

    def names(self, folder):
        """The names of the files in a folder."""
        return self.look(folder)[1]
