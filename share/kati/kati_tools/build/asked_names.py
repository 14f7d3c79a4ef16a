"""The names of the files that a translation asks for.

kati-asked, which is run in kati's place, writes them behind kati's own output and a NUL, which no Ninja text and no
name has: each on a line of its own, in the order in which they were asked for, those of files that aren't there too.
So one run gives the translation and what it hangs on."""
import os

from ..base.programs import text_of

# So much of a file's end is read first: mostly it has all names.
END = 2**16


def cut_off(path):
    """Cuts the names off the end of a file that kati-asked wrote, and the NUL; answers them, each once, or None where
    no NUL is. The text before them stays where it is."""
    try:
        handle = os.open(path, os.O_RDWR | os.O_CLOEXEC)
    except FileNotFoundError:
        return None
    try:
        begin, end = end_with_nul(handle)
        at = end.find(b"\0")
        if at < 0:
            return None
        os.ftruncate(handle, begin + at)
        return list(filter(None, dict.fromkeys(text_of(end[at + 1:]).split("\n"))))
    finally:
        os.close(handle)


def end_with_nul(handle):
    """A file's end that has a NUL, or the whole file where none has; and where it begins."""
    size, length = os.fstat(handle).st_size, END
    while True:
        begin = max(size - length, 0)
        end = os.pread(handle, size - begin, begin)
        if not begin or b"\0" in end:
            return begin, end
        length *= 4
