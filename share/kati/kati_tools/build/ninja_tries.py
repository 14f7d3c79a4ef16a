"""How often one run of ninja has had the makefile translated.

Ninja makes what a translation depends on, has it made again, and begins anew. Where a value hangs on a file that is
another one each time that ninja makes it, that has no end: ninja gives up after a hundred times."""
import os

from ..base import files, own_files

# So often it may be translated by one run of ninja, before what has no end is left out.
MOST = 10


def ninja():
    """The process of the ninja that runs this one by a shell, as a text; an empty one where that isn't known."""
    told = files.read(f"/proc/{os.getppid()}/stat") or ""
    return told.rpartition(") ")[2].split(" ")[1] if ") " in told else ""


def count(room):
    """How often this ninja has had it translated, this time included, by what stands in the folder `room`."""
    path, own = os.path.join(room, own_files.TRIES), ninja()
    before, _, number = (files.read(path) or "").partition(" ")
    tries = int(number) + 1 if before == own and number.isdigit() else 1
    files.replace(path, f"{own} {tries}", room)
    return tries


def restless(names, made, tries):
    """Those of the names that a translation depends on which the build makes, where they are to be left out."""
    return {name for name in names if name in made} if tries > MOST else set()
