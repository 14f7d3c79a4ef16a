"""What calls of `$(shell ..)` write outside of the makefile's folder while make is asked, where nothing lies over it:
it is written there, as by make, and the port names it.

A call tells by its text which files it may write, and their times tell whether it did."""
import os
import re

from . import command_reads

BREAKS = re.compile(r"[\s;|&()<>`'\"=,]+")
# What these folders have counts as new each time that it is looked at.
OF_THE_SYSTEM = ("/proc/", "/sys/", "/dev/")
MOST = 5


def named(text):
    """The paths that the words of a call may name, as seen from each folder that it goes into."""
    folders = dict.fromkeys(["", *(one.folder for one in command_reads.simple_commands(text))])
    for word in filter(None, BREAKS.split(text)):
        path = os.path.expanduser(os.path.expandvars(word))
        yield from (os.path.abspath(os.path.join(os.path.expandvars(folder), path)) for folder in folders)


def paths(place, texts, start):
    """The files outside of what a place covers that calls with these texts name, and that are as new as the start."""
    top = os.getcwd() + os.sep
    found = {path for text in texts for path in named(text) if not path.startswith((top, *OF_THE_SYSTEM))}
    return sorted(path for path in found
                  if os.path.isfile(path) and start.is_newer(path) and not place.is_covered(path))


def told(port):
    """The line that names them, where there are any."""
    found = port.first.outside
    if found:
        more = f" and {len(found) - MOST} more" if len(found) > MOST else ""
        yield f"$(shell ..) wrote outside of this folder while make was asked: {' '.join(found[:MOST])}{more}"
