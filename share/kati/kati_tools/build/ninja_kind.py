"""The ninja at hand, as its own log tells of it: what it writes for statements of which all is known."""
import functools
import os
import subprocess
import sys
from typing import Callable, NamedTuple

from ..base import files, scratch
from ..base.programs import bytes_of
from . import ninja_log

HEADS = ("# ninja log v5", "# ninja log v6", "# ninja log v7")
# Commands of these lengths go through each branch of the hashes.
LENGTHS = (*range(2, 34), 47, 48, 49, 50, 63, 64, 65, 95, 96, 97, 98, 111, 112, 143, 144, 145, 192, 193, 700, 5000)
WITH_HEADERS = "headers"
MAKES_HEADERS = ": > headers; echo headers: h > d; : > h"
# From so many digits on a time isn't one in seconds.
DIGITS_OF_NANOSECONDS = 16


class Kind(NamedTuple):
    """What a ninja's log looks like: its first line, the hash of a command, and how many nanoseconds a time counts."""
    head: str
    hash: Callable
    unit: int


def commands():
    """Commands that do nothing, by the output of each, of many lengths; and one with header dependencies."""
    letters = "".join(chr(ord("a") + at * 7 % 26) for at in range(max(LENGTHS)))
    found = {f"o{length}": (": " + letters)[:length] for length in LENGTHS}
    return {**found, "o2": ":;", WITH_HEADERS: MAKES_HEADERS}


def text_of_statements(named):
    """The Ninja file of these commands."""
    headers = " depfile = d\n deps = gcc\n"
    return "".join(f"rule {output}\n command = {command}\n{headers if output == WITH_HEADERS else ''}"
                   f"build {output}: {output}\n" for output, command in named.items())


def told(room, named):
    """The kind that the logs in a folder tell, of these commands; None where they have another form."""
    lines = (files.read(os.path.join(room, ".ninja_log")) or "").split("\n")
    rows = {row[3]: row for row in (line.split("\t") for line in lines[1:]) if len(row) == 5}
    hashes = [one for one in (ninja_log.murmur, ninja_log.rapid)
              if all(rows[output][4] == f"{one(bytes_of(command)):x}" for output, command in named.items())]
    deps = files.content(os.path.join(room, ".ninja_deps")) or b""
    begin = ninja_log.DEPS_HEAD + ninja_log.DEPS_VERSION.to_bytes(4, sys.byteorder)
    if lines[0] not in HEADS or not hashes or not deps.startswith(begin):
        return None
    is_fine = len(rows[WITH_HEADERS][2]) >= DIGITS_OF_NANOSECONDS
    return Kind(lines[0], hashes[0], 1 if is_fine else ninja_log.SECOND)


@functools.lru_cache(None)
def of(program):
    """The kind of a program ninja, which is run in a folder of its own; None where its log is of no kind that is
    known."""
    named = commands()
    with scratch.room("kati-build-") as room:
        files.write(os.path.join(room, "build.ninja"), bytes_of(text_of_statements(named)))
        try:
            ran = subprocess.run([program, "-C", room], stdin=subprocess.DEVNULL, stdout=subprocess.DEVNULL,
                                 stderr=subprocess.DEVNULL)
            return told(room, named) if ran.returncode == 0 else None
        except (OSError, KeyError):
            return None
