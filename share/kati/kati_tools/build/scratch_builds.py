"""A build by make and one by ninja, each in this folder, where what it writes goes elsewhere, or in a scratch copy,
and what came into being in them."""
import hashlib
import os
import re
import subprocess

from ..base import files
from . import ninja_text
from ..make import in_place, scratch_copy
from ..make.make_commands import environment
from ..makefile import above
from ..base.programs import need, text_of
from .translating import default_makefile

# What a compiler writes of the day of the build is the same in both.
DAY = {"SOURCE_DATE_EPOCH": "0"}
SHOWN = 20
FAILED = re.compile(r"^make.*: \*\*\* |^FAILED: ")
# A time before that of any file, in seconds.
OLD = 86400


def end_of(said):
    """The end of what a build said; before it the lines that tell what failed, which other commands may follow."""
    lines = said.rstrip().split("\n")
    return "\n".join([*filter(FAILED.search, lines[:-SHOWN]), *lines[-SHOWN:]])


def content(path):
    """What tells a file from another: where a link leads, or a sum of the bytes."""
    if os.path.islink(path):
        return "link " + os.readlink(path)
    with open(path, "rb") as file:
        return hashlib.sha256(file.read()).hexdigest()


def contents(paths, folder):
    """What is in the files with these paths, by their names as seen from a folder; pipes and their kin aside."""
    return {os.path.relpath(path, folder): content(path) for path in paths
            if os.path.islink(path) or os.path.isfile(path)}


class InCopy:
    """A build in a scratch copy, and why it is there; what it makes is what is in it then, or beside it, where a build
    may make `../x`."""

    def __init__(self, copy, why):
        self.copy, self.folder, self.why, self.before = copy, copy.folder, why, {}

    def now(self):
        """What is there now."""
        return contents((os.path.join(at, name) for at, _, names in os.walk(self.copy.room) for name in names),
                        self.folder)

    def begin(self):
        """Looks at what is there before the build."""
        self.before = self.now()

    def made(self, old):
        """What was made, or made anew of these names; the copy is taken away."""
        found = {name: one for name, one in self.now().items() if name in old or self.before.get(name) != one}
        self.copy.remove()
        return found


class Over:
    """A build in place; what it makes is what was written over the folders."""

    def __init__(self, place):
        self.place, self.folder, self.why = place, place.real, None

    def begin(self):
        """There is nothing to look at."""

    def made(self, old):
        """What was made, or made anew of these names."""
        below = dict(self.place.written())
        found = contents(below, self.folder)
        before = {os.path.relpath(path, self.folder): content(lower) for path, lower in below.items()
                  if os.path.islink(lower) or os.path.isfile(lower)}
        return {name: one for name, one in found.items() if name in old or before.get(name) != one}


def aged(folder, translation):
    """Makes what the build makes of other files older than all of them, where it is there already, as in a folder that
    was built before: so make makes it too, as ninja does. Answers the names."""
    made = {name for one in translation.statements if one.command is not None and one.inputs for name in one.outputs}
    paths = {name: os.path.join(folder, name) for name in made}
    there = {name for name, path in paths.items() if os.path.isfile(path) and not os.path.islink(path)}
    for name in there:
        os.utime(paths[name], (OLD, OLD))
    return {os.path.normpath(name) for name in there}


class Built:
    """A build's status and the end of what it said, the files that came into being or changed, or were made anew, and
    why it was in a copy, where it was."""

    def __init__(self, name, words, place, translation):
        old = aged(place.folder, translation)
        place.begin()
        ran = subprocess.run([name, *words], executable=need(name), cwd=place.folder, env=environment(**DAY),
                             stdin=subprocess.DEVNULL, stdout=subprocess.PIPE, stderr=subprocess.STDOUT)
        self.status = ran.returncode
        self.said = end_of(text_of(ran.stdout))
        self.files, self.why = place.made(old), place.why


def built(name, words, makefile, translation, room):
    """The build by a program with these words."""
    def build(place):
        return Built(name, words, place, translation)

    place = os.path.join(room, f"of-{name}")
    os.makedirs(place, exist_ok=True)
    scratch_copy.top_of(makefile)
    return in_place.in_place_or(
        lambda: in_place.InPlace(place, above.texts_of(makefile), True).laid_over(), lambda found: build(Over(found)),
        lambda why: build(InCopy(scratch_copy.WholeCopy(makefile, os.path.join(room, "copy")), why)))


def both(makefile, words, translation, room):
    """The build by make and the one by ninja, both at one path, since compilers write it into what they make."""
    translated, top = (os.path.join(room, name) for name in ("translated.ninja", "top.ninja"))
    named = ["-f", makefile] if makefile else []
    makefile = makefile or default_makefile() or "Makefile"
    files.replace(translated, translation.text, room)
    escaped = ninja_text.escaped_value
    files.replace(top, f"builddir = {escaped(room)}\nsubninja {ninja_text.escaped(translated)}\n", room)
    by_make = built("make", [f"-j{os.cpu_count()}", *named, *words], makefile, translation, room)
    return by_make, built("ninja", ["-f", top], makefile, translation, room)


def told(by_make, by_ninja):
    """Lines that tell how two builds differ; none where they don't."""
    for name, built in (("make", by_make), ("ninja", by_ninja)):
        if built.status:
            yield f"the build by {name} failed with status {built.status}:\n{built.said}"
    for name in sorted({*by_make.files, *by_ninja.files}):
        one, other = by_make.files.get(name), by_ninja.files.get(name)
        if one is None or other is None:
            yield f"{'-' if other is None else '+'} {name}: made by {'make' if other is None else 'ninja'} alone"
        elif one != other:
            yield f"! {name}: other bytes"
