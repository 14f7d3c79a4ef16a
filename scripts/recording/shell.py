"""A shell in the way of a build: it writes down what it is given, and hands that to the real shell."""
from __future__ import annotations

import os
import stat
import sys
from pathlib import Path
from typing import List, NamedTuple, Tuple

MARK = "KATI_RECORDED"       # shells below a recorded command write nothing
# A `$(shell ..)` call of make belongs to the reading, not to the build: make holds the other end of its output.
RECORDER = """\
#!{python} -IS
import os, sys
pairs = (one.split(b"=", 1) for one in open("/proc/self/environ", "rb").read().split(b"\\0") if b"=" in one)
environment = dict(pairs)
def reads_output(above):
    for name in os.listdir(above + "/fd"):
        try:
            if os.path.sameopenfile(os.open(above + "/fd/" + name, os.O_PATH), 1):
                if int(open(above + "/fdinfo/" + name).read().split()[3], 8) & 3 == os.O_RDONLY:
                    return os.readlink(above + "/fd/" + name).startswith("pipe:")
        except OSError:
            pass
    return False
if {mark} not in environment and not reads_output("/proc/%d" % os.getppid()):
    words = [os.fsencode(one) for one in sys.argv[1:]]
    if words and words[-1].startswith(b". .kati/run/"):   # a text of several lines: Ninja has no such commands
        words[-1] = open(words[-1][2:], "rb").read()
    parts = [b"\\0".join(words),
             b"\\0".join(name + b"=" + value for name, value in sorted(environment.items()))]
    with open("{folder}/%d" % os.getpid(), "ab") as file:
        file.write(b"\\0\\0".join(parts) + b"\\0\\0\\0")
    environment[{mark}] = b"1"
os.execve("{shell}", ["{shell}", *sys.argv[1:]], environment)
"""
# Runs ninja. `kati-build --port` takes another SHELL for another makefile: there the recorder replaces the shell in
# the text that ninja reads; the text keeps its time.
NINJA = """\
#!/bin/sh
text=build.kati/translated.ninja
if [ -e $text ]; then
    cp -p $text {told}.time && sed -i 's,{shell} -,{path} -,g' $text && touch -r {told}.time $text
fi
exec {ninja} "$@"
"""


class Given(NamedTuple):
    """What a shell was given: its flags, the text, and the environment as sorted lines `NAME=VALUE`."""

    flags: str
    text: str
    environment: Tuple[str, ...]


class Recorder(NamedTuple):
    """`path` is the shell to name by SHELL=PATH; `ninja` runs ninja."""

    path: str
    ninja: str
    told: Path
    shell: str

    def given(self) -> List[Given]:
        """What was recorded so far, in no order."""
        parts = [one.split(b"\0\0", 1) for file in sorted(self.told.iterdir())
                 for one in file.read_bytes().split(b"\0\0\0")[:-1]]
        texts = ([os.fsdecode(part).replace(self.path, self.shell).split("\0") for part in one] for one in parts)
        return [Given(" ".join(words[:-1]), words[-1], tuple(environment)) for words, environment in texts]

    def forget(self) -> None:
        """Begins anew."""
        for file in self.told.iterdir():
            file.unlink()


def installed(room: Path, shell: str, ninja: str) -> Recorder:
    """A recorder in the folder `room`. Its file has the real shell's name, by which tools know how to quote for it."""
    told, path, by_ninja = room / "told", room / "shell" / Path(shell).name, room / "ninja" / "ninja"
    for folder in (told, path.parent, by_ninja.parent):
        folder.mkdir(parents=True)
    path.write_text(RECORDER.format(python=sys.executable, mark=os.fsencode(MARK), folder=told,
                                    shell=shell))
    by_ninja.write_text(NINJA.format(ninja=ninja, told=told, shell=shell, path=path))
    for one in (path, by_ninja):
        one.chmod(one.stat().st_mode | stat.S_IXUSR | stat.S_IXGRP | stat.S_IXOTH)
    return Recorder(str(path), str(by_ninja), told, shell)
