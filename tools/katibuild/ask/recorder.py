"""The shell that make is given: it writes down what make would run, and runs nothing but calls of `$(shell ..)`."""
from __future__ import annotations

import os
import re
import shlex
import shutil
from dataclasses import dataclass
from typing import Mapping, Sequence

from ..base.files import read, replace
from ..base.message import Status, Stop

TARGET = "KATI_AT"            # the environment variable that names the target whose recipe make runs
ENVIRONMENT = "kati-environment"
SEPARATOR, CALL, END = b"\0KATI_SEPARATOR\0", b"\0KATI_CALL\0", b"\0KATI_END\0"
# make reads the output of `$(shell ..)` from a pipe. Its own output is a file, so that a line of a recipe never has a
# pipe, nor with output sync. All paths are absolute: the makefile may have changed PATH.
SCRIPT = """\
#!/bin/sh
if ! test -p /dev/fd/1; then
{cat} /proc/$$/cmdline {room}/separator /proc/$$/environ {room}/end >> {room}/lines
exit 0
fi
{cat} {room}/call /proc/$$/cmdline {room}/separator {room}/end >> {room}/lines
unset KATI_AT
read -r real < "${{0%/*}}/real"
exec $real "$@"
"""

# Runs the recipe of one target as make has it when the target is built. Under `-n` make runs the lines of this target
# alone, whose copies in the makefile read last begin with `+`, and expands the others. The recipe's own output goes to
# the descriptors 3 and 4: what make prints of other recipes goes nowhere.
ONLY = """\
kati_room=$(mktemp -d "${{TMPDIR:-/tmp}}/kati-XXXXXXXX") || exit 1
trap 'rm -rf "$kati_room"' EXIT
trap 'exit 130' INT HUP TERM
unset MAKEFLAGS MFLAGS MAKELEVEL MAKEFILES GNUMAKEFLAGS
{shells}cat > "$kati_room/first" <<'KATI_END'
{first}KATI_END
cat > "$kati_room/last" <<'KATI_END'
{last}KATI_END
KATI_ROOM=$kati_room KATI_ONLY={target} {make} 3>&1 4>&2 > "$kati_room/out" 2> "$kati_room/err"
status=$?
test $status = 0 || grep -F '***' "$kati_room/err" >&2
exit $status"""
ONLY_SHELL = """\
mkdir "$kati_room/shell{number}"
cat > "$kati_room/shell{number}/{name}" <<'KATI_END'
#!/bin/sh
only=$KATI_ONLY
unset KATI_ROOM KATI_ONLY
if test -p /dev/fd/1; then unset KATI_AT; exec {program} "$@"; fi
test "$KATI_AT" = "$only" || exit 0
unset KATI_AT
exec {program} "$@" >&3 2>&4 3>&- 4>&-
KATI_END
chmod +x "$kati_room/shell{number}/{name}"
"""


@dataclass(frozen=True)
class Recorder:
    """`paths` has the SHELL that make is given by the SHELL that the makefile has."""

    room: str
    paths: Mapping[str, str]

    def real_text(self, text: str) -> str:
        """The text as it is without recorders."""
        if self.room not in text:
            return text
        for shell, path in self.paths.items():
            program, stand_in = (shell.split() or [""])[0], path.split()[0]
            text = text.replace(stand_in, program)
            folder = re.escape(os.path.dirname(stand_in)) + r"(?=[/\s\"']|$)"
            text = re.sub(folder, lambda _, program=program: os.path.dirname(program) or ".", text)
        return text

    def data(self) -> bytes:
        """What was written down since `clear`."""
        return read(os.path.join(self.room, "lines")) or b""

    def clear(self) -> None:
        """Forgets what was written down."""
        replace(os.path.join(self.room, "lines"), b"")


def install(room: str, shells: Sequence[str]) -> Recorder:
    """A recorder in the folder `room` for each SHELL, as `/bin/bash` or `/usr/bin/env bash`.

    The recorder has the name of the real shell: make looks at it, for `.ONESHELL` and `:`.
    """
    cat = shutil.which("cat", path="/bin:/usr/bin") or shutil.which("cat")
    if cat is None:
        raise Stop("cat is not on the PATH", Status.DEVICE)
    for name, data in (("separator", SEPARATOR), ("call", CALL), ("end", END), ("lines", b"")):
        replace(os.path.join(room, name), data)
    replace(os.path.join(room, "recorder"), SCRIPT.format(cat=cat, room=room).encode(), 0o700)
    paths = {}
    for number, shell in enumerate(dict.fromkeys(shells)):
        program, *rest = shell.split() or ["/bin/sh"]
        folder = os.path.join(room, f"shell{number}")
        os.mkdir(folder)
        replace(os.path.join(folder, "real"), os.fsencode(program + "\n"))
        path = os.path.join(folder, os.path.basename(program))
        os.symlink("../recorder", path)
        paths[shell] = " ".join([path, *rest])
    return Recorder(room, paths)


def only(recorder: Recorder, target: str, texts: Mapping[str, str], make: Sequence[str]) -> str:
    """The text of a command that has make run the recipe of one target. `texts` are the makefiles read first and last,
    `make` the arguments of make with `$kati_room` in the place of the scratch folder."""
    pairs = [((shell.split() or ["/bin/sh"])[0], path.split()[0]) for shell, path in recorder.paths.items()]
    shells = "".join(ONLY_SHELL.format(number=number, name=os.path.basename(path), program=shell)
                     for number, (shell, path) in enumerate(pairs))
    return ONLY.format(shells=shells, target=shlex.quote(target), make=" ".join(make),
                       **{name: text.replace(recorder.room, "$(KATI_ROOM)") for name, text in texts.items()})
