"""A shell for tests that runs each line for real, and writes down what make handed to it."""
from __future__ import annotations

import os
import re
import subprocess
from typing import NamedTuple

# Between these marks on make's own output stands what the line itself prints. `fail` names the line that is to fail.
SCRIPT = r"""#!/bin/sh
if test -p /dev/fd/1; then exec @REAL@ "$@"; fi
n=$(cat @ROOM@/count); n=$((n + 1)); echo $n > @ROOM@/count
cat /proc/$$/cmdline > @ROOM@/argv.$n; cat /proc/$$/environ > @ROOM@/environ.$n
printf '\001begin\n'
@REAL@ "$@"
status=$?
printf '\001end\n'
test "$(cat @ROOM@/fail)" = $n && exit 1
exit $status
"""
SHELLS = ("sh", "bash", "dash")
# What make, the shell or the caller sets by itself.
OWN = frozenset(("MAKEFLAGS", "MFLAGS", "MAKELEVEL", "MAKE_TERMOUT", "MAKE_TERMERR", "MAKEOVERRIDES", "MAKE_RESTARTS",
                 "SHLVL", "_", "OLDPWD", "PWD"))


class Seen(NamedTuple):
    """A line as make handed it to the shell."""

    text: str
    shell: tuple
    environment: tuple
    is_echoed: bool
    is_ignored: bool
    inner: tuple                                 # MAKEFLAGS, MFLAGS and MAKELEVEL


class Shell:
    """The recording shell in the folder `room`, beside a tree."""

    def __init__(self, room):
        self.room = room
        for name in SHELLS:
            path = room / "bin" / name
            path.parent.mkdir(exist_ok=True, parents=True)
            path.write_text(SCRIPT.replace("@ROOM@", str(room)).replace("@REAL@", f"/bin/{name}"))
            path.chmod(0o755)

    def makefile(self, text):
        """The makefile with the recording shells in the place of the real ones."""
        text = re.sub(r"/bin/(?=(?:sh|bash|dash)\b)", f"{self.room}/bin/", text)
        return text if re.search(r"(?m)^SHELL *:?=", text) else f"SHELL = {self.room}/bin/sh\n{text}"

    def real(self, text):
        """A text with the real shells."""
        return text.replace(f"{self.room}/bin/", "/bin/")

    def run(self, arguments, tree, environment, fail=0):
        """Runs make for real; answers the lines without `is_ignored`, make's status and its errors."""
        (self.room / "count").write_text("0")
        (self.room / "fail").write_text(str(fail))
        ran = subprocess.run(["make", *arguments], cwd=tree, env=environment, stdin=subprocess.DEVNULL, check=False,
                             stdout=open(self.room / "out", "wb"), stderr=open(self.room / "err", "wb"))
        said = (self.room / "out").read_text().split("\1begin\n")
        lines = []
        for number in range(1, int((self.room / "count").read_text()) + 1):
            shown = self.real(said[number - 1].rpartition("\1end\n")[2])
            lines.append(self.line(number, shown, environment))
        return lines, ran.returncode, (self.room / "err").read_text()

    def line(self, number, shown, environment):
        """A line that was written down; `shown` is what make printed before it."""
        words = (self.room / f"argv.{number}").read_bytes().decode().split("\0")[1:-1]
        has = dict(one.split("=", 1) for one in (self.room / f"environ.{number}").read_bytes().decode().split("\0")
                   if "=" in one)
        changed = {name: self.real(value) for name, value in has.items()
                   if name not in OWN and environment.get(name) != value}
        gone = {name: None for name in environment if name not in has and name not in OWN}
        *shell, text = map(self.real, words)
        first = text.split("\n", 1)[0]
        inner = tuple((name, has.get(name, "").rstrip()) for name in ("MAKEFLAGS", "MFLAGS", "MAKELEVEL"))
        return Seen(text, tuple(shell), tuple(sorted({**changed, **gone}.items())), first in shown, False, inner)


def seen(shell, arguments, fill, environment):
    """All lines that a real build runs. `fill` makes a fresh tree. Each line is made to fail once: does make go on?"""
    lines, status, errors = shell.run(arguments, fill(), environment)
    if status:
        raise AssertionError(f"make failed: {errors}")
    for number, line in enumerate(lines, 1):
        status = shell.run(["-k", *arguments], fill(), environment, number)[1]
        lines[number - 1] = line._replace(is_ignored=not status)
    return lines


def clean_environment():
    """An environment without what would differ between two runs."""
    return {"PATH": os.defpath, "HOME": "/nowhere", "LANG": "C.UTF-8", "USER": "tester", "GIVEN": "by the user"}
