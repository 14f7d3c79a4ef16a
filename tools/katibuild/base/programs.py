"""The programs that the tools run: where they are, and how one is run."""
from __future__ import annotations

import os
import selectors
import shutil
import signal
import subprocess
import sys
from typing import Mapping, NamedTuple, Optional, Sequence

from .message import Status, Stop

NAMES = (("kati", "KATI"), ("kati-asked", "KATI_ASKED"), ("ninja", "NINJA"), ("make", "MAKE_PROGRAM"))
BUILT = (("kati", "crates/kati_program/out/kati_program"), ("kati-asked", "crates/kati_asked/out/kati_asked"))
ABOVE = 4   # folders from this module to the top of a checkout


class Programs(NamedTuple):
    """Absolute paths; `make` is the word by which the user calls make, since `$(MAKE)` in recipes is that word."""

    kati: str
    kati_asked: str
    ninja: str
    make: str


class Finished(NamedTuple):
    """What a program left behind. A program that a signal ended has the status 128 plus the signal's number."""

    status: int
    output: bytes
    errors: bytes


class Meanwhile:
    """What is served while a program runs: `fileno()` is readable where `serve()` has work."""

    def fileno(self) -> int:
        """The descriptor to wait for."""
        raise NotImplementedError

    def serve(self) -> None:
        """Takes what has arrived; must not block."""
        raise NotImplementedError


def checkout() -> str:
    """The folder that is the top of a checkout, if this package is in one."""
    path = os.path.realpath(__file__)
    for _ in range(ABOVE):
        path = os.path.dirname(path)
    return path


def located(name: str, variable: str, environ: Mapping[str, str]) -> str:
    """The absolute path of a program, or '': by its variable, built in this checkout, beside this tool, or by PATH."""
    given = environ.get(variable)
    own = dict(BUILT)
    beside = os.path.join(os.path.dirname(os.path.abspath(sys.argv[0])), name)
    places = [] if given or name not in own else [os.path.join(checkout(), own[name]), beside]
    found = next((place for place in places if os.path.isfile(place) and os.access(place, os.X_OK)), None)
    found = found or shutil.which(given or name, path=environ.get("PATH", os.defpath))
    return os.path.abspath(found) if found else ""


def find(environ: Mapping[str, str], needed: Sequence[str] = ("kati", "ninja", "make")) -> Programs:
    """The programs; stops with status 3 if one of those needed is absent."""
    paths = {name: located(name, variable, environ) for name, variable in NAMES}
    for name, variable in NAMES:
        if name in needed and not paths[name]:
            raise Stop(f"{name} is not on the PATH", Status.DEVICE,
                       help=f"install {name}, or name it by the environment variable {variable}")
    return Programs(paths["kati"], paths["kati-asked"], paths["ninja"], environ.get("MAKE_PROGRAM") or "make")


def run(argv: Sequence[str], cwd: str, env: Mapping[str, str], meanwhile: Optional[Meanwhile] = None) -> Finished:
    """Runs a program to its end, with nothing to read.

    Its outputs are files, never pipes: the recorder takes a pipe for the output of a `$(shell ..)` call. make's
    database is long, and a file in memory is written in half the time.
    """
    with open(os.memfd_create("output"), "w+b") as output, open(os.memfd_create("errors"), "w+b") as errors:
        try:
            process = subprocess.Popen(argv, cwd=cwd, env=dict(env), stdin=subprocess.DEVNULL, stdout=output,
                                       stderr=errors)
        except OSError as error:
            raise Stop(f"cannot run {argv[0]}: {error.strerror}", Status.DEVICE) from error
        try:
            status = ended(process, meanwhile)
        except BaseException:
            process.send_signal(signal.SIGTERM)
            process.wait()
            raise
        output.seek(0)
        errors.seek(0)
        return Finished(status if status >= 0 else 128 - status, output.read(), errors.read())


def ended(process: subprocess.Popen, meanwhile: Optional[Meanwhile]) -> int:
    """Waits for the program's end, and serves `meanwhile` until then: a full queue of inotify loses names."""
    if meanwhile is None:
        return process.wait()
    with selectors.DefaultSelector() as selector:
        selector.register(meanwhile, selectors.EVENT_READ)
        pause = 0.001
        while process.poll() is None:
            if selector.select(pause):
                meanwhile.serve()
            pause = min(pause * 2, 0.02)
    meanwhile.serve()
    return process.returncode
