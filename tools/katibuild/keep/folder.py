"""The folder .kati: its names, and what is done about content that these tools did not write."""
from __future__ import annotations

import contextlib
import os
import shutil
import stat
from typing import FrozenSet, Iterable, Iterator, Tuple

from ..base import files
from ..base.message import Status, Stop
from .record import BuildRecord, load
from .request import GOALS, NINJA_FILE, Place, ROOM

LOCK, HIDDEN, RUN = f"{ROOM}/lock", f"{ROOM}/hidden", f"{ROOM}/run"
BUILDING = f"{ROOM}/building"        # locked while a build runs; LOCK, while the makefile is read
AGAIN = "again"
LOG, DEPENDENCY_LOG = f"{ROOM}/.ninja_log", f"{ROOM}/.ninja_deps"
FIRST_LINE = b"# kati-build wrote this file."   # as ninja.top writes it
OLD_FIRST_LINE = b"# Written by kati-build, which"   # of the package that writes to build.kati


def prepare(place: Place) -> None:
    """Makes the folders, and removes what may not be there: links, and a folder of another user's."""
    for folder in dict.fromkeys((ROOM, HIDDEN, RUN, os.path.dirname(place.room), place.room)):
        if folder:
            own_folder(folder)


def hide_from_git() -> None:
    """Has git ignore the folder; the caller holds the lock."""
    files.replace(f"{ROOM}/.gitignore", b"*\n")


def own_folder(path: str) -> None:
    """Makes a real folder of this user's at `path`; a link, file or other user's folder there is deleted."""
    try:
        found = os.lstat(path)
        # root may build in a user's tree, as for `install`
        if stat.S_ISDIR(found.st_mode) and found.st_uid in (os.geteuid(), os.stat(".").st_uid):
            return
        if stat.S_ISDIR(found.st_mode):
            shutil.rmtree(path)
        else:
            os.unlink(path)
    except FileNotFoundError:
        pass
    except OSError as error:
        raise Stop(f"cannot delete {path}, which belongs to another user: {error.strerror}", Status.DEVICE) from error
    try:
        os.mkdir(path)
    except FileExistsError:
        pass  # another run has made it meanwhile
    except OSError as error:
        raise Stop(f"cannot write {path}: {error.strerror}", Status.DEVICE) from error


def refuse_foreign(ninja_file: str) -> None:
    """Stops with status 64 if the Ninja file is not kati-build's own, or the old package's."""
    data = files.read(ninja_file)
    if data is None or data.startswith(FIRST_LINE) or not data:
        return
    if data.startswith(OLD_FIRST_LINE):
        raise Stop(f"{ninja_file} was written by kati-build without --ask", Status.USAGE,
                   help="run kati-build --remove first")
    raise Stop(f"{ninja_file} was not written by kati-build", Status.USAGE, help=f"move {ninja_file} away first")


def write_scripts(scripts: Iterable[Tuple[str, bytes]], folder: str = RUN) -> None:
    """Puts the scripts of commands in place, each named by its hash; others stay until `delete_unused_scripts`."""
    for name, data in scripts:
        path = f"{folder}/{name}"
        files.replace(path, data, 0o755)
        os.chmod(path, 0o755)


def delete_unused_scripts() -> None:
    """Deletes scripts that no record of this folder names any more."""
    with contextlib.suppress(OSError):
        present = set(os.listdir(RUN))
        kept = {name for record in records() for name in record.dependencies.files} if present else set()
        for name in present:
            if f"{RUN}/{name}" not in kept:
                os.unlink(f"{RUN}/{name}")


def records(apart: str = "") -> Iterator[BuildRecord]:
    """The records of this folder, but for that of one place."""
    rooms = [ROOM, *(f"{GOALS}/{name}" for name in (os.listdir(GOALS) if os.path.isdir(GOALS) else ()))]
    found = (load(f"{room}/record") for room in rooms if room != apart)
    return (record for record in found if record is not None)


def other_outputs(place: Place) -> FrozenSet[str]:
    """The outputs that readings for other goals have had."""
    return frozenset(name for record in records(place.room) for name in record.seen_outputs)


def delete(path: str) -> None:
    """Deletes a file, if there is one."""
    with contextlib.suppress(FileNotFoundError):
        os.unlink(path)


def remove(ninja_file: str = NINJA_FILE) -> None:
    """Deletes what kati-build has written. Hidden files have to be restored before."""
    data = files.read(ninja_file)
    if data is not None and data.startswith(FIRST_LINE):
        os.unlink(ninja_file)
    if os.path.islink(ROOM):
        os.unlink(ROOM)
    elif os.path.isdir(ROOM):
        shutil.rmtree(ROOM)
