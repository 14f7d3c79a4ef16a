"""Moves files away while make is read, so that make takes them for absent, and puts them back.

A journal says what is moved before the first file moves. So a run that is killed at any step loses nothing: the next
start restores what the journal names.
"""
from __future__ import annotations

import contextlib
import json
import os
import stat
from typing import FrozenSet, Iterable, Iterator, List

from ..base import files

JOURNAL = "list"


@contextlib.contextmanager
def hidden(names: Iterable[str], top: str, folder: str) -> Iterator[FrozenSet[str]]:
    """Hides regular files of the tree `top` in `folder`; gives the names of those that could be hidden."""
    wanted = sorted(name for name in names if is_hidable(name, top))
    if not wanted:
        yield frozenset()
        return
    try:
        write_journal(wanted, folder)
        yield frozenset(name for number, name in enumerate(wanted) if is_moved(number, name, top, folder))
    finally:
        restore(top, folder)


def is_hidable(name: str, top: str) -> bool:
    """Whether a name is a regular file below the tree, without a link in its path that leads out of it."""
    path = os.path.join(top, name)
    if os.path.isabs(name) or not files.is_below(os.path.realpath(os.path.dirname(path)), os.path.realpath(top)):
        return False
    try:
        return stat.S_ISREG(os.lstat(path).st_mode)
    except OSError:
        return False


def write_journal(names: List[str], folder: str) -> None:
    """Writes what will be moved, on the disk before anything moves."""
    os.makedirs(folder, exist_ok=True)
    new = os.path.join(folder, f"{JOURNAL}.new")
    with contextlib.suppress(FileNotFoundError):
        os.unlink(new)
    with open(os.open(new, os.O_WRONLY | os.O_CREAT | os.O_EXCL, 0o644), "w", encoding="ascii") as file:
        json.dump(names, file)
        file.flush()
        os.fsync(file.fileno())
    os.rename(new, os.path.join(folder, JOURNAL))


def is_moved(number: int, name: str, top: str, folder: str) -> bool:
    """Moves a file away; a file on another file system stays visible."""
    try:
        os.rename(os.path.join(top, name), os.path.join(folder, str(number)))
    except OSError:
        return False
    return True


def restore(top: str, folder: str) -> List[str]:
    """Puts back what a journal names, and answers the names; a file that is present again is never overwritten."""
    journal, back = os.path.join(folder, JOURNAL), []
    for number, name in enumerate(listed(journal)):
        kept, path = os.path.join(folder, str(number)), os.path.join(top, name)
        if not os.path.lexists(kept):
            continue
        inside = not os.path.isabs(name) and files.is_below(os.path.realpath(os.path.dirname(path)),
                                                            os.path.realpath(top))
        if inside and not os.path.lexists(path) and is_back(kept, path):
            back.append(name)
        else:
            os.unlink(kept)
    with contextlib.suppress(FileNotFoundError):
        os.unlink(journal)
    return back


def is_back(kept: str, path: str) -> bool:
    """Moves a file back; False if its folder is gone."""
    try:
        os.rename(kept, path)
    except (FileNotFoundError, NotADirectoryError):
        return False
    return True


def listed(journal: str) -> List[str]:
    """The names in a journal; none if there is no journal, or a journal that these tools have not written."""
    try:
        with open(journal, encoding="ascii") as file:
            names = json.load(file)
    except (OSError, ValueError):
        return []
    return names if isinstance(names, list) and all(isinstance(name, str) for name in names) else []
