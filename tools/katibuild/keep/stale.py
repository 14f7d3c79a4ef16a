"""Whether the makefile has to be read again: build.ninja's look starts with this module.

What is watched is compared by `stat` first; bytes and names are compared only where `stat` differs.
"""
from __future__ import annotations

import os
import re
import stat
from typing import Callable, FrozenSet, List, Mapping, NamedTuple, Optional, Tuple

from ..base import files, lock
from ..base.message import Reason
from .record import BuildRecord, Dependencies, FileState, FolderState, load, save

OWN = frozenset((".kati", "build.ninja", "build.ninja.new", "build.kati", ".ninja_log", ".ninja_deps"))
FORMAT = "%.9Y %.9Z %i %n"   # of stat(1): what `stat_text` writes
SECOND = 10 ** 9
TEMPORARY = re.compile(r"\..*\.sw[a-z]$|\.#|#|.*~$|4913$")   # of vim, Emacs and others


class Changes(NamedTuple):
    """What differs from the record, and why make is read again; `now` has the states of all that is equal."""

    files: Tuple[str, ...]
    folders: Tuple[str, ...]
    reasons: Tuple[Reason, ...]
    now: Dependencies


class Counting:
    """Which names of a folder make could see: no hidden ones, none of kati-build's, and no depfiles."""

    def __init__(self, depends: Dependencies):
        self.apart: FrozenSet[str] = frozenset(depends.apart)
        self.shown: FrozenSet[str] = frozenset(depends.shown)
        self.literal: FrozenSet[str] = frozenset(depends.literal)
        self.kinds = frozenset(depends.kinds)
        self.is_all_shown = depends.is_all_shown

    def counts(self, folder: str, name: str) -> bool:
        """Whether a name counts; an editor's temporary file never does."""
        if name.startswith((".", "#")) or name.endswith("~") or name == "4913":
            return self.counts_hidden(folder, name)
        path = name if folder == "." else f"{folder}/{name}"
        return path not in self.apart and not (folder == "." and name in OWN)

    def counts_hidden(self, folder: str, name: str) -> bool:
        """Whether a hidden name counts: a call lists such names, a text has the name, or it holds what make reads."""
        path = name if folder == "." else f"{folder}/{name}"
        if path in self.apart or folder == "." and name in OWN or TEMPORARY.match(name):
            return False
        return self.is_all_shown or name in self.literal or path in self.shown or \
            (folder, os.path.splitext(name)[1]) in self.kinds

    def names(self, folder: str) -> Tuple[str, ...]:
        """The names that count in a folder, each with what kind of file it is."""
        with os.scandir(folder) as entries:
            return tuple(sorted(name_of(entry) for entry in entries if self.counts(folder, entry.name)))


def name_of(entry: os.DirEntry) -> str:
    """A name as `names` of FolderState has it."""
    if entry.is_symlink():
        return f"{entry.name} -> {os.readlink(entry.path)}"
    return f"{entry.name}/" if entry.is_dir(follow_symlinks=False) else entry.name


def file_state(path: str, earlier: Optional[FileState] = None) -> Optional[FileState]:
    """The state of a regular file, or None; bytes are read only if `stat` differs from an earlier state."""
    try:
        seen = os.stat(path)
    except (OSError, ValueError):
        return None
    if not stat.S_ISREG(seen.st_mode):
        return None
    now = (seen.st_mtime_ns, seen.st_ctime_ns, seen.st_size, seen.st_ino)
    if earlier is not None and earlier[:4] == now:
        return earlier
    return FileState(*now, files.file_digest(path) or "")


def folder_state(path: str, counting: Counting, earlier: Optional[FolderState] = None) -> Optional[FolderState]:
    """The state of a folder, or None; names are read only if `stat` differs from an earlier state."""
    try:
        seen = os.stat(path)
        now = (seen.st_mtime_ns, seen.st_ctime_ns, seen.st_ino)
        if earlier is not None and earlier[:3] == now:
            return earlier
        return FolderState(*now, counting.names(path))
    except (OSError, ValueError):
        return None


def of_file(name: str, before: Optional[FileState], now: Optional[FileState]) -> str:
    """What has happened to a file, in words."""
    if now is None:
        return f"{name} is gone"
    return f"{name} has appeared" if before is None else f"{name} has changed"


def of_folder(name: str, before: Optional[FolderState], now: Optional[FolderState]) -> str:
    """What has happened to the names in a folder, in words."""
    if now is None or before is None:
        return f"{name} is gone" if now is None else f"{name} has appeared"
    where = "this folder" if name == "." else name
    new = sorted(set(now.names) - set(before.names))
    gone = sorted(set(before.names) - set(now.names))
    return f"{where} has {new[0].partition(' -> ')[0]}" if new else f"{where} no longer has {gone[0]}"


def other_environment(depends: Dependencies, environ: Optional[Mapping[str, str]]) -> List[Reason]:
    """The variables that have another value."""
    return [Reason(f"{name} in the environment is different") for name, value in depends.environment.items()
            if environ is not None and environ.get(name) != value]


def other_git(depends: Dependencies, git: Optional[Callable[[str], str]]) -> List[Reason]:
    """The git commands that print something else; `git` answers the hash of what one prints."""
    return [Reason(f"`{text}` prints something else") for text, value in depends.git.items()
            if git is not None and git(text) != value]


def changes(record: BuildRecord, environ: Optional[Mapping[str, str]] = None,
            git: Optional[Callable[[str], str]] = None) -> Changes:
    """What differs from a record. Without `environ` and `git`, variables and git commands count as equal."""
    depends, quiet, counting = record.dependencies, frozenset(record.without_effect), Counting(record.dependencies)
    reasons = other_environment(depends, environ) + other_git(depends, git)
    seen = {name: file_state(name, before) for name, before in depends.files.items()}
    timed = frozenset(depends.timed)
    changed = [name for name, before in depends.files.items() if seen[name] is not before and name not in quiet
               and is_other(before, seen[name], name in timed)]
    reasons += [Reason(of_file(name, depends.files[name], seen[name])) for name in changed]
    folders = {name: folder_state(name, counting, before) for name, before in depends.folders.items()}
    other = [name for name, before in depends.folders.items() if names_of(folders[name]) != names_of(before)]
    reasons += [Reason(of_folder(name, depends.folders[name], folders[name])) for name in other]
    return Changes(tuple(changed), tuple(other), tuple(reasons), depends._replace(files=seen, folders=folders))


def is_other(before: Optional[FileState], now: Optional[FileState], is_timed: bool) -> bool:
    """Whether a file has other bytes, is gone or has appeared; of a timed file also whether it has another time."""
    if before is None or now is None:
        return before is not now
    return before.sha256 != now.sha256 or is_timed and before.modified != now.modified


def names_of(state: Optional[FolderState]) -> Optional[Tuple[str, ...]]:
    """The names in a folder, or None where the folder is absent."""
    return state and state.names


def is_loss(record: BuildRecord, found: Changes) -> bool:
    """Whether nothing but files and names disappeared, as after `clean`: no build follows from that."""
    before = record.dependencies
    return all(found.now.files[name] is None for name in found.files) and all(
        set(names_of(found.now.folders[name]) or ()) <= set(names_of(before.folders[name]) or ())
        for name in found.folders) and len(found.reasons) == len(found.files) + len(found.folders)


def reason(record: BuildRecord, environ: Optional[Mapping[str, str]] = None,
           git: Optional[Callable[[str], str]] = None) -> Optional[Reason]:
    """Why make has to be read again, or None."""
    found = changes(record, environ, git).reasons
    return found[0] if found else None


# -- the shell line ----------------------------------------------------------------------------------------------------

def seconds(nanoseconds: int) -> str:
    """A time as stat(1) prints it by `%.9Y`."""
    sign = "-" if nanoseconds < 0 else ""
    return f"{sign}{abs(nanoseconds) // SECOND}.{abs(nanoseconds) % SECOND:09d}"


def stat_text(depends: Dependencies) -> str:
    """What stat(1) prints of what is watched, as long as nothing differs; nothing for what is absent."""
    states = [*depends.files.items(), *depends.folders.items()]
    return "".join(f"{seconds(state.modified)} {seconds(state.changed)} {state.inode} {name}\n"
                   for name, state in states if state is not None)


def shell_line(room: str) -> str:
    """A shell line that succeeds if nothing that is watched has another `stat`, and no file is hidden."""
    return (f"[ ! -e .kati/hidden/list ] && xargs -0 -a {room}/watched stat -L -c '{FORMAT}' -- 2>/dev/null"
            f" | cmp -s - {room}/stat")


def write_look(room: str, depends: Dependencies) -> None:
    """Writes what the shell line compares."""
    names = "".join(f"{name}\0" for name in (*depends.files, *depends.folders))
    files.replace(f"{room}/watched", files.bytes_of(names))
    files.replace(f"{room}/stat", files.bytes_of(stat_text(depends)))


def settle(room: str, record: BuildRecord, now: Dependencies) -> None:
    """Writes what was seen of a record of which nothing differs, so that the next look compares `stat` alone."""
    if now != record.dependencies:
        save(f"{room}/record", record._replace(dependencies=now))
    write_look(room, now)


def is_settled(room: str) -> bool:
    """The look of a plain ninja: whether nothing differs. Variables are those of the record."""
    if not os.path.isdir(room) or os.path.exists(".kati/hidden/list"):
        return False
    with lock.held(".kati/lock", lambda: None):
        record = load(f"{room}/record")
        found = changes(record, None, printed_by_git(record)) if record else None
        if record is None or found is None or found.reasons:
            return False
        settle(room, record, found.now)
        return True


def printed_by_git(record: BuildRecord) -> Optional[Callable[[str], str]]:
    """What answers the hash of what a git command prints; None where no command is recorded, as nearly always."""
    if not record.dependencies.git:
        return None
    from . import environment
    return environment.printed
