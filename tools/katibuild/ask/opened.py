"""Files that programs open while make is read, seen by inotify in the tree and in the folders it leads to."""
from __future__ import annotations

import ctypes
import itertools
import os
import re
import struct
from typing import Iterable, List, Set, Tuple

from ..base import files
from ..base.programs import Meanwhile

# <sys/inotify.h>
OPEN, OVERFLOW, ONLY_FOLDERS, IS_FOLDER = 0x20, 0x4000, 0x1000000, 0x40000000
NONBLOCK, CLOSE_ON_EXEC = 0o4000, 0o2000000
EVENT = struct.Struct("iIII")
ABOVE = re.compile(r"(?:\.\./)+(?:[\w.+@-]+/)*|(?<![\w.])\.\.(?![\w.])")
FEW = 1000   # folders below a folder that a link leads to


class Watch(Meanwhile):
    """Watches folders from its making until `close`; `opened` are absolute paths of files, `listed` of folders."""

    def __init__(self, folders: Iterable[str]):
        self.opened: Set[str] = set()
        self.listed: Set[str] = set()
        self.is_complete = True          # False: the kernel watches no further folder, or lost events
        self.library = ctypes.CDLL(None, use_errno=True)
        self.descriptor = self.library.inotify_init1(NONBLOCK | CLOSE_ON_EXEC)
        self.names = {}
        if self.descriptor < 0:
            self.is_complete = False
            return
        for folder in list(folders):     # all before the first watch, or the walk would see itself
            number = self.library.inotify_add_watch(self.descriptor, os.fsencode(folder), OPEN | ONLY_FOLDERS)
            if number >= 0:
                self.names[number] = folder
            elif os.path.isdir(folder):
                self.is_complete = False

    def fileno(self) -> int:
        """The descriptor that has events to read."""
        return self.descriptor

    def serve(self) -> None:
        """Takes the events that have arrived; the kernel's queue is short (16,384 events)."""
        while self.descriptor >= 0:
            try:
                data = os.read(self.descriptor, 1 << 16)
            except BlockingIOError:
                return
            self.take(data)

    def take(self, data: bytes) -> None:
        """Takes events apart."""
        at = 0
        while at < len(data):
            number, mask, _, length = EVENT.unpack_from(data, at)
            name = os.fsdecode(data[at + EVENT.size:at + EVENT.size + length].rstrip(b"\0"))
            at += EVENT.size + length
            if mask & OVERFLOW:
                self.is_complete = False
            elif number in self.names:
                path = os.path.join(self.names[number], name) if name else self.names[number]
                (self.listed if mask & IS_FOLDER or not name else self.opened).add(path)

    def close(self) -> None:
        """Ends watching; what was seen stays."""
        self.serve()
        if self.descriptor >= 0:
            os.close(self.descriptor)
            self.descriptor = -1

    def __enter__(self) -> "Watch":
        return self

    def __exit__(self, *_: object) -> None:
        self.close()


def folders(top: str, texts: Iterable[str]) -> List[str]:
    """The folders to watch: those of the tree, those that its links lead to, and those that texts name by `..`."""
    found, links = tree(top)
    more = set()
    for link in links:
        target = os.path.realpath(link)
        if os.path.isdir(target) and not files.is_below(top, target):
            more.update(itertools.islice(files.folders(target), FEW))
        else:
            more.add(os.path.dirname(target))
    more.update(above(top, texts))
    inside = set(found)
    return found + sorted(one for one in more if one not in inside and os.path.isdir(one))


def tree(top: str) -> Tuple[List[str], List[str]]:
    """The folders of a tree, and the links in it whose targets are not in the link's own folder."""
    found, links, work = [], [], [top]
    while work:
        at = work.pop()
        found.append(at)
        try:
            with os.scandir(at) as entries:
                for entry in entries:
                    if entry.is_symlink():
                        links += [entry.path] if "/" in os.readlink(entry.path) else []
                    elif entry.is_dir(follow_symlinks=False):
                        work.append(entry.path)
        except OSError:
            continue  # make cannot list the folder either
    return found, links


def above(top: str, texts: Iterable[str]) -> Set[str]:
    """The folders that texts name by `..`, and those between them and the tree."""
    found = set()
    for name in {one for text in texts if ".." in text for one in ABOVE.findall(text)}:
        parts = name.rstrip("/").split("/")
        found.update(os.path.normpath(os.path.join(top, *parts[:count])) for count in range(1, len(parts) + 1))
    return found
