"""One run at a time in a folder."""
from __future__ import annotations

import contextlib
import errno
import fcntl
import os
from typing import Callable, Iterator

from .message import Status, Stop


@contextlib.contextmanager
def held(path: str, on_wait: Callable[[], None], is_open_below: bool = False) -> Iterator[None]:
    """Holds the lock file at `path`; calls `on_wait` once if another run holds it, and waits. Stops with status 3.

    With `is_open_below` a run goes on without the lock if the run that holds it is one of the processes above.
    """
    try:
        descriptor = os.open(path, os.O_RDWR | os.O_CREAT | os.O_NOFOLLOW | os.O_CLOEXEC, 0o644)
    except OSError as error:
        raise Stop(f"cannot write {path}: {error.strerror}", Status.DEVICE) from error
    try:
        if not taken(descriptor, path) and not (is_open_below and holder(descriptor) in above()):
            on_wait()
            fcntl.flock(descriptor, fcntl.LOCK_EX)
            name_holder(descriptor)
        yield
    finally:
        os.close(descriptor)


def taken(descriptor: int, path: str) -> bool:
    """Locks the file if no other run holds it; the kernel releases the lock when the process ends, however it ends."""
    try:
        fcntl.flock(descriptor, fcntl.LOCK_EX | fcntl.LOCK_NB)
    except OSError as error:
        if error.errno not in (errno.EWOULDBLOCK, errno.EACCES):
            raise Stop(f"cannot lock {path}: {error.strerror}", Status.DEVICE) from error
        return False
    name_holder(descriptor)
    return True


def name_holder(descriptor: int) -> None:
    """Writes this process's number into its lock file; a file that stays empty names nobody."""
    with contextlib.suppress(OSError):
        os.ftruncate(descriptor, 0)
        os.pwrite(descriptor, b"%d" % os.getpid(), 0)


def holder(descriptor: int) -> int:
    """The process that holds the lock, or 0."""
    found = os.pread(descriptor, 20, 0)
    return int(found) if found.isdigit() else 0


def above() -> Iterator[int]:
    """The processes above this one, the nearest first."""
    process = os.getppid()
    while process > 0:
        yield process
        try:
            with open(f"/proc/{process}/stat", "rb") as file:
                process = int(file.read().rsplit(b")", 1)[1].split()[1])
        except OSError:
            return
