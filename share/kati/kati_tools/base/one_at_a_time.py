"""One run at a time in a folder: each holds a lock there, and the next one waits for it."""
import contextlib
import errno
import fcntl
import os
import time

from . import files
from .own_files import LOCK
from .programs import Stop

PAUSE = 0.02
# A file system that has no locks: a run goes on without.
WITHOUT_LOCKS = (errno.ENOLCK, errno.ENOSYS, errno.EOPNOTSUPP)
# After so many seconds it is said that a run waits.
SAID_AFTER = 1


def opened(room):
    """The lock of a folder, opened; the folder is made where it isn't there. No link is followed to either: what a
    tree brings along would have files of its user's written over."""
    while True:
        if os.path.islink(room):
            files.remove(room)
        os.makedirs(room, exist_ok=True)
        try:
            return os.open(os.path.join(room, LOCK), os.O_RDWR | os.O_CREAT | os.O_NOFOLLOW, 0o666)
        except FileNotFoundError:
            # Another run took the folder away meanwhile; where it can't be made again, that is told above.
            time.sleep(PAUSE)
        except OSError as error:
            if error.errno != errno.ELOOP:
                raise
            raise Stop(f"{os.path.join(room, LOCK)} is a link, which isn't followed: remove it") from error


def is_held(lock, room):
    """Whether this run holds the lock, and the folder that has it is still there: who made it may remove it."""
    try:
        fcntl.flock(lock, fcntl.LOCK_EX | fcntl.LOCK_NB)
        return os.path.samestat(os.fstat(lock), os.stat(os.path.join(room, LOCK)))
    except (BlockingIOError, FileNotFoundError):
        return False
    except OSError as error:
        if error.errno in WITHOUT_LOCKS:
            return True
        raise


@contextlib.contextmanager
def held(room, say_waiting):
    """Holds a folder, which is made where it isn't there; gives whether nothing else is in it, whichever run made it.
    `say_waiting` is called once, where it takes long."""
    begun, is_said = time.monotonic(), False
    while True:
        lock = opened(room)
        try:
            if is_held(lock, room):
                yield os.listdir(room) == [LOCK]
                return
        finally:
            os.close(lock)
        if not is_said and time.monotonic() - begun > SAID_AFTER:
            say_waiting()
            is_said = True
        time.sleep(PAUSE)


def remove(room):
    """Takes away a folder that this run holds. The lock goes last: a run that makes a new one before the folder is
    gone has it to itself, and takes it away in turn."""
    for name in set(os.listdir(room)) - {LOCK}:
        path = os.path.join(room, name)
        if os.path.isdir(path) and not os.path.islink(path):
            # What is hardly ever needed is loaded here, since it takes time.
            import shutil
            shutil.rmtree(path, ignore_errors=True)
        else:
            files.remove(path)
    files.remove(os.path.join(room, LOCK))
    with contextlib.suppress(OSError):
        os.rmdir(room)
