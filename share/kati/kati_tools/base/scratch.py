"""Scratch folders, of which nothing stays, wherever a run is ended."""
import contextlib
import os

from . import interrupting
from .programs import LEFT


# The paths of those that are there, of this run.
ROOMS = set()


def is_room(path):
    """Whether a path is that of a scratch folder of this run, as where this folder is that of temporary files."""
    # Most names are none of theirs.
    return any(os.path.basename(one) in path for one in ROOMS) and os.path.abspath(path) in ROOMS


@contextlib.contextmanager
def room(prefix):
    """The path of a scratch folder whose name begins so; in the end it is taken away."""
    with contextlib.ExitStack() as stack:
        with interrupting.put_off():
            made = Room(prefix)
            stack.callback(made.take_away)
        yield made.path


class Room:
    """A scratch folder."""

    def __init__(self, prefix):
        # Loaded here alone, since it takes time, and who asks for what is one of a run mostly has none.
        import tempfile
        self.path = tempfile.mkdtemp(prefix=prefix)
        ROOMS.add(os.path.abspath(self.path))
        LEFT.append(self.take_away)

    def take_away(self):
        """Takes it away, and what is in it that can't be written; once."""
        import shutil
        with interrupting.put_off():
            if self.take_away not in LEFT:
                return
            for at, folders, _ in os.walk(self.path):
                for path in (os.path.join(at, name) for name in folders):
                    with contextlib.suppress(OSError):
                        # A link may lead to a folder of the user's.
                        if not os.path.islink(path):
                            os.chmod(path, 0o700)
            shutil.rmtree(self.path, ignore_errors=True)
            ROOMS.discard(os.path.abspath(self.path))
            LEFT.remove(self.take_away)
