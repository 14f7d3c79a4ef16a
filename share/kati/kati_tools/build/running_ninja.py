"""ninja, run on the file that kati-build has written."""
import os
import signal
import sys

from ..base import interrupting
from ..base.programs import INTERRUPTED, NO_FILE, PIPE_SIGNAL, need, say, status_of

# The status where a command of the build failed, which is ninja's own.
FAILED = 1


# What Python ignores, and a program that it runs doesn't.
IGNORED = (signal.SIGPIPE, signal.SIGXFSZ)


class Running:
    """A program that runs. Python's own module for that takes time to load, as a run with nothing to do would see."""

    def __init__(self, words):
        self.is_there, self.pid = True, os.posix_spawn(words[0], words, os.environ, setsigdef=IGNORED)

    def send_signal(self, number):
        """Sends it a signal, where it hasn't ended."""
        if self.is_there:
            os.kill(self.pid, number)

    def wait(self):
        """The status with which it ends, negative where a signal ended it."""
        # What has ended keeps its number until it is asked for its status, so that no other process has it.
        os.waitid(os.P_PID, self.pid, os.WEXITED | os.WNOWAIT)
        self.is_there = False
        return status_of(os.waitpid(self.pid, 0)[1])


def run(tool, path, more):
    """ninja's status with these further words. An interrupt is ninja's, and so are other signals that end a program: it
    ends its commands, and tells so."""
    sys.stdout.flush()
    sys.stderr.flush()
    handed_on = interrupting.HandedOn()
    status = handed_on.wait(Running([need("ninja"), "-f", path, *more]))
    return status_after(tool, status, bool(handed_on.came))


def status_after(tool, status, is_interrupted):
    """The status for a tool to end with after ninja's, which is negative where a signal ended it."""
    if status >= 0:
        return status
    if is_interrupted:
        return INTERRUPTED
    say(tool, f"ninja was ended by signal {-status}" + (", as its output was closed" if status == -PIPE_SIGNAL else ""))
    return NO_FILE if status == -PIPE_SIGNAL else FAILED
