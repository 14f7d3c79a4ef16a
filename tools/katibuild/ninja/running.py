"""Ninja, run on a file that kati-build wrote."""
from __future__ import annotations

import os
import signal
import sys
from typing import List, Mapping, Optional, Sequence

from ..base.programs import Programs
from ..base.message import Status, Stop

# What Python ignores, and a program that it runs must not.
IGNORED = (signal.SIGPIPE, signal.SIGXFSZ)
HANDED_ON = (signal.SIGINT, signal.SIGTERM, signal.SIGHUP)


def run(programs: Programs, arguments: Sequence[str], jobs: Optional[int] = None) -> int:
    """Ninja's exit status. Signals that end a program are handed on to Ninja, which ends its commands first.

    `jobs` are as many as the user wants at once; makes that recipes call share them.
    """
    sys.stdout.flush()
    sys.stderr.flush()
    came: List[int] = []
    environ = {**os.environ, "KATI_JOBS": str(jobs)} if jobs else os.environ
    child = started([programs.ninja, *arguments], environ)

    def hand_on(number: int, _frame: object) -> None:
        came.append(number)
        os.kill(child, number)

    before = [(one, signal.signal(one, hand_on)) for one in HANDED_ON]
    try:
        # an ended process keeps its number until its status is taken, so that a signal meets no other process
        os.waitid(os.P_PID, child, os.WEXITED | os.WNOWAIT)
    finally:
        for one, handler in before:
            signal.signal(one, handler)
    return status_of(os.waitpid(child, 0)[1], bool(came))


def started(argv: Sequence[str], environ: Mapping[str, str]) -> int:
    """The number of the process; stops with status 3 if it cannot be started."""
    try:
        return os.posix_spawn(argv[0], argv, environ, setsigdef=IGNORED)
    except OSError as error:
        raise Stop(f"cannot run {argv[0]}: {error.strerror}", Status.DEVICE) from error


def status_of(found: int, is_interrupted: bool) -> int:
    """The exit status for a status of the system: 130 after an interrupt, 128 and the number after another signal."""
    if is_interrupted:
        return Status.INTERRUPTED
    return 128 + os.WTERMSIG(found) if os.WIFSIGNALED(found) else os.WEXITSTATUS(found)
