"""Signals, and scratch folders that do not outlive a run."""
from __future__ import annotations

import contextlib
import os
import shutil
import signal
import tempfile
from typing import Iterator

from .message import Message, say

SIGNALS = (signal.SIGINT, signal.SIGTERM, signal.SIGHUP)


class Interrupted(BaseException):
    """A signal asked the tool to end; `number` is the signal's number."""

    def __init__(self, number: int):
        super().__init__(number)
        self.number = number


@contextlib.contextmanager
def as_exit() -> Iterator[None]:
    """Turns signals that end the tool into the exception Interrupted, so that hidden files are restored first."""

    def raised(number: int, _frame: object) -> None:
        for one in SIGNALS:
            signal.signal(one, signal.SIG_IGN)
        raise Interrupted(number)

    before = [(one, signal.signal(one, raised)) for one in SIGNALS]
    try:
        yield
    finally:
        for one, handler in before:
            signal.signal(one, handler)


@contextlib.contextmanager
def scratch_folder(keep: bool = False) -> Iterator[str]:
    """A folder of mode 0700 for one run, outside of the user's tree; its real path, without blanks."""
    parent = os.path.realpath(tempfile.gettempdir())
    if any(letter.isspace() or letter in "$#%:;\\'\"" for letter in parent):
        parent = "/tmp"
    folder = tempfile.mkdtemp(prefix="kati-", dir=parent)
    try:
        yield folder
    finally:
        if keep:
            say(Message(f"kept {folder}"))
        else:
            shutil.rmtree(folder, ignore_errors=True)
