"""Messages for people: `FILE:LINE: what is wrong`, then `help: what to do`; and how a tool ends with one."""
from __future__ import annotations

import enum
import os
from typing import NamedTuple, Optional

ERRORS = 2   # the descriptor of the standard error


class Place(NamedTuple):
    """A line of a makefile; lines count from 1."""

    file: str
    line: int

    def __str__(self) -> str:
        return f"{self.file}:{self.line}"


class Message(NamedTuple):
    """What is wrong, where it is, and what to do about it."""

    text: str
    place: Optional[Place] = None
    help: Optional[str] = None


class Reason(NamedTuple):
    """Why make is read again, as `src has new.c`."""

    text: str


def printable(text: str) -> str:
    """The text with control characters and undecodable bytes escaped: no name of a file may steer a terminal."""
    return "".join(letter if letter.isprintable() else ascii(letter)[1:-1] for letter in text)


def lines_of(message: Message) -> str:
    """The message as it is printed, without the last newline."""
    head = f"{message.place}: " if message.place else "kati-build: "
    text = "\n".join(printable(line) for line in f"{head}{message.text}".split("\n"))
    return f"{text}\nhelp: {printable(message.help)}" if message.help else text


def say(message: Message) -> None:
    """Prints a message to the standard error. A closed or full one is no failure, not even when Python ends: it would
    flush what is left in a buffer, and end with status 120."""
    try:
        os.write(ERRORS, f"{lines_of(message)}\n".encode("utf-8", "backslashreplace"))
    except OSError:
        pass


class Status(enum.IntEnum):
    """Exit statuses of the tools."""

    DONE = 0
    REFUSED = 2        # the makefile cannot be built
    DEVICE = 3         # a file or program is missing or fails
    DIFFERENT = 5      # Ninja would build something else than make
    USAGE = 64
    INTERNAL = 70      # a fault of the tools
    INTERRUPTED = 130


class Stop(Exception):
    """Ends the tool with a message and a status; nothing that existed before is changed."""

    def __init__(self, text: str, status: Status = Status.REFUSED, place: Optional[Place] = None,
                 help: Optional[str] = None):
        super().__init__(text)
        self.message, self.status = Message(text, place, help), status
