"""Commands as texts for shells: one line, or a script below .kati/run for what has flags or an environment of its own,
or fits no line.

A script is named by the hash of its bytes. So a changed value changes the command in Ninja's text, and Ninja runs the
command again; a value that comes back has its old name.
"""
from __future__ import annotations

import posixpath
import re
from typing import Iterable, Optional, Sequence, Tuple

from ..ask.answer import Environment
from ..base.files import bytes_of, digest
from ..base.message import Place, Stop

FOLDER = ".kati/run"
NAME = re.compile(r"[A-Za-z_][A-Za-z0-9_]*")
Script = Tuple[str, bytes]
BOURNE = ("sh", "bash", "dash", "ksh", "mksh", "zsh", "ash", "rbash", "rksh")
MARKS = (" ", "\t", "@", "+", "-")        # kati takes these from the front of a line of a recipe
PLAIN = re.compile(r"[\w@%+=:,./-]+", re.ASCII)
# A shell's text in parts. Group 1 is where one line cannot mean the same: a newline that is not continued, a comment
# before one, a text between single quotes with a newline, bash's $'..', and a call of a command between double quotes
# that has continued lines.
TOKEN = re.compile(r"""(\n | (?<![^\s;&|()`])\# | '[^'\n]*(?:\n|\Z) | \$')
                       | '[^'\n]*'
                       | "(?:\\.|[^"\\\n])*"
                       | \\.
                       | [^\\'"#\n$]+
                       | [#$]""", re.VERBOSE | re.DOTALL)


def quoted(text: str) -> str:
    """The text as one word of a shell."""
    return text if PLAIN.fullmatch(text) else "'" + text.replace("'", "'\\''") + "'"


def is_bourne(shell: Sequence[str]) -> bool:
    """Whether a shell, as `/usr/bin/env bash -c`, reads the language of POSIX."""
    return any(posixpath.basename(word) in BOURNE for word in shell[:3])


def one_line(text: str) -> Optional[str]:
    """The text as one line for a POSIX shell; None where no line means the same, or kati cannot write the line."""
    if "\n" in text:
        joined = without_continuations(text)
        if joined is None:
            return None
        text = joined
    is_continued = (len(text) - len(text.rstrip("\\"))) % 2 == 1
    return None if "\r" in text or is_continued or text.startswith(MARKS) else text


def without_continuations(text: str) -> Optional[str]:
    """The text without its continued lines, which vanish for a shell; None where they do not vanish."""
    kept, at = [], 0
    for found in TOKEN.finditer(text):
        part = found.group()
        if found.start() != at or found.group(1) is not None or is_nested(part):
            return None
        at = found.end()
        if part != "\\\n":
            kept.append(part.replace("\\\n", "") if part.startswith('"') else part)
    return "".join(kept) if at == len(text) else None


def is_nested(part: str) -> bool:
    """Whether a text between double quotes has continued lines in which a command may have quotes of its own."""
    return part.startswith('"') and "\\\n" in part and ("$(" in part or "`" in part or "\\\\\n" in part)


# -- scripts -----------------------------------------------------------------------------------------------------------

def name_of(data: bytes) -> str:
    """The name of a script with these bytes."""
    return digest(data)[:24]


def path_of(script: Script) -> str:
    """The path of a script, from the makefile's folder."""
    return f"{FOLDER}/{script[0]}"


def named(text: str) -> Script:
    """A script with this text, and its name."""
    data = bytes_of(text)
    return name_of(data), data


def environment_lines(environment: Environment, place: Optional[Place]) -> str:
    """The lines that set and unset variables; stops where a shell has no word for a name."""
    for name, _ in environment:
        if not NAME.fullmatch(name):
            raise Stop(f"no shell can export a variable named '{name}'", place=place,
                       help="rename the variable, or write 'unexport' for it")
    gone = [f"unset {name}\n" for name, value in environment if value is None]
    return "".join([*gone, *(f"export {name}={quoted(value)}\n" for name, value in environment if value is not None)])


def script(shell: Sequence[str], environment: Environment, place: Optional[Place] = None) -> Script:
    """A shell that takes `-c TEXT` and has these flags and this environment."""
    words = " ".join(map(quoted, shell))
    return named(f'#!/bin/sh\n{environment_lines(environment, place)}exec {words} "$2"\n')


def whole_script(shell: Sequence[str], environment: Environment, text: str, place: Optional[Place] = None) -> Script:
    """A command with its shell and environment, for shells that cannot read a text from a file."""
    words = " ".join(map(quoted, shell))
    return named(f"#!/bin/sh\n{environment_lines(environment, place)}exec {words} {quoted(text)}\n")


def recipe_script(shell: str, lines: Iterable[Tuple[str, bool]]) -> Script:
    """All lines of a recipe, which together are too long for Ninja; each with whether its failure is ignored."""
    return named("#!/bin/sh\n" + "".join(f"{shell} -c {quoted(text)} || {':' if is_ignored else 'exit'}\n"
                                         for text, is_ignored in lines))


def text_script(text: str) -> Script:
    """A text for a POSIX shell to read by `.`"""
    return named(text)
