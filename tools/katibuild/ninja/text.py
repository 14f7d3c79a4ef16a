"""What kati writes, read line by line: its layout is fixed, and no line is continued."""
from __future__ import annotations

import re
from typing import List, NamedTuple, Tuple

from ..base.files import text_of

ALWAYS = "_kati_always_build_"   # kati's phony output that is never there: what has it as an input always runs
NAME = re.compile(r"(?:\$.|[^ $])+")
COLON = re.compile(r"(?:\$.|[^:$])*")
ESCAPE = re.compile(r"\$(.)")
COMMAND, BUILD = " command = ", "build "


class Statement(NamedTuple):
    """A build statement. `line` is that of its `build`, from 1; `end` is the first line behind its last key."""

    line: int
    end: int
    outputs: Tuple[str, ...]
    inputs: Tuple[str, ...]
    order_only: Tuple[str, ...]
    command: str                                 # as Ninja runs it; empty for phony statements
    is_phony: bool = False

    @property
    def is_bare(self) -> bool:
        """Whether make runs the recipe only where an output is absent: nothing but order-only inputs."""
        return not self.is_phony and not self.inputs


class NinjaText(NamedTuple):
    """`data` is kati's own, byte for byte."""

    data: bytes
    statements: Tuple[Statement, ...]


class Block(NamedTuple):
    """Keys that are added to the statement that begins at `line`."""

    line: int
    pairs: Tuple[Tuple[str, str], ...]


def escaped(name: str) -> str:
    """A name as Ninja reads it in a `build` line."""
    return name.replace("$", "$$").replace(" ", "$ ").replace(":", "$:")


def escaped_value(text: str) -> str:
    """A value as Ninja reads it after `=`."""
    text = text.replace("$", "$$")
    return "$" + text if text.startswith(" ") else text


def plain(text: str) -> str:
    """What Ninja reads of an escaped text."""
    return ESCAPE.sub(r"\1", text) if "$" in text else text


def names(text: str) -> List[str]:
    """The names of a part of a `build` line."""
    if "$" in text:
        return [plain(name) for name in NAME.findall(text)]
    return [name for name in text.split(" ") if name]


def parts(line: str) -> Tuple[str, str, str, str]:
    """A `build` line's outputs, the word behind the colon, its inputs and its order-only inputs, as written there.

    No name holds a bar, so that a bar between blanks is Ninja's own.
    """
    outputs = COLON.match(line, len(BUILD)).group() if "$" in line else line[len(BUILD):line.index(":")]
    rule, _, rest = line[len(BUILD) + len(outputs) + 2:].partition(" ")
    inputs, _, order_only = f" {rest}".partition(" ||")
    return outputs, rule, inputs.replace(" |", "", 1) if " | " in inputs else inputs, order_only


def statement_of(number: int, line: str, command: str) -> Statement:
    """The statement of a `build` line, whose rule has this command."""
    if "$" not in line and "|" not in line:
        outputs, _, rest = line[len(BUILD):].partition(": ")
        rule, *inputs = rest.split(" ")
        found = tuple(outputs.split(" ")), tuple(inputs), ()
    else:
        outputs, rule, needed, order_only = parts(line)
        found = tuple(names(outputs)), tuple(names(needed)), tuple(names(order_only))
    is_phony = rule == "phony"
    return Statement(number, number + 1, *found, "" if is_phony else command, is_phony)


def parse(data: bytes) -> NinjaText:
    """The statements of a text that kati wrote."""
    found, command = [], ""
    for number, line in enumerate(text_of(data).split("\n"), 1):
        if line.startswith(COMMAND):
            command = plain(line[len(COMMAND):])
        elif line.startswith(BUILD):
            found.append(statement_of(number, line, command))
    return NinjaText(data, tuple(found))
