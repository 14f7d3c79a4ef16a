"""The lines of recipes that `make -n --trace` prints."""
from __future__ import annotations

import os
import re
from typing import Iterator, List, Mapping, NamedTuple, Optional, Tuple

from ..base.message import Place
from .answer import Rule

ABSENT = "' does not exist"
TRACED = re.compile(r"(?:(.+):(\d+)|<builtin>): (?:target '(.*)' does not exist|update target '(.*)' due to: .*)$",
                    re.DOTALL)
BOURNE = ("sh", "bash", "dash", "ksh", "rksh", "zsh", "ash")   # make's own list
MESSAGE = re.compile(r"[^\s/]+(?:\[\d+\])?: (?:Nothing to be done for '.*'\.|'.*' is up to date\.|"
                     r"(?:Entering|Leaving) directory '.*')$|Removing intermediate files\.\.\.$")


class Recipe(NamedTuple):
    """A recipe that make would run: its target, the place of its rule, and its lines."""

    target: str
    place: Optional[Place]
    texts: List[str]


def is_bourne(program: str) -> bool:
    """Whether make takes the program for a shell like Bourne's."""
    return os.path.basename(program) in BOURNE


def recipes(output: str, rules: Mapping[str, Tuple[Rule, ...]], is_one_shell: bool, program: str) -> Iterator[Recipe]:
    """The recipes in make's order, from what `make -n --trace` printed."""
    current, buffer = None, []
    for line in printed_lines(output, rules):
        is_within = bool(buffer) and not is_one_shell
        if not is_within:
            head = head_of(line, rules)
            if head is not None:
                if current is not None:
                    finish(current, buffer, is_one_shell, program)
                    yield current
                current, buffer = head, []
                continue
            if line.endswith(("'", ".")) and MESSAGE.match(line):
                continue
        if current is None:
            continue
        if line.isprintable() and line[-1:] not in ("\\", ":", " ", "") and not is_within and not is_one_shell:
            current.texts.append(line)           # as most lines: a text of its own
            continue
        buffer.append(line)
        if not is_one_shell and not ends_open(line):
            finish(current, buffer, is_one_shell, program)
            buffer = []
    if current is not None:
        finish(current, buffer, is_one_shell, program)
        yield current


def finish(recipe: Recipe, buffer: List[str], is_one_shell: bool, program: str) -> None:
    """Appends the buffered text to the recipe. `:` alone is what make itself does not run."""
    text = buffer[0] if len(buffer) == 1 else "\n".join(buffer)
    if is_one_shell and is_bourne(program):
        text = without_inner_marks(text)
    if text and not text.isspace() and not (text == ":" and is_bourne(program)):
        recipe.texts.append(text)


def printed_lines(output: str, rules: Mapping[str, Tuple[Rule, ...]]) -> List[str]:
    """The lines that make printed, without the removal of intermediate files at the end."""
    lines = output.split("\n")
    while lines and (not lines[-1] or MESSAGE.match(lines[-1]) or lines[-1].startswith("rm ") and any(
            rule.is_intermediate for name in lines[-1].split()[1:2] for rule in rules.get(name, ()))):
        lines.pop()
    return lines


def head_of(line: str, rules: Mapping[str, Tuple[Rule, ...]]) -> Optional[Recipe]:
    """The recipe that a head begins; a line that looks like a head, but names no rule of the database, is none."""
    found = parts_of_head(line)
    if not found:
        return None
    file, number, target = found
    at = (file, int(number)) if file else None
    for rule in rules.get(target, ()):
        if rule.place == at:
            return Recipe(target, rule.place, [])
    return Recipe(target, Place(*at) if at else None, []) if "(" in target else None


def parts_of_head(line: str) -> Optional[Tuple[Optional[str], Optional[str], str]]:
    """The file, the line number and the target that a line names if it looks like a head."""
    is_absent = line.endswith(ABSENT)
    if not is_absent and "' due to: " not in line:
        return None
    head, _, target = line[:-len(ABSENT)].rpartition(": target '") if is_absent else ("", "", "")
    file, _, number = head.rpartition(":")
    if file and number.isdecimal():              # most lines need no regular expression
        return file, number, target
    found = TRACED.match(line)
    return found and (found[1], found[2], found[4] if found[3] is None else found[3])


def ends_open(line: str) -> bool:
    """Whether the next line continues this one, which then ends with an odd number of backslashes."""
    return line.endswith("\\") and (len(line) - len(line.rstrip("\\"))) % 2 == 1


def without_inner_marks(text: str) -> str:
    """A recipe of `.ONESHELL` as make hands it to a shell like Bourne's: marks go from each logical line's front."""
    whole, is_open = [], False
    for line in text.split("\n"):
        whole.append(line if is_open else line.lstrip(" \t@+-"))
        is_open = ends_open(line)
    return "\n".join(whole)
