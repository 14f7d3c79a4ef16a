"""The signs that a recipe's line may begin with once make has expanded it, and texts that references stand for."""
from __future__ import annotations

import re
from typing import Dict, Iterable, List, Mapping, Optional, Sequence, Set, Tuple

from .database import Database

SIGNS = re.compile(r"[\s@+-]*")
NAME = re.compile(r"[\w.-]+")
AUTOMATIC = re.compile(r"[@<^+?*|%][DF]?")
NOTHING = ("eval", "info", "warning", "error")     # functions that expand to nothing
DEPTH = 8                                          # of variables that name variables


class Heads:
    """The signs that texts may begin with once they are expanded: pairs (signs, whether nothing but signs is there)."""

    def __init__(self, found: Database):
        self.values: Dict[str, Tuple[str, ...]] = {name: (one.value,) for name, one in found.variables.items()}
        for one in found.of_targets:
            self.values[one.name] = (*self.values.get(one.name, ("",)), one.value)

    def of(self, text: str, depth: int = 0) -> Set[Tuple[str, bool]]:
        """The possible heads of a text."""
        signs = SIGNS.match(text).group()
        rest = text[len(signs):]
        if not rest:
            return {(signs, True)}
        if not rest.startswith("$") or rest.startswith("$$") or depth > DEPTH:
            return {(signs, False)}
        end = behind_reference(rest, 0)
        whole: Set[Tuple[str, bool]] = set()
        for more, is_open in self.of_reference(rest[1:end].strip("(){}") if end > 2 else rest[1:end], depth + 1):
            behind = self.of(rest[end:], depth) if is_open else {("", False)}
            whole |= {(signs + more + one, is_still_open) for one, is_still_open in behind}
        return whole

    def of_reference(self, inner: str, depth: int) -> Set[Tuple[str, bool]]:
        """The possible heads of what `$(inner)` expands to."""
        chosen = self.choices(inner, depth)
        if chosen is None:
            return {("", False)}
        return {one for text in chosen or [""] for one in self.of(text.split("\n")[0], depth)}

    def choices(self, inner: str, depth: int = 0) -> Optional[List[str]]:
        """The unexpanded texts one of which `$(inner)` stands for; None if that is not known."""
        name, _, text = inner.partition(" ")
        given = arguments(text)
        if name == "if":
            truth = self.truth(given[0], depth)
            either = zip((*given[1:3], "", "")[:2], (truth is not False, truth is not True))
            return [one for one, is_taken in either if is_taken]
        if name == "or":
            first = next((one for one in given if self.truth(one, depth)), None)
            doubtful = [one for one in given if self.truth(one, depth) is None]
            return [*doubtful, *([first] if first is not None else [])]
        if name == "and":
            return [given[-1], ""] if all(self.truth(one, depth) is not False for one in given) else [""]
        if name == "call":
            return [with_arguments(one, given[1:]) for one in self.values.get(given[0].strip(), ("",))]
        if name == "strip" or name in NOTHING:
            return [text] if name == "strip" else [""]
        if text or AUTOMATIC.fullmatch(name):
            return None
        return list(self.values.get(name.partition(":")[0], ("",)))

    def truth(self, text: str, depth: int) -> Optional[bool]:
        """Whether a condition is not empty, or None if that is not known."""
        text = text.strip()
        found = re.fullmatch(r"\$[({]([\w.-]+)[)}]", text)
        if "$" not in text:
            return bool(text)
        if not found or depth > DEPTH:
            return None
        known = {self.truth(one, depth + 1) for one in self.values.get(found.group(1), ("",))}
        return known.pop() if len(known) == 1 else None


def naming(values: Mapping[str, str], names: Iterable[str]) -> Set[str]:
    """These variables, and all whose values name one of them by a word, through others too; linear."""
    users: Dict[str, List[str]] = {}
    for name, text in values.items():
        for word in set(NAME.findall(text)):
            users.setdefault(word, []).append(name)
    found, work = set(names), list(names)
    while work:
        more = [name for name in users.get(work.pop(), ()) if name not in found]
        found.update(more)
        work += more
    return found


def behind_reference(line: str, at: int) -> int:
    """The place behind the reference that begins at `at`."""
    opening = line[at + 1:at + 2]
    closing = {"(": ")", "{": "}"}.get(opening)
    at += 2
    level = 1 if closing else 0
    while level and at < len(line):
        level += (line[at] == opening) - (line[at] == closing)
        at += 1
    return at


def arguments(text: str) -> List[str]:
    """The arguments of a function, divided by commas outside of references."""
    given, start, at = [], 0, 0
    while at < len(text):
        if text[at] == "$":
            at = behind_reference(text, at)
            continue
        if text[at] == ",":
            given.append(text[start:at])
            start = at + 1
        at += 1
    return [*given, text[start:]]


def with_arguments(body: str, given: Sequence[str]) -> str:
    """The body of a called variable with `$1` and the like replaced."""
    for number, one in enumerate(given, 1):
        for spelled in (f"$({number})", f"${{{number}}}", f"${number}"):
            body = body.replace(spelled, one)
    return body
