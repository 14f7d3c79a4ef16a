"""Which lines of a recipe make echoes, and of which it ignores the failure: read from the unexpanded recipe."""
from __future__ import annotations

import re
from typing import Dict, FrozenSet, Iterator, List, NamedTuple, Optional, Sequence, Tuple

from .answer import Environment, Rule
from .database import Database
from .heads import DEPTH, SIGNS, Heads, behind_reference
from .printed import ends_open
from .recorded import letters_of

SPACE = re.compile(r"[\s\\]+")


class Mark(NamedTuple):
    """How make treats a line."""

    is_echoed: bool = True
    is_ignored: bool = False
    is_ignored_by_text: bool = False   # the unexpanded line itself has `-`
    is_known: bool = True              # False: whether a failure is ignored depends on what the text does not show


class Unexpanded(NamedTuple):
    """A line before expansion, the signs that the line itself has, and those that it may begin with when expanded."""

    text: str
    own: str
    signs: FrozenSet[str]


class Marker:
    """Finds marks; keeps what it has found out about a recipe."""

    def __init__(self, found: Database, silent: Optional[FrozenSet[str]], ignoring: Optional[FrozenSet[str]],
                 has_posix_flags: bool):
        self.heads, self.silent, self.ignoring, self.has_posix_flags = Heads(found), silent, ignoring, has_posix_flags
        self.is_one_shell = ".ONESHELL" in found.rules
        self.known: Dict[Tuple[str, ...], Tuple[Unexpanded, ...]] = {}
        self.plain = Mark()

    def of(self, target: str, rule: Optional[Rule], texts: Sequence[str]) -> List[Mark]:
        """The marks of the expanded lines of one recipe."""
        is_silent = self.silent is None or target in self.silent
        is_ignoring = self.ignoring is None or target in self.ignoring
        found = self.by_text(rule.recipe if rule else (), texts)
        if not is_silent and not is_ignoring:
            return found
        return [Mark(one.is_echoed and not is_silent, one.is_ignored or is_ignoring, one.is_ignored_by_text)
                for one in found]

    def by_text(self, recipe: Tuple[str, ...], texts: Sequence[str]) -> List[Mark]:
        """The marks that the recipe's own text gives its expanded lines."""
        if recipe not in self.known:
            is_plain = not any(line.lstrip().startswith(("@", "+", "-", "$")) for line in recipe)
            lines = () if is_plain else ("\n".join(recipe),) if self.is_one_shell else recipe
            self.known[recipe] = tuple(one for line in lines
                                       for one in self.unexpanded(line, SIGNS.match(line).group()))
        before = self.known[recipe]
        if not before:
            return [self.plain] * len(texts)
        kinds = {self.mark_of(one) for one in before}
        if len(kinds) == 1:
            return list(kinds) * len(texts)
        answer, at, unfitting = [], 0, Mark(is_known=not any("-" in one for line in before for one in line.signs))
        for text in texts:
            fits, is_literal = fitting_line(before, at, text)
            answer.append(self.mark_of(before[fits]) if fits is not None else unfitting)
            at = fits + is_literal if fits is not None else at
        return answer

    def mark_of(self, line: Unexpanded) -> Mark:
        """The mark that the signs before a line mean."""
        echoed = {"@" not in one for one in line.signs}
        ignored = {"-" in one for one in line.signs}
        return Mark(True in echoed, False not in ignored, self.has_posix_flags and "-" in line.own, len(ignored) == 1)

    def unexpanded(self, line: str, own: str, depth: int = 0) -> Iterator[Unexpanded]:
        """A recipe's line before expansion, or the lines of a canned recipe in its place. Signs before a canned recipe
        hold for all its lines if the line itself has them, else for the first."""
        before, body = self.canned(line) if not self.is_one_shell and depth < DEPTH else (frozenset(), "")
        if not body:
            yield Unexpanded(line, own, frozenset(own + signs for signs, _ in self.heads.of(line.split("\n")[0])))
            return
        for number, one in enumerate(logical_lines(body)):
            for inner in self.unexpanded(one, own, depth + 1):
                first = {more + signs for signs in inner.signs for more in before} if number == 0 else inner.signs
                yield inner._replace(signs=frozenset(first))

    def canned(self, line: str, depth: int = 0) -> Tuple[FrozenSet[str], str]:
        """The text of several lines that the reference at a line's end stands for, or '', and the possible signs before
        it."""
        before, at = {SIGNS.match(line).group()}, SIGNS.match(line).end()
        while line[at:at + 1] == "$" and line[at:at + 2] != "$$" and depth < DEPTH:
            end = behind_reference(line, at)
            if not line[end:].strip():
                texts = self.heads.choices(line[at + 2:end - 1] if line[at + 1] in "({" else line[at + 1:end]) or [""]
                if len(texts) > 1 or "\n" in texts[0]:
                    return frozenset(before), texts[0] if len(texts) == 1 else ""
                more, text = self.canned(texts[0], depth + 1)
                return frozenset(one + signs for one in before for signs in more), text
            heads = self.heads.of(line[at:end])
            if not all(is_open for _, is_open in heads):
                break
            signs = SIGNS.match(line, end).group()
            before, at = {one + more + signs for one in before for more, _ in heads}, end + len(signs)
        return frozenset(before), ""

    def posix_shell(self, shell: Tuple[str, ...]) -> Tuple[str, ...]:
        """The shell of a line whose failure is ignored: make 4.4 leaves `-e` out for `.POSIX`."""
        return (shell[0], "-c") if shell[1:] == ("-ec",) else shell


def marker(found: Database, inner: Environment) -> Marker:
    """The marker for a makefile: `inner` has the MAKEFLAGS that inner makes get."""
    letters, flags = letters_of(inner), found.variables.get(".SHELLFLAGS")
    has_posix_flags = ".POSIX" in found.rules and flags is not None and (flags.origin, flags.value) == ("default", "-c")
    return Marker(found, None if "s" in letters else names_of(found, ".SILENT"),
                  None if "i" in letters else names_of(found, ".IGNORE"), has_posix_flags)


def names_of(found: Database, special: str) -> Optional[FrozenSet[str]]:
    """The targets that `.SILENT` or `.IGNORE` names; None if it is there without names, and so means all."""
    rules = [rule.inputs for rule in found.rules.get(special, ()) if rule.is_target]
    return frozenset(name for names in rules for name in names) if not rules or any(rules) else None


def logical_lines(text: str) -> List[str]:
    """The lines of a text; a backslash at the end continues one."""
    whole, line = [], ""
    for one in text.split("\n"):
        line = f"{line}\n{one}" if line else one
        if not ends_open(line):
            whole.append(line)
            line = ""
    return whole + ([line] if line else [])


def fitting_line(lines: Sequence[Unexpanded], start: int, text: str) -> Tuple[Optional[int], bool]:
    """The number of the line that a text was expanded from, and whether the line has a text of its own: a line of
    references alone fits everything, and may become several."""
    fits = (number for number in range(start, len(lines)) if fitting(lines[number], text))
    first = next(fits, None)
    if first is None or any(pieces(lines[first].text)):
        return first, True
    literal = next((number for number in fits if any(pieces(lines[number].text))), None)
    return (first, False) if literal is None else (literal, True)


def fitting(line: Unexpanded, text: str) -> bool:
    """Whether the text may be what the line expands to: the line's own pieces occur in it, in their order."""
    first, *rest = pieces(line.text)
    text = SPACE.sub(" ", text).strip()
    if not rest:
        return text == first
    *middle, last = rest
    if not text.startswith(first) or not text.endswith(last):
        return False
    at, end = len(first), len(text) - len(last)
    for piece in middle:
        at = text.find(piece, at, end) + len(piece)
        if at < len(piece):
            return False
    return at <= end


def pieces(line: str) -> List[str]:
    """The parts of a line between its references, with single blanks."""
    at, found, piece = SIGNS.match(line).end(), [], ""
    while at < len(line):
        behind = line.find("$", at)
        behind = behind if behind >= 0 else len(line)
        piece += line[at:behind]
        at = behind
        if line[at:at + 2] == "$$":
            piece, at = piece + "$", at + 2
        elif at < len(line):
            found.append(piece)
            piece, at = "", behind_reference(line, at)
    return [SPACE.sub(" ", one).strip() for one in (*found, piece)]
