"""Recipes that make must not expand before they run: they read what the build makes, or write files."""
from __future__ import annotations

import fnmatch
import re
from typing import Dict, FrozenSet, Iterable, Iterator, Mapping, NamedTuple, Optional, Set, Tuple

from ..base.files import ninja_name
from ..base.message import Stop
from .answer import Rule
from .database import Database, Variable
from .extra_makefiles import name_text
from .heads import NAME, behind_reference, naming

CALL = re.compile(r"\$[({](shell|wildcard|file|realpath)\s")
WORD = re.compile(r"[^\s'\"`;|&<>(){}$,=]+")
INPUTS = re.compile(r"\$[({]?[<^?+|]")
WRITES = re.compile(r"\s*>")
DEPTH = 10                    # of variables that name variables
MOST_READERS = 30             # each is a run of make; where more read what is built, make is read again after the build


class Left(NamedTuple):
    """A rule whose recipe is left to make, and its head as a makefile spells it."""

    head: str
    rule: Rule


def late_names(found: Database) -> FrozenSet[str]:
    """The deferred variables that call such a function, through others too."""
    own = {name: one.value for name, one in found.variables.items() if one.is_deferred and "$" in one.value
           and one.origin not in ("default", "automatic")}
    for one in found.of_targets:
        if one.is_deferred and "$" in one.value:
            own[one.name] = one.value
    return frozenset(naming(own, [name for name, value in own.items() if CALL.search(value)]))


def head_of(rule: Rule) -> str:
    """The head by which another recipe takes the place of the rule's own."""
    is_pattern = "%" in rule.targets[0]
    names = " ".join(name_text(one, is_pattern) for one in rule.targets)
    if not is_pattern:
        return f"{names} &:" if len(rule.targets) > 1 else f"{names}:"
    order_only = " | " + " ".join(name_text(one, True) for one in rule.order_only) if rule.order_only else ""
    return f"{names}: {' '.join(name_text(one, True) for one in rule.inputs)}{order_only}"


class Calls(NamedTuple):
    """What the calls of a recipe do when make expands them."""

    is_writing: bool                             # one writes a file
    is_reading: bool                             # one names what the build makes
    has_inputs: bool                             # one names the prerequisites by `$<`, `$^` or the like


class Finder:
    """Tells what the calls of a recipe name; keeps what it has found out, since many targets have one recipe."""

    def __init__(self, found: Database, built: Iterable[str] = ()):
        self.variables: Mapping[str, Variable] = found.variables
        self.late = late_names(found)
        self.late_recipes: Dict[Tuple[str, ...], bool] = {}
        rules = (*(one for some in found.rules.values() for one in some), *found.patterns)
        self.rules = [one for one in rules if one.place is not None and self.is_late(one.recipe)]
        self.known: Dict[str, bool] = {}
        self.calls_of: Dict[Tuple[str, ...], Calls] = {}
        made = (one.targets[0] for one in rules if one.recipe and not one.is_phony)
        self.built: Set[str] = {ninja_name(one) for one in (*built, *made)} if self.rules else set()

    def left(self, built: Iterable[str] = ()) -> Tuple[Left, ...]:
        """The rules whose recipes call a function on something that the build makes, also where it makes `built`.

        Stops with status 2 where a `::` recipe writes a file: make cannot replace such a recipe.
        """
        new = {ninja_name(one) for one in built} - self.built if self.rules else ()
        if new:
            self.built.update(new)
            self.known, self.calls_of = {}, {}
        chosen, readers = [], []
        for rule in self.rules:
            is_writing, is_reading = self.kind(rule)
            if rule.is_double_colon and is_writing:
                raise Stop(f"a recipe of '{rule.targets[0]}' writes a file by $(file) when make expands it",
                           place=rule.place, help="write the file by a line of the recipe, or use ':' for '::'")
            if is_writing:
                chosen.append(Left(head_of(rule), rule))
            elif is_reading and not rule.is_double_colon and "%" not in rule.targets[0]:
                readers.append(Left(head_of(rule), rule))
        return (*chosen, *(readers if len(readers) <= MOST_READERS else ()))

    def is_late(self, recipe: Tuple[str, ...]) -> bool:
        """Whether a recipe calls such a function, itself or through a variable."""
        if recipe not in self.late_recipes:
            self.late_recipes[recipe] = any(CALL.search(line) or self.late and not self.late.isdisjoint(
                NAME.findall(line)) for line in recipe if "$" in line)
        return self.late_recipes[recipe]

    def kind(self, rule: Rule) -> Tuple[bool, bool]:
        """Whether a recipe writes a file when it is expanded, and whether it reads what the build makes."""
        if rule.recipe not in self.calls_of:
            self.calls_of[rule.recipe] = self.what_calls_do("\n".join(rule.recipe))
        done = self.calls_of[rule.recipe]
        is_reading = done.is_reading or done.has_inputs and any(
            self.is_name_built(one) for one in (*rule.inputs, *rule.order_only))
        return done.is_writing, is_reading

    def what_calls_do(self, recipe: str) -> Calls:
        """What the calls of a recipe do, whatever its target is."""
        done = Calls(False, False, False)
        for function, text in self.calls(recipe, 0):
            if function == "file" and WRITES.search(text.partition(",")[0].partition(" ")[0] or text):
                done = done._replace(is_writing=True)
            else:
                done = done._replace(is_reading=done.is_reading or self.is_built(text),
                                     has_inputs=done.has_inputs or INPUTS.search(text) is not None)
        return done

    def calls(self, text: str, depth: int) -> Iterator[Tuple[str, str]]:
        """The calls in a text, and in the variables that it names: (function, argument)."""
        for found in CALL.finditer(text):
            end = behind_reference(text, found.start())
            yield found.group(1), self.expanded(text[found.end():end - 1], depth)
        for name in set(NAME.findall(text)) if depth < DEPTH else ():
            one = self.variables.get(name)
            if one is not None and one.is_deferred and "$" in one.value and one.origin != "default":
                yield from self.calls(one.value, depth + 1)

    def expanded(self, text: str, depth: int) -> str:
        """The text with its plain variables expanded."""
        for _ in range(DEPTH - depth):
            new = re.sub(r"\$[({]([\w.-]+)[)}]", lambda found: self.value_of(found.group(1), found.group()), text)
            if new == text:
                break
            text = new
        return text

    def value_of(self, name: str, spelled: str) -> str:
        """The value of a variable; a name that is unknown stays as it is spelled."""
        one: Optional[Variable] = self.variables.get(name)
        return one.value if one is not None and len(one.value) < 10_000 else spelled

    def is_built(self, text: str) -> bool:
        """Whether a text names a file that the build makes."""
        return any(self.is_name_built(word) for word in WORD.findall(text))

    def is_name_built(self, word: str) -> bool:
        """Whether a name or pattern fits a file that the build makes."""
        if word not in self.known:
            name = ninja_name(word.replace("%", "*"))
            pattern = re.compile(fnmatch.translate(name).replace(".*", "[^/]*")) if re.search(r"[*?\[]", name) else None
            self.known[word] = name in self.built if pattern is None else any(map(pattern.match, self.built))
        return self.known[word]
