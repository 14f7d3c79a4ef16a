"""The shells of targets and patterns, and makefiles whose SHELL cannot be replaced."""
from __future__ import annotations

import os
import re
from typing import AbstractSet, Dict, Iterable, Iterator, List, Mapping, Optional, Set, Tuple

from ..base.files import read, text_of
from ..base.message import Place, Stop
from .answer import Reading
from .database import Database, Variable
from .heads import behind_reference
from .question import Question

REFERENCE = re.compile(r"\$(?:\(([\w.-]+)\)|\{([\w.-]+)\})")
EVAL = re.compile(r"\$[({]eval\b")
SETS_SHELL = re.compile(r"(?:^|[\s:(,])\.?SHELL(?:FLAGS)?\s*(?:[:+?!]{0,3}=|\n)", re.MULTILINE)
BARE_SHELL = re.compile(r"(?<![\w.$({])\.?SHELL(?:FLAGS)?\b")
PLAIN = r"\s*(?:(?:override|export|private)\s+)*([\w.-]+)\s*[:+?!]{0,3}="
PLAIN_EVAL = re.compile(EVAL.pattern + PLAIN)                # sets the variable that its text names
OTHER_EVAL = re.compile(rf"{EVAL.pattern}(?!{PLAIN})")
# What an eval must meet to set SHELL: any eval a text that sets it, one whose text names no variable the mere word.
MEETINGS = ((EVAL, SETS_SHELL), (OTHER_EVAL, BARE_SHELL))
NAME = re.compile(r"[\w.-]+")
COMPOSED = re.compile(r"(?<![\w.-])([\w.-]+)\$[({\w@*<]")   # `set_$(1)` may name each variable that begins so
Mentions = Tuple[Set[str], Set[str]]
DEPTH = 10                    # of variables that name variables
OF_COMMAND_LINE = frozenset(("MAKEFLAGS", "MAKEOVERRIDES", "MFLAGS", "-*-command-variables-*-"))
HELP = "set SHELL outside of recipes"


def own_of(reading: Reading) -> Tuple[Variable, ...]:
    """The SHELL of each target and pattern that has its own, expanded."""
    found = reading.database
    own = (one for one in found.of_targets if one.name == "SHELL")
    return tuple(one._replace(value=expanded(one, found.variables) or "/bin/sh") for one in own)


def all_of(reading: Reading) -> List[str]:
    """Every SHELL that a recipe may get; the makefile's own comes first."""
    return [reading.shell, *(one.value for one in own_of(reading))]


def expanded(variable: Variable, variables: Mapping[str, Variable]) -> str:
    """The value of a SHELL; stops with status 2 if it needs more than plain variables."""
    text = variable.value
    for _ in range(DEPTH):
        if not variable.is_deferred or "$" not in text:
            return text.strip()
        text = REFERENCE.sub(lambda found: value_of(found.group(1) or found.group(2), variables), text)
    raise Stop(f"the SHELL of '{variable.target}' is known only when its recipe runs", place=variable.place,
               help=f"write {variable.target}: SHELL := PROGRAM")


def value_of(name: str, variables: Mapping[str, Variable]) -> str:
    """The value of a global variable, unexpanded; a name that is unknown is left in place, and so refused."""
    one = variables.get(name)
    return one.value if one is not None else ""


def refuse_foreign(question: Question, reading: Reading) -> None:
    """Stops with status 2 if a recipe may set a SHELL by `eval`, or MAKEFLAGS sets one.

    Lines that make runs under `-n` would then run for real, and others would have another shell than the answer.
    """
    found = reading.database
    shell = found.variables.get("SHELL")
    if shell is not None and shell.origin == "command line" and "SHELL" not in reading.given:
        raise Stop("MAKEFLAGS sets SHELL", place=place_in(question.folder, reading.makefiles), help=HELP)
    if shell is not None and (expanded(shell, found.variables) or "/bin/sh") != reading.shell:
        raise Stop("SHELL is set by $(eval) when make has read all makefiles", place=shell.place, help=HELP)
    refuse_evals(found)


def refuse_evals(found: Database) -> None:
    """Stops with status 2 if a text that make expands late leads to an eval, and to what that could set SHELL by."""
    texts: Dict[str, Optional[Place]] = {}
    for text, place in late_texts(found):
        if "$" in text:                          # others expand to themselves
            texts.setdefault(text, place)
    if not any("eval" in text and EVAL.search(text) for text in texts):
        return
    values = values_of(found, texts)
    mentions = {name: mentioned(text) for name, text in values.items()}
    late = [(text, place, mentioned(text)) for text, place in texts.items()]
    for is_eval, is_shell in MEETINGS:
        evals = {name for name, text in values.items() if "eval" in text and is_eval.search(text)}
        shells = {name for name, text in values.items() if "SHELL" in text and is_shell.search(text)}
        evals, shells = naming(mentions, evals), naming(mentions, shells)
        for text, place, said in late:
            own = "eval" in text and is_eval.search(text)
            if ("SHELL" in text and is_shell.search(text) or names_one(said, shells)) \
                    and (own or names_one(said, evals)):
                led = (one.place for one in (*found.variables.values(), *found.of_targets)
                       if is_eval.search(one.value) and names_one(said, naming(mentions, {one.name})))
                raise Stop("a recipe sets SHELL by $(eval)", place=place if own else next(led, place), help=HELP)


def values_of(found: Database, texts: Iterable[str]) -> Mapping[str, str]:
    """The unexpanded texts that each variable stands for, now or after an eval."""
    values: Dict[str, str] = {}
    now = ((one.name, one.value) for one in (*found.variables.values(), *found.of_targets))
    late = ((one.group(1), text[one.start():behind_reference(text, one.start())])
            for text in texts for one in PLAIN_EVAL.finditer(text))
    for name, text in (*now, *late):
        if name not in OF_COMMAND_LINE:
            values[name] = f"{values.get(name, '')}\n{text}"
    return values


def naming(values: Mapping[str, Mentions], names: AbstractSet[str]) -> Set[str]:
    """These variables, and all whose values name one of them, through others too."""
    found, new = set(names), set(names)
    while new:
        new = {name for name, said in values.items() if name not in found and names_one(said, new)}
        found |= new
    return found


def mentioned(text: str) -> Mentions:
    """The words of a text, and what it has before references."""
    return set(NAME.findall(text)), set(COMPOSED.findall(text)) if "$" in text else set()


def names_one(said: Mentions, names: AbstractSet[str]) -> bool:
    """Whether a text has one of the names as a word, or the beginning of one before a reference."""
    return not names.isdisjoint(said[0]) or any(name.startswith(begin) for begin in said[1] for name in names)


def late_texts(found: Database) -> Iterator[Tuple[str, Optional[Place]]]:
    """What make expands after it has read the makefiles: recipes, deferred variables, prerequisites expanded twice."""
    rules: Iterable = (rule for some in (*found.rules.values(), found.patterns) for rule in some)
    is_twice = ".SECONDEXPANSION" in found.rules
    for rule in rules:
        for line in rule.recipe:
            yield line, rule.place
        if is_twice:
            yield " ".join((*rule.inputs, *rule.order_only)), rule.place
    for one in (*found.variables.values(), *found.of_targets):
        if one.is_deferred and one.origin not in ("default", "environment"):
            yield one.value, one.place


def place_in(folder: str, makefiles: Iterable[str]) -> Optional[Place]:
    """The first line that names MAKEFLAGS and SHELL: make itself does not say where MAKEFLAGS was set."""
    for name in makefiles:
        text = text_of(read(os.path.join(folder, name)) or b"")
        for number, line in enumerate(text.split("\n"), 1):
            if "MAKEFLAGS" in line and "SHELL" in line:
                return Place(name, number)
    return None
