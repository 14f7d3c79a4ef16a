"""Goals that are not the default: `ninja clean` runs make, and each goal of kati-build has its own Ninja file."""
from __future__ import annotations

import os
import shlex
from typing import Iterator, List, TYPE_CHECKING, Tuple

from ..ask.answer import Rule
from ..base import files
from ..base.files import ninja_name
from ..ninja import top
from ..ninja.text import NinjaText
from ..ninja.top import PhonyGoal
from .request import NINJA_FILE, ROOM, Run, place_of

if TYPE_CHECKING:
    from .asked import Asked

UNUSUAL = frozenset("/.%$*?[]|:;#=&()~ ")   # letters of names that are files, patterns or make's own


def phony_goals(run: Run, found: Asked, text: NinjaText) -> List[PhonyGoal]:
    """The goals that make runs: phony targets, and targets with recipes that are named like commands."""
    if run.request.goals:
        return []
    made = {name for one in text.statements for name in one.outputs}
    taken = made.union(name for one in text.statements for name in (*one.inputs, *one.order_only))
    goals = {}
    for rule in found.answer.rules:
        name = ninja_name(rule.targets[0])
        if name not in taken and is_goal(rule):
            goals.setdefault(name, []).extend(one for one in map(ninja_name, rule.inputs) if one in made)
    return [PhonyGoal(name, command(run, name), tuple(dict.fromkeys(needs))) for name, needs in goals.items()]


def is_goal(rule: Rule) -> bool:
    """Whether a target is one that users name: phony, or a command without a file."""
    name = rule.targets[0]
    if not rule.is_target or name.startswith(".") or UNUSUAL.intersection(name) - {".", "/"}:
        return False
    return rule.is_phony or bool(rule.recipe) and not UNUSUAL.intersection(name) and not os.path.lexists(name)


def command(run: Run, goal: str) -> str:
    """How make builds a goal."""
    return " ".join(map(shlex.quote, (run.programs.make, *arguments(run), goal)))


def write_boot(run: Run) -> None:
    """A first run that names a goal leaves a build.ninja for the default goal, which the first plain ninja translates.

    make does not read the makefile for the default goal now: that may run ./configure, where the goal is `clean`.
    """
    if not run.request.goals or os.path.lexists(NINJA_FILE):
        return
    place = place_of(run.request._replace(goals=()))
    words: Tuple[str, ...] = (*run.look, place.room, *arguments(run))
    files.replace(place.statements, b"")
    files.replace(place.ninja_file, top.text(" ".join(map(shlex.quote, words)), (), top.Paths(
        place.ninja_file, place.statements, ROOM)))


def arguments(run: Run) -> Iterator[str]:
    """The makefile and the variables, as make and kati-build take them."""
    if run.request.makefile:
        yield from ("-f", run.request.makefile)
    yield from run.request.variables
