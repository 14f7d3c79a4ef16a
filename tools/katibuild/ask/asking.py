"""The second run of make: what it would run for the goals, were nothing built."""
from __future__ import annotations

import dataclasses
import os
import re
import shlex
from typing import Dict, FrozenSet, Iterable, List, Mapping, NamedTuple, Optional, Set, Tuple

from ..base.files import bytes_of, replace, text_of
from ..base.interrupt import scratch_folder
from ..base.message import Place, Stop
from ..base.programs import Finished, run
from . import database, dependency_includes, extra_makefiles, marks, printed, recorded, shells
from .answer import Answer, Line, Reading, Rule
from .database import Database
from .left import Finder, Left
from .opened import Watch
from .printed import Recipe
from .question import Question, arguments, make_environment, makefile_of, program
from .reading import failure, named_elsewhere, texts_of
from .recorder import ENVIRONMENT, Recorder, install, only

PRINTED, RECORDED, NOW = ("-n", "-B", "--trace"), ("-B", "--trace"), ("-n", "--trace")
MOST_ABSENT = 30              # files that no rule makes, and that another recipe leaves


class Setting(NamedTuple):
    """What all runs of make for one question share."""

    question: Question
    reading: Reading
    recorder: Recorder
    left: Tuple[Left, ...] = ()                  # rules whose recipes make must not expand
    watch: Optional[Watch] = None                # served while make runs


class Run(NamedTuple):
    """One run of make with the recorder as its shell."""

    recipes: Tuple[Recipe, ...]                  # that make printed
    found: Database
    wrote: recorded.Recorded                     # what make handed to the recorder
    absent: Tuple[str, ...]                      # files that were given an empty rule


def ask(question: Question, reading: Reading, watch: Optional[Watch] = None, built: Iterable[str] = (),
        keep: bool = False) -> Answer:
    """The graph that the goals need, and the lines of all recipes in it. No line of a recipe runs.

    `watch` is served while make runs. `built` are outputs of earlier builds: recipes that read them are left to make.
    """
    shells.refuse_foreign(question, reading)
    with scratch_folder(keep) as room:
        finder = Finder(reading.database, built)
        setting = Setting(question, reading, install(room, shells.all_of(reading)), finder.left(), watch)
        before = names_in(question.folder)
        done = traced(setting, PRINTED)
        left = finder.left(one.target for one in done.recipes)
        if len(left) > len(setting.left):
            setting = setting._replace(left=left)
            done = traced(setting, PRINTED, done.absent)
        rules = rules_of(done, setting)
        lines = printed_lines(done, rules)
        if recorded.reason(done.found, done.wrote.names, texts_of(question, reading)):
            kept = [one.targets[0] for some in rules.values() for one in some if one.is_intermediate]
            done = traced(setting, RECORDED, done.absent, kept)
            lines = recorded_lines(done, rules)
        made = frozenset(names_in(question.folder) - before)
        lines = recorded.with_inner(lines, done.wrote.inner)
        marked = frozenset(line.target for line in lines if line.text == extra_makefiles.MARKER)
        if marked:
            # The same text for all goals, if no makefile names them: Ninja runs a command again if its text differs.
            is_named = any("MAKECMDGOALS" in text for text in texts_of(question, reading))
            first = extra_makefiles.first(question if is_named else dataclasses.replace(question, goals=()))
            lines = [as_left(line, setting, rules, done, first) if line.target in marked else line for line in lines]
    return Answer(goals_of(question, reading), tuple(one for some in rules.values() for one in some), tuple(lines),
                  done.wrote.calls, dependency_includes.includes_of(question, reading, rules),
                  frozenset(watch.opened if watch else ()), marked,
                  {name: one.value for name, one in done.found.variables.items()}, made, reading.is_not_parallel,
                  reading.makefiles, frozenset(watch.listed if watch else ()), not watch or watch.is_complete,
                  done.absent, done.found.patterns,
                  frozenset(name for name, one in done.found.variables.items() if one.is_deferred))


def remade(question: Question, reading: Reading, answer: Answer) -> FrozenSet[str]:
    """The targets of the answer whose recipes make would run now, without `-B`: it prints a head for each.

    The answer vouches for the shells.
    """
    with scratch_folder() as room:
        recorder = install(room, shells.all_of(reading))
        setting = Setting(question, reading, recorder, Finder(reading.database, ()).left())
        finished = made_by(setting, NOW, answer.unmade)
        if finished.status:
            raise failure(finished, room)
        said = recorder.real_text(text_of(finished.output))
    known = {one.targets[0] for one in answer.rules}
    heads = filter(None, map(printed.parts_of_head, said.split("\n")))
    return frozenset(name for _, _, name in heads if name in known or name.endswith(")"))


def traced(setting: Setting, options: Iterable[str], absent: Tuple[str, ...] = (), kept: Iterable[str] = ()) -> Run:
    """Runs make with the recorder as its shell; stops with make's own words if make fails.

    A file that no rule makes, but whose name another recipe has, gets an empty rule, and make runs once more.
    """
    recorder, folder = setting.recorder, setting.question.folder
    for _ in range(MOST_ABSENT):
        finished = made_by(setting, (*options, "-p"), absent, kept)
        said, text = database.split(recorder.real_text(text_of(finished.output)))
        found = database.parse(text)
        more = named_elsewhere(text_of(finished.errors), found, folder) if finished.status else ""
        if not more or more in absent:
            break
        absent = (*absent, more)
    if finished.status:
        raise failure(finished, recorder.room)
    wrote = recorded.parse(recorder.data(), make_environment(setting.question), recorder)
    recipes = printed.recipes(said, found.rules, ".ONESHELL" in found.rules, wrote.usual.shell[0])
    return Run(tuple(recipes), found, wrote, absent)


def made_by(setting: Setting, options: Iterable[str], absent: Iterable[str], kept: Iterable[str] = ()) -> Finished:
    """One run of make with the recorder as its shell."""
    question, recorder, watch = setting.question, setting.recorder, setting.watch
    last = os.path.join(recorder.room, "last")
    replace(last, bytes_of(last_of(setting, absent, kept)))
    recorder.clear()
    argv = [program(question), *options, "-f", makefile_of(question), "-f", last, *arguments(question)]
    return run(argv, question.folder, make_environment(question), watch if watch and watch.fileno() >= 0 else None)


def last_of(setting: Setting, absent: Iterable[str] = (), kept: Iterable[str] = ()) -> str:
    """The makefile that make reads last."""
    found = setting.reading.database
    letters = "i" if marks.names_of(found, ".IGNORE") is None else ""
    double_colon = [name for name in found.rules if name.startswith(".") and found.rules[name][0].is_double_colon]
    return extra_makefiles.last(setting.recorder, setting.reading.shell, shells.own_of(setting.reading),
                                [one.head for one in setting.left], absent, kept, letters, double_colon)


def rules_of(done: Run, setting: Setting) -> Dict[str, Tuple[Rule, ...]]:
    """The makefile's own rules by target, with the real recipes of those that are left to make."""
    first = last_of(setting, done.absent).count("\n") - len(setting.left) + 1
    own = {Place(os.path.join(setting.recorder.room, "last"), first + number): one.rule
           for number, one in enumerate(setting.left)}
    rules = {name: some for name, some in done.found.rules.items() if not is_own(name, setting.recorder.room)}
    for name, some in rules.items() if own else ():
        if any(one.place in own for one in some):
            rules[name] = tuple(one._replace(place=own[one.place].place, recipe=own[one.place].recipe)
                                if one.place in own else one for one in some)
    return rules


def as_left(line: Line, setting: Setting, rules: Mapping[str, Tuple[Rule, ...]], done: Run, first: str) -> Line:
    """The line that has make run the recipe of its target when the target is built. `first` is read first then."""
    question, own = setting.question, next(one for one in rules[line.target] if one.recipe)
    mine = next(one for one in setting.left if one.rule.place == own.place)
    others = tuple(one for one in setting.left if one is not mine)
    last = last_of(setting._replace(left=others), done.absent) + extra_makefiles.with_recipe(
        mine.head, own.recipe, ".ONESHELL" in rules)
    # Variables of targets reach a recipe from the goals above.
    goals = goals_of(question, setting.reading) if setting.reading.database.of_targets else (line.target,)
    given = [shlex.quote(one) for one in (makefile_of(question), *question.variables, *goals)]
    text = only(setting.recorder, line.target, {"first": first, "last": last},
                [shlex.quote(program(question)), "-n", "-B", "-f", '"$kati_room/first"', "-f", given[0],
                 "-f", '"$kati_room/last"', *given[1:]])
    return line._replace(text=text, shell=("/bin/sh", "-c"), environment=(), is_echoed=False, place=own.place)


def names_in(folder: str) -> Set[str]:
    """All names below the folder, relative to it."""
    start = len(folder.rstrip("/")) + 1
    return {os.path.join(at, name)[start:] for at, folders, names in os.walk(folder) for name in [*folders, *names]}


def is_own(name: str, room: str) -> bool:
    """Whether a name of the database is one of the tools' own."""
    return name == ENVIRONMENT or name.startswith(room + "/")


def goals_of(question: Question, reading: Reading) -> Tuple[str, ...]:
    """The goals by make's names: make drops `./` before a goal. Stops with status 2 if there is none."""
    goals = tuple(re.sub(r"^(?:\./+)+(?=.)", "", one) for one in question.goals or reading.default_goal.split())
    if not goals:
        raise Stop("make: *** No targets.  Stop.")
    return goals


# -- the lines ---------------------------------------------------------------------------------------------------------

def printed_lines(done: Run, rules: Mapping[str, Tuple[Rule, ...]]) -> List[Line]:
    """The lines of all recipes that make printed, in its order; first those of makefiles, which 4.4 does not print."""
    usual, marker = done.wrote.usual, marks.marker(done.found, done.wrote.inner)
    lines: List[Line] = []
    for recipe in done.recipes:
        if recipe.target != ENVIRONMENT:
            rule = rule_at(rules.get(recipe.target, ()), recipe.place)
            for text, mark in zip(recipe.texts, marker.of(recipe.target, rule, recipe.texts)):
                shell = usual.shell if not mark.is_ignored_by_text else marker.posix_shell(usual.shell)
                lines.append(Line(recipe.target, text, shell, usual.environment, mark.is_echoed, mark.is_ignored,
                                  recipe.place, mark.is_known))
    has = {one.target for one in done.recipes}
    return [one for one in done.wrote.lines if one.target not in has] + lines


def recorded_lines(done: Run, rules: Mapping[str, Tuple[Rule, ...]]) -> List[Line]:
    """The lines that the recorder wrote down; heads that make printed tell their places."""
    marker = marks.marker(done.found, done.wrote.inner)
    waiting: Dict[str, List[Recipe]] = {}
    for one in done.recipes:
        waiting.setdefault(one.target, []).append(one)
    units: List[Tuple[Optional[Recipe], List[Line]]] = []
    for line in done.wrote.lines:
        some = waiting.get(line.target, [])
        while len(some) > 1 and line.text not in some[0].texts:
            some.pop(0)
        recipe = some[0] if some else None
        if not units or units[-1][0] is not recipe or recipe is None:
            units.append((recipe, []))
        units[-1][1].append(line)
    lines = []
    for recipe, some in units:
        place = recipe.place if recipe else None
        rule = rule_at(rules.get(some[0].target, ()), place)
        for line, mark in zip(some, marker.of(some[0].target, rule, [one.text for one in some])):
            lines.append(line._replace(is_echoed=mark.is_echoed, is_ignored=mark.is_ignored, place=place,
                                       is_mark_known=mark.is_known))
    return lines


def rule_at(rules: Tuple[Rule, ...], place: object) -> Optional[Rule]:
    """The rule whose recipe is at a place."""
    if len(rules) == 1 and rules[0].place == place:
        return rules[0]
    return next((one for one in rules if one.place == place and one.recipe), None)
