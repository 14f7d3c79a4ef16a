"""The first run of make: it brings the makefiles up to date, and lists what they are."""
from __future__ import annotations

import os
import re
from typing import Iterator, List, Tuple

from ..base.files import bytes_of, read as bytes_in, replace, text_of
from ..base.interrupt import scratch_folder
from ..base.message import Place, Stop
from ..base.programs import Finished, run
from . import database, extra_makefiles
from .answer import Reading
from .database import Database
from .question import Question, make_environment, makefile_of, program

NAMES = re.compile(r"(?m)^ *Reading makefile '([^']+)'")
FAILED = re.compile(r"(.+?):(\d+): (\*\*\* .*)$")
NO_RULE = re.compile(r"No rule to make target '([^']*)', needed by '([^']*)'")


def read(question: Question, keep: bool = False) -> Reading:
    """Has make bring the makefiles up to date under the user's goals; stops with make's own words if make fails.

    The goal of this run does nothing. Recipes of makefiles are run, as any run of make would run them.
    """
    makefile = makefile_of(question)
    with scratch_folder(keep) as room:
        first, nothing = os.path.join(room, "first"), os.path.join(room, "nothing")
        replace(first, bytes_of(extra_makefiles.first(question)))
        replace(nothing, bytes_of(extra_makefiles.behind_reading(room)))
        finished = run([program(question), "-p", "--debug=v", "-f", first, "-f", makefile, "-f", nothing,
                        *question.variables, extra_makefiles.NOTHING], question.folder, make_environment(question))
        if finished.status:
            raise failure(finished, room)
        written = {name: text_of(bytes_in(os.path.join(room, name)) or b"").rstrip("\n")
                   for name in ("makefiles", "shell", "goal")}
        return reading_of(question, finished, written, room)


def reading_of(question: Question, finished: Finished, written: dict, room: str) -> Reading:
    """What the run printed and wrote."""
    said, text = database.split(text_of(finished.output))
    found = database.parse(text, database.SPECIAL)
    makefiles, absent = makefiles_of(question.folder, said, written["makefiles"].split(), room)
    own = {extra_makefiles.NOTHING, os.path.join(room, "first"), os.path.join(room, "nothing")}
    goal = written["goal"].strip()
    variables = {name: one.value for name, one in found.variables.items()}
    return Reading(makefiles, absent, variables, ".NOTPARALLEL" in found.rules,
                   written["shell"].strip() or "/bin/sh", "" if goal in own else goal,
                   frozenset(re.split(r"\s*[:+?!]*=", one)[0] for one in question.variables), found)


def makefiles_of(folder: str, said: str, listed: List[str], room: str) -> Tuple[Tuple[str, ...], Tuple[str, ...]]:
    """The makefiles that make read, and the includes that are absent.

    make's messages have the names as the makefile has them; MAKEFILE_LIST has those that make found by `-I`.
    """
    named = [name for name in dict.fromkeys(NAMES.findall(said)) if not name.startswith(room + "/")]
    elsewhere = {os.path.basename(name): name for name in listed}
    read, absent = list(listed), []
    for name in named:
        if os.path.lexists(os.path.join(folder, name)):
            read.append(name)
        elif not elsewhere.get(os.path.basename(name), "").endswith("/" + name):
            absent.append(name)
    present = [name for name in dict.fromkeys(read) if os.path.lexists(os.path.join(folder, name))]
    return tuple(in_order(present, named)), tuple(absent)


def in_order(names: List[str], order: List[str]) -> List[str]:
    """The names in the order of make's messages."""
    places = {name: number for number, name in enumerate(order)}
    return sorted(names, key=lambda name: places.get(name, len(places)))


def texts_of(question: Question, reading: Reading) -> Iterator[str]:
    """The texts of the makefiles."""
    for name in reading.makefiles:
        try:
            yield text_of(bytes_in(os.path.join(question.folder, name)) or b"")
        except Stop:
            continue  # make could read it, or would have failed


def failure(finished: Finished, room: str) -> Stop:
    """make's own last words, with status 2."""
    text = text_of(finished.errors).replace(room + "/", "")
    lines = [line for line in text.split("\n") if line.strip()]
    words = next((line for line in reversed(lines) if "*** " in line), lines[-1] if lines else "make failed")
    found = FAILED.match(words)
    if found and not found.group(1).startswith("make"):
        return Stop(found.group(3), place=Place(found.group(1), int(found.group(2))))
    return Stop(words)


def named_elsewhere(errors: str, found: Database, folder: str) -> str:
    """The file that make finds no rule for, if the recipe of another prerequisite has its name; else ''."""
    said = NO_RULE.search(errors)
    if not said or said.group(1).startswith("-l") or os.path.lexists(os.path.join(folder, said.group(1))):
        return ""
    name, needer = said.groups()
    beside = [one for rule in found.rules.get(needer, ()) for one in rule.inputs if one != name]
    return name if any(names(line, one, stem_of(name)) for one in beside for rule in found.rules.get(one, ())
                       for line in rule.recipe) else ""


def names(text: str, target: str, stem: str) -> bool:
    """Whether the unexpanded line of a target's recipe has the stem of a file, as `$@` or `$*` may have, too."""
    return stem in text or stem == stem_of(target) and ("$@" in text or "$*" in text or "$(@" in text)


def stem_of(name: str) -> str:
    """The file's name without its folder and its suffix."""
    return os.path.splitext(os.path.basename(name))[0]
