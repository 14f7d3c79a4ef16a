"""build.ninja: what Ninja reads first. It looks whether make must be read again, and takes in what kati wrote."""
from __future__ import annotations

from typing import List, NamedTuple, Sequence, Tuple

from ..base.files import bytes_of
from .inner_makes import POOL_LINES
from .text import escaped, escaped_value

FIRST = "# kati-build wrote this file."
LOOK = ".kati/always"            # never there: the look runs at each start of ninja


class PhonyGoal(NamedTuple):
    """A phony goal outside the graph, which make itself builds after those of its prerequisites that the graph has."""

    name: str
    command: str
    inputs: Tuple[str, ...] = ()


class Paths(NamedTuple):
    """The Ninja file itself, the file with kati's statements, and the folder of Ninja's log."""

    ninja_file: str = "build.ninja"
    statements: str = ".kati/statements"
    log_folder: str = ".kati"


def look_lines(command: str, ninja_file: str) -> List[str]:
    """The statement of the Ninja file itself. By `restat` Ninja goes on as it was if the command left the file alone;
    by `generator` no other text of the command makes the file stale, and `ninja -t clean` leaves it alone."""
    return ["rule kati_build", f" command = {escaped_value(command)}",
            " description = kati-build: looking for changes", " generator = 1", " restat = 1",
            f"build {escaped(ninja_file)}: kati_build | {LOOK}", f"build {LOOK}: phony"]


def goal_lines(number: int, goal: PhonyGoal) -> List[str]:
    """The statement of a phony goal. Its output is never there, so that it always runs, and no file that has the goal's
    name is ever deleted."""
    output = f".kati/goal/{number}"
    needs = " ||" + "".join(f" {escaped(name)}" for name in goal.inputs) if goal.inputs else ""
    return [f"rule kati_goal_{number}", f" command = {escaped_value(goal.command)}",
            f" description = make {escaped_value(goal.name)}", " pool = console",
            f"build {output}: kati_goal_{number}{needs}", f"build {escaped(goal.name)}: phony {output}"]


def text(command: str, goals: Sequence[PhonyGoal] = (), paths: Paths = Paths()) -> bytes:
    """The bytes of the Ninja file; `command` is what looks for changes."""
    lines = [FIRST, f"builddir = {escaped_value(paths.log_folder)}", *POOL_LINES,
             *look_lines(command, paths.ninja_file), f"subninja {escaped(paths.statements)}"]
    for number, goal in enumerate(goals):
        lines += goal_lines(number, goal)
    return bytes_of("\n".join(lines) + "\n")
