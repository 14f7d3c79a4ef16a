"""What GNU make answers: rules, lines of recipes, includes, and what was opened meanwhile.

Paths are relative to the makefile's folder, spelled as make spells them, unless a field says "absolute".
"""
from __future__ import annotations

from typing import Any, FrozenSet, Mapping, NamedTuple, Optional, Tuple

from ..base.message import Place

Environment = Tuple[Tuple[str, Optional[str]], ...]


class Line(NamedTuple):
    """One line of a recipe, expanded, as make hands it to the shell."""

    target: str
    text: str
    shell: Tuple[str, ...] = ("/bin/sh", "-c")   # the program and its flags
    environment: Environment = ()                # what differs from the user's: (name, value), None where it is unset
    is_echoed: bool = True
    is_ignored: bool = False                     # make goes on if the line fails
    place: Optional[Place] = None                # of the recipe; each rule of `::` has its own
    is_mark_known: bool = True                   # False: whether make goes on is not known; it is taken to stop


class Rule(NamedTuple):
    """A rule of make's database: one target, or several that one recipe makes."""

    targets: Tuple[str, ...]                     # the first is the rule's own, the others are made with it
    inputs: Tuple[str, ...] = ()                 # prerequisites, `.WAIT` among them where the makefile has it
    order_only: Tuple[str, ...] = ()
    is_phony: bool = False
    is_double_colon: bool = False
    is_intermediate: bool = False
    recipe: Tuple[str, ...] = ()                 # logical lines, unexpanded; `x: ;` has one empty line, no recipe none
    place: Optional[Place] = None                # of the recipe
    is_target: bool = True                       # False: a name without recipe and inputs, known as a prerequisite


class Include(NamedTuple):
    """A makefile that the makefile includes."""

    path: str
    is_present: bool
    has_rule: bool = False                       # a rule of the makefile makes it
    is_always_made: bool = False                 # make makes it at each run
    made_from: Tuple[str, ...] = ()              # what it is made from, through all rules


class Reading(NamedTuple):
    """What the first run of make prints. That run brings the makefiles up to date."""

    makefiles: Tuple[str, ...]                   # in the order in which make read them, each once
    absent_includes: Tuple[str, ...]
    variables: Mapping[str, str]                 # global ones, unexpanded
    is_not_parallel: bool = False
    shell: str = "/bin/sh"                       # SHELL of the makefile, expanded
    default_goal: str = ""
    given: FrozenSet[str] = frozenset()          # names of the command-line variables that the user gave
    database: Any = None                         # ask.database.Database of this run; for the room `ask` alone


class Answer(NamedTuple):
    """The graph that the goals need, and what make's answer depends on."""

    goals: Tuple[str, ...]
    rules: Tuple[Rule, ...]
    lines: Tuple[Line, ...]                      # in make's order
    shell_calls: Tuple[str, ...]                 # texts of `$(shell ..)`
    includes: Tuple[Include, ...]
    opened: FrozenSet[str]                       # absolute paths of files that were opened meanwhile (Watch.opened)
    left: FrozenSet[str]                         # targets whose recipes are left to make
    variables: Mapping[str, str] = {}            # global ones, unexpanded
    made: FrozenSet[str] = frozenset()           # files that appeared while make was asked
    is_not_parallel: bool = False
    makefiles: Tuple[str, ...] = ()              # all that make read, in its order
    listed: FrozenSet[str] = frozenset()         # absolute paths of folders that were listed (Watch.listed)
    is_watched: bool = True                      # False: the kernel watched only a part (Watch.is_complete)
    unmade: Tuple[str, ...] = ()                 # prerequisites without a rule, which another recipe leaves
    patterns: Tuple[Rule, ...] = ()              # implicit rules of the makefile, their targets with `%`
    deferred: FrozenSet[str] = frozenset()       # names of the variables that make expands at each use

    def deferred_texts(self) -> Mapping[str, str]:
        """The deferred variables that name something, with their texts."""
        return {name: self.variables[name] for name in self.deferred if "$" in self.variables.get(name, "")}
