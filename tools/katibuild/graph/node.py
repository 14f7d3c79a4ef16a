"""The graph that Ninja is to build. Paths are spelled as Ninja spells them (base.files.ninja_name)."""
from __future__ import annotations

from dataclasses import dataclass, field
from typing import Mapping, NamedTuple, Optional, Tuple

from ..ask.answer import Environment
from ..base.message import Place


class Command(NamedTuple):
    """One line of a recipe."""

    text: str
    shell: Tuple[str, ...] = ("/bin/sh", "-c")
    environment: Environment = ()
    is_echoed: bool = True
    is_ignored: bool = False


class Node(NamedTuple):
    """One statement: outputs that the commands make from the inputs, or a phony name for its inputs."""

    outputs: Tuple[str, ...]
    inputs: Tuple[str, ...] = ()
    order_only: Tuple[str, ...] = ()
    commands: Tuple[Command, ...] = ()
    is_phony: bool = False
    is_left: bool = False                        # make runs the recipe at build time
    place: Optional[Place] = None
    is_double_colon: bool = False
    made_with: Tuple[str, ...] = ()              # what else the recipe makes, by make's database
    waits: Tuple[int, ...] = ()                  # positions in `inputs` before which the makefile has `.WAIT`


class Difference(NamedTuple):
    """Where Ninja differs from make."""

    text: str
    place: Optional[Place] = None
    is_by_nature: bool = True                    # False: the build stops with status 5 unless --force is given


@dataclass(frozen=True)
class Graph:
    """Nodes by each of their outputs; goals as the user or the makefile named them."""

    nodes: Mapping[str, Node]
    goals: Tuple[str, ...]
    differences: Tuple[Difference, ...] = ()
    scripts: Mapping[str, bytes] = field(default_factory=dict)   # that commands call, by their names in .kati/run
    is_not_parallel: bool = False                # the makefile has `.NOTPARALLEL`: one command at a time
