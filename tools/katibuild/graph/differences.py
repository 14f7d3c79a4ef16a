"""Where Ninja differs from make, with places."""
from __future__ import annotations

import re
from typing import Callable, Dict, Iterator, List, Set

from ..ask.answer import Answer, Rule
from ..ask.heads import NAME, naming
from .node import Difference, Graph
from .order import makes_folder
from .walk import key_of

NEWER = re.compile(r"(?<!\$)(?:\$\$)*\$(?:\?|[({]\?[DF]?[)}])")


def differences(answer: Answer, graph: Graph, exists: Callable[[str], bool]) -> Iterator[Difference]:
    """The differences of a graph, in the order of its nodes; each by the rule that it comes from."""
    between, values = set(names_between(graph, exists)), answer.deferred_texts()
    newer = naming(values, [name for name, value in values.items() if NEWER.search(value) and NAME.fullmatch(name)])
    rules: Dict[str, List[Rule]] = {}
    for rule in answer.rules:
        if rule.is_target and (newer or rule.is_double_colon or rule.is_intermediate or "?" in "".join(rule.recipe)):
            rules.setdefault(key_of(rule.targets[0]), []).append(rule)
    for place in dict.fromkeys(line.place for line in answer.lines if not line.is_mark_known):
        yield Difference("whether make ignores failures of all lines of a recipe is not known: Ninja stops", place)
    for name in (one for one in graph.nodes if one in rules or one in between):
        node = graph.nodes[name]
        is_file = bool(node.commands) and not makes_folder(name, node, lambda one: False)
        for text in of_rules(name, rules.get(name, []), is_file, newer):
            yield Difference(text, node.place)
        if name in between:
            yield Difference(f"'{name}' has no file and no recipe: what needs it is rebuilt only if a prerequisite "
                             "is newer, by make each time", node.place)


def of_rules(name: str, rules: List[Rule], is_file: bool, newer: Set[str]) -> Iterator[str]:
    """What differs by the rules of one target; `newer` are variables that name `$?`."""
    recipes = [line for rule in rules for line in rule.recipe]
    if any(NEWER.search(line) or newer and not newer.isdisjoint(NAME.findall(line))
           for line in recipes if "$" in line):
        yield f"'$?' in the recipe of '{name}' is all prerequisites"
    if sum(rule.is_double_colon for rule in rules) > 1:
        yield f"the rules of '{name}' with '::' run all or none"
    if is_file and any(rule.is_intermediate for rule in rules):
        yield f"'{name}' is an intermediate file of several: it stays, and if it is absent, it is made again"


def names_between(graph: Graph, exists: Callable[[str], bool]) -> Iterator[str]:
    """Names without a file and a recipe between files: Ninja takes them for their prerequisites."""
    bare = {name for name, node in graph.nodes.items() if node.inputs and not node.commands and not node.is_left}
    for node in graph.nodes.values():
        if node.commands and not node.is_phony and not bare.isdisjoint(node.inputs):
            yield from (name for name in bare.intersection(node.inputs)
                        if graph.nodes[name].is_phony or not exists(name))
