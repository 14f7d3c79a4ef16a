"""Walks make's answer from the goals to the leaves: what the goals need becomes nodes."""
from __future__ import annotations

from operator import itemgetter
from typing import Callable, Collection, Dict, List, Mapping, Optional, Sequence, Set, Tuple

from ..ask.answer import Answer, Include, Line, Rule
from ..base.files import ninja_name
from .node import Command, Graph, Node
from .scripts import quoted

WAIT = ".WAIT"
EACH_TIME = ".kati/each-time"    # never there: what needs it is built each time


class Keys(dict):
    """`key_of` by names, once for each; what is known is found without a call."""

    def __missing__(self, name: str) -> str:
        found = self[name] = key_of(name)
        return found

def archive_of(name: str) -> str:
    """`lib.a` of the member `lib.a(x.o)`; other names as they are."""
    if not name.endswith(")"):
        return name
    head, bracket, _ = name.partition("(")
    return head if bracket and head else name


def key_of(name: str) -> str:
    """The name of the file that Ninja sees: members of an archive are the archive."""
    return ninja_name(archive_of(name))


def has_recipe(rule: Rule) -> bool:
    """Whether a rule has a recipe, be it empty."""
    return bool(rule.recipe) or rule.place is not None


class Walk:
    """make's answer by names, and what the walk has found: `names` are the spellings of each target by its key.

    `exists` tells whether a file was there before make was asked; `known` are outputs of earlier builds.
    """

    def __init__(self, answer: Answer, exists: Callable[[str], bool], known: Collection[str]):
        self.exists, self.known = exists, known
        self.rules: Dict[str, List[Rule]] = {}
        for rule in answer.rules:
            if rule.is_target or rule.inputs or has_recipe(rule):    # others are known as prerequisites alone
                self.rules.setdefault(rule.targets[0], []).append(rule)
        self.lines: Dict[str, List[Tuple[int, Line]]] = {}
        for numbered in enumerate(answer.lines):
            self.lines.setdefault(numbered[1].target, []).append(numbered)
        self.remade = {ninja_name(one.path) for one in answer.includes if is_remade(one)}
        self.left = {key_of(name) for name in answer.left}
        self.keys = Keys()
        self.names: Dict[str, List[str]] = {}

    def take_all(self, goals: Collection[str]) -> None:
        """Takes the goals, and all that they need."""
        seen: Set[str] = set()
        work = list(reversed(list(goals)))
        while work:
            name = work.pop()
            if name not in seen:
                seen.add(name)
                work += self.take(name)

    def take(self, name: str) -> Sequence[str]:
        """Takes a name if something makes it; answers the names that it needs."""
        rules = self.rules.get(name, ())
        if not rules and not self.lines_by_spelling(name) or name == WAIT or self.is_source(name, rules):
            return ()
        self.names.setdefault(self.keys[name], []).append(name)
        return [one for rule in rules for one in rule.inputs + rule.order_only]

    def nodes(self) -> Dict[str, Node]:
        """The node of each key, in the order in which make runs the first lines of their recipes."""
        found = (self.plain_node(key, names) or self.whole_node(key, names) for key, names in self.names.items())
        return {node.outputs[0]: node for _, node in sorted(found, key=itemgetter(0))}

    def plain_node(self, key: str, names: List[str]) -> Optional[Tuple[int, Node]]:
        """The same as `whole_node`, in less time, of a target with one spelling, one rule and nothing unusual."""
        rules = self.rules.get(names[0], ())
        if len(names) != 1 or len(rules) != 1 or names[0].endswith(")"):
            return None
        rule, lines = rules[0], self.lines.get(names[0], ())
        inputs = dict.fromkeys([self.keys[name] for name in rule.inputs])
        if rule.order_only or rule.is_double_colon or len(rule.targets) > 1 or WAIT in inputs or key in inputs:
            return None
        commands = tuple([command_of(line) for _, line in lines])
        return lines[0][0] if lines else -1, Node((key,), tuple(inputs), (), commands, rule.is_phony,
                                                  key in self.left, rule.place)

    def whole_node(self, key: str, names: List[str]) -> Tuple[int, Node]:
        """When make runs the first line of a recipe, and its node, by all spellings of the target and all rules."""
        rules = [rule for name in names for rule in self.rules.get(name, ())]
        inputs: Dict[str, None] = {}             # a dictionary keeps the order of names, and finds one at once
        waits: List[int] = []
        for name in (one for rule in rules for one in rule.inputs):
            if name == WAIT:
                waits.append(len(inputs))
            else:
                inputs[self.keys[name]] = None
        if key in inputs:      # make drops a file's own name, as Ninja spells it, from the prerequisites
            at = list(inputs).index(key)
            waits = [one - (one > at) for one in waits]
            del inputs[key]
        order_only = dict.fromkeys(self.keys[name] for rule in rules for name in rule.order_only
                                   if name != WAIT and self.keys[name] not in inputs and self.keys[name] != key)
        is_phony = any(rule.is_phony for rule in rules)
        if not is_phony and any(rule.is_double_colon and has_recipe(rule) and not rule.inputs for rule in rules):
            inputs[EACH_TIME] = None
        made_with = dict.fromkeys(self.keys[name] for rule in rules for name in rule.targets[1:])
        lines = {spelling: some for name in names for spelling, some in self.lines_by_spelling(name).items()}
        return min((some[0][0] for some in lines.values()), default=-1), Node(
            (key,), tuple(inputs), tuple(order_only), tuple(map(command_of, lines_of(lines))), is_phony,
            key in self.left, next((rule.place for rule in rules if rule.place), None),
            any(rule.is_double_colon for rule in rules), tuple(made_with), tuple(waits))

    def lines_by_spelling(self, name: str) -> Dict[str, List[Tuple[int, Line]]]:
        """The numbered lines that make a name; those of a member of an archive may have the archive as their target."""
        spellings = (name, archive_of(name)) if name.endswith(")") else (name,)
        return {one: self.lines[one] for one in spellings if one in self.lines}

    def is_source(self, name: str, rules: Sequence[Rule]) -> bool:
        """Whether make leaves a file alone: a makefile that make itself remakes, or a file without inputs that is
        there and that no build of ours made."""
        key = self.keys[name]
        if key not in self.remade and any([rule.inputs for rule in rules]) or \
                any([rule.is_phony or rule.is_double_colon for rule in rules]):
            return False
        if key in self.remade:
            return bool(rules)
        return any(map(has_recipe, rules)) and key not in self.known and self.exists(key)


def is_remade(include: Include) -> bool:
    """Whether make remakes an include itself, so that it needs no statement."""
    return include.has_rule and include.is_present and not include.is_always_made


def lines_of(by_spelling: Mapping[str, List[Tuple[int, Line]]]) -> List[Line]:
    """The lines of a target in make's order. Of two spellings of one file only the first recipe counts: make finds the
    file after it. Members of an archive have a recipe each."""
    spellings = sorted(by_spelling.items(), key=lambda one: one[1][0][0])
    numbered = [pair for name, lines in spellings if archive_of(name) == archive_of(spellings[0][0]) for pair in lines]
    return [line for _, line in sorted(numbered, key=lambda pair: pair[0])]


def command_of(line: Line) -> Command:
    """The command that a line is."""
    return Command(line.text, line.shell, line.environment, line.is_echoed, line.is_ignored)


def left_beside(nodes: Dict[str, Node], names: Set[str]) -> Dict[str, Node]:
    """Nodes for files that no rule makes and another recipe leaves: they wait for the prerequisites before
    them, and must then be there."""
    found: Dict[str, Node] = {}
    for node in nodes.values() if names else ():
        for at, name in enumerate(node.inputs):
            if name in names and name in nodes and not nodes[name].commands:
                earlier = found[name].order_only if name in found else ()
                before = (*earlier, *(one for one in node.inputs[:at] if one in nodes and one not in names))
                found[name] = Node((name,), order_only=tuple(dict.fromkeys(before)), place=node.place,
                                   commands=(Command(f"test -e {quoted(name)}"),))
    return found


def graph_of(answer: Answer, exists: Callable[[str], bool], known: Collection[str] = frozenset()) -> Graph:
    """The graph of make's answer: one node for each target that the goals need, in the order in which make makes them.

    `exists` tells whether a file was there before make expanded recipes, `known` are the outputs of the record.
    """
    walk = Walk(answer, exists, known)
    always = [one.path for one in answer.includes if one.has_rule and one.is_always_made]
    walk.take_all([*answer.goals, *sorted(always)])
    nodes = walk.nodes()
    nodes.update(left_beside(nodes, {key_of(name) for name in answer.unmade}))
    if any(node.is_double_colon and EACH_TIME in node.inputs for node in nodes.values()):
        nodes[EACH_TIME] = Node((EACH_TIME,))
    goals = dict.fromkeys(map(key_of, (*answer.goals, *sorted(always))))
    return Graph(nodes, tuple(goals), is_not_parallel=answer.is_not_parallel)
