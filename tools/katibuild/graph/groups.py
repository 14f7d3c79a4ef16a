"""Targets that become one statement: those of one recipe, and intermediate files with what needs them."""
from __future__ import annotations

from dataclasses import replace
from typing import Collection, Dict, FrozenSet, Iterable, List, Optional, Tuple

from ..ask.answer import Answer
from ..base.message import Place
from .node import Command, Graph, Node
from .scripts import quoted
from .walk import key_of

KEPT = frozenset((".PRECIOUS", ".SECONDARY", ".NOTINTERMEDIATE"))   # what makes a file of these stay


def is_free(node: Optional[Node]) -> bool:
    """Whether a node is there and waits for the recipe of a group."""
    return node is not None and not node.commands and not node.is_phony and len(node.outputs) == 1


def joined(graph: Graph, separated: Collection[str] = ()) -> Graph:
    """The graph with one node for each recipe that makes several targets; those of `separated` stay apart."""
    nodes: Dict[str, Node] = dict(graph.nodes)
    for name, node in graph.nodes.items():
        if node.made_with and (node.commands or node.is_left):
            join(nodes, name, [other for other in node.made_with if is_free(nodes.get(other))])
    for names in alike(nodes, frozenset(separated)):
        join(nodes, names[0], names[1:])
    return replace(graph, nodes=nodes)


def join(nodes: Dict[str, Node], name: str, others: List[str]) -> None:
    """Makes one node of several; the first has the commands."""
    if not others:
        return
    parts = [nodes[one] for one in (name, *others)]
    outputs = dict.fromkeys(one for part in parts for one in part.outputs)
    inputs = dict.fromkeys(one for part in parts for one in part.inputs if one not in outputs)
    order_only = tuple(dict.fromkeys(one for part in parts for one in part.order_only
                                     if one not in outputs and one not in inputs))
    whole = parts[0]._replace(outputs=tuple(outputs), inputs=tuple(inputs), order_only=order_only)
    nodes.update((one, whole) for one in outputs)


def alike(nodes: Dict[str, Node], separated: Collection[str]) -> List[List[str]]:
    """Targets of one recipe that has the same text for each of them, as `y.c y.h: g.y`: make runs it for the first,
    and then finds the others."""
    by_place: Dict[Place, List[str]] = {}
    for name, node in nodes.items():
        if node.place and node.inputs and node.commands and len(node.outputs) == 1 and name not in separated \
                and not (node.is_phony or node.is_double_colon or node.made_with or node.is_left):
            by_place.setdefault(node.place, []).append(name)
    found: Dict[Tuple, List[str]] = {}
    for name in (one for names in by_place.values() if len(names) > 1 for one in names):
        node = nodes[name]
        texts = tuple((one.text, one.shell, one.environment) for one in node.commands)
        found.setdefault((node.place, texts, node.inputs, node.order_only), []).append(name)
    return [names for (_, _, inputs, order_only), names in found.items()
            if len(names) > 1 and not set(names) & {*inputs, *order_only}]


# -- intermediate files ------------------------------------------------------------------------------------------------

# make deletes them after the build, so that each is made and deleted within one statement.

def intermediates(answer: Answer) -> FrozenSet[str]:
    """The files that make deletes after the build."""
    kept = [rule for rule in answer.rules if rule.targets[0] in KEPT]
    if any(not rule.inputs for rule in kept):
        return frozenset()                       # `.SECONDARY:` alone keeps all files
    names = {key_of(name) for rule in kept for name in rule.inputs}
    patterns = [name.partition("%")[::2] for name in names if "%" in name]
    return frozenset(
        name for name in (key_of(rule.targets[0]) for rule in answer.rules if rule.is_intermediate)
        if name not in names and not any(name.startswith(head) and name.endswith(tail) for head, tail in patterns))


def inlined(graph: Graph, names: FrozenSet[str]) -> Graph:
    """The graph in which a file that one recipe alone needs is made before that recipe, and deleted after it.

    Its name stays a phony one for its inputs: a depfile may have it.
    """
    if not names:
        return graph
    users: Dict[str, List[str]] = {}
    for name, node in graph.nodes.items():
        for one in (*node.inputs, *node.order_only):
            if one in names:
                users.setdefault(one, []).append(name)
    nodes = dict(graph.nodes)
    for name in sorted(names.difference(graph.goals)):
        user = only_user(nodes, name, users.get(name, []))
        if user is not None:
            made = nodes[name]
            nodes[user] = with_commands(nodes[user], name, made)
            nodes[name] = made._replace(commands=(), place=None)
    return replace(graph, nodes=nodes)


def only_user(nodes: Dict[str, Node], name: str, users: Iterable[str]) -> Optional[str]:
    """The one statement that needs a file, if both can be one."""
    found, made = list(users), nodes.get(name)
    if len(found) != 1 or made is None or not is_plain(made) or not is_plain(nodes[found[0]]):
        return None
    return found[0] if name in nodes[found[0]].inputs else None


def is_plain(node: Node) -> bool:
    """Whether a node is one file that commands make."""
    return bool(node.commands) and len(node.outputs) == 1 and \
        not (node.is_phony or node.is_left or node.is_double_colon or node.made_with)


def with_commands(user: Node, name: str, made: Node) -> Node:
    """The statement that makes the file first, and deletes it last."""
    inputs = tuple(dict.fromkeys(other for one in user.inputs for other in (made.inputs if one == name else (one,))))
    order_only = tuple(dict.fromkeys(one for one in (*user.order_only, *made.order_only, name) if one not in inputs))
    last = user.commands[-1]
    deleting = Command(f"rm -f {quoted(name)}", last.shell, last.environment, is_echoed=False)
    return user._replace(inputs=inputs, order_only=order_only, commands=(*made.commands, *user.commands, deleting))
