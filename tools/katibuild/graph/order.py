"""What make's order implies and Ninja does not know: made folders, `.WAIT`, and recipes that remove files."""
from __future__ import annotations

import bisect
import fnmatch
import posixpath
import re
from dataclasses import replace
from typing import Callable, Dict, Iterable, Iterator, List, Mapping, NamedTuple, Sequence, Set, Tuple

from ..base.files import ninja_name
from .node import Difference, Graph, Node

MKDIR = re.compile(r"\s*(?:/bin/)?mkdir(?:\s+-p)?\s+(\S+)\s*$")
REMOVES = re.compile(r"(?:^|[;&|\n{(])\s*(?:/bin/)?rm\s+([^;&|\n]*)")
PATTERN = re.compile(r"[*?\[]")
GATE, LAST = ".kati/wait", "\U0010ffff"
LONGEST_CHAIN = 10_000           # Ninja's stack grows with the length of a chain
Nodes = Mapping[str, Node]


class Edge(NamedTuple):
    """A name that must wait for another; an earlier name that is an input makes it stale, too."""

    name: str
    earlier: str
    is_input: bool = False


def ordered(graph: Graph, is_folder: Callable[[str], bool]) -> Graph:
    """The graph with what make's order implies; an edge that would close a circle is left out."""
    folders = {name for name, node in graph.nodes.items() if makes_folder(name, node, is_folder)}
    gates, edges = waits(graph.nodes)
    graph = without_folder_inputs(graph, folders) if folders else graph
    edges += [*inside(graph.nodes, folders), *removals(graph.nodes), *one_by_one(graph)]
    nodes = {**graph.nodes, **gates}
    return replace(graph, nodes=with_edges(nodes, without_circles(nodes, edges))) if edges else graph


def with_edges(nodes: Nodes, edges: Iterable[Edge]) -> Dict[str, Node]:
    """The nodes with more inputs and order-only inputs."""
    found: Dict[str, Dict[Edge, None]] = {}
    for edge in edges:
        found.setdefault(nodes[edge.name].outputs[0], {})[edge] = None
    changed = dict(nodes)
    for name, more in found.items():
        node = nodes[name]
        inputs = dict.fromkeys((*node.inputs, *(edge.earlier for edge in more if edge.is_input)))
        order_only = dict.fromkeys(one for one in (*node.order_only, *(edge.earlier for edge in more))
                                   if one not in inputs)
        changed.update((one, node._replace(inputs=tuple(inputs), order_only=tuple(order_only)))
                       for one in node.outputs)
    return changed


# -- folders -----------------------------------------------------------------------------------------------------------

def makes_folder(name: str, node: Node, is_folder: Callable[[str], bool]) -> bool:
    """Whether a node's output is a folder: there is one, or the only command makes one of that name."""
    if node.is_phony or not node.commands:
        return False
    text = node.commands[0].text if len(node.commands) == 1 else ""
    found = MKDIR.match(text) if "mkdir" in text else None
    return bool(found and ninja_name(found.group(1)) == name) or is_folder(name)


def without_folder_inputs(graph: Graph, folders: Set[str]) -> Graph:
    """Folders become order-only: each file that appears in a folder changes its time."""
    nodes, found = dict(graph.nodes), {}
    for name, node in graph.nodes.items():
        moved = [one for one in node.inputs if one in folders] if node.commands else []
        if moved:
            nodes[name] = node._replace(inputs=tuple(one for one in node.inputs if one not in folders),
                                        order_only=tuple(dict.fromkeys((*node.order_only, *moved))))
            found.update(dict.fromkeys(moved))
    return replace(graph, nodes=nodes, differences=(*graph.differences, *of_folders(graph.nodes, list(found))))


def of_folders(nodes: Nodes, moved: List[str]) -> List[Difference]:
    """What differs by folders that became order-only, as one difference."""
    others = f" and {len(moved) - 1} more folders are" if len(moved) > 1 else " is"
    return [Difference(f"the folder '{moved[0]}'{others} made: a newer folder makes nothing stale",
                       nodes[moved[0]].place)] if moved else []


def inside(nodes: Nodes, folders: Set[str]) -> Iterable[Edge]:
    """A file in a folder that is made waits for the folder."""
    for name, node in nodes.items() if folders else ():
        at = posixpath.dirname(name)
        while at and at != "/" and node.commands and not node.is_phony:
            if at in folders:
                yield Edge(name, at)
            at = posixpath.dirname(at)


# -- .WAIT -------------------------------------------------------------------------------------------------------------

def waits(nodes: Nodes) -> Tuple[Dict[str, Node], List[Edge]]:
    """Prerequisites behind `.WAIT`, and what only those need, wait for a phony name of the prerequisites before."""
    gates: Dict[str, Node] = {}
    edges: List[Edge] = []
    for node in (one for one in nodes.values() if one.waits):
        for number, at in enumerate(node.waits):
            until = node.waits[number + 1] if number + 1 < len(node.waits) else len(node.inputs)
            before = tuple(name for name in node.inputs[:at] if name in nodes)
            behind = reached(nodes, node.inputs[at:until]) - reached(nodes, before) if before else ()
            gate = f"{GATE}/{len(gates) + 1}"
            gates[gate] = Node((gate,), order_only=before, place=node.place)
            edges += [Edge(name, gate) for name in sorted(behind) if name in nodes and nodes[name].commands]
    return {gate: node for gate, node in gates.items() if node.order_only}, edges


def one_by_one(graph: Graph) -> List[Edge]:
    """By `.NOTPARALLEL` each recipe waits for the one before, in make's order."""
    names = [name for name, node in graph.nodes.items() if node.commands and node.outputs[0] == name]
    if not graph.is_not_parallel or len(names) > LONGEST_CHAIN:
        return []
    return [Edge(name, earlier) for earlier, name in zip(names, names[1:])]


# -- recipes that remove files -----------------------------------------------------------------------------------------

def removed(node: Node) -> Set[str]:
    """The names and patterns that a recipe gives to `rm`."""
    return {ninja_name(word) for command in node.commands if "rm" in command.text
            for found in REMOVES.finditer(command.text)
            for word in found.group(1).split() if not word.startswith("-")} - set(node.outputs)


def matching(names: List[str], pattern: str) -> List[str]:
    """The names that a pattern of the shell fits, of names in order: only those with its first letters are tried."""
    head = PATTERN.split(pattern, maxsplit=1)[0]
    return fnmatch.filter(names[bisect.bisect_left(names, head):bisect.bisect_left(names, head + LAST)], pattern)


def removals(nodes: Nodes) -> Iterable[Edge]:
    """A file that an earlier recipe removes is made after it, as `all: clean prog` has it. The nodes are in the order
    in which make runs their recipes."""
    removing = {name: node for name, node in nodes.items() for one in node.commands if "rm" in one.text}
    if not removing:
        return
    order, ordered_names = {name: number for number, name in enumerate(nodes)}, sorted(nodes)
    for name, node in removing.items():
        for gone in removed(node):
            found = matching(ordered_names, gone) if PATTERN.search(gone) else [gone] if gone in nodes else []
            yield from (Edge(other, node.outputs[0], True) for other in found
                        if order[other] > order[name] and nodes[other].commands and not nodes[other].is_phony
                        and nodes[other].outputs[0] != node.outputs[0])


# -- circles, and what a name reaches, in time linear in the number of prerequisites -----------------------------------

def reached(nodes: Nodes, names: Iterable[str]) -> Set[str]:
    """The names, and all that they need."""
    seen: Set[str] = set()
    work = list(names)
    while work:
        name = work.pop()
        if name not in seen:
            seen.add(name)
            if name in nodes:
                work += (*nodes[name].inputs, *nodes[name].order_only, *nodes[name].outputs)
    return seen


def without_circles(nodes: Nodes, edges: Sequence[Edge]) -> List[Edge]:
    """The edges whose two names are not in one circle, once all edges are added."""
    needs: Dict[str, List[str]] = {name: [*node.inputs, *node.order_only] for name, node in nodes.items()
                                   if node.outputs[0] == name}
    for edge in edges:
        needs[nodes[edge.name].outputs[0]].append(edge.earlier)
    first = {name: node.outputs[0] for name, node in nodes.items()}
    circle = components({name: [first[one] for one in others if one in first] for name, others in needs.items()})
    return [edge for edge in edges if circle[first[edge.name]] != circle[first[edge.earlier]]]


def components(needs: Mapping[str, Sequence[str]]) -> Dict[str, int]:
    """The number of the strongly connected component of each name, by Tarjan's algorithm without recursion."""
    found: Dict[str, int] = {}
    order: Dict[str, int] = {}
    low: Dict[str, int] = {}
    waiting: List[str] = []
    for start in needs:
        work: List[Tuple[str, Iterator[str]]] = [(start, iter(()))] if start not in order else []
        while work:
            name, others = work.pop()
            if name not in order:
                order[name] = low[name] = len(order)
                waiting.append(name)
                others = iter(needs[name])
            deeper = next((one for one in others if seen(name, one, order, low, found)), None)
            if deeper is not None:
                work += [(name, others), (deeper, iter(()))]
                continue
            close(name, order, low, waiting, found)
            if work:
                low[work[-1][0]] = min(low[work[-1][0]], low[name])
    return found


def seen(name: str, other: str, order: Mapping[str, int], low: Dict[str, int], found: Mapping[str, int]) -> bool:
    """Whether a needed name was not met before; if it was and is open, `name` reaches it."""
    if other in order and other not in found:
        low[name] = min(low[name], order[other])
    return other not in order


def close(name: str, order: Mapping[str, int], low: Mapping[str, int], waiting: List[str],
          found: Dict[str, int]) -> None:
    """Numbers the component of which `name` is the first, if it is one."""
    while low[name] == order[name] and name not in found:
        found[waiting.pop()] = order[name]
