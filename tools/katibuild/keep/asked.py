"""One reading of the makefile: make's answer and its graph, while depfiles are hidden from make."""
from __future__ import annotations

import glob
import os
from dataclasses import replace
from typing import Dict, FrozenSet, Iterable, Mapping, NamedTuple, Optional, Set, Tuple

from ..ask import asking, hidden, opened, reading
from ..ask.answer import Answer, Reading
from ..ask.dependency_includes import more_goals, prerequisites
from ..ask.question import Question, makefile_of
from ..base import files
from ..base.files import ninja_name
from ..base.message import Status, Stop
from ..graph import differences, groups, order, walk
from ..graph.node import Graph
from ..ninja import headers, inner_makes
from . import dependencies, folder
from .record import BuildRecord, Dependencies
from .stale import OWN, Counting

MOST = 3             # a file that changes in each of so many readings is written by the reading itself
MOST_HIDINGS = 5


class Asked(NamedTuple):
    """What make answered, the graph of that, and what both depend on."""

    question: Question
    reading: Reading
    answer: Answer
    graph: Graph
    hidden: Mapping[str, str]                    # depfiles that make did not see: the outputs
    visible: FrozenSet[str]                      # includes that look like depfiles, and that the graph needs
    dependencies: Dependencies
    written: FrozenSet[str]                      # files that each reading writes


class Seen(NamedTuple):
    """The two runs of make, the graph of the answer, and when the second run began."""

    reading: Reading
    answer: Answer
    graph: Graph
    started: int


def ask(question: Question, record: Optional[BuildRecord], known: FrozenSet[str] = frozenset(),
        keep: bool = False) -> Asked:
    """Reads the makefile until all depfiles are hidden and nothing was saved meanwhile.

    `known` are outputs of the record that are no user's files.
    Stops with status 3 if a makefile changes in each reading.
    """
    visible = frozenset(record.visible) if record else frozenset()
    depfiles, seen = known_depfiles(record), None
    for _ in range(MOST_HIDINGS):
        try:
            before, seen = seen, read(question, record, known, depfiles, keep)
        except Stop:
            if not depfiles:
                raise
            visible, depfiles = visible.union(depfiles), {}      # an `include` without a dash needs one of them
            continue
        visible |= needed_by_graph(question, depfiles, before, seen)
        found = depfiles_of(question, seen, depfiles, visible)
        if found == depfiles:
            break
        depfiles = found
    return unchanged(question, record, known, seen, depfiles, visible, keep)


def unchanged(question: Question, record: Optional[BuildRecord], known: FrozenSet[str], seen: Seen,
              depfiles: Mapping[str, str], visible: FrozenSet[str], keep: bool) -> Asked:
    """Reads again if something was saved meanwhile; what each reading writes is no dependency."""
    written, late = frozenset(record.written_while_read if record else ()), []
    for _ in range(2 * MOST):
        depends = dependencies.of(seen.answer, question, depfiles, outputs_of(seen.graph), written)
        late.append(saved_meanwhile(depends, seen))
        if not late[-1]:
            return Asked(question, seen.reading, seen.answer, seen.graph, depfiles, visible, depends, written)
        if len(late) >= MOST:
            written |= frozenset.intersection(*late[-MOST:]) - frozenset(seen.answer.makefiles)
        else:
            seen = read(question, record, known, depfiles, keep)
    raise Stop(f"{min(late[-1])} changes each time that make reads the makefile", Status.DEVICE,
               help="run kati-build again when nothing else writes to this folder")


# -- depfiles ----------------------------------------------------------------------------------------------------------

def known_depfiles(record: Optional[BuildRecord]) -> Dict[str, str]:
    """The depfiles of the record, and includes that are new and are depfiles of its outputs: they were absent by name,
    or a wildcard of the makefile finds them now."""
    if record is None:
        return {}
    found = {name: output for name, output in record.hidden.items() if os.path.isfile(name)}
    matched = (ninja_name(name) for word in record.dependencies.wildcards for name in glob.glob(word))
    known = {*record.visible, *found, *(name for name, state in record.dependencies.files.items() if state)}
    new = [name for name in dict.fromkeys((*record.absent_includes, *matched)) if name not in known]
    return {**targets_of(new, frozenset(record.outputs) - frozenset(found.values())), **found}


def depfiles_of(question: Question, seen: Seen, hidden_now: Mapping[str, str],
                visible: FrozenSet[str]) -> Dict[str, str]:
    """The depfiles of the graph: those hidden now whose outputs it has, and other includes that no rule makes."""
    first = {node.outputs[0] for node in seen.graph.nodes.values() if node.commands and not node.is_phony}
    kept = {path: output for path, output in hidden_now.items() if output in first and path not in visible}
    apart = {makefile_of(question), *visible, *hidden_now}
    others = (one.path for one in seen.answer.includes if one.is_present and not one.has_rule)
    more = targets_of((path for path in others if ninja_name(path) not in apart), first - set(kept.values()))
    return {**more, **kept}


def targets_of(paths: Iterable[str], outputs: FrozenSet[str]) -> Dict[str, str]:
    """The paths that are depfiles of these outputs, each with its output; of two files of one output the first."""
    found: Dict[str, str] = {}
    for path in paths:
        output = headers.target_of(files.read(path) or b"") if os.path.isfile(path) else None
        if output is not None and output in outputs:
            found.setdefault(output, ninja_name(path))
    return {path: output for output, path in found.items()}


def needed_by_graph(question: Question, depfiles: Mapping[str, str], before: Optional[Seen],
                    now: Seen) -> FrozenSet[str]:
    """The hidden files without which make has other commands, or lacks what makes a prerequisite: no mere depfiles."""
    found = set()
    if before is not None:
        found = {path for path, output in depfiles.items() if commands_of(before, output) != commands_of(now, output)}
    goals = more_goals(question, depfiles, now.answer) - now.graph.nodes.keys() if depfiles else frozenset()
    if goals:
        found |= {path for path in depfiles if goals.intersection(prerequisites(question.folder, [path]))}
    return frozenset(found)


def commands_of(seen: Seen, output: str) -> Tuple[str, ...]:
    """The texts of the commands that make an output."""
    node = seen.graph.nodes.get(output)
    return tuple(one.text for one in node.commands) if node else ()


# -- make --------------------------------------------------------------------------------------------------------------

def read(question: Question, record: Optional[BuildRecord], known: FrozenSet[str], depfiles: Mapping[str, str],
         keep: bool) -> Seen:
    """Runs make twice, with the depfiles hidden, and watches what the second run opens."""
    with hidden.hidden(depfiles, question.folder, os.path.join(question.folder, folder.HIDDEN)):
        found = reading.read(question, keep)
        texts = [files.text_of(files.read(name) or b"") for name in found.makefiles]
        started = stamp()
        with opened.Watch(opened.folders(question.folder, texts)) as watch:
            answer = asking.ask(question, found, watch, record.seen_outputs if record else (), keep)
    return Seen(found, answer, graph_of(answer, record, known), started)


def stamp() -> int:
    """The time that a file gets if it changes now: a file system's clock is coarser than the system's own."""
    os.utime(folder.LOCK)
    return os.stat(folder.LOCK).st_ctime_ns


def graph_of(answer: Answer, record: Optional[BuildRecord], known: FrozenSet[str]) -> Graph:
    """The graph of an answer. A file counts as existing if it was there before make expanded recipes."""

    def exists(name: str) -> bool:
        return os.path.lexists(name) and name not in answer.made

    walked = groups.inlined(walk.graph_of(answer, exists, known), groups.intermediates(answer))
    graph = groups.joined(walked, record.separated if record else ())
    there = files.present(graph.nodes)
    graph = order.ordered(graph, lambda name: name in there and os.path.isdir(name))
    graph = inner_makes.with_tokens(graph)
    return replace(graph, differences=(*differences.differences(answer, graph, exists), *graph.differences))


def outputs_of(graph: Graph) -> FrozenSet[str]:
    """The files that the graph's commands make."""
    return frozenset(name for name, node in graph.nodes.items() if node.commands and not node.is_phony)


def saved_meanwhile(depends: Dependencies, seen: Seen) -> FrozenSet[str]:
    """The files that were saved since make began to read, and names that appeared since."""
    late: Set[str] = {name for name, state in depends.files.items() if state and state.changed >= seen.started}
    counting = Counting(depends)
    late.update(name for name in seen.answer.made if name.split("/")[0] not in OWN
                and counting.counts(os.path.dirname(name) or ".", os.path.basename(name)))
    return frozenset(late)
