"""Which outputs count as made although Ninja did not make them: their commands get lines in Ninja's log."""
from __future__ import annotations

import re
from typing import Callable, Collection, Dict, Iterable, List, Mapping, NamedTuple, Optional, Tuple

from ..base.files import ninja_name, text_of
from .log import Entry, Log, hashed
from .text import NinjaText, Statement
from .text import ALWAYS, plain

TimeOf = Callable[[str], Optional[int]]          # the time of a file in nanoseconds, None if it is absent
NAME = re.compile(r"(?:\\.|[^\s\\])+")


class Turns(NamedTuple):
    """The log's new entries for what make has rebuilt since ninja ran, and the outputs whose entries go."""

    made: Mapping[str, Entry]
    gone: Tuple[str, ...]


def commanded(text: NinjaText) -> Iterable[Statement]:
    """The statements whose commands run only if something is stale."""
    return (one for one in text.statements if not one.is_phony and ALWAYS not in one.inputs)


def to_log(text: NinjaText, present: Collection[str], make_rebuilds: Collection[str]) -> Dict[str, str]:
    """The outputs that count as made, with their commands.

    `present` are outputs that exist and are new to the record. An output that make would rebuild is not made; neither
    is one of a statement that lacks another output.
    """
    return {output: one.command for one in commanded(text) for output in one.outputs
            if all(name in present and name not in make_rebuilds for name in one.outputs)}


def same_build(before: NinjaText, now: NinjaText, log: Log, is_late: Callable[[str], bool]) -> Dict[str, Entry]:
    """Entries for statements whose text differs from before, as make never rebuilds for a text or for a lost input.

    `is_late` says whether an output's recipe calls `shell`, `wildcard` or the like: its text may then say what the
    build has just made.
    """
    known = {one.outputs: one for one in commanded(before)}
    found: Dict[str, Entry] = {}
    for one in commanded(now):
        old = known.get(one.outputs)
        if old and old.command != one.command and {*old.inputs, *old.order_only} >= {*one.inputs, *one.order_only} \
                and is_current(old, log) and not any(map(is_late, one.outputs)):
            new = hashed(log.kind, one.command)
            found.update((name, Entry(log.entries[name].modified, new)) for name in one.outputs)
    return found


def always_run(before: NinjaText, now: NinjaText, is_late: Callable[[str], bool]) -> Dict[str, str]:
    """The outputs, with their commands, of statements that run in every build and ran in this one by another text.

    make, too, runs such a recipe once a build, by the text that it had before the build.
    """
    known = {one.outputs: one for one in before.statements if ALWAYS in one.inputs}
    return {name: one.command for one in now.statements if one.outputs in known
            and (known[one.outputs].inputs, known[one.outputs].order_only) == (one.inputs, one.order_only)
            and not any(map(is_late, one.outputs)) for name in one.outputs}


def is_current(statement: Statement, log: Log) -> bool:
    """Whether the log has this command for all outputs."""
    entries = [log.entries.get(name) for name in statement.outputs]
    return None not in entries and {entry.hash for entry in entries} == {hashed(log.kind, statement.command)}


def by_turns(text: NinjaText, log: Log, time_of: TimeOf, depfiles: Mapping[str, List[str]],
             times_before: Mapping[str, int]) -> Turns:
    """What make has rebuilt since ninja ran: outputs that are newer than all inputs, by the same command.

    `depfiles` are the names in the depfile of an output; `times_before` are the times of outputs with `restat` after
    the last run of ninja: an output that is older now was put back, and Ninja would not see that.
    """
    made: Dict[str, Entry] = {}
    gone: List[str] = []
    for one in commanded(text):
        if one.is_bare and one.outputs[0] not in depfiles:
            continue
        older = [name for name in one.outputs if name in times_before and (time_of(name) or 0) < times_before[name]]
        gone += older
        if not older and is_current(one, log):
            made.update(newer(one, log, time_of, depfiles.get(one.outputs[0], [])))
    return Turns(made, tuple(gone))


def newer(statement: Statement, log: Log, time_of: TimeOf, more: List[str]) -> Dict[str, Entry]:
    """The entries of outputs that Ninja would make again, since its log has times before those of inputs."""
    outputs = [time_of(name) for name in statement.outputs]
    inputs = [time_of(name) for name in (*statement.inputs, *more)]
    if None in outputs or None in inputs or not inputs:
        return {}
    oldest = min(log.entries[name].modified for name in statement.outputs)
    if not oldest < max(inputs) <= min(outputs):
        return {}
    return {name: Entry(modified, log.entries[name].hash) for name, modified in zip(statement.outputs, outputs)}


def names_in_depfile(data: bytes) -> List[str]:
    """The prerequisites that a depfile lists."""
    text = text_of(data).replace("\\\n", " ").split("\n", 1)[0].partition(": ")[2]
    return [ninja_name(plain(word.replace("\\", ""))) for word in NAME.findall(text)]
