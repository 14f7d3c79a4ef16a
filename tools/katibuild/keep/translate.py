"""Runs the stages once: from a request and the record of before to build.ninja."""
from __future__ import annotations

import os
import shlex
from typing import Callable, Container, FrozenSet, Iterable, Mapping, NamedTuple, Optional, Sequence, Tuple

from ..ask.question import Question, environment_of
from ..base import files, message
from ..base.files import ninja_name
from ..base.message import Message, Status, Stop
from ..graph import writer
from ..graph.writer import GraphFile
from ..ninja import as_made, blocks, kati, top
from ..ninja.log import Log
from ..ninja.text import NinjaText
from ..ninja.top import PhonyGoal
from . import asked, dependencies, environment, folder, goals, stale, turns
from .asked import Asked
from .record import BuildRecord, save
from .request import Place, ROOM, Run, tools_digest
from .stale import Changes


class Written(NamedTuple):
    """A translation: its record, and whether Ninja has statements to run that it had not before."""

    record: BuildRecord
    is_new: bool


def translate(run: Run, record: Optional[BuildRecord], changes: Optional[Changes] = None) -> Written:
    """Reads the makefile, and writes what Ninja reads; stops before anything is written if a stage fails.

    `changes` are given in a later round: what the build has changed since the last reading.
    """
    log = turns.log_of(run.programs)             # before make is asked: not every Ninja's log is known
    known = turns.unedited(run.place.times, record, log)
    found = asked.ask(question_of(run, record), record, known, run.is_debug)
    refuse_differences(found, run)
    made = writer.write(found.graph)
    is_same = files.read(run.place.graph) == made.text
    before = turns.statements_of(run.place) if record is not None and is_own(run, record) else None
    text = before if is_same and before is not None else by_kati(run, made)
    new = record_of(run, record, found, made, text)
    if is_same and changes is not None:
        new = without_effect(new, record, changes)
    log, spared, left = with_lines(log, run, record, found, text, before, changes)
    renewing = turns.renewing(run.place, text, log, known)
    # a file to be built for another text may be edited before that, and is no longer built then
    own = {name: stale.file_state(name) for name in renewing}
    depends = new.dependencies._replace(files={**new.dependencies.files, **own})
    new = new._replace(dependencies=depends, left_alone=tuple(sorted(left)))
    write(run, new, made, with_blocks(found, text, renewing, left), goals.phony_goals(run, found, text))
    return Written(new, has_news(before, text, spared, renewing) and not next_makefiles(record, found))


def with_lines(log: Log, run: Run, record: Optional[BuildRecord], found: Asked, text: NinjaText,
               before: Optional[NinjaText], changes: Optional[Changes]) -> Tuple[Log, FrozenSet[str], FrozenSet[str]]:
    """Writes lines for outputs that count as made to Ninja's log; answers the log, and which outputs need not run and
    which are left alone."""
    seen = folder.other_outputs(run.place).union(record.seen_outputs if record else ())
    commands = {} if run.is_anew else turns.taken(found, text, seen)
    left = turns.left_alone(run, record, commands, log)
    if not commands and before is None:
        return log, frozenset(), left
    is_only_built = before is not None and changes is not None and record is not None and not users_own(record, found)
    lines = turns.as_taken({name: command for name, command in commands.items() if name not in left}, log)
    new = sorted({*lines, *left.intersection(commands)})
    if new:
        message.say(Message(f"{counted(new)} taken as make left {'it' if len(new) == 1 else 'them'} "
                            "(kati-build --anew rebuilds)"))
    needs_run = is_late(record, found, text)
    same = as_made.same_build(before, text, log, needs_run) if is_only_built else {}
    if not read_products(record, found):
        lines.update(same)
    turns.add(log, lines)
    spared = frozenset((*lines, *same, *(as_made.always_run(before, text, needs_run) if is_only_built else ())))
    return log._replace(entries={**log.entries, **lines}), spared, left


def read_products(record: Optional[BuildRecord], found: Asked) -> FrozenSet[str]:
    """The products whose new content make has read, as by `V := $(shell cat ver)`. What a text says of them, Ninja
    builds in its next run: a build runs no recipe twice."""
    if record is None:
        return frozenset()
    opened = (dependencies.relative(path, found.question.folder) for path in found.answer.opened)
    before, now = record.dependencies.files, found.dependencies.files
    return frozenset(name for name in set(opened).intersection(record.outputs).difference(record.made_includes)
                     if stale.is_other(before.get(name), now.get(name), False))


def next_makefiles(record: Optional[BuildRecord], found: Asked) -> FrozenSet[str]:
    """The makefiles that the build has written, and that make does not remake before it builds. make sees what they
    say in its next run, and so does Ninja."""
    if record is None:
        return frozenset()
    before, now = record.dependencies.files, found.dependencies.files
    return frozenset(name for name in set(map(ninja_name, found.answer.makefiles)).difference(record.made_includes)
                     if name in now and stale.is_other(before.get(name), now[name], False))


def is_late(record: Optional[BuildRecord], found: Asked, text: NinjaText) -> Callable[[str], bool]:
    """A function that says of an output whether its new text must run: its recipe calls `shell` or the like, or it
    needs a makefile that the build itself has rebuilt, and that make would have read before."""
    before, now = record.dependencies.files if record else {}, found.dependencies.files
    rebuilt = {name for name in set(record.made_includes).intersection(record.outputs) if name in before
            and stale.is_other(before[name], now.get(name), False)} if record else set()
    users = {output for one in text.statements if rebuilt.intersection(one.inputs) for output in one.outputs}
    asks = turns.is_late(found.answer)
    return lambda output: output in users or asks(output)


def counted(names: Iterable[str]) -> str:
    """`x.c is`, or `12 files are`."""
    found = list(names)
    return f"{found[0]} is" if len(found) == 1 else f"{len(found)} files are"


def users_own(record: BuildRecord, found: Asked) -> bool:
    """Whether this reading saw something of the user's that the one before did not: no product of the build.

    What was saved while make read counts, too. So the states of this reading are compared, not those before it.
    """
    made = {*record.outputs, *record.made_includes, *record.hidden, *record.written_while_read}
    before, now = record.dependencies, found.dependencies
    others = (name for name, state in now.files.items() if name in before.files and name not in made
              and before.files[name] is not None and stale.is_other(before.files[name], state, False))
    return any(others) or before.git != now.git


def without_effect(new: BuildRecord, record: BuildRecord, changes: Changes) -> BuildRecord:
    """The record in which products that only reading opened are no dependencies: another product, the same graph."""
    quiet = set(record.without_effect)
    if changes.files and not changes.folders and set(changes.files) <= set(record.outputs):
        quiet.update(changes.files)
    return new._replace(without_effect=tuple(sorted(quiet)))


def with_blocks(found: Asked, text: NinjaText, renewing: Mapping[str, str], left: FrozenSet[str]) -> bytes:
    """The statements with depfiles, `restat`, descriptions and the like; a check holds them against kati's text."""
    depfiles = {output: path for path, output in found.hidden.items()}
    there = files.present({name for one in text.statements for name in one.outputs})
    more = blocks.added(text, found.graph, depfiles, lambda name: name in there and os.path.isfile(name), renewing,
                        left)
    return blocks.with_blocks(text, more, found.hidden)


def question_of(run: Run, record: Optional[BuildRecord]) -> Question:
    """What make is asked. A plain ninja knows no variables: those of the record hold."""
    given = environment_of(run.environ)
    if run.is_by_ninja and record is not None:
        given = environment.restored(given, record.dependencies.environment)
    return Question(os.getcwd(), run.request.makefile, run.request.goals, run.request.variables, given,
                    run.programs.make)


def refuse_differences(found: Asked, run: Run) -> None:
    """Stops with status 5 if Ninja would build something else than make, unless the user wants that."""
    for one in found.graph.differences:
        if not one.is_by_nature and not run.is_forced:
            raise Stop(one.text, Status.DIFFERENT, place=one.place, help="kati-build --force builds all the same")


def by_kati(run: Run, made: GraphFile) -> NinjaText:
    """kati's text for the graph. A fault there is a fault of the tools."""
    found = kati.translate(run.programs, made, made.goals)
    if isinstance(found, kati.Fault):
        raise Stop(f"kati refuses the graph: {found.text}", Status.INTERNAL, place=found.place)
    return found


def has_news(before: Optional[NinjaText], now: NinjaText, spared: FrozenSet[str], renewing: Container[str]) -> bool:
    """Whether a statement is new, or has other inputs or another command than before, and Ninja would run it."""
    known = {one.outputs: one[3:] for one in before.statements} if before else {}
    return any(known.get(one.outputs) != one[3:] and one.outputs[0] not in spared and (
        not one.is_bare or one.outputs[0] in renewing or not all(map(os.path.lexists, one.outputs)))
               for one in now.statements)


def record_of(run: Run, earlier: Optional[BuildRecord], found: Asked, made: GraphFile,
              translated: NinjaText) -> BuildRecord:
    """What is remembered of a translation."""
    outputs = tuple(sorted({name for one in translated.statements if not one.is_phony for name in one.outputs}))
    seen = set(earlier.seen_outputs if earlier else ()).union(outputs)
    absent = tuple(sorted({ninja_name(one.path) for one in found.answer.includes if not one.is_present}
                          - set(found.hidden)))
    return BuildRecord(
        run.request, found.dependencies, outputs, found.hidden, visible=tuple(sorted(found.visible)),
        absent_includes=absent, seen_outputs=tuple(sorted(seen)), separated=earlier.separated if earlier else (),
        written_while_read=tuple(sorted(found.written)), graph_sha256=files.digest(made.text),
        made_includes=tuple(ninja_name(one.path) for one in found.answer.includes if one.has_rule),
        differences=tuple(f"{one.place}: {one.text}" if one.place else one.text for one in found.graph.differences),
        tools_sha256=tools_digest(run.programs))


def is_own(run: Run, record: BuildRecord) -> bool:
    """Whether the statements are those that the record's run has written."""
    written = record.dependencies.files.get(run.place.statements)
    return written is not None and written.sha256 == files.file_digest(run.place.statements)


def write(run: Run, record: BuildRecord, made: GraphFile, statements: bytes, more: Sequence[PhonyGoal]) -> None:
    """Writes the files of a translation; build.ninja is the last that Ninja reads, and the look behind it.

    The statements come before the graph: a graph that is there vouches for them. What is written is watched, too.
    """
    place = run.place
    folder.write_scripts(made.scripts.items())
    is_new = files.replace(place.statements, statements)
    files.replace(place.graph, made.text)
    names = (place.statements, place.graph, *(f"{folder.RUN}/{name}" for name in made.scripts))
    own = {name: stale.file_state(name) for name in names}
    depends = record.dependencies._replace(files={**record.dependencies.files, **own})
    data = top.text(look_command(run, record), more, top.Paths(place.ninja_file, place.statements, ROOM))
    record = record._replace(dependencies=depends, ninja_sha256=files.digest(data))
    save(place.record, record)
    if not files.replace(place.ninja_file, data) and is_new:
        os.utime(place.ninja_file)               # Ninja reads its files again only if this one has another time
    folder.delete_unused_scripts()
    settle(place, record)


def look_command(run: Run, record: BuildRecord) -> str:
    """What build.ninja runs at each start of ninja: a shell line, and kati-build if that fails."""
    python = " ".join(map(shlex.quote, (*run.look, run.place.room)))
    return python if record.dependencies.git else f"{stale.shell_line(run.place.room)} || {python}"


def settle(place: Place, record: BuildRecord) -> None:
    """Lets the look start from the folders as they are now: writing build.ninja has changed the time of one."""
    found = stale.changes(record)
    if not found.reasons:
        stale.settle(place.room, record, found.now)
