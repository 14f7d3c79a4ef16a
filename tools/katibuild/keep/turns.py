"""What counts as made although Ninja did not make it, and what is a user's own now: lines for Ninja's log.

Three kinds count as made: outputs that are older than their statements and that make would leave alone; outputs that
make has rebuilt since ninja ran; and outputs whose commands have another text alone, for which make rebuilds nothing.
"""
from __future__ import annotations

import json
import os
import re
from typing import Callable, Dict, FrozenSet, Iterable, List, Mapping, Optional, TYPE_CHECKING, Tuple

from ..ask.answer import Answer
from ..base import files
from ..base.files import ninja_name
from ..base.message import Status, Stop
from ..base.programs import Programs
from ..ninja import as_made, blocks, log
from ..ninja.log import Entry, Log
from ..ninja.text import NinjaText, parse
from . import folder
from .record import BuildRecord
from .request import Place, Run

if TYPE_CHECKING:
    from .asked import Asked

# A call that asks the clock or the system alone says nothing of what a build has made.
CALL = re.compile(r"\$[({](?:shell\b(?!\s+(?:date|hostname|id|nproc|uname|whoami)\b(?!.*-r)[^|;&<`$(){}]*[)}])"
                  r"|wildcard\b|file\b|realpath\b)")
PLAIN = re.compile(r"[\w./+-]+", re.ASCII)   # a name that a depfile has as it is


def statements_of(place: Place) -> Optional[NinjaText]:
    """kati's text of before, without the lines that were added; None if there is none."""
    data = files.read(place.statements)
    return None if data is None else parse(blocks.kati_data(data))


# -- what exists before its statement ---------------------------------------------------------------------------------

def taken(found: Asked, text: NinjaText, seen: FrozenSet[str]) -> Dict[str, str]:
    """The outputs that count as made, with their commands.

    `seen` are the outputs of all readings of this folder so far. An output that is new to them and that exists is
    asked of make, which knows times and depfiles: half-written files and stale ones are rebuilt.
    """
    depfiles = frozenset(found.hidden.values())
    outputs = {name for one in text.statements if not one.is_phony for name in one.outputs
               if not one.is_bare or name in depfiles}
    present = {name for name in files.present(outputs - seen) if os.path.isfile(name) and name not in found.answer.made}
    if not present:
        return {}
    return as_made.to_log(text, present, remade(found))


def remade(found: Asked) -> FrozenSet[str]:
    """The names that make would make now, as Ninja spells them."""
    # loaded here alone: most runs ask nothing of make
    from ..ask import asking
    return frozenset(archive_of(name) for name in asking.remade(found.question, found.reading, found.answer))


def archive_of(name: str) -> str:
    """`lib.a` of a member `lib.a(x.o)`."""
    return os.path.normpath(name.partition("(")[0] if name.endswith(")") else name)


def left_alone(run: Run, record: Optional[BuildRecord], now_taken: Iterable[str], found: Log) -> FrozenSet[str]:
    """The text files that count as made, as config.h of ./configure or a shipped parser.c, until Ninja makes them.
    Without lines in the log, Ninja compares their times with those of inputs, as make does, and nothing else."""
    before = [one.left_alone for one in (record, *folder.records(run.place.room)) if one and not run.is_anew]
    texts = [name for name in now_taken if b"\0" not in (files.read(name) or b"\0")]
    return frozenset(name for some in (*before, texts) for name in some if name not in found.entries)


# -- recipes that call `shell` or the like -----------------------------------------------------------------------------

def is_late(answer: Answer) -> Callable[[str], bool]:
    """A function that says of an output whether its recipe calls `shell` or the like, by deferred variables too."""
    # loaded here alone, as in `remade`
    from ..ask.heads import NAME, naming
    values = answer.deferred_texts()
    calling = naming(values, [name for name, value in values.items() if CALL.search(value)])
    recipes: Dict[str, List[str]] = {}
    for rule in answer.rules:
        recipes.setdefault(ninja_name(rule.targets[0]), []).extend(rule.recipe)

    def late(output: str) -> bool:
        return any(CALL.search(line) or calling.intersection(NAME.findall(line))
                   for line in recipes.get(output, ()) if "$" in line)

    return late


# -- the log -----------------------------------------------------------------------------------------------------------

def log_of(programs: Programs) -> Log:
    """Ninja's log of this folder; stops with status 3 if this ninja's log is of no known kind.

    Without lines in the log, Ninja would build again what make would leave alone.
    """
    data = files.read(folder.LOG)
    kinds = [log.Kind(*one) for one in log.HEADS if data is not None and data.startswith(one[0] + b"\n")]
    kind = kinds[0] if kinds else log.kind_of(programs)
    if kind is None:
        raise Stop(f"{programs.ninja} writes a log that kati-build does not know", Status.DEVICE,
                   help="name another ninja by the environment variable NINJA")
    return log.read(data, kind)


def add(found: Log, made: Mapping[str, Entry], gone: Iterable[str] = ()) -> None:
    """Writes lines to the log, and deletes those of outputs that are gone."""
    if made or gone:
        files.replace(folder.LOG, log.with_lines(found, made, gone))


def as_taken(commands: Mapping[str, str], found: Log) -> Dict[str, Entry]:
    """The lines of outputs that count as made, each with its own time, unless the log has them."""
    times = {name: time_of(name) for name in commands if name not in found.entries}
    return log.lines({name: commands[name] for name, time in times.items() if time is not None},
                     {name: time for name, time in times.items() if time is not None}, found.kind)


def time_of(name: str) -> Optional[int]:
    """The time of a file in nanoseconds; None if it is absent."""
    try:
        return os.stat(name).st_mtime_ns
    except OSError:
        return None


def times(outputs: Iterable[str]) -> Dict[str, int]:
    """The times of the outputs that are files."""
    found = {name: time_of(name) for name in outputs}
    return {name: time for name, time in found.items() if time is not None}


def remember(path: str, record: Optional[BuildRecord]) -> None:
    """Writes the times of all outputs as ninja left them."""
    if record is not None:
        files.replace(path, json.dumps(times(record.outputs)).encode())


def remembered(path: str) -> Dict[str, int]:
    """The times that `remember` wrote."""
    try:
        found = json.loads(files.read(path) or b"{}")
    except ValueError:
        return {}
    return found if isinstance(found, dict) else {}


def unedited(path: str, record: Optional[BuildRecord], found: Log) -> FrozenSet[str]:
    """The outputs that are as ninja left them, or absent. Others may be the user's now: a file without inputs, as
    config.h, is edited after it was made, and make would never make it again."""
    if record is None:
        return frozenset()
    # kati-build has not seen what a plain ninja made; by `generator` the log has a file's own time
    before, made = remembered(path), found.entries
    now = ((name, time_of(name)) for name in record.outputs)
    return frozenset(name for name, time in now if time in (None, before.get(name))
                     or name in made and made[name].modified == time)


def renewing(place: Place, text: NinjaText, found: Log, known: FrozenSet[str]) -> Dict[str, str]:
    """By output the depfile by which Ninja builds a file without inputs for another text: the depfile names the
    statements, which are newer than the file until then. A file that somebody has edited is not in `known`."""
    some = [one.outputs[0] for one in text.statements if one.is_bare and known.issuperset(one.outputs)
            and found.entries.keys() >= set(one.outputs) and not as_made.is_current(one, found)
            and all(map(os.path.isfile, one.outputs)) and PLAIN.fullmatch(one.outputs[0])]
    depfiles = {name: f"{place.room}/{folder.AGAIN}/{files.digest(files.bytes_of(name))[:16]}" for name in some}
    for name, path in depfiles.items():
        os.makedirs(os.path.dirname(path), exist_ok=True)
        files.replace(path, files.bytes_of(f"{name}: {place.statements}\n"))
    return depfiles


def take_turn(run: Run, record: BuildRecord) -> None:
    """Gives outputs that make has rebuilt since ninja ran their new times, so that Ninja does not rebuild them.

    make has done nothing if no output has another time than after ninja's last run.
    """
    before = remembered(run.place.times)
    text = statements_of(run.place)
    if text is None or times(record.outputs) == before:
        return
    found = log_of(run.programs)
    named: Dict[str, List[str]] = {output: as_made.names_in_depfile(files.read(path) or b"")
                                   for path, output in record.hidden.items()}
    turn = as_made.by_turns(text, found, time_of, named, before)
    add(found, turn.made, turn.gone)


def torn(place: Place, record: BuildRecord) -> Tuple[str, ...]:
    """The outputs of joined targets of which one is absent after the build, and that were not separated before."""
    text = statements_of(place)
    joined = [one.outputs for one in text.statements if not one.is_phony and len(one.outputs) > 1] if text else []
    apart = frozenset(record.separated)
    return tuple(name for outputs in joined if not all(map(os.path.lexists, outputs))
                 for name in sorted(outputs, key=os.path.lexists, reverse=True) if name not in apart)
