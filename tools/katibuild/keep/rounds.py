"""Translates and runs Ninja by turns, until the build changes nothing that the makefile depends on."""
from __future__ import annotations

import contextlib
import os
import threading
from typing import Iterable, Iterator, List, NamedTuple, Optional, Sequence, TYPE_CHECKING, Tuple

from ..ask import hidden
from ..base import files, lock, message
from ..base.message import Message, Reason
from ..ninja import running
from . import environment, folder, goals, stale, turns
from .record import BuildRecord, load
from .request import Place, Run, difference, is_same_build, tools_digest
from .stale import Changes

if TYPE_CHECKING:
    from .translate import Written

MOST = 4
PATIENCE = 1.0   # seconds without a word


class Outcome(NamedTuple):
    """How a run ended, and how often make was read."""

    status: int
    readings: int = 0


def build(run: Run, ninja_arguments: Iterable[str] = (), is_without_ninja: bool = False) -> Outcome:
    """Translates if needed, and runs Ninja; once more for what the build itself has changed."""
    with one_build(run):
        return built(run, words(run, ninja_arguments), is_without_ninja)


@contextlib.contextmanager
def one_build(run: Run) -> Iterator[None]:
    """Waits until no other build runs in this folder: two would write to one Ninja log.

    A recipe that calls kati-build in the folder that is being built doesn't wait for itself.
    """
    folder.refuse_foreign(run.place.ninja_file)
    folder.prepare(run.place)
    with lock.held(folder.BUILDING, waiting, is_open_below=True):
        yield


def built(run: Run, arguments: Sequence[str], is_without_ninja: bool) -> Outcome:
    """The rounds of a build, with Ninja's arguments."""
    readings = 0
    for number in range(MOST):
        written = translated(run, is_first=number == 0)
        readings += written is not None
        if is_without_ninja or number and not (written and written.is_new):
            return Outcome(0, readings)
        goals.write_boot(run)
        status = running.run(run.programs, arguments, run.request.jobs)
        turns.remember(run.place.times, load(run.place.record))
        if status:
            return Outcome(status, readings)
    unsettled = stale.reason(load(run.place.record), run.environ, environment.printed)
    if unsettled is not None:
        message.say(Message(f"does not settle: {unsettled.text}"))
    return Outcome(0, readings)


def words(run: Run, more: Iterable[str]) -> List[str]:
    """Ninja's arguments."""
    jobs = [f"-j{run.request.jobs}"] if run.request.jobs else []
    return ["-f", run.place.ninja_file, *jobs, *more]


def translated(run: Run, is_first: bool) -> Optional[Written]:
    """Translates if something differs from the record, and says why; None if nothing does."""
    with held(run.place):
        record = load(run.place.record)
        if is_first:
            begin(run, record)
        reason, changes = why(run, record, is_first)
        torn = turns.torn(run.place, record) if record is not None and not is_first else ()
        if torn:
            reason = reason or Reason(f"one run of its recipe did not make {torn[-1]}")
            record = record._replace(separated=(*record.separated, *torn))
        if reason is None:
            return None
        if record is not None and reason.text:
            message.say(Message(f"reading the makefile again: {reason.text}"))
        with said_later(Message("reading the makefile takes a while")):
            # Loaded here alone: a run with nothing to translate does without most modules.
            from .translate import translate
            return translate(run, record, None if is_first else changes)


@contextlib.contextmanager
def said_later(progress: Message) -> Iterator[None]:
    """Says what is being done if it takes longer than a second."""
    timer = threading.Timer(PATIENCE, message.say, [progress])
    timer.daemon = True
    timer.start()
    try:
        yield
    finally:
        timer.cancel()


def begin(run: Run, record: Optional[BuildRecord]) -> None:
    """What comes before the first look: `--anew` forgets what was made, and make's own builds since get their lines."""
    if run.is_anew:
        folder.delete(folder.LOG)
        folder.delete(folder.DEPENDENCY_LOG)
    elif record is not None and not run.is_by_ninja:
        turns.take_turn(run, record)


@contextlib.contextmanager
def held(place: Place) -> Iterator[None]:
    """Prepares the folder and holds its lock; files that a killed run has hidden come back first."""
    folder.refuse_foreign(place.ninja_file)
    folder.prepare(place)
    with lock.held(folder.LOCK, waiting):
        folder.hide_from_git()
        back = hidden.restore(os.getcwd(), os.path.join(os.getcwd(), folder.HIDDEN))
        if back:
            message.say(Message(f"restored {back[0]} and {len(back) - 1} more files that an ended run had hidden"
                                if len(back) > 1 else f"restored {back[0]}, which an ended run had hidden"))
        yield


def waiting() -> None:
    """Says that another run works in this folder."""
    message.say(Message("waiting for another run of kati-build in this folder"))


def why(run: Run, record: Optional[BuildRecord], is_first: bool) -> Tuple[Optional[Reason], Optional[Changes]]:
    """Why make has to be read, or None, and what has changed; the reason is empty if nothing was read before."""
    if record is None or not all(map(os.path.isfile, (run.place.ninja_file, run.place.graph, run.place.statements))):
        return Reason(""), None
    if is_first and run.is_anew:
        return Reason("--anew"), None
    if not run.is_by_ninja and not is_same_build(record.request, run.request):
        return Reason(difference(record.request, run.request)), None
    if record.tools_sha256 != tools_digest(run.programs):
        return Reason("kati-build has changed"), None
    if record.ninja_sha256 != files.file_digest(run.place.ninja_file):
        return Reason(f"{run.place.ninja_file} has changed"), None
    found = stale.changes(record, None if run.is_by_ninja else run.environ, environment.printed)
    if found.reasons:
        return (None if not is_first and stale.is_loss(record, found) else found.reasons[0]), found
    stale.settle(run.place.room, record, found.now)
    return None, found
