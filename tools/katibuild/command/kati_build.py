"""The command kati-build."""
from __future__ import annotations

import gc
import os
import sys
import traceback
from typing import Mapping, Sequence

from ..base import interrupt, message, programs
from ..base.message import Message, Status, Stop
from ..keep import folder, record, rounds, why
from ..keep.request import NINJA_FILE, Place, ROOM, Request, Run, place_of
from . import options
from .options import Settings


def main(argv: Sequence[str], environ: Mapping[str, str]) -> int:
    """Runs the command; answers its exit status."""
    open_closed_streams()
    # One run makes millions of tuples and hardly a cycle: looking for cycles would take a quarter of its time.
    gc.disable()
    try:
        with interrupt.as_exit():
            return built(options.parse(argv), environ)
    except Stop as stop:
        message.say(stop.message)
        return int(stop.status)
    except interrupt.Interrupted:
        return int(Status.INTERRUPTED)
    except BrokenPipeError:
        # What reads the output is gone; the interpreter would say so once more at its end.
        os.dup2(os.open(os.devnull, os.O_WRONLY), sys.stdout.fileno())
        return int(Status.DEVICE)
    except Exception:
        # Hidden files are back by now, and nothing of the build of before is changed.
        traceback.print_exc()
        message.say(Message("this is a fault of kati-build"))
        return int(Status.INTERNAL)


def built(settings: Settings, environ: Mapping[str, str]) -> int:
    """Does what the settings say."""
    if settings.by_ninja:
        return looked(settings, environ)
    request = Request(settings.makefile, settings.goals, settings.variables, jobs=settings.jobs)
    place = place_of(request)
    if settings.is_remove:
        return removed()
    if settings.is_why:
        return explained(place)
    run = run_of(request, place, settings, environ)
    return rounds.build(run, settings.ninja_arguments, settings.is_without_ninja).status


def looked(settings: Settings, environ: Mapping[str, str]) -> int:
    """What build.ninja runs: translates if needed, by the request of the record."""
    earlier = record.load(Place(settings.by_ninja, "").record)
    request = earlier.request if earlier else Request(settings.makefile, (), settings.variables)
    rounds.translated(run_of(request, place_of(request), settings, environ), is_first=True)
    return 0


def removed() -> int:
    """Deletes what kati-build has written; hidden files come back first."""
    folder.refuse_foreign(NINJA_FILE)
    if os.path.isdir(ROOM) and not os.path.islink(ROOM):
        with rounds.held(Place(ROOM, NINJA_FILE)):
            folder.remove()
    else:
        folder.remove()
    return 0


def explained(place: Place) -> int:
    """Prints what the build depends on."""
    earlier = record.load(place.record)
    if earlier is None:
        raise Stop("nothing was built here yet", help="run kati-build --ask")
    write_out("\n".join(map(message.printable, why.lines(earlier))) + "\n")
    return 0


def open_closed_streams() -> None:
    """Opens standard streams that are closed: the first file that is opened would take the place of one."""
    for number in range(3):
        try:
            os.fstat(number)
        except OSError:
            os.open(os.devnull, os.O_RDONLY if number == 1 else os.O_RDWR)
    sys.stdout = sys.stdout or os.fdopen(1, "w", closefd=False)
    sys.stderr = sys.stderr or os.fdopen(2, "w", closefd=False)


def write_out(text: str) -> None:
    """Prints a text; stops with status 3 if the standard output takes none."""
    try:
        sys.stdout.write(text)
        sys.stdout.flush()
    except BrokenPipeError:
        raise
    except OSError as error:
        os.dup2(os.open(os.devnull, os.O_WRONLY), 1)
        raise Stop(f"cannot write the standard output: {error.strerror}", Status.DEVICE) from error


def run_of(request: Request, place: Place, settings: Settings, environ: Mapping[str, str]) -> Run:
    """What the run goes by."""
    look = (sys.executable, "-I", "-S", os.path.realpath(sys.argv[0]), "--ask", "--by-ninja")
    return Run(request, place, programs.find(environ), environ, look, bool(settings.by_ninja), settings.is_anew,
               settings.is_forced, settings.is_debug)
