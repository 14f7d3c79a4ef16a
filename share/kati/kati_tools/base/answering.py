"""A call in a process of its own, which may do to itself what can't be undone, and what it answers or raises."""
import os
import signal

from .programs import LEFT, UNFORESEEN, Stop, place_of

DEATH_SIGNAL = 1


class Refused(Exception):
    """What the process was to do first can't be done: `why` says it."""

    @property
    def why(self):
        """The words."""
        return str(self)


def outcome(begin, call):
    """What a call answers that is given what `begin` answers, and whether it was raised."""
    try:
        return call(begin()), False
    except (Refused, Stop, OSError, KeyboardInterrupt) as error:
        return error, True
    except Exception as error:
        return Stop(place_of(error), UNFORESEEN), True


def end_as(parent, writing, begin, call):
    """Does it in the new process, and ends that."""
    # Loaded here alone, since most runs of the tools ask nothing.
    import pickle
    try:
        # What the other one is to take away stays.
        LEFT.clear()
        end_with(parent)
        data = pickle.dumps(outcome(begin, call))
        with open(writing, "wb") as file:
            file.write(data)
    finally:
        os._exit(0)


def end_with(parent):
    """Has this process be terminated where its parent ends, by the library of C."""
    import ctypes
    ctypes.CDLL(None).prctl(DEATH_SIGNAL, signal.SIGTERM)
    if os.getppid() != parent:
        os._exit(UNFORESEEN)


def answer_of(begin, call):
    """What a call answers, in a process of its own, that is given what `begin` answers; a Refused that `begin` raised
    is an answer. What the call raises is raised here."""
    reading, writing = os.pipe()
    parent = os.getpid()
    child = os.fork()
    if not child:
        os.close(reading)
        end_as(parent, writing, begin, call)
    os.close(writing)
    try:
        with open(reading, "rb") as file:
            data = file.read()
    except BaseException:
        os.kill(child, signal.SIGTERM)
        raise
    finally:
        _, status = os.waitpid(child, 0)
    import pickle
    if not data:
        raise Stop(f"a process of this tool ended with status {status}", UNFORESEEN)
    found, is_raised = pickle.loads(data)
    if is_raised and not isinstance(found, Refused):
        raise found
    return found
