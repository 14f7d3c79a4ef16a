"""Says that a tool is at work, where it takes more than a second."""
import contextlib
import threading

from .programs import say

SECONDS = 1


@contextlib.contextmanager
def telling(tool, words):
    """Has these words told while the context isn't left after a second."""
    timer = threading.Timer(SECONDS, say, (tool, words))
    timer.daemon = True
    timer.start()
    try:
        yield
    finally:
        timer.cancel()
