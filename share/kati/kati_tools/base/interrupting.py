"""The signals that end a program: an interrupt, and those that do what an interrupt does. The first one counts; what
the program has begun is then taken away undisturbed.

An interrupt may come between any two steps, also where a `finally` begins. So what takes away what is left is known
to `programs.LEFT`, and is called last of all."""
import contextlib
import signal

SIGNALS = (signal.SIGINT, signal.SIGTERM, signal.SIGHUP)


def unheard(number, frame):
    """Takes no notice of a signal."""


def interrupted(number, frame):
    """Ends as an interrupt does; those that come after it count for nothing."""
    # Not `SIG_IGN`: of a signal that came together with this one Python would say that it was ignored.
    for one in SIGNALS:
        signal.signal(one, unheard)
    raise KeyboardInterrupt


def end_as_interrupted():
    """Has the signals that end a program do what an interrupt does, but for those that it was begun to ignore."""
    for one in SIGNALS:
        if signal.getsignal(one) in (signal.SIG_DFL, signal.default_int_handler):
            signal.signal(one, interrupted)


@contextlib.contextmanager
def put_off():
    """Has such a signal wait until the end of what is done here. No program may be started meanwhile: it would wait
    too."""
    before = signal.pthread_sigmask(signal.SIG_BLOCK, SIGNALS)
    try:
        yield
    finally:
        signal.pthread_sigmask(signal.SIG_SETMASK, before)


class HandedOn:
    """Hands the signals that end a program on to one that it runs, which then ends for both."""

    def __init__(self):
        self.came, self.running = [], None
        for one in SIGNALS:
            # Not what is ignored, as in the background: the other program ignores it then, too.
            if signal.getsignal(one) != signal.SIG_IGN:
                signal.signal(one, self.hear)

    def hear(self, number, frame):
        """A signal has come."""
        self.came.append(number)
        if self.running is not None:
            self.running.send_signal(number)

    def wait(self, running):
        """The status with which the running program ends; it is told what came before it ran."""
        self.running = running
        for number in list(self.came):
            running.send_signal(number)
        return running.wait()
