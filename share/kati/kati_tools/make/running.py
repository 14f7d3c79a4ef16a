"""The one place that runs make to ask it something."""
import os
import subprocess
import threading

from ..base import files
from . import shell_calls
from ..base.programs import need


def status_of(words, seconds, **how):
    """The status with which a command ends; where it takes more than so many seconds, it is killed, and that is raised.
    Python itself would look once in a twentieth of a second whether it has ended."""
    late = threading.Event()
    with subprocess.Popen(words, **how) as running:
        def end():
            late.set()
            running.kill()

        timer = threading.Timer(seconds, end)
        timer.daemon = True
        timer.start()
        try:
            status = running.wait()
        except BaseException:
            running.kill()
            raise
        finally:
            timer.cancel()
    if late.is_set():
        raise subprocess.TimeoutExpired(words, seconds)
    return status


def run_make(words, room, given, text=os.devnull, seconds=None):
    """What make says to these words in an environment: its status, standard output and standard error. `text` is the
    file that it has as its standard input. The outputs are files, as the shell that runs no recipe must find them to be
    no pipes, and as what stays in the background would hold up who waits for the end of a pipe."""
    shell_calls.of_room(room).begin()
    printed, said = (os.path.join(room, name) for name in ("printed", "said"))
    with open(text, "rb") as stdin, open(printed, "wb") as output, open(said, "wb") as error:
        # By its plain name, since $(MAKE) is the name that make has.
        how = {"executable": need("make"), "stdin": stdin, "stdout": output, "stderr": error, "env": given}
        status = status_of(["make", *words], seconds, **how) if seconds else subprocess.run(
            ["make", *words], check=False, **how).returncode
    return status, files.read(printed), files.read(said)
