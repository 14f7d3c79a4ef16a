"""Where the programs are that the tools run, and how they are run."""
import contextlib
import gc
import os
import sys

from . import shims

# The folder of this package's parent: share/kati, in a checkout as where it is installed.
SHARE = os.path.dirname(os.path.dirname(os.path.dirname(os.path.realpath(__file__))))
# The top of the checkout, or the prefix of the installation.
TOP = os.path.dirname(os.path.dirname(SHARE))

NO_FILE = 3
# kati's commands aren't make's.
DIFFERS = 5
# A fault of the tool itself, and an interrupt.
UNFORESEEN, INTERRUPTED = 70, 130
# Two signals by their numbers, since the module that names them takes time to load.
KILL_SIGNAL, PIPE_SIGNAL = 9, 13


# So many objects come into being before those are looked for that only refer to each other, where Python itself would
# look after 700, which takes a sixth of a port's time: what a run has read it mostly needs to its end.
OBJECTS_BETWEEN_LOOKS = 100_000

# Calls that take away what is there for a while; each takes itself out of the list.
LEFT = []
# Calls that tell what an interrupted run did.
TOLD_AT_INTERRUPT = []


class Stop(Exception):
    """Ends a tool with a line on standard error and an exit status."""

    def __init__(self, words, status=NO_FILE):
        super().__init__(words)
        self.status = status


def own_sources():
    """The paths of these tools' own files, on which hangs what they write."""
    for folder, inner, names in os.walk(SHARE):
        inner.sort()
        yield from (os.path.join(folder, name) for name in sorted(names) if name.endswith((".py", ".mk")))


def which(name):
    """The path of a program as the shell finds it by its name, or None."""
    folders = [""] if os.path.dirname(name) else os.environ.get("PATH", os.defpath).split(os.pathsep)
    paths = (os.path.join(folder, name) for folder in folders)
    return next((path for path in paths if os.access(path, os.X_OK) and os.path.isfile(path)), None)


def places(name):
    """Where a program of the project may be: beside the tool, in the checkout, and on PATH."""
    crate = f"{name}_program"
    yield os.path.join(os.path.dirname(os.path.realpath(sys.argv[0])), name)
    yield os.path.join(TOP, "bin", name)
    yield os.path.join(TOP, "crates", crate, "out", crate)
    found = which(name)
    if found:
        yield found


def find(name, given=None):
    """The absolute path of a program of the project, or None: the one that was given, or that the environment
    names, else by `places`."""
    named = given or os.environ.get(name.upper().replace("-", "_"))
    if named:
        found = which(named)
        if not found:
            raise Stop(f"no program {named}")
        return os.path.abspath(found)
    for place in places(name):
        if os.access(place, os.X_OK) and os.path.isfile(place):
            return os.path.abspath(place)
    return None


def find_kati(given):
    """The program kati."""
    found = find("kati", given)
    if not found:
        raise Stop("no program kati beside this tool or on PATH: name it by --kati or the environment variable KATI")
    return found


def find_asked(given, kati):
    """The program kati-asked that is run in the place of kati: the one that was given, or that the environment names,
    else the one beside this kati, or of its checkout; or None."""
    if given or os.environ.get("KATI_ASKED"):
        return find("kati-asked", given)
    folder = os.path.dirname(kati)
    places = (os.path.join(folder, one) for one in ("kati-asked", "../../kati_asked/out/kati_asked"))
    return next((os.path.abspath(one) for one in places if which(one)), None)


def need(name):
    """A program that isn't of this project, by its variable in the environment, or on PATH."""
    named = os.environ.get(name.upper()) or name
    found = which(named)
    if not found:
        raise Stop(f"no program {named}")
    return found


def text_of(data):
    """Bytes as text, in which bytes that aren't UTF-8 stay what they are."""
    return data.decode("utf-8", "surrogateescape")


def bytes_of(text):
    """The bytes of such a text."""
    return text.encode("utf-8", "surrogateescape")


def run(words, **rest):
    """Runs a command; answers its status, standard output and standard error as texts."""
    # Loaded here alone, since it takes time, and most runs of kati-build need `run_into` alone.
    import subprocess
    how = {"stdin": subprocess.DEVNULL, "stdout": subprocess.PIPE, **rest}
    ran = subprocess.run(words, stderr=subprocess.PIPE, **how)
    return ran.returncode, text_of(ran.stdout or b""), text_of(ran.stderr)


@contextlib.contextmanager
def inside(folder):
    """Makes a folder this process's own for a while."""
    here = os.getcwd()
    os.chdir(folder)
    try:
        yield
    finally:
        os.chdir(here)


def new_output(path):
    """The number of a file that is opened to be written anew. It is one of the tools' own, so a link that stands there
    isn't followed, wherever it leads."""
    return os.open(path, os.O_WRONLY | os.O_CREAT | os.O_TRUNC | os.O_CLOEXEC | os.O_NOFOLLOW, 0o666)


def run_into(words, path, folder=None):
    """Runs a command in a folder, by its whole path, whose standard output is a file of this name; answers its status
    and standard error as bytes."""
    output = new_output(path)
    try:
        said, end = os.pipe()
        with open(said, "rb", buffering=0) as said:
            try:
                with inside(folder) if folder else contextlib.nullcontext():
                    pid = os.posix_spawn(words[0], words, os.environ, file_actions=[
                        (os.POSIX_SPAWN_OPEN, 0, os.devnull, os.O_RDONLY, 0), (os.POSIX_SPAWN_DUP2, output, 1),
                        (os.POSIX_SPAWN_DUP2, end, 2)], setsigdef=[PIPE_SIGNAL])
            finally:
                os.close(end)
            return ended(pid, said.readall)
    finally:
        os.close(output)


def ended(pid, call):
    """The status with which a process ends, and what a call answers that reads what it says. It is killed where that
    is interrupted."""
    try:
        told = call()
        status = os.waitpid(pid, 0)[1]
    except BaseException:
        os.kill(pid, KILL_SIGNAL)
        os.waitpid(pid, 0)
        raise
    return status_of(status), told


def status_of(told):
    """The status of a process, by what the system told where it was waited for; negative where a signal ended it."""
    return -os.WTERMSIG(told) if os.WIFSIGNALED(told) else os.WEXITSTATUS(told)


def say(tool, words):
    """A line on standard error, as far as that takes it, after what standard output holds."""
    close_output()
    with contextlib.suppress(OSError):
        sys.stderr.buffer.write(bytes_of(f"{tool}: {words}\n"))
        sys.stderr.flush()


def open_what_is_closed():
    """Opens what is closed of standard input, output and error, or a file that is opened later would take its place;
    so that what is written there fails, as before."""
    for number, name in enumerate(("stdin", "stdout", "stderr")):
        try:
            os.fstat(number)
        except OSError:
            os.set_inheritable(os.open(os.devnull, os.O_RDONLY), True)
            setattr(sys, name, open(number, "w" if number else "r", closefd=False))


def write_text(text):
    """Text on standard output, bytes that aren't UTF-8 as they are."""
    try:
        sys.stdout.flush()
        sys.stdout.buffer.write(bytes_of(text))
        sys.stdout.flush()
    except OSError as error:
        raise OSError(error.errno, error.strerror, "standard output") from error


def told(error):
    """What to say of an error of a file."""
    what, name = error.strerror or str(error), error.filename2 or error.filename
    return what if name is None else f"{os.fsdecode(name)}: {what}"


def close_output():
    """Gives standard output up where it takes nothing any more, or Python would try again at its end, and say so."""
    try:
        sys.stdout.flush()
    except OSError:
        os.dup2(os.open(os.devnull, os.O_WRONLY), sys.stdout.fileno())


def leave(status):
    """Ends the process with a status, without taking apart what is in memory, which takes time where that is much."""
    close_output()
    try:
        sys.stderr.flush()
    except OSError:
        pass
    os._exit(status)


def place_of(error):
    """What to say of a fault of a tool itself."""
    # Loaded here alone, since it takes time and is hardly ever needed.
    import traceback
    place = traceback.extract_tb(error.__traceback__)[-1]
    return f"a fault of this tool, at {os.path.basename(place.filename)}:{place.lineno}: " \
           f"{type(error).__name__}: {error}"


def ending(tool, call, *given):
    """What a call answers, or the status with which the parser of the command line ends. A Stop, a fault of a file, an
    interrupt and whatever else is left end the tool with a line and a status: here alone, so that none ends with a
    traceback."""
    gc.set_threshold(OBJECTS_BETWEEN_LOOKS)
    try:
        open_what_is_closed()
        shims.put_back()
        return call(*given)
    except SystemExit as end:
        return end.code
    except Stop as stop:
        say(tool, stop)
        return stop.status
    except OSError as error:
        say(tool, told(error))
        return NO_FILE
    except KeyboardInterrupt:
        say(tool, "; ".join(["interrupted", *(call() for call in TOLD_AT_INTERRUPT)]))
        return INTERRUPTED
    except Exception as error:
        say(tool, place_of(error))
        return UNFORESEEN
    finally:
        while LEFT:
            LEFT[-1]()
        close_output()
