"""What the tests of the tools share: scratch folders, and the programs that they run."""
import os
import re
import shutil
import subprocess
import sys
import tempfile
import time
import unittest
from pathlib import Path
from unittest import mock

TOP = Path(__file__).resolve().parent.parent.parent
TOOLS = TOP / "tools"
sys.path.insert(0, str(TOP / "share/kati"))

from kati_tools.base import programs, shims  # noqa: E402

# make and ninja have the PATH here that the tools have, also where a shim of pyenv's has put folders before it.
for top in shims.TOPS:
    os.environ.pop(top, None)

# So many seconds end what hangs; what is only slow, on a machine with much else to do, takes fewer.
LONG = 1200


def kati():
    """The program kati, or None."""
    return programs.find("kati")


def kati_asked():
    """The program kati-asked that is run in its place, or None."""
    return kati() and programs.find_asked(None, kati())


# The tools are told both, found by whichever way: where a test puts another program in the place of one, the other one
# stays, and what is run, and how often, hangs on nothing of this host's.
os.environ.update({name: path for name, path in (("KATI", kati()), ("KATI_ASKED", kati_asked())) if path})


def needs(*names):
    """Skips a test where one of these programs isn't there; `kati` and `kati-asked` are those of the checkout, or of
    the environment."""
    own = {"kati": kati, "kati-asked": kati_asked}
    lacking = [name for name in names if not (own[name]() if name in own else shutil.which(name))]
    return unittest.skipIf(lacking, f"without {', '.join(lacking)}")


# What the tools say where they take more than a second.
AT_WORK = re.compile(r"^kati-\w+: ports .*: make is asked .*\n", re.MULTILINE)
# What they say where this host has no namespaces, and so make was asked in a copy, as test_in_place sees.
OF_A_COPY = re.compile(r"^\S+: make was asked in a copy of this folder: .*\n", re.MULTILINE)


def without_at_work(said):
    """What a tool said, but for the line by which it says that it takes more than a second."""
    return AT_WORK.sub("", said)


class Ran:
    """What a command did: its status, and its standard output and error as texts, without what the tools say on a slow
    host or one without namespaces; `whole` has that, too."""

    def __init__(self, words, cwd, **environment):
        ran = subprocess.run([str(word) for word in words], cwd=cwd, env={**os.environ, "LC_ALL": "C", **environment},
                             stdin=subprocess.DEVNULL, stdout=subprocess.PIPE, stderr=subprocess.PIPE, timeout=LONG)
        self.status, self.whole = ran.returncode, (ran.stdout + ran.stderr).decode()
        self.out, self.said = (OF_A_COPY.sub("", without_at_work(text.decode())) for text in (ran.stdout, ran.stderr))
        self.all = self.out + self.said


class Tree(unittest.TestCase):
    """A test in a folder of its own."""

    maxDiff = None

    def setUp(self):
        room = tempfile.TemporaryDirectory(prefix="kati-tests-")
        self.addCleanup(room.cleanup)
        self.top = Path(room.name) / "tree"
        self.top.mkdir()
        self.has_run = False

    def write(self, **texts):
        """Writes files: their names have _ for . and __ for /."""
        for name, text in texts.items():
            self.put(name.replace("__", "/").replace("_", "."), text)

    def put(self, name, text):
        """Writes a file, later than what a run wrote."""
        if self.has_run:
            self.let_time_pass()
            self.has_run = False
        path = self.top / name
        path.parent.mkdir(parents=True, exist_ok=True)
        path.write_text(text)

    def put_all(self, texts):
        """Writes files by their names."""
        for name, text in texts.items():
            self.put(name, text)

    def program(self, name, text):
        """The path of a program beside the folder, a shell's with this text."""
        path = self.top.parent / name
        path.write_text(f"#!/bin/sh\n{text}\n")
        path.chmod(0o755)
        return str(path)

    def around(self, do):
        """The environment in which programs stand for kati and kati-asked that do something first, by the words of a
        shell; there `$PROGRAM` is what they then are."""
        found = {"KATI": ("kati-around", kati()), "KATI_ASKED": ("asked-around", kati_asked())}
        return {key: self.program(name, f"PROGRAM={path}\n{do}\nexec {path} \"$@\"") if path else ""
                for key, (name, path) in found.items()}

    def without_asked(self):
        """Has kati stand without kati-asked, in a context."""
        path = self.top.parent / "alone/kati"
        path.parent.mkdir(exist_ok=True)
        if not path.exists():
            path.symlink_to(kati())
        return mock.patch.dict(os.environ, KATI=str(path), KATI_ASKED="")

    def copy_example(self):
        """Copies example/ of the repository."""
        shutil.copytree(TOP / "example", self.top, dirs_exist_ok=True)

    def read(self, name):
        return (self.top / name).read_text()

    def run_in(self, *words, **environment):
        self.has_run = True
        return Ran(words, self.top, **environment)

    @staticmethod
    def tool_path(name):
        return TOOLS / name

    def tool(self, name, *words, **environment):
        """Runs a tool by the name of its file."""
        return self.run_in(TOOLS / name, *words, **environment)

    def ninja(self, *words):
        """Runs ninja, and answers what it said; it must end well."""
        ran = self.run_in("ninja", *words)
        self.assertEqual(ran.status, 0, ran.all)
        return ran.all

    def made(self):
        """The time of each file, by which it is seen what was made anew."""
        return {path.name: path.stat().st_mtime_ns for path in self.top.rglob("*") if path.is_file()}

    def made_anew(self, call):
        """The files that came into being or changed by a call, but for those of kati-build and ninja."""
        before = self.made()
        self.let_time_pass()
        call()
        return sorted(name for name, at in self.made().items() if before.get(name) != at and not name.startswith("."))

    def wait_for(self, call):
        """Waits until a call answers what is true."""
        end = time.monotonic() + LONG
        while not call():
            self.assertLess(time.monotonic(), end, "it never is so")
            time.sleep(0.005)

    def let_time_pass(self):
        """Waits until what is written from now on is later than what is there, by the times that the disk keeps."""
        with tempfile.TemporaryFile() as clock:
            def now():
                os.utime(clock.fileno())
                return os.fstat(clock.fileno()).st_mtime_ns

            begin = now()
            self.wait_for(lambda: now() > begin)

    def touch(self, name):
        """Gives a file the time of now, which is later than all before."""
        self.let_time_pass()
        os.utime(self.top / name)
