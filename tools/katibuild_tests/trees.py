"""What the tests share: a tree, in which make or kati-build --ask builds."""
from __future__ import annotations

import os
import re
import shutil
import subprocess
import sys
import tempfile
import unittest
from pathlib import Path

TOOLS = Path(__file__).resolve().parent.parent
BUILD = (sys.executable, "-S", str(TOOLS / "kati-build"), "--ask")
OWN = frozenset(("build.ninja", ".kati"))
LONG = 300                               # seconds; what hangs ends then
READ = "kati-build: reading the makefile again: "
QUIET = {name: value for name, value in os.environ.items() if not name.startswith(("MAKE", "MFLAGS"))}


class Ran:
    """What a command did: its status and what it printed."""

    def __init__(self, words, folder, **environment):
        ran = subprocess.run([str(word) for word in words], cwd=folder, env={**QUIET, "LC_ALL": "C", **environment},
                             stdin=subprocess.DEVNULL, stdout=subprocess.PIPE, stderr=subprocess.STDOUT,
                             timeout=LONG, check=False)
        self.status, self.said = ran.returncode, ran.stdout.decode("utf-8", "replace")

    @property
    def reasons(self):
        """Why make was read again, in its order."""
        return re.findall(f"(?m)^{re.escape(READ)}(.*)$", self.said)

    @property
    def has_work(self):
        """Whether ninja ran a command beside its look for changes."""
        return bool(re.search(r"(?m)^\[\d+/\d+\] (?!kati-build: )", self.said))


class Tree(unittest.TestCase):
    """A test with a tree of its own; `self.top` is its folder."""

    maxDiff = None

    def setUp(self):
        room = tempfile.TemporaryDirectory(prefix="kati-tests-")
        self.addCleanup(room.cleanup)
        self.top = Path(os.path.realpath(room.name)) / "tree"
        self.top.mkdir()

    def put(self, files):
        """Writes files by their names; those of None are deleted. Names with `/` at the end are folders."""
        for name, text in files.items():
            path = self.top / name
            path.parent.mkdir(parents=True, exist_ok=True)
            if name.endswith("/"):
                path.mkdir(exist_ok=True)
            elif text is None:
                path.unlink()
            else:
                path.write_text(text)

    def start_again(self):
        """Empties the tree."""
        shutil.rmtree(self.top)
        self.top.mkdir()

    def build(self, *words, **environment):
        """kati-build --ask with these arguments."""
        return Ran([*BUILD, *words], self.top, **environment)

    def ninja(self, *words, **environment):
        """A plain ninja."""
        return Ran(["ninja", *words], self.top, **environment)

    def make(self, *words, **environment):
        """GNU make."""
        return Ran(["make", *words], self.top, **environment)

    def sh(self, text):
        """An edit, by the shell."""
        ran = Ran(["sh", "-ec", text], self.top)
        self.assertEqual(0, ran.status, ran.said)

    def read(self, name):
        """The text of a file, or None."""
        path = self.top / name
        return path.read_text() if path.is_file() else None

    def contents(self):
        """The bytes of all files but kati-build's and ninja's own, by their names."""
        found = {}
        for at, folders, names in os.walk(self.top):
            if at == str(self.top):
                folders[:] = [one for one in folders if one not in OWN]
            paths = [Path(at) / one for one in names if at != str(self.top) or one not in OWN]
            found.update({str(path.relative_to(self.top)): os.readlink(path) if path.is_symlink() else path.read_bytes()
                          for path in paths})
        return found
