"""The two builds of a tree at one path, each from the tree as it was unpacked."""
from __future__ import annotations

import os
import re
import shutil
import subprocess
import sys
from pathlib import Path
from typing import List, NamedTuple, Sequence, Tuple

from .commands import Command, commands
from .shell import Recorder, installed

SECONDS = 900
TOOLS = Path(__file__).resolve().parent.parent.parent / "tools"
DIFFERENT = 5     # the exit status of kati-build where it says that Ninja does something else than make
SHELL = re.compile(r"^SHELL :?= (\S+)$", re.MULTILINE)   # in make's database


class Subject(NamedTuple):
    """What is built: a program's folder, the makefile's folder in it, the makefile, goals and variables."""

    program: Path
    folder: Path
    makefile: str
    words: Tuple[str, ...] = ()


class Ran(NamedTuple):
    """A run's exit status (-1: it took longer than SECONDS) and what it printed."""

    status: int
    said: str

    def last(self) -> str:
        """The line that says most: the last one of make or of the tools, else the last one."""
        lines = [line for line in self.said.split("\n") if line.strip()]
        told = [line for line in lines if "***" in line or "kati-build:" in line]
        return (told or lines or [""])[-1]


class Built(NamedTuple):
    """A build: how it ended, and its commands."""

    ran: Ran
    commands: List[Command]


def run(call: Sequence[object], folder: Path, log: Path, **variables: str) -> Ran:
    """Runs a command; its output is a file, since make's `$(shell ..)` calls are known by their pipe. SHELL is always
    in the environment: make hands SHELL=.. on to commands only if it is not there."""
    environment = {"SHELL": "/bin/sh", **os.environ, "PWD": str(folder), "LC_ALL": "C", **variables}
    with open(log, "wb") as file:
        try:
            status = subprocess.run([str(one) for one in call], cwd=folder, env=environment, stdin=subprocess.DEVNULL,
                                    stdout=file, stderr=subprocess.STDOUT, timeout=SECONDS, check=False).returncode
        except subprocess.TimeoutExpired:
            status = -1
    return Ran(status, log.read_text(errors="replace"))


def accepted(subject: Subject, room: Path) -> Ran:
    """Runs `make -n -p` in a copy: whether make accepts the makefile, and its database."""
    folder = unpacked(subject, room) / subject.folder
    return run(["make", "-n", "-p", "-f", subject.makefile, *subject.words], folder, room / "log")


def shell_of(database: str) -> str:
    """The makefile's shell, by make's database; that of the outermost make is printed last."""
    return (SHELL.findall(database) or ["/bin/sh"])[-1]


def unpacked(subject: Subject, room: Path) -> Path:
    """A new copy of the program, always at the same path."""
    tree = room / subject.program.name
    shutil.rmtree(tree, ignore_errors=True)
    shutil.copytree(subject.program, tree, symlinks=True)
    return tree


class Builds:
    """Builds of one subject in a room, by a recorder in the place of the real shell."""

    def __init__(self, subject: Subject, room: Path, shell: str, jobs: int):
        self.subject, self.room, self.jobs, self.log = subject, room, jobs, room / "log"
        self.recorder: Recorder = installed(room / "recorder", shell, shutil.which("ninja") or "ninja")

    def built(self, *call: object) -> Built:
        """Runs a command in a new copy; its commands."""
        self.recorder.forget()
        folder = unpacked(self.subject, self.room) / self.subject.folder
        ran = run(call, folder, self.log, NINJA=self.recorder.ninja)
        return Built(ran, commands(self.recorder.given()))

    def by_make(self, *flags: str) -> Built:
        """make's build."""
        return self.built("make", *flags, f"-j{self.jobs}", "-f", self.subject.makefile, *self.subject.words,
                          f"SHELL={self.recorder.path}")

    def by_ninja(self, mode: str, *flags: str) -> Built:
        """The build of `kati-build MODE`, in as many rounds as it takes itself."""
        shell = [f"SHELL={self.recorder.path}"] if mode == "--ask" else []
        return self.built(sys.executable, TOOLS / "kati-build", mode, "-f", self.subject.makefile, *self.subject.words,
                          *shell, "--", f"-j{self.jobs}", *flags)
