"""Runs of a program with one of its calls refused, by the shared object of refuse.c."""
import os
import shutil
import struct
import subprocess
from collections import namedtuple
from pathlib import Path

from refusing.outcomes import Outcome

SOURCE = Path(__file__).resolve().parent / "refuse.c"
SECONDS = 60
NO_END = "no end in %d seconds" % SECONDS

# The calls that are counted, and the ways in which one is refused.
WAYS = {"growth": ("fail",), "read": ("fail", "one"), "write": ("fail", "one", "none")}

# What takes memory, reads or writes beside the calls that refuse.c counts. A program that imports one isn't tried.
UNCOUNTED = frozenset("""
    asprintf brk copy_file_range creat fopen fopen64 fprintf fputs fread fwrite getline mmap mmap64 mremap openat
    openat64 pread pread64 preadv printf puts pvalloc pwrite pwrite64 pwritev readv reallocarray sbrk sendfile strdup
    strndup valloc vasprintf writev""".split())

# The layout of `struct record` in refuse.c.
RECORD = struct.Struct("=10Q4096s")
Record = namedtuple("Record", "started growth read write opens refused opens_before descriptor taken_out taken_err"
                              " name")

Refusal = namedtuple("Refusal", "call number way")


class CannotTry(Exception):
    """The program can't be tried here, in words."""


def built_object(folder):
    """The shared object, compiled into the folder."""
    compiler = shutil.which("cc")
    if not compiler:
        raise CannotTry("there is no C compiler (cc)")
    target = os.path.join(folder, "refuse.so")
    words = [compiler, "-O2", "-Wall", "-Wextra", "-shared", "-fPIC", "-o", target, str(SOURCE), "-ldl"]
    done = subprocess.run(words, stdout=subprocess.PIPE, stderr=subprocess.STDOUT)
    if done.returncode != 0:
        raise CannotTry("cc refuses %s: %s" % (SOURCE.name, done.stdout.decode(errors="replace")))
    return target


def uncounted_imports(program):
    """The calls that the program imports and refuse.c doesn't count."""
    if not shutil.which("nm"):
        return []
    done = subprocess.run(["nm", "-D", "--undefined-only", program], stdout=subprocess.PIPE, stderr=subprocess.DEVNULL)
    words = [line.split() for line in done.stdout.decode(errors="replace").splitlines()]
    return sorted({found[-1].split("@")[0] for found in words if found} & UNCOUNTED)


def lay_out(case, folder):
    """Writes the files of a case."""
    for keyword, name, text in case:
        if keyword == b"file":
            path = os.path.join(os.fsencode(folder), name)
            os.makedirs(os.path.dirname(path), exist_ok=True)
            with open(path, "wb") as file:
                file.write(text)


class Runner:
    """Runs a program on a case whose files lie in a folder of their own."""

    def __init__(self, program, shared_object, case, folder):
        self.folder = os.path.join(folder, "case")
        self.record = os.path.join(folder, "record")
        os.mkdir(self.folder)
        lay_out(case, self.folder)
        with open(self.record, "wb") as file:
            file.write(bytes(RECORD.size))
        self.words = [program] + [word for keyword, word, _ in case if keyword == b"arg"]
        self.full = [word for keyword, word, _ in case if keyword == b"full"]
        self.environment = dict(os.environ, LD_PRELOAD=shared_object, REFUSE_RECORD=self.record)

    def run(self, refusal=None):
        """What the program does, and the record of its calls."""
        environment = dict(self.environment)
        if refusal:
            environment.update(REFUSE_CALL=refusal.call, REFUSE_NUMBER=str(refusal.number), REFUSE_WAY=refusal.way)
        with open("/dev/full", "wb") as full:
            out, err = (full if name in self.full else subprocess.PIPE for name in (b"out", b"err"))
            try:
                done = subprocess.run(self.words, cwd=self.folder, env=environment, stdin=subprocess.DEVNULL,
                                      stdout=out, stderr=err, timeout=SECONDS)
            except subprocess.TimeoutExpired:
                return Outcome(NO_END, None, None), self.recorded()
        return Outcome(done.returncode, done.stdout, done.stderr), self.recorded()

    def recorded(self):
        """The record as it stands."""
        with open(self.record, "rb") as file:
            found = Record(*RECORD.unpack(file.read()))
        return found._replace(name=found.name.rstrip(b"\0"))
