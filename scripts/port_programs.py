#!/usr/bin/env python3
"""Builds real programs by kati-build --port or --ask, edits them, and compares each step with make.

    scripts/port_programs.py [--ask] [--jobs N] FOLDER..
    scripts/port_programs.py [--ask] [--jobs N] --list FILE FOLDER

FOLDER has a program's unpacked sources, with the makefile in it. With --list, FOLDER holds such folders. FILE names one
of them a line, and after it the arguments for make and kati-build, such as a goal.

Each program is built twice: by make, and by kati-build --port (with --ask, by kati-build --ask). The two copies are at
the same path while a command runs in them. Then both copies are edited in the same way, step by step, and make and a
plain ninja run. A step is as by make if the same files are rebuilt and all products have the same bytes:

  built       from scratch
  nothing     once more, with nothing changed
  header      the header that most sources include is touched
  source      a line is added to a source
  object      the object of that source is touched
  gone        the object is deleted
  new source  a source is added beside that source
  macro       kati-build gets the argument CC='cc -fno-ident'

In the last two steps make builds from scratch, and only the bytes are compared. They are also as by make if make, run
in the tree that it built before, leaves the same bytes or fails as well: an inner make leaves what is built. Products
that differ between two builds by make, as by a date, are not compared, nor are depfiles.

A line for each program says how many files were built, each step that is not as by make, the steps in which make and
ninja both fail, and the differences that kati-build reports. `more` names files that only ninja rebuilds, `less` those
that only make rebuilds, `other` files with other bytes, `absent` those that only make built.

exit status:
  0   all steps of all programs are as by make
  1   one isn't, or wasn't built
  3   a program isn't there
  64  wrong usage

examples:
  scripts/port_programs.py ~/sources/bzip2
  scripts/port_programs.py --list scripts/port_programs.txt ~/sources
"""
import argparse
import contextlib
import os
import re
import shlex
import shutil
import subprocess
import sys
import tempfile
import time
from collections import Counter
from pathlib import Path
from typing import NamedTuple

sys.dont_write_bytecode = True
TOP = Path(__file__).resolve().parent.parent
sys.path.insert(0, str(TOP / "share/kati"))

from kati_tools.base import programs, shims, words  # noqa: E402

AS_MAKE, OTHERWISE = 0, 1
SECONDS = 900
# Seconds in which the time that a file gets is another one, whatever the kernel counts by.
TICKS = 0.05
WORD = "CC=cc -fno-ident"
SOURCES = (".c", ".cc", ".cpp")
NEW = "kati_new"
# What the tools, ninja and compilers write beside what is built.
OWN = re.compile(r"(^|/)(build\.kati/|\.kati/|build\.ninja$|\.ninja_)|\.d$")
INCLUDED = re.compile(r'^[ \t]*#[ \t]*include[ \t]*[<"]([^>"]+)[>"]', re.MULTILINE)
DIFFER = re.compile(r"^kati-build: (kati's commands differ.*)", re.MULTILINE)


class Failed(Exception):
    """Nothing more can be told of a program."""


class Ran(NamedTuple):
    """What a command did."""

    status: int
    said: str

    def last(self):
        """Its last line."""
        lines = [line for line in self.said.split("\n") if line.strip()]
        return lines[-1] if lines else ""


def run(call, folder):
    """Runs a command in a folder."""
    try:
        done = subprocess.run([str(one) for one in call], cwd=folder, stdin=subprocess.DEVNULL, stdout=subprocess.PIPE,
                              stderr=subprocess.STDOUT, timeout=SECONDS, check=False,
                              env={**os.environ, "PWD": str(folder), "LC_ALL": "C"})
    except subprocess.TimeoutExpired:
        return Ran(-1, "takes too long")
    return Ran(done.returncode, done.stdout.decode(errors="replace"))


def files_of(tree):
    """The files of a tree that count, by their names: the time and the bytes of each."""
    paths = {str(path.relative_to(tree)): path for path in sorted(tree.rglob("*")) if path.is_file()}
    return {name: (path.stat().st_mtime_ns, path.read_bytes()) for name, path in paths.items() if not OWN.search(name)}


def made_anew(before, after):
    """The files that came into being or got another time."""
    return {name for name, (at, _) in after.items() if name not in before or before[name][0] != at}


def named(what, names):
    """What to say of some names; nothing where there are none."""
    some = sorted(names)
    return f" {what} {' '.join(some[:3])}{f' and {len(some) - 3} more' if len(some) > 3 else ''}" if some else ""


class Difference(NamedTuple):
    """What a step has otherwise than make."""

    step: str
    text: str

    def told(self):
        return f"{self.step}:{self.text}"


class Copies:
    """The copies of a program, of which one stands at the path while something runs in it."""

    def __init__(self, program, room):
        self.program, self.room, self.path = program, room, room / program.name

    def anew(self, name):
        """The path of a copy, as the program was unpacked."""
        copy = self.room / f"{name}.copy"
        shutil.rmtree(copy, ignore_errors=True)
        shutil.copytree(self.program, copy, symlinks=True)
        return copy

    @contextlib.contextmanager
    def standing(self, copy):
        """Has a copy stand at the path, in a context."""
        copy.rename(self.path)
        try:
            yield self.path
        finally:
            self.path.rename(copy)

    def run(self, copy, *call):
        """Runs a command in a copy."""
        with self.standing(copy) as path:
            return run(call, path)


class Chosen:
    """What is edited in a program, of the files that it had and those that were made."""

    def __init__(self, tree, before, made):
        stems = {os.path.basename(os.path.splitext(name)[0]): name for name in sorted(made) if name.endswith(".o")}
        sources = [name for name in sorted(before) if name.endswith(SOURCES)]
        fitting = [name for name in sources if os.path.basename(os.path.splitext(name)[0]) in stems]
        self.source = next(iter(fitting or sources), None)
        self.object = stems[os.path.basename(os.path.splitext(self.source)[0])] if fitting else None
        count = Counter(os.path.basename(name) for source in fitting or sources
                        for name in set(INCLUDED.findall((tree / source).read_text(errors="replace"))))
        headers = [name for name in sorted(before) if name.endswith((".h", ".hpp")) and count[os.path.basename(name)]]
        self.header = max(headers, key=lambda name: count[os.path.basename(name)], default=None)


def touch(tree, name):
    """Gives a file the time of now."""
    os.utime(tree / name)


def add_line(tree, name):
    """Adds a line to a source, which another object has."""
    with open(tree / name, "a", encoding="utf-8") as file:
        file.write("\nint kati_added = 1;\n")


def add_source(tree, name):
    """Adds a source."""
    (tree / name).write_text("int kati_new = 1;\n", encoding="utf-8")


def remove(tree, name):
    """Takes a file away."""
    (tree / name).unlink()


class Program:
    """A program, built by make and by kati-build in a room; `mode` is --port or --ask."""

    def __init__(self, folder, given, jobs, room, mode):
        self.copies, self.given, self.jobs, self.mode = Copies(folder, room), given, jobs, mode
        self.before = set(files_of(folder))
        self.differences, self.failing, self.told, self.restless = [], [], "", set()

    def build(self, copy, *given):
        """Builds a copy by kati-build."""
        return self.copies.run(copy, sys.executable, TOP / "tools/kati-build", self.mode, *self.given, *given,
                               "--", f"-j{self.jobs}")

    def make(self, copy, *given):
        """Builds a copy by make."""
        return self.copies.run(copy, programs.need("make"), *self.given, *given)

    def from_nothing(self, edits, *given):
        """What make builds where nothing was, after some edits: the files, or what make said where it failed."""
        copy = self.copies.anew("fresh")
        for edit, name in edits:
            edit(copy, name)
        ran = self.make(copy, *given)
        return files_of(copy) if ran.status == 0 else ran.last()

    def try_all(self):
        """Builds it and takes all steps; answers how many files were built."""
        self.by_make, self.by_ninja = self.copies.anew("make"), self.copies.anew("ninja")
        ran = self.make(self.by_make)
        if ran.status:
            raise Failed(f"make fails: {ran.last()}")
        ran = self.build(self.by_ninja)
        found = DIFFER.search(ran.said)
        self.told = f"; {found.group(1)}" if found else ""
        if ran.status:
            raise Failed(f"not built: {ran.last()}{self.told}")
        made = files_of(self.by_make)
        chosen = Chosen(self.by_make, self.before, set(made) - self.before)
        self.compare_built(made)
        self.edits(chosen)
        self.words_and_sources(chosen)
        return len(set(made) - self.before)

    def compare_built(self, made):
        """Compares what was built from nothing; what is another in a second build by make isn't compared."""
        ninjas = files_of(self.by_ninja)
        if any(ninjas.get(name, (0, None))[1] != text for name, (_, text) in made.items()):
            again = self.from_nothing([])
            if isinstance(again, str):
                raise Failed(f"make fails the second time: {again}")
            self.restless = {name for name, (_, text) in made.items() if again[name][1] != text}
        self.compare_bytes("built", made, ninjas)

    def edits(self, chosen):
        """The steps in which make goes on, too."""
        self.step("nothing", lambda tree, name: None, "")
        for step, edit, name in (("header", touch, chosen.header), ("source", add_line, chosen.source),
                                 ("object", touch, chosen.object), ("gone", remove, chosen.object)):
            if name is not None:
                self.step(step, edit, name)

    def step(self, step, edit, name):
        """Edits both copies, has make and ninja run, and compares."""
        before = [files_of(self.by_make), files_of(self.by_ninja)]
        # What is edited gets a later time than what was just built: times of files go by the ticks of the kernel.
        time.sleep(TICKS)
        for copy in (self.by_make, self.by_ninja):
            edit(copy, name)
        edited = {name} if name and edit is not remove else set()
        by_make = self.make(self.by_make)
        by_ninja = self.copies.run(self.by_ninja, programs.need("ninja"), f"-j{self.jobs}")
        if by_make.status and by_ninja.status:
            self.failing.append(step)
            return
        if by_make.status or by_ninja.status:
            self.differ(step, f" make ends with {by_make.status}, ninja with {by_ninja.status}: "
                              f"{(by_ninja if by_ninja.status else by_make).last()}")
            return
        after = [files_of(self.by_make), files_of(self.by_ninja)]
        makes, ninjas = (made_anew(*pair) - edited for pair in zip(before, after))
        self.differ(step, named("more", ninjas - makes) + named("less", makes - ninjas))
        self.compare_bytes(step, *after)

    def words_and_sources(self, chosen):
        """The steps in which make begins from nothing."""
        edits = []
        if chosen.source is not None:
            folder, ending = os.path.dirname(chosen.source), os.path.splitext(chosen.source)[1]
            edits = [(add_line, chosen.source), (add_source, os.path.join(folder, f"{NEW}{ending}"))]
            for copy in (self.by_make, self.by_ninja):
                add_source(copy, edits[-1][1])
            ran = self.copies.run(self.by_ninja, programs.need("ninja"), f"-j{self.jobs}")
            self.against_make("new source", ran, edits)
        self.against_make("macro", self.build(self.by_ninja, WORD), edits, WORD)

    def against_make(self, step, ran, edits, *given):
        """Compares what a run brought about with what make does from nothing and, if need be, where it has built."""
        text = self.against_nothing(ran, edits, *given)
        goes_on = self.make(self.by_make, *given)
        if not text:
            return
        if ran.status and goes_on.status:
            self.failing.append(step)
        elif ran.status or goes_on.status or self.other_bytes(files_of(self.by_make), files_of(self.by_ninja)):
            self.differ(step, text)

    def against_nothing(self, ran, edits, *given):
        """What a run brought about otherwise than make does from nothing; nothing where it's the same."""
        wanted = self.from_nothing(edits, *given)
        if isinstance(wanted, str) != bool(ran.status):
            return f" {'make fails, and ninja does not' if ran.status == 0 else ran.last()}"
        return "" if ran.status else self.other_bytes(wanted, files_of(self.by_ninja))

    def compare_bytes(self, step, makes, ninjas):
        """Compares what was built."""
        self.differ(step, self.other_bytes(makes, ninjas))

    def other_bytes(self, makes, ninjas):
        """What to say of built files that Ninja has otherwise than make or hasn't; nothing where there are none."""
        built = set(makes) - self.before - self.restless
        absent = {name for name in built if name not in ninjas}
        other = {name for name in built - absent if ninjas[name][1] != makes[name][1]}
        return named("absent", absent) + named("other", other)

    def differ(self, step, text):
        """Notes what a step has otherwise; nothing where the text is empty."""
        if text:
            self.differences.append(Difference(step, text))


def try_program(folder, given, jobs, mode):
    """Tells of a program; answers whether all is as by make."""
    with tempfile.TemporaryDirectory(prefix="kati-programs-") as room:
        program = Program(folder, given, jobs, Path(room).resolve(), mode)
        try:
            count = program.try_all()
        except Failed as failed:
            print(f"{folder.name}: {failed}", flush=True)
            return False
    differences = "; ".join(one.told() for one in program.differences) or "as make"
    failing = f"; both fail: {', '.join(program.failing)}" if program.failing else ""
    print(f"{folder.name}: {count} files, {differences}{failing}{program.told}", flush=True)
    return not program.differences


def chosen_programs(asked):
    """The folder of each program, and what make and kati-build are given for it."""
    found = [(folder, []) for folder in asked.folders]
    if asked.list:
        if len(asked.folders) != 1:
            raise programs.Stop("--list wants one folder", words.WRONG_USAGE)
        lines = [shlex.split(line, comments=True) for line in asked.list.read_text(encoding="utf-8").splitlines()]
        found = [(asked.folders[0] / line[0], line[1:]) for line in lines if line]
    absent = [str(folder) for folder, _ in found if not folder.is_dir()]
    if absent:
        raise programs.Stop(f"no folder {' '.join(absent)}", words.WRONG_USAGE)
    return [(folder.resolve(), given) for folder, given in found]


def try_programs(asked):
    """Tries all; answers the exit status."""
    for name in ("make", "ninja"):
        programs.need(name)
    results = [try_program(folder, given, asked.jobs, asked.mode) for folder, given in chosen_programs(asked)]
    print(f"{sum(results)} of {len(results)} as make")
    return AS_MAKE if all(results) else OTHERWISE


def main():
    # make gets the PATH that the tools have.
    shims.put_back()
    parser = argparse.ArgumentParser(prog="port_programs.py", description=__doc__,
                                     formatter_class=argparse.RawDescriptionHelpFormatter)
    parser.add_argument("--list", metavar="FILE", type=Path,
                        help="the programs in FOLDER, one a line, with goals and words")
    parser.add_argument("--ask", dest="mode", action="store_const", const="--ask", default="--port",
                        help="builds by kati-build --ask")
    parser.add_argument("--jobs", type=int, default=2, metavar="N", help="how many commands ninja runs at once; 2")
    parser.add_argument("folders", nargs="+", metavar="FOLDER", type=Path, help="a program's unpacked sources")
    try:
        asked = parser.parse_args()
    except SystemExit as ended:
        sys.exit(words.WRONG_USAGE if ended.code else 0)
    return programs.ending("port_programs.py", try_programs, asked)


if __name__ == "__main__":
    sys.exit(main())
