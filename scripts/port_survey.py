#!/usr/bin/env python3
"""Runs kati-port --write on makefiles of real programs, each in a copy of its tree, and prints the results.

    scripts/port_survey.py [--list FILE] [--jobs N] FOLDER..

FOLDER holds unpacked sources, a folder for each program. The makefiles are those at the top of a program's folder and
down to two folders below, if a person wrote them: none next to a configure.ac, a CMakeLists.txt or a meson.build, and
none that a program has written. --list names the makefiles instead, one a line, so that they are chosen before they
are tried.

A line for each makefile says:

  NAME: RESULT, the lines that were changed, the seconds that it took; what stopped it

RESULT is `same`: kati accepts the result, and its commands are make's, except for blanks; `ported`: kati accepts it,
and some commands differ; `stuck`; `make fails`: make does not accept the original. After each run make prints its
commands again. `make changed` says that they changed, those of inner makes included.

Then comes a table. The exit status is 0.

examples:
  scripts/port_survey.py ~/sources
  scripts/port_survey.py --list makefiles.txt ~/sources > survey.txt"""
import argparse
import difflib
import os
import re
import shutil
import subprocess
import sys
import tempfile
import time
from collections import Counter
from concurrent.futures import ThreadPoolExecutor
from pathlib import Path

TOP = Path(__file__).resolve().parent.parent
NAMES = ("GNUmakefile", "makefile", "Makefile")
OTHERS = ("configure.ac", "configure.in", "CMakeLists.txt", "meson.build", "Makefile.am", "Makefile.in", "wscript")
WRITTEN = re.compile(r"[Gg]enerated (automatically|by)|DO NOT EDIT", re.IGNORECASE)
# Makefiles of packaging and of other systems aren't those that build the program.
SKIPPED = {"debian", "doc", "docs", "win32", "windows", "msdos", "os2", "amiga", "vms", "contrib", "examples", "test",
           "tests"}
SECONDS = 900
# The statuses of kati-port --write where kati takes the makefile: all is as for make, or some commands differ.
PORTED = (0, 5)


def makefiles_in(program):
    """The makefiles of a program that a person wrote, by their paths."""
    for at, folders, names in os.walk(program):
        depth = len(Path(at).relative_to(program).parts)
        folders[:] = sorted(one for one in folders if depth < 2 and one not in SKIPPED and not one.startswith("."))
        name = next((name for name in NAMES if name in names), None)
        if name is None or any(other in names for other in OTHERS):
            continue
        path = Path(at) / name
        head = path.read_text(encoding="utf-8", errors="replace")[:2000]
        if path.is_file() and not WRITTEN.search(head):
            yield path


def run(words, folder):
    """The status, output and messages of a command; a status of -1 where it takes too long."""
    environment = {name: os.environ[name] for name in ("PATH", "HOME", "TMPDIR", "KATI", "NINJA") if name in os.environ}
    try:
        done = subprocess.run(words, cwd=folder, env={**environment, "LC_ALL": "C"}, stdin=subprocess.DEVNULL,
                              stdout=subprocess.PIPE, stderr=subprocess.PIPE, timeout=SECONDS, check=False)
    except subprocess.TimeoutExpired:
        return -1, "", "takes too long"
    return done.returncode, done.stdout.decode(errors="replace"), done.stderr.decode(errors="replace")


def make_commands(folder, name):
    """What make would do, asked in a way that keeps it from running recipes with $(MAKE)."""
    noop = Path(folder).parent / "noop-shell"
    noop.write_text('#!/bin/sh\ntest -z "$MAKELEVEL" && exec /bin/sh "$@"\nexit 0\n', encoding="ascii")
    noop.chmod(0o755)
    return run(["make", "-n", "-B", "--no-print-directory", "-f", name, f"SHELL={noop}"], folder)


def all_commands(folder, name):
    """What make would do, and the inner makes that it runs; where one of these fails, up to that."""
    return run(["make", "-n", "--no-print-directory", "-f", name], folder)


def make_includes(folder, name):
    """Has make make the makefiles that it reads, as any run of it does."""
    nothing = Path(folder).parent / "nothing.mk"
    nothing.write_text("survey_nothing: ;\n", encoding="ascii")
    return run(["make", "-n", "-f", name, "-f", nothing, "survey_nothing"], folder)


def changed_lines(before, folder):
    """How many lines of makefiles are new or other."""
    count = 0
    for path in sorted(Path(folder).rglob("*")):
        old = Path(before) / path.relative_to(folder)
        if path.is_file() and old.is_file() and path.stat().st_size < 2**20 and path.read_bytes() != old.read_bytes():
            pair = [one.read_text(encoding="utf-8", errors="replace").split("\n") for one in (old, path)]
            count += sum(line.startswith("+ ") for line in difflib.ndiff(*pair))
    return count


class Surveyed:
    """What came of a makefile."""

    def __init__(self, program, makefile, name):
        self.name, start = name, time.monotonic()
        self.result, self.detail, self.lines = "make fails", "", 0
        self.as_it_is = self.is_changed = False
        with tempfile.TemporaryDirectory(prefix="kati-survey-") as room:
            self.program, self.tree, self.folder = program, Path(room) / program.name, makefile.parent
            self.port(makefile.name)
        self.seconds = time.monotonic() - start

    def unpacked(self):
        """The makefile's folder in a copy of the tree as it was unpacked."""
        shutil.rmtree(self.tree, ignore_errors=True)
        shutil.copytree(self.program, self.tree, symlinks=True)
        return self.tree / self.folder

    def port(self, name):
        """Asks make, ports what was unpacked, and asks make again."""
        folder = self.unpacked()
        made = make_includes(folder, name)
        first, first_all = make_commands(folder, name), all_commands(folder, name)
        if made[0] or first[0]:
            self.detail = last(made[2] if made[0] else first[2])
            return
        folder = self.unpacked()
        status, out, said = run([sys.executable, TOP / "tools/kati-port", "--write", name], folder)
        if status not in PORTED:
            self.result, self.detail = "stuck", " / ".join(said.strip().split("\n")[:3])
            return
        self.as_it_is = "takes it as it is" in out
        self.result = "same" if "kati's commands are make's" in out else "ported"
        self.detail = next((line for line in out.split("\n") if "kati's commands differ" in line), "")
        self.lines = changed_lines(self.program / self.folder, folder)
        make_includes(folder, name)
        second, second_all = make_commands(folder, name), all_commands(folder, name)
        self.is_changed = second[:2] != first[:2] or second_all[:2] != first_all[:2]

    def told(self):
        """The line that tells of it."""
        changed = "; make changed" if self.is_changed else ""
        how = " as it is" if self.as_it_is else f", {self.lines} lines" if self.result in ("same", "ported") else ""
        detail = f"; {self.detail}" if self.detail else ""
        return f"{self.name}: {self.result}{how}, {self.seconds:.1f} s{changed}{detail}"


def last(text):
    """The last line of a text."""
    lines = [line for line in text.split("\n") if line.strip()]
    return lines[-1] if lines else ""


def table(found):
    """The table of all."""
    counts = Counter(one.result for one in found)
    taken = [one for one in found if one.result != "make fails"]
    ported = [one for one in taken if one.result != "stuck"]
    lines = sorted(one.lines for one in ported if not one.as_it_is)
    rows = [("makefiles", len(found)), ("that make takes", len(taken)),
            ("of these kati takes as they are", sum(one.as_it_is for one in taken)),
            ("of these ported, with those", len(ported)),
            ("of these with make's commands", counts["same"]),
            ("of these with make's commands changed", sum(one.is_changed for one in ported)),
            ("lines changed, in the median", lines[len(lines) // 2] if lines else 0)]
    width = max(len(words) for words, _ in rows)
    return "\n".join(f"{words:{width}}  {number}" for words, number in rows)


def chosen(folders, listed):
    """The program's folder, the makefile in it, and the name, for each makefile."""
    programs = [path for folder in folders for path in sorted(Path(folder).iterdir()) if path.is_dir()]
    by_name = {program.name: program for program in programs}
    if listed:
        names = [line for line in Path(listed).read_text(encoding="utf-8").split("\n") if line]
        return [(by_name[name.split("/")[0]], Path(*name.split("/")[1:]), name) for name in names]
    return [(program, path.relative_to(program), f"{program.name}/{path.relative_to(program)}")
            for program in programs for path in makefiles_in(program)]


def main():
    parser = argparse.ArgumentParser(prog="port_survey.py", description=__doc__,
                                     formatter_class=argparse.RawDescriptionHelpFormatter)
    parser.add_argument("--list", metavar="FILE", help="the makefiles, one a line: the program's folder, then the path")
    parser.add_argument("--only-list", action="store_true", help="print the makefiles that would be tried")
    parser.add_argument("--jobs", type=int, default=1, metavar="N", help="how many at a time; 1 without it")
    parser.add_argument("folders", nargs="+", metavar="FOLDER", help="unpacked sources, a folder for each program")
    asked = parser.parse_args()
    makefiles = chosen(asked.folders, asked.list)
    if asked.only_list:
        print("\n".join(name for _, _, name in makefiles))
        return 0
    found = []
    with ThreadPoolExecutor(asked.jobs) as pool:
        for one in pool.map(lambda three: Surveyed(*three), makefiles):
            print(one.told(), flush=True)
            found.append(one)
    print(table(found))
    return 0


if __name__ == "__main__":
    sys.exit(main())
