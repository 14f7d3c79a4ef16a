#!/usr/bin/env python3
"""Compares the commands of make's build with those of a build by kati-build.

    scripts/record_commands.py [--ask | --port] [-f FILE] TREE [GOAL|NAME=VALUE]..
    scripts/record_commands.py [--ask | --port] --list FILE [--jobs N] FOLDER

Both builds are real, and made one after the other at the same path, each in a copy of TREE. A shell in the place of the
makefile's own writes down what it is given, and hands that to the real shell. Compared are each
command's text as the shell reads it (bash prints it as the body of a function), the flags of the shell and the
environment. Inner makes and `$(shell ..)` are not recorded. MAKEFLAGS, MFLAGS, MAKELEVEL and MAKE_TERM* do not count,
nor what a shell sets by itself.

With --list, FOLDER holds unpacked programs, and FILE names one makefile a line by its path there, with comments after
`#`. A makefile counts if `make -n` accepts it. If make's build fails, both builds go on as far as they can (-k), and
their commands are compared.

  same       ninja ran make's commands; `repeated N`: some ran more often than by make
  differ     they differ; the first commands of each build alone follow
  refused    kati-build does not build the makefile, and says why
  failed     kati-build's build failed, and make's did not
  not make's `make -n` does not accept the makefile; it does not count

examples:
  scripts/record_commands.py --ask example
  scripts/record_commands.py --port -f Makefile.lib src all CC=clang
  scripts/record_commands.py --ask --list scripts/port_survey.txt --jobs 2 ~/sources

exit status:
  0   all that count are the same
  1   one is not
  3   a program that is needed is absent
  64  wrong usage
"""
from __future__ import annotations

import argparse
import shutil
import sys
import tempfile
import time
from collections import Counter
from concurrent.futures import ThreadPoolExecutor
from pathlib import Path
from typing import List, NamedTuple, Optional, Sequence

sys.dont_write_bytecode = True
sys.path.insert(0, str(Path(__file__).resolve().parent))

from recording.builds import DIFFERENT, Built, Builds, Subject, accepted, shell_of  # noqa: E402
from recording.commands import described, differences  # noqa: E402

SAME, DIFFER, ABSENT, USAGE = 0, 1, 3, 64
NAMES = ("GNUmakefile", "makefile", "Makefile")
NOT_MAKES = "not make's"


class Found(NamedTuple):
    """What came of a makefile."""

    name: str
    result: str
    detail: str
    seconds: float

    def text(self) -> str:
        """The lines about it."""
        return f"{self.name}: {self.result}{', ' if self.detail else ''}{self.detail}; {self.seconds:.1f} s"


def compared(makes: Built, ninjas: Built, most: int) -> tuple:
    """The result and its detail: what ninja's build has otherwise than make's."""
    found = differences(makes.commands, ninjas.commands)
    repeated = f", repeated {found.repeated}" if found.repeated else ""
    detail = f"{len(makes.commands)} commands{repeated}"
    if not found.by_make and not found.by_ninja:
        return "same", detail
    lines = [described(mark, one, others) for mark, some, others in (("-", found.by_make, found.by_ninja),
                                                                    ("+", found.by_ninja, found.by_make))
             for one in some[:most]]
    return "differ", "\n  ".join([f"{detail}, {len(found.by_make)} only make's, {len(found.by_ninja)} only ninja's",
                                  *lines])


def result_of(subject: Subject, room: Path, given: argparse.Namespace) -> tuple:
    """Builds a makefile both ways; the result and its detail."""
    answer = accepted(subject, room)
    if answer.status:
        return NOT_MAKES, answer.last()
    builds = Builds(subject, room, given.shell or shell_of(answer.said), given.build_jobs)
    makes, flags = builds.by_make(), ()
    if makes.ran.status:
        makes, flags = builds.by_make("-k"), ("-k", "0")
    ninjas = builds.by_ninja(given.mode, *flags)
    if ninjas.ran.status not in (0, DIFFERENT) and not ninjas.commands and makes.commands:
        return "refused", ninjas.ran.last()
    if ninjas.ran.status not in (0, DIFFERENT) and not makes.ran.status:
        return "failed", ninjas.ran.last()
    result, detail = compared(makes, ninjas, given.most)
    return result, f"make's build fails, {detail}" if flags else detail


def found(subject: Subject, name: str, given: argparse.Namespace) -> Found:
    """What came of one makefile."""
    start = time.monotonic()
    with tempfile.TemporaryDirectory(prefix="kati-record-") as room:
        result, detail = result_of(subject, Path(room).resolve(), given)
    return Found(name, result, detail, time.monotonic() - start)


def listed(given: argparse.Namespace) -> List[Subject]:
    """The makefiles of --list."""
    top, lines = given.tree, Path(given.list).read_text(encoding="utf-8").split("\n")
    names = [name for line in lines for name in line.split("#")[0].split()]
    return [Subject(top / name.split("/")[0], Path(*name.split("/")[1:-1]), name.split("/")[-1]) for name in names]


def single(given: argparse.Namespace) -> Subject:
    """The makefile of a tree."""
    tree = given.tree.resolve()
    makefile = given.makefile or next((name for name in NAMES if (tree / name).exists()), "Makefile")
    return Subject(tree, Path("."), makefile, tuple(given.words))


def table(all_found: Sequence[Found]) -> str:
    """How many makefiles came to what."""
    counts = Counter(one.result for one in all_found)
    counted = len(all_found) - counts[NOT_MAKES]
    rows = [("makefiles", len(all_found)), ("that count", counted),
            *((name, counts[name]) for name in ("same", "differ", "refused", "failed"))]
    return "\n".join(f"{name:12} {number}" for name, number in rows)


def survey(given: argparse.Namespace) -> int:
    """Compares each makefile of a list."""
    subjects = [(one, str(one.program.name / one.folder / one.makefile)) for one in listed(given)]
    with ThreadPoolExecutor(given.jobs) as pool:
        all_found = []
        for one in pool.map(lambda pair: found(*pair, given), [pair for pair in subjects if pair[0].program.is_dir()]):
            print(one.text(), flush=True)
            all_found.append(one)
    absent = [name for subject, name in subjects if not subject.program.is_dir()]
    print(table(all_found) + (f"\nabsent: {' '.join(absent)}" if absent else ""))
    return SAME if all(one.result in ("same", NOT_MAKES) for one in all_found) else DIFFER


def options() -> argparse.ArgumentParser:
    """The command line."""
    parser = argparse.ArgumentParser(description=__doc__, formatter_class=argparse.RawDescriptionHelpFormatter)
    mode = parser.add_mutually_exclusive_group()
    for name in ("--port", "--ask"):
        mode.add_argument(name, dest="mode", action="store_const", const=name, help=f"builds by kati-build {name}")
    parser.set_defaults(mode="--port")
    parser.add_argument("-f", dest="makefile", metavar="FILE", help="the makefile")
    parser.add_argument("--list", metavar="FILE", help="the makefiles, one a line")
    parser.add_argument("--jobs", type=int, default=1, metavar="N", help="makefiles at a time")
    parser.add_argument("--build-jobs", type=int, default=2, metavar="N", help="jobs of each build; 2 without it")
    parser.add_argument("--shell", help="the real shell; that of the makefile without it")
    parser.add_argument("--most", type=int, default=3, metavar="N", help="commands shown of each build")
    parser.add_argument("tree", metavar="TREE|FOLDER", type=Path, help="a folder with a makefile, or one of programs")
    parser.add_argument("words", nargs="*", metavar="GOAL|NAME=VALUE", help="for make and kati-build alike")
    return parser


def main(argv: Optional[Sequence[str]] = None) -> int:
    try:
        given = options().parse_args(argv)
    except SystemExit as ended:
        return USAGE if ended.code else 0
    for name in ("make", "ninja", "bash"):
        if not shutil.which(name):
            print(f"record_commands.py: {name} is not on the PATH", file=sys.stderr)
            return ABSENT
    if not given.tree.is_dir():
        print(f"record_commands.py: no folder {given.tree}", file=sys.stderr)
        return USAGE
    if given.list:
        return survey(given)
    one = found(single(given), given.tree.name or ".", given)
    print(one.text())
    return SAME if one.result == "same" else DIFFER


if __name__ == "__main__":
    sys.exit(main())
