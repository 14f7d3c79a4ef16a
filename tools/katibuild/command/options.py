"""The options of kati-build, in one table."""
from __future__ import annotations

import argparse
import difflib
import re
from typing import List, NamedTuple, NoReturn, Optional, Sequence, Tuple

from ..base.message import Status, Stop

VARIABLE = re.compile(r"[^\s:=+?!]+\s*(?:[+?!]|:{1,3})?=")


class Settings(NamedTuple):
    """What the command line says; one field for each option."""

    goals: Tuple[str, ...] = ()
    variables: Tuple[str, ...] = ()
    ninja_arguments: Tuple[str, ...] = ()
    makefile: Optional[str] = None
    jobs: Optional[int] = None
    is_ask: bool = False
    by_ninja: Optional[str] = None            # the folder of the record
    is_without_ninja: bool = False
    is_why: bool = False
    is_remove: bool = False
    is_anew: bool = False
    is_forced: bool = False
    is_debug: bool = False


class Option(NamedTuple):
    """An option: its name, the field of Settings, what its argument is called, and what it does."""

    name: str
    field: str
    argument: str
    help: str


TABLE = (
    Option("-f", "makefile", "FILE", "reads FILE in place of GNUmakefile, makefile or Makefile"),
    Option("-j", "jobs", "N", "runs up to N commands at once"),
    Option("--ask", "is_ask", "", "reads the graph from GNU make"),
    Option("--why", "is_why", "", "lists what the build depends on, and runs nothing"),
    Option("--anew", "is_anew", "", "rebuilds everything but sources"),
    Option("--force", "is_forced", "", "builds although Ninja would build something else than make"),
    Option("--remove", "is_remove", "", "deletes what kati-build has written"),
    Option("--no-ninja", "is_without_ninja", "", "writes build.ninja and runs no ninja"),
    Option("--debug", "is_debug", "", "keeps the scratch folder and prints its name"),
    Option("--by-ninja", "by_ninja", "FOLDER", "is how build.ninja starts kati-build"),
)


class Parser(argparse.ArgumentParser):
    """Ends with status 64 and a suggestion, where argparse would end with 2."""

    def error(self, message: str) -> NoReturn:
        found = re.search(r"unrecognized arguments: (-\S*)", message)
        near = difflib.get_close_matches(found.group(1), [one.name for one in TABLE], 1) if found else []
        text = f"unknown option {found.group(1)}" if found else message
        raise Stop(text, Status.USAGE, help=f"did you mean {near[0]}?" if near else "kati-build --help lists them")


def parser() -> Parser:
    """The parser of the table."""
    made = Parser(prog="kati-build", allow_abbrev=False, add_help=False)
    for one in TABLE:
        if one.argument:
            made.add_argument(one.name, dest=one.field, metavar=one.argument,
                              type=int if one.field == "jobs" else str)
        else:
            made.add_argument(one.name, dest=one.field, action="store_true")
    made.add_argument("words", nargs="*")
    return made


def parse(argv: Sequence[str]) -> Settings:
    """The settings of a command line; stops with status 64 if it has no meaning."""
    own, after = divided(argv)
    given = vars(parser().parse_intermixed_args(own))
    words = given.pop("words")
    if given["jobs"] is not None and given["jobs"] < 1:
        raise Stop(f"-j{given['jobs']}: ninja needs at least one job", Status.USAGE)
    return Settings(goals=tuple(one for one in words if not VARIABLE.match(one)),
                    variables=tuple(one for one in words if VARIABLE.match(one)), ninja_arguments=tuple(after), **given)


def divided(argv: Sequence[str]) -> Tuple[List[str], List[str]]:
    """The arguments before and after `--`; those after it are ninja's."""
    given = list(argv)
    at = given.index("--") if "--" in given else len(given)
    return given[:at], given[at + 1:]
