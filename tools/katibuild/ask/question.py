"""What GNU make is asked: a folder, a makefile, goals, variables and an environment."""
from __future__ import annotations

import os
import re
import shutil
from dataclasses import dataclass
from typing import Mapping, Optional, Tuple

from ..base.message import Stop

MAKEFILES = ("GNUmakefile", "makefile", "Makefile")   # GNU make manual, "What Name to Give Your Makefile"
MAKE_OWN = ("MAKEFLAGS", "MFLAGS", "MAKELEVEL", "MAKEFILES", "GNUMAKEFLAGS", "MAKE_RESTARTS", "MAKEOVERRIDES")
CALL = re.compile(r"(?:^|[\s;&|(`'\"])(?:\S*/)?g?make(?:[\s;&|)`'\"]|$)")


@dataclass(frozen=True)
class Question:
    """`makefile` and `goals` are None and empty where the user named none; `environment` is without make's own."""

    folder: str
    makefile: Optional[str]
    goals: Tuple[str, ...]
    variables: Tuple[str, ...]
    environment: Mapping[str, str]
    make: str = "make"          # the program make, absolute, or a name that PATH leads to


def environment_of(environ: Mapping[str, str]) -> Mapping[str, str]:
    """The environment without the variables by which a make controls its inner makes."""
    return {name: value for name, value in environ.items() if name not in MAKE_OWN}


def makefile_in(folder: str) -> str:
    """The makefile that make reads if none is named; stops with status 2 if there is none."""
    for name in MAKEFILES:
        if os.path.lexists(os.path.join(folder, name)):
            return name
    raise Stop("no makefile found", help="run kati-build in a folder with a makefile, or name it by -f FILE")


def makefile_of(question: Question) -> str:
    """The makefile that the question is about."""
    return question.makefile or makefile_in(question.folder)


def program(question: Question) -> str:
    """make as the user would call it: `make` if the PATH leads to it, so that `$(MAKE)` has the same text."""
    name = os.path.basename(question.make)
    found = shutil.which(name, path=question.environment.get("PATH", os.defpath))
    return name if found and question.make in (name, os.path.abspath(found)) else question.make


def runs_make(text: str) -> bool:
    """Whether a line of a recipe calls make."""
    return "make" in text and bool(CALL.search(text))


def arguments(question: Question) -> Tuple[str, ...]:
    """The command-line variables and the goals, as make takes them."""
    return (*question.variables, *question.goals)


def make_environment(question: Question) -> Mapping[str, str]:
    """The environment in which make runs: make's messages are English, since the tools read them.

    LANGUAGE changes messages alone. LC_ALL would change the order of `$(wildcard)`, too.
    """
    given = question.environment
    locale = given.get("LC_ALL") or given.get("LC_MESSAGES") or given.get("LANG") or "C"
    if "LANGUAGE" not in given and locale.partition(".")[0] in ("C", "POSIX"):
        return given
    return {**given, "LANGUAGE": "C"}
