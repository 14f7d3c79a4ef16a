"""The lines that the recorder wrote down, and when it has to write all of them down."""
from __future__ import annotations

import os
import re
from typing import Dict, FrozenSet, Iterable, List, Mapping, NamedTuple, Set, Tuple

from ..base.files import text_of
from ..base.message import Status, Stop
from .answer import Environment, Line
from .database import Database
from .heads import naming
from .question import runs_make
from .recorder import CALL, END, ENVIRONMENT, SEPARATOR, TARGET, Recorder

# Variables that make or the shell sets by itself.
OWN = frozenset({"MAKEFLAGS", "MFLAGS", "MAKELEVEL", "MAKE_TERMOUT", "MAKE_TERMERR", "MAKEOVERRIDES", "MAKE_RESTARTS",
                 "SHLVL", "_", "OLDPWD", TARGET})
INNER = ("MAKEFLAGS", "MFLAGS", "MAKELEVEL")
TAKES_ARGUMENT = "CfIjloOW"   # letters of make's options that have an argument
EXPORT = re.compile(r"(?m):(?:[^\n:=]*\s)?export\s+(?:(?:override|private|define)\s+)*([^\s:=+?!]+)")
AUTOMATIC = re.compile(r"(?<!\$)(?:\$\$)*\$[({]?[@<^+?*|%]")
INFO = re.compile(r"\$[({]info\b")


class Recorded(NamedTuple):
    """What the recorder wrote down in one run of make."""

    lines: Tuple[Line, ...]
    usual: Line                                  # a line without text: the makefile's shell and environment
    inner: Environment                           # MAKEFLAGS and the like, as inner makes get them
    names: FrozenSet[str]                        # of variables in the usual environment
    calls: Tuple[str, ...]                       # texts of `$(shell ..)`


def parse(data: bytes, environment: Mapping[str, str], recorder: Recorder) -> Recorded:
    """The lines and calls in make's order; stops with status 70 if the file has no environment."""
    lines: List[Line] = []
    calls: List[str] = []
    differing: Dict[bytes, Environment] = {}
    usual, inner, names = None, (), frozenset()
    for one in data.split(END)[:-1]:
        if one.startswith(CALL):
            calls.append(recorder.real_text(argument_texts(one[len(CALL):])[-1]))
            continue
        given, _, variables = one.partition(SEPARATOR)
        target, rest = without_target(variables)
        if rest not in differing:
            differing[rest] = differences(rest, environment, recorder)
        *shell, text = (recorder.real_text(word) for word in argument_texts(given))
        if text.strip() != ENVIRONMENT:
            lines.append(Line(recorder.real_text(target), text, tuple(shell), differing[rest]))
            continue
        has = variables_of(rest)
        usual, names = Line(target, "", tuple(shell), differing[rest]), frozenset(has)
        inner = tuple((name, has.get(name, "").rstrip()) for name in INNER)
    if usual is None:
        raise Stop("make did not run the recorder", Status.INTERNAL,
                   help="kati-build --debug keeps the scratch folder")
    return Recorded(tuple(lines), usual, inner, names, tuple(calls))


def argument_texts(data: bytes) -> List[str]:
    """The shell, its flags and the text. The first word is the interpreter of the recorder's script."""
    words = [text_of(word) for word in data.split(SEPARATOR)[0].split(b"\0")[:-1]]
    return words[1:]


def without_target(data: bytes) -> Tuple[str, bytes]:
    """The target that the environment names, and the other variables."""
    mark = os.fsencode(TARGET) + b"="
    pairs = data.split(b"\0")
    target = next((text_of(one[len(mark):]) for one in pairs if one.startswith(mark)), "")
    return target, b"\0".join(one for one in pairs if not one.startswith(mark))


def variables_of(data: bytes) -> Dict[str, str]:
    """An environment as the kernel has it."""
    return dict(one.split("=", 1) for one in text_of(data).split("\0") if "=" in one)


def differences(data: bytes, environment: Mapping[str, str], recorder: Recorder) -> Environment:
    """What differs from the environment that make was given: (name, value), None where a variable is unset."""
    has = variables_of(data)
    changed = {name: recorder.real_text(value) for name, value in has.items()
               if name not in OWN and environment.get(name) != value}
    gone = {name: None for name in environment if name not in has and name not in OWN}
    return tuple(sorted({**changed, **gone}.items()))


def letters_of(inner: Environment) -> str:
    """The one-letter options in MAKEFLAGS. Its first word has them without `-`, if it has any."""
    letters = ""
    for number, word in enumerate((dict(inner).get("MAKEFLAGS") or "").split()):
        if word == "--" or "=" in word:
            break
        if not number and not word.startswith("-"):
            letters += word
        elif word[:1] == "-" and word[1:2] != "-" and word[1:2] not in TAKES_ARGUMENT:
            letters += word[1:]
        letters += {"--silent": "s", "--quiet": "s", "--ignore-errors": "i"}.get(word, "")
    return letters


def with_inner(lines: List[Line], inner: Environment) -> List[Line]:
    """The lines with MAKEFLAGS and the like in their environment, where they have a value or the recipe runs make."""
    is_given = any(value and name == "MAKEFLAGS" for name, value in inner)
    calling = (line.target for line in lines if runs_make(line.text))
    callers = frozenset(calling if not is_given else ())
    return [line._replace(environment=tuple(sorted({**dict(line.environment), **dict(inner)}.items())))
            if is_given or line.target in callers else line for line in lines]


# -- when printed lines do not say enough ------------------------------------------------------------------------------

def reason(found: Database, names: FrozenSet[str], makefiles: Iterable[str]) -> str:
    """Why each line's environment has to be written down, or ''. `makefiles` are the texts of the makefiles."""
    own = {one.name for one in found.of_targets}
    if own & {"SHELL", ".SHELLFLAGS"}:
        return "a target has a shell of its own"
    if own & names - OWN:
        return "a target's variable is exported"
    for text in makefiles if own else ():
        if any("$" in name or name in own for name in EXPORT.findall(text)):
            return "a target exports a variable"
    if depends_on_target(found, names - OWN, own):
        return "an exported variable depends on the target"
    deferred = (one.value for one in (*found.variables.values(), *found.of_targets)
                if one.is_deferred and "info" in one.value)
    recipes = (line for rules in found.rules.values() for rule in rules for line in rule.recipe if "info" in line)
    if any(INFO.search(text) for some in (deferred, recipes) for text in some):
        return "$(info) prints among the lines"
    return ""


def depends_on_target(found: Database, exported: Iterable[str], own: Set[str]) -> bool:
    """Whether an exported deferred variable uses `$@` or a variable of a target, through others too."""
    values = {name: one.value for name, one in found.variables.items()
              if one.is_deferred and "$" in one.value and not name.startswith("KATI_")}
    using = [name for name, value in values.items() if AUTOMATIC.search(value)]
    return not naming(values, [*own, *using]).isdisjoint(exported)
