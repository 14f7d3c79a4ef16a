"""Variables of the environment, shell calls and git commands that make's answer depends on."""
from __future__ import annotations

import re
import subprocess
from typing import Dict, Iterable, Iterator, List, Mapping, NamedTuple, Optional, Tuple

from ..ask.question import MAKE_OWN
from ..base import files

# Variables that make and shells set themselves, or that name the terminal and the working folder.
OWN = frozenset((*MAKE_OWN, "MAKE", "MAKECMDGOALS", "MAKEFILE_LIST", "CURDIR", "PWD", "OLDPWD", "SHLVL", "SHELL", "_",
                 "TERM", "COLUMNS", "LINES", "MAKE_TERMOUT", "MAKE_TERMERR", "LANGUAGE", "NINJA_STATUS", "KATI",
                 "KATI_ASKED", "KATI_JOBS"))
# The variables of make's built-in rules (GNU make manual, "Variables Used by Implicit Rules").
BUILT_IN = ("AR", "ARFLAGS", "AS", "ASFLAGS", "CC", "CFLAGS", "CPP", "CPPFLAGS", "CXX", "CXXFLAGS", "FC", "FFLAGS",
            "LDFLAGS", "LDLIBS", "LEX", "LFLAGS", "LOADLIBES", "M2C", "PC", "PFLAGS", "RFLAGS", "RM", "TARGET_ARCH",
            "YACC", "YFLAGS")
WORD = re.compile(r"[A-Za-z_]\w*")
REFERENCE = re.compile(r"\$[({]([A-Za-z_]\w*)[)}:]")
GIT = re.compile(r"(?:^|[\s;&|(`])git\s+(?:-C\s+\S+\s+|--\S+\s+|-c\s+\S+\s+)*([a-z][a-z-]*)")
READ_ONLY = frozenset(("branch", "cat-file", "config", "describe", "diff", "diff-files", "diff-index", "for-each-ref",
                       "log", "ls-files", "ls-tree", "merge-base", "name-rev", "remote", "rev-list", "rev-parse",
                       "shortlog", "show", "show-ref", "status", "symbolic-ref", "tag", "version"))
CALL = re.compile(r"\$[({]shell\s+")
ASSIGNED = re.compile(r"(?m)^\s*[\w.-]+\s*!=\s*(.+)$")
MAKE_REFERENCE = re.compile(r"\$(?:(\$)|\(([\w.-]+)\)|\{([\w.-]+)\}|([\w@<^]))")
CONTINUED = re.compile(r"\\\n[ \t]*")
CLOSING = (("(", ")"), ("{", "}"))
WILDCARD = re.compile(r"(?m)^(?!\t).*\$[({]wildcard\s+((?:[^(){}]|\$[({][^(){}]*[)}])*)[)}]")
DEEPEST, LONGEST = 9, 10_000
PATIENCE = 60   # seconds that a git command may take


def named(texts: Iterable[str], variables: Iterable[str], environ: Mapping[str, str],
          has_calls: bool) -> Dict[str, Optional[str]]:
    """The variables that texts of makefiles and calls name, or that the makefile gives a value: None where unset.

    A program that `$(shell ..)` runs is found by PATH.
    """
    words, references = set(), set()
    for text in texts:
        words.update(WORD.findall(text))
        references.update(REFERENCE.findall(text))
    known = references.union(variables, BUILT_IN) if variables else references
    found = {name for name in words if name in environ} | {name for name in known & words if WORD.fullmatch(name)}
    found.update(BUILT_IN)
    if has_calls:
        found.add("PATH")
    return {name: environ.get(name) for name in sorted(found - OWN)}


def is_git(text: str) -> bool:
    """Whether a shell text runs git, and only to read."""
    found = GIT.findall(text)
    return bool(found) and all(one in READ_ONLY for one in found)


def printed(text: str) -> str:
    """The hash of what a shell text prints in the working folder, and of its status."""
    try:
        ran = subprocess.run(["/bin/sh", "-c", text], stdin=subprocess.DEVNULL, stdout=subprocess.PIPE,
                             stderr=subprocess.DEVNULL, timeout=PATIENCE, check=False)
    except (OSError, subprocess.TimeoutExpired):
        return ""
    return files.digest(ran.stdout + b"\0%d" % ran.returncode)


def unseen(calls: Iterable[str]) -> List[str]:
    """What nobody can see to have changed, for `--why`: calls whose results depend on more than files."""
    found = []
    for text in dict.fromkeys(calls):
        if re.search(r"(?:^|[\s;&|(`])(?:date|uname|hostname|id|whoami|nproc|curl|wget|getconf)\b", text):
            found.append(f"`{text}` asks the clock, the network or the system")
        elif re.search(r"(?:^|[\s;&|(`])\S+\s+(?:--version|-v|-dumpversion|-dumpmachine|-V)\b", text):
            found.append(f"`{text}` prints a version")
    return found


def restored(environ: Mapping[str, str], recorded: Mapping[str, Optional[str]]) -> Dict[str, str]:
    """The environment in which the variables of a record have their recorded values."""
    found = {name: value for name, value in environ.items() if recorded.get(name, value) is not None}
    found.update({name: value for name, value in recorded.items() if value is not None})
    return found


# -- the calls of makefiles --------------------------------------------------------------------------------------------

# make records the calls that recipes make. Those of makefiles run before the recorder is in force, so that their texts
# are looked for. A call that is missed here is still seen by the files that it opens.

class Calls(NamedTuple):
    """Shell texts that are known in full, and those with references that only make expands."""

    known: Tuple[str, ...]
    other: Tuple[str, ...]


def calls(texts: Iterable[str], variables: Mapping[str, str]) -> Calls:
    """The shell texts in makefiles, each once."""
    raw = dict.fromkeys(one for text in texts for one in raw_calls(CONTINUED.sub(" ", text)))
    found = {one: expanded(one, variables) for one in raw}
    return Calls(tuple(dict.fromkeys(text for text in found.values() if text is not None)),
                 tuple(one for one, text in found.items() if text is None))


def raw_calls(text: str) -> Iterator[str]:
    """The texts before they are expanded."""
    for one in CALL.finditer(text):
        end = end_of(text, one.end(), text[one.start() + 1])
        if end is not None:
            yield text[one.end():end]
    yield from ASSIGNED.findall(text)


def end_of(text: str, start: int, opening: str) -> Optional[int]:
    """Where the bracket closes that is open at `start`, within a call's usual length."""
    closing, depth = dict(CLOSING)[opening], 1
    for at in range(start, min(len(text), start + LONGEST)):
        depth += (text[at] == opening) - (text[at] == closing)
        if not depth:
            return at
    return None


def expanded(text: str, variables: Mapping[str, str], depth: int = 0) -> Optional[str]:
    """The text with its plain references expanded; None if a function or an unknown variable is in it."""
    parts, at = [], 0
    for found in MAKE_REFERENCE.finditer(text):
        if "$" in text[at:found.start()] or depth > DEEPEST:
            return None
        value = "$" if found.group(1) else value_of(found.group(2) or found.group(3), variables, depth)
        if value is None:
            return None
        parts += [text[at:found.start()], value]
        at = found.end()
    return None if "$" in text[at:] else "".join([*parts, text[at:]])


def value_of(name: Optional[str], variables: Mapping[str, str], depth: int) -> Optional[str]:
    """A variable's value, expanded; None if that is unknown."""
    value = variables.get(name) if name else None
    return None if value is None else expanded(value, variables, depth + 1)


def wildcards(texts: Iterable[str], variables: Mapping[str, str]) -> Tuple[str, ...]:
    """The words of `$(wildcard ..)` outside of recipes, as far as plain variables give them."""
    raw = dict.fromkeys(one for text in texts for one in WILDCARD.findall(CONTINUED.sub(" ", text)))
    words = (word for one in raw for word in (expanded(one, variables) or "").split())
    return tuple(dict.fromkeys(words))
