"""Commands of a build as their shell reads them, and how two builds differ."""
from __future__ import annotations

import os
import re
import subprocess
from collections import Counter
from typing import List, NamedTuple, Sequence, Tuple

from .shell import MARK, Given

# What make, a shell or a recording sets by itself.
OWN = {"MAKEFLAGS", "MFLAGS", "MAKELEVEL", "MAKE_TERMOUT", "MAKE_TERMERR", "MAKEOVERRIDES", "SHLVL", "_", "OLDPWD",
       MARK}
PRINTED = re.compile(r""""\$\(printf %b '([^']*)'\)\"""")
# bash prints each text that it is given as the body of a function: comments, blanks and line breaks no longer differ.
READER = """\
while IFS= read -r -d '' text; do
    if eval "kati_read() {
$text
}" 2> /dev/null; then declare -f kati_read; else printf %s "$text"; fi
    printf '\\0'
done
"""


class Command(NamedTuple):
    """A command: its flags, its text as the shell reads it, and the environment, as sorted lines."""

    flags: str
    text: str
    environment: Tuple[str, ...]


class Differences(NamedTuple):
    """Commands of one build alone, and how often a command of both ran more often by ninja."""

    by_make: Tuple[Command, ...]
    by_ninja: Tuple[Command, ...]
    repeated: int


def printed(found: "re.Match[str]") -> str:
    """What a shell prints for `"$(printf %b '..')"`, within single quotes."""
    told = subprocess.run(["/bin/sh", "-c", "printf '%b.' \"$1\"", "sh", found.group(1)], stdout=subprocess.PIPE,
                          check=True).stdout
    return "'" + os.fsdecode(told)[:-1] + "'"


def as_read(texts: Sequence[str]) -> List[str]:
    """Each text as bash prints it once it has read it."""
    given = b"".join(os.fsencode(PRINTED.sub(printed, text)) + b"\0" for text in texts)
    ran = subprocess.run(["bash", "-c", READER], input=given, stdout=subprocess.PIPE, check=True)
    # what bash cannot read has no continued lines, at least
    return [one.replace("\\\n", "") for one in os.fsdecode(ran.stdout).split("\0")[:-1]]


def commands(given: Sequence[Given]) -> List[Command]:
    """The commands of a build, ready to be compared."""
    return [Command(one.flags, text, tuple(line for line in one.environment if line.split("=", 1)[0] not in OWN))
            for one, text in zip(given, as_read([one.text for one in given]))]


def differences(makes: Sequence[Command], ninjas: Sequence[Command]) -> Differences:
    """How ninja's build differs from make's."""
    by_make, by_ninja = Counter(makes), Counter(ninjas)
    more = sum(count - by_make[one] for one, count in by_ninja.items() if 0 < by_make[one] < count)
    alone = [tuple(one for one in first.elements() if one not in second)
             for first, second in ((by_make, by_ninja), (by_ninja, by_make))]
    return Differences(alone[0], alone[1], more)


def described(mark: str, command: Command, others: Sequence[Command]) -> str:
    """The line for a command of one build alone: what it has that the other build's command of this text has not."""
    alike = [one for one in others if one.text == command.text]
    text = re.sub(r"^kati_read \(\) *\n\{ *\n|\n\}\n?$", "", command.text).strip()
    if not alike:
        return f"{mark} {text!r}"
    if alike[0].flags != command.flags:
        return f"{mark} flags {command.flags}: {text!r}"
    own = sorted(set(command.environment) - set(alike[0].environment))
    return f"{mark} {' '.join(own) or 'nothing more'}: {text!r}"
