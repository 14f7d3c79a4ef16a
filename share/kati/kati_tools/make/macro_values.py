"""The values of macros that come from $(shell ..) and $(wildcard ..), as make has them."""
import os
import re
import shlex

from ..base import scratch
from ..makefile import above, forms, references, syntax
from .make_commands import environment
from .running import run_make
from . import in_place
from ..base.programs import Stop

ASKED = "kati_port_value_"


def names_in(text):
    """The macros in whose assignment such a function stands, each once."""
    found = {}
    for line in syntax.Makefile(text).lines:
        # The lines of a `define` may be read by `eval`.
        kind, says = syntax.statement(line.joined) if line.is_body else (line.kind, line.says)
        is_plain = kind is syntax.Kind.ASSIGNMENT and "$" not in says.name
        if is_plain and any(map(forms.refused_function, references.references(says.value))):
            found[says.name] = True
    return list(found)


def values(makefile, names, given):
    """What `make -pn` tells of these macros, where what the functions write goes elsewhere.

    A deferred macro is told unexpanded; so each is assigned, at once, to another. make prints its dollars doubled,
    as kati wants them."""
    with scratch.room("kati-port-") as room:
        more = os.path.join(room, "asked.mk")
        with open(more, "w", encoding="utf-8", errors="surrogateescape") as file:
            file.writelines(f"{ASKED}{number} := $({name})\n" for number, name in enumerate(names))
            file.write(f"{ASKED}: ;\n")

        def asked(place):
            with place.entered():
                told = run_make(["-pn", "-f", makefile, "-f", more, ASKED, *given], room,
                                environment(**place.environment()))
            # What names a copy means this folder.
            return [told[0], *map(place.real_text, told[1:])]

        status, out, said = in_place.in_place_or_copy(room, above.texts_of(makefile), asked)
    found = dict(re.findall(rf"^{ASKED}(\d+) := ?(.*)$", out, re.MULTILINE))
    if status or len(found) < len(names):
        raise Stop(f"make -pn ends with status {status} and doesn't tell the values:\n{said.strip()}")
    return {name: found[str(number)] for number, name in enumerate(names)}


def words(makefile, names, given):
    """The words for kati, quoted for a shell."""
    if not names:
        return []
    return [shlex.quote(f"{name}={value}") for name, value in values(makefile, names, given).items()]
