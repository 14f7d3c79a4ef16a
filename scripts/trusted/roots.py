"""Where the list of trusted definitions begins: the contracts of the programs on the host, and what they see of it."""
import re
from typing import FrozenSet, NamedTuple, Tuple

from trusted.closure import names_in, origin
from trusted.definitions import imports_of

CONTRACT, GHOST = "contract", "ghost member"
ROOTS = (("kati_program/src/main.rt", CONTRACT, "kati_on_host"), ("kati_asked/src/main.rt", CONTRACT, "asked_on_host"),
         ("kati_host/src/files.rt", GHOST, "seen"), ("kati_host/src/output.rt", GHOST, "seen"),
         ("kati_host/src/words.rt", CONTRACT, "refuse"))


class Root(NamedTuple):
    """A contract or ghost member: what it is, its name, its file below crates/, and the modules and names that its
    text has."""
    kind: str
    name: str
    file: str
    places: FrozenSet[Tuple[str, str]]


def contract_of(text, name):
    """The clauses of a function, or an empty text if there is no such function."""
    match = re.search(rf"^( *)(?:pub )?fn {name}\b(.*?)^\1{{$", text, re.MULTILINE | re.DOTALL)
    clauses = re.search(r"^ *(?:requires|ensures)\b.*", match[2], re.MULTILINE | re.DOTALL) if match else None
    return clauses.group(0) if clauses else ""


def ghost_of(text, name):
    """The text of a ghost member, or an empty text if there is none."""
    match = re.search(rf"^ *ghost {name} = (\{{.*?\}});$", text, re.MULTILINE | re.DOTALL)
    return match[1] if match else ""


def roots_of(root, modules):
    """The contracts and ghost members, each with what its text names."""
    for file, kind, name in ROOTS:
        path = root / "crates" / file
        text = path.read_text(encoding="utf-8") if path.is_file() else ""
        clauses = contract_of(text, name) if kind == CONTRACT else ghost_of(text, name)
        imports = imports_of(text.splitlines())
        places = {origin(modules, *imports[known]) for known in names_in(clauses, imports)}
        yield Root(kind, name, file, frozenset(places))
