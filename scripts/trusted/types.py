"""The types of code that definitions speak of: where each is declared, and the types of code in its fields."""
import re
from typing import NamedTuple, Optional

TYPE = re.compile(r"^(?:pub(?:\([a-z]+\))? )?(?:struct|enum|type) (\w+)\b(.*?(?:^\}|;)$)", re.MULTILINE | re.DOTALL)
SEEN = re.compile(r"^impl\b[^{\n]* Model for (\w+)[^{\n]*\{\n(.*?)^\}", re.MULTILINE | re.DOTALL)
VALUE = re.compile(r"ghost Value = \{ (.*?) \};", re.DOTALL)
NO_FIELD = re.compile(r"//.*|#\[.*?\]$|^    [A-Z]\w*", re.MULTILINE)
NAME = re.compile(r"\b[A-Z]\w*")


class CodeType(NamedTuple):
    """A type of code: its name, its crate, its file in the crate, the names of types in its fields, and what contracts
    see it as if that isn't a record of its own fields."""
    name: str
    crate: str
    file: str
    fields: frozenset
    seen: Optional[str]


def types_in(crate, file, text):
    """The types that a module of code declares."""
    seen = {name: VALUE.search(body) for name, body in SEEN.findall(text)}
    for name, body in TYPE.findall(text):
        value = seen.get(name)
        fields = frozenset(NAME.findall(NO_FIELD.sub("", body))) - {name}
        yield CodeType(name, crate, file, fields, value[1] if value else None)


def all_types(root, crates):
    """The types of code of these crates, by their crates and names."""
    found = {}
    for crate in crates:
        source = root / "crates" / crate / "src"
        for path in sorted(source.rglob("*.rt")):
            file = path.relative_to(source).as_posix()
            found.update({(crate, one.name): one for one in types_in(crate, file, path.read_text(encoding="utf-8"))})
    return found


def named_types(known, places):
    """The types at these places among those that are known: a place's module begins with the type's crate."""
    return frozenset((module.partition(".")[0], name) for module, name in places) & frozenset(known)


def held_types(known, named):
    """The types in the fields of types, and in the fields of those in turn, without those of types that contracts see
    as something else. No two types of the product have one name."""
    by_name = {name: (crate, name) for crate, name in known}
    found, waiting = set(), [place for place in named if not known[place].seen]
    while waiting:
        fields = {by_name[name] for name in known[waiting.pop()].fields if name in by_name}
        fresh = fields - found - named
        found |= fresh
        waiting += [place for place in fresh if not known[place].seen]
    return frozenset(found)
