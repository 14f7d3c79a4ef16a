"""The definitions of specs/: what each module of definitions declares and imports, read from its text."""
import re
from typing import Dict, FrozenSet, NamedTuple, Tuple

HEAD = re.compile(r"(?:(?:unfoldable|abbrev|opaque|pub) )*(?:(record|data) )?([^\s:({]+)(?=[ :]|$)")
IMPORT = re.compile(r"(?:(?:ghost|unfoldable|pub) )*use Rattle\.(\S+?)(?:\.\{(.*)\}| as (\S+))?;?")
PASSED_OVER = re.compile(r"(?:(?:ghost|unfoldable|pub) )*(?:use|mod|infix[lr]?) ")
MUTUAL = re.compile(r"(?:unfoldable )?mutual")
BETWEEN = re.compile(r"\s*(?:--.*|infix.*|(?:unfoldable )?mutual)?")
VARIANT = re.compile(r"([^\s:({]+) : ")


class Definition(NamedTuple):
    """A definition: its module, its name, the number of its first line, its comment, its lines, and its variants."""
    module: str
    name: str
    line: int
    comment: str
    lines: Tuple[str, ...]
    variants: FrozenSet[str]


class Module(NamedTuple):
    """A module of definitions: its comment, its definitions by name, and what it imports: by the name here, the module
    and the name there."""
    name: str
    comment: str
    definitions: Dict[str, Definition]
    imports: Dict[str, Tuple[str, str]]

    def owner(self, name):
        """The definition that makes this name, as its own or as that of a variant; none if it comes from elsewhere."""
        if name in self.definitions:
            return self.definitions[name]
        return next((one for one in self.definitions.values() if name in one.variants), None)


def imports_of(lines):
    """What these lines import. A module that is imported whole has the name `*`, and a dot after its name here."""
    found = {}
    for line in lines:
        match = IMPORT.fullmatch(line.strip())
        if match and match[2] is not None:
            pairs = [name.strip().split(" as ") for name in match[2].split(", ")]
            found.update({pair[-1]: (match[1], pair[0]) for pair in pairs})
        elif match:
            found[(match[3] or match[1].rpartition(".")[2]) + "."] = (match[1], "*")
    return found


def declared_by(line, in_mutual):
    """The kind and name of what a line begins to declare; none if it begins nothing."""
    inner = line[2:] if in_mutual and line.startswith("  pub ") else line
    if not inner or inner.startswith((" ", "--", "}")) or PASSED_OVER.match(inner) or MUTUAL.fullmatch(inner):
        return None
    match = HEAD.match(inner)
    if not match:
        return None
    is_marked = match[1] or inner.startswith(("unfoldable ", "abbrev ", "opaque ", "pub "))
    return match.groups() if is_marked or inner.startswith(match[2] + " : ") else None


def declarations(lines):
    """The declarations of a module in order: the place of the first line, the kind and the name."""
    found, in_mutual = [], False
    for place, line in enumerate(lines):
        if line and not line.startswith((" ", "--")):
            in_mutual = bool(MUTUAL.fullmatch(line))
        declared = declared_by(line, in_mutual)
        if declared:
            found.append((place, *declared))
    return found


def comment_above(lines, place):
    """The comment directly above a line; a fixity, and the line that begins a block of definitions, may be between."""
    end = place
    while end and (lines[end - 1].startswith("infix") or MUTUAL.fullmatch(lines[end - 1])):
        end -= 1
    first = end
    while first and lines[first - 1].lstrip().startswith("--"):
        first -= 1
    return " ".join(line.lstrip()[2:].strip() for line in lines[first:end])


def body_of(lines, first, end):
    """The lines of a declaration, without what comes between it and the next."""
    while end > first + 1 and BETWEEN.fullmatch(lines[end - 1]):
        end -= 1
    return tuple(lines[first:end])


def variants_of(kind, body):
    """The variants of a data type."""
    matches = (VARIANT.match(line.strip()) for line in body[1:]) if kind == "data" else ()
    return frozenset(match[1] for match in matches if match)


def module_of(name, text):
    """A module by its text."""
    lines, found = text.splitlines(), {}
    begun = declarations(lines)
    ends = [place for place, _, _ in begun[1:]] + [len(lines)]
    for (place, kind, declared), end in zip(begun, ends):
        body = body_of(lines, place, end)
        comment = comment_above(lines, place)
        found[declared] = Definition(name, declared, place + 1, comment, body, variants_of(kind, body))
    count = next((at for at, line in enumerate(lines) if not line.startswith("--")), len(lines))
    return Module(name, comment_above(lines, count), found, imports_of(lines))


def modules_of(root):
    """The modules of the definitions of all crates, by their names."""
    crates, found = root / "crates", {}
    for path in sorted(crates.glob("*/specs/**/*.antt")):
        name = ".".join(path.relative_to(crates).with_suffix("").parts)
        found[name] = module_of(name, path.read_text(encoding="utf-8"))
    return found
