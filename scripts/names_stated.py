"""Names with two meanings in definitions and types, for scripts/check_docs.py: two definitions or two types of one
name, and a type and a definition of one name that are not one thing."""
import re
from collections import defaultdict

HELPERS = re.compile(r"k\w+_(?:tests|doubles)|kt_testing|kati_cases")
PASSED = re.compile(r"(?:pub |unfoldable )*(?:use|mod|module)\b")
DEFINED = re.compile(r"((?:(?:unfoldable|abbrev|opaque|pub) )*)(record |data )?([^\s:({]+)(\s*:)?")
TYPE = re.compile(r"^(?:pub(?:\([a-z]+\))? )?(?:struct|enum|union|trait|type) (\w+)", re.MULTILINE)
TYPE_ALIAS = re.compile(r"^(?:pub(?:\([a-z]+\))? )?type (\w+)", re.MULTILINE)
SEEN = re.compile(r"^impl\b[^{]*? Model for (\w+)[^{]*\{.*?ghost Value = \{ ([^}]*) \}", re.MULTILINE | re.DOTALL)
FIELDS = re.compile(r"^(?:pub )?record (\w+) : .*\n((?:  .*\n?)+)", re.MULTILINE)
MEMBERS = re.compile(r"^(?:pub(?:\([a-z]+\))? )?struct (\w+)[^{;(]*\{\n((?:    .*\n?)+)", re.MULTILINE)
SHORT = re.compile(r"^(\w+) = ([^=\n]+)$", re.MULTILINE)
DECLARED = re.compile(r"^(?:pub )?use Rattle\.(\w+)\.specs\.declared\.[\w.]*?(\w+)\.\{\2 as \w+\}", re.MULTILINE)
HELD = re.compile(r"\b([A-Z]\w*) as Held\1\b")


def names_of(text):
    """The names that a module of definitions defines, each once."""
    found, is_mutual = set(), False
    for line in text.splitlines():
        if line.startswith("unfoldable mutual") or line.startswith("mutual"):
            is_mutual = True
        elif line and not line.startswith((" ", "--")):
            is_mutual = False
        inner = line[2:] if is_mutual and line.startswith("  pub ") else line
        match = None if not inner or inner.startswith((" ", "--")) or PASSED.match(inner) else DEFINED.match(inner)
        if match and match[3] != "mutual" and (match[1] or match[2] or match[4]):
            found.add(match[3])
    return found


def files_of(root, folder, ending):
    """The files of the product's crates: crate, name of the file within it, text."""
    for path in sorted(root.glob(f"crates/*/{folder}/**/*{ending}")):
        crate = path.relative_to(root / "crates").parts[0]
        if not HELPERS.fullmatch(crate):
            yield crate, str(path.relative_to(root / "crates" / crate)), path.read_text(encoding="utf-8")


def own(root):
    """The types that are one thing with the definition of their name, crate and name: contracts see them as it, or as
    what it is short for; the definition stands beside the type, which has another name there; or both have the same
    fields."""
    short, fields = {}, {}
    for crate, _, text in files_of(root, "specs", ".antt"):
        short |= dict(SHORT.findall(text))
        fields |= {(crate, name): set(re.findall(r"^  pub (\w+) :", body, re.MULTILINE))
                   for name, body in FIELDS.findall(text)}
        yield from DECLARED.findall(text)
    for crate, _, text in files_of(root, "proofs", ".antt"):
        yield from ((crate, name) for name in HELD.findall(text))
    for crate, _, text in files_of(root, "src", ".rt"):
        for name, value in SEEN.findall(text):
            if name in value.split() or value in (short.get(name), "List ℕ"):
                yield crate, name
        for name, body in MEMBERS.findall(text):
            if fields.get((crate, name)) == set(re.findall(r"^    (?:pub(?:\([a-z]+\))? )?(\w+):", body, re.MULTILINE)):
                yield crate, name
        yield from ((crate, name) for name in TYPE_ALIAS.findall(text))


def doubled(root):
    """The names with two meanings, a line each."""
    definitions, types, one_thing = defaultdict(list), defaultdict(list), set(own(root))
    for crate, file, text in files_of(root, "specs", ".antt"):
        for name in names_of(text):
            definitions[name].append((crate, file))
    for crate, file, text in files_of(root, "src", ".rt"):
        for name in TYPE.findall(text):
            types[name].append((crate, file))
    for name in sorted(set(definitions) | set(types)):
        said = [f"{crate} {file}" for crate, file in definitions[name] + types[name]]
        is_one = definitions[name] and types[name] and (types[name][0][0], name) in one_thing
        if len(definitions[name]) > 1 or len(types[name]) > 1 or (len(said) > 1 and not is_one):
            yield f"{name}: {', '.join(said)}"
