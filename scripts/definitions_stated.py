"""What documents name of definitions and of code, for scripts/check_docs.py: definitions by their files, functions
and types with their files, definitions with their modules, and the modules of each crate that a reader reviews. A
thing of a crate may be in the crate of its laws."""
import re

NAMED = re.compile(r"(?<![\w/])specs/[\w/]+(?:\.antt)?")
SECTION = re.compile(r"^### (k\w+)\n(.*?)(?=^##)", re.MULTILINE | re.DOTALL)
PLACED = re.compile(r"`(?:\w+::)?(\w+)`, (?:(k\w+) )?`([\w/]+\.rt)`")
DEFINED = re.compile(r"`(\w+)` in (?:(k\w+) )?`(?:specs/)?([A-Z]\w*)`")
REVIEWED = re.compile(r"^- \*\*(k\w+)\*\*:(.*?)(?=^- \*\*|^[^\s-])", re.MULTILINE | re.DOTALL)
SEEN = re.compile(r"^impl\b[^{]*? Model for (\w+)[^{]*\{(.*?)^\}", re.MULTILINE | re.DOTALL)
VALUE = re.compile(r"ghost Value = \{ ([A-Z]\w+) \}")
NOT_OWN = {"Text", "Unit"}
# The crate of a crate's laws, where it isn't NAME_laws.
LAWS = {"kati_args": "kati_laws"}
NAMES = re.compile(r"^\| (k\w+) \| ((?:`\w+`: `\w+`(?:, )?)+) \|$", re.MULTILINE)
ITEM = r"\b(?:fn|struct|enum|trait|type|const) {}\b"
DEFINITION = r"^ *(?:[a-z]+ )*{}\b"


def with_laws(root, crate):
    """The folder of a crate, and that of the crate of its laws."""
    return [root / "crates" / crate, root / "crates" / LAWS.get(crate, crate + "_laws")]


def without_file(root, text, crate=None):
    """The definitions that a text names as specs/.. and the crate, with that of its laws, or any, doesn't have."""
    folders = with_laws(root, crate) if crate else list(root.glob("crates/*"))
    for name in dict.fromkeys(NAMED.findall(text)):
        if not any((folder / end).exists() for folder in folders for end in (name, name + ".antt")):
            yield name


def unknown(root, text):
    """The same, in a section under a crate's name, as docs/PROOFS.md has them, of this crate."""
    missing = list(without_file(root, text))
    for crate, part in SECTION.findall(text):
        missing += [f"{name} of {crate}" for name in without_file(root, part, crate) if name not in missing]
    return missing


def holds(paths, pattern, name):
    """Whether one of the files has a line that makes something of this name."""
    made = re.compile(pattern.format(name), re.MULTILINE)
    return any(made.search(path.read_text(encoding="utf-8")) for path in paths)


def misplaced(root, text):
    """The functions, types and definitions that aren't where the text says."""
    for name, crate, file in PLACED.findall(text):
        if not holds(root.glob(f"crates/{crate or '*'}/src/**/{file}"), ITEM, name):
            yield f"{name}, {crate} {file}"
    for name, crate, module in DEFINED.findall(text):
        if not holds(root.glob(f"crates/{crate or '*'}/specs/**/{module}.antt"), DEFINITION, name):
            yield f"{name} in {module}"


def unreviewed(root, text):
    """The modules and definitions to review that their crate doesn't have; a crate without any isn't looked at."""
    for crate, part in REVIEWED.findall(text):
        folders = with_laws(root, crate)
        modules = [path for folder in folders for path in (folder / "specs").rglob("*.antt")]
        code = [path for folder in folders for path in (folder / "src").rglob("*.rt")]
        known = {path.stem for path in modules}
        for name in re.findall(r"`(\w\w+)`", part):
            if known and name not in known and not holds(modules, DEFINITION, name) and not holds(code, ITEM, name):
                yield f"{name} of {crate}"


def names_seen(root):
    """The types of the crates that contracts see as a value of another name: crate, type, what it is seen as."""
    for path in root.glob("crates/k*/src/**/*.rt"):
        crate = path.relative_to(root / "crates").parts[0]
        for name, body in SEEN.findall(path.read_text(encoding="utf-8")):
            value = VALUE.search(body)
            if value and value[1] not in NOT_OWN | {name} and not crate.endswith(("_tests", "_doubles")):
                yield crate, name, value[1]


def names_told(text):
    """The same, as the table of docs/DESIGN.md has them."""
    for crate, pairs in NAMES.findall(text):
        for name, value in re.findall(r"`(\w+)`: `(\w+)`", pairs):
            yield crate, name, value


def differing(root):
    """What docs/DESIGN.md names and isn't there, a line each, and names that it leaves out."""
    text = (root / "docs/DESIGN.md").read_text(encoding="utf-8")
    yield from misplaced(root, " ".join(text.split()))
    yield from unreviewed(root, text)
    for crate, name, value in sorted(set(names_seen(root)) ^ set(names_told(text))):
        yield f"{name} of {crate}, seen as {value}"
