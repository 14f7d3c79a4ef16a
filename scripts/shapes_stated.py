"""The shapes that a rule has between a makefile's text and Ninja's, as docs/DESIGN.md lists them, for
scripts/check_docs.py: each type that the list names is in its crate."""
import re

DOCUMENT, HEADING = "docs/DESIGN.md", "### A rule, shape by shape"
NAMED = re.compile(r"`(\w+)`")


def rows(text):
    """The rows of the list: the shape, its crate, what it is, and the types through which others read it."""
    _, _, after = text.partition(HEADING + "\n")
    section = re.split(r"^##", after, maxsplit=1, flags=re.MULTILINE)[0]
    lines = [line for line in section.splitlines() if line.startswith("|")]
    return [[cell.strip() for cell in line.strip("|").split("|")] for line in lines[2:]]


def has_type(root, crate, name):
    """Whether a crate has a struct or an enum of this name."""
    declared = re.compile(rf"^(?:pub(?:\([a-z]+\))? )?(?:struct|enum) {name}\b", re.MULTILINE)
    sources = (root / "crates" / crate / "src").rglob("*.rt")
    return any(declared.search(path.read_text(encoding="utf-8")) for path in sources)


def differing(root):
    """What is wrong with the list, a line each."""
    listed = rows((root / DOCUMENT).read_text(encoding="utf-8"))
    if not listed:
        yield f"{DOCUMENT} has no list below {HEADING}"
    for shape, crate, what, seen in listed:
        for name in NAMED.findall(shape + what + seen):
            if not has_type(root, crate, name):
                yield f"{crate} has no type {name}"
