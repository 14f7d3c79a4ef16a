"""The dependencies of each crate in crates.txt and in the table of docs/DESIGN.md, for scripts/check_docs.py, and the
crates that depend on laws though they are neither laws nor tests."""
import re

CRATE = re.compile(r"\bk(?:t|ati)(?:_\w+)?\b")


def of_list(text):
    """What each crate stands on by crates.txt, libraries aside."""
    rows = dict(line.split(":", 1) for line in text.splitlines() if line and not line.startswith("#"))
    return {crate: {name for name in row.split() if name in rows} for crate, row in rows.items()}


def of_table(text):
    """The same by the table of docs/DESIGN.md; a row may say `all above`, or `all above but` some."""
    found = {}
    for crate, cell in re.findall(r"^\| (\w+) \| [^|]* \| ([^|]*?) ?\|$", text, re.MULTILINE):
        names = set(CRATE.findall(cell))
        if CRATE.fullmatch(crate):
            found[crate] = set(found) - names if cell.startswith("all above") else names
    return found


def differing(root):
    """The crates of which the two say something else, a line each: what the list says, and what the table says. The
    crates of tests and of laws have one row each in the table, which stands for them all."""
    every = of_list((root / "crates.txt").read_text(encoding="utf-8"))
    listed = {crate: names for crate, names in every.items() if not crate.endswith(("_tests", "_laws"))}
    table = of_table((root / "docs/DESIGN.md").read_text(encoding="utf-8"))
    for crate, names in every.items():
        laws = [] if crate.endswith(("_laws", "_tests")) else sorted(name for name in names if name.endswith("_laws"))
        if laws:
            yield f"{crate}: it stands on laws: {' '.join(laws)}"
    for crate in {**listed, **table}:
        if listed.get(crate) != table.get(crate):
            yield f"{crate}: {' '.join(sorted(listed.get(crate, [])))} | {' '.join(sorted(table.get(crate, [])))}"
