"""Definitions of the product's crates that are in the wrong folder, for scripts/check_docs.py.

`specs/` has the definitions that the promise of the programs rests on (scripts/trusted_stated.py), and no others: what
only users of one crate are promised, and words between crates, are in `specs/views/`; what one crate alone uses is in
`specs/inner/`. So no module of `specs/` imports one of the other two folders, and no module of `specs/views/` one of
`specs/inner/`. No other crate uses `specs/inner/` of a crate, not even its laws or tests. A module that declares
nothing, as `Lib`, `Prelude` or the first of a folder, is bound by its imports alone."""
import re

from trusted.definitions import imports_of
from trusted.listing import listing_of

# A module may import from its own folder and from those before it.
FOLDERS = ("specs", "views", "inner")
CITED = re.compile(r"\b(k(?:t|ati)(?:_\w+)?)::specs::inner::([\w:]+)")


def folder_of(module):
    """The folder that a module of definitions is in; none for a module of something else."""
    _, kind, *names = module.split(".")
    if kind != "specs":
        return None
    return names[0] if names and names[0] in FOLDERS[1:] else "specs"


def shown(module):
    """A module as a file of its crate."""
    crate, *names = module.split(".")
    return f"{crate} {'/'.join(names)}"


def is_above(module, other):
    """Whether a module of definitions may not import the other one, by their folders."""
    folder = folder_of(other)
    return bool(folder) and FOLDERS.index(folder) > FOLDERS.index(folder_of(module))


def open_modules(listing, product):
    """The modules of definitions that import from a folder after their own, a line each."""
    for name, module in listing.modules.items():
        if name.partition(".")[0] in product:
            above = {other for other, _ in module.imports.values() if is_above(name, other)}
            yield from (f"{shown(name)} imports {shown(other)}" for other in sorted(above))


def misplaced(listing, product):
    """The definitions of `specs/` that the promise doesn't rest on, and those elsewhere that it does, a line each."""
    for name, module in listing.modules.items():
        for one in module.definitions if name.partition(".")[0] in product else ():
            is_trusted = (name, one) in listing.rest.definitions
            if is_trusted != (folder_of(name) == "specs"):
                yield f"{one} in {shown(name)}: the promise {'rests' if is_trusted else 'does not rest'} on it"


def inner_uses(root, product):
    """The files that use `specs/inner/` of another crate, a line each."""
    for path in sorted(root.glob("crates/*/*/**/*.*t")):
        file = path.relative_to(root / "crates")
        if file.suffix not in (".rt", ".antt") or file.parts[1] not in ("src", "specs", "proofs"):
            continue
        text = path.read_text(encoding="utf-8")
        used = {module for module, _ in imports_of(text.splitlines()).values() if ".specs.inner" in module}
        used |= {f"{crate}.specs.inner.{names.replace('::', '.')}" for crate, names in CITED.findall(text)}
        for module in sorted(used):
            if module.partition(".")[0] in product - {file.parts[0]}:
                yield f"{file.as_posix()} uses {shown(module)}"


def troubles(root):
    """What is in the wrong folder, and what imports it from there, a line each."""
    listing = listing_of(root)
    product = {crate for crate in listing.crates if not crate.endswith("_laws")}
    yield from open_modules(listing, product)
    yield from misplaced(listing, product)
    yield from inner_uses(root, product)
