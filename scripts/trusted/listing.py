"""What the promise of the programs rests on, from the repository's files."""
import re
from typing import Dict, NamedTuple, Tuple

from trusted.closure import Rest, rest_of, type_of
from trusted.definitions import Module, modules_of
from trusted.roots import Root, roots_of
from trusted.types import all_types, held_types, named_types

LISTED = re.compile(r"^(\w+)(?: \w+)*:", re.MULTILINE)
HELPERS = re.compile(r"k\w+_(?:tests|doubles)|kt_testing|kati_cases")


class Listing(NamedTuple):
    """The crates of the product from below, their modules of definitions, where the list begins, what that rests on,
    and the types of code: all of them, those that definitions name, and those in the fields of these."""
    crates: Tuple[str, ...]
    modules: Dict[str, Module]
    roots: Tuple[Root, ...]
    rest: Rest
    known: dict
    named: frozenset
    held: frozenset

    def definitions(self):
        """The definitions that are trusted, by their modules and lines."""
        found = [self.modules[module].definitions[name] for module, name in self.rest.definitions]
        return sorted(found, key=lambda one: (one.module, one.line))

    def words(self):
        """The words of libraries: the library and the word, each once; of a module that is imported whole its name."""
        named = ((module, type_of((module, name))[1] if name == "*" else name) for module, name in self.rest.words)
        return sorted({(module.partition(".")[0], name) for module, name in named})


def crates_of(root):
    """The crates of the product, as crates.txt lists them: each after those that it uses."""
    listed = LISTED.findall((root / "crates.txt").read_text(encoding="utf-8"))
    return tuple(crate for crate in listed if not HELPERS.fullmatch(crate))


def listing_of(root):
    """The list of a repository."""
    crates = crates_of(root)
    modules = {name: module for name, module in modules_of(root).items() if name.partition(".")[0] in crates}
    roots = tuple(roots_of(root, modules))
    rest = rest_of(modules, {place for one in roots for place in one.places})
    known = all_types(root, crates)
    named = named_types(known, rest.types)
    return Listing(crates, modules, roots, rest, known, named, held_types(known, named))
