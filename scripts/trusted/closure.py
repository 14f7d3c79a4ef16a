"""What texts of definitions rest on: the names that stand in them, followed from module to module.

A name counts wherever it stands in a text, even as a variable's: so there may be a definition too many, and none is
missing. A `do` block stands for the words that join its steps."""
import re
from typing import FrozenSet, NamedTuple

# Comments, strings, and names of fields where they are declared or set.
NO_NAMES = re.compile(r"(?:^|\s)--.*|\"(?:\\.|[^\"\\])*\"|^ +pub \S+ :|(?<=[{;])\s*\w+ = ", re.MULTILINE)
WORD = re.compile(r"[^\s(){}\[\],;]+")
STEPS = ("◌>>=◌", "◌>>◌")
DECLARED, VARIANTS = ".specs.declared.", ".TheVariants"
MOST = 9


class Rest(NamedTuple):
    """What texts rest on: definitions, types of code and words of libraries, each by its module and its name."""
    definitions: FrozenSet
    types: FrozenSet
    words: FrozenSet


def words_of(text):
    """The words of a text; of a word with dots what stands before the first is one, too, and with the dot if a name
    comes after it."""
    found = set(WORD.findall(NO_NAMES.sub(" ", text)))
    cut = [word.partition(".") for word in found]
    return found | {front for front, _, _ in cut} | {front + "." for front, _, name in cut if name[:1].isalpha()}


def parts_of(name):
    """The words by which a text uses a name: what stands between the places of its arguments."""
    return [part for part in name.split("◌") if part]


def names_in(text, known):
    """Those of the known names that a text has."""
    words = words_of(text)
    steps = STEPS if "do" in words else ()
    return {name for name in known if name in steps or all(part in words for part in parts_of(name))}


def origin(modules, module, name):
    """Where a name of a module comes from: through the modules that pass it on."""
    for _ in range(MOST):
        if module not in modules or modules[module].owner(name) or name not in modules[module].imports:
            break
        module, name = modules[module].imports[name]
    owner = modules[module].owner(name) if module in modules else None
    return (module, owner.name) if owner else (module, name)


def known_by(module):
    """The names that a text of a module may have: its own, those of variants, and those that it imports."""
    variants = [name for one in module.definitions.values() for name in one.variants]
    return {*module.definitions, *variants, *module.imports}


def used_by(modules, definition):
    """What the text of a definition names: modules and names."""
    module = modules[definition.module]
    names = names_in("\n".join(definition.lines), known_by(module))
    return {origin(modules, module.name, name) for name in names} - {(module.name, definition.name)}


def type_of(place):
    """A type of code by its module and name, given what is imported of it."""
    module = place[0].replace(VARIANTS, "")
    return module, module.rpartition(".")[2]


def followed(modules, places):
    """All that is used by what is at these places, and by what that uses in turn."""
    found, waiting = set(), list(places)
    while waiting:
        module, name = place = waiting.pop()
        if place not in found:
            found.add(place)
            if module in modules and name in modules[module].definitions:
                waiting += used_by(modules, modules[module].definitions[name])
    return found


def rest_of(modules, places):
    """What the definitions at these places rest on, themselves included."""
    found = followed(modules, places)
    own = {place for place in found if place[0] in modules}
    crates = {name.partition(".")[0] for name in modules}
    types = {place for place in found - own if DECLARED in place[0] and place[0].partition(".")[0] in crates}
    return Rest(frozenset(own), frozenset(map(type_of, types)), frozenset(found - own - types))
