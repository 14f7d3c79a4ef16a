"""The text of docs/TRUSTED.md, from the definitions that the promise rests on."""
import re
import textwrap
from collections import Counter

from trusted.closure import used_by

WIDTH = 120
SENTENCE_END = re.compile(r"(?<=\.)\s+(?=[A-Z(])")
CITED = re.compile(r"\((?=[^()]*(?:manual|POSIX|\bown\b))(?:\"[^\"]*\"|[^()\"])*\)|\[(?:\"[^\"]*\"|[^\[\]\"`])*\]")
HEAD = """# The trusted definitions

`scripts/trusted_stated.py --write` writes this document, and the gate compares it.

The contracts below say what kati promises. They use definitions, and these use others. No proof shows that a definition
says what a manual says: a reader has to compare the two. Here is each definition that the promise rests on: {count} of
{all}, which are {lines} of {all_lines} lines. [DESIGN.md](DESIGN.md) names the ten to read first, and
[PROOFS.md](PROOFS.md) lists what is trusted beside the definitions. The other definitions are in `specs/views/`, in
`specs/inner/` and in crates of laws.

- A crate comes after the crates that it uses, and a module after the modules that it uses.
- Each name has the number of its line, and the first sentence of its comment.
- The first words of a module name the section of a manual that its definitions follow. A definition with a section of
  its own names that.
- A definition counts wherever its name is in the text of another one. So the list may have a definition too many, and
  none is missing.
"""


def lines_of(text, lead="", rest=""):
    """The text in lines that are short enough."""
    return textwrap.wrap(text, WIDTH, initial_indent=lead, subsequent_indent=rest, break_long_words=False,
                         break_on_hyphens=False)


def number(count):
    """A number with commas between thousands."""
    return f"{count:,}"


def counted(count, noun):
    """A number and a noun."""
    return f"{number(count)} {noun}" + ("" if count == 1 else "s")


def sentence_of(comment):
    """The first sentence of a comment, with the sections that the others name."""
    first, *others = SENTENCE_END.split(comment)
    return " ".join([first.rstrip("."), *CITED.findall(" ".join(others))])


def short_name(module):
    """A module's name within its crate, as documents have it."""
    return "/".join(module.split(".")[1:])


def crate_of(module):
    """The crate of a module."""
    return module.partition(".")[0]


# ---- the order of modules


def below(modules, places):
    """The modules that each module uses, of the modules at these places."""
    used = {module: set() for module, _ in places}
    for module, name in places:
        named = {other for other, _ in used_by(modules, modules[module].definitions[name])}
        used[module] |= named & set(used) - {module}
    return used


def heights(used):
    """How many modules are one below the other under each."""
    found = dict.fromkeys(used, 0)
    for _ in used:
        higher = {module: max([found[other] + 1 for other in others], default=0) for module, others in used.items()}
        if higher == found:
            break
        found = higher
    return found


def in_order(listing):
    """The modules of trusted definitions from below: crate by crate, and those of a crate by what they use."""
    height = heights(below(listing.modules, listing.rest.definitions))
    return sorted(height, key=lambda module: (listing.crates.index(crate_of(module)), height[module], module))


# ---- the parts of the document


def root_lines(listing):
    """Where the list begins."""
    yield from ("", "## Where the list begins", "")
    for root in listing.roots:
        names = sorted(place[1] for place in root.places & listing.rest.definitions)
        told = ": " + ", ".join(f"`{name}`" for name in names) if names else ""
        yield from lines_of(f"the {root.kind} `{root.name}` in `crates/{root.file}`{told}", "- ", "  ")


def table_lines(listing):
    """How much there is in each crate."""
    yield from ("", "| Crate | Modules | Definitions | Lines |", "|---|---|---|---|")
    definitions = listing.definitions()
    for crate in listing.crates:
        own = [one for one in definitions if crate_of(one.module) == crate]
        if own:
            count = len({one.module for one in own})
            yield f"| {crate} | {count} | {number(len(own))} | {number(sum(len(one.lines) for one in own))} |"


def module_lines(module, definitions):
    """A module: its head, and its definitions by their lines."""
    lines = sum(len(one.lines) for one in definitions)
    yield from ("", f"### `{short_name(module.name)}`", "")
    yield from lines_of(f"{module.comment} {counted(len(definitions), 'definition')}, {counted(lines, 'line')}.")
    yield ""
    for one in definitions:
        yield from lines_of(f"`{one.name}` ({one.line}): {sentence_of(one.comment)}", "- ", "  ")


def crate_lines(listing):
    """The modules, crate by crate."""
    definitions, last = {}, None
    for one in listing.definitions():
        definitions.setdefault(one.module, []).append(one)
    for name in in_order(listing):
        if crate_of(name) != last:
            yield from ("", f"## {crate_of(name)}")
        last = crate_of(name)
        yield from module_lines(listing.modules[name], definitions[name])


def type_lines(listing):
    """The types of code that definitions name, and those in their fields."""
    known = listing.known
    yield from ("", "## Types of code", "")
    told = f"The definitions name {counted(len(listing.named), 'type')} of code."
    yield from lines_of(f"{told} They see each as a record of its fields, or as its variants.")
    yield ""
    for crate in listing.crates:
        own = sorted((known[place].file, known[place].name) for place in listing.named if place[0] == crate)
        told = ", ".join(f"`{name}` in `{file}`" for file, name in own)
        yield from lines_of(f"{crate}: {told}", "- ", "  ") if own else ()
    yield from ("", f"The fields of these have {counted(len(listing.held), 'further type')}:", "")
    for crate, name in sorted(listing.held, key=lambda place: (listing.crates.index(place[0]), place[1])):
        seen = known[crate, name].seen
        yield f"- {crate}: `{name}` in `{known[crate, name].file}`" + (f", seen as `{seen}`" if seen else "")


def library_lines(listing):
    """The words of libraries that definitions use."""
    words = listing.words()
    counts = Counter(library for library, _ in words)
    yield from ("", "## Words of libraries", "")
    yield from lines_of(f"The definitions use {counted(len(words), 'word')} of libraries of the toolchain.")
    yield ""
    for library in sorted(counts, key=lambda name: (-counts[name], name)):
        told = ", ".join(f"`{name}`" for other, name in words if other == library)
        yield from lines_of(f"{library}, {counts[library]}: {told}", "- ", "  ")


def page(listing):
    """The document."""
    every = [one for module in listing.modules.values() for one in module.definitions.values()]
    own = listing.definitions()
    head = HEAD.format(count=number(len(own)), all=number(len(every)), lines=number(sum(len(one.lines) for one in own)),
                       all_lines=number(sum(len(one.lines) for one in every)))
    parts = [*root_lines(listing), *table_lines(listing), *crate_lines(listing), *type_lines(listing),
             *library_lines(listing)]
    return head + "\n".join(parts) + "\n"
