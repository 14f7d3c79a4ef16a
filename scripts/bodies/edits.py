"""Wrong bodies as they stand in files: what each changes, and whose code that is."""
import re
from pathlib import Path

HEADER = re.compile(r"^(\s*)(?:pub(?:\([a-z]+\))? )?(?:const )?(?:unsafe )?fn (\w+)")
IMPL = re.compile(r"^(\s*)impl(?:<.*?>)? (?:(?P<trait>[\w:]+)(?:<(?P<of>[^>]*)>)? for )?(?P<type>\w+)")
BEFORE = re.compile(r"\s*(#\[|///|//)")
CYCLE = re.compile(r"\s*#\[cycle\(")
NAMED_LEMMAS = re.compile(r"\s*#\[tactic\(.*\b(?:using|unfolding)\(")
# What answers by hand are named after: branches, ways out and calls.
TEXT = re.compile(r"""b?"(?:[^"\\]|\\.)*"|b?'(?:[^'\\]|\\.)'""")
SHAPE = re.compile(r"\b(?:if|else|match|loop|while|for|return|break|continue)\b|=>|\?|&&|\|\||\w+(?=!?\()")


class Edit:
    """One edit, with the functions that it changes, and what came of it. `control` is an edit of the same shape that
    means the same, where one stands beside it."""

    def __init__(self, name, file, pairs, control=None):
        self.name, self.file, self.pairs, self.control = name, file, pairs, control
        self.outcome, self.why, self.rounds = None, "", 0
        self.owners, self.is_in_cycle, self.has_named_lemmas = [], False, False

    def applied(self, text):
        """The text with the edit, after noting whose code it changes; None where an old text isn't there once."""
        self.owners = []
        for old, new in self.pairs:
            if text.count(old) != 1:
                return None
            at = text.index(old)
            self.owners.append(owner(text, at))
            text = text[:at] + new + text[at + len(old):]
        names = [name for name in self.owners if name is not None]
        self.is_in_cycle = any(has_attribute(text, name, CYCLE) for name in names)
        self.has_named_lemmas = any(has_attribute(text, name, NAMED_LEMMAS) for name in names)
        return text

    def keeps_shape(self):
        """Whether it leaves the shape of the code. Then the code itself is what a control would be."""
        return all(shape_of(old) == shape_of(new) for old, new in self.pairs)

    def ends(self, outcome, why):
        """Notes what came of it."""
        self.outcome, self.why = outcome, why


def shape_of(code):
    """The branches, ways out and calls of code, without what stands in its texts."""
    return SHAPE.findall(TEXT.sub("", code))


def read(path):
    """The edit of a file, with its control, wrong-bodies/NAME.control. An edit of must-fail/ has it there as well: the
    gate takes each file of must-fail/ for an edit that must be refused."""
    beside = path.parent.with_name("wrong-bodies") / f"{path.stem}.control"
    control = None
    if path.suffix == ".edit" and beside.is_file():
        control = read(beside)
        control.name += " (control)"
    file, pairs, old = None, [], None
    for line in path.read_text(encoding="utf-8").splitlines():
        word, _, rest = line.partition(": ")
        if word == "file":
            file = rest
        elif word == "old":
            old = rest
        elif word == "new":
            pairs.append((old, rest))
    return Edit(path.stem, file, pairs, control)


def of_crate(root, crate, folders, words):
    """The edits of a crate in these folders, those with one of the words in their names, or all without words."""
    paths = [path for folder in folders for path in sorted((root / "crates" / crate / folder).glob("*.edit"))]
    return [read(path) for path in paths if not words or any(word in path.stem for word in words)]


def owner(text, at):
    """The name of the function round a place, as 'Type::name', 'TypeTrait::name' or 'name'; None outside functions.

    The layout is rt fmt's: a function ends with the first line that is its indentation and a brace."""
    lines = text.split("\n")
    here = text.count("\n", 0, at)
    start = next((number for number in range(here, -1, -1) if HEADER.match(lines[number])), None)
    if start is None:
        return None
    indent, name = HEADER.match(lines[start]).groups()
    if end_of(lines, start, indent) < here:
        return None
    return within_impl(lines, start, indent) + name


def end_of(lines, start, indent):
    """The number of the last line of a function that begins at a line."""
    ends = (number for number in range(start, len(lines)) if re.match(rf"{indent}(\}}|\{{\}})", lines[number]))
    return next(ends, len(lines))


def within_impl(lines, start, indent):
    """The type, and the trait after it, whose impl block a function stands in, with two colons; nothing outside
    impls."""
    if not indent:
        return ""
    for line in reversed(lines[:start]):
        block = IMPL.match(line)
        if block and len(block.group(1)) < len(indent):
            trait = (block.group("trait") or "").split("::")[-1] + re.sub(r"\W", "", block.group("of") or "")
            return block.group("type") + trait + "::"
    return ""


def span(text, name):
    """The lines of a function, from 1, with the attributes before it; (0, 0) where it isn't there."""
    lines = text.split("\n")
    for start, line in enumerate(lines):
        header = HEADER.match(line)
        if header and within_impl(lines, start, header.group(1)) + header.group(2) == name:
            end = end_of(lines, start, header.group(1))
            while start and BEFORE.match(lines[start - 1]):
                start -= 1
            return start + 1, end + 1
    return 0, 0


def has_attribute(text, name, attribute):
    """Whether a function has such an attribute."""
    first, last = span(text, name)
    return any(attribute.match(line) for line in text.split("\n")[max(first - 1, 0):last])


def module_of(crate, file):
    """The module of a file."""
    parts = Path(file).with_suffix("").parts[1:]
    parts = parts[:-1] if parts[-1] in ("lib", "main", "mod") else parts
    return "::".join((crate,) + parts)
