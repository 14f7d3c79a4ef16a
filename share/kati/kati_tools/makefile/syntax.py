"""A makefile as its logical lines: what each one is, in which conditionals it stands, and to which rule it belongs.

It is read once, from the first line to the last, and nothing is expanded. So it isn't known which branches are taken:
where a line's kind hangs on that, as that of a line behind a tab after a rule in a branch, the line says so.
What a line says is told by `statements.py`, and what it refers to by `references.py`."""
import enum
import functools
import re
from typing import NamedTuple, Optional

from . import references, statements
from .statements import without_comment

CONTINUATION = re.compile(r"(?:[ \t]*\\\n[ \t]*)+")
ENDS_OPEN = re.compile(r"(?<!\\)(?:\\\\)*\\$")
# A path that leads up, and the name behind that.
ABOVE = re.compile(r"(?<![\w.])((?:\.\./)+)([\w+@-][\w.+@-]*)")


def joined(text):
    """The text of a line, with what continues it as one space."""
    return CONTINUATION.sub(" ", text) if "\n" in text else text


class Kind(enum.Enum):
    """What a logical line is."""

    BLANK = "nothing, or a comment"
    ASSIGNMENT = "an assignment"
    DEFINE = "the beginning of a `define`"
    BODY = "a line between `define` and its `endef`"
    ENDEF = "an `endef`"
    CONDITION = "a line of a conditional"
    INCLUDE = "an include"
    UNDEFINE = "an `undefine`"
    DIRECTIVE = "another line by its first word, as `export`"
    RULE = "a rule line"
    TARGET_ASSIGNMENT = "an assignment for targets"
    REFERENCE = "a reference without a colon, which may come to anything"
    RECIPE = "a recipe line"
    STRAY_TAB = "a line behind a tab that belongs to no rule and is no statement"
    OTHER = "a line without a separator"


# Lines that leave open whether a rule is open, and those behind which none is.
KEEPS_OPEN = {Kind.BLANK, Kind.CONDITION, Kind.RECIPE, Kind.STRAY_TAB}
# What a line behind a tab can't be.
NEVER_BEHIND_TAB = {Kind.RULE, Kind.TARGET_ASSIGNMENT, Kind.REFERENCE, Kind.OTHER}
OPENS = {Kind.RULE: True, Kind.REFERENCE: False}


class Line:
    """A logical line: its number, from 1, its text, joined by newlines where it was continued, and the endings of
    its lines, of which the last one may be empty.

    What it `says` is an assignment, a rule or the like of `statements.py`, None for a line that says nothing by itself.
    `around` has the conditionals in which it stands, each with the number of its branch; a line of a conditional
    stands in those round that one, and `block` is its own. The line that begins the rule to which it may belong is
    `rule`, and `is_sure` says that it does, whichever branches are taken."""

    def __init__(self, number, text, endings=("\n",)):
        self.number, self.text, self.endings = number, text, endings
        self.is_tab = text.startswith("\t")
        self.joined = joined(text)
        self.kind, self.says, self.around, self.block = Kind.OTHER, None, (), None
        self.rule, self.is_sure = None, False

    @property
    def is_body(self):
        """Whether it stands between `define` and its `endef`."""
        return self.kind is Kind.BODY

    def first_word(self):
        """The first word, empty where there is none."""
        return statements.first_word(self.joined)[0]

    def written(self):
        """The line as it stands in the makefile, with its endings."""
        return "".join(part + ending for part, ending in zip(self.text.split("\n"), self.endings))


class Block:
    """A conditional: its lines, from its first to its `endif`, as far as they are there, and whether one of them is a
    plain `else`."""

    def __init__(self, number):
        self.number, self.lines, self.has_else = number, [], False


def lines(text, new_line=Line):
    """The logical lines of a makefile, each made by `new_line`; where it ends with a newline, the last one is empty."""
    found, rest, at = [], text.split("\n"), 0
    while at < len(rest):
        first, parts, endings = at, [], []
        while True:
            part, is_last = rest[at], at + 1 == len(rest)
            has_return = not is_last and part.endswith("\r")
            parts.append(part[:-1] if has_return else part)
            endings.append("" if is_last else "\r\n" if has_return else "\n")
            at += 1
            if is_last or not parts[-1].endswith("\\") or not ENDS_OPEN.search(parts[-1]):
                break
        found.append(new_line(first + 1, "\n".join(parts), tuple(endings)))
    return found


def endef(text):
    """The word that ends a `define`; None of another line."""
    return "endef" if statements.first_word(text)[0] == "endef" else None


# By the first word what a line may be that is no assignment.
DEFINITIONS = ((Kind.DEFINE, statements.definition), (Kind.UNDEFINE, statements.undefined))
LOOKS = {**dict.fromkeys(("define", "undefine", *statements.MODIFIERS), DEFINITIONS), "endef": ((Kind.ENDEF, endef),),
         **dict.fromkeys(statements.CONDITIONS, ((Kind.CONDITION, statements.condition),)),
         **dict.fromkeys(statements.INCLUDES, ((Kind.INCLUDE, statements.include),))}


# A makefile is read several times in a port, and what a line says isn't changed.
@functools.lru_cache(1 << 16)
def statement(line):
    """The kind of a line, given as its joined text, that is no recipe and no body of a `define`, and what it says."""
    text = without_comment(line)
    word, _ = statements.first_word(text)
    if not word:
        return Kind.BLANK, None
    assigned = statements.assignment(text)
    if assigned:
        return Kind.ASSIGNMENT, assigned
    for kind, look in LOOKS.get(word, ()):
        found = look(text)
        if found is not None:
            return kind, found
    if word in statements.DIRECTIVES:
        return Kind.DIRECTIVE, None
    rule = statements.Rule(line)
    if rule.is_rule:
        return (Kind.TARGET_ASSIGNMENT if rule.specific else Kind.RULE), rule
    return (Kind.REFERENCE if word.startswith("$") else Kind.OTHER), None


def places(line):
    """Where the words of a line that is no recipe stand in its text: the names of a rule, or the words of a value, and
    those that functions in them hand on."""
    # The same text, in which what continues it is as long as it was.
    text = CONTINUATION.sub(lambda found: " " * len(found.group()), line.text)
    _, says = statement(text)
    says = getattr(says, "specific", None) or says
    is_rule = isinstance(says, statements.Rule)
    begin = says.value_at if isinstance(says, statements.Assignment) else 0
    end = says.end if is_rule else len(without_comment(text))
    yield from references.places_of_words(text, begin, end, f"{references.BLANKS}:|" if is_rule else references.BLANKS)
    for span in references.handed_on(one for one in references.forest(text) if begin <= one.start < end):
        yield from references.places_of_words(text, *span)


def place_of(line, word):
    """Where a word first stands in a line's text so; None where it doesn't."""
    return next((place for place in places(line) if line.text[slice(*place)] == word), None)


def names_above(text):
    """The names behind `..` in a makefile's text, wherever they stand, each with the way up: `../` and `inc` of
    `../inc/sys`."""
    return set(ABOVE.findall(text))


def asked_for(text):
    """The macros that a makefile's text refers to or tests, by their names; those behind two dollars too, which `eval`
    or a shell asks for."""
    found = set()
    for line in lines(text):
        condition = statements.condition(without_comment(line.joined))
        found.update(references.names_in(line.text), (one.named() for one in references.doubled(line.text)),
                     [condition.tested] if condition else [])
    return found - {None}


class Open(NamedTuple):
    """The rule that is open: the line that begins it, None where there is none, and whether it is surely open."""

    rule: Optional[Line] = None
    is_sure: bool = False


def either(states):
    """What is open where one of several branches was taken: the last rule of them."""
    rules = [one.rule for one in states if one.rule is not None]
    last = max(rules, key=lambda line: line.number, default=None)
    return Open(last, all(one.is_sure for one in states))


class Level:
    """A conditional that isn't closed: what was open before it, what at the end of each branch, and the number of its
    branch."""

    def __init__(self, block, before):
        self.block, self.before, self.ends, self.branch = block, before, [], 0


class Makefile:
    """A makefile's lines and conditionals, read from its text; each line is made by `new_line`."""

    def __init__(self, text, new_line=Line):
        self.lines, self.blocks = lines(text, new_line), []
        # How many `define`s are open, the conditionals that are, and the rule.
        self.depth, self.levels, self.open = 0, [], Open()
        for line in self.lines:
            line.around = tuple((level.block, level.branch) for level in self.levels)
            self.read(line)

    def text(self):
        """The makefile, put together again."""
        return "".join(line.written() for line in self.lines)

    def read(self, line):
        """Says what a line is, by those before it."""
        if self.depth:
            self.body(line)
            return
        is_sure_recipe = line.is_tab and self.open.is_sure
        kind, says = (Kind.RECIPE, None) if is_sure_recipe else statement(line.joined)
        if line.is_tab and self.is_recipe(kind):
            line.kind, line.rule, line.is_sure = Kind.RECIPE, *self.open
            return
        line.kind, line.says = (Kind.STRAY_TAB, None) if line.is_tab and kind in NEVER_BEHIND_TAB else (kind, says)
        if line.kind is Kind.CONDITION:
            self.condition(line)
        elif line.kind not in KEEPS_OPEN:
            is_sure = OPENS.get(line.kind)
            self.open = Open() if is_sure is None else Open(line, is_sure)
            self.depth = int(line.kind is Kind.DEFINE)

    def is_recipe(self, kind):
        """Whether a line behind a tab is a recipe line: it is, where a rule may be open, but for an assignment and a
        conditional where that isn't sure."""
        return self.open.rule is not None and (self.open.is_sure or kind not in (Kind.ASSIGNMENT, Kind.CONDITION))

    def body(self, line):
        """A line between `define` and `endef`; such blocks may stand in each other."""
        word = "" if line.is_tab else line.first_word()
        self.depth += (word == "define") - (word == "endef")
        line.kind = Kind.BODY if self.depth else Kind.ENDEF

    def condition(self, line):
        """A line of a conditional."""
        if line.says.begins:
            self.blocks.append(Block(len(self.blocks) + 1))
            self.levels.append(Level(self.blocks[-1], self.open))
        if not self.levels:
            return
        level = self.levels[-1]
        line.block, line.around = level.block, line.around[:len(self.levels) - 1]
        level.block.lines.append(line)
        if line.says.word == "else":
            level.ends.append(self.open)
            self.open, level.branch = level.before, level.branch + 1
            level.block.has_else |= line.says.inner is None
        elif line.says.word == "endif":
            self.levels.pop()
            self.open = either([*level.ends, self.open, *([] if level.block.has_else else [level.before])])
