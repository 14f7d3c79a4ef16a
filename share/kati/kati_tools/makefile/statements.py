"""What a line of a makefile says that is no recipe: an assignment, a `define`, a conditional, an include, a rule.

The text of a line is given with its continued lines joined; nothing is expanded."""
import re
from typing import NamedTuple, Optional, Tuple

from .references import BLANKS, end_of_reference, find_outside, words

BEGIN_CONDITIONS = ("ifeq", "ifneq", "ifdef", "ifndef")
CONDITIONS = {*BEGIN_CONDITIONS, "else", "endif"}
INCLUDES = {"include", "-include", "sinclude"}
# Words that may stand before an assignment, and those that begin another statement that kati refuses.
MODIFIERS = ("override", "export", "private")
DIRECTIVES = {"override", "export", "unexport", "undefine", "private", "vpath", "load", "-load"}
NAME_PART = re.compile(r"(?:[^ \t\n\r\v\f:#=?+!$]|[?+!](?!=))*")
OPERATOR = re.compile(r"[ \t]*(:::=|::=|:=|\+=|\?=|!=|=)[ \t]*")
BLANK = re.compile(r"[ \t\n]*")
WORD = re.compile(r"[^ \t\n]*")


class Assignment(NamedTuple):
    """An assignment: the words before it, the name, the operator, and the value without blanks round it; where the name
    begins in the text, and where the value does."""

    words: Tuple[str, ...]
    name: str
    operator: str
    value: str
    name_at: int
    value_at: int


class Definition(NamedTuple):
    """A line that begins a `define`: the words before that, the macro's name, and the operator, empty without one."""

    words: Tuple[str, ...]
    name: str
    operator: str


class Condition(NamedTuple):
    """A line of a conditional: its word, `else` with the condition behind it as two, what stands after these, and where
    that begins in the text."""

    word: str
    inner: Optional[str]
    rest: str
    rest_at: int

    @property
    def begins(self):
        """Whether it begins a conditional."""
        return self.word in BEGIN_CONDITIONS

    @property
    def tested(self):
        """The name that is tested, as it is written; None where none is."""
        return self.rest if (self.inner or self.word) in ("ifdef", "ifndef") else None


class Include(NamedTuple):
    """An include: its word, and the names as they are written."""

    word: str
    names: Tuple[str, ...]


def first_word(text, at=0):
    """The first word of a text from a place on, and where that word ends."""
    found = WORD.match(text, BLANK.match(text, at).end())
    return found.group(), found.end()


def without_comment(text):
    """A line that is no recipe, to its comment."""
    at = find_outside(text, "#") if "#" in text else -1
    return text if at < 0 else text[:at]


def assigned_at(text, at, before=()):
    """The assignment that begins here in a text, behind these words before it; None where there is none."""
    begin = end = BLANK.match(text, at).end()
    while True:
        end = NAME_PART.match(text, end).end()
        if text[end:end + 1] != "$" or end + 1 == len(text):
            break
        end = end_of_reference(text, end)
    found = OPERATOR.match(text, end)
    if not found or begin == end:
        return None
    return Assignment(before, text[begin:end], found.group(1), text[found.end():].strip(BLANKS), begin, found.end())


def modifiers(text, at=0):
    """The words before an assignment or a `define`, and where they end. A word that is itself assigned to is none."""
    found = ()
    while True:
        word, end = first_word(text, at)
        if word not in MODIFIERS or assigned_at(text, at):
            return found, at
        found, at = (*found, word), end


def assignment(text, at=0):
    """The assignment of a line without a comment, from a place on; None of another line."""
    before, at = modifiers(text, at)
    return assigned_at(text, at, before)


def definition(text):
    """What a line without a comment begins to define; None of another line."""
    before, at = modifiers(text)
    word, end = first_word(text, at)
    if word != "define" or assigned_at(text, at):
        return None
    found = assigned_at(text, end)
    name, operator = (found.name, found.operator) if found else (text[end:].strip(BLANKS), "")
    return Definition(before, name, operator)


def without_modifiers(text):
    """A line without the words that may stand before an assignment or a `define`."""
    found, at = modifiers(text)
    return text[at:].lstrip(BLANKS) if found else text


def undefined(text):
    """The names that a line without a comment undefines, as they are written; None of another line."""
    _, at = modifiers(text)
    word, end = first_word(text, at)
    return text[end:].strip(BLANKS) if word == "undefine" and not assigned_at(text, at) else None


def condition(text):
    """The line of a conditional, without a comment; None of another line."""
    word, end = first_word(text)
    if word not in CONDITIONS or assigned_at(text, 0):
        return None
    inner, inner_end = first_word(text, end)
    is_both = word == "else" and inner in BEGIN_CONDITIONS
    rest_at = BLANK.match(text, inner_end if is_both else end).end()
    return Condition(word, inner if is_both else None, text[rest_at:].rstrip(BLANKS), rest_at)


def include(text):
    """The include of a line without a comment; None of another line."""
    word, end = first_word(text)
    return Include(word, tuple(words(text[end:]))) if word in INCLUDES and not assigned_at(text, 0) else None


class Rule:
    """A rule line: targets, colon, what stands after it, and the recipe on the line, None where there is none.

    In the text the first colon stands at `colon`, the prerequisites begin at `needs_at`, and the head ends at `end`:
    before the recipe's `;`, or a comment. `is_rule` says whether there is a colon at all."""

    def __init__(self, text):
        at = find_outside(text, ";#")
        self.text, self.end = text, len(text) if at < 0 else at
        self.recipe = text[at + 1:] if text[self.end:self.end + 1] == ";" else None
        head = text[:self.end]
        self.colon = find_outside(head, ":")
        self.is_rule = self.colon >= 0
        targets = head[:self.colon] if self.is_rule else head
        self.is_double = self.is_rule and head[self.colon + 1:self.colon + 2] == ":"
        self.is_group = targets.endswith("&")
        self.targets = words(targets[:-1] if self.is_group else targets)
        rest_at = self.colon + 1 + self.is_double if self.is_rule else len(head)
        self.rest = head[rest_at:]
        self.specific = self.assigned(rest_at) if self.is_rule else None
        self.recipe = None if self.specific else self.recipe
        second = find_outside(head, ":", rest_at)
        self.pattern = None if second < 0 else head[rest_at:second].strip(BLANKS)
        self.needs_at = rest_at if second < 0 else second + 1
        self.needs = words(head[self.needs_at:])

    def words(self):
        """Its targets and prerequisites, each once."""
        return list(dict.fromkeys(self.targets + self.needs))

    def assigned(self, at):
        """The target-specific assignment behind the colon; its value goes on behind a `;`."""
        if not assignment(self.text[:self.end], at):
            return None
        return assignment(without_comment(self.text), at)
