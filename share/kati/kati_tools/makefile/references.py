"""References in a makefile's text, as a tree: `$(..)`, `${..}` and `$x`; `$$` is a dollar and none.

A reference ends at the closing mark of its own kind, counted by nesting of that kind alone, as make and kati have it;
the last characters of a text may lack one. Nothing is expanded."""
import functools
import re

CLOSING = {"(": ")", "{": "}"}
OPENING = {closing: opening for opening, closing in CLOSING.items()}
BRACKET = re.compile(r"[(){}]")
# Down to so many levels kati follows references in others.
MOST_LEVELS = 400
# Blanks, and what a name of a macro can't hold that is written out.
BLANKS = " \t\n"
PLAIN_WORD = re.compile(r"[^ \t\n]+")
FUNCTION = re.compile(r"([a-z-]+)[ \t\n]+")
PLAIN_NAME = re.compile(r"[^ \t\n:,$(){}]+")
DOUBLED = re.compile(r"(?<!\$)\$\$(?=[({])")
# What a shell is asked for by its name, behind two dollars.
OF_THE_SHELL = re.compile(r"\$\$\{?([A-Za-z_]\w*)")
# Functions that have the name of a macro as their first argument.
ASK_OF_A_MACRO = ("call", "value", "origin", "flavor")
# Functions, and which of their arguments may be a part of their value as they are.
HANDING_ON = {**dict.fromkeys(("eval", "or", "sort", "strip"), slice(None)),
              **dict.fromkeys(("call", "foreach", "if"), slice(1, None))}


def ends_of_brackets(text):
    """Where the text ends that each bracket opens, by the bracket's place; of each kind for itself."""
    found, open_ones = {}, {"(": [], "{": []}
    for match in BRACKET.finditer(text):
        bracket = match.group()
        if bracket in CLOSING:
            open_ones[bracket].append(match.start())
        elif open_ones[OPENING[bracket]]:
            found[open_ones[OPENING[bracket]].pop()] = match.end()
    return found


class Reference:
    """A reference in the text `whole`: from `start` up to `end`, whether its closing mark is there, and the references
    `inner` in it, in their order."""

    __slots__ = ("whole", "start", "end", "is_closed", "inner")

    def __init__(self, whole, start, end, is_closed):
        self.whole, self.start, self.end, self.is_closed, self.inner = whole, start, end, is_closed, []

    @property
    def text(self):
        """The reference as it is written."""
        return self.whole[self.start:self.end]

    @property
    def is_bracketed(self):
        """Whether it stands in brackets, as `$(x)`, and isn't one of one character, as `$x`."""
        return self.whole[self.start + 1] in CLOSING

    @property
    def inside(self):
        """Where what it refers to begins and ends."""
        if not self.is_bracketed:
            return self.start + 1, self.end
        return self.start + 2, self.end - self.is_closed

    @property
    def body(self):
        """What stands within it: a macro's name, or a function with its arguments."""
        start, end = self.inside
        return self.whole[start:end]

    @property
    def function(self):
        """The word that stands where a function's name does, before a blank; None where there is none."""
        found = FUNCTION.match(self.body) if self.is_bracketed else None
        return found and found.group(1)

    @property
    def name(self):
        """The name of the macro that is meant, where it is written out; None of a function or a computed name."""
        if not self.is_bracketed:
            return self.body
        name, colon, rest = self.body.partition(":")
        return name if PLAIN_NAME.fullmatch(name) and (not colon or "=" in rest) else None

    @property
    def substitution(self):
        """What stands behind the colon of `$(NAME:FROM=TO)`, as the two texts; None without."""
        if self.name is None or ":" not in self.body or not self.is_bracketed:
            return None
        before, _, after = self.body.partition(":")[2].partition("=")
        return before, after

    def spans(self):
        """Where the arguments of a function begin and end, cut at each comma outside nested brackets of its own kind;
        none of another reference."""
        if self.function is None:
            return []
        start, end = self.inside
        opening = self.whole[self.start + 1]
        found, depth = [FUNCTION.match(self.whole, start).end()], 0
        for match in re.compile(f"[{opening}{CLOSING[opening]},]").finditer(self.whole, found[0], end):
            if match.group() != ",":
                depth += 1 if match.group() == opening else -1
            elif not depth:
                found += [match.start(), match.end()]
        found.append(end)
        return list(zip(found[::2], found[1::2]))

    def arguments(self):
        """The arguments of a function, as they are written."""
        return [self.whole[start:end] for start, end in self.spans()]

    @property
    def argument(self):
        """All that stands behind a function's name, with its commas; None of another reference."""
        return self.whole[self.spans()[0][0]:self.inside[1]] if self.function is not None else None

    def named(self):
        """The macro that is meant or that the function asks of, by its name as far as that is written out; None where
        none is."""
        if not self.is_bracketed:
            return self.body
        is_asking = self.function in ASK_OF_A_MACRO
        found = PLAIN_NAME.match(self.whole, FUNCTION.match(self.body).end() + self.inside[0] if is_asking
                                 else self.inside[0], self.inside[1])
        return found and found.group()

    def all(self):
        """The reference and those in it, in the order in which they begin."""
        left = [self]
        while left:
            one = left.pop()
            yield one
            left.extend(reversed(one.inner))


def forest(text):
    """The references of a text that stand in no other one, with those in them."""
    return read_forest(text) if "$" in text else ()


# The same line is asked of by many.
@functools.lru_cache(1 << 16)
def read_forest(text):
    """The same for a text that has a dollar."""
    found = []
    outer, ends, at = [], ends_of_brackets(text), text.find("$")
    while 0 <= at < len(text) - 1:
        while outer and outer[-1].end <= at:
            outer.pop()
        most = outer[-1].inside[1] if outer else len(text)
        after = text[at + 1]
        if after == "$" or at + 1 >= most:
            at = text.find("$", at + 1 + (after == "$"))
            continue
        end = (ends.get(at + 1) or len(text) + 1) if after in CLOSING else at + 2
        one = Reference(text, at, min(end, most), end <= most)
        if len(outer) <= MOST_LEVELS:
            (outer[-1].inner if outer else found).append(one)
            outer.append(one)
        at = text.find("$", at + 2)
    return tuple(found)


def references(text):
    """All references of a text, those in others too, in the order in which they begin."""
    return [one for outer in forest(text) for one in outer.all()]


def beginning(text):
    """The reference with which a text begins; None where it begins with none."""
    found = forest(text)[:1]
    return found[0] if found and not found[0].start else None


def only(text):
    """The reference that a text is, whole; None of another text."""
    found = beginning(text)
    return found if found and found.end == len(text) else None


def doubled(text):
    """The references in brackets behind two dollars, which are some where `eval` reads the text."""
    return [Reference(text, at + 1, end_of_reference(text, at + 1), True) for at in
            (match.start() for match in DOUBLED.finditer(text))]


def names_in(text):
    """The macros that a text refers to or asks of, by their names as far as these are written out."""
    return read_names(text) if "$" in text else ()


@functools.lru_cache(1 << 16)
def read_names(text):
    """The same for a text that has a dollar."""
    return tuple(filter(None, (one.named() for one in references(text))))


def names_for_the_shell(text):
    """The variables that a shell is asked for in a text that make expands."""
    return OF_THE_SHELL.findall(text)


def end_of_reference(text, at):
    """Where the reference ends whose `$` stands at `at`."""
    if at + 1 >= len(text) or text[at + 1] not in CLOSING:
        return min(at + 2, len(text))
    opening, depth = text[at + 1], 0
    for match in re.compile(f"[{opening}{CLOSING[opening]}]").finditer(text, at + 1):
        depth += 1 if match.group() == opening else -1
        if not depth:
            return match.end()
    return len(text)


@functools.lru_cache(None)
def stops_at(marks):
    """A form of these marks and of all that may quote one."""
    return re.compile(f"[$\\\\{re.escape(marks)}]")


def find_outside(text, marks, at=0):
    """Where the first of these marks stands, from `at` on, outside references and not behind a backslash that quotes
    it; -1 where none does."""
    stops = stops_at(marks)
    found = stops.search(text, at)
    while found:
        mark, at = found.group(), found.end()
        if mark == "$":
            at = end_of_reference(text, found.start())
        elif mark == "\\":
            # No backslash quotes a `$`.
            at += text[at:at + 1] not in ("", "$")
        else:
            return found.start()
        found = stops.search(text, at)
    return -1


def words(text):
    """The words of a text, cut at blanks outside references."""
    if "$" not in text and "\\" not in text:
        return PLAIN_WORD.findall(text)
    return [text[start:end] for start, end in places_of_words(text, 0, len(text))]


def places_of_words(text, at, most, marks=BLANKS):
    """Where the words of a part of a text, from `at` up to `most`, begin and end: it is cut at these marks outside
    references."""
    while at < most:
        end = find_outside(text, marks, at)
        end = most if end < 0 else min(end, most)
        if at < end:
            yield at, end
        at = end + 1


def handed_on(found):
    """Where the arguments begin and end whose words these references have as they are, those in such arguments too."""
    for one in found:
        for start, end in one.spans()[HANDING_ON.get(one.function, slice(0))]:
            yield start, end
            yield from handed_on([inner for inner in one.inner if start <= inner.start < end])


def without_references(text, letter="x"):
    """A text with a letter for each reference outside others, and for each `$$`."""
    found, last, at = [], 0, text.find("$")
    while at >= 0:
        found += [text[last:at], letter]
        last = end_of_reference(text, at)
        at = text.find("$", last)
    return "".join([*found, text[last:]])
