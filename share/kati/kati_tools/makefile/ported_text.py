"""A makefile that is being rewritten: its logical lines, each as it was and as it is.

What kati refuses stays for make. A line is mended in one of two ways: parts of it are replaced, for both programs, by
references to macros that give each its own; or the whole line stands under `ifdef MAKE_VERSION`, and what kati gets in
its place under `else`."""
import functools
import os
import re

from . import statements, syntax

MAKES_ALONE = "ifdef MAKE_VERSION"
KATIS_ALONE = "ifndef MAKE_VERSION"
# What the names of macros of kati-values.mk begin with.
PREFIX = "V_"


def prefix_of(include):
    """What they begin with where an include names them: with its folder's name and its own, as makefiles of other
    folders may read it that have macros, and includes, of their own."""
    folder, name = os.path.split(os.path.abspath(include))
    stem = re.sub(r"[^A-Za-z0-9_]", "_", f"{os.path.basename(folder)}_{re.sub('[.]mk$', '', name)}")
    return f"{PREFIX}{stem.lstrip('_')}_"


@functools.lru_cache(1 << 16)
def assigned(text):
    """The name, operator and value of an assignment; None for another line. A port asks it of each line many times."""
    found = statements.assignment(statements.without_comment(text)) if "=" in text else None
    return found and found[1:4]


class PortedLine(syntax.Line):
    """A logical line; `text` is the line as it was.

    `edits` has what stands in the place of parts of it, by where they begin and end. Where it is wrapped, make has the
    line and kati what `for_kati` makes of it, or nothing. What stands in `before` comes before the line, and what
    stands in `behind` after it. A line that is gone stands in the one that took it in. `prefix` begins the names of
    macros that it gets."""

    def __init__(self, number, text, endings, prefix):
        super().__init__(number, text, endings)
        self.prefix = prefix
        self.edits, self.before, self.behind = {}, None, None
        self.is_wrapped, self.for_kati, self.is_gone = False, None, False
        # Whether it is make's alone, as the branch that it stands in is; whether it is kati's, and stands for make
        # where make is asked in the place of such lines.
        self.is_makes, self.is_katis = False, False

    def edited(self):
        """The line with the outermost of its edits."""
        text = self.text
        for start, end in sorted(self.edits, reverse=True):
            if not any((a, b) != (start, end) and a <= start and end <= b for a, b in self.edits):
                text = text[:start] + self.edits[start, end] + text[end:]
        return text

    def wrap(self, for_kati=None):
        """Keeps the line for make alone; `for_kati` makes kati's text of it, or answers None."""
        self.is_wrapped, self.for_kati = True, for_kati

    def now(self):
        """The line as it is."""
        if not (self.edits or self.is_wrapped or self.before is not None or self.behind is not None):
            # As most are.
            return self.text
        text = self.edited()
        if self.is_wrapped:
            katis = self.for_kati(text) if self.for_kati else None
            other = [] if katis is None else ["else", katis]
            text = katis or "" if self.is_katis else "\n".join([MAKES_ALONE, self.text, *other, "endif"])
        return "\n".join(one for one in (self.before, text, self.behind) if one is not None)

    def indent_by_spaces(self):
        """Puts spaces in the place of the tabs at the beginning, which both programs take alike."""
        new = re.sub(r"^[ \t]+", lambda found: " " * len(found.group().expandtabs(8)), self.text)
        moved = len(new) - len(self.text)
        self.edits = {(start + moved, end + moved): text for (start, end), text in self.edits.items()}
        self.text, self.is_tab = new, False
        self.joined = syntax.joined(new)
        return moved

    def assignment(self):
        """The name, operator and value of an assignment, whatever stands before it; None for another line."""
        if self.is_tab or self.kind is syntax.Kind.BODY:
            return None
        return self.says[1:4] if self.kind is syntax.Kind.ASSIGNMENT else assigned(self.joined)

    def expanded_length(self):
        """Up to where the line may be expanded: to its comment, where it can have one."""
        if self.is_tab or self.is_body:
            return len(self.text)
        return len(statements.without_comment(self.text))


class PortedFile:
    """A makefile as such lines, with what is put before and after them."""

    def __init__(self, name, text, prefix=PREFIX):
        self.name, self.before = name, text
        self.ending = "\r\n" if "\r\n" in text and text.count("\r\n") == text.count("\n") else "\n"
        self.head, self.tail = [], []
        self.lines = syntax.Makefile(text.replace(self.ending, "\n"), lambda *line: PortedLine(*line, prefix)).lines

    def text(self):
        """The file as it is."""
        made = "\n".join([*self.head, *(line.now() for line in self.lines if not line.is_gone)])
        if self.tail:
            made = "\n".join([made.rstrip("\n"), *self.tail, ""])
        return made.replace("\n", self.ending)

    def flat(self, text_of):
        """The text of the file as make is asked about it: with kati's lines in the place of those that are make's
        alone; `text_of` answers that of each line."""
        return "\n".join(text_of(line) for line in self.lines if not line.is_makes)

    def line_at(self, number):
        """The line that stands at this number in the file as it is; None where none does."""
        at = 1 + sum(text.count("\n") + 1 for text in self.head)
        for line in self.lines:
            height = 0 if line.is_gone else line.now().count("\n") + 1
            if at <= number < at + height:
                return line
            at += height
        return None

    def definitions(self):
        """What its lines define."""
        return definitions(self.lines)


def definitions(lines):
    """The name of a macro and a line that gives it a value, for each line of an assignment or of a `define`; those
    behind a tab too, as far as no recipe line is sure there."""
    name = None
    for line in lines:
        if line.is_body:
            yield name, line
        elif line.kind is syntax.Kind.DEFINE:
            name = line.says.name
        elif line.kind is syntax.Kind.ASSIGNMENT:
            yield line.says.name, line
        else:
            found = line.assignment()
            if found:
                yield found[0], line
