"""Lines of a recipe that the shell reads otherwise from kati than from make.

kati drops a backslash and its newline wherever they stand. make hands both to the shell, for which they are text
within single quotes, and for which the newline ends a comment. So kati gets what is quoted printed by the shell, and a
comment that goes on isn't there."""
import re

from ..make import command_lists, shell_reading
from ..makefile import references
from . import port_report
from .mender import Mender

CONTINUATION = re.compile(r"\\\n\t?")
PRINTING = r"KATI_PRINTED = $(subst ',\0047,$(subst \,\\,$(1)))"
QUOTED_PART = re.compile(r"\$\$|\\\n\t?|[^$\\]+|\\", re.DOTALL)


def printed_words(text):
    """The text by which the shell prints what a makefile has within single quotes; None where that isn't possible,
    since a shell drops the newlines at the end of what is printed."""
    found, at = "", 0
    while at < len(text):
        part = QUOTED_PART.match(text, at)
        if part is None:
            end = references.end_of_reference(text, at)
            found += f"$(call KATI_PRINTED,{text[at:end]})"
            at = end
            continue
        at = part.end()
        found += "\\\\\\n" if part.group().startswith("\\\n") else shell_reading.as_printed(part.group())
    return None if found.endswith("\\n") else f"\"$$(printf %b '{found}')\""


class Mending:
    """kati's text of a recipe's line, as a makefile has it; None where nothing is known that means the same."""

    def __init__(self, text):
        self.text, self.at, self.found, self.is_known = text, 0, "", True
        lead = re.match(r"\t?[ \t@+-]*", text)
        self.keep(lead.end())
        self.first, self.is_double = len(self.found), False
        while self.at < len(text):
            self.piece(text[self.at])

    def keep(self, end):
        """Keeps the text up to this place."""
        self.found += self.text[self.at:end]
        self.at = end

    def piece(self, mark):
        """Goes on by what begins with this mark."""
        if mark == "$" and not self.text.startswith("$$", self.at):
            self.keep(references.end_of_reference(self.text, self.at))
        elif mark == "\\":
            self.keep(self.at + 2)
        elif mark == '"':
            self.is_double = not self.is_double
            self.keep(self.at + 1)
        elif mark == "'" and not self.is_double:
            self.single()
        elif mark == "#" and not self.is_double and self.starts_word():
            self.comment()
        else:
            self.keep(self.at + 1)

    def starts_word(self):
        """Whether a word of the shell begins here."""
        before = self.found[self.first:]
        return not before or before[-1] in shell_reading.BEFORE_WORD and not before.endswith("\\ ")

    def single(self):
        """A text within single quotes."""
        end = self.text.find("'", self.at + 1)
        inner = self.text[self.at + 1:end]
        if end < 0 or not CONTINUATION.search(inner):
            self.keep(len(self.text) if end < 0 else end + 1)
            return
        words = printed_words(inner)
        self.is_known = self.is_known and words is not None
        self.found += words or ""
        self.at = end + 1

    def comment(self):
        """A comment, up to where the text goes on behind it."""
        found = re.compile(r"[^\n]*\\\n\t?").match(self.text, self.at)
        if found is None:
            self.keep(len(self.text))
            return
        between = shell_reading.separator(CONTINUATION.sub("", self.found[self.first:]))
        self.is_known = self.is_known and between is not None
        self.found = self.found.rstrip(" \t") if between else self.found
        self.found += f"{between} " if between else ""
        self.at = found.end()


def mended(text):
    """kati's text of a recipe's line; the same where it is read in the same way, or nothing is known."""
    if "\\\n" not in text:
        return text
    found = Mending(text)
    return found.found if found.is_known else text


class ShellTexts(Mender):
    """The lines of recipes that are mended, once kati takes the makefile and its commands aren't make's."""

    def __init__(self, port):
        super().__init__(port)
        self.is_settled, self.is_printing = False, False

    def settle(self, translation):
        """Mends them; answers whether that changes the makefile."""
        lines = [] if self.is_settled else list(self.others())
        self.is_settled = True
        katis = port_report.commands_of(translation.statements)
        if not lines or not command_lists.alone(self.port.first.commands[1], katis):
            return False
        for line in lines:
            line.wrap(mended)
            self.is_printing = self.is_printing or "$(call KATI_PRINTED," in mended(line.text)
        return True

    settle_beside = settle

    def others(self):
        """The lines of recipes that kati gets otherwise."""
        meant = (line for line in self.port.lines() if line.is_tab and "\\\n" in line.text)
        return (line for line in meant
                if not (line.is_body or line.is_wrapped or line.is_gone) and mended(line.text) != line.text)

    def tail(self):
        """What kati gets at the end of the makefile."""
        return [PRINTING] if self.is_printing else []
