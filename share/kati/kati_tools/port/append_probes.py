"""Probes of lines that append by `+=`: make tells, where it comes by such a line, whether the macro has a value, and
what is appended. It does so in the run that tells the values of calls (make_probes.py), which costs it little."""
from ..make import make_run
from ..makefile import after_references, ported_text, syntax

# The numbers of these probes.
FIRST = 8_000_000
# The flavor of the macro, whether it has a value, and whether what is appended is one.
PROBE = f"$(info {make_run.ANSWER}{{number}} $(flavor {{name}})|$(if $(value {{name}}),1)|{{new}}{make_run.END})"
# What stands for the last where it is of no account, or isn't asked for: of a deferred macro it doesn't count, and an
# immediate one expands it there already, so that a call in it would be run twice.
IS_VALUE, NOT_ASKED = "1", "?"
UNLESS_IMMEDIATE = "$(if $(filter simple,$(flavor {name})),%s,%s)" % (NOT_ASKED, IS_VALUE)


def appended(line):
    """The name and the text of a line that appends, which may stand behind a tab where no rule is open; None for
    another one."""
    is_meant = line.kind is syntax.Kind.ASSIGNMENT and not line.is_gone
    found = ported_text.assigned(line.joined) if is_meant else None
    return (found[0], found[2]) if found and found[1] == "+=" and "$" not in found[0] else None


def probe(number, line, of_references):
    """The line that has make tell; `of_references` answers what tells whether a text of references has a value."""
    name, text = appended(line)
    is_of_references = text == "" or after_references.is_of_references(text)
    return PROBE.format(number=number, name=name, new=of_references(name, text) if is_of_references else IS_VALUE)


def expanded(name, text):
    """What tells of it by expanding it."""
    del name
    return f"$(if {text},{IS_VALUE})"


def unexpanded(name, text):
    """What leaves it open where that counts."""
    return UNLESS_IMMEDIATE.format(name=name) if text else ""


class AppendProbes:
    """The lines of ported files that append, with their numbers; and what make told of them."""

    def __init__(self, ported):
        lines = [line for file in ported for line in file.lines if not line.is_makes and appended(line)]
        self.numbers, self.told = dict(zip(lines, range(FIRST, FIRST + len(lines)))), {}

    def marked(self, line, text):
        """The text of a line with its probe before it, where it has one."""
        number = self.numbers.get(line)
        return text if number is None else f"{probe(number, line, unexpanded)}\n{text}"

    def take(self, found):
        """Takes what make told, by numbers."""
        self.told = {line: found.get(number, []) for line, number in self.numbers.items()}

    def known(self, line):
        """What make told of a line; None where it is to be asked."""
        found = self.told.get(line)
        return None if found is None or any(one.endswith(f"|{NOT_ASKED}") for one in found) else found
