"""Statements without inputs, order-only inputs aside: make runs their recipes only where the file isn't there, however
the command reads.

With `generator` ninja does so, too: neither a log that is gone nor another command makes such a file anew, which a user
may have edited; and `ninja -t clean` leaves the file."""
import re

LINE = " generator = 1"
# What may be such a line, and what is one.
MAYBE = re.compile(rb": r\d+(?: \|\| [^\n]*)?\n")
STATEMENT = re.compile(r"build (?:\$.|[^:$])*: r\d+(?: \|\| .*)?")


def lines(translation):
    """The lines for kati's text, by the number of the line behind which they stand."""
    if not any(map(MAYBE.search, translation.pieces())):
        return {}
    return {number: [LINE] for number, line in enumerate(translation.text.split("\n")) if STATEMENT.fullmatch(line)}
