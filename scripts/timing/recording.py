"""Puts tables that a script printed into a document: each replaces the first table below its title."""
import contextlib
import io
import re
import sys


class Printed(io.StringIO):
    """Standard output, which also keeps what is printed."""

    def write(self, text):
        sys.__stdout__.write(text)
        return super().write(text)

    def flush(self):
        sys.__stdout__.flush()


@contextlib.contextmanager
def kept():
    """Gives what is printed meanwhile, as a file."""
    with contextlib.redirect_stdout(Printed()) as printed:
        yield printed


def first_table(lines, title):
    """The numbers of the first line of the table below a title and of the line behind its last; None where there is
    none."""
    titled = next((number for number, line in enumerate(lines) if re.fullmatch(r"#+ " + re.escape(title), line)), None)
    if titled is None:
        return None
    rows = range(titled + 1, len(lines))
    first = next((number for number in rows if lines[number].startswith(("|", "#"))), None)
    if first is None or lines[first].startswith("#"):
        return None
    return first, next((number for number in range(first, len(lines)) if lines[number][:1] != "|"), len(lines))


def recorded(document, title, printed):
    """The document with the table that was printed; a ValueError where it has none with that head below the title."""
    rows, lines = [line for line in printed.splitlines() if line.startswith("|")], document.splitlines()
    place = first_table(lines, title)
    if place is None or not rows or lines[place[0]] != rows[0]:
        raise ValueError(f"the document has no such table below {title}")
    return "\n".join([*lines[:place[0]], *rows, *lines[place[1]:], ""])
