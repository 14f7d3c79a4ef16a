"""Which branches of conditionals kati takes: it is asked of copies that tell so.

Behind each line that begins or ends a branch a copy has a line with $(info ..), which kati writes where it comes by.
A branch isn't taken where kati came by the end of its conditional and not by its beginning; where a fault kept kati
from that, nothing is known."""
import os
import re

from ..base import files
from . import statements, syntax

MARK = "kati_port_came_by"
SAID = re.compile(rf"^{MARK} (\d+) (\d+)$", re.MULTILINE)
# The branch whose mark tells of the end of a conditional.
END = -1


def mark_of(block, branch):
    """The line for a branch, or for the end of a conditional."""
    return f"$(info {MARK} {block} {branch + 1})"


def marked(text, marks, copies):
    """The text of a makefile with its marks, by the number of the line behind which they stand; what it includes by a
    plain name is the copy of that."""
    found = []
    for line in syntax.lines(text):
        include = None if line.is_tab else statements.include(statements.without_comment(line.joined))
        if include:
            found.append(" ".join([include.word, *(copies.get(name, name) for name in include.names)]))
        else:
            found.append(line.text)
        found += marks.get(line.number, [])
    return "\n".join(found)


def write_copies(scan, room):
    """Writes the copies of the makefiles that were looked through; answers their names, by those of the makefiles."""
    copies = {name: os.path.join(room, f"{number}.mk") for number, name in enumerate(scan.read)}
    for name, copy in copies.items():
        files.replace(copy, marked(files.read(name), scan.marks.get(name, {}), copies), room)
    return copies


def not_taken(said):
    """A function that answers whether a place isn't in a branch that is taken, by what kati said of the copies; the
    place as the numbers of conditionals and branches round it."""
    passed = {(int(block), int(branch) - 1) for block, branch in SAID.findall(said)}

    def is_idle(place):
        return any((block, END) in passed and (block, branch) not in passed for block, branch in place)
    return is_idle
