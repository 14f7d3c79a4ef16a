"""A makefile and its includes, rewritten until kati takes them, in a copy of their folder.

kati itself says what is to be done: it is run, the line that its fault names is mended, with those that make reads and
that kati would refuse in the same way (mending_alike.py), and again, so that only what they meet is changed. What make
makes of a makefile is asked before anything is changed (first_look.py). What mends which construct is found in a table
(constructs.py)."""
import os
import re

from . import asking_kati, constructs, first_look, making_makefiles, mending_alike, mending_exports, other_goals, saving
from .stuck import Stuck, last_line
from ..base.programs import Stop

FAULT = re.compile(r"^(.*?)(?::(\d+))?: \*\*\* (.*) \[(E\d\d)\]$", re.MULTILINE)
ROUNDS = 500
# What is said of a port that takes more than a second.
AT_WORK = "ports {}: make is asked what its lines mean, and kati whether it takes them"


class Fault:
    """A fault of kati's, and the line that it names as far as that is one of the makefiles."""

    def __init__(self, port, said):
        file, number, self.words, self.number = said.group(1), int(said.group(2) or 0), said.group(3), said.group(4)
        self.said = said.group()
        self.last = self.words.split(" ")[-1]
        self.file = port.load(os.path.relpath(file)) if number and os.path.isfile(file) else None
        self.line = self.file.line_at(number) if self.file else None

    def told(self):
        """kati's words for it, with the number of the line as it was."""
        place = f"{self.file.name}:{self.line.number}" if self.line else None
        return f"{place}: *** {self.words} [{self.number}]" if place else self.said


def mend(port, translation):
    """Mends what kati's fault names."""
    found = list(FAULT.finditer(translation.said))
    if not found:
        raise Stuck(last_line(translation.said) or f"kati ended with status {translation.status}")
    fault = Fault(port, found[-1])
    if not is_mended(port, fault) and not port.mender(mending_exports.Exports).lessen():
        raise Stuck(fault.told(), fault)


def is_mended(port, fault):
    """Mends what a fault names, and what is alike; answers whether that changes something."""
    before = state(port)
    if not any(one(port, fault) and state(port) != before for one in constructs.menders_of(fault)):
        return False
    other_goals.note(port, fault)
    mending_alike.mend(port, [fault.number])
    return True


def is_making_mended(port, translation):
    """The same for a fault that kati has in what makes makefiles, beside a translation for the goals; one that can't be
    mended stays, and kati-build tells of it."""
    found = making_makefiles.fault(port, translation)
    told = list(FAULT.finditer(found.said)) if found else []
    fault = Fault(port, told[-1]) if told else None
    return fault is not None and fault.number in making_makefiles.MENDED and is_mended(port, fault)


def state(port):
    """What another one tells that something was mended."""
    return [file.text() for file in port.ported.values()], len(port.values.all), port.for_kati.depth


def rewrite(port):
    """Rewrites the files of a port until kati takes them; answers its translation."""
    constructs.give_menders(port)
    first_look.look(port)
    constructs.begin(port)
    other_goals.begin(port)
    for _ in range(ROUNDS):
        saving.save(port)
        translation = asking_kati.translate(port)
        if translation.status:
            mend(port, translation)
        elif not (constructs.settle(port, translation) or asking_kati.has_other_list(port)
                  or is_making_mended(port, translation)):
            constructs.end(port)
            saving.save(port)
            return translation
    raise Stop("no end of faults", 1)
