"""What a port has found out that holds for other goals of the same makefiles, too, so that one for `install` doesn't
find all of it out anew: what make told that doesn't hang on the goals, which faults kati had, and what its commands
lacked.

What make told counts as long as the makefiles, the macros of the command line, these tools and all that it hangs on
are as they were. The faults are a beginning alone: kati is asked all the same, and its commands are compared with
make's for these goals as ever."""
import hashlib
import json
import os

from ..base import files, words
from ..base.programs import bytes_of
from ..make import kept_answers
from ..makefile import includes
from . import mending_alike, watched

NAME = "other-goals.json"
# By what a makefile may do otherwise for other goals, wherever it does.
GOALS = "MAKECMDGOALS"
# Faults in recipes, and circles, which other goals may not need.
OF_GOALS = ("E16", "E28", "E32")


class Known:
    """What ports before this one have found out: what make told, with the sums of the words that it hangs on; kati's
    faults, each as its number, the file and the text of the line, the word that it ends with, and its words; what
    menders did, by the names of their classes; and what of the commands differed."""

    def __init__(self, answers=(), sums=(), faults=(), menders=(), differing=()):
        self.answers, self.watched, self.faults, self.menders = dict(answers), dict(sums), list(faults), dict(menders)
        self.differing = list(differing)

    def is_doubted(self, stuck, differing):
        """Whether what make told for other goals may be another value by now, where nothing shows it: the port is stuck
        with it, or something differs that didn't."""
        return bool(self.answers) and (bool(stuck) or not set(differing) <= set(self.differing))


def given(record):
    """What make's answers are for: the makefile, the macros, the folder and the tools."""
    found = record.given()
    return {**found, "words": [record.makefile, *words.macros_of(record.asked.words)]}


def sum_of(text):
    """What tells a text that was written whole from another one."""
    return hashlib.sha256(bytes_of(text)).hexdigest()


def kept(record, is_asked_anew):
    """What is kept in the folder of a record, by these tools; what make told only where that still is so and it isn't
    asked anew."""
    total, _, text = (files.read(os.path.join(record.room, NAME)) or "").partition("\n")
    found, now = json.loads(text) if total == sum_of(text) else None, given(record)
    if found is None or found["for"]["tools"] != now["tools"]:
        return Known()
    is_so = not is_asked_anew and found["for"] == now and watched.first_changed(found["watched"]) is None
    told = (found["answers"], found["watched"]) if is_so else ((), ())
    return Known(*told, found["faults"], found["menders"], found["differing"])


def keep(record, known, found, sums):
    """Keeps what a port, with these sums of what it hangs on, has `found`, which began with what was known."""
    differing = list(dict.fromkeys([*(known.differing if known.answers else ()), *found["differing"]]))
    data = {"for": given(record), "watched": {**known.watched, **sums}, **found, "differing": differing}
    text = json.dumps(data)
    files.keep(os.path.join(record.room, NAME), f"{sum_of(text)}\n{text}", record.room)


def found_by(port, comparison):
    """What a port has found out, as data."""
    told = {type(one).__name__: one.found() for one in port.menders.values()}
    differing = [*comparison.makes, *comparison.katis, *comparison.in_environment, *comparison.of_the_shell,
                 *comparison.calls.differences]
    return {"answers": lasting_answers(port), "faults": port.faults,
            "menders": {name: one for name, one in told.items() if one is not None},
            "differing": [port.copy.real_text(one) for one in differing]}


def lasting_answers(port):
    """What make told and what another one may need; nothing where the makefiles name their goals."""
    own = [file.before for file in port.ported.values()]
    others = [files.read(name) for name in port.first.read if name not in port.ported and os.path.isfile(name)]
    answers = {} if any(GOALS in text for text in own + others) else port.run.answers.all()
    lasting = () if has_read_all(port) else (kept_answers.SHELLS, kept_answers.INCLUDES)
    return {question: answer for question, answer in answers.items() if question not in lasting}


def has_read_all(port):
    """Whether make has read all that the makefiles include, and has made and written nothing by that: so it will be
    the next time."""
    first = port.first
    named = {name for file in port.ported.values() for name in includes.named_in(file.before)}
    is_all = all("*" not in name and os.path.isfile(name) for name in named)
    made = first.made or first.made_above or first.remade
    return is_all and not (made or first.by_shell or first.folders or first.outside or first.hidden)


def note(port, fault):
    """Notes a fault that is mended."""
    place = [fault.file.name, fault.line.text] if fault.line else [None, None]
    found = [fault.number, *place, fault.last, fault.words]
    port.faults += [found] if found not in port.faults else []


def begin(port):
    """Mends, before kati is asked, what the ports before had to."""
    known = port.asked.known
    for one in port.menders.values():
        if type(one).__name__ in known.menders:
            one.begin_as(known.menders[type(one).__name__])
    numbers = list(dict.fromkeys(number for number, *_ in known.faults if number in mending_alike.ALIKE))
    mending_alike.mend(port, numbers)
    port.faults += [[number, None, None, "", ""] for number in numbers]
    port.faults += [one for one in known.faults if one[0] not in mending_alike.ALIKE and mend_again(port, *one)]


def mend_again(port, number, name, text, last, words_of_it):
    """Mends a fault once more, where its line is as it was and isn't mended yet; answers whether it did."""
    file = name and port.load(name)
    lines = [line for line in file.lines if line.text == text and not (line.is_wrapped or line.edits)] if file else []
    if number in OF_GOALS or not lines and name is not None:
        return False
    return mending_alike.mend_alike(port, mending_alike.Alike(file, lines[0] if lines else None, number, last,
                                                              words_of_it))
