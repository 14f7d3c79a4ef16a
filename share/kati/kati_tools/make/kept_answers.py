"""What make told that doesn't hang on the goals: asked for others by the same makefiles, it needn't tell that again."""
import os

from .command_environment import OWN

# What is asked beside the values of texts.
SHELLS, INCLUDES, FIRST, ENVIRONMENT = "shells", "includes", "first", "environment"
VALUE, WITH_OWN_SHELL = "value ", "value by its own shell "
# What stands for the folder in which make was asked, which is another one each time.
ROOM = "@@kati-room@@"


def replaced(told, text, other):
    """What make told, as texts, lists and tables of them, with another text in the place of one."""
    if isinstance(told, str):
        return told.replace(text, other)
    if isinstance(told, list):
        return [replaced(one, text, other) for one in told]
    return {name: replaced(one, text, other) for name, one in told.items()} if isinstance(told, dict) else told


class Answers:
    """What make told before, by what it was asked, and what it tells now, while it is asked in the folder `room`."""

    def __init__(self, before, room):
        # By a link to that folder its path is no text to replace.
        self.before, self.now, self.room = before if os.path.realpath(room) == room else {}, {}, room

    def known(self, question):
        """What make told before; None where it didn't."""
        found = self.before.get(question)
        return None if found is None else replaced(found, ROOM, self.room)

    def tell(self, question, answer):
        """Keeps what make tells now; nothing that it tells otherwise each time."""
        answer = replaced(answer, self.room, ROOM)
        self.now[question] = answer if self.now.get(question, answer) == answer else None

    def all(self):
        """What is known, for another run of these tools."""
        return {question: answer for question, answer in {**self.before, **self.now}.items() if answer is not None}


def has_exports(difference):
    """Whether make hands something on by such a difference, of which the value may be another one without a sign."""
    return not OWN.issuperset([*difference["has"], *difference["lacks"]])


def difference(told, given):
    """How an environment that make told differs from the one that it was given."""
    return {"has": {name: value for name, value in told.items() if given.get(name) != value},
            "lacks": [name for name in given if name not in told]}


def environment(found, given):
    """The environment that make would tell where it is given another one, by such a difference."""
    kept = {name: value for name, value in given.items() if name not in found["lacks"]}
    return {**kept, **found["has"]}
