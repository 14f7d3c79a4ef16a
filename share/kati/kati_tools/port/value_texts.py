"""`$(value X)` of a macro that is mended: both programs get the text that X had, as a macro of kati-values.mk."""
from ..makefile import references
from . import frozen_values, mending
from .mender import Mender


def asks(reference):
    """Whether a reference asks for the text of a macro whose name is written out."""
    return reference.function == "value" and bool(references.PLAIN_NAME.fullmatch(reference.argument))


def asked_in(line):
    """Such references of a line."""
    return list(filter(asks, references.references(line.text[:line.expanded_length()]))) if "value" in line.text else []


class ValueTexts(Mender):
    """Those of a port, with what make told of them before anything was changed."""

    def __init__(self, port):
        super().__init__(port)
        self.told = {}

    def texts(self):
        """The texts of such macros."""
        return list(dict.fromkeys(one.text for line in self.port.lines() for one in asked_in(line)))

    def look(self):
        """Asks for them."""
        texts = self.texts()
        self.told = dict(zip(texts, self.port.run.values(texts)))

    def settle(self, translation):
        """Gives them to both programs; answers whether that changes the makefile."""
        del translation
        lines = [(line, one) for line in self.port.lines() for one in asked_in(line)
                 if (one.start, one.end) not in line.edits and self.told.get(one.text)]
        definitions = mending.definitions_of(self.port) if lines else {}
        meant = [(line, one) for line, one in lines if any(map(is_mended, definitions.get(one.argument, [])))
                 and "\n" not in self.told[one.text]]
        for line, one in meant:
            value = self.told[one.text]
            name = self.port.values.add(line, one.argument, frozen_values.escaped(value), value, one.text)
            line.edits[one.start, one.end] = f"$({name})"
            self.port.tell("frozen", "value")
        return bool(meant)

    settle_beside = settle


def is_mended(line):
    """Whether a line that gives a macro its text has another one now."""
    return bool(line.edits) or line.is_wrapped
