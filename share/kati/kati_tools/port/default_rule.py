"""`.DEFAULT`: its recipe makes what no other rule makes, which for kati is an explicit rule of those names."""
import os

from ..makefile import statements
from .mender import Mender

# A target that nothing needs holds the recipe until the names are known. It begins with a dot, so it is no goal.
NOBODY = ".kati_default"


class DefaultRule(Mender):
    """The rule of `.DEFAULT` in a makefile, and the names that it makes."""

    def __init__(self, port):
        super().__init__(port)
        self.line, self.names, self.is_settled = None, [], False

    def add(self, line):
        """Takes the line of the rule; answers whether it could."""
        rule = statements.Rule(line.joined)
        if self.line is not None or rule.targets != [".DEFAULT"] or rule.needs:
            return False
        self.line = line
        line.wrap(self.for_kati)
        return True

    def for_kati(self, text):
        """kati's line in its place."""
        return text.replace(".DEFAULT", " ".join(self.names) or NOBODY, 1)

    def settle(self, translation):
        """Finds the names that are needed, that nothing makes, and that aren't there; answers whether there are any."""
        if self.line is None or self.is_settled:
            return False
        self.is_settled = True
        made = translation.outputs
        needed = {name for one in translation.statements for name in one.inputs}
        self.names = sorted(name for name in needed - made if not os.path.exists(name))
        self.port.tell(".DEFAULT")
        return bool(self.names)
