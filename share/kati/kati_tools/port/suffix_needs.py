"""`.c.o: defs.h` with a recipe: make takes it for a suffix rule, ignores its prerequisites, and says so; for kati it is
a rule for a file of that name. kati gets it without prerequisites."""
import re

from ..make import command_lists
from ..makefile import statements
from ..makefile.syntax import Kind
from . import folder_search, port_report
from .mender import Mender

IGNORED = "warning: ignoring prerequisites on suffix rule definition"
TWO_SUFFIXES = re.compile(r"(\.[^./%$\s]+){2}")


def without_needs(text):
    """A rule line without its prerequisites."""
    rule = statements.Rule(text)
    return text[:rule.needs_at] + text[rule.end:]


class SuffixNeeds(Mender):
    """Those of a makefile, where make has commands that kati hasn't."""

    def __init__(self, port):
        super().__init__(port)
        self.is_settled = False

    def settle(self, translation):
        """Has kati take them for suffix rules, where make says that it does; answers whether that changes the
        makefile."""
        lines = [] if self.is_settled else list(self.lines())
        self.is_settled = True
        commands = port_report.commands_of(translation.statements) if lines else []
        if not lines or not command_lists.alone(self.port.first.commands[1], commands) \
                or IGNORED not in self.port.run.warnings():
            return False
        for line in lines:
            line.wrap(without_needs)
            self.port.tell("suffix needs")
        return True

    def lines(self):
        """The lines of such rules, each with a recipe."""
        for file in self.port.ported.values():
            for at, line in enumerate(file.lines):
                rule = line.says if line.kind is Kind.RULE and not (line.is_makes or line.is_gone or line.is_wrapped) \
                    else None
                if rule and rule.needs and not rule.is_double and all(map(TWO_SUFFIXES.fullmatch, rule.targets)) \
                        and folder_search.recipe_of(file.lines, at, rule):
                    yield line
