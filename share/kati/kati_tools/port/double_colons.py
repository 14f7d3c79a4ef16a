"""`X:: y` without a recipe, for which make looks for an implicit rule, and kati for none: kati gets `X: y` where no
other `X::` stands beside it, as both mean the same then."""
import re
from collections import Counter

from ..make import command_lists
from ..makefile import statements
from ..makefile.syntax import Kind
from . import folder_search, port_report
from .mender import Mender

# What make knows of a target with a double colon for which it found an implicit rule.
IMPLICIT = re.compile(r"([^\s#:=][^:=\n]*)::.*\n(?:[#\t].*\n)*?#  Implicit/static pattern stem: ")
ADVICE = "make looks for an implicit rule for each, and kati for none: write its recipe"


def with_one_colon(text):
    """A rule line with a single colon in the place of the double one."""
    at = statements.Rule(text).colon
    return text[:at] + text[at + 1:]


def made_by_implicit(database):
    """The targets with a double colon for which make found an implicit rule, as its database tells."""
    at = database.find("::")
    while at >= 0:
        found = IMPLICIT.match(database, database.rfind("\n", 0, at) + 1)
        yield from found.group(1).split() if found else ()
        at = database.find("::", at + 2)


class DoubleColons(Mender):
    """Those of a makefile, where make has commands that kati hasn't."""

    def __init__(self, port):
        super().__init__(port)
        self.is_settled, self.told = False, []

    def texts(self):
        """The targets of those lines."""
        return [" ".join(rule.targets) for _, rule, _ in self.lines()]

    def has_use_for_database(self):
        """Whether a rule may have no recipe."""
        return bool(self.lines())

    def settle(self, translation):
        """Has kati look for implicit rules; answers whether that changes the makefile."""
        lines = [] if self.is_settled else self.lines()
        self.is_settled = True
        commands = port_report.commands_of(translation.statements) if lines else []
        if not lines or not command_lists.alone(self.port.first.commands[1], commands):
            return False
        made = set(made_by_implicit(self.port.run.ended_with or self.port.run.with_database()[1]))
        told = self.port.run.values([" ".join(rule.targets) for _, rule, _ in lines])
        targets = [(names or "").split() for names in told]
        counts = Counter(name for names in targets for name in names)
        return any([self.mend(line, names, counts)
                    for (line, _, has_recipe), names in zip(lines, targets)
                    if not has_recipe and made.intersection(names)])

    def lines(self):
        """The lines with a double colon and without a `%`, each with its rule, and whether it has a recipe."""
        found = []
        for file in self.port.ported.values():
            for at, line in enumerate(file.lines):
                rule = line.says if line.kind is Kind.RULE and not (line.is_makes or line.is_gone) else None
                if rule and rule.is_double and "%" not in "".join(rule.targets):
                    found.append((line, rule, bool(folder_search.recipe_of(file.lines, at, rule))))
        return found if not all(has_recipe for _, _, has_recipe in found) else []

    def differences(self, comparison):
        """What to say of those for which kati looks for no rule: nothing where it has all of make's commands, so that
        the rules which make finds have none."""
        return self.told if comparison.makes else []

    def mend(self, line, names, counts):
        """Gives kati a single colon, or says why it can't be; answers whether it did."""
        several = [name for name in names if counts[name] > 1]
        if several or line.is_wrapped:
            more = " and stands there more than once" if several else ""
            told = f"{(several or names)[0]}:: has no recipe{more}: {ADVICE}"
            if told not in self.told:
                self.told.append(told)
            return False
        line.wrap(with_one_colon)
        self.port.tell("double colon")
        return True
