"""The rules that make has by itself, and that a makefile takes back: by a rule without a recipe, as `%: %.c`, by an
empty .SUFFIXES or by -r in MAKEFLAGS. kati gets the list of them for builtin-rules.mk."""
import os
import re

from ..base import files
from ..base.programs import SHARE
from ..build import translating
from ..make import command_lists, make_run
from ..makefile import quick_looks
from . import port_report
from .mender import Mender

KNOWN = re.compile(r"\(filter ([^\s,]+),")
# The rules of make's database, behind what they begin with, by what is made and from what; one that is taken back has
# no recipe.
LISTING, LISTED = "\n%", re.compile(r"(\S*): %(\S+)\n#  recipe")


class TakenBack(Mender):
    """Those that make hasn't, once kati's commands aren't make's."""

    def __init__(self, port):
        super().__init__(port)
        self.is_settled = False

    def has_use_for_database(self):
        """Whether the makefiles may take rules back."""
        return any(quick_looks.may_take_rules_back(file.before) for file in self.port.ported.values())

    def begin(self):
        """Gives kati the list where make has told of its rules already, and nobody is to read the makefile."""
        if self.port.asked.for_build and self.port.run.ended_with and self.has_use_for_database():
            self.is_settled, self.port.for_kati.taken_back = True, self.asked()

    def settle(self, translation):
        """Asks make for its rules; answers whether some are taken back."""
        if self.is_settled or not self.has_use_for_database():
            return False
        self.is_settled = True
        if command_lists.alone(port_report.commands_of(translation.statements), self.port.first.commands[1]):
            self.port.for_kati.taken_back = self.asked()
        return bool(self.port.for_kati.taken_back)

    def asked(self):
        """The suffixes of kati's rules that make hasn't."""
        known = KNOWN.findall(files.read(os.path.join(SHARE, translating.RULES)))
        database = self.port.run.ended_with or self.port.run.database(make_run.NO_GOAL)
        # A database is large, and few of its lines begin so.
        rules = (LISTED.match(database, at + len(LISTING)) for at in quick_looks.places_of(database, LISTING))
        told = {f"{found.group(2)}{found.group(1)}" for found in filter(None, rules)}
        return [one for one in known if one not in told]

    def tail(self):
        """What kati gets at the end of the makefile."""
        suffixes = self.port.for_kati.taken_back
        return [f"KATI_TAKEN_BACK = {' '.join(suffixes)}"] if suffixes else []
