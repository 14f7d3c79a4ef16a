"""Commands that run make get the words of the command line and a number of jobs, as make gives them to inner makes: the
shell of kati's commands has them in the environment of those for which it is."""
from ..build import inner_makes
from .mender import Mender

NAMES = "KATI_INNER_MAKES"
# The flags are quoted as any other value that the shell is given.
WORDS = f'MAKEFLAGS=" $(call KATI_QUOTED,$({inner_makes.FLAGS}))" MAKELEVEL="1" '


def escaped(name):
    """A name of a target as a pattern of `filter` within a macro; None of one that can't stand there."""
    if set(name) & set(" \t\\"):
        return None
    return name.replace("$", "$$").replace("#", "\\#").replace("%", "\\%")


class InnerMakes(Mender):
    """The targets of a port whose commands run make; none where kati-build doesn't give such flags."""

    def __init__(self, port):
        super().__init__(port)
        self.targets = []

    def settle(self, translation):
        """Finds them in a translation; answers whether that changes the makefile."""
        if not self.port.asked.for_build:
            return False
        before = self.targets
        found = [one for one in translation.statements if one.command is not None
                 and inner_makes.runs_make(one.command)]
        self.targets = sorted(filter(None, (escaped(name) for one in found for name in one.outputs)))
        return self.targets != before

    def lines(self):
        """What stands before the shell at the end of the makefile."""
        return [f"{NAMES} := {' '.join(self.targets)}"] if self.targets else []

    def words(self):
        """What stands before the shell in commands."""
        return [f"$(if $(filter $({NAMES}),$@),{WORDS})"] if self.targets else []
