"""make's database, as far as it tells what make knows of targets at the end of a run."""
import re

# What stands before it, behind the commands, in English.
BEGIN = "\n# Make data base, printed on "
TARGET = re.compile(r"^([^\s#:=][^:=\n]*):(?: (.*))?$", re.MULTILINE)
STEM = re.compile(r"^#  Implicit/static pattern stem: '(.*)'$", re.MULTILINE)
RECIPE = re.compile(r"^#  recipe to execute \(from '(.*)', line (\d+)\):$", re.MULTILINE)
PHONY = "\n#  Phony target"


class Known:
    """What make knows of a target at the end: its prerequisites, whether it is phony, the stem, and the line where its
    recipe begins; None where it has none."""

    def __init__(self, needs, rest):
        self.needs, self.is_phony = needs, PHONY in rest
        stem, recipe = STEM.search(rest), RECIPE.search(rest)
        self.stem = stem and stem.group(1)
        self.recipe = recipe and (recipe.group(1), int(recipe.group(2)))


def targets(text):
    """What make knows of each target, by its name, of what it printed with its database; in another language than
    English a command before that may look like a target's line."""
    found = {}
    for match in TARGET.finditer(text, max(text.find(BEGIN), 0)):
        rest = text[match.end():max(text.find("\n\n", match.end()), match.end())]
        for name in match.group(1).split():
            found.setdefault(name, Known(match.group(2) or "", rest))
    return found
