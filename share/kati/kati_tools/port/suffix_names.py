"""A file or folder that is named as a suffix, as the folder `.o`: make makes it by its rule, which for kati is a suffix
rule and nothing else. kati gets a group of one target, which is none."""
from ..makefile import statements
from ..makefile.syntax import Kind
from . import folder_search
from .mender import Mender


def as_group(text):
    """A rule line as that of a group of targets."""
    at = statements.Rule(text).colon
    return f"{text[:at].rstrip()} &{text[at:]}"


class SuffixNames(Mender):
    """Those that the graph needs and kati has no rule for."""

    def __init__(self, port):
        super().__init__(port)
        self.is_settled = False

    def settle(self, translation):
        """Has kati make them; answers whether that changes the makefile."""
        if self.is_settled:
            return False
        self.is_settled = True
        needed = {name for one in translation.statements for name in one.inputs
                  if name.startswith(".") and "/" not in name}
        lacking = needed - translation.outputs
        lines = list(self.lines()) if lacking else []
        told = self.port.run.values([line.says.targets[0] for line in lines])
        meant = [line for line, name in zip(lines, told) if (name or "").strip() in lacking]
        for line in meant:
            line.wrap(as_group)
            self.port.tell("suffix name")
        return bool(meant)

    def lines(self):
        """The lines of rules that kati may take for suffix rules: one target, no prerequisites, and a recipe."""
        for file in self.port.ported.values():
            for at, line in enumerate(file.lines):
                rule = line.says if line.kind is Kind.RULE and not (line.is_makes or line.is_gone or line.is_wrapped) \
                    else None
                if rule and len(rule.targets) == 1 and not rule.is_double and not rule.needs \
                        and folder_search.recipe_of(file.lines, at, rule):
                    yield line
