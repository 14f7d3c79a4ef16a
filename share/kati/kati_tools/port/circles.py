"""`.o.c:` beside a rule by which `x.o` comes of `x.c`, a circle: make leaves the prerequisite `x.o` of `x.c` out, and
takes `x.c` for the file that it is. kati refuses a circle. Where this is so of all that make would make by such a rule,
the rule is for make alone, and these names are files for kati."""
import itertools
import os

from ..makefile import statements
from ..makefile.syntax import Kind
from . import watched
from .mender import Mender
from .stuck import Stuck

# A target that nothing needs has the recipe for kati. It begins with a dot, so it is no goal.
NOBODY = ".kati_circle_"


class Circles(Mender):
    """Those rules of a makefile, and the names that are files for kati because of that."""

    def __init__(self, port):
        super().__init__(port)
        self.names = set()

    def mend(self):
        """Keeps them for make; answers whether there are any."""
        circles = self.port.run.circles
        found = [] if circles is None else [(line, names) for line, names in uses(self.port, circles)
                                            if all(is_dropped(line.says, name, circles) for name in names)]
        for line, names in found:
            self.keep_for_make(line, names)
        return bool(found)

    def keep_for_make(self, line, names):
        """Keeps one, and has make asked again where one of the names that it would make comes or goes."""
        texts = "\n".join(file.text() for file in self.port.ported.values())
        nobody = next(name for name in (f"{NOBODY}{number}" for number in itertools.count(1)) if name not in texts)
        line.wrap(lambda text: without_use(text, nobody))
        self.names.update(names)
        self.port.written_out.files.update(f"{watched.THERE}{name}" for name in names)
        self.port.tell("circle")

    def settle(self, translation):
        """Stops where another rule makes one of the names, which might be written over."""
        for name in sorted(self.names & translation.outputs):
            raise Stuck(f"{name}: make drops a circle here, and makes it by no rule; kati would, by another one")
        return False


def mend(port, fault):
    """E28."""
    del fault
    return port.mender(Circles).mend()


def uses(port, circles):
    """The rule lines by which make would make files that it leaves alone, each with all names that it would make by
    its recipe."""
    places = {circles.known[name].recipe for name in circles.files}
    lines, found = {place: line_of(port, place) for place in places}, {}
    for name, known in circles.known.items():
        line = lines.get(known.recipe)
        # make's database has its implicit rules by their patterns, and suffix rules by their names.
        if line is not None and "%" not in name and not (name[0] == "." and name in line.says.targets):
            found.setdefault(line, []).append(name)
    return [(line, found[line]) for line in port.lines() if line in found]


def line_of(port, place):
    """The line of the rule whose recipe begins at a place of the makefiles as they were; None where it isn't one that
    make and kati share."""
    file = port.ported.get(os.path.normpath(os.path.relpath(place[0])))
    before = [line for line in file.lines if line.number <= place[1]] if file else []
    line = before[-1] if before else None
    rule = line.rule if line and line.kind is Kind.RECIPE else line
    is_shared = rule and rule.kind is Kind.RULE and not (rule.is_makes or rule.is_gone or rule.is_wrapped)
    return rule if is_shared else None


def is_dropped(rule, name, circles):
    """Whether make would make a name by an implicit rule from nothing but prerequisites that it left out, and takes it
    for a file."""
    stem = circles.known[name].stem
    return stem is not None and name in circles.files and any(
        pattern.replace("%", stem, 1) == name
        and circles.left_out[name].issuperset(need.replace("%", stem, 1) for need in needs)
        for pattern, needs in patterns_of(rule, name[len(stem):]))


def patterns_of(rule, end):
    """The targets of an implicit rule as patterns, each with its prerequisites; what is made by it ends so behind the
    stem."""
    for target in rule.targets:
        suffix = target[:len(target) - len(end)]
        yield (target, rule.needs) if "%" in target else (f"%{end}", [f"%{suffix}", *rule.needs])


def without_use(text, nobody):
    """A rule line for a target that nothing needs, before the same recipe."""
    recipe = statements.Rule(text).recipe
    return f"{nobody}:{'' if recipe is None else f' ;{recipe}'}"
