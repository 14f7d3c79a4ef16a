"""Calls of `shell` in recipes that read a file which the build makes, and of `wildcard` that find one.

make asks when it comes to the recipe, and so after what the recipe needs is made; a value that is asked for before the
build would be another one. For kati the recipe's own shell runs such a command. Where it can't, as a function takes the
value apart, or `wildcard` looks for a file by its name, kati-build has what the recipe needs of them made before it
translates, and asks make again. Of patterns make may know the folder as it was before, by its version: that is told."""
import fnmatch
import os
import re

from ..build.always_run import ALWAYS
from ..makefile.syntax import joined
from .command_reads import before_wild, beginning_with, found_of
from .make_probes import is_read_late
from .mender import Mender
from .shell_writes import named_by
from .taken_away import outputs_of

# So many names are told of what a call reads or finds.
MOST = 3
# What becomes of a value that hangs on such files: where recipes need them, and where they don't.
IS_ASKED_AGAIN, IS_OF_BEFORE = ": kati-build has that made first, and make asked again", \
    "; kati has what it gives before the build"
# Names that stand in a list as they are.
PLAIN = re.compile(r"[\w./+@,-]+")


def needed_by(name, by_output):
    """The files that are made before a target, as it needs them, by however many others; those aside that are made at
    each run."""
    found, left = set(), [name]
    while left:
        one = by_output.get(left.pop())
        more = {os.path.normpath(need) for need in one.needs} - found if one else ()
        found.update(more)
        left += more
    makers = {one: by_output[one] for one in found if one in by_output}
    return {one for one, maker in makers.items() if maker.command is not None and ALWAYS not in maker.needs}


class MadeValues(Mender):
    """The calls of a port that were frozen, and that read what the build makes; `told` has a line for each of which
    kati has the value of before the build. `by_output` has the statements of the translation."""

    def __init__(self, port):
        super().__init__(port)
        self.seen, self.told, self.by_output = set(), [], {}

    def settle(self, translation):
        """Gives such calls to the recipe's shell; answers whether that changes the makefile."""
        self.by_output = outputs_of(translation)
        made = {name for name, one in self.by_output.items() if one.command is not None}
        names = sorted(made)
        calls = [call for line in self.port.lines() if is_read_late(line) and line.edits
                 for call in self.port.probes.of(line)]
        for call in calls:
            if call in self.port.probes.patterns:
                found = self.found_by(call, names)
                self.tell(call, "finds", found, found & {os.path.normpath(one) for one in self.asked_names(call)})
        return any([self.settle_call(call, made, names) for call in calls if call.kind == "shell"])

    def found_by(self, call, made):
        """What the build makes, in sorted names, of other targets, and a call of `wildcard` finds where recipes have
        it."""
        found = set()
        for key, patterns in self.port.probes.asked_in_recipes(call):
            for pattern in map(os.path.normpath, patterns.split()):
                names = fnmatch.filter(beginning_with(made, before_wild(pattern)), pattern)
                found.update(name for name in names if name.count("/") == pattern.count("/")
                             and key != name and not key.endswith(f"-{name}"))
        return found

    def asked_names(self, call):
        """The words that a call of `wildcard` is asked for where recipes have it."""
        return {word for _, patterns in self.port.probes.asked_in_recipes(call) for word in patterns.split()}

    def tell(self, call, does, names, sure):
        """Notes that a call reads or finds what the build makes, if it does; those of these names that make is sure to
        look at then may be made first."""
        if names and call not in self.seen:
            self.seen.add(call)
            file = next(one.name for one in self.port.ported.values() if call.line in one.lines)
            some, first = sorted(names), self.made_before(call, set(filter(PLAIN.fullmatch, sure)))
            more = f" and {len(some) - MOST} more" if len(some) > MOST else ""
            self.port.values.first.update(first)
            self.told.append(f"{file}:{call.line.number}: {joined(call.text())} {does} {', '.join(some[:MOST])}{more}, "
                             f"which the build makes{IS_ASKED_AGAIN if first == names else IS_OF_BEFORE}")
            self.port.note(self.told[-1])

    def made_before(self, call, names):
        """Those of these names that are made before make comes to a call in recipes."""
        found, left = set(), self.targets_of(call) if names else set()
        while left and found != names:
            found |= names & needed_by(left.pop(), self.by_output)
        return found

    def targets_of(self, call):
        """The targets in whose recipes make asked for a call."""
        found = set()
        for key, _ in self.port.probes.asked_in_recipes(call):
            # The target stands behind what else the value depends on, parted by what may stand in names, too.
            behind = [key[at + 1:] for at, mark in enumerate(key) if mark == "-"]
            found.update(map(os.path.normpath, [key, *behind]))
        return found.intersection(self.by_output)

    def settle_call(self, call, made, names):
        """The same for a call, where it is frozen; `names` are those that are made, sorted."""
        probes = self.port.probes
        commands = probes.asked_behind(call, probes.commands)
        read = {name for command in commands for name in {*named_by(command) & made, *found_of(names, command)}}
        span = next((one for one in call.chain if one in call.line.edits), None)
        if not read or span is None or call in self.seen:
            return False
        before = call.line.edits[span]
        if span == call.chain[0] and self.port.freezer.by_shell(call, call.line.edits):
            self.seen.add(call)
            self.port.values.drop_unused([before], self.port.ported.values())
            return True
        self.tell(call, "reads", read, read)
        return False
