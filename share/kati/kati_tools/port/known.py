"""What is known in a port: the makefiles as they were and are, what make told of them before anything was changed, and
what kati gets beside their lines."""
import os
from collections import Counter
from dataclasses import dataclass, field

from ..base import files
from ..makefile import ported_text
from ..make import make_run
from . import freezing, frozen_values, values_file


@dataclass
class FirstLook:
    """What make did before anything was changed: the shell of its commands, and these, as `MakeRun.commands` answers
    them; the makefiles that it read, the files that it made first, those that it wrote anew, and those that it wrote
    above or beside this folder with these; what `$(shell ..)` wrote, the folders that it made, what it wrote in
    recipes, each file with one that holds it, and None for a folder, and what it wrote outside of this folder; the
    dependencies that aren't there when kati reads, the times of all files, and the variables of the environment on
    which all that hangs."""

    shell: str = ""
    commands: tuple = ()
    read: set = field(default_factory=set)
    made: list = field(default_factory=list)
    remade: list = field(default_factory=list)
    made_above: list = field(default_factory=list)
    by_shell: list = field(default_factory=list)
    folders: list = field(default_factory=list)
    by_recipes: dict = field(default_factory=dict)
    outside: list = field(default_factory=list)
    hidden: list = field(default_factory=list)
    times: dict = field(default_factory=dict)
    of_environment: list = field(default_factory=list)


@dataclass
class ForKati:
    """What kati gets beside the lines of the makefiles: its limit of levels; the words of the command line that stand
    in the makefile, which overrides them; the macros that are empty at its end; what tells of the run; and the suffixes
    of make's own rules that the makefile takes back."""

    depth: int = None
    taken_words: dict = field(default_factory=dict)
    cleared: list = field(default_factory=list)
    of_the_run: dict = field(default_factory=dict)
    taken_back: list = field(default_factory=list)


@dataclass
class WrittenOut:
    """The lines that are written out, and what the texts in their place hang on: patterns of wildcards, and files that
    commands name."""

    lines: list = field(default_factory=list)
    patterns: set = field(default_factory=set)
    files: set = field(default_factory=set)


class Port:
    """The port of a makefile in this process's folder, which is the copy `copy`; its files stand in `room`."""

    def __init__(self, asked, copy, room):
        self.asked, self.copy, self.room = asked, copy, room
        self.makefile = os.path.normpath(asked.makefile)
        self.is_led_out = copy.take_in(self.makefile)
        # What a port for other goals has found out, which is the beginning of this one.
        self.run = make_run.MakeRun(self.makefile, asked.goals, asked.macros, room, copy.environment(),
                                    asked.known.answers)
        # The files by their names, and the macros that stand for values; the file of values of before is `kept_values`.
        self.ported, self.kept_values = {}, kept_values(copy, room)
        self.values = frozen_values.Values(values_file.ValuesFile(self.kept_values)
                                           if self.kept_values is not None else None)
        self.first, self.for_kati, self.written_out = FirstLook(), ForKati(asked.depth), WrittenOut()
        # What make told of the calls; and what wildcards of names fit, as far as it was asked for several at once.
        self.probes, self.fitting = None, {}
        # What mends constructs, with what it has found out, by its class.
        self.freezer, self.menders = freezing.Freezer(self), {}
        # kati's faults that were mended.
        self.faults = []
        # What is told at the end.
        self.did, self.notes = Counter(), copy.told()
        # kati's list of files, for this port, whether the file of values was there when it was made, whether it is of
        # the makefiles as they are, None before kati takes them, and what of it the build makes.
        self.listing, self.listing_has_values, self.is_list_sure, self.dropped = None, False, None, set()

    def mender(self, kind):
        """What mends a construct, by its class."""
        if kind not in self.menders:
            self.menders[kind] = kind(self)
        return self.menders[kind]

    def tell(self, kind, detail=""):
        """Counts something that was done."""
        self.did[kind, detail] += 1

    def note(self, words):
        """Keeps a line that is told at the end."""
        if words not in self.notes:
            self.notes.append(words)

    def load(self, name):
        """The file of this name, which may be rewritten; None where it may not."""
        name = os.path.normpath(name)
        if name != frozen_values.NAME and name not in self.ported and os.path.isfile(name) and self.copy.own(name):
            prefix = ported_text.PREFIX if name == self.makefile else ported_text.prefix_of(name)
            self.values.prefixes.add(prefix)
            self.ported[name] = ported_text.PortedFile(name, files.read(name), prefix)
        return self.ported.get(name)

    def lines(self):
        """All lines of all files, but for those that are make's alone."""
        return [line for file in self.ported.values() for line in file.lines if not line.is_makes]


def kept_values(copy, room):
    """The file of values of an earlier port, which is then as the copy has paths; None without, or where a link stands
    in its place, which isn't followed."""
    kept = None if os.path.islink(frozen_values.NAME) else files.read(frozen_values.NAME)
    if kept is None:
        return None
    kept = copy.copied_text(kept)
    files.replace(frozen_values.NAME, kept, room)
    return kept
