"""Includes that a rule of the makefile makes: ordinary statements of the build, which the translation depends on.

make makes such an include first and reads again. Ninja does the same: what makes it is a statement, and the generator
of the Ninja file has it among its inputs, so that Ninja makes it, has the makefile translated again where it changed,
and goes on by that.

Which includes have a rule kati tells: by a makefile with one more goal, which needs all that were asked for. Where one
isn't there yet, or what it says may be what kati refuses, only what makes the includes is known: kati reads copies in
which `include` is `-include`, and the Ninja file has that alone, and tells kati's fault where it lasts."""
import os
import re
import shutil

from ..base import files
from ..base.programs import bytes_of
from ..base.words import goals_of, macros_of
from ..makefile import includes, quick_looks
from . import ninja_text, own_commands, rule_heads, translating
from .always_run import ALWAYS

GOAL = "_kati_made_includes_"
WRAPPER, VIEW = "includes.mk.new", "view"
# Names that a prerequisite can have, and an include.
PLAIN, INCLUDED = re.compile(r"[\w./+@,~ -]+"), re.compile(r"[\w./+@,~-]+")
ROUNDS = 20
DEFAULT = "\ndefault "


def default_goals(text):
    """The names after `default` in what kati wrote."""
    return list(map(ninja_text.plain, ninja_text.names(text.rpartition(DEFAULT)[2].rstrip("\n"))))


def by_output(statements):
    """Statements by the names that they make."""
    return {name: one for one in statements for name in one.outputs}


class Asking:
    """Asks kati which of the includes rules make, for a `Translator` that has translated."""

    def __init__(self, translator):
        self.translator, self.room = translator, os.path.dirname(os.path.abspath(translator.list))
        self.top = translator.makefile or translating.default_makefile()
        self.words = [*macros_of(translator.words), GOAL]

    def path(self, name):
        """Where a makefile of this name is."""
        return os.path.join(self.translator.folder or ".", name)

    def may_be_made(self, names):
        """Whether rules may make some of these names, by the text of those that are there."""
        texts = (files.read(self.path(name)) for name in names if os.path.isfile(self.path(name)))
        return any(rule_heads.may_make(text, names) for text in texts)

    def is_double(self, names, name):
        """Whether one of these makefiles has a rule with a double colon for a name."""
        texts = (files.read(self.path(one)) for one in names if os.path.isfile(self.path(one)))
        return any(name in rule.targets for text in texts for rule in rule_heads.doubled(text, name))

    def ask(self, names, folder=None):
        """kati's translation in a folder of a makefile that needs all these names."""
        needs = " ".join(name.replace(" ", "\\ ") for name in names if PLAIN.fullmatch(name))
        wrapper = os.path.join(self.room, WRAPPER)
        files.write(wrapper, bytes_of(f"include {self.top}\n.PHONY: {GOAL}\n{GOAL}: {needs}\n"))
        found = self.translator.aside(wrapper, self.words, folder)
        found.asked = [name for name in found.asked or [] if name != wrapper]
        # Read now, as each run writes to the same file.
        found.read_now()
        return found

    def view(self, names, skipped=()):
        """The same of copies, in which a file that isn't there, or is one of the skipped, is passed over; the names
        that are asked for are those of `names` too."""
        place = os.path.join(self.room, VIEW)
        shutil.rmtree(place, ignore_errors=True)
        seen, left = set(), list(dict.fromkeys([*names, *self.translator.own_makefiles()]))
        depth = max((name.count("../") for name in left), default=0)
        folder = os.path.join(place, *["below"] * depth)
        os.makedirs(folder)
        try:
            for _ in range(ROUNDS):
                for name in [name for name in left if name not in skipped and not name.startswith("/")]:
                    self.copy(name, folder)
                seen.update(left)
                found = self.ask(list(names), folder)
                left = [name for name in found.asked if name not in seen]
                names = list(dict.fromkeys([*names, *left]))
                if not left:
                    break
            found.asked = list(names)
            return found
        finally:
            shutil.rmtree(place, ignore_errors=True)

    def copy(self, name, folder):
        """Copies a makefile, if it is there."""
        data = files.content(self.path(name))
        place = os.path.join(folder, name)
        if data is not None and os.path.normpath(place).startswith(os.path.join(self.room, VIEW)):
            os.makedirs(os.path.dirname(place), exist_ok=True)
            files.write(place, quick_looks.softened(data))


class MadeIncludes:
    """The includes that rules make: `names`, as they were asked for; `text` is what kati wrote of all, and `asked` are
    the names that it asked for. `is_first` says that the text makes nothing but the includes, since kati has the fault
    `said`; else the goals of before are the first `count` of its `default`.

    `own` has what makes them without what dependency includes say, `soft` are those that may be absent, and `settled`
    those whose commands name what they say."""

    def __init__(self, asking, names, found, is_first, count=0):
        self.asking, self.names, self.found, self.is_first, self.count = asking, names, found, is_first, count
        self.statements = found.statements
        self.by_output = by_output(self.statements)
        self.names = [name for name in names if name in self.by_output]
        self.own, self.settled = self.without_dependencies(), set()
        self.soft = self.soft_ones()
        self.find_settled()

    def text_of(self, name):
        """The text of a makefile that was asked for; an empty one where it isn't there."""
        path = self.asking.path(name)
        return (files.read(path) or "") if os.path.isfile(path) else ""

    def without_dependencies(self):
        """What makes the includes where those with header dependencies aren't read."""
        self.dependencies = {name for name in self.names if quick_looks.has_rules_alone(self.text_of(name))}
        if not any(map(self.text_of, self.dependencies)):
            return self.by_output
        found = self.asking.view(self.found.asked, self.dependencies)
        return by_output(found.statements) if found.status == 0 else self.by_output

    def soft_ones(self):
        """The includes that stand only after `-include` or `sinclude`."""
        texts = [self.text_of(name) for name in self.found.asked if name not in self.dependencies]
        patterns = [one for text in texts for one in includes.named_in(text, [includes.HARD])]
        hard = {name for one in patterns for name in includes.fitting(one, self.names)}
        return set(self.names) - set(map(os.path.normpath, hard)) - hard

    def find_settled(self):
        """Finds those of which another text would change their own commands."""
        others = [name for name in self.names if name not in self.dependencies and os.path.exists(name)]
        for name in filter(self.may_change_its_command, others):
            without = self.asking.view(self.found.asked, {name})
            made = by_output(without.statements).get(name) if without.status == 0 else None
            if made and made.command != self.by_output[name].command:
                self.settled.add(name)


    def may_change_its_command(self, name):
        """Whether another text of an include may change what makes it, as far as a look tells."""
        texts = [self.text_of(one) for one in self.found.asked if os.path.normpath(one) != name]
        return own_commands.may_hang_on_itself(self.text_of(name), name, texts)


class Looking:
    """Looks for the includes that rules make, for a translation of a `Translator`. `doubts` tells of those that ninja
    doesn't make as make does."""

    def __init__(self, translator, found):
        self.translator, self.found, self.doubts, self.asking = translator, found, [], None

    def made(self, again):
        """The includes; None where there are none, or nothing is known. `again` translates with other words."""
        if self.found.asked is None or self.found.status not in (0, 2):
            return None
        self.asking = Asking(self.translator)
        top = self.asking.top
        if not (top and INCLUDED.fullmatch(top)):
            return None
        asked = [os.path.normpath(name) for name in self.found.asked if name != "makefile" or top != "Makefile"]
        asked = list(dict.fromkeys(asked))
        if not self.asking.may_be_made(asked):
            return None
        return self.first_ones(asked) if self.found.status else self.all(asked, again)

    def made_of(self, names, translation):
        """Those of these names that have statements with commands, where make reads them once they are made: it doesn't
        where they are phony, or have a double colon and no prerequisites."""
        statements = [one for one in translation.statements if one.command is not None]
        phony = {name for one in statements if ALWAYS in one.needs for name in one.outputs}
        self.doubts += [f"{name}: make runs the recipe of this include at each run, as it is phony, and ninja only "
                        "where a goal needs it" for name in names if name in phony]
        made = {name for one in statements for name in set(names).intersection(one.outputs)
                if one.needs or not self.asking.is_double(names, name)}
        return [name for name in names if name in made - phony]

    def all(self, asked, again):
        """The includes where kati takes the makefile as it is."""
        goals = goals_of(self.translator.words) or default_goals(self.found.text)
        # What the goals don't make, and make has no recipe for, kati isn't asked about.
        left = {name for name in asked if name not in self.found.outputs} - self.translator.without_recipes
        wrapped = self.asking.ask(asked) if left else self.found
        names = self.made_of(asked, wrapped)
        if not names:
            self.doubt(wrapped)
            return None
        if self.found.outputs.issuperset(names):
            # The goals need them, so their statements are there.
            return MadeIncludes(self.asking, names, self.found, False, len(goals))
        own = self.translator.words
        self.translator.words = [*goals, *(name for name in names if name not in goals), *macros_of(own)]
        more = again()
        if more.status == 0:
            return MadeIncludes(self.asking, names, more, False, len(goals))
        self.doubt(more)
        self.translator.words = own
        again()
        return None

    def doubt(self, translation):
        """Tells of a fault that kati has where it makes includes."""
        if translation.status:
            self.doubts.append("ninja makes no include of the makefile, as kati has a fault where it does: "
                               + (translation.said.strip().split("\n") or [""])[-1])

    def first_ones(self, asked):
        """The includes where kati has a fault that what makes them may mend."""
        view = self.asking.view(asked)
        names = self.made_of(view.asked, view) if view.status == 0 else []
        if not names or is_lacking(self.found.said, names):
            return None
        return MadeIncludes(self.asking, names, view, True)


def is_lacking(said, made):
    """Whether kati's fault is a file that isn't there and that nothing makes."""
    lacking = re.search(r"\*\*\* no file (.*) \[E04\]$", said, re.MULTILINE)
    return bool(lacking) and os.path.normpath(lacking.group(1)) not in map(os.path.normpath, made)
