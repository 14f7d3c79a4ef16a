"""`VPATH` and `vpath`, and libraries as `-lm`: what make searches for in other folders, kati gets by its name there.

A pattern rule is written once for each folder, before the makefile's own rule, or behind it where a source stands here
and in such a folder, as make looks into this folder first; a name in an explicit rule goes through `KATI_FOUND`, which
knows the names that stand elsewhere; and what else is needed from another folder is a rule without a recipe of its own.
"""
import os
import re

from ..make import make_run
from ..makefile import references, statements, syntax
from ..makefile.ported_text import KATIS_ALONE
from . import watched
from .mender import Mender

BUILTIN = [("%.o", "%.c", "$(COMPILE.c) $(OUTPUT_OPTION) $<"), ("%.o", "%.cc", "$(COMPILE.cc) $(OUTPUT_OPTION) $<"),
           ("%.o", "%.cpp", "$(COMPILE.cpp) $(OUTPUT_OPTION) $<"), ("%.o", "%.s", "$(COMPILE.s) -o $@ $<"),
           ("%.o", "%.S", "$(COMPILE.S) -o $@ $<")]
FOUND = "KATI_FOUND = $(foreach kati_name,$(1),$(or $(KATI_AT_$(kati_name)),$(kati_name)))"
SUFFIX_RULE = re.compile(r"(\.\w+)(\.\w+)")


def is_fitting(pattern, name):
    """Whether a pattern of `vpath` fits a name."""
    return pattern == "%" or re.fullmatch(re.escape(pattern).replace("%", ".+", 1), name) is not None


def first_absent(path):
    """The first folder of a path that isn't there, or the whole path."""
    while not os.path.isdir(os.path.dirname(path) or "."):
        path = os.path.dirname(path)
    return path


class Search(Mender):
    """The folders that make searches, and what that means for kati."""

    def __init__(self, port):
        super().__init__(port)
        self.patterns, self.folders = [], []
        self.is_settled, self.places, self.libraries = False, {}, {}
        # The names that stand elsewhere and get a rule of their own, None where that isn't known yet.
        self.needed = None
        # What the build makes, and make finds in such a folder before anything is made; and whether a source stands
        # both here and there.
        self.standing, self.is_twice = {}, False

    def add(self, line):
        """Takes a line that begins with `vpath`."""
        self.patterns.append(" ".join(references.words(statements.without_comment(line.joined))[1:]))

    def ask(self):
        """The pattern and the name of each folder, as make has them."""
        told = self.port.run.values(["$(VPATH)", *self.patterns])
        found = [("%", folder) for folder in re.split(r"[:\s]+", told[0] or "") if folder]
        for text in told[1:]:
            words = (text or "").split()
            found += [(words[0], folder) for word in words[1:] for folder in word.split(":") if folder]
        named = [(pattern, os.path.normpath(folder)) for pattern, folder in found if os.path.isdir(folder)]
        self.folders = [one for one in dict.fromkeys(named) if one[1] != "."]

    def settle(self, translation):
        """Writes the rules, once kati takes the makefile; answers whether that changes it."""
        if self.is_settled:
            self.watch(translation)
            before, self.needed = self.needed, self.needed_now(translation) if self.needed is None else self.needed
            return before is None and bool(self.needed)
        self.is_settled = True
        if self.patterns or any("VPATH" in line.text for line in self.port.lines()):
            self.ask()
        self.find_libraries(translation)
        if not self.folders and not self.places:
            return False
        explicit, patterns, self.is_twice = [], [], self.stand_twice(translation)
        for file in self.port.ported.values():
            for at, line in enumerate(file.lines):
                (patterns if "%" in line.text else explicit).extend(self.rule(file.lines, at, line))
        self.find(translation, patterns)
        self.searched_rules(explicit + patterns)
        # A rule of its own makes a name known: the makefile's pattern rule, where it comes first, would take it.
        self.needed = None if self.is_twice else sorted(set(self.places).difference(self.libraries))
        if self.folders:
            self.port.tell("search")
        return True

    def find_libraries(self, translation):
        """Where the libraries are that the graph needs by names as `-lm`, as make tells by the prerequisites of rules
        that it would run."""
        named = {name for one in translation.statements for name in one.inputs} - translation.outputs
        names = sorted(name for name in named if name.startswith("-l"))
        if not names:
            return
        rules = [f"kati_library_{number}: {name} ; : {make_run.ANSWER}{number} $<{make_run.END}\n"
                 for number, name in enumerate(names)]
        told = make_run.answered(self.port.run.ask([f"kati_library_{number}" for number in range(len(names))],
                                                   "".join(rules))[1])
        self.libraries = {name: told[number][-1] for number, name in enumerate(names) if number in told}
        self.places.update(self.libraries)
        for name, place in self.libraries.items():
            self.port.note(f"{name} is {place} for kati, as for make here")

    def find(self, translation, patterns):
        """Where the names stand that the graph or a pattern rule needs, that nothing makes, and that aren't in this
        folder."""
        made = translation.outputs
        named = {name for one in translation.statements for name in one.inputs}
        for needs in self.port.run.values([" ".join(statements.Rule(line.joined).needs) for line in patterns]):
            named.update(name for name in (needs or "").split() if "%" not in name)
        for name in sorted(named - made):
            candidates = self.candidates(name)
            # Where a name stands, and where it doesn't, is to be so each time.
            self.port.written_out.files.update(f"{watched.LINK}{one}" for one in candidates)
            place = next(filter(os.path.exists, candidates), name)
            if place != name:
                self.places[name] = place
        for name in sorted(one for one in made if not os.path.exists(one)):
            place = next(filter(os.path.exists, self.candidates(name)), None)
            self.standing.update({name: place} if place else {})

    def stand_twice(self, translation):
        """Whether a source that the graph needs stands here and in a folder that is searched."""
        named = {name for one in translation.statements for name in one.inputs} - translation.outputs
        return any(os.path.exists(name) and any(map(os.path.exists, self.candidates(name)[1:])) for name in named)

    def needed_now(self, translation):
        """The names that stand elsewhere and that the graph needs by these names."""
        named = {name for one in translation.statements for name in one.inputs} - translation.outputs
        return sorted(named.intersection(self.places).difference(self.libraries))

    def watch(self, translation):
        """Has make asked again where what is taken from a folder comes to stand where make looks before."""
        folders = [folder for _, folder in self.folders]
        for name in {name for one in translation.statements for name in one.inputs} if folders else ():
            at = next((at for at, folder in enumerate(folders) if name.startswith(f"{folder}/")), None)
            own = None if at is None else name[len(folders[at]) + 1:]
            if own and own not in translation.outputs and os.path.isfile(name):
                before = [own, *(os.path.join(folder, own) for folder in folders[:at])]
                self.port.written_out.files.update(f"{watched.LINK}{one}" for one in before)

        for name in translation.outputs if folders else ():
            self.watch_made(name)

    def watch_made(self, name):
        """Has make asked again where what the build makes comes to stand in a folder that is searched, or goes there;
        and where it does so here while it stands there."""
        places = self.candidates(name)[1:]
        self.port.written_out.files.update(f"{watched.LINK}{first_absent(one)}" for one in places)
        if any(map(os.path.exists, places)):
            self.port.written_out.files.add(f"{watched.LINK}{name}")

    def differences(self):
        """A line for what make takes where it stands, as long as it isn't out of date, and ninja makes here."""
        return [f"{name} stands in a folder that is searched, as {place}: make takes it there, and ninja makes it here"
                for name, place in self.standing.items()]

    def candidates(self, name):
        """The names that make looks for, in its order, where it searches folders for one; none for one that was found
        in such a folder by a pattern rule, as kati chooses these by its list of files."""
        fitting = [folder for pattern, folder in self.folders if is_fitting(pattern, name)]
        is_found = name.startswith(tuple(f"{folder}/" for folder in fitting)) and os.path.exists(name)
        if not fitting or is_found or os.path.isabs(name):
            return []
        return [name, *(os.path.join(folder, name) for folder in fitting)]

    def rule(self, lines, at, line):
        """Writes a pattern rule for each folder; answers the line where it has prerequisites that have names of
        files."""
        if line.kind is not syntax.Kind.RULE or line.is_wrapped or line.is_gone:
            return []
        # With what kati gets in the place of parts that it refuses.
        rule = statements.Rule(syntax.joined(line.edited())) if line.edits else line.says
        if not rule.targets:
            return []
        recipe = recipe_of(lines, at, rule)
        suffixes = SUFFIX_RULE.fullmatch(rule.targets[0]) if len(rule.targets) == 1 and not rule.needs else None
        if suffixes and recipe:
            self.pattern_rule(lines, at, [f"%{suffixes.group(2)}"], [f"%{suffixes.group(1)}"], recipe)
        elif "%" in "".join(rule.targets):
            if rule.needs and "%" in rule.needs[0] and "$" not in rule.needs[0] and recipe:
                self.pattern_rule(lines, at, rule.targets, rule.needs, recipe)
                return [line] if len(rule.needs) > 1 else []
        elif rule.needs and not rule.targets[0].startswith("."):
            return [line]
        return []

    def pattern_rule(self, lines, at, targets, needs, recipe):
        """The rule for each folder, before the makefile's own, which stands at a line, or behind it."""
        if not self.folders:
            return
        texts, own = [], self.own_rules()
        for folder in dict.fromkeys(folder for _, folder in self.folders):
            more = f" $(call KATI_FOUND,{' '.join(needs[1:])})" if needs[1:] else ""
            first = os.path.join(folder, needs[0])
            # Of two rules with the same prerequisites the later one removes the other: this one has its own behind a
            # bar, too.
            bar = "" if "|" in needs else " |"
            more += f"{bar} {first}" if (tuple(targets), first) in own else ""
            texts += [f"{' '.join(targets)}: {first}{more}", *recipe]
        text = "\n".join([KATIS_ALONE, *texts, "endif"])
        if self.is_twice:
            last = next(one for one in reversed(lines[at:end_of_recipe(lines, at + 1)]) if not one.is_gone)
            last.behind = text
        else:
            lines[at].before = text

    def own_rules(self):
        """The targets and the first prerequisite of each pattern rule of the makefiles."""
        rules = (line.says for line in self.port.lines() if line.kind is syntax.Kind.RULE and "%" in line.text)
        return {(tuple(one.targets), os.path.normpath(one.needs[0])) for one in rules if one.needs}

    def searched_rules(self, lines):
        """The prerequisites of rules by their names where they stand, as far as one stands elsewhere."""
        if not self.places:
            return
        told = self.port.run.values([" ".join(statements.Rule(line.joined).needs) for line in lines])
        for line, needs in zip(lines, told):
            is_static = statements.Rule(line.joined).pattern is not None
            if is_static or set((needs or "").split()) & set(self.places):
                line.wrap(searched)

    def tail(self):
        """What kati gets at the end of the makefile."""
        lines, folders = [], dict.fromkeys(folder for _, folder in self.folders)
        for target, need, recipe in BUILTIN if folders else ():
            if f"{need}{target}".replace("%", "") not in self.port.for_kati.taken_back:
                # With the prerequisite twice, as in builtin-rules.mk, and once more: a rule with those of an older one
                # would remove it.
                found = [f"{need} {need} {need}"] if self.is_twice else []
                found += [f"{folder}/{need} {folder}/{need}" for folder in folders]
                lines += [text for needs in found for text in (f"{target}: {needs}", f"\t{recipe}")]
        return [*lines, *(f"{name}: {self.places[name]}" for name in self.needed or ())]

    def head(self):
        """What kati gets at the beginning of the makefile."""
        if not self.folders and not self.places:
            return []
        return [KATIS_ALONE, FOUND, *(f"KATI_AT_{name} = {place}" for name, place in self.places.items()), "endif"]


def recipe_of(lines, at, rule):
    """The recipe lines of a rule as they are, each behind a tab, with the conditionals that stand between them."""
    found = [] if rule.recipe is None else ["\t" + rule.recipe.strip()]
    return [*found, *(line.now() for line in lines[at + 1:end_of_recipe(lines, at + 1)])]


def end_of_recipe(lines, at):
    """The number of the line behind the recipe that goes on at a line. A conditional is part of it that holds nothing
    but such lines."""
    end, depth = at, 0
    for number in range(at, len(lines)):
        line, word = lines[number], lines[number].first_word()
        is_idle = not word or word.startswith("#")
        if not line.is_tab and word in ("else", "endif") and not depth:
            return end
        if not (line.is_tab or is_idle or word in statements.CONDITIONS):
            return end
        if not line.is_tab and word in statements.CONDITIONS:
            depth += {"else": 0, "endif": -1}.get(word, 1)
        if not depth and (line.is_tab or not is_idle):
            end = number + 1
    return end


def searched(text):
    """A rule line with its prerequisites searched for."""
    rule = statements.Rule(text)
    needs = syntax.joined(text[rule.needs_at:rule.end]).strip()
    recipe = "" if rule.recipe is None else f" ;{rule.recipe}"
    return f"{text[:rule.needs_at]} $(call KATI_FOUND,{needs}){recipe}"
