"""Everything in a makefile and its literal includes that kati refuses, or that means something else, found without
expansion."""
import copy
import os

from ..base import files
from ..makefile import after_references, branches, includes, references, statements, syntax
from ..build import translating
from ..makefile.advice import Finding
from ..makefile.syntax import Kind
from ..makefile.forms import (MEMBER, MEMBERS_OF, NEWER, WILD, called_function, has_continued_comment, has_wildcard,
                              members_in, refused_function)

# Lines behind a tab, outside recipes, that are refused for that alone.
BEHIND_TAB = {Kind.DEFINE, Kind.INCLUDE, Kind.UNDEFINE, Kind.DIRECTIVE, Kind.STRAY_TAB}
SPECIAL = {".ONESHELL", ".SECONDEXPANSION", ".DEFAULT", ".IGNORE", ".WAIT", ".EXPORT_ALL_VARIABLES", ".NOTPARALLEL"}


class Scan:
    """What is found in a makefile and its includes."""

    def __init__(self, given):
        # The macros of the command line: kati never expands what the makefile assigns to them.
        self.given = set(given)
        self.findings, self.assigned, self.colons = [], set(self.given), {}
        # Where each macro is referred to: (file, number). What rules need, by macro. Values that hold a wildcard:
        # (file, number, word).
        self.uses, self.needed, self.wild = {}, {}, {}
        # The rules, with whether they have a recipe, and the words of values. Includes that aren't there, or that a
        # reference names: (file, number, word, name).
        self.rules, self.values, self.read, self.unmade = [], [], {}, []
        # How many conditionals there were, and their numbers in this file. Which branches are round a line, by file and
        # number, and the marks that tell of branches (branches.py), by file and by number of the line before.
        self.count, self.numbers, self.places, self.marks = 0, {}, {}, {}
        # Answers whether a place isn't taken.
        self.is_idle_place = lambda place: False
        # Whether a text is a recipe's, and how many conditionals behind tabs are open there.
        self.is_recipe, self.tabbed = False, 0

    def add(self, line, form, kind):
        self.findings.append(Finding(self.file, line.number, form, kind))

    def is_idle(self, file, number):
        """Whether kati doesn't take a line."""
        return self.is_idle_place(self.places.get((file, number), ()))

    def file_of(self, name, around=()):
        """Looks through a makefile, and then through what it includes by a plain name. `around` has the branches in
        which it is included."""
        text = files.read(name)
        if text is None:
            raise includes.absent(name)
        self.read[name] = True
        self.file, self.tabbed, left, makefile = name, 0, [], syntax.Makefile(text)
        self.numbers = {block: self.count + block.number for block in makefile.blocks}
        self.count += len(makefile.blocks)
        makes_alone = set() if "MAKE_VERSION" in self.given else set(branches_of_make(makefile.blocks))
        ignored = set(after_references.surely_nothing(makefile.lines))
        for line in makefile.lines:
            place = (*around, *((self.numbers[block], branch) for block, branch in line.around))
            self.places[name, line.number] = place
            if makes_alone.isdisjoint(line.around):
                if line in ignored:
                    self.add(line, line.joined.strip(), "behind references")
                left += [(include, place) for include in self.line(line)]
        for include, place in left:
            if include not in self.read and os.path.isfile(include):
                self.file_of(include, place)

    def line(self, line):
        """Looks at a line; answers the files that it includes."""
        if line.is_tab and line.kind in BEHIND_TAB:
            self.add(line, line.joined, "tab")
        look = self.LOOKS.get(line.kind)
        return look(self, line) or [] if look else []

    def body(self, line):
        """A line between `define` and `endef`."""
        self.expanded(line, line.text)

    def recipe_line(self, line):
        """A recipe line."""
        if line.rule.kind is Kind.RULE:
            line.rule.says.has_recipe = line.rule.says.has_commands = True
        word = line.first_word()
        if word in statements.CONDITIONS:
            begins = word in statements.BEGIN_CONDITIONS
            is_behind_tab = self.tabbed or line.around and line.around[-1][0].lines[0].is_tab
            if begins or not is_behind_tab:
                self.add(line, line.joined, "recipe condition")
            self.tabbed = max(self.tabbed + begins - (word == "endif"), 0)
        self.recipe(line, line.text)

    def recipe(self, line, text):
        """The text of a recipe."""
        self.is_recipe = True
        self.expanded(line, text)
        self.is_recipe = False
        if has_continued_comment(text.lstrip(" \t@-+")):
            self.add(line, line.joined, "recipe comment")
        for reference in references.references(text):
            if reference.function == "eval":
                self.add(line, reference.text, "eval in recipe")
            if reference.name in NEWER | MEMBERS_OF:
                self.add(line, reference.text, "$?" if reference.name in NEWER else "$%")

    def kind_of(self, function, is_assigned):
        """What to say of a function that kati refuses: how its value is handed in depends on where it stands."""
        if function not in ("shell", "wildcard"):
            return "function"
        if is_assigned:
            return function
        return "in recipe" if self.is_recipe else "elsewhere"

    def expanded(self, line, text, is_assigned=False):
        """A text that is expanded: its functions, and the macros that it refers to."""
        for reference in references.references(text):
            if refused_function(reference):
                self.add(line, reference.text, self.kind_of(reference.function, is_assigned))
            elif called_function(reference):
                self.add(line, reference.text, "call")
            if reference.name and reference.is_bracketed:
                self.uses.setdefault(reference.name, []).append((self.file, line.number))

    def assignment(self, line):
        """A line that assigns, with what may stand before it."""
        if line.says.words:
            self.refused(line)
        self.assign(line, line.says)

    def definition(self, line):
        """A line that begins a `define`."""
        if line.says.words:
            self.refused(line)
        self.assigned.update(line.says.name.split())

    def assign(self, line, says):
        """An assignment."""
        name, operator, value = says.name, says.operator, says.value
        self.assigned.add(name)
        self.expanded(line, name)
        if operator == "!=":
            self.add(line, f"{name} != {value}", "!=")
            return
        if name in self.given:
            return
        self.expanded(line, value, "$" not in name)
        words = references.words(value)
        self.values += [(self.file, line.number, word) for word in words]
        if name in ("VPATH", ".RECIPEPREFIX") and value not in ("", "."):
            self.add(line, f"{name} {operator} {value}", name)
        wild = [word for word in words if has_wildcard(word)]
        if wild:
            self.wild.setdefault(name, []).append((self.file, line.number, wild[0]))

    def condition(self, line):
        """A line of a conditional. kati comes by one that begins a branch or ends a conditional, and it is marked to
        have that told, if it isn't behind a tab."""
        says, block = line.says, line.block
        if line.is_tab and (says.begins or block is None or not block.lines[0].is_tab):
            self.add(line, line.joined, "tab condition")
        if block is not None and not line.is_tab:
            branch = branches.END if says.word == "endif" else block.lines.index(line)
            told = branches.mark_of(self.numbers[block], branch)
            self.marks.setdefault(self.file, {}).setdefault(line.number, []).append(told)
        self.expanded(line, says.rest)
        if says.tested is not None:
            self.assigned.update(says.tested.split()[:1])

    def include(self, line):
        """An include; answers its plain names."""
        if line.text == translating.INCLUDE_VALUES:
            return [translating.VALUES]
        word, names = line.says
        self.expanded(line, " ".join(names))
        for name in names:
            if "$" not in name and WILD.search(name):
                self.add(line, name, "dependencies" if name.endswith(".d") else "name")
            elif "$" not in name and word == "include" and not os.path.exists(name):
                self.add(line, f"include {name}", "absent")
            elif "$" in name or not os.path.exists(name):
                self.unmade.append((self.file, line.number, word, name))
        return [name for name in names if "$" not in name]

    def refused(self, line):
        """A line that begins with a word that kati refuses."""
        word = line.first_word()
        rest = statements.without_comment(line.joined).strip()[len(word):].strip()
        self.add(line, f"{word} {rest}", {"unexport": "export", "-load": "load"}.get(word, word))

    def rule(self, line):
        """A rule line."""
        # It gets what is found of it here.
        rule = line.says = copy.copy(line.says)
        rule.file, rule.number = self.file, line.number
        rule.has_recipe, rule.has_commands = rule.recipe is not None, bool((rule.recipe or "").strip())
        self.expanded(line, rule.text[:rule.end])
        self.rules.append(rule)
        if rule.recipe is not None:
            self.recipe(line, rule.recipe)
        self.names_of(line, rule)
        self.colons_of(line, rule)

    def target_assignment(self, line):
        """An assignment for targets."""
        self.expanded(line, statements.without_comment(line.joined))
        self.add(line, line.joined, "specific")
        self.assign(line, line.says.specific)

    def no_rule(self, line):
        """A line without a colon: a bare reference may give anything, else a rule is meant."""
        text = statements.without_comment(line.joined).strip()
        self.expanded(line, text)
        if line.kind is Kind.OTHER:
            begins = any(text.startswith(f"{word}(") for word in statements.BEGIN_CONDITIONS)
            self.add(line, text, "blank" if begins else "separator")

    def names_of(self, line, rule):
        """The names in a rule line."""
        for names in (rule.targets, rule.needs):
            for members in members_in(names):
                self.add(line, members, "members")
        for name in rule.targets + rule.needs:
            if MEMBER.fullmatch(references.without_references(name)):
                self.add(line, name, "archive")
            elif has_wildcard(name):
                self.add(line, name, "name")
            elif "\\%" in name:
                self.add(line, name, "escaped percent")
            for macro in references.names_in(name):
                self.needed.setdefault(macro, (self.file, line.number))
        for name in rule.targets:
            if name in SPECIAL:
                self.add(line, name, name)
        for name in rule.needs:
            if name == ".WAIT":
                self.add(line, name, name)
            elif name.startswith("-l"):
                self.add(line, name, "library")

    def colons_of(self, line, rule):
        """The colon of a rule line, and rules that look like suffix rules."""
        if rule.is_group and (rule.is_double or "%" in "".join(rule.targets)):
            self.add(line, " ".join(rule.targets) + " &" + ":" * (1 + rule.is_double), "group")
        if rule.is_double and not rule.needs and "%" not in "".join(rule.targets):
            self.add(line, " ".join(rule.targets) + "::", "double")
        for name in rule.targets:
            if "$" not in name and "%" not in name and self.colons.setdefault(name, rule.is_double) != rule.is_double:
                self.add(line, name, "mixed colons")

    LOOKS = {Kind.ASSIGNMENT: assignment, Kind.DEFINE: definition, Kind.BODY: body, Kind.CONDITION: condition,
             Kind.INCLUDE: include, Kind.UNDEFINE: refused, Kind.DIRECTIVE: refused, Kind.RULE: rule,
             Kind.TARGET_ASSIGNMENT: target_assignment, Kind.REFERENCE: no_rule, Kind.OTHER: no_rule,
             Kind.RECIPE: recipe_line}


def branches_of_make(blocks):
    """The branches that kati never takes, which are for make: that of `ifdef MAKE_VERSION`, and what is else where
    there is none."""
    for block in blocks:
        has_makes_else = False
        for branch, line in enumerate(block.lines):
            word, is_named = line.says.inner or line.says.word, line.says.tested == "MAKE_VERSION"
            if is_named and word == "ifdef" or word == "else" and has_makes_else:
                yield block, branch
            has_makes_else = is_named and word == "ifndef"
