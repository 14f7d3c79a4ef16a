"""Target-specific macros: for kati one macro for all targets, which asks in a recipe for which target it is.

`debug: CFLAGS += -g` becomes, at the end of the makefile,

    CFLAGS = $(CFLAGS_BEFORE)$(if $(filter $(CFLAGS_TARGETS),$@), $(CFLAGS_HERE))

where CFLAGS_BEFORE is what CFLAGS was up to there, unexpanded if it was deferred, CFLAGS_HERE the text of the line, and
CFLAGS_TARGETS the targets and what is made because of them. In make what is made because of two targets has the macros
of the one that asks for it first; where that one was asked for by the other, `+=` has added the text twice. Which that
are is seen in kati's own graph. Where no target is needed, the line is for make alone, and that is all.

An include may have been ported with another program, so that such lines stand there for make alone already, some with
CFLAGS_HERE for kati: they are taken as they are, and this makefile gets its own end."""
import itertools
import re
from collections import Counter

from ..makefile import references, statements
from ..build import ninja_text
from ..makefile.ported_text import MAKES_ALONE
from ..makefile.syntax import Kind
from .mender import Mender

# The name of what a port leaves for kati.
LEFT = re.compile(r".+_HERE(_\d+)?")
KEEP = """\
define {before}_KEPT
define {before}
$(value {macro})
endef
endef
$(eval $({before}_KEPT))"""


class TargetMacro:
    """A line that gives a macro to targets; `order` is its place among such lines."""

    def __init__(self, line, order):
        rule = statements.Rule(line.joined)
        self.line, self.order, self.targets = line, order, rule.text[:rule.colon].strip()
        self.words, self.macro, self.operator = rule.specific[:3] if rule.specific else ((), None, None)
        # The targets of the graph that are meant, with how often they are named, and what is made because of them, with
        # how often the macro counts there; None for all commands.
        self.hit, self.reach, self.first = {}, {}, 0
        self.names = {}
        # What an earlier port left for kati in its place, and the name of that macro; and whether there was one.
        self.katis, self.here, self.is_taken = None, None, False

    def is_private(self):
        return "private" in self.words

    def for_kati(self, text):
        """kati's line in the place of make's: the value, as it is there; none where no target is needed."""
        if self.katis is not None or not self.names:
            return self.katis
        operator = ":=" if self.operator in (":=", "::=") else "="
        return f"{self.names['HERE']} {operator} {value_in(text)}".rstrip(" ")

    def tail(self, flavor):
        """What kati gets at the end of the makefile; `flavor` is what make has the macro for."""
        before, here, macro = self.names["BEFORE"], f"$({self.names['HERE']})", self.macro
        is_kept = self.operator == "+=" or self.reach is not None
        kept = f"{before} := $({macro})" if flavor == "simple" else KEEP.format(before=before, macro=macro)
        if self.reach is None:
            return [*([kept] if is_kept else []), f"{macro} = {f'$({before}) ' if self.operator == '+=' else ''}{here}"]
        names = self.names["TARGETS"]
        if self.operator != "+=":
            text = f"$(if $(filter $({names}),$@),{here},$({before}))"
            return [kept, f"{names} = {' '.join(self.reach)}", f"{macro} = {text}"]
        times = range(1, max(self.reach.values(), default=1) + 1)
        lists = [(names if least == 1 else f"{names}_{least}_TIMES",
                  [name for name, count in self.reach.items() if count >= least]) for least in times]
        text = "".join(f"$(if $(filter $({name}),$@), {here})" for name, _ in lists)
        return [kept, *(f"{name} = {' '.join(reach)}" for name, reach in lists), f"{macro} = $({before}){text}"]


def asked_of(one):
    """The texts by which make is asked for the targets of such a line, and for the kind of its macro."""
    return one.targets, f"$(flavor {one.macro})"


def value_in(text):
    """The value in such a line."""
    found = statements.Rule(text).specific
    return found.value if found else ""


def kept_for_make(lines):
    """The lines of each block that keeps a target-specific macro for make alone, as a port writes it: with `else` and
    kati's line, where it has these."""
    for at, line in enumerate(lines[1:-1], 1):
        if lines[at - 1].text == MAKES_ALONE and line.kind is Kind.TARGET_ASSIGNMENT:
            macro = line.says.specific.name
            texts = [one.text for one in lines[at + 1:at + 4]]
            if texts[:1] == ["endif"]:
                yield lines[at - 1:at + 2]
            elif texts[::2] == ["else", "endif"] and texts[1].startswith(f"{macro}_HERE"):
                yield lines[at - 1:at + 4]


def times_meant(targets, outputs):
    """How often each of these outputs is named by targets and patterns, for those that are."""
    found = Counter(one for one in targets if one in outputs and "%" not in one)
    for pattern in [one for one in targets if "%" in one]:
        form = re.compile(re.escape(pattern).replace("%", ".+", 1))
        found.update(filter(form.fullmatch, outputs))
    return found


class TargetMacros(Mender):
    """All target-specific macros of a port."""

    def __init__(self, port):
        super().__init__(port)
        self.all, self.is_settled, self.flavors = [], False, {}
        # Lines with `override` of which kati has the values by an earlier port: others do nothing for their targets.
        self.overrides = []

    def add(self, line):
        """Takes a line that kati refuses; it is for make alone until kati's graph is known."""
        found = TargetMacro(line, len(self.all) + len(self.overrides))
        if found.macro is None or "$" in found.macro or found.operator == "!=":
            return False
        self.all.append(found)
        line.wrap(found.for_kati)
        self.is_settled = False
        return True

    def begin(self):
        """Takes the lines that an earlier port kept for make alone, but for those of which kati has the values."""
        files = list(self.port.ported.values())
        named = {name for file in files for line in file.lines for name in references.names_in(line.text)
                 if LEFT.fullmatch(name)}
        for block in [block for file in files for block in kept_for_make(file.lines)]:
            found = TargetMacro(block[1], len(self.all) + len(self.overrides))
            katis = block[3] if len(block) > 3 else None
            found.here = katis.assignment()[0] if katis else None
            if found.macro is None or "$" in found.macro or found.here in named:
                self.overrides += [found] if "override" in found.words else []
                continue
            found.katis, found.is_taken = katis.text if katis else None, True
            self.all.append(found)
            block[1].wrap(found.for_kati)
            for line in [block[0], *block[2:]]:
                line.is_gone = True

    def tail(self):
        """What kati gets at the end of the makefile."""
        live = sorted((one for one in self.all if one.names), key=lambda one: (one.first, one.order))
        return [text for one in live for text in one.tail(self.flavors.get(one.macro))]

    def texts(self):
        """What `settle` asks for."""
        found = [TargetMacro(line, 0) for line in self.port.lines() if line.kind is Kind.TARGET_ASSIGNMENT]
        return [text for one in found for text in asked_of(one)]

    def settle(self, translation):
        """Says what each macro holds for by the graph that kati wrote; answers whether that changes the makefile."""
        if self.is_settled or not self.all:
            return False
        self.is_settled = True
        graph = Graph(translation)
        lines = sorted([*self.all, *self.overrides], key=lambda one: one.order)
        told = self.port.run.values([text for one in lines for text in asked_of(one)])
        overridden = set()
        for one, targets, flavor in zip(lines, told[::2], told[1::2]):
            self.flavors[one.macro] = flavor
            names = [re.sub(r"^(\./)+", "", name) for name in (targets or "").split()]
            # `?=` does nothing where all targets have the macro, and behind `override` no line without that does
            # anything for its targets.
            is_lost, overrides = one.operator == "?=" and flavor != "undefined", "override" in one.words
            times = {} if is_lost else times_meant(names, graph.by_output)
            one.hit = {name: count for name, count in times.items()
                       if overrides or (one.macro, name) not in overridden}
            if overrides:
                overridden.update((one.macro, name) for name in names)
        live = [one for one in self.all if one.hit]
        graph.walk(live)
        for one in live:
            self.name(one)
            reach = {name: count for name, count in one.reach.items() if name in graph.commands}
            is_once = one.operator != "+=" or set(reach.values()) == {1}
            one.reach = None if reach.keys() == graph.commands and reach and is_once else reach
        return bool(live)

    def name(self, one):
        """Gives a macro's parts names that nothing else has."""
        used = {name for other in self.all for name in [other.here, *other.names.values()]}
        for number in itertools.count(1):
            ending = "" if number == 1 else f"_{number}"
            names = {part: f"{one.macro}_{part}{ending}" for part in ("BEFORE", "TARGETS")}
            names["HERE"] = one.here or f"{one.macro}_HERE{ending}"
            if used.isdisjoint(set(names.values()) - {one.here}):
                one.names = names
                return


class Graph:
    """The graph of a translation, walked in make's order."""

    def __init__(self, translation):
        self.by_output = {name: one for one in translation.statements for name in one.outputs}
        self.commands = {name for name, one in self.by_output.items() if one.command is not None}
        lines = re.findall(r"^default (.*)$", translation.text, re.MULTILINE)
        self.goals = [ninja_text.plain(name) for line in lines for name in ninja_text.NAME.findall(line)]

    def walk(self, macros):
        """Gives each macro what is made because of its targets, from the one that asks first."""
        seen, left, number = set(), [(goal, {}) for goal in reversed(self.goals)], 0
        while left:
            name, active = left.pop()
            if name in seen or name not in self.by_output:
                continue
            seen.add(name)
            number += 1
            own = [one for one in macros if name in one.hit]
            for one in own:
                one.first = one.first or number
            here = {**active, **{one: active.get(one, 0) + one.hit[name] for one in own}} if own else active
            for one, count in here.items():
                one.reach[name] = count
            handed = {one: count for one, count in here.items() if not one.is_private()} if own else active
            left += [(need, handed) for need in reversed(self.by_output[name].inputs)]
