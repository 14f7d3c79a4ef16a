"""Probes: what make makes of each call that kati refuses, and of each reference round it, told in its place.

`$(call kati_probe,N,CALL)` gives what CALL gives, and tells it. So one run of make tells all of them, in deferred
macros, conditions, recipes and bodies of `define` as well, each as often as make asks for it."""
import re
from typing import NamedTuple

from ..base import files
from ..makefile import references, statements
from ..makefile.forms import refused_function
from ..makefile.references import BLANKS
from ..makefile.syntax import Kind
from ..make.make_run import ANSWER, END, answered
from . import append_probes, read_lines

AUTOMATIC = {mark + part for mark in "@<^+?*|%" for part in ("", "D", "F")}
# Those of them that may have several words.
LISTS = {mark + part for mark in "^+?|" for part in ("", "D", "F")}
# Macros of make's own that are empty for kati, and that no assignment can give it: the list of makefiles grows, each
# call of a shell leaves its status, and by the version the makefile tells the two apart.
OF_MAKE = {"MAKEFILE_LIST", ".SHELLSTATUS", "MAKE_VERSION"}


class Asking(NamedTuple):
    """Calls of which it is told what they are asked for: the function, what its argument begins with, where the numbers
    of such probes begin, and the function that hands the text on."""

    function: str
    beginning: str
    first: int
    handing: str

    def is_one(self, reference):
        """Whether a reference is such a call."""
        return reference.function == self.function and reference.argument.startswith(self.beginning)


# What hands the text on takes commas as they are, and in a command blanks too.
ASKED = (Asking("wildcard", "", 1_000_000, "$(strip "), Asking("shell", "", 2_000_000, "$(subst ,,"),
         Asking("realpath", "", 3_000_000, "$(strip "), Asking("file", "<", 4_000_000, "$(subst ,,"))
WILD = re.compile(r"[*?\[]")
# What can tell the values of a table apart: it stands in the names of macros.
KEY = re.compile(r"[\w./+@-]+")
# A probe tells its number, what the value depends on, and the value.
TELLS = f"$(info {ANSWER}$1 $3|$2{END})"
NUMBER_SIGN = "kati_number_sign := \\#\n"
PROBE = f"kati_probe = {TELLS}$2\n{NUMBER_SIGN}"
# What stands in what a probe tells before what it depends on by the target; and in the place of a value of many words,
# which come again a thousand times: that it is the one that it told last, or that it has several lines, as no value
# that is frozen.
TARGET, SAME, LINES = "@@at:", "@@same@@", "@@lines@@"
# No macro with a dot in its name is exported with all others.
LONG = f"""\
define kati.newline


endef
kati_kept = $(eval kati.told.$1 := $$2)$2
kati_told_last = $(and $(findstring $2,$(kati.told.$1)),$(findstring $(kati.told.$1),$2))
kati_lines = $(if $(findstring $(kati.newline),$2),{LINES})
kati_long = $(or $(kati_lines),$(if $(kati_told_last),{SAME},$(kati_kept)))
kati_asked = $(info {ANSWER}$1 $3|$(if $(word 20,$2),$(if $(kati_told_last),{SAME},$(kati_kept)),$2){END})$2
kati_probe = $(info {ANSWER}$1 $3|$(if $(word 20,$2),$(kati_long),$2){END})$2
"""
SHORT_PROBE = f"{LONG}{NUMBER_SIGN}"


def with_values(found):
    """What probes told, with the values in the place of what stands for them; for several lines there is one."""
    for values in found.values():
        last = ""
        for at, told in enumerate(values):
            key, bar, value = told.partition("|")
            last = last if value == SAME else "\n" if value == LINES else value
            values[at] = f"{key}|{last}" if bar else told
    return found


def comes_to_wildcard(text):
    """Whether a text has a wildcard and a reference."""
    return "$" in text and WILD.search(text) is not None


def is_numbered(reference):
    """Whether a reference is to an argument of a `call`."""
    return (reference.name or "").isdigit()


def is_automatic(reference):
    """Whether a reference is to an automatic macro."""
    return reference.name in AUTOMATIC


def is_eval(reference):
    """Whether a reference is an `eval`."""
    return reference.function == "eval"


def is_in(form, text):
    """Whether a text holds a reference of which `form` says so."""
    return any(map(form, references.references(text)))


def function_of(text):
    """The function that a text begins to call; None of another text."""
    found = references.beginning(text)
    return found and found.function


def bound_names(text, span):
    """The macros that each `foreach` round a reference binds."""
    found = []

    def look(outer):
        for one in outer:
            if one.start <= span[0] and span[1] <= one.end and (one.start, one.end) != span:
                found.extend([one.arguments()[0].strip(BLANKS)] if one.function == "foreach" else [])
                look(one.inner)

    look(references.forest(text))
    return found


def telling(line, span):
    """The references in a reference that tell one use of its line from another: arguments of a `call`, what a loop
    binds, and automatic macros."""
    inner, bound = references.references(line.text[span[0]:span[1]]), bound_names(line.text, span)
    return [one for form in (is_numbered, is_automatic, lambda one: one.name in bound) for one in inner if form(one)]


def key_of(line, span, is_by_target=False):
    """These as a text, empty where it means the same everywhere; where targets are to be told apart with the target at
    its end, beside which lists of prerequisites tell nothing more."""
    found = [one for one in telling(line, span) if not (is_by_target and one.name in {*LISTS, "@"})]
    texts = [one.text if one.substitution is None else f"$({one.name})" for one in found]
    return "-".join(dict.fromkeys(texts + ["$@"] * is_by_target))


def is_read_late(line):
    """Whether make may come to what a line holds after it has begun to build: to recipes, and to what deferred macros
    have."""
    assignment = line.assignment()
    return line.is_tab or line.is_body or assignment is not None and assignment[1] in ("=", "+=", "?=")


def asked_key(line, span):
    """What a probe is to tell before a value: as `key_of`, also by the target where there may be one."""
    return key_of(line, span) + (TARGET + key_of(line, span, True) if is_read_late(line) else "")


def told_key(told, is_by_target):
    """What tells one use from another, of what a probe told before the value; the target counts where it is what
    settles the value."""
    found, _, by_target = told.partition(TARGET)
    return by_target if is_by_target else found


class Call:
    """A call that kati refuses: its kind, and where it stands in its line, with the references round it, from itself
    outwards."""

    def __init__(self, line, chain, kind):
        self.line, self.chain, self.kind = line, chain, kind

    def text(self):
        start, end = self.chain[0]
        return self.line.text[start:end]


def calls_in(line, kind_of):
    """The calls of a line for which `kind_of` answers a kind; those that stand in others are the others' own."""
    found = []

    def look(inner, outer):
        for one in inner:
            span = (one.start, one.end)
            kind = kind_of(one)
            if kind:
                found.append(Call(line, [span, *outer], kind))
            else:
                look(one.inner, [span, *outer])

    look(references.forest(line.text[:line.expanded_length()]), [])
    return found


def refused_macros(ported):
    """Macros whose value holds a refused call that depends on `$1`: each `call` of one counts as refused."""
    found, is_more = {}, True
    lines = [(name, line) for file in ported for name, line in file.definitions()
             if is_in(is_numbered, line.text) and not is_in(is_eval, line.text)]
    while is_more:
        is_more = False
        for name, line in lines:
            calls = [] if name in found else calls_in(line, lambda one: kind_of(one, found))
            if calls:
                found[name], is_more = calls[0].kind, True
    return found


def may_be_unsettled(ported):
    """The deferred macros that have refused calls, which may have several values, with the kinds of these."""
    refused, found = refused_macros(ported), {}
    for name, line in (one for file in ported for one in file.definitions() if "$" not in one[0]):
        calls = calls_in(line, lambda one: kind_of(one, refused)) if is_read_late(line) else []
        if calls and not is_in(is_numbered, line.text):
            found.setdefault(name, calls[0].kind)
    return found


def kind_of(reference, refused, unsettled=()):
    """The kind of a reference that kati refuses or that is empty for it; None of another one."""
    if reference.name in OF_MAKE:
        return reference.name
    if refused_function(reference):
        return reference.function
    if reference.name in unsettled:
        return unsettled[reference.name]
    arguments = reference.arguments() if reference.function == "call" else []
    return refused.get(arguments[0].strip(BLANKS)) if len(arguments) > 1 else None


class Probes:
    """The calls of makefiles, by their lines, and the values that make told of them. References to the macros
    `unsettled`, which have the kinds of the calls in them, count as such calls. The values of those at the places
    `by_target` depend on the target, too. What those of `before` have found in the same files, for other such macros,
    isn't looked for again."""

    def __init__(self, ported, unsettled=None, before=None):
        self.unsettled, self.by_target = unsettled or {}, frozenset()
        self.refused = refused_macros(ported) if before is None else before.refused
        self.calls, self.numbers, self.values, self.known, self.parted = {}, {}, {}, {}, {}
        # The words of rule lines that come to names with wildcards, by their places.
        self.words = {}
        # What each call of `wildcard`, `shell` and their kin is asked for is told as well, by numbers of their own.
        self.asked = [{} for _ in ASKED]
        self.patterns, self.commands, self.links, self.contents = self.asked
        self.read = before.read if before else read_lines.ReadLines(ported)
        # What it told of lines that append.
        self.appends = append_probes.AppendProbes(())
        # The macros by which lines may have other calls than before; of all others these are known.
        others = {name for name, _ in self.unsettled.items() ^ before.unsettled.items()} if before else set()
        # What has no dollar has no call.
        for line in (line for file in ported for line in file.lines if "$" in line.text):
            is_known = before is not None and others.isdisjoint(references.names_in(line.text))
            self.add(line, before.calls.get(line, []) if is_known else None)

    def take(self, others):
        """Takes what make told of other probes, if these were among them; answers whether they were."""
        are_all = self.numbers.keys() <= others.numbers.keys()
        for own, asked in zip(self.asked, others.asked):
            known = {(call.line, *call.chain[0]): number for call, number in asked.items()}
            own.update((call, known.get((call.line, *call.chain[0]))) for call in own)
            are_all = are_all and None not in own.values()
        self.numbers, self.values, self.read, self.appends = others.numbers, others.values, others.read, others.appends
        self.parted = others.parted
        return are_all

    def add(self, line, known=None):
        """Adds a line's calls, which may be known; answers them."""
        # Comments of recipes and of bodies are expanded as all else there.
        is_comment = line.joined.lstrip().startswith("#") and not (line.is_tab or line.is_body)
        found = known if known is not None else [] if is_comment else self.calls_of(line)
        if found:
            self.calls[line] = found
        for call in found:
            for span in call.chain:
                # What holds an argument of a `call` is frozen only where it is the call itself, by a table.
                if span == call.chain[0] or not is_in(is_numbered, line.text[slice(*span)]):
                    self.numbers.setdefault((line, *span), len(self.numbers))
            for numbers, asking in zip(self.asked, ASKED):
                if asking.is_one(references.only(call.text())):
                    numbers[call] = asking.first + len(numbers)
        if not found and comes_to_wildcard(line.text) and self.read.kind(line) is Kind.RULE:
            self.add_words(line)
        return found

    def add_words(self, line):
        """Adds the words of a rule line that have a wildcard and come to other words."""
        for word in filter(comes_to_wildcard, statements.Rule(line.joined).words()):
            start = line.text.find(word)
            if start >= 0:
                self.words.setdefault(line, []).append((start, start + len(word)))
                self.numbers.setdefault((line, start, start + len(word)), len(self.numbers))

    def calls_of(self, line):
        """The calls in a line."""
        return calls_in(line, lambda one: kind_of(one, self.refused, self.unsettled))

    def still_unsettled(self, ported):
        """The macros of which a call has several values, as one that asks by another macro which changes meanwhile;
        with those that were so before."""
        found = dict(self.unsettled)
        for name, line in (one for file in ported for one in file.definitions() if "$" not in one[0]):
            for call in self.of(line):
                counts = [len(told) + ("\n" in told) for told in (self.told(line, span) for span in call.chain)]
                if max(counts) > 1 and 1 not in counts and not is_in(is_numbered, line.text):
                    found.setdefault(name, call.kind)
        return found

    def still_unsettled_calls(self):
        """The places of the calls in recipes, and in what these name, that have several values, though all that they
        depend on is the same, as `$(wildcard $(@D))`, where another call makes that folder meanwhile; or is no part of
        a name, as of `$(wildcard $^)`."""
        return frozenset((line, *call.chain[0]) for line, calls in self.calls.items() if is_read_late(line)
                         for call in calls if self.is_unsettled(call))

    def is_unsettled(self, call):
        """Whether a call is such a one. Of `shell` in a recipe the recipe's shell runs what has several values."""
        if call.kind == "shell" and call.line.is_tab:
            return False
        pairs = set(self.pairs(call.line, call.chain[0]))
        are_settled = len(dict(pairs)) == len(pairs) and all(KEY.fullmatch(key) for key, _ in pairs if key)
        return not are_settled and all(len(self.told(call.line, span)) != 1 for span in call.chain)

    def is_by_target(self, line, span):
        """Whether the target is what settles the value of the reference at this place."""
        return any(one == line and span[0] <= start and end <= span[1] for one, start, end in self.by_target)

    def key(self, line, span):
        """What tells one use of a reference from another, as `key_of`, with the target where that alone settles it."""
        return key_of(line, span, self.is_by_target(line, span))

    def of(self, line):
        """The refused calls of a line."""
        return self.calls.get(line, [])

    def pairs(self, line, span):
        """What the reference at this place depends on, and its value, for each time that make asked for it."""
        number, is_by_target = self.numbers.get((line, *span)), self.is_by_target(line, span)
        # They are many, and asked for again and again.
        if (number, is_by_target) not in self.known:
            self.known[number, is_by_target] = [(told_key(told, is_by_target), value)
                                                for told, value in self.told_by(number)]
        return self.known[number, is_by_target]

    def told_by(self, number):
        """What a probe told, each time in two parts: what the value hangs on, and the value."""
        if number not in self.parted:
            self.parted[number] = [one.split("|", 1) for one in self.values.get(number, [])]
        return self.parted[number]

    def asked_of(self, call):
        """The patterns that a wildcard, the commands that a shell was asked for, and so on, each once."""
        return dict.fromkeys(text for _, text in self.told_by(self.asked_number(call)))

    def asked_in_recipes(self, call):
        """What a call was asked for where recipes have it, each time with what it depends on, which ends in the
        target."""
        found = {(key.partition(TARGET)[2], text) for key, text in self.told_by(self.asked_number(call))}
        return {(key, text) for key, text in found if key and not key.endswith("-")}

    def asked_number(self, call):
        """The number of the probe of what a call is asked for; None of another call."""
        return next((numbers[call] for numbers in self.asked if call in numbers), None)

    def asked_behind(self, call, numbers):
        """What a call asks for by calls of one kind, which have these numbers; of a macro that has such calls, rather
        too much."""
        if any(call in kind for kind in self.asked):
            return self.asked_of(call) if call in numbers else {}
        is_plain = references.only(call.text()).name is not None
        called = [one for one in numbers if is_in(is_numbered, one.text()) != is_plain and not one.line.is_tab]
        return dict.fromkeys(text for one in called for text in self.asked_of(one))

    def asked_by(self, call):
        """The pattern that a wildcard was asked for, by what it depends on; none where that doesn't settle it."""
        found, is_by_target = {}, self.is_by_target(call.line, call.chain[0])
        for told, pattern in self.told_by(self.patterns.get(call)):
            if found.setdefault(told_key(told, is_by_target), pattern) != pattern:
                return {}
        return found

    def told(self, line, span):
        """The values of the reference at this place, each once; none where make never asked for it."""
        number = self.numbers.get((line, *span))
        if number not in self.known:
            self.known[number] = list(dict.fromkeys(value for _, value in self.pairs(line, span)))
        return self.known[number]

    def are_told(self, line):
        """Whether make asked for each refused call of a line, of which there are some."""
        calls = self.of(line)
        return bool(calls) and all(self.told(line, call.chain[0]) for call in calls)

    def are_met(self, line):
        """Whether make asked for a refused call of a line, and for what holds each other one, as the call of `shell` in
        `$(if $(wildcard $(@D)),,$(shell mkdir $(@D)))`."""
        calls = self.of(line)
        return any(self.told(line, call.chain[0]) for call in calls) and all(
            any(self.told(line, span) for span in call.chain) for call in calls)

    def table(self, line, span):
        """The values by what they depend on; None where that doesn't settle them."""
        found = {}
        for key, value in self.pairs(line, span):
            if found.setdefault(key, value) != value or not KEY.fullmatch(key) or "\n" in value:
                return None
        return found or None

    def probed(self, line):
        """The text of a line with its probes."""
        marks = {}
        for span in dict.fromkeys(span for call in self.of(line) for span in call.chain):
            number = self.numbers.get((line, *span))
            if number is not None and function_of(line.text[span[0]:span[1]]) != "eval":
                # What closes comes before what opens; of two at one place the inner one closes, the outer one opens,
                # first.
                marks.setdefault(span[1], []).append((0, -span[0], f",{asked_key(line, span)})"))
                marks.setdefault(span[0], []).append((1, -span[1], f"$(call kati_probe,{number},"))
        for call in self.of(line):
            self.mark_asked(call, marks)
        for start, end in self.words.get(line, []):
            marks[start] = [(1, 0, f"$(call kati_probe,{self.numbers[line, start, end]},$(subst ,,")]
            marks[end] = [(0, 0, "),)")]
        text, last = "", 0
        for at in sorted(marks):
            text += line.text[last:at] + "".join(mark for _, _, mark in sorted(marks[at]))
            last = at
        return text + line.text[last:]

    def mark_asked(self, call, marks):
        """Adds a probe of what a call is asked for."""
        for numbers, asking in zip(self.asked, ASKED):
            if call in numbers:
                start, end = call.chain[0]
                first = start + references.only(call.text()).spans()[0][0]
                marks.setdefault(first, []).append((1, 0, f"$(call kati_asked,{numbers[call]},{asking.handing}"))
                marks.setdefault(end - 1, []).append((0, 0, f"),{asked_key(call.line, call.chain[0])})"))

    def asked_again(self, line):
        """A line that assigns by `!=`, with a probe round its command; None for another line."""
        name, operator, value = line.assignment() or ("", "", "")
        if operator != "!=":
            return None
        number = self.numbers.setdefault((line, 0, 0), len(self.numbers))
        # Such a macro is deferred. What the command wrote is a value whole, whatever it has of `#`.
        probe = f"$(call kati_probe,{number},$(shell {value}),)"
        return f"$(eval {name} = $(subst $(kati_number_sign),\\$(kati_number_sign),{probe}))"

    def ask(self, ported, run, room):
        """Puts the probes into the files, asks make once, and takes them out again."""
        self.appends = append_probes.AppendProbes(ported)
        status, found = self.answers(
            ported, run, room, lambda line, text: self.appends.marked(line, self.read.marked(line, text)))
        if status:
            self.appends = append_probes.AppendProbes(())
            status, found = self.answers(ported, run, room, lambda line, text: text)
        self.values, self.known, self.parted = found, {}, {}
        self.read.take(found)
        self.appends.take(found)
        for file in ported:
            files.replace(file.name, file.before, room)

    def answers(self, ported, run, room, marked):
        """make's status, and what it tells by these files."""
        for file in ported:
            text = file.flat(lambda line: marked(line, self.asked_again(line) or self.probed(line)))
            head = SHORT_PROBE if file.name == run.makefile else ""
            files.replace(file.name, (head + text).replace("\n", file.ending), room)
        status, out, _ = run.ask()
        return status, with_values(answered(out))
