"""Calls that kati refuses become macros of kati-values.mk: what is frozen, and under which name."""
import functools
import os
import re

from ..base.programs import inside
from ..makefile import references
from ..makefile.forms import refused_function
from ..makefile.syntax import joined
from . import command_reads, file_writes, frozen_values, watched
from .make_probes import bound_names, function_of, is_automatic, is_in, is_numbered

# Behind the source of a value that hangs on what calls in recipes write.
BEFORE_RECIPES = "before the build"


def is_free(line, span):
    """Whether a reference holds nothing that a `call` or a loop binds."""
    text = line.text[span[0]:span[1]]
    return function_of(text) != "eval" and not is_in(is_numbered, text) and not any(
        name in references.names_in(text) for name in bound_names(line.text, span))


def argument_of(text, *functions):
    """What a text that is a call of one of these functions hands to it; None of another text."""
    found = references.only(text)
    return found.argument if found and found.function in functions else None


def wanted_name(line, text):
    """What a macro for a part of a line is to be named for."""
    name = re.sub(r"[-.]+", "_", (line.assignment() or ("",))[0]).strip("_")
    if not re.fullmatch(r"\w+", name):
        found = references.only(text)
        is_plain = found is not None and found.substitution is None
        name = found and refused_function(found) or is_plain and found.name or ""
    return name if re.fullmatch(r"\w+", name) else "value"


def doubled_calls(line):
    """The calls of `shell` and `wildcard` behind two dollars in a line, which an `eval` expands."""
    found = references.doubled(line.text[:line.expanded_length()])
    return [one for one in found if one.function in ("shell", "wildcard")]


def hands_on(function, at):
    """Whether a function hands on its argument of this number, from 0, as it is, or may, as a macro that is called."""
    return function == "strip" or function in ("if", "call") and at > 0 or function == "foreach" and at == 2


def is_handed_on(call):
    """Whether what a call gives is part of its line as it is: in a branch of `if` or the body of a loop, but in no
    function that does something with it, or that asks whether there is something."""
    spans = {(one.start, one.end): one for one in references.references(call.line.text)}
    for inner, outer in zip(call.chain, call.chain[1:]):
        found = spans[outer]
        at = next((number for number, (start, end) in enumerate(found.spans())
                   if start <= inner[0] and inner[1] <= end), None)
        if at is None or not hands_on(found.function, at):
            return False
    return True


class Freezer:
    """Freezes the refused calls of lines, by what the probes told."""

    def __init__(self, port):
        self.port = port
        # The values that no probe told; the calls in each value; and what make said where it was asked for such values,
        # by their texts.
        self.untold, self.calls_in, self.asked = set(), {}, {}
        # The calls that the recipe's own shell runs for kati: nothing is to be asked again for these.
        self.handed = set()
        # The words to watch for each command.
        self.reads = {}

    def place(self, call):
        """The innermost reference round a call, itself included, that has one value, and that value, None where make
        never asked for it; None where there is no such reference."""
        probes, line = self.port.probes, call.line
        for span in call.chain:
            text = line.text[span[0]:span[1]]
            if function_of(text) == "eval":
                return None
            told = probes.told(line, span)
            if is_free(line, span) and len(told) == 1 and "\n" not in told[0]:
                return span, told[0]
            if is_free(line, span) and not told and not is_in(is_automatic, text):
                # As in a recipe that the goals don't need.
                return span, None
        return None

    def picked(self, call):
        """That reference, its value, and whether a probe told it; None where there is none."""
        found = self.place(call)
        if found is None or found[1] is not None:
            return found and (*found, True)
        text = joined(call.line.text[slice(*found[0])])
        if text not in self.asked:
            self.asked[text] = self.port.run.value(text) or ""
        return found[0], self.asked[text], False

    def lines(self, lines):
        """Freezes all refused calls of lines, for which make is asked once; answers whether it could for any."""
        places = [(call, self.place(call)) for line in lines for call in self.port.probes.of(line)]
        texts = [joined(call.line.text[slice(*found[0])]) for call, found in places if found and found[1] is None]
        self.asked.update((text, value or "") for text, value in zip(texts, self.port.run.values(texts)))
        return any([self.line(line) for line in lines])

    def line(self, line):
        """Freezes all refused calls of a line; answers whether it could."""
        calls = self.port.probes.of(line)
        if not calls or line.edits:
            return False
        edits = {}
        for call in calls:
            if self.port.mender(file_writes.FileWrites).by_shell(call, edits):
                continue
            found = self.picked(call)
            if found and "\n" not in found[1]:
                (start, end), value, is_told = found
                name = self.named(line, joined(line.text[start:end]), value, is_told)
                self.calls_in.setdefault(name, []).append(call)
                edits[start, end] = f"$({name})"
            elif not self.by_shell(call, edits) and not self.by_table(call, edits):
                return False
        line.edits = edits
        for call in calls:
            self.port.tell("frozen", call.kind)
        return True

    def doubled(self, lines):
        """Freezes calls behind two dollars, which an `eval` expands; answers whether there are such."""
        calls = []
        for line in [line for line in lines if not line.is_tab]:
            for found in doubled_calls(line):
                makes = joined(found.text).replace("$$", "$")
                if not (is_in(is_numbered, makes) or is_in(is_automatic, makes)):
                    calls.append((line, (found.start - 1, found.end), makes, found.function))
        told = self.port.run.values([makes for _, _, makes, _ in calls])
        known = [one for one in zip(calls, told) if one[1] is not None and "\n" not in one[1]]
        for (line, span, makes, kind), value in known:
            line.edits[span] = f"$$({self.named(line, makes, value, False)})"
            self.port.tell("frozen", kind)
        return bool(known)

    def named(self, line, makes, value, is_told):
        """The name of a macro that is this text for make and this value for kati; where no probe told it, that is
        kept."""
        name = self.port.values.add(line, wanted_name(line, makes), makes, value, joined(makes))
        self.untold.update([] if is_told else [name])
        return name

    def reference(self, line, makes, value):
        """A reference to such a macro."""
        return f"$({self.named(line, makes, value, True)})"

    def hangs_on_list(self):
        """Whether a value hangs on patterns that aren't known, as make never asked for it."""
        values = {one.name: one for one in self.port.values.all}
        return any("wildcard" in values[name].makes and frozen_values.pattern_of(values[name].source) is None
                   for name in self.untold)

    def watched_by_calls(self, calls):
        """The words to watch for what was asked for by calls."""
        probes, real = self.port.probes, self.port.copy.real_text
        found = command_reads.reads_of_calls(*(
            [real(one) for call in calls for one in probes.asked_behind(call, numbers)] for numbers in probes.asked),
            known=self.reads)
        return [word for word in found if not self.is_of_recipes(word.lstrip(watched.THERE))]

    def is_of_recipes(self, names):
        """Whether names are those of what calls in recipes write: a value that hangs on it is that of a build from
        nothing."""
        return any(os.path.normpath(one) in self.port.first.by_recipes for one in names.split())

    def watched_behind(self, call):
        """The words to watch for one call, in the folder itself."""
        with inside(self.port.copy.real):
            return self.watched_by_calls([call])

    def watched(self):
        """The words to watch for all values, in the folder itself."""
        calls = [call for numbers in self.port.probes.asked for call in numbers if call not in self.handed]
        patterns = map(self.port.copy.real_text, self.port.written_out.patterns)
        with inside(self.port.copy.real):
            found = self.watched_by_calls(calls)
            return found + [word for one in patterns for word in watched.of_wildcard(one) if "," not in word]

    def by_shell(self, call, edits):
        """A call of `shell` in a recipe that has several values: for kati the recipe's own shell does it."""
        argument = argument_of(call.text(), "shell")
        start, end = call.chain[0]
        is_quoted = call.line.text[:start].count("'") % 2 == 1
        if argument is None or not call.line.is_tab or is_quoted or is_in(is_numbered, call.text()) \
                or not is_handed_on(call):
            return False
        makes = joined(call.text())
        command = joined(argument).strip()
        name = self.port.values.add(call.line, "shell", makes, f"$$({command})", frozen_values.FOR_SHELL, True)
        edits[start, end] = f"$({name})"
        self.handed.add(call)
        return True

    def by_table(self, call, edits):
        """A call that depends on an argument, a loop or the target has a value for each."""
        line, span = call.line, call.chain[0]
        table, key = self.port.probes.table(line, span), self.port.probes.key(line, span)
        if table is None or not key or not refused_function(references.only(call.text())):
            return False
        makes = joined(call.text())
        name = self.port.values.add(line, wanted_name(line, makes), makes, None, "by what it depends on", True)
        value = next(one for one in self.port.values.all if one.name == name)
        value.katis, value.table = f"$({name}_{key})", {f"{name}_{one}": told for one, told in table.items()}
        patterns = {one: pattern for one, pattern in self.port.probes.asked_by(call).items()
                    if not (set(pattern) & set("$()\n") or self.is_of_recipes(pattern))
                    and watched.fitting(pattern) == table.get(one, "").strip()}
        value.sources = {f"{name}_{one}": f"$(wildcard {pattern})" for one, pattern in patterns.items() if one in table}
        self.calls_in[name] = [call]
        edits[span] = f"$({name})"
        return True

    def settle_sources(self):
        """Says of each value where it came from in such a way that it is known when make is to be asked again."""
        values = [one for one in self.port.values.all if one.source != frozen_values.FOR_SHELL]
        asked = {one: self.asked_for(one) for one in values}
        told = {one: found[0] for one, found in asked.items() if found is not None and len(found) == 1}
        left = [one for one, found in asked.items() if found is not None and one not in told]
        told.update(zip(left, self.port.run.values([frozen_argument(one.makes) for one in left])))
        # Many values hang on the same.
        sum_of = functools.lru_cache(None)(watched.sum_of)
        with inside(self.port.copy.real):
            for one in values:
                if told.get(one) is None:
                    one.source = frozen_values.with_sums(one.source, self.watched_by_value(one), sum_of)
                else:
                    self.settle(one, self.port.copy.real_text(told[one].strip()), sum_of)

    def watched_by_value(self, value):
        """The words to watch for a value, but for patterns that its table names."""
        named = {word for source in value.sources.values() for word in source[len("$(wildcard "):-1].split()}
        return [word for word in self.watched_by_calls(self.calls_in.get(value.name, [])) if word not in named]

    def asked_for(self, value):
        """The commands or patterns which a value that is such a call comes from, as far as make was seen to ask for
        them: what a macro was where make asked counts, not what it is at the end. None of another value."""
        if frozen_argument(value.makes) is None:
            return None
        probes = self.port.probes
        return self.asked_by_calls(value, probes.commands if argument_of(value.makes, "shell") is not None
                                   else probes.patterns)

    def commands_of(self, value):
        """The commands which a value comes from, as far as make was seen to run them."""
        return self.asked_by_calls(value, self.port.probes.commands)

    def asked_by_calls(self, value, numbers):
        """What the calls in a value ask for, each once, where it is of one line."""
        calls = self.calls_in.get(value.name, [])
        found = dict.fromkeys(one.strip() for call in calls for one in self.port.probes.asked_behind(call, numbers))
        return [text for text in found if "\n" not in text]

    def settle(self, value, asked, sum_of):
        """The same for one value, of which the call's argument expands to `asked`; `sum_of` answers the sums of
        words."""
        is_wildcard = argument_of(value.makes, "wildcard") is not None and not set(asked) & set("$()\n")
        if is_wildcard and self.is_of_recipes(asked):
            value.source = f"$(wildcard {asked}) {BEFORE_RECIPES}"
            return
        if is_wildcard:
            value.source = frozen_values.of_wildcard(asked, self.port.copy.real_text(value.katis))
            own = frozen_values.own_names(asked)
            if own and watched.fitting(asked) == value.katis.strip():
                value.makes = f"$(filter-out {' '.join(own)},{value.makes})"
            return
        named = command_reads.reads_of(asked)
        if named and "\n" not in asked:
            value.source = frozen_values.with_sums(f"$(shell {asked})", named, sum_of)


def frozen_argument(text):
    """What stands behind the function's name in a call of `shell` or `wildcard`; None of another text."""
    found = argument_of(text, "shell", "wildcard")
    return None if found is None or is_in(is_automatic, text) or is_in(is_numbered, text) else found
