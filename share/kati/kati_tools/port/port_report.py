"""What a port did, a line a kind, and what it is worth: whether make's commands stayed, and whether kati's are
make's."""
import contextlib
import os
from collections import Counter

from ..make import command_lists, shell_reading
from ..build import comparing, differences
from . import by_recipes_shell, exports_of_all, file_writes, folder_search, made_links, mending_exports, newer_names, \
    scanning, shell_flags, shell_writes, taken_away, target_macros, template_faults, unseen_reads, written_outside
from .frozen_values import NAME
from ..base.programs import Stop

KINDS = {
    "tab": "conditionals and other lines behind a tab: indented by spaces, for both",
    "prefix": ".RECIPEPREFIX: recipe lines begin with a tab, for both",
    "written out": "what a line has eval read: written out for kati, as make told it; port again where that changes",
    "evaluated": "a macro that evaluates its own value: for kati the value",
    "percent": "a quoted percent sign that takes the place of a pattern: put there behind that, for both",
    "empty name": "a name in a conditional that is empty: one that nothing has, for both",
    "parenthesis": "a parenthesis too much in a conditional, which make takes as text: in quotes, for both",
    "dependencies": "header dependencies: for make alone; kati-build --deps reads what the compiler writes",
    "read dependencies": "header dependencies that a command writes: kati reads them, and they may be absent",
    "export": "export and unexport: for make alone",
    "override": "override: dropped for kati",
    "private": "private: dropped for kati",
    "undefine": "undefine: an empty value for kati",
    "load": "load: for make alone",
    "-load": "load: for make alone",
    "search": "VPATH and vpath: a rule for each folder",
    "double colon": "a double colon without a recipe: for kati a single one, so that it finds make's rule",
    "suffix needs": "prerequisites of a suffix rule, which make ignores: left out for kati",
    "circle": "a rule of which make drops all prerequisites, as circles: for make alone",
    "suffix name": "a file or folder that is named as a suffix: for kati a rule of its own",
    "made folder": "a folder that mkdir makes: for kati before what lies in it, as Ninja makes it there otherwise",
    "taken away": "what another recipe takes away first: for kati it hangs on that one, so that it is made anew",
    "default goal": "an empty .DEFAULT_GOAL, behind which the next target is make's goal: for kati that one",
    ".DEFAULT": ".DEFAULT: a rule for the names that it makes",
    "second expansion": ".SECONDEXPANSION: each target's prerequisites as make has them",
}


# Advice for faults that no form of a line tells of.
OTHERS = {
    "E04": "make the file first, or write -include",
    "E19": "what the text says; kati takes another branch here than make: compare the conditions before it",
    "E27": "a goal that is only a file is no goal for kati: name another, or write a rule for it",
    "E28": "take one of the prerequisites out: make drops it, and says so",
    "E31": "spell the name in one way",
    "E32": "move it out of the recipe: recipes are expanded when all macros are settled",
    "E36": "keep one of the recipes",
}


def did(port):
    """A line for each kind of what was done."""
    frozen = [(detail, count) for (kind, detail), count in port.did.items() if kind == "frozen" and count]
    if frozen:
        details = ", ".join(f"{count} {detail}" for detail, count in frozen)
        yield f"{comparing.counted(sum(count for _, count in frozen), 'value')} in {NAME}: {details}"
    if port.for_kati.of_the_run:
        yield f"what tells of the run, in {NAME}: {' '.join(port.for_kati.of_the_run)}"
    if port.values.environment:
        yield f"what the environment has, in {NAME}: {' '.join(port.values.environment)}"
    for kind, words in KINDS.items():
        count = sum(count for (one, _), count in port.did.items() if one == kind)
        if count:
            yield f"{count} x {words}"
    exports = port.mender(mending_exports.Exports)
    if exports.handed:
        yield f"exported, by SHELL at the end of the makefile, to kati's commands: {' '.join(exports.handed)}"
    macros = port.mender(target_macros.TargetMacros).all
    needed = [one for one in macros if one.hit]
    others = sum(not (one.hit or one.is_taken) for one in macros)
    if others:
        yield f"{comparing.counted(others, 'target-specific macro')} that these goals don't need: for make alone"
    if needed:
        count = comparing.counted(len(needed), "target-specific macro")
        yield f"{count} asked for by the target's name, at the end of the makefile"
    if port.first.made or port.first.remade:
        yield f"made first, as make does: {' '.join([*port.first.remade, *port.first.made])}"
    yield from port.mender(shell_writes.ShellWrites).told("writes", "reads", "; kati doesn't")
    yield from written_outside.told(port)
    yield from unseen_reads.told(port)
    yield from port.notes


def advice(port, fault):
    """The advice for a fault: that for its line, where it is one that kati-port tells of."""
    if fault is None:
        return None
    scan = scanning.Scan(word.split("=", 1)[0] for word in port.asked.macros)
    with contextlib.suppress(Stop, RecursionError):
        scan.file_of(fault.file.name if fault.file else port.makefile)
    found = [one for one in scan.findings if fault.line and one.file == fault.file.name
             and one.number == fault.line.number and one.fault() == fault.number]
    return found[0].told() if found else template_faults.told(port, fault) or OTHERS.get(fault.number)


def commands_of(statements):
    """The commands that the statements hold, each without the shell round it."""
    return [text.strip() for one in statements if one.command is not None for text in comparing.unwrapped(one.command)]


def seen_from_here(name):
    """A name as this folder has it, where it is a whole path."""
    return os.path.relpath(name) if os.path.isabs(name) else name


def remaking(statements, read):
    """The statements that make makefiles which are read, and what those are made from."""
    by_output = {seen_from_here(name): one for one in statements for name in one.outputs}
    left, found = [name for name in by_output if name in read], {}
    while left:
        one = by_output.get(left.pop())
        if one is not None and one.line not in found:
            found[one.line] = one
            left += map(seen_from_here, one.inputs)
    return found.values()


class Comparison:
    """make's commands before and after, and kati's, which may differ from them in blanks."""

    def __init__(self, port, translation, after=None):
        if after is None:
            # A call may read the makefile, which is another one now.
            port.run.forget_calls()
        self.before, self.after, self.count_varying = port.first.commands[1], after or port.run.commands(), 0
        self.calls = by_recipes_shell.of_port(port, self.after[1], translation.statements)
        makes = [line.replace(port.run.noop, port.first.shell) for line in self.calls.commands]
        katis = commands_of(translation.statements)
        # What makes makefiles make does before, and may say nothing of.
        remade = commands_of(remaking(translation.statements, port.first.read))
        more = command_lists.alone(katis, makes)
        others = command_lists.alone(more, [*self.after[3], *remade])
        katis = command_lists.alone(katis, command_lists.alone(more, others))
        found = command_lists.Compared(makes, comparing.besides([], translation.said), katis)
        self.makes, self.katis, self.has_other_blanks = found.makes, found.katis, bool(found.in_blanks)
        forms = (Counter(map(shell_reading.without_quoted_blanks, lines)) for lines in (self.makes, self.katis))
        self.is_in_quotes = next(forms) == next(forms)
        exports = port.mender(mending_exports.Exports)
        self.in_environment, has_other_blanks = exports.differences(translation)
        if exports.added.is_of_all:
            self.in_environment += exports_of_all.made_before(
                [*port.first.made, *port.first.remade], translation.statements, port.first.read)
        self.has_other_blanks = self.has_other_blanks or has_other_blanks
        self.of_the_shell = port.mender(shell_flags.ShellFlags).differences(translation)
        self.unwritten = list(port.mender(file_writes.FileWrites).differences())
        self.newer = newer_names.Newer(port, translation)
        # What is told, and is no difference.
        self.notes = [*self.calls.told, *self.newer.notes, *made_links.told(translation)]
        self.when_run = [*self.newer.differences, *taken_away.told(translation),
                         *port.mender(folder_search.Search).differences()]

    def is_unchanged(self, again):
        """Whether make does what it did. Where it doesn't, `again` tells what it does now by the makefiles as they
        were: commands that differ then too are others each time, as by a date."""
        status, after, _, _ = self.after
        if status or len(after) != len(self.before):
            return False
        others = [one for one, before in enumerate(self.before) if after[one] != before]
        now = again() if others else []
        self.count_varying = len(others)
        return not others or len(now) == len(after) and all(now[one] != self.before[one] for one in others)

    def is_same(self):
        """Whether kati's commands are make's."""
        return not (self.makes or self.katis or self.in_environment or self.of_the_shell or self.when_run
                    or self.unwritten or self.calls.differences)

    def told(self):
        """The lines that say so; the last one says what it comes to."""
        varying = f", {self.count_varying} of them another one each time" if self.count_varying else ""
        yield f"make's commands are as before: {len(self.before)}{varying}"
        yield from self.notes
        if self.is_same():
            aside = ["blanks"] * self.has_other_blanks + ["calls that the recipe's shell runs"] * bool(self.calls.told)
            yield f"kati's commands are make's{', '.join(['', ' and '.join(aside)]) if aside else ''}" \
                f"{' aside' if aside else ''}"
            return
        yield from self.in_environment
        yield from self.of_the_shell
        yield from self.when_run
        yield from self.unwritten
        yield from self.calls.differences
        yield from differences.lines(self.makes, self.katis)
        yield f"kati's commands differ{'; they differ'.join(self.summed_up())}"

    def summed_up(self):
        """What the commands differ in."""
        if self.is_in_quotes and self.makes:
            yield f" in blanks within quotes, which count: {len(self.makes)}"
        elif self.makes or self.katis:
            yield f": {len(self.makes)} of make's alone, {len(self.katis)} of kati's alone"
        if self.in_environment:
            yield " in their environment"
        if self.of_the_shell:
            yield " in the shell and its flags"
        if self.when_run:
            yield " in when they are run"
        if self.unwritten:
            yield " in files that they write"
        if self.calls.differences:
            yield " in what calls give that the recipe's shell runs"
