"""What make is asked before anything is changed: which makefiles it reads and makes, its commands, and the values of
what kati refuses."""
import glob
import os

from ..base import files
from ..build import begun, rule_heads
from ..makefile import quick_looks, references
from ..makefile.syntax import Kind
from ..make import make_run, recipe_shell, shell_calls
from . import (constructs, dependency_includes, frozen_values, make_probes, mending_alike, of_the_run, shell_writes,
               written_outside)
from .stuck import MakeFails, OtherShell


def look(port):
    """Has make make its includes, finds the makefiles, and asks for the values of what kati refuses."""
    port.load(port.makefile)
    start, calls = begun.Start(port.room), shell_calls.of_room(port.room)
    first, above, present = port.copy.times(), port.copy.times_above(), port.copy.present()
    port.first.shell = make_run.shell_in(port.lines())
    port.run.use_shell(port.first.shell)
    refuse_other_shells(port)
    before = port.copy.times()
    port.first.by_shell = sorted({*before, *port.copy.times_above()}.difference(first, above))
    port.first.folders = shell_writes.folders_of(port.copy.present() - present)
    texts = calls.texts()
    make_includes(port, before, changed(first, before))
    present = port.copy.present()
    port.first.commands = port.run.commands(
        texts=texts_of(port), may_make=may_make_makefiles(port),
        has_database=any(one.has_use_for_database() for one in port.menders.values()))
    shell_writes.note_recipes(port, present)
    if port.first.commands[0]:
        raise MakeFails(port.first.commands[0], port.first.commands[2])
    constructs.mend_read(port)
    port.probes = asked_probes(port)
    for one in port.menders.values():
        one.look()
    port.first.outside = written_outside.paths(port.copy, texts | calls.texts(), start)
    port.values.take("\n".join([*(file.before for file in port.ported.values()),
                                files.read(frozen_values.NAME) or ""]))


def texts_of(port):
    """The texts of which values will be asked for, but for those with functions that might do more than to tell."""
    found = [*of_the_run.texts("".join(file.before for file in port.ported.values())), *wildcards(port),
             *(text for one in port.menders.values() for text in one.texts())]
    return [text for text in dict.fromkeys(found) if all(map(tells_alone, references.references(text)))]


def tells_alone(reference):
    """Whether a reference is to a macro, or calls a function that tells of one or of a plain pattern."""
    is_plain = reference.function == "wildcard" and "$" not in reference.argument
    return is_plain or reference.function in (None, "flavor", "origin", "value")


def wildcards(port):
    """The calls that tell what names with wildcards of rule lines fit."""
    rules = (line for line in port.lines() if line.kind is Kind.RULE and not (line.is_tab or line.is_body))
    return [f"$(wildcard {name})" for line in rules for name in mending_alike.wildcards_in(line)]


def may_make_makefiles(port):
    """Whether rules, of make's own too, may make some of the makefiles that make reads."""
    names = [port.makefile, *port.first.read]
    sources = [f"{glob.escape(name)}[.,]*" for name in names]
    sources += [os.path.join(os.path.dirname(name), kept) for name in names for kept in ("RCS", "SCCS", "s.*")]
    return any(".DEFAULT" in file.before or rule_heads.may_make(file.before, names)
               for file in port.ported.values()) or any(map(glob.glob, sources))


def make_includes(port, before, by_shell):
    """Has make make its includes, where files had these times `before`, and loads what it reads; `by_shell` are the
    files that commands change each time."""
    above = port.copy.times_above()
    status, said, names = port.run.make_includes()
    if status:
        raise MakeFails(status, said)
    above_now = port.copy.times_above()
    port.first.made_above = sorted({*changed(above, above_now), *set(above_now).difference(above)})
    port.first.read = {os.path.normpath(os.path.relpath(name)) for name in names}
    load_read(port)
    port.first.times = after = port.copy.times()
    sort_made(port, sorted(set(after) - set(before)), sorted(changed(before, after) - by_shell))
    if after != before:
        port.run.forget_calls()
        refuse_other_shells(port)


def refuse_other_shells(port):
    """Stops where make would run a line of a recipe while it is asked."""
    try:
        port.run.refuse_other_shells()
    except recipe_shell.OtherShell as found:
        raise OtherShell(str(found)) from None


def load_read(port):
    """Loads what make reads, as it is once make has written anew what has a rule and is out of date."""
    before = dict(port.ported)
    port.ported.clear()
    for name in [port.makefile, *sorted(port.first.read)]:
        if name in before and files.read(name) == before[name].before:
            port.ported.setdefault(name, before[name])
        else:
            port.load(name)


def asked_probes(port):
    """The probes, of which make told the values. Where a macro has several, each reference to it gets a probe, as is
    asked at once of those that may; where what a call depends on doesn't settle its value, the target may."""
    ported, known = list(port.ported.values()), ({}, frozenset())
    probes = asked = make_probes.Probes(ported, make_probes.may_be_unsettled(ported))
    asked.ask(ported, port.run, port.room)
    while True:
        if known[0] != probes.unsettled:
            probes = make_probes.Probes(ported, known[0], asked)
            if not probes.take(asked):
                probes = asked = make_probes.Probes(ported, known[0], asked)
                asked.ask(ported, port.run, port.room)
        probes.by_target = known[1]
        more = probes.still_unsettled(ported), probes.by_target | probes.still_unsettled_calls()
        if more == known:
            return probes
        known = more


def sort_made(port, new, others):
    """Of the files that make made before anything, or wrote anew: those that the makefiles need, and the
    dependencies, which aren't there when kati reads."""
    named = [name for name in {*port.first.read, *new} if dependency_includes.NAMES.search(name)]
    dependencies = {name for name in named if port.copy.own(name) and dependency_includes.is_one(name)}
    new_ones, remade = ([name for name in names if name not in dependencies] for names in (new, others))
    remade = [name for name in remade if files.content(name) != files.content(port.copy.real_path(name))]
    port.dropped = {name for name in port.ported if any(
        quick_looks.may_have_rule(file.before, name) for file in port.ported.values())}
    if not port.first.read.isdisjoint([*new_ones, *remade]):
        port.first.made, port.first.remade = new_ones, remade
    there = {name for name in dependencies if os.path.isfile(name)}
    port.first.hidden = sorted(there.union(new).difference(port.first.made))
    for name in port.first.hidden:
        port.ported.pop(name, None)


def changed(before, after):
    """The files of which the times, by their names, aren't those of before."""
    return {name for name, time in before.items() if after.get(name, time) != time}
