"""What mends calls, names and special targets where kati has a fault. Each is given the port and the fault, and answers
whether it did something."""
import os

from ..makefile import references
from ..makefile.syntax import Kind
from . import (default_rule, dependency_includes, folder_search, freezing, freezing_names, frozen_values, make_probes,
    mending_lines, target_macros)
from .make_probes import is_automatic, is_eval, is_in, is_numbered


def definitions_of(port):
    """The lines that give values to macros, by the names of these."""
    found = {}
    for file in port.ported.values():
        for name, line in file.definitions():
            found.setdefault(name, []).append(line)
    return found


def reached(port, text, definitions=None):
    """The lines that give values to the macros that a text refers to, and to those that they refer to."""
    lines = definitions_of(port) if definitions is None else definitions
    left, seen = [text], set()
    while left:
        named = dict.fromkeys(references.names_in(left.pop()))
        for name in [name for name in named if name in lines and name not in seen]:
            seen.add(name)
            yield from lines[name]
            left += [line.text for line in lines[name]]


def refused_function(port, fault):
    """E16: freezes the calls of the line, or of those that make evaluated of lines whose values it comes to; of a
    computed name, all of that function."""
    near = near_lines(port, fault)
    first = [line for line in near if line is fault.line]
    evaluated = [line for line in near if port.probes.are_told(line)]
    if any(port.freezer.lines(some) for some in (first, evaluated)):
        return True
    if any(freezing.doubled_calls(line) for line in reached_by(port, fault)) and freeze_doubled(port):
        return True
    return not near and freeze_all(port, fault)


def far_function(port, fault):
    """E16: the same of lines whose values the line comes to, or may, though make evaluated nothing there."""
    near = near_lines(port, fault)
    read = [line for line in near if port.probes.read.is_read(line)]
    return any(port.freezer.lines(some) for some in (read, near)) or freeze_all(port, fault)


def freeze_all(port, fault):
    """Freezes all calls of a function; answers whether there are any."""
    meant = [line for line in port.lines() if is_meant(port, line, fault.last)]
    read = [line for line in meant if port.probes.read.is_read(line)]
    return any(port.freezer.lines(some) for some in (read, meant)) or freeze_doubled(port)


def reached_by(port, fault):
    """The line of a fault, and those that give values to what it refers to."""
    return [fault.line, *reached(port, fault.line.now())] if fault.line else []


def near_lines(port, fault):
    """Those of them that have calls of its function which aren't frozen."""
    return [line for line in reached_by(port, fault) if is_meant(port, line, fault.last)]


def freeze_doubled(port):
    """Freezes the calls behind two dollars; answers whether there are any."""
    return port.freezer.doubled([line for line in port.lines() if not line.edits])


def is_meant(port, line, function):
    """Whether a line has calls of this function that aren't frozen."""
    return not line.edits and any(call.kind == function for call in port.probes.of(line))


def makes_own(port):
    """Freezes what is made of make's own macros that are empty for kati without a fault."""
    for line in port.lines():
        calls = [] if frozen_values.NAME in line.text else port.probes.of(line)
        if any(call.kind in make_probes.OF_MAKE and port.probes.told(line, call.chain[0])
               for call in calls):
            port.freezer.line(line)


def shell_assignment(port, fault):
    """E17: `NAME != COMMAND` is for make alone; kati gets a deferred assignment, too, of what the command wrote."""
    line = fault.line
    name, operator, command = line and line.assignment() or ("", "", "")
    if fault.last != "!=" or operator != "!=":
        return False
    told = port.probes.told(line, (0, 0))
    value = told[0] if len(told) == 1 else port.run.value(f"$(shell {command})")
    if value is None or len(told) > 1:
        return False
    reference = port.freezer.reference(line, f"$(shell {command})", value)
    line.wrap(lambda text: f"{name} = {reference}")
    port.tell("frozen", "!=")
    return True


def folder_pattern(port, fault):
    """E17: `vpath` is for make alone, and its folders are searched for kati."""
    line = fault.line
    if fault.last != "vpath" or line is None or line.is_body:
        return False
    port.mender(folder_search.Search).add(line)
    line.wrap()
    return True


def name_of(fault):
    """The name that kati refuses by E20; None where nothing is known for it."""
    name = fault.words[len("refused name "):]
    return None if fault.line is None or "(" in name or "\\%" in name else name


def refused_include(port, fault):
    """E20: an include by a wildcard is for kati one of the names that it fits; `-include *.d` is for make alone where
    Ninja reads what compilers write."""
    line = fault.line
    if name_of(fault) is None or line.kind is not Kind.INCLUDE:
        return False
    dependencies = port.mender(dependency_includes.DependencyIncludes)
    return dependencies.take(line) or freezing_names.freeze_includes(port, [line])


def refused_name(port, fault):
    """E20: a name with a wildcard is for kati the names that it fits."""
    name, line = name_of(fault), fault.line
    if name is None or line.kind is Kind.INCLUDE:
        return False
    for one in [line, *reached(port, line.now())]:
        if freezing_names.freeze_name(port, one, name):
            return True
    return freezing_names.freeze_words(port, line, name)


def absent_include(port, fault):
    """E04: header dependencies that make makes may be absent for kati."""
    name = os.path.normpath(fault.words[len("no file "):])
    is_made = name in port.first.hidden or dependency_includes.NAMES.search(name)
    dependencies = port.mender(dependency_includes.DependencyIncludes)
    return bool(is_made) and fault.line is not None and dependencies.have_read([fault.line])


def is_of_target(fault, name):
    """Whether kati refuses a special target of this name by E22."""
    return fault.last == name and fault.line is not None and not fault.line.is_body


def export_all(port, fault):
    """E22: `.EXPORT_ALL_VARIABLES` is for make alone."""
    if not is_of_target(fault, ".EXPORT_ALL_VARIABLES"):
        return False
    fault.line.wrap()
    port.tell("export")
    return True


def default(port, fault):
    """E22: `.DEFAULT`."""
    return is_of_target(fault, ".DEFAULT") and port.mender(default_rule.DefaultRule).add(fault.line)


def target_macro(port, fault):
    """E23."""
    if fault.line is None or fault.line.is_body:
        return False
    return port.mender(target_macros.TargetMacros).add(fault.line)


def evaluated_value(port, fault):
    """E32: a macro that evaluates its own value, as `X = $(eval X := $(shell ..))$(X)`, which a recipe is the first to
    use: kati gets the value. Where it stands behind a tab, and is surely none of a recipe's lines, both get spaces."""
    for line in [line for line in port.lines() if evaluates_itself_behind_tab(port, line)]:
        mending_lines.indent(port, line)
        port.tell("tab")
    text = "\n".join([fault.line.now(), *recipes(port)]) if fault.line else ""
    lines = [line for line in reached(port, text) if evaluates_itself(line)]
    names = [line.assignment()[0] for line in lines]
    found = [one for one in zip(lines, names, port.run.values([f"$({name})" for name in names]))
             if one[2] is not None and "\n" not in one[2]]
    for line, name, value in found:
        source = freezing.joined(line.text).strip()
        macro = port.values.add(line, freezing.wanted_name(line, ""), f"$({name})", value, source)
        port.freezer.calls_in[macro] = port.probes.of(line)
        line.wrap(lambda text, name=name, macro=macro: f"{name} = $({macro})")
        port.tell("evaluated")
    return bool(found)


def recipes(port):
    """The lines of rules and of recipes that make reads."""
    read = port.probes.read
    return [line.text for line in port.lines() if read.kind(line) in (Kind.RULE, Kind.RECIPE) and read.is_read(line)]


def evaluates_itself(line):
    """Whether a line gives a macro such a value, which is the same wherever it is asked for."""
    return evaluates_own_name(line.assignment()) and not line.is_wrapped


def evaluates_itself_behind_tab(port, line):
    """Whether make reads such a line behind a tab."""
    is_read = line.is_tab and port.probes.read.is_read(line) and port.probes.read.is_behind_tab(line)
    return is_read and line.kind is Kind.ASSIGNMENT and evaluates_own_name(line.says[1:4])


def evaluates_own_name(assignment):
    """Whether an assignment gives a macro such a value, by its name, operator and value."""
    name, operator, value = assignment or ("", "", "")
    is_plain = not is_in(is_numbered, value) and not is_in(is_automatic, value) and "$" not in name
    return operator == "=" and is_plain and is_in(is_eval, value)


def by_dependencies(port, fault):
    """E24, E28, E31: what headers depend on may be told in ways that kati refuses; then it is for make alone."""
    del fault
    return port.mender(dependency_includes.DependencyIncludes).wrap()


def too_deep(port, fault):
    """E08: the highest limit of levels, once."""
    if port.for_kati.depth == 400:
        return False
    port.for_kati.depth = 400
    port.note("macros or includes nest deeply: give kati-build --depth 400")
    return True
