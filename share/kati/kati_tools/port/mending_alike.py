"""What is mended with a fault: all that kati would refuse in the same way, or in another one of those that the lines
themselves show, of what make reads and evaluates.

So one run of kati's does for many faults; what make doesn't come by stays as it is."""
from typing import Any, NamedTuple

from ..makefile import references, statements
from ..makefile.forms import has_wildcard
from ..makefile.syntax import Kind
from . import constructs, dependency_includes, freezing_names, frozen_values, mending, mending_lines, target_macros

BEHIND_TAB = {Kind.CONDITION, Kind.INCLUDE, Kind.DIRECTIVE, Kind.DEFINE, Kind.UNDEFINE}


class Alike(NamedTuple):
    """A fault that kati would have: its file, line and number, the word that it ends with, and its words."""

    file: Any
    line: Any
    number: str
    last: str = ""
    words: str = ""


def read_lines(port):
    """The lines that make reads, each with its file."""
    for file in list(port.ported.values()):
        for line in list(file.lines):
            if not (line.is_makes or line.is_gone) and port.probes.read.is_read(line):
                yield file, line


def mend_alike(port, fault):
    """Mends such a fault by the first function for its number that does something."""
    return any(one(port, fault) for one in constructs.by_number(fault))


def unwrapped_lines(port):
    """Those of them that make and kati share, though parts of them may be mended."""
    return ((file, line) for file, line in read_lines(port) if not line.is_wrapped)


def unchanged_lines(port):
    """Those of them in which nothing is mended yet."""
    return ((file, line) for file, line in unwrapped_lines(port) if not line.edits)


def functions(port):
    """E16: the lines of which make evaluated the calls, but for what words of the command line give values to."""
    given = {one.split("=", 1)[0].rstrip(":+?") for one in port.asked.macros}
    # The line of before by which the values are included stays.
    for _, line in [one for one in read_lines(port) if not one[1].edits and frozen_values.NAME not in one[1].text]:
        is_given = (line.assignment() or ("",))[0] in given
        if not is_given and port.probes.are_met(line):
            port.freezer.line(line)


def forms(port):
    """E17: lines that begin with a refused word, and `!=`."""
    for file, line in unwrapped_lines(port):
        word, assigned = line.first_word(), line.assignment()
        is_shell = bool(assigned) and assigned[1] == "!="
        if not (line.is_tab or line.is_body) and (is_shell or word in statements.DIRECTIVES):
            mend_alike(port, Alike(file, line, "E17", "!=" if is_shell else word))


def of_targets(port):
    """E23."""
    for _, line in unwrapped_lines(port):
        if port.probes.read.kind(line) is Kind.TARGET_ASSIGNMENT and not line.is_tab:
            port.mender(target_macros.TargetMacros).add(line)


def behind_tabs(port):
    """E06: words behind a tab that make takes for the beginning of no recipe line."""
    for file, line in unchanged_lines(port):
        if line.is_tab and port.probes.read.is_behind_tab(line) and port.probes.read.kind(line) in BEHIND_TAB:
            mending_lines.tabs(port, Alike(file, line, "E06"))


def conditionals(port):
    """E15: conditionals by names that are empty at the end, and those with a parenthesis too much."""
    for file, line in unchanged_lines(port):
        if line.kind is Kind.CONDITION and line.text.count("(") < line.text.count(")"):
            mending_lines.odd_parenthesis(port, Alike(file, line, "E15"))
    meant = [(file, line, name) for file, line in unchanged_lines(port) if not line.is_body
             for name in [mending_lines.tested_name(line)] if name.startswith("$")]
    told = port.run.values([name for _, _, name in meant])
    for (file, line, _), value in zip(meant, told):
        if value is not None and not value.strip():
            mending_lines.empty_name(port, Alike(file, line, "E15"))


def names(port):
    """E20: wildcards in rule lines, and includes of header dependencies by wildcards."""
    includes = [line for _, line in unchanged_lines(port) if port.probes.read.kind(line) is Kind.INCLUDE
                and not line.is_tab and any(map(is_wild, references.words(line.joined)[1:]))]
    dependencies = port.mender(dependency_includes.DependencyIncludes)
    for line, told in dependencies.names_in(includes).items():
        dependencies.add(line, told)
    found = [(file, line, name) for file, line in unchanged_lines(port) for name in wildcards(port, line)]
    texts = list(dict.fromkeys(name for _, _, name in found))
    port.fitting.update(zip(texts, port.run.values([f"$(wildcard {name})" for name in texts])))
    for file, line, name in found:
        mending.refused_name(port, Alike(file, line, "E20", words=f"refused name {name}"))
    for _, line in unchanged_lines(port):
        freezing_names.freeze_told(port, line)


def is_wild(word):
    """Whether a word is a name with a wildcard."""
    return has_wildcard(word) and "$" not in word


def wildcards(port, line):
    """The names with wildcards in a line, where it is one of a rule."""
    is_rule = not (line.is_tab or line.is_body) and port.probes.read.kind(line) is Kind.RULE
    return wildcards_in(line) if is_rule else []


def wildcards_in(line):
    """The same in a rule line."""
    return list(filter(is_wild, statements.Rule(line.joined).words())) if has_wildcard(line.joined) else []


ALIKE = {"E06": behind_tabs, "E15": conditionals, "E16": functions, "E17": forms, "E20": names, "E23": of_targets}


def mend(port, numbers):
    """Mends what is alike, where one of the faults with these numbers is of that sort."""
    for one in ALIKE.values() if ALIKE.keys() & set(numbers) else ():
        one(port)
