"""The variables that makefiles name as exported, and those that commands take from the environment."""
import os
import re

from ..base import files
from ..makefile import references, statements, syntax
from .command_environment import NAME, OWN
from ..makefile.includes import MAKEFILES
from ..makefile.ported_text import PortedFile, definitions

WORD = re.compile(r"\w+")
# make's option by which it tells its database, and the macros by which a makefile may look for it.
OPTION, FLAGS = "p", re.compile(r"MAKEFLAGS|MFLAGS")
# What commands have in their environment without an export.
GIVEN_ANYHOW = {"PATH", "HOME", "TMPDIR"}
RUNS_MAKE = re.compile(r"(^|[\s;&|()'\"])(\S*/)?g?make\s", re.MULTILINE)
SCRIPTS = re.compile(r"\.(sh|pl|py|awk)$|(^|/)configure$")


def texts_of(makefiles):
    """The texts of these makefiles, by their names."""
    return {name: files.read(name) for name in makefiles if os.path.isfile(name)}


def lines_of(texts):
    """The lines of these makefiles."""
    return [line for name, text in texts.items() for line in PortedFile(name, text).lines]


def named(lines):
    """The names in lines with `export`, whichever of the lines make reaches; some are texts that make expands."""
    found = []
    for line in [line for line in lines if not line.is_tab]:
        if line.kind is syntax.Kind.DIRECTIVE and line.first_word() == "export":
            found += references.words(statements.without_comment(line.joined))[1:]
        elif line.kind in (syntax.Kind.ASSIGNMENT, syntax.Kind.DEFINE) and "export" in line.says.words:
            found.append(line.says.name)
    return found


def macros_of_targets(lines):
    """The macros to which lines give a value for targets, whichever of the lines make reaches."""
    for line in lines:
        if line.kind is syntax.Kind.TARGET_ASSIGNMENT:
            yield line.says.specific.name


def hanging_on(macros, lines):
    """These macros, and those that lines give a value that hangs on them, by itself or by others."""
    users, found = {}, dict.fromkeys(macros)
    for name, line in definitions(lines):
        for named_there in references.names_in(line.text):
            users.setdefault(named_there, set()).add(name)
    left = list(found)
    while left:
        new = users.get(left.pop(), set()).difference(found)
        found.update(dict.fromkeys(new))
        left += new
    return set(found)


def hanging_on_targets(lines):
    """The macros that may have another value for another target."""
    return hanging_on(macros_of_targets(lines), lines)


def of_the_shell(text):
    """The variables of the environment that a script asks for."""
    return set(re.findall(r"(?:\$\{?|environ\W{1,3}|getenv\W{1,2})([A-Za-z_]\w*)", text))


def asked_for_by(lines):
    """The variables that lines of makefiles have a shell take from the environment."""
    return {name for line in lines for name in references.names_for_the_shell(line.text)}


def asked_for(lines, names, read):
    """The variables that commands take from the environment: those of lines, of scripts, and of makefiles that aren't
    those that are read; of the files with these names."""
    found = asked_for_by(lines)
    for name in [name for name in names if os.path.isfile(name)]:
        if name not in read and MAKEFILES.search(name):
            found.update(syntax.asked_for(files.read(name)))
        elif SCRIPTS.search(name):
            found.update(of_the_shell(files.read(name)))
    return found


def run_by(commands, names, are_handed_on=False):
    """Of these files, those that commands may run: scripts that they name, and makefiles where they run make and macros
    of the command line aren't handed on to it anyhow."""
    text = "\n".join(commands)
    # Most words come again and again.
    words = "\n".join(set(text.split()))
    is_inner = not are_handed_on and RUNS_MAKE.search(text) is not None
    return [name for name in names if is_inner and MAKEFILES.search(name)
            or SCRIPTS.search(name) and os.path.basename(name) in (text if " " in name else words)]


def may_hang_on_option(line):
    """Whether what a line says may be another thing where make has the option by which it tells its database: by make's
    flags, in which a look for another letter finds what it finds without."""
    if not FLAGS.search(line.text) or line.is_tab and "eval" not in line.text:
        return False
    text = line.text
    for one in references.references(text):
        is_look = one.function == "findstring" and {OPTION, "$"}.isdisjoint(one.arguments()[0])
        text = text.replace(one.text, "") if is_look else text
    says = line.says if line.kind is syntax.Kind.ASSIGNMENT else None
    return FLAGS.search(text[says.value_at:] if says and FLAGS.fullmatch(says.name) else text) is not None


def may_export(text):
    """Whether a makefile's text may export something, or give targets something else of the environment."""
    found = set(WORD.findall(text))
    return "export" in found or not GIVEN_ANYHOW.isdisjoint(found) and any(
        not GIVEN_ANYHOW.isdisjoint(WORD.findall(line.partition(":")[2])) for line in text.split("\n"))


def may_export_for_targets(line):
    """Whether a line may export a macro for targets alone, by itself or where it is read by `eval`."""
    return "export" in WORD.findall(line.joined.partition(":")[2])


def given_by(macros):
    """The names of these macros of the command line."""
    return {one.split("=", 1)[0].rstrip(":+?") for one in macros}


def chosen(added, names, macros, ask, ask_what_is_run):
    """Of what make adds to the environment of commands: the names that are exported, where all are those that lines
    name or that something asks for, as `ask` tells; and macros of the command line, which are exported by that alone,
    as far as the commands or what they run ask for them."""
    given = given_by(macros)
    others = (ask() if added.is_of_all else set(added.values)) - given
    wanted = others.union(names).intersection(added.values)
    of_words = given.intersection(added.values) - wanted
    return sorted(wanted), sorted(of_words.intersection(ask_what_is_run()) if of_words else [])


def of_targets(added, chosen_names, macros, lines, ask):
    """The names that are to be compared target by target, where make's commands have such: those that may have another
    value for another target, or that a target alone has."""
    hanging = hanging_on_targets(lines).union(name for name in chosen_names if added.values[name] is None)
    if added.is_of_all:
        hanging &= ask().union(chosen_names)
    hanging -= given_by(macros).difference(chosen_names)
    found = {name for name in hanging if NAME.fullmatch(name) and name not in OWN}
    is_any = added.is_of_all or not found.isdisjoint(added.all)
    return found if is_any or any(map(may_export_for_targets, lines)) else set()
