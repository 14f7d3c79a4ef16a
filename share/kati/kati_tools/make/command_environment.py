"""The environment of commands: what make adds to it, as the shell of a recipe tells, and what stands before the shell
of kati's commands."""
import re
import shlex

from . import shell_reading, shell_text

NAME = re.compile(r"[A-Za-z_]\w*")
# What make and a shell have there by themselves, or give their own meaning.
OWN = {"SHELL", "MAKE", "MAKEFLAGS", "MFLAGS", "GNUMAKEFLAGS", "MAKELEVEL", "MAKEOVERRIDES", "MAKE_RESTARTS",
       "MAKE_TERMOUT", "MAKE_TERMERR", "MAKEFILES", "MAKEFILE_LIST", "MAKECMDGOALS", "PWD", "OLDPWD", "IFS", "SHLVL",
       "_"}
# Of these, and beside them, what make gives by itself to commands where it exports all macros.
OF_MAKE_TOO = {"MAKEFILE_LIST", "GNUMAKEFLAGS", "CURDIR"}
# A macro that commands have in their environment where make exports all of them.
OF_ALL = "KATI_EXPORTS_ALL"
BEFORE_SHELL = re.compile(r"""[ \t]*([A-Za-z_]\w*)=((?:"(?:\\.|[^"\\])*"|\\.|[^\s"'\\])*)[ \t]+""")
QUOTED = re.compile(r'"((?:\\.|[^"\\])*)"|\\(.)')


class Added:
    """What make adds to the environment that it was `given`, as the commands of two targets told: `values` has each
    variable's value, None where it hangs on the target, or names the shell by which it is told. None told where make
    failed."""

    def __init__(self, told, given, shell):
        self.is_known = None not in told
        first, other = told if self.is_known else ({}, {})
        self.all = first
        own = OWN - OF_MAKE_TOO if OF_ALL in first else OWN
        self.values = {name: value if other.get(name) == value and shell not in value else None
                       for name, value in first.items()
                       if NAME.fullmatch(name) and name not in own and given.get(name) != value}
        self.is_of_all = self.values.pop(OF_ALL, None) is not None


def unquoted(text):
    """A word of the shell without its quotes, or what it has the shell print."""
    printed = shell_reading.PRINTED.fullmatch(text)
    if printed:
        return shell_reading.printed(printed.group(1))

    def plain(found):
        return found.group(2) if found.group(1) is None else re.sub(r'\\([\\"$`])', r"\1", found.group(1))
    return QUOTED.sub(plain, text)


def before_shell(words):
    """The variables that stand before the shell in these words."""
    found, at = {}, BEFORE_SHELL.match(words)
    while at:
        found[at.group(1)] = unquoted(at.group(2))
        at = BEFORE_SHELL.match(words, at.end())
    return found


def all_shells(commands):
    """What stands before the texts of kati's commands, the same once."""
    return dict.fromkeys(piece.shell for command in commands for piece in shell_text.pieces(command) or [])


def of_commands(commands):
    """The variables that kati's commands have, those of each shell that stands in them once."""
    return [before_shell(shell) for shell in all_shells(commands)]


def shells_of(commands):
    """The shells of kati's commands with their flags, each once, without the variables that stand before them."""
    found = []
    for words in all_shells(commands):
        at = 0
        while BEFORE_SHELL.match(words, at):
            at = BEFORE_SHELL.match(words, at).end()
        found.append(words[at:].strip())
    return list(dict.fromkeys(found))


def lacking(added, names, katis, of_targets=()):
    """Those of the names for which some of kati's commands haven't make's value; any value will do for those `of
    targets`."""
    values = {**added.values, **dict.fromkeys(of_targets)}
    return [name for name in names
            if any(name not in one or values[name] not in (None, one[name]) for one in katis)]


def told(name, value, owner="commands"):
    """A variable and its value on a line."""
    text = shlex.quote(value).replace("\n", "\\n")
    return f"{name}={text} in the environment of {owner}"


def differences(added, names, katis, of_targets):
    """The lines that say where kati's commands haven't what make's have of these names, or have what make's haven't;
    nothing of those that may hang on the target."""
    if not added.is_known and katis:
        yield "what make's commands have in their environment isn't known"
        return
    for name in lacking(added, [name for name in names if name not in of_targets], katis):
        yield f"- {told(name, added.values[name])}"
    others = dict.fromkeys((name, value) for one in katis for name, value in one.items()
                           if name not in of_targets and name not in OWN)
    yield from (f"+ {told(name, value)}" for name, value in others if added.all.get(name) != value)
