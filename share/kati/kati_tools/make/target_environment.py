"""The environment of each target's commands: what make's have of variables whose value may hang on the target, as the
shell that runs no recipe tells it, and what kati's have."""
import os
import re
import shlex

from ..base import files
from . import command_environment, shell_calls, shell_text

# make has this for its shell, with the target behind it. It tells the environment of each line of a recipe, and runs
# what $(shell ..) says, for which there is no target; a process has a file of its own, since make may run several.
TELLER = """\
#!/bin/sh
{restored}
target=${{1#kati:}}
shift
{answering}
{{ printf '%s\\0' "$target"; /usr/bin/env -0; printf '\\0'; }} >> {told}/$$
exit 0
"""
NOT_KNOWN = "what make's commands have in their environment isn't known for each target"
MOST_TOLD = 10


def restored():
    """The line of a shell that gives its commands the user's TMPDIR, where make itself has another one."""
    given = os.environ.get("TMPDIR")
    return "unset TMPDIR" if given is None else f"export TMPDIR={shlex.quote(given)}"


class Told:
    """A target and the variables of a line of its recipe, None for a value that names the teller otherwise than as the
    shell, as MAKEFLAGS does."""

    def __init__(self, fields, teller, shell):
        target, *pairs = fields
        told = [pair.replace(f"{teller} kati:{target}", shell).partition("=") for pair in pairs]
        self.target = os.path.normpath(target)
        self.environment = {name: None if teller in value else value for name, _, value in told}


def told_in(folder, teller, shell):
    """What the processes of a run told in this folder."""
    for name in sorted(os.listdir(folder)):
        for one in files.read(os.path.join(folder, name)).split("\0\0")[:-1]:
            yield Told(one.split("\0"), teller, shell)


def all_told(room, shell, ask):
    """What the lines of recipes told that make would run, None where it failed. `ask` has it do so with this word for
    its shell, and answers its status."""
    teller, folder = os.path.join(room, "teller"), os.path.join(room, "told")
    os.makedirs(folder, exist_ok=True)
    for name in os.listdir(folder):
        files.remove(os.path.join(folder, name))
    files.replace(teller, TELLER.format(restored=restored(), told=shlex.quote(folder),
                                        answering=shell_calls.of_room(room).answering(shell)), room)
    os.chmod(teller, 0o755)
    status = ask(f"SHELL={teller} kati:$@")
    return list(told_in(folder, teller, shell)) if status == 0 else None


def of_statements(statements, given):
    """The variables of kati's commands, with those that they are given anyhow, by the name that is made."""
    found = {}
    for one in [one for one in statements if one.command is not None]:
        for piece in shell_text.pieces(one.command) or []:
            has = {**given, **command_environment.before_shell(piece.shell)}
            for name in one.outputs:
                found.setdefault(os.path.normpath(name), []).append(has)
    return found


def is_any_untold(makes, statements):
    """Whether make told nothing of some target for which kati has commands."""
    told = {one.target for one in makes}
    return any(one.command is not None and shell_text.pieces(one.command)
               and told.isdisjoint(map(os.path.normpath, one.outputs)) for one in statements)


def values_of(makes, name):
    """The values of a variable in what make told, by target; a text of its own where there is none."""
    found = {}
    for one in makes:
        found.setdefault(one.target, set()).add(one.environment.get(name, "\0"))
    return found


def without_blanks(value):
    """A value with one blank in the place of several."""
    return re.sub(r"[ \t]+", " ", value).strip(" ")


def is_other(name, makes, katis, form=without_blanks):
    """Whether these variables of a command of make's and of kati's have another value of this name, blanks aside; any
    will do where make's isn't known."""
    if name not in makes or name not in katis:
        return name in makes or name in katis
    return makes[name] is not None and form(makes[name]) != form(katis[name])


class ByTarget:
    """What make told of each target, by `ask`, None where it isn't known, beside the commands of kati's statements."""

    def __init__(self, makes, ask, statements, given):
        self.ask, self.katis = ask, of_statements(statements, given)
        self.makes = None if makes is None or is_any_untold(makes, statements) else makes

    def differing(self, names):
        """What make told of a target, and the names for which each of kati's commands for it has another value, with
        the variables of one of these."""
        for one in self.makes:
            alike = self.katis.get(one.target, [])
            others = [[name for name in names if is_other(name, one.environment, has)] for has in alike]
            yield from ((one, name, alike[0]) for name in (others[0] if all(others) and others else []))

    def has_other_blanks(self, names):
        """Whether a value of kati's commands has blanks that make's hasn't, or lacks some."""
        return any(is_other(name, one.environment, has, str) and not is_other(name, one.environment, has)
                   for one in self.makes or [] for has in self.katis.get(one.target, []) for name in names)

    def differences(self, names):
        """The lines that say for which targets kati's commands have other values of these names than make's. What make
        has otherwise each time that it is asked doesn't count."""
        if self.makes is None:
            yield NOT_KNOWN
            return
        found = list(self.differing(sorted(names)))
        again = self.ask() if found else None
        first, second = ({name: values_of(told, name) for name in names} for told in (self.makes, again or self.makes))
        lines = [f"{mark} {command_environment.told(name, has[name], one.target)}" for one, name, katis in found
                 if first[name][one.target] == second[name].get(one.target)
                 for mark, has in (("-", one.environment), ("+", katis)) if has.get(name) is not None]
        lines = list(dict.fromkeys(lines))
        yield from lines[:MOST_TOLD]
        if len(lines) > MOST_TOLD:
            yield f"- .. and {len(lines) - MOST_TOLD} more"
