"""Calls of `shell` of which it isn't seen what they read, as `uname`, `date` or a script: their values aren't asked for
again where something changes, and the port names them."""
import os

from ..make import plain_commands, shell_text
from . import command_reads, frozen_values

# Programs that read nothing but what their words name, git, which is watched itself, and words of the shell.
SHELLS = {"sh", "bash", ".", "source"}
PLAIN = {"cd", "pwd", "true", "false", ":", "expr", "tr", "uniq", "tac", "rev", "paste", "seq", "fold", "fmt", "nl",
         "od", "cmp", "diff", "comm", "join", "cksum", "md5sum", "sha1sum", "sha256sum", "git", "tee", "mkdir", "touch",
         "rm", "cp", "mv", "ln", "sleep"}
OF_THE_SHELL = {"exit", "set", "unset", "export", "read", "shift", "for", "case", "in", "done", "fi", "esac", "}"}
SEEN = (command_reads.NAMING | command_reads.LISTING | command_reads.READING | PLAIN | OF_THE_SHELL) - SHELLS
MOST = 5


def parts(command):
    """The commands within others, by `$(..)` or backquotes, and what stands round them."""
    while "$(" in command:
        start = command.rindex("$(")
        is_sum = command.startswith("$((", start)
        closing = "))" if is_sum else ")"
        inner, _, rest = command[start + 2:].partition(closing)
        if not is_sum:
            yield from parts(inner)
        command = f"{command[:start]}x{rest}"
    found = command.split("`")
    yield from found[1::2]
    yield "x".join(found[::2])


def programs(text):
    """The names of the programs of a shell's text without other commands in it; None where its quotes don't close."""
    words = shell_text.shell_words(text)
    if words is None:
        return None
    found, begins, is_target = [], True, False
    for word in words:
        if isinstance(word, shell_text.Operator):
            is_target = not set(word).isdisjoint("<>")
            begins = begins if is_target else True
        elif is_target:
            is_target = False
        elif begins and word not in plain_commands.KEYWORDS and "=" not in word:
            found.append(os.path.basename(word))
            begins = False
    return found


def is_unseen(command):
    """Whether it isn't seen what a command reads."""
    found = [programs(part) for part in parts(command)]
    return None in found or any(name not in SEEN for names in found for name in names)


def calls(port):
    """The calls of a port that have such values, as makefiles have them."""
    found = {}
    for one in port.values.all:
        own = frozen_values.command_of(one.makes)
        commands = port.freezer.commands_of(one) or ([] if own is None else [own])
        if one.source != frozen_values.FOR_SHELL and any(map(is_unseen, commands)):
            found[one.makes] = True
    return list(found)


def told(port):
    """The line that names them, as far as there are any."""
    found = calls(port)
    if found:
        more = f" and {len(found) - MOST} more" if len(found) > MOST else ""
        yield f"what these read isn't seen, so that --values alone asks for them again: {', '.join(found[:MOST])}{more}"
