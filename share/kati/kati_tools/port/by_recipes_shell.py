"""Calls of `shell` that the recipe's own shell runs for kati (calls_of_recipes.py): those of this port, and those that
an earlier one wrote."""
import contextlib

from ..base import files
from ..build import comparing
from ..build.calls_of_recipes import CallsOfRecipes, marked_text
from . import frozen_values, saving


def handed(port):
    """The macros of such calls of this port."""
    return [one for one in port.values.all if one.source == frozen_values.FOR_SHELL]


def kept(port):
    """The entries of such calls of an earlier port, each with its call as make has it."""
    file = port.values.kept
    found = (one for one in (file.entries if file else []) if one.source == frozen_values.FOR_SHELL)
    return {one: file.makes[one.name] for one in found if one.name in file.makes}


def with_marks(text, calls):
    """The file of values with kati's text, between two marks, for make in the place of these calls."""
    marked = {frozen_values.assigned(one.name, "=", makes): frozen_values.assigned(one.name, "=", marked_text(one.text))
              for one, makes in calls.items()}
    return "\n".join(marked.get(line, line) for line in text.split("\n"))


@contextlib.contextmanager
def marked_values(port):
    """Has make get kati's text in the place of all these calls for a while."""
    meant = {one: one.makes for one in handed(port)}
    for one in meant:
        one.makes = marked_text(one.katis)
    saving.save(port)
    text = files.read(frozen_values.NAME)
    files.replace(frozen_values.NAME, with_marks(text, kept(port)), port.room)
    try:
        yield
    finally:
        files.replace(frozen_values.NAME, text, port.room)
        for one, makes in meant.items():
            one.makes = makes
        saving.save(port)


def marked_commands(port):
    """make's commands with these calls in them, each between two marks; None where make doesn't tell."""
    with marked_values(port):
        status, lines, _, _ = port.run.commands()
    return None if status else lines


def of_port(port, commands, statements):
    """These calls, by make's commands and kati's statements."""
    recipes = [comparing.unwrapped(one.command) for one in statements if one.command is not None]
    meant = [*kept(port).values(), *(one.makes for one in handed(port))]
    return CallsOfRecipes(commands, marked_commands(port) if meant else None, recipes, meant)
