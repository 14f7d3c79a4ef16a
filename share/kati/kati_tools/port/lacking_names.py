"""What a makefile has come to name since kati-port wrote its values: variables of the environment and what tells of the
run, which kati-values.mk hasn't."""
import os

from ..base.programs import SHARE
from ..build import begun, translating
from ..make import exported_names
from ..makefile import ported_text
from . import environment_names, frozen_values, of_the_run


def users_own(names):
    """The makefiles among these that are neither a kati-values.mk nor of make's usual rules."""
    return [name for name in names
            if os.path.basename(name) != translating.VALUES and os.path.dirname(os.path.abspath(name)) != SHARE]


def lines_of(names):
    """The lines of those of these makefiles."""
    return exported_names.lines_of(exported_names.texts_of(users_own(names)))


def of_run(lines):
    """What tells of the run and is named by makefiles with these lines, that don't assign it."""
    text = "\n".join(line.text for line in lines)
    return of_the_run.named(text, {name for name, _ in ported_text.definitions(lines)})


def told(names, values):
    """What to say of the first that the text `values` of kati-values.mk lacks, where one of the makefiles of these
    names is newer than that file; None where it lacks none."""
    written = begun.newest_time(translating.VALUES)
    if not values or all(begun.newest_time(name) < written for name in users_own(names)):
        return None
    lines, known = lines_of(names), {name for _, name, _, _ in frozen_values.ENTRY.findall(values)}
    found = [name for name in [*environment_names.handed(lines), *of_run(lines)] if name not in known]
    return f"{translating.VALUES} has no {found[0]}, which the makefile names now" if found else None
