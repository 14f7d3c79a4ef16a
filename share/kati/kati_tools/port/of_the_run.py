"""What tells of the run, as `CURDIR`: kati is given make's value of it."""
from ..makefile import quick_looks, syntax
from ..build import translating

# What tells of the run, and is asked for where a makefile names it.
RUN = ("CURDIR", "MAKECMDGOALS", "MAKELEVEL", "MAKE_COMMAND", "MAKE_HOST", "PWD", ".FEATURES", ".INCLUDE_DIRS")


def named(text, assigned):
    """What of it makefiles with this text ask for, without what they assign."""
    # What names none of it, which are nearly all lines, needn't be read for that.
    lines = [line for line in quick_looks.without_continuations(text).split("\n") if any(name in line for name in RUN)]
    asked = syntax.asked_for("\n".join(lines))
    return [name for name in RUN if name in asked and name not in assigned]


def texts(text):
    """The texts by which make is asked for what makefiles with this text name of it."""
    return [f"$({name})" for name in RUN if name in text]


def ask(port):
    """Asks for what tells of the run, where the makefiles name it."""
    names = named(port.values.taken, {name for file in port.ported.values() for name, _ in file.definitions()})
    told = port.run.values([f"$({name})" for name in names])
    # Of another run there are goals, where this one has none.
    port.for_kati.of_the_run = {name: value or "" for name, value in zip(names, told)
                                if value or name == translating.GOALS}
