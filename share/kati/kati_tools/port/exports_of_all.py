"""What commands have in their environment where make exports all macros, beside those that something asks for.

A command may ask for any of them by a name that no text tells, so kati's get all, as long as they stay of moderate
length: they stand in each command. What they don't get is told."""
from ..make import exported_names
from ..make.command_environment import NAME, OF_MAKE_TOO, OWN

# So many macros, and so many bytes of names and values, stand before each of kati's commands.
MOST, LONGEST = 100, 4000
MOST_TOLD = 5


def all_of_one_line(added, given):
    """The names that make exports and whose values are a line, without those that are `given` by the command line; none
    where they are too many or too long."""
    names = {name for name in added.values
             if name not in given and not set(added.all[name]) & set("\n\r")}
    length = sum(len(name) + len(added.all[name].encode(errors="surrogateescape")) for name in names)
    return names if len(names - OF_MAKE_TOO) <= MOST and length <= LONGEST else set()


def of_targets(lines):
    """The names to which lines give a value for targets, which those have in their environment."""
    return {name for name in exported_names.macros_of_targets(lines) if NAME.fullmatch(name)} - OWN


def exported_by(told):
    """The names that some command has of which make `told`."""
    return {name for one in told or [] for name in one.environment}


def listed(names):
    """The first of these names, and how many more there are."""
    names = sorted(names)
    return ", ".join(names[:MOST_TOLD]) + (f" and {len(names) - MOST_TOLD} more" if len(names) > MOST_TOLD else "")


def not_handed(added, known):
    """The line that names what make exports and isn't among the `known` names, as far as there is any."""
    names = [name for name in added.values if name not in known]
    if names:
        yield f"- {listed(names)} in the environment of commands, as make exports all macros"


def made_before(first, statements, read):
    """The line that tells what make makes before it has read all makefiles: what it made `first` in this port, and
    makefiles that are `read` and that statements make. The commands for it have in their environment what make knows
    by then."""
    made = {name for one in statements if one.command is not None for name in one.outputs}
    found = {*first, *made.intersection(read)}
    if found:
        yield f"- {listed(found)}: made before make has read all macros, which it exports"
