"""`$?`, the prerequisites that are newer: for kati it is all of them, as only Ninja knows which are. What a recipe
makes of that at a first build is the same; later make may run less."""
from ..build import always_run, ninja_text
from ..makefile import forms, references

MOST = 5


def lines_with(port):
    """The lines of makefiles that name it."""
    return [line for line in port.lines() if "?" in line.text and not line.text.lstrip().startswith("#")
            and any(one.name in forms.NEWER for one in references.references(line.text))]


def made_each_time(translation):
    """What is made at each run by ninja, since it needs what is made each time, as FORCE, without being so itself."""
    names = [ninja_text.plain(name) for outputs in always_run.PHONY_WITHOUT_INPUTS.findall(translation.text)
             for name in ninja_text.names(outputs)]
    running = [one for one in translation.statements if one.command is not None]
    return sorted(output for one in running
                  if set(names).intersection(one.inputs) and always_run.ALWAYS not in one.inputs
                  for output in one.outputs)


def place(port, line):
    """Where a line stands."""
    return next(f"{file.name}:{line.number}" for file in port.ported.values() if line in file.lines)


class Newer:
    """What is to be said of `$?` in a port: `notes` of what may be more than make does, `differences` of what ninja
    runs each time where make perhaps doesn't."""

    def __init__(self, port, translation):
        lines = lines_with(port)
        each_time = made_each_time(translation) if lines else []
        where = ", ".join(place(port, line) for line in lines[:MOST])
        more = f" and {len(each_time) - MOST} more" if len(each_time) > MOST else ""
        self.notes = [f"$? is all prerequisites for kati, and the newer ones for make ({where})"] if lines else []
        self.differences = [f"ninja makes anew each time what make may leave, by $?: {' '.join(each_time[:MOST])}{more}"
                            ] if each_time else []
