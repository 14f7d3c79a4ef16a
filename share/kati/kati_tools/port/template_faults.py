"""Faults in what `eval` reads: kati names the line that has it read, and what it comes from is a macro elsewhere."""
from ..makefile import references
from ..makefile.advice import ADVICE, KINDS
from . import mending, written_out


def evaluating(fault):
    """The line of the makefile that has the text of a fault read; None where none has."""
    line = fault.line
    if line is None or not line.is_katis:
        return line if line is not None and written_out.is_bare(line) else None
    return next((one for one in fault.file.lines if one.is_makes and one.number == line.number
                 and references.references(one.text)), None)


def is_meant(fault, line):
    """Whether a line in the body of a macro may be what kati refuses."""
    has_form = written_out.FORMS.get(fault.number)
    return has_form(line) if has_form else fault.last in line.text


def advice_for(fault):
    """What to do about a fault by its number and its last word; empty where nothing is known."""
    kinds = KINDS.get(fault.number, [])
    kind = "archive" if fault.number == "E20" and "(" in fault.words else fault.last
    return ADVICE.get(kind if kind in kinds else kinds[0] if len(kinds) == 1 else None, "")


def told(port, fault):
    """The line that tells which macro has what kati refuses, and what to do about it; None of another fault."""
    line = evaluating(fault)
    if line is None:
        return None
    definitions = mending.definitions_of(port)
    files = {one: file.name for file in port.ported.values() for one in file.lines}
    names = {one: name for name, lines in definitions.items() for one in lines}
    near = list(mending.reached(port, line.text, definitions))
    if not near:
        return None
    found = next((one for one in near if one.is_body and is_meant(fault, one)), near[0])
    form = f" has {' '.join(found.joined.split())}" if found.is_body and is_meant(fault, found) else ""
    words = f"{files[found]}:{found.number}: {names[found]}, which {fault.file.name}:{line.number} evaluates,{form}"
    advice = advice_for(fault)
    return f"{words.rstrip(',')} [{fault.number}]{' ' if advice else ''}{advice}"
