"""Includes that were ported with another makefile: at their beginning stand make's own calls, and kati wants their
values in the folder of each makefile that reads them."""
from ..makefile import ported_text
from . import frozen_values, make_probes


def heads(file):
    """The lines at the beginning of an include that give macros make's own calls, as a port leaves them; so has the
    file of values of another folder."""
    is_makes, title = False, frozen_values.TITLE.rstrip("\n")
    for line in (line for line in file.lines if line.text != title):
        name, operator, _ = line.assignment() or ("", "", "")
        if line.text in (ported_text.MAKES_ALONE, "endif"):
            is_makes = line.text != "endif"
        elif is_makes and operator == "=" and name.startswith(ported_text.PREFIX):
            yield line
        else:
            return


def add_values(port):
    """Gives kati what it lacks of these values; where make has several for one, kati's commands tell the difference."""
    kept = {one.name for one in port.values.kept.entries} if port.values.kept else set()
    for file in [file for file in port.ported.values() if file.name != port.makefile]:
        for line in heads(file):
            name, _, makes = line.assignment()
            value = None if name in kept else value_of(port, line, name, makes)
            if value is not None:
                value.prefix = line.prefix
                port.values.all.append(value)
                kept.add(name)
                for kind in [call.kind for call in port.probes.of(line)] or ["names with wildcards"]:
                    port.tell("frozen", kind)


def value_of(port, line, name, makes):
    """The value of a macro that is this text for make; None where it has no one value."""
    calls = port.probes.of(line)
    if makes == "$(SHELL)":
        return frozen_values.Value(name, makes, frozen_values.KATIS_SHELL, "the shell itself", True)
    if not calls:
        names = port.run.value(makes) or ""
        return frozen_values.Value(name, makes, frozen_values.with_fitting(names), f"{frozen_values.NAMES}{names}")
    told = port.probes.told(line, calls[0].chain[-1])
    if not told and not make_probes.is_in(make_probes.is_automatic, makes):
        told = [port.run.value(makes) or ""]
    if len(told) != 1 or "\n" in told[0]:
        return None
    port.freezer.calls_in[name] = calls
    return frozen_values.Value(name, makes, told[0], makes)
