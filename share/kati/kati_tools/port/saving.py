"""The files of a port, written as they are now, with what kati gets at the beginning and at the end of the makefile."""
from ..base import files
from ..makefile import ported_text
from ..build import translating
from . import frozen_values


def save(port):
    """Writes the files as they are now."""
    main = port.ported[port.makefile]
    main.tail = tail(port)
    has_values = bool(port.values.all or any(port.for_kati.of_the_run.values()) or port.values.environment)
    forms = translating.including_values(port.makefile)
    is_new = has_values and not main.before.replace(main.ending, "\n").startswith(forms)
    main.head = [*([forms[" " in port.copy.real]] if is_new else []),
                 *(line for one in port.menders.values() for line in one.head()), *head_of_words(port)]
    if has_values:
        text = port.values.text(port.for_kati.of_the_run, list(lines_that_hide(port)))
        files.replace(frozen_values.NAME, text, port.room)
    for file in port.ported.values():
        if file is not main and has_values:
            file.head = port.values.head(file)
        files.replace(file.name, file.text(), port.room)


def head_of_words(port):
    """The lines that give kati the macros of the command line which the makefile overrides."""
    lines = [word.replace("#", "\\#") for word in port.for_kati.taken_words.values()]
    return [ported_text.KATIS_ALONE, *lines, "endif"] if lines else []


def lines_that_hide(port):
    """The lines that keep the file of values out of the list of makefiles, where they ask for that or export
    all, and its macros out of the environment then."""
    lines = [line.joined for line in port.lines() if frozen_values.NAME not in line.text]
    exports_all = any(line.split() == ["export"] or line.startswith(".EXPORT_ALL_VARIABLES") for line in lines)
    if exports_all or any("MAKEFILE_LIST" in line for line in lines):
        yield frozen_values.HIDING
    if exports_all and port.values.all:
        yield f"unexport {' '.join(one.name for one in port.values.all)}"


def tail(port):
    """What kati gets at the end of the makefile."""
    lines = [*(line for one in port.menders.values() for line in one.tail()),
             *(f"{name} =" for name in port.for_kati.cleared)]
    return ["", ported_text.KATIS_ALONE, *lines, "endif"] if lines else []


def commands_again(port):
    """What make would do now by the makefiles as they were."""
    for file in port.ported.values():
        files.replace(file.name, file.before, port.room)
    if port.kept_values is None:
        files.remove(frozen_values.NAME)
    else:
        files.replace(frozen_values.NAME, port.kept_values, port.room)
    port.run.forget_calls()
    try:
        return port.run.commands()[1]
    finally:
        save(port)
