"""Ninja's log for files that exist before the first build: so ninja rebuilds what is out of date, as make does.

Each output that exists gets a line with the hash of its command and its own time; one of a statement with `generator`
needs none. What is out of date Ninja then tells by its own rules, which are make's: nothing is compared here. A line
too few only has a file rebuilt; so where something is in doubt there is none."""
import itertools
import os
import re
from collections import Counter
from typing import NamedTuple, Optional

from ..base import files, own_files
from ..base.programs import Stop, bytes_of, need
from ..base.words import WRONG_USAGE
from ..makefile import sources
from . import always_run, depfile_text, ninja_kind, ninja_log, ninja_text, top_file

LOG, DEPS = ".ninja_log", ".ninja_deps"
# A compiler's word for header dependencies, wherever it stands.
WRITES_HEADERS = re.compile(r"(?:^|[\s'\"])-(?:MM?D|Wp,(?:[^\s,]*,)*-MM?D)(?=[\s,'\"]|$)")
# Why a file is rebuilt.
DIFFERS, OLD, NAMED = "another command than make's", "a time before 1970", "a tab in a name"
IN_DOUBT = "header dependencies in doubt"
# What helps where files that exist would be rebuilt, or taken for what they aren't.
HELP = "help: kati-build --anew rebuilds everything"


class Line(NamedTuple):
    """What the logs get for a statement: its outputs with their times, its command, and its header dependencies, None
    where Ninja keeps none of them in a log."""
    outputs: list
    command: str
    headers: Optional[list]


def has_log(room):
    """Whether Ninja has a log in a folder, or a part of one."""
    return any(os.path.lexists(os.path.join(room, name)) for name in (LOG, DEPS))


def others(output):
    """The other Ninja files in this folder, and in that of `output`."""
    for folder in dict.fromkeys(["", os.path.dirname(output)]):
        for name in sorted(files.entries(folder or ".")[1]):
            path = os.path.join(folder, name)
            if path != output and (name.endswith(".ninja") or own_files.is_own(folder, name)):
                yield path


def refuse_beside_others(output):
    """Stops where another Ninja file is there: what exists in the folder may be made by its words."""
    for found in others(output):
        raise Stop(f"{found} is here too, and the files that exist may be made by its words\n{HELP}", WRONG_USAGE)


def any_exists(path):
    """Whether one of the files exists that a file of statements makes."""
    return files.any_exists(ninja_text.Heads([files.content(path) or b""]).outputs())


def makes_what_exists(translation):
    """Whether one of the files exists that a translation makes, those aside that it makes at each run."""
    if not files.any_exists(translation.outputs):
        return False
    made = (one for one in translation.statements if one.command is not None and always_run.ALWAYS not in one.needs)
    return any(os.path.lexists(name) for one in made for name in one.outputs)


def refuse_unknown_kind(program):
    """Stops where a ninja's log is of no kind that is known, so that it can't be written."""
    if ninja_kind.of(program) is None:
        raise Stop(f"the log of {program} is of no kind that is known, so all files that exist would be rebuilt\n"
                   f"{HELP}", WRONG_USAGE)


class Graph:
    """The statements of a text, with what their rules and blocks set."""

    def __init__(self, text):
        self.statements, self.variables = ninja_text.statements(text), ninja_text.variables(text)
        self.goals = ninja_text.defaults(text)


def is_newer(name, outputs):
    """Whether a file isn't there, or is newer than one of these outputs."""
    try:
        return os.stat(name).st_mtime_ns > min(os.stat(one).st_mtime_ns for one in outputs)
    except OSError:
        return True


class Reader:
    """Tells for each statement what the logs get. `kind` is the ninja's, `differs` says of a command whether it is
    another one than make's."""

    def __init__(self, kind, differs):
        self.kind, self.differs = kind, differs
        # By each name what files of header dependencies say that it is made from.
        self.told = {}
        for path in sources.walk(set())[0]:
            for targets, needed in depfile_text.rules(path) if depfile_text.is_named_as_one(path) else []:
                for name in targets:
                    self.told.setdefault(name, {}).setdefault(path, set()).update(needed)

    def line(self, statement, variables):
        """The line for a statement, or the words that say why it gets none; "" where that isn't told."""
        names = [top_file.plain_name(name) for name in statement.outputs]
        times = [ninja_log.time_of(name, self.kind.unit) for name in names]
        if variables.get("generator") and not variables.get("deps") or None in times:
            return ""
        if min(times) <= 0:
            return OLD
        if "\t" in "".join(names):
            return NAMED
        if self.differs(statement.command):
            return DIFFERS
        headers = self.headers(statement, names, variables)
        if headers is IN_DOUBT:
            return IN_DOUBT
        return Line(list(zip(names, times)), variables["command"], headers)

    def headers(self, statement, names, variables):
        """The header dependencies of a statement for Ninja's log, None where it has none there; or `IN_DOUBT`."""
        depfile, needed = variables.get("depfile"), {top_file.plain_name(name) for name in statement.needs}
        if variables.get("deps"):
            found = self.told_by(depfile, names)
            return IN_DOUBT if found is None or not ninja_log.fits_record(found) else found
        if depfile:
            return None
        told = {one for name in names for found in self.told.get(name, {}).values() for one in found}
        is_old = any(map(is_newer, (told - needed), itertools.repeat(names)))
        return IN_DOUBT if is_old or WRITES_HEADERS.search(statement.command) else None

    def told_by(self, depfile, names):
        """What a file of header dependencies says of a statement of one output; None where that is in doubt."""
        rules = depfile_text.rules(depfile)
        is_named = len(names) == 1 and any(names[0] in targets for targets, _ in rules)
        return list(dict.fromkeys(name for _, needed in rules for name in needed)) if is_named else None


def place(path, data, room):
    """Gives a file that isn't there these bytes at once."""
    new = files.staged(path, data, room)
    try:
        os.link(new, path)
    except PermissionError:
        # The file system has no second names.
        os.rename(new, path)
    finally:
        files.remove(new)


def add(path, data, room):
    """Adds bytes to a log, or makes one of them. Ninja, which may be running, appends to it as well."""
    if os.path.lexists(path):
        with open(path, "ab") as file:
            file.write(data)
    else:
        place(path, data, room)


def write_headers(room, lines):
    """Writes the log of header dependencies in a folder, behind what it has; answers the lines that it has then, all
    but those with header dependencies where it is of another form."""
    data = files.content(os.path.join(room, DEPS))
    known = None if not data else ninja_log.names_in(data)
    if data and known is None:
        return [line for line in lines if line.headers is None]
    records = [(*line.outputs[0], line.headers) for line in lines if line.headers is not None]
    if records:
        add(os.path.join(room, DEPS), ninja_log.deps(records, known), room)
    return lines


def built(room):
    """The outputs that ninja's log in a folder has."""
    rows = (files.read(os.path.join(room, LOG)) or "").split("\n")
    return {row.split("\t")[3] for row in rows if row.count("\t") == 4}


def write(room, kind, lines):
    """Writes Ninja's logs in a folder, of a kind, behind what they have; answers the lines that were written."""
    before = files.read(os.path.join(room, LOG)) or ""
    if before and not before.startswith(f"{kind.head}\n"):
        return []
    # The log of dependencies is the first: without the other one all is rebuilt, whenever this run ends.
    lines = write_headers(room, lines)
    rows = "".join(ninja_log.row(name, time, kind.hash(bytes_of(line.command)))
                   for line in lines for name, time in line.outputs)
    add(os.path.join(room, LOG), bytes_of(rows if before else f"{kind.head}\n{rows}"), room)
    return lines


def take(room, graph, differs, known):
    """Writes the logs for what exists of the statements of a graph, but for the outputs that are `known`; answers their
    lines by an output, and how many files get none, by the reasons. `differs` says of a command whether it is another
    one than make's."""
    kind = ninja_kind.of(need("ninja"))
    if kind is None:
        return {}, Counter()
    reader, lines, left = Reader(kind, differs), [], Counter()
    for one in graph.statements:
        is_known = one.command is None or top_file.plain_name(one.outputs[0]) in known
        found = "" if is_known else reader.line(one, graph.variables[one.line])
        if isinstance(found, Line):
            lines.append(found)
        elif found:
            left[found] += len(one.outputs)
    return {line.outputs[0][0]: line for line in write(room, kind, lines)}, left
