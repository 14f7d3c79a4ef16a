"""The values of kati-values.mk, asked for again: make reads the makefile with a probe round each of its calls."""
import re

from ..base import files
from ..make import make_run
from . import command_reads, environment_names, frozen_values, lacking_names, watched
from ..base.programs import Stop
from .values_file import Entry, ValuesFile, assigned_in

NO_ONE_VALUE = "make has no one value for it now; port the makefile again"
KEY = re.compile(r"[\w./+@-]+")


def renew(run, room, real_text):
    """The text of the file with what make tells now, and lines about what it doesn't tell; in the copy, which is this
    process's folder."""
    before = files.read(frozen_values.NAME)
    file, doubts = ValuesFile(before), []
    file.entries = [one for one in file.entries if one.source != frozen_values.ENVIRONMENT]
    run.refuse_other_shells()
    # An include that make makes has to be there for what is asked.
    run.make_includes()
    run.forget_calls()
    run.refuse_other_shells()
    files.replace(frozen_values.NAME, file.probed(), room)
    status, out, said = run.ask()
    files.replace(frozen_values.NAME, before, room)
    if status:
        raise Stop(f"make ends with status {status}: {said.strip()}", 1)
    told = make_run.answered(out)
    answered = [Answers(told.get(number, []), file.asked(number, told)) for number in range(len(file.entries))]
    for one, answers in zip(list(file.entries), answered):
        doubt = renew_entry(one, answers, run, file)
        doubts += [f"{one.name}: {doubt}"] if doubt else []
    add_lacking(file, run)
    return real_text(file.text()), doubts


def add_lacking(file, run):
    """Adds the values of the environment that kati gets now, and what else the makefiles name now that tells of the
    run."""
    lines = lacking_names.lines_of((run.value("$(MAKEFILE_LIST)") or "").split())
    known = {one.name for one in file.entries}
    file.entries += [Entry(frozen_values.RUN, name, ":=", frozen_values.escaped(run.value(f"$({name})") or ""))
                     for name in lacking_names.of_run(lines) if name not in known]
    file.entries += [Entry(frozen_values.ENVIRONMENT, name, "=", frozen_values.text_of_environment(value))
                     for name, value in environment_names.handed(lines).items() if name not in known]


def pairs_of(told):
    """What make told, as pairs of what it depends on and a text."""
    return [tuple(one.split("|", 1)) for one in told]


class Answers:
    """What make told of a value, and what each kind of calls in it was asked for."""

    def __init__(self, told, asked):
        self.pairs, self.values = pairs_of(told), list(dict.fromkeys(value for _, value in pairs_of(told)))
        self.patterns, self.commands, self.links, self.contents = map(pairs_of, asked)

    def table(self):
        """The values by what they depend on; None where that doesn't settle them."""
        found = dict(self.pairs)
        return found if len(set(self.pairs)) == len(found) else None

    def words(self):
        """The words to watch for what was asked for."""
        patterns, commands, links, contents = ([text for _, text in pairs] for pairs in (
            self.patterns, self.commands, self.links, self.contents))
        return command_reads.reads_of_calls(patterns, commands, links, contents)


def renew_entry(one, answers, run, file):
    """Gives an entry its value; answers what is in doubt, or None."""
    if one.source == frozen_values.RUN:
        one.text = frozen_values.escaped(run.value(f"$({one.name})") or "")
    elif one.key():
        return renew_table(one, answers, file)
    elif one.operator == "=":
        return None
    elif one.name not in file.makes:
        renew_row(one)
    elif one.source.startswith(frozen_values.NAMES):
        names = run.value(file.makes[one.name]) or ""
        one.source = f"{frozen_values.NAMES}{names}"
        one.text = frozen_values.escaped(frozen_values.with_fitting(names))
    elif is_of_names(one, file):
        names = run.value(file.makes[one.name]) or ""
        value = run.value(f"$(wildcard {names})") or ""
        one.text, one.source = frozen_values.escaped(value), frozen_values.of_wildcard(names, value)
    elif len(answers.values) > 1 or "\n" in "".join(answers.values):
        return NO_ONE_VALUE
    else:
        value = answers.values[0] if answers.values else run.value(file.makes[one.name])
        one.text = frozen_values.escaped(value or "")
        one.source = renewed_source(one.source, value or "", answers.words())
    return None


def is_of_names(one, file):
    """Whether an entry has the files that names fit which make itself doesn't have as the value of a call, as those of
    `include mk/*.mk`."""
    pattern = frozen_values.pattern_of(frozen_values.without_sums(one.source))
    return pattern is not None and "wildcard" not in file.makes[one.name]


def renew_row(one):
    """Gives a row of a table of which make tells nothing now what its pattern fits; where it tells of it, that
    counts."""
    pattern = frozen_values.pattern_of(one.source)
    if pattern is not None:
        one.text = frozen_values.escaped(watched.fitting(pattern))


def renew_table(one, answers, file):
    """The same for an entry with a table."""
    table = answers.table()
    if table is None:
        return NO_ONE_VALUE
    patterns = dict(answers.patterns) if file.function_of(one.name) == "wildcard" else {}
    rows = {other.name: other for other in file.entries}
    kept = {name: text for name, _, text in map(assigned_in, one.table)}
    for key, value in ((key, value) for key, value in table.items() if KEY.fullmatch(key)):
        name, text = f"{one.name}_{key}", frozen_values.escaped(value)
        if key in patterns:
            row = rows.get(name) or file.add_row(one, name)
            row.source, row.text = frozen_values.of_wildcard(patterns[key], value), text
            kept.pop(name, None)
        else:
            kept[name] = text
    one.table = [frozen_values.assigned(name, ":=", text) for name, text in kept.items()]
    one.source = with_words(one.source, [] if patterns else answers.words())
    return None


def with_words(source, words):
    """A source with the sums that words have now: these, or where there are none those that it has."""
    known = [word for word, _ in frozen_values.read_with_sums(f"# {source}")]
    return frozen_values.with_sums(frozen_values.without_sums(source) if known else source, words or known)


def renewed_source(source, value, words):
    """The source of a value that make told now, by what hangs on these words."""
    call = frozen_values.without_sums(source)
    pattern, command = frozen_values.pattern_of(call), frozen_values.command_of(call)
    if pattern is not None:
        return frozen_values.of_wildcard(" ".join(words) or pattern, value)
    if command is not None and call != source:
        return frozen_values.with_sums(call, command_reads.reads_of(command))
    return with_words(source, words)
