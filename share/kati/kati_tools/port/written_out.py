"""What `eval` reads, written out for kati where a template makes what kati refuses.

A line of references alone, as `$(foreach p,a b,$(eval $(call PROGRAM,$(p))))`, stays for make; in its place kati gets
the texts that make evaluated there, as make tells them, as lines of the makefile. These are mended as any others, and
stand for make too where it is asked for values."""
import re

from ..base import files
from ..makefile import references, statements
from ..makefile.ported_text import MAKES_ALONE, PortedFile, PortedLine
from ..make.make_run import ANSWER, END
from . import mending
from .freezing import doubled_calls
from .make_probes import PROBE

TOLD = re.compile(rf"{ANSWER}(\d+) \|?(.*?){END}\n", re.DOTALL)
# The number of an evaluated text; those of lines follow, three for each: its beginning, its value and its end.
TEXT = 0
MARK = "# What this reads, as make told it; kati-port writes it anew where these lines are taken away:"


# The forms in the body of a template that kati refuses by these faults.
FORMS = {
    "E16": lambda line: bool(doubled_calls(line)),
    "E17": lambda line: line.first_word() in statements.DIRECTIVES,
    "E23": lambda line: statements.Rule(line.joined).specific is not None,
}


def note(port, line):
    """Notes a line that is written out, and what it hangs on, before make is asked without it."""
    found = port.written_out
    found.lines.append(line)
    for one in [line, *mending.reached(port, line.text)]:
        for call in port.probes.of(one):
            found.patterns.update(port.probes.asked_of(call) if call in port.probes.patterns else [])
            found.files.update(port.freezer.watched_behind(call))


class Asked:
    """The lines of which make is asked what they evaluate: what it told of each, by the line."""

    def __init__(self, port, lines):
        self.port, self.lines = port, {line: 1 + 3 * number for number, line in enumerate(lines)}
        ported = list(port.ported.values())
        for file in ported:
            head = PROBE if file.name == port.makefile else ""
            files.replace(file.name, (head + file.flat(self.marked)).replace("\n", file.ending), port.room)
        out = port.run.ask()[1]
        for file in ported:
            files.replace(file.name, file.before, port.room)
        self.told = [(int(number), text) for number, text in TOLD.findall(out)]

    def marked(self, line):
        """The text of a line in which make tells what it evaluates, and for those that are asked of where they begin
        and end, and their values."""
        text = line.text if line.is_tab or line.joined.lstrip().startswith("#") else with_told_evals(line)
        number = self.lines.get(line)
        if number is None:
            return text
        begin, end = (f"$(info {ANSWER}{one} {END})" for one in (number, number + 2))
        return "\n".join([begin, f"$(call kati_probe,{number + 1},$(subst ,,{text}),)", end])

    def texts_of(self, line):
        """What a line evaluates, text by text, with its value as the last one; None where make never came by it, or
        it is another one each time."""
        first, found = self.lines[line], []
        for number, text in self.told:
            if number == first:
                found.append([])
            elif number in (TEXT, first + 1) and found and found[-1][-1:] != [END]:
                found[-1].append(text)
            elif number == first + 2 and found:
                found[-1].append(END)
        return found[0][:-1] if found and all(one == found[0] for one in found) else None


def with_told_evals(line):
    """A line's text in which each `eval` tells what it is to read."""
    text, more = line.text[:line.expanded_length()], []

    for one in references.references(text):
        if one.function == "eval" and one.is_closed:
            more.append((one.spans()[0][0], f"$(call kati_probe,{TEXT},$(subst ,,"))
            more.append((one.end - 1, "),)"))
    # An inner one closes before the one that it is the end of.
    for at, mark in sorted(more, key=lambda one: (one[0], one[1][0] == "$"), reverse=True):
        text = text[:at] + mark + text[at:]
    return text + line.text[line.expanded_length():]


def is_bare(line):
    """Whether a line is of references alone, and may evaluate something."""
    text, at = statements.without_comment(line.joined).strip(), 0
    if line.is_tab or line.is_body or line.is_wrapped or line.is_makes or not text:
        return False
    while at < len(text) and text[at:at + 2] in ("$(", "${"):
        at = references.end_of_reference(text, at)
        at += len(text[at:]) - len(text[at:].lstrip())
    return at >= len(text)


def templates(line):
    """The macros that a line calls, or hands to `eval`."""
    found = references.references(line.joined)
    handed = [references.beginning(one.argument) for one in found if one.function == "eval"]
    return [*(one.named() for one in found if one.function == "call" and one.named()),
            *(one.name for one in handed if one and one.name)]


def follows_tab(file, line):
    """Whether a line behind a tab comes next."""
    after = file.lines[file.lines.index(line) + 1:]
    return bool(after) and after[0].is_tab and bool(after[0].first_word())


def lines_like(port, fault):
    """The line of a fault, and those that call one of the same macros, or one that has the same to be refused."""
    first, definitions = fault.line, mending.definitions_of(port)
    wanted, has_form = set(templates(first)), FORMS.get(fault.number, lambda line: False)
    return [first, *(line for line in port.lines() if line is not first and is_bare(line) and (
        wanted.intersection(templates(line))
        or any(one.is_body and has_form(one) for one in mending.reached(port, line.text, definitions))))]


def katis_lines(line, texts):
    """The lines that kati gets for these texts; none where the texts can't stand in a makefile's lines."""
    *evaluated, value = texts
    if any(text.startswith("\t") or "\0" in text for text in evaluated) or set(value) & set("$#\\\n"):
        return []
    text = "\n".join([*evaluated, *([value] if value.strip() else [])])
    found = PortedFile("", text, line.prefix).lines
    for one in found:
        one.number, one.is_katis = line.number, True
    while found and not found[-1].text.strip():
        found.pop()
    return found


def frame(line, text):
    """A line round those for make and those for kati."""
    found = PortedLine(line.number, text, line.endings, line.prefix)
    found.is_makes = True
    return found


def put(file, line, new):
    """Puts kati's lines into a file, in the place of a line that stays for make."""
    at = file.lines.index(line)
    if line.is_katis:
        file.lines[at:at + 1] = new
        return
    line.is_makes = True
    file.lines[at:at + 1] = [frame(line, MAKES_ALONE), line, frame(line, "else"), frame(line, MARK), *new,
                             frame(line, "endif")]


def as_it_was(port, line):
    """Takes the values out of a line again that stand in it for kati; answers their references."""
    before, line.edits = list(line.edits.values()), {}
    port.did.subtract(("frozen", call.kind) for call in (port.probes.of(line) if before else ()))
    return before


def write_out(port, lines, is_meant=bool):
    """Writes out what lines evaluate, of those for which kati is to get such lines; answers whether there are any."""
    asked, added, before = Asked(port, lines), [], []
    for file in port.ported.values():
        for line in [line for line in asked.lines if line in file.lines and not follows_tab(file, line)]:
            new = katis_lines(line, asked.texts_of(line) or [""])
            if is_meant(new):
                note(port, line)
                put(file, line, new)
                before += as_it_was(port, line)
                port.probes.read.add_read(new)
                added += new
                port.tell("written out")
    port.values.drop_unused(before, port.ported.values())
    if any([port.probes.add(line) for line in added]):
        port.probes.ask(list(port.ported.values()), port.run, port.room)
    return bool(added)


def mend(port, fault):
    """Writes out what the line of a fault evaluates, and what others do by the same macros; answers whether it
    could."""
    if fault.line is None or not is_bare(fault.line):
        return False
    write_out(port, lines_like(port, fault))
    return any(line is fault.line for line in port.written_out.lines)


def mend_functions(port, fault):
    """E16: the same; where it could not, freezes what the line may come to though make evaluated nothing there."""
    return mend(port, fault) or mending.far_function(port, fault)


def evaluated_values(port, fault):
    """E32: writes out what gives macros a value that evaluates itself, as `lazy = $(eval $1 = $$(eval $1 := ..)$$($1))`
    in `$(call lazy,X)`; answers whether it could."""
    del fault
    lines = [line for line in port.lines() if is_bare(line) and templates(line)]
    return bool(lines) and write_out(port, lines, lambda new: any(map(mending.evaluates_itself, new)))
