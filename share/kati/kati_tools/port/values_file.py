"""kati-values.mk as it stands: what it has for make and for kati, by which it is kept and made anew."""
from ..makefile import ported_text, references, statements, syntax
from . import frozen_values
from .make_probes import ASKED, PROBE, calls_in
from ..base.programs import Stop



def assigned_in(text):
    """The name, the operator and the text of an assignment, as the file has them; None of another line."""
    found = statements.assignment(text)
    return found and (found.name, found.operator, text[found.value_at:])


def branches_of(text):
    """The lines that a file of values has for make, and those for kati; None of another file."""
    read = syntax.Makefile(text)
    block = read.blocks[0] if read.blocks and text.startswith(frozen_values.TITLE) else None
    if block is None or [line.text for line in block.lines] != [ported_text.MAKES_ALONE, "else", "endif"]:
        return None
    return [[line.text for line in read.lines if line.around == ((block, branch),)] for branch in (0, 1)]


class Entry:
    """A value as the file has it: its source, name, operator and text, and the lines of its table."""

    def __init__(self, source, name, operator, text):
        self.source, self.name, self.operator, self.text = source, name, operator, text
        self.table = []

    def key(self):
        """What the values of the table depend on, as kati writes it; empty without a table."""
        found, begin = references.only(self.text) if self.operator == "=" else None, f"{self.name}_"
        return found.body[len(begin):] if found and found.body.startswith(begin) else ""

    def lines(self):
        """The lines of the file."""
        return [f"# {self.source}", frozen_values.assigned(self.name, self.operator, self.text), *self.table]


class ValuesFile:
    """A file of values: make's text by name, and kati's entries in their order."""

    def __init__(self, text):
        found = branches_of(text)
        if found is None:
            raise Stop(f"{frozen_values.NAME} isn't as kati-port wrote it: port the makefile again")
        self.makes_lines, katis_lines = found
        self.makes = dict(line.split(" = ", 1) for line in self.makes_lines if " = " in line)
        self.entries, source = [], None
        for line in katis_lines:
            assigned = assigned_in(line)
            if line.startswith("# "):
                source = line[2:]
            elif assigned and source is not None:
                self.entries.append(Entry(source, *assigned))
                source = None
            elif self.entries:
                self.entries[-1].table.append(line)

    def text(self):
        """The text of the file."""
        katis = [line for one in self.entries for line in one.lines()]
        return frozen_values.TITLE + "\n".join(["ifdef MAKE_VERSION", *self.makes_lines, "else", *katis, "endif", ""])

    def function_of(self, name):
        """The function of which a macro of make's is a call, as `wildcard`; None of another one."""
        found = references.beginning(self.makes.get(name, ""))
        return found and found.function

    def add_row(self, one, name):
        """A new entry for a row of a table, behind it."""
        row = Entry("", name, ":=", "")
        self.entries.insert(self.entries.index(one) + 1, row)
        return row

    def probed(self):
        """The text in which make tells the values, what they are asked for, and what each depends on."""
        lines = [PROBE.rstrip("\n")]
        for number, one in enumerate(self.entries):
            if one.name in self.makes:
                call = f"$(call kati_probe,{number},{probed_call(number, self.makes[one.name], one.key())},{one.key()})"
                lines.append(f"{one.name} = {call}")
        return "\n".join([*lines, *(line for line in self.makes_lines if " := " in line), ""])

    def asked(self, number, told):
        """What the calls in an entry were asked for, for each kind of calls, of what make told of all."""
        return [told.get(asking.first + number, []) if self.entries[number].name in self.makes else []
                for asking in ASKED]


def probed_call(number, makes, key):
    """A text of make's with probes of what the calls in it are asked for."""
    line, marks = ported_text.PortedLine(1, makes, ("",), ""), {}
    line.kind = syntax.Kind.BODY
    for call in calls_in(line, lambda reference: next((one for one in ASKED if one.is_one(reference)), None)):
        (start, end), asked = call.chain[0], references.only(call.text()).spans()[0][0]
        marks[start + asked] = f"$(call kati_probe,{call.kind.first + number},{call.kind.handing}"
        marks[end - 1] = f"),{key})"
    text, last = "", 0
    for at in sorted(marks):
        text, last = text + makes[last:at] + marks[at], at
    return text + makes[last:]
