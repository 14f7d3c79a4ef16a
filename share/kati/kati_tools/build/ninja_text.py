"""What kati writes, read line by line: its layout is fixed, and no line is continued."""
import re

from ..base.programs import text_of

NAME = re.compile(r"(?:\$.|[^ $])+")
COLON = re.compile(r"(?:\$.|[^:$])*")
BARS = ("|", "||")
DEFAULT = re.compile(r"^default (.*)$", re.MULTILINE)
# What stands before the first colon of a `build` line, of which none is the first line; and before the first one
# that isn't escaped.
PLAIN_HEAD, HEAD = re.compile(rb"\nbuild ([^:\n]*):"), re.compile(rb"\nbuild ((?:\$.|[^:$\n])*):")


def escaped(text):
    """A name as Ninja reads it in a `build` line."""
    return text.replace("$", "$$").replace(" ", "$ ").replace(":", "$:")


def all_escaped(named):
    """Names as Ninja reads them in a `build` line: mostly as they are, which one look at all of them tells."""
    joined = "".join(named)
    return list(map(escaped, named)) if "$" in joined or " " in joined or ":" in joined else named


def escaped_value(text):
    """A value as Ninja reads it after `=`."""
    text = text.replace("$", "$$")
    return "$" + text if text.startswith(" ") else text


def plain(text):
    """What Ninja reads of an escaped text."""
    return re.sub(r"\$(.)", r"\1", text) if "$" in text else text


def names(text):
    """The names of a part of a `build` line, escaped as they are."""
    return NAME.findall(text) if "$" in text else text.split()


def cut(line):
    """A `build` line's outputs, and what stands behind its colon."""
    outputs = COLON.match(line, len("build ")).group()
    return outputs, line[len("build ") + len(outputs) + 1:]


class Statement:
    """A `build` line, with the command of its rule, None where it is phony; `line` counts from 0. `needs` are its
    inputs with those behind a bar, and `counting` those of them whose times count."""

    def __init__(self, text, command, line):
        outputs, rest = cut(text)
        words = names(rest)
        self.outputs = [plain(name) for name in names(outputs)]
        self.command = None if words[0] == "phony" else command
        bars = [at for at, word in enumerate(words) if word in BARS]
        self.inputs = [plain(name) for name in words[1:bars[0] if bars else None]]
        self.needs = [plain(name) for name in words[1:] if name not in BARS]
        ordering = words.index(BARS[1]) if BARS[1] in words else len(words)
        self.counting = [plain(name) for name in words[1:ordering] if name != BARS[0]]
        self.line = line


def statements(text):
    """The statements of a file that kati wrote."""
    found, command = [], ""
    for number, line in enumerate(text.split("\n")):
        if line.startswith(" command = "):
            command = plain(line[len(" command = "):])
        elif line.startswith("build "):
            found.append(Statement(line, command, number))
    return found


def variables(text):
    """What the rule and the block of each statement set, by the number of the statement's line."""
    rules, found, block = {}, {}, {}
    for number, line in enumerate(text.split("\n")):
        if line.startswith(" "):
            name, _, value = line.partition("=")
            block[name.strip()] = plain(value.lstrip(" "))
        elif line.startswith("rule "):
            block = rules[line[len("rule "):]] = {}
        elif line.startswith("build "):
            block = found[number] = dict(rules.get(names(cut(line)[1])[0], {}))
        else:
            block = {}
    return found


def defaults(text):
    """The names that a file makes where none is asked for."""
    return [plain(name) for line in DEFAULT.findall(text) for name in names(line)]


def heads_in(piece):
    """The same of a piece, behind a line's end."""
    found = PLAIN_HEAD.findall(piece)
    return HEAD.findall(piece) if b"$" in b"".join(found) else found


class Heads:
    """What stands before the colon of each statement of a file that kati wrote, which is given as bytes, in pieces that
    end with a line; found without building the statements, which takes ten times as long. `are_names` says that each is
    a name as it is."""

    def __init__(self, pieces):
        self.all = [head for piece in pieces for head in heads_in(b"\n" + piece)]
        self.joined = b"\n".join(self.all)
        self.are_names = b" " not in self.joined and b"$" not in self.joined

    def outputs(self):
        """All names that the statements make."""
        if self.are_names:
            return set(text_of(self.joined).split("\n")) if self.all else set()
        return {plain(name) for one in self.all for name in names(text_of(one))}


def with_lines(text, added, replaced=None):
    """A text with more lines, by the number of the line, from 0, behind which they stand; and with others in the place
    of some, by their numbers."""
    if not added and not replaced:
        return text
    found = text.split("\n")
    for number, line in (replaced or {}).items():
        found[number] = line
    for number in sorted(added, reverse=True):
        found[number + 1:number + 1] = added[number]
    return "\n".join(found)
