"""Recipe lines that begin with a variable that make has built in and that no makefile defines.

kati has no built-in variables: `$(CC) -o prog main.c` is `o prog main.c` for kati, whose failure counts for nothing,
and `$(RM) prog` runs `prog`. kati tells such lines itself: by one more run, in which each of these variables has a mark
for its value."""
import os
import re

from ..base import files
from ..base.programs import SHARE, bytes_of, run_into, text_of
from ..base.words import macros_of, name_of
from ..make import shell_text
from ..makefile import quick_looks
from . import ninja_text, translating

MARK = "_kati-empty-"
WRAPPER, MARKED = "marked.mk.new", "marked.ninja.new"
BUILT_IN = re.compile(r"^([\w.]+) =", re.MULTILINE)
# What may stand before the command of a recipe's line.
BEFORE = " \t@+-"
MARKED_PIECE = re.compile(rf"'[{BEFORE}]*{MARK}".encode())
FAULT = re.compile(r"^(.*):(\d+): \*\*\* ", re.MULTILINE)
# Names that `include` can have.
INCLUDED = re.compile(r"[\w./+@,-]+")
HELP = ("help: kati-build --port builds with make's own {}; kati-build --builtin adds make's built-in variables and "
        "rules\n")


def candidates(texts, given, are_all=True):
    """The built-in variables that makefiles of these texts name and may not define, or those that they don't define
    where these aren't all makefiles; `given` are the words of the command line."""
    named = set(BUILT_IN.findall(files.read(os.path.join(SHARE, translating.MACROS))))
    if are_all:
        referred = {name for text in texts for name in quick_looks.names_in(text)}
        computed = tuple({begin for text in texts for begin in quick_looks.beginnings_of_computed(text)})
        named = {name for name in named if name in referred or name.startswith(computed)}
    if not named:
        return []
    defined = set().union(*map(quick_looks.surely_assigned, texts))
    return sorted(named - defined - set(map(name_of, macros_of(given))))


class Marked:
    """kati with marks for variables of these names, for a `Translator` that has translated."""

    def __init__(self, translator, makefile, names):
        self.translator, self.makefile, self.names = translator, makefile, names
        self.room = os.path.dirname(os.path.abspath(translator.list))
        self.written = os.path.join(self.room, MARKED)

    def run(self, words, before="", behind=""):
        """kati's status and messages for these words, with lines before the makefile and behind it."""
        wrapper = os.path.join(self.room, WRAPPER)
        files.write(wrapper, bytes_of(f"{before}include {self.makefile}\n{behind}"))
        translator = self.translator
        command = [translator.kati, *translator.depth, "-f", wrapper, "--files", os.path.abspath(translator.list), "--",
                   *words]
        status, said = run_into(command, self.written, translator.folder)
        return status, text_of(said)

    def beginning(self, translation):
        """The variables with which recipe lines begin, each with a target of such a line."""
        marks = "".join(f"{name} = {MARK}{name}-\n" for name in self.names)
        status, _ = self.run(self.translator.words, marks)
        text = files.content(self.written) if status == 0 else b""
        if not MARKED_PIECE.search(text):
            return {}
        plain = {one.outputs[0]: one for one in translation.statements}
        found = {}
        for one in ninja_text.statements(text_of(text)):
            for name in self.names_in(one, plain.get(one.outputs[0])):
                found.setdefault(name, one.outputs[0])
        return found

    def names_in(self, marked, plain):
        """The variables with which lines of a statement begin, where the marks are all that makes it another one."""
        texts = texts_of(marked)
        begins = [text.lstrip(BEFORE) for text in texts]
        found = [name for name in self.names if any(text.startswith(f"{MARK}{name}-") for text in begins)]
        return found if found and list(map(without_marks, texts)) == list(map(without_marks, texts_of(plain))) else []

    def place(self, name, target):
        """The place of the line with which a target's recipe begins by a variable, or that expands that variable for
        the recipe: its file and number."""
        words = [*macros_of(self.translator.words), target]
        fault = (FAULT.search(self.run(words, behind=f"{name} ?= $(error refused)\n")[1])
                 or FAULT.search(self.run(words, f"{name} = $(error refused)\n")[1]))
        if not fault:
            return self.makefile, 1
        path, number = fault.group(1), int(fault.group(2))
        return path, number_of_line((files.read(path) or "").split("\n"), number)


def texts_of(statement):
    """The texts of a statement's recipe lines, but for those of which marks are all."""
    command = statement.command if statement is not None else None
    texts = [piece.text for piece in shell_text.pieces(command) or []] if command else []
    return [text for text in texts if without_marks(text)]


def without_marks(text):
    """A recipe line's text without marks, and without what may stand before it."""
    return " ".join(re.sub(rf"{MARK}[\w.]+-", "", text).lstrip(BEFORE).split())


def number_of_line(lines, number):
    """The number of the recipe's line that begins with a reference, from the one on that has the first."""
    for at in range(number - 1, len(lines)):
        if not lines[at].startswith("\t"):
            break
        if lines[at].lstrip(BEFORE).startswith("$"):
            return at + 1
    return number


def told(translator, translation):
    """What to say of recipe lines that begin with such a variable; "" where there are none."""
    makefile = translator.makefile or translating.default_makefile()
    if translation.status or not (makefile and INCLUDED.fullmatch(makefile)):
        return ""
    asked = dict.fromkeys([makefile, *(translation.asked or [])])
    texts = [files.read(name) or "" for name in asked if os.path.isfile(name)]
    names = candidates(texts, translator.words, translation.asked is not None)
    marked = Marked(translator, makefile, names)
    found = marked.beginning(translation) if names else {}
    if not found:
        return ""
    places = {name: marked.place(name, target) for name, target in found.items()}
    lines = [f'{path}:{number}: a recipe line begins with "$({name})", which make has built in and no makefile '
             "defines\n" for name, (path, number) in places.items()]
    return "".join(lines) + HELP.format(" and ".join(found))
