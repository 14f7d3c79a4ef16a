"""What hangs on a target that ninja makes at each run, and the lines by which its file counts, as for make.

make looks at a file after its recipe: where it stays as it was, what is made from it isn't made again. ninja does so
only with `restat`. So each statement that hangs on such a target, by however many others, gets it in its block; but
the target itself doesn't, nor a statement of which no file is there: a recipe that makes none counts for make as one
that made a new one."""
import os
import re

from . import ninja_text

LINE = " restat = 1"
WITHOUT_INPUTS = b": phony\n"
PHONY_WITHOUT_INPUTS = re.compile(r"\nbuild ((?:\$.|[^:$\n])*): phony(?=\n)")
# kati's own mark of a phony target with a recipe.
ALWAYS = "_kati_always_build_"


class Graph:
    """The `build` lines of a text: by each name what is made from it, and the numbers of the lines."""

    def __init__(self, lines):
        self.by_input, self.heads = {}, {}
        for number, line in enumerate(lines):
            if line.startswith("build "):
                self.add(number, line)

    def add(self, number, line):
        """Takes in a line; its order-only inputs, for which nothing is made anew, aside."""
        outputs, rest = ninja_text.cut(line)
        self.heads[number] = outputs
        for name in ninja_text.names(rest.split(" || ")[0])[1:]:
            self.by_input.setdefault(name, []).append(number)

    def hanging(self, starts):
        """The numbers of the lines that hang on these names."""
        found, left = set(), list(starts)
        while left:
            for number in self.by_input.get(left.pop(), []):
                if number not in found:
                    found.add(number)
                    left += ninja_text.names(self.heads[number])
        return found


class Hanging:
    """The `build` lines of a translation that hang on targets which ninja makes at each run, by their numbers."""

    def __init__(self, translation):
        self.found = {}
        # Backwards is twice as fast.
        if any(piece.rfind(WITHOUT_INPUTS) >= 0 for piece in translation.pieces()):
            text = translation.text
            starts = [name for outputs in PHONY_WITHOUT_INPUTS.findall(text) for name in ninja_text.names(outputs)]
            lines = text.split("\n")
            hanging = {number: lines[number] for number in Graph(lines).hanging(starts)}
            self.found = {number: outputs_of(line) for number, line in hanging.items() if may_have_restat(line)}

    def lines(self):
        """The lines for kati's text, by the number of the line behind which they stand."""
        return {number: [LINE] for number, names in self.found.items() if all(map(os.path.exists, names))}

    def looked_at(self):
        """The names of the files that were looked for, each behind `+` where it is there, else behind `-`."""
        names = dict.fromkeys(name for names in self.found.values() for name in names)
        return [("+" if os.path.exists(name) else "-") + name for name in names]


def outputs_of(line):
    """The names that a `build` line makes."""
    return [ninja_text.plain(one) for one in ninja_text.names(ninja_text.cut(line)[0])]


def may_have_restat(line):
    """Whether a `build` line that hangs on such a target gets `restat` where its files are there."""
    rule, *inputs = ninja_text.names(ninja_text.cut(line)[1])
    return rule != "phony" and ALWAYS not in inputs
