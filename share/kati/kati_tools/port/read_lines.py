"""Which lines of makefiles make reads: it tells which branches it takes, where it is asked for values.

Before each `else`, and before the `endif` of a conditional without a plain one, stands a condition that is never true;
make comes by it where it has taken no branch before it. Such a line ends no rule."""
from ..makefile import syntax
from ..make.make_run import ANSWER, END

FIRST = 9_000_000
# The macro by which a makefile tells make from kati.
OF_MAKE = "MAKE_VERSION"


class Reading(syntax.Makefile):
    """A makefile's lines, of which each knows whether a rule may be open before it."""

    def read(self, line):
        line.has_open_rule = self.open.rule is not None
        super().read(line)


class ReadLines:
    """The lines of ported files as syntax.py has them, and where make tells that it comes by."""

    def __init__(self, ported):
        self.syntax, self.numbers, self.marks, self.doubtful, self.told = {}, {}, {}, set(), set()
        # Whether each line is read, as far as that was looked for.
        self.known = {}
        for file in ported:
            self.add(file)

    def add(self, file):
        """Adds a file's lines."""
        flat = [line for line in file.lines if not line.is_makes]
        made = Reading("\n".join(line.text for line in flat))
        if len(made.lines) != len(flat):
            return
        self.syntax.update(zip(flat, made.lines))
        by_syntax = dict(zip(made.lines, flat))
        for block in made.blocks:
            if block.lines[-1].says.word != "endif" or any(one.is_tab and one.has_open_rule for one in block.lines):
                self.doubtful.add(block)
                continue
            self.doubtful.update([block] if any(one.says.tested == OF_MAKE for one in block.lines) else [])
            for branch, one in enumerate(block.lines[1:], 1):
                if one.says.word == "else" or not block.has_else:
                    self.numbers[block, branch] = self.marks[by_syntax[one]] = FIRST + len(self.numbers)

    def add_read(self, lines):
        """Adds lines that stand in the place of one that is read; of their conditionals nothing is known."""
        made = Reading("\n".join(line.text for line in lines))
        if len(made.lines) == len(lines):
            self.syntax.update(zip(lines, made.lines))
            self.doubtful.update(made.blocks)
            self.known = {}

    def take(self, told):
        """Takes what make told, by the numbers of marks."""
        self.told, self.known = set(told), {}

    def marked(self, line, text):
        """The text of a line with the mark before it, where it has one."""
        number = self.marks.get(line)
        return text if number is None else f"else ifneq ($(info {ANSWER}{number} |{END}),)\n{text}"

    def is_taken(self, block, branch):
        """Whether make took a branch, each time that it came by."""
        is_come_by = branch == 0 or self.numbers.get((block, branch)) in self.told
        return block not in self.doubtful and is_come_by and self.numbers.get((block, branch + 1)) not in self.told

    def is_read(self, line):
        """Whether make reads a line, and kati surely does too. A port asks it of each line many times."""
        if line not in self.known:
            found = self.syntax.get(line)
            self.known[line] = found is not None and all(self.is_taken(*one) for one in found.around)
        return self.known[line]

    def kind(self, line):
        """What syntax.py says that a line is; None where it isn't known."""
        found = self.syntax.get(line)
        return found and found.kind

    def is_behind_tab(self, line):
        """Whether a line behind a tab is surely no line of a recipe."""
        found = self.syntax.get(line)
        return found is not None and found.is_tab and not found.has_open_rule
