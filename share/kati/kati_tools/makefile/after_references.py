"""Lines behind a tab that make takes and kati ignores.

They follow a line of references alone, as `$(eval ..)`: where those come to nothing, no rule is open for make, so that
it takes an assignment, a conditional or an include as such. For kati the line of references opens a rule that makes
nothing. And in a branch that isn't taken kati ignores a conditional behind a tab, so that it takes the wrong end of
one of which only some lines stand behind tabs."""
import os

from . import quick_looks, references, statements, syntax
from ..base import files
from ..base.programs import text_of

# Functions of which nothing is left.
COME_TO_NOTHING = ("eval", "info", "warning", "error")
MEANT = statements.INCLUDES | statements.DIRECTIVES | statements.CONDITIONS | {"define"}


def is_of_references(text):
    """Whether a line is of references alone."""
    rest = statements.without_comment(text).strip()
    while rest.startswith("$") and not rest.startswith("$$"):
        rest = rest[references.end_of_reference(rest, 0):].lstrip()
        if not rest:
            return True
    return False


def is_nothing(text):
    """Whether a line of references comes to nothing by the function that it begins with."""
    found = references.only(text.strip())
    return found is not None and found.function in COME_TO_NOTHING


def is_meant(line):
    """Whether a line behind a tab is more than a recipe's to make where no rule is open."""
    return line.first_word() in MEANT or statements.assignment(statements.without_comment(line.joined)) is not None


def found_in(lines):
    """Each line of references with the lines behind a tab that follow it, where some of these mean something. `lines`
    are without those between `define` and `endef`."""
    reference, meant = None, []
    for line in lines:
        word = line.first_word()
        if line.is_tab:
            meant += [line] if reference and is_meant(line) else []
        elif word and not word.startswith("#") and word not in statements.CONDITIONS:
            if meant:
                yield reference, meant
            reference, meant = (line if is_of_references(line.joined) else None), []
    if meant:
        yield reference, meant


def surely_nothing(lines):
    """The lines behind a tab that follow references of which it is seen that they come to nothing; `lines` are those of
    a makefile."""
    found = found_in([line for line in lines if not line.is_body])
    return [line for reference, meant in found if is_nothing(reference.joined) for line in meant]


def half_conditionals(lines):
    """The lines behind a tab of conditionals that have others, where no rule is open."""
    found = [line for line in lines if line.is_tab and line.kind is syntax.Kind.CONDITION and line.rule is None]
    return [line for line in found if line.block is not None and not all(one.is_tab for one in line.block.lines)]


def ignored(text):
    """The lines of a makefile that make takes, as far as that is seen in its text, and kati ignores."""
    if not quick_looks.may_have_ignored_tabs(text):
        return []
    lines = syntax.Makefile(text).lines
    found = {*surely_nothing(lines), *half_conditionals(lines)}
    return [line for line in lines if line in found]


def told(names, said):
    """What to say of such lines in the makefiles of these names, but for what compilers write, and for lines that kati
    has named in what it `said`."""
    for name in (name for name in names if not name.endswith(".d") and os.path.isfile(name)):
        for line in ignored(text_of(files.content(name) or b"")):
            if f"{name}:{line.number}: " not in said:
                yield (f"{name}:{line.number}: {line.joined.strip()} stands behind a tab: make takes it, as no rule is "
                       "open there, and kati ignores it; indent it by spaces")
