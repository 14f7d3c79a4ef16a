"""Whether the rules of makefiles may make a name: a look at their text, which spares kati a second run where none may.

It answers yes rather than no: a name that holds a reference or a `%` may be each name that fits."""
import fnmatch
import re

from ..makefile import quick_looks
from ..makefile.includes import pattern_of
from ..makefile.quick_looks import without_continuations
from ..makefile.statements import Rule


def heads(line):
    """The words of a line that may stand before the colon of a rule, each reference as a pattern: those before the last
    one, as another may stand in a reference, and what stands behind the first may be a recipe."""
    return quick_looks.before_colons(pattern_of(line)).replace(":", " ").split()


def fits(word, names):
    """Whether a word of a rule's targets may be one of these names: by its references, its `%`, as a suffix rule."""
    if word.startswith(".") and "%" not in word and "*" not in word:
        ending = "." + word.rpartition(".")[2]
        return any(name.endswith(ending) for name in names)
    form = re.compile(fnmatch.translate(re.sub(r"([?\[])", r"[\1]", word.replace("%", "*"))))
    return any(map(form.match, names))


def may_make(text, names):
    """Whether the rules of a makefile's text may make one of these names."""
    text = without_continuations(text)
    if any(quick_looks.may_have_rule(text, name) for name in names):
        return True
    return any(fits(word, names) for line in quick_looks.computed_rules(text) for word in heads(line))


def doubled(text, name):
    """The rules with a double colon whose lines have a name."""
    lines = [line for line in without_continuations(text).split("\n") if "::" in line and name in line]
    return [rule for rule in map(Rule, lines) if rule.is_double]
