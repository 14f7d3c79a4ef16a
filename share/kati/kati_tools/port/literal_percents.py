"""A percent sign that a backslash quotes in what patsubst puts in the place of a pattern, as `$(S:%=\\%)`: a word
stands there for both programs, which becomes a percent sign behind that. So does one for a backslash that is quoted
before the sign, as `$(S:%=\\\\%)`."""
import re

from ..makefile import references
from . import mending

WORD, BACKSLASH = "KATI_PERCENT", "KATI_BACKSLASH"
QUOTED, SIGN = "\\%", re.compile(r"(\\*)%")


def replaced_at(reference):
    """Where the text begins and ends that a reference puts in the place of a pattern; None of another reference."""
    if reference.function == "patsubst":
        spans = reference.spans()
        return spans[1] if len(spans) > 2 else None
    if reference.substitution is None:
        return None
    start, end = reference.inside
    return reference.whole.index("=", reference.whole.index(":", start)) + 1, end


def mended(reference):
    """The text that both programs take for a reference; None of one that has no such sign."""
    at = replaced_at(reference)
    if at is None or QUOTED not in reference.whole[slice(*at)]:
        return None
    text = without_quoted(reference.whole[slice(*at)], bool(reference.substitution) and "%" not in
                          reference.substitution[0])
    whole = reference.whole[reference.start:at[0]] + text + reference.whole[at[1]:reference.end]
    whole = f"$(subst {BACKSLASH},\\,{whole})" if BACKSLASH in text else whole
    return f"$(subst {WORD},%,{whole})" if WORD in text else whole


def without_quoted(text, has_stem):
    """Such a text without backslashes before percent signs. As make has it, half of them stay before those that aren't
    behind the stem's place, which is the first one before which their number is even; where there `has_stem` already,
    as with a suffix, and behind that place, all do."""
    found, end = [], 0
    for one in SIGN.finditer(text):
        marks, before = one.group(1), text[end:one.start()]
        end, half = one.end(), len(marks) // 2
        if has_stem:
            found += [before, marks + WORD if marks else "%"]
        elif len(marks) % 2:
            found += [before, marks[:half] + WORD]
        else:
            found += [before, BACKSLASH * half + "%"]
            has_stem = True
    return "".join([*found, text[end:]])


def mend(port, fault):
    """E18: gives both programs such a text in the lines that the fault's comes to; answers whether there are any."""
    return any([mend_line(port, line) for line in mending.reached_by(port, fault)])


def mend_line(port, line):
    """The same in a line, in which nothing else is mended within them."""
    found = {(one.start, one.end): mended(one) for one in references.references(line.text[:line.expanded_length()])}
    found = {span: text for span, text in found.items() if text and not any(
        span[0] <= start and end <= span[1] for start, end in line.edits)}
    line.edits.update(found)
    for _ in found:
        port.tell("percent")
    return bool(found)
