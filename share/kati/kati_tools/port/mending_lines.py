"""Lines that begin with a word or a tab that kati refuses there."""
from ..base import words
from ..makefile import after_references, statements
from . import mending_exports
from ..makefile.ported_text import MAKES_ALONE
from ..makefile.references import BLANKS
from ..makefile.syntax import Kind

# A name that nothing has.
NO_NAME = "KATI_NO_NAME"
# What compares two texts.
PAIRS = ("ifeq", "ifneq")


def word_of(fault):
    """The word with which the line of a fault begins, where kati refuses the line by that; None of another fault."""
    is_meant = fault.last != "!=" and fault.line is not None and not fault.line.is_body
    return fault.line.first_word() if is_meant else None


def exported(port, fault):
    """E17: `export` and `unexport`, but before a `define`."""
    if word_of(fault) not in ("export", "unexport") or fault.line.kind is Kind.DEFINE:
        return False
    mending_exports.export(fault.line)
    port.tell("export")
    return True


def loaded(port, fault):
    """E17: `load` is for make alone."""
    word = word_of(fault)
    if word not in ("load", "-load"):
        return False
    fault.line.wrap()
    port.tell(word)
    return True


def modified(port, fault):
    """E17: `undefine`; `override` and `private` before an assignment; and a `define` behind such a word."""
    line, word = fault.line, word_of(fault)
    if word is None:
        return False
    if line.kind is Kind.DEFINE:
        return definition(port, fault, word)
    if line.kind is Kind.UNDEFINE:
        line.wrap(lambda text: statements.undefined(statements.without_comment(text)) + " =")
        port.tell("undefine")
        return True
    return word in ("override", "private") and dropped_word(port, line, word)


def dropped_word(port, line, word):
    """`override` and `private` before an assignment are dropped for kati."""
    found = line.assignment()
    if not found:
        return False
    line.wrap(statements.without_modifiers)
    if word == "private" and "$" not in found[0]:
        # make's recipes don't have it, and kati's are expanded at the end.
        port.for_kati.cleared.append(found[0])
    if word == "override" and "$" not in found[0]:
        lines = next(file.lines for file in port.ported.values() if line in file.lines)
        for one in [one for one in lines[lines.index(line):] if is_plain(one, found[0])]:
            # make leaves what it overrides as it is.
            one.wrap()
    port.tell(word)
    tell_of_word(port, word, found[0])
    return True


def tell_of_word(port, word, name):
    """What a macro is for kati that the makefile overrides, and that is a word of this command line: it stands in the
    makefile where the port is for these words alone, and else this is said."""
    given = [one for one in port.asked.macros if words.name_of(one) == name]
    if word != "override" or not given:
        return
    if not port.asked.has_deps:
        port.note(f"the word {name}=.. of the command line wins over the makefile for kati, and not for make")
    elif name not in port.for_kati.taken_words:
        port.for_kati.taken_words[name] = given[-1]
        for line in [line for line in port.lines() if is_plain(line, name)]:
            line.wrap()


def is_plain(line, name):
    """Whether a line assigns a macro without `override`, so that a word of the command line wins over it."""
    found = not (line.is_wrapped or line.is_gone) and line.assignment()
    return bool(found) and found[0] == name and "override" not in line.text.split(name)[0].split()


def definition(port, fault, word):
    """A `define` behind such a word: the whole of it stands twice."""
    lines = fault.file.lines
    first = lines.index(fault.line)
    last = next((at for at in range(first + 1, len(lines)) if lines[at].kind is Kind.ENDEF), None)
    if last is None:
        return False
    body = [line.now() for line in lines[first + 1:last + 1]]
    line = fault.line
    whole = "\n".join([MAKES_ALONE, line.text, *(one.text for one in lines[first + 1:last + 1]), "else",
                       statements.without_modifiers(line.text), *body, "endif"])
    line.edits = {(0, len(line.text)): whole}
    for one in lines[first + 1:last + 1]:
        one.is_gone = True
    tell_of_word(port, word, line.says.name)
    port.tell(word)
    return True


def tabs(port, fault):
    """E05, E06, E10, E11, E12: a line behind a tab that make takes for one without: spaces, for both."""
    if fault.file is None or fault.line is None:
        return False
    if fault.number == "E06":
        lines = block(fault.file.lines, fault.line) or [fault.line]
    elif fault.number == "E05":
        lines = [fault.line]
    else:
        lines = [line for line in fault.file.lines if line.kind is Kind.CONDITION]
    meant = [line for line in lines if line.is_tab and not line.is_body]
    for line in meant:
        indent(port, line)
        port.tell("tab")
    return bool(meant)


def tested_name(line):
    """The name that a line asks of by `ifdef` or `ifndef`; empty of another line."""
    found = statements.condition(statements.without_comment(line.edited()))
    return found and found.tested or ""


def empty_name(port, fault):
    """E15: `ifdef $(NAME)` where that is empty: make takes it as a name that nothing has; so both get such a name."""
    line = fault.line
    text = line.edited() if line and not line.is_body and not line.is_wrapped else ""
    found = statements.condition(statements.without_comment(text))
    name = found and found.tested or ""
    if not name.startswith("$") or NO_NAME in name:
        return False
    end = found.rest_at + len(name)
    line.edits = {(0, len(line.text)): f"{text[:found.rest_at]}$(or {name},{NO_NAME}){text[end:]}"}
    port.tell("empty name")
    return True


def compared_texts(rest):
    """The two texts of `(a,b)` as make finds them, which takes a parenthesis that closes none before the comma for
    text, and ignores what stands behind the second text; None where there is none such."""
    depth, comma, is_odd = 0, None, False
    for at, mark in enumerate(rest[1:], 1):
        if mark == "," and comma is None and depth <= 0:
            comma, depth, is_odd = at, 0, depth < 0
        elif mark == ")" and comma is not None and depth <= 0:
            return (rest[1:comma].rstrip(BLANKS), rest[comma + 1:at].lstrip(BLANKS)) if is_odd else None
        depth += (mark == "(") - (mark == ")")
    return None


def odd_parenthesis(port, fault):
    """E15: `ifeq ($(X)),a)`: both get the two texts in quotes."""
    line = fault.line
    text = line.edited() if line and not line.is_body and not line.is_wrapped else ""
    found = statements.condition(statements.without_comment(text))
    is_pair = found is not None and (found.inner or found.word) in PAIRS and found.rest.startswith("(")
    texts = compared_texts(found.rest) if is_pair else None
    quote = next((one for one in "\"'" if texts and one not in "".join(texts)), None)
    if quote is None or texts[0].startswith(tuple(BLANKS)):
        return False
    words = " ".join(f"{quote}{one}{quote}" for one in texts)
    end = found.rest_at + len(found.rest)
    line.edits = {(0, len(line.text)): f"{text[:found.rest_at]}{words}{text[end:]}"}
    port.tell("parenthesis")
    return True


def behind_references(port):
    """Indents by spaces what stands behind a tab after a line of references that comes to nothing: make takes it, and
    kati would ignore it."""
    found = [one for file in port.ported.values()
             for one in after_references.found_in([line for line in file.lines if not line.is_body])]
    sure = [one for one in found if after_references.is_nothing(one[0].joined)]
    others = [one for one in found if one not in sure]
    told = port.run.values([reference.joined.strip() for reference, _ in others])
    sure += [one for one, value in zip(others, told) if value is not None and not value.strip()]
    for line in (line for _, meant in sure for line in meant):
        indent(port, line)
        port.tell("tab")


def tab_conditionals(port, fault):
    """Indents by spaces the conditionals behind a tab where no rule is open: in a branch that isn't taken make counts
    them, and kati doesn't, so that it takes the wrong end of one. Answers whether there are any."""
    del fault
    meant = [line for line in port.lines() if line.is_tab and line.kind is Kind.CONDITION and line.rule is None]
    for line in meant:
        indent(port, line)
        port.tell("tab")
    return bool(meant)


def indent(port, line):
    """Indents a line by spaces; what the probes know of it moves with it."""
    moved = line.indent_by_spaces()
    probes = port.probes
    spans = [key for key in probes.numbers if key[0] is line and key[1:] != (0, 0)]
    for key, number in [(key, probes.numbers.pop(key)) for key in spans]:
        probes.numbers[line, key[1] + moved, key[2] + moved] = number
    for call in probes.of(line):
        call.chain = [(start + moved, end + moved) for start, end in call.chain]


def block(lines, line):
    """The lines of the conditional that a line begins, its own and those of inner ones; none for another line."""
    if line.block is None or line is not line.block.lines[0]:
        return []
    return [one for one in lines if one.block is line.block
            or one.block is not None and any(block is line.block for block, _ in one.around)]
