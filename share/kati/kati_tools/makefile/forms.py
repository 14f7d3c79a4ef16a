"""The forms in a makefile's words that kati refuses or takes otherwise than make."""
import re

from . import references
from .references import BLANKS

# The functions that kati refuses, and those that it has, by which `call` is refused.
REFUSED = ("shell", "wildcard", "realpath", "abspath", "origin", "flavor", "file", "guile", "let", "intcmp")
FUNCTIONS = ("subst", "patsubst", "strip", "findstring", "filter", "filter-out", "sort", "word", "wordlist", "words",
             "firstword", "lastword", "dir", "notdir", "suffix", "basename", "addsuffix", "addprefix", "join", "if",
             "or", "and", "foreach", "call", "value", "eval", "error", "warning", "info")
# The macros of what is newer, and of an archive's member.
NEWER, MEMBERS_OF = {"?", "?D", "?F"}, {"%", "%D", "%F"}
WILD = re.compile(r"[*?\[]|^~")
MEMBER = re.compile(r"[^\s()$]+\([^()]*\)")
MEMBERS = re.compile(r"[^\s()]+\([^()]*[ ][^()]*\)")
# Functions of which the words of the value are words of the arguments; what isn't a word in them.
MAKES_WORDS = {"addprefix", "addsuffix", "join", "foreach", "if", "or", "and", "sort", "strip", "firstword", "lastword"}
NO_WORD = re.compile(r"[\s,(){}]+")
# The parts of a recipe's text: what is escaped or quoted, a comment of the shell that ends in a continued line, others.
SHELL_PART = re.compile(r"""\\.|'[^']*'|"(?:\\.|[^"\\])*"|(?<![^\s;&|(])#[^\n]*\\\n|.""", re.DOTALL)
SUFFIXES = (".o", ".c", ".cc", ".cpp", ".s", ".S", ".y", ".l", ".h", ".sh", ".a", ".f")


def refused_function(reference):
    """The function that a reference calls, where kati refuses it; None of another reference."""
    return reference.function if reference.function in REFUSED else None


def called_function(reference):
    """The function that a reference calls by `call`, which kati refuses; None of another reference."""
    name = reference.arguments()[0].strip(BLANKS) if reference.function == "call" else None
    return name if name in FUNCTIONS else None


def members_in(names):
    """The words that stand for several members of an archive: those from an opening bracket to the closing one."""
    text = " ".join(map(references.without_references, names))
    return [match.group() for match in MEMBERS.finditer(text)]


def has_wildcard(word):
    """Whether a word holds a wildcard, by itself or as what a function makes words of."""
    if "$" not in word:
        return bool(WILD.search(word))
    outer = references.forest(word)
    inner = [one for reference in outer for one in reference.all()]
    if any(map(refused_function, inner)) or not any(one.function in MAKES_WORDS for one in inner):
        return False
    pieces = pieces_outside_macros(word, outer, 0, len(word))
    return any(WILD.search(part) for piece in pieces for part in NO_WORD.split(piece))


def pieces_outside_macros(text, found, start, end):
    """The pieces of a text between references, and those of the arguments of functions."""
    for one in found:
        yield text[start:one.start]
        if one.function:
            yield from pieces_outside_macros(text, one.inner, *one.inside)
        start = one.end
    yield text[start:end]


def has_continued_comment(text):
    """Whether a line of a recipe's text goes on after a comment of the shell."""
    return any(re.match("#.", part.group()) for part in SHELL_PART.finditer(text))


def is_suffix_rule(name):
    """Whether a target is a suffix, or two, of those that kati begins with."""
    return name in SUFFIXES or any(name.startswith(one) and name[len(one):] in SUFFIXES for one in SUFFIXES)
