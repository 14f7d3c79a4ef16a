"""kati's commands without the shell round them, and the simple commands in a shell's text."""
import functools
import re

AND = " && "
IGNORED = " || :; }"
SPECIAL = re.compile(r"""[();<>|&'"\\]""")
# A part of a text: plain words, a text quoted in one of three ways, or what parts commands; and what parts words.
PART = re.compile(r"""([^();<>|&'"\\]+)|'([^']*)'|"((?:[^"\\]|\\.)*)"|\\(.)|([();<>|&]+)""", re.DOTALL)
BLANKS = re.compile(r"[ \t\r\n]+")
# Which of these is plain, which is quoted by double quotes, and which parts commands.
PLAIN, IN_QUOTES, OPERATOR = 1, 3, 5
# What a backslash quotes within double quotes.
QUOTED_IN_QUOTES = re.compile(r'\\(["\\])')


# What stands before a quote: what double quotes hold isn't it.
BEFORE_QUOTE = re.compile(r"""(?:[^'"\\]|\\.|"(?:\\.|[^"\\])*")*(?=')""")


class Piece:
    """A piece of a recipe: the words before its quotes, which are the shell and its flags, and its text."""

    def __init__(self, shell, text):
        self.shell, self.text = shell, text


def quoted_end(command, at):
    """Where the quoted text ends that begins at `at`: behind its last quote."""
    end = command.index("'", at + 1) + 1
    while command.startswith("\\''", end):
        end = command.index("'", end + 3) + 1
    return end


# A command is asked for its pieces by many.
@functools.lru_cache(1 << 16)
def pieces(command):
    """The pieces that kati joined to a command; None where it has another form."""
    found, at = [], 0
    try:
        while True:
            start = BEFORE_QUOTE.match(command, at).end()
            end = quoted_end(command, start)
            shell = command[at:start]
            is_ignored = shell.startswith("{ ")
            text = command[start + 1:end - 1].replace("'\\''", "'")
            found.append(Piece(shell[2 if is_ignored else 0:].rstrip(), text))
            at = end
            if is_ignored and command.startswith(IGNORED, at):
                at += len(IGNORED)
            if at == len(command):
                return tuple(found)
            if not command.startswith(AND, at):
                return None
            at += len(AND)
    except (ValueError, AttributeError):
        return None


class Operator(str):
    """What parts commands in a shell's text; a word of the same letters is quoted, as the `(` of `find`."""


# A command is asked for these by many, too.
@functools.lru_cache(1 << 16)
def simple_commands(text):
    """The words of each simple command in a shell's text; none where its quotes don't close."""
    if not SPECIAL.search(text):
        # As most are.
        return (tuple(text.split()),) if text.strip() else ()
    found = [[]]
    for word in shell_words(text) or []:
        if isinstance(word, Operator):
            found.append([])
        else:
            found[-1].append(word)
    return tuple(map(tuple, filter(None, found)))


def take_plain(text, word, found):
    """Adds the words of a plain text, of which the first may go on with a word, to those that are found; answers the
    word that is open at its end, None without one."""
    first, *more = BLANKS.split(text)
    if first:
        word = first if word is None else word + first
    if not more:
        return word
    found += more[:-1] if word is None else [word, *more[:-1]]
    return more[-1] or None


def shell_words(text):
    """The words of a shell's text without their quotes, and the operators that part commands, as shlex tells them in
    ten times the time; None where a quote doesn't close."""
    found, word, at = [], None, 0
    for part in PART.finditer(text):
        if part.start() != at:
            return None
        at, kind, text_of_it = part.end(), part.lastindex, part.group(part.lastindex)
        if kind == OPERATOR:
            found += [Operator(text_of_it)] if word is None else [word, Operator(text_of_it)]
            word = None
        elif kind == PLAIN:
            word = take_plain(text_of_it, word, found)
        else:
            quoted = QUOTED_IN_QUOTES.sub(r"\1", text_of_it) if kind == IN_QUOTES else text_of_it
            word = quoted if word is None else word + quoted
    if at != len(text):
        return None
    return found if word is None else [*found, word]
