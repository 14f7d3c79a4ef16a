"""A recipe's text as the shell reads it: without what it drops, so that two texts that mean the same are the same.

make hands a backslash and its newline to the shell, which drops them but for two places: within single quotes both are
text, and in a comment the newline ends the comment, whatever stands before it. kati drops them everywhere. Where that
counts, kati gets another command (port/mending_shell.py): what was quoted is printed by the shell."""
import functools
import re

# What kati gets for a quoted text of several lines.
PRINTED = re.compile(r""""\$\(printf %b '([^']*)'\)\"""")
PRINTED_PART = re.compile(r"\\(?:0([0-7]{3})|(.))", re.DOTALL)
CONTINUATION = "\\\n"
SPECIAL = re.compile(r"[\\'\"#`\n]")
PLAIN = re.compile(r"""[^\\'"#\s()$`;&|<>]+(?: [^\\'"#\s()$`;&|<>]+)*""")
PLAIN_IN_QUOTES = re.compile(r"""[^"\\$]+""")
BLANKS = re.compile(r"[ \t]+")
# What is kept as it is: a text within quotes, and what a backslash quotes; a text of which that is all that is special;
# and what is kept of such a text, of which a run of blanks is one, and none before a semicolon.
QUOTED = r"""'[^'\n]*'|"(?:[^"\\`$\n]|\\[^\n])*"|\\[^ \t\n]"""
QUOTED_ALONE = re.compile(rf"""(?:[^\\'"#`\n$]|{QUOTED})*""")
QUOTED_OR_BLANKS = re.compile(rf"({QUOTED})|[ \t]+(;?)")
# What begins a word, so that a `#` behind it begins a comment.
BEFORE_WORD = frozenset(" \t\n;&|()<>")
# Words of the shell behind which a command begins, where they stand where one may.
BEFORE_COMMAND = re.compile(r"(?:^|[;&|(\n{])\s*(?:(?:do|then|else|elif|if|while|until|!|\{)\s+)*"
                            r"(?:do|then|else|elif|if|while|until|!|\{)$")
OPERATORS = (";", "&", "|", "(", "&&", "||", ";;")
# Behind these a newline may end a command or not.
DOUBTFUL = re.compile(r"(?:\)|(?:^|\s)in)$")


def separator(before):
    """What means the same as a newline of the shell behind this text: nothing, a semicolon, or None where that isn't
    known."""
    text = before.rstrip(" \t\n")
    if not text or text.endswith(OPERATORS) or BEFORE_COMMAND.search(text):
        return ""
    return None if DOUBTFUL.search(text) else ";"


def printed(text):
    """What the shell prints for a text by `printf %b`."""
    return PRINTED_PART.sub(lambda found: chr(int(found.group(1), 8)) if found.group(1)
                            else {"n": "\n"}.get(found.group(2), found.group(2)), text)


def as_printed(text):
    """The text by which `printf %b` prints another."""
    return text.replace("\\", "\\\\").replace("'", "\\0047").replace("\n", "\\n")


def unprinted(text):
    """A command of kati's with what it has the shell print within single quotes, as make's has it."""
    return PRINTED.sub(lambda found: f"'{printed(found.group(1))}'", text) if "$(printf %b" in text else text


class Reading:
    """A reading of a shell's text, which keeps what it reads, piece by piece.

    `has_single_blanks` has each run of blanks that isn't quoted be one, and `has_quoted_blanks` says whether blanks
    within quotes are kept."""

    def __init__(self, text, has_single_blanks, has_quoted_blanks):
        self.text, self.at, self.parts = text, 0, []
        self.has_single_blanks, self.has_quoted_blanks = has_single_blanks, has_quoted_blanks

    def keep(self, part):
        """Keeps a piece."""
        self.parts.append(part)

    def keep_quoted(self, part):
        """Keeps a piece within quotes."""
        self.keep(part if self.has_quoted_blanks else BLANKS.sub("", part))

    def starts_word(self):
        """Whether a word begins here."""
        before = next((part for part in reversed(self.parts) if part), " ")
        return before[-1] in BEFORE_WORD and not (before.startswith("\\") and len(before) == 2)

    def take(self, length):
        """The next characters, which are read by that."""
        found = self.text[self.at:self.at + length]
        self.at += len(found)
        return found

    def code(self, closing=None):
        """Reads commands, up to behind the mark that closes them."""
        depth = 0
        while self.at < len(self.text):
            mark = self.text[self.at]
            if mark == closing and not depth:
                self.keep(self.take(1))
                return
            depth += (mark == "(") - (mark == ")") if closing == ")" else 0
            self.piece(mark)

    def piece(self, mark):
        """Reads a piece that begins with this mark."""
        plain = PLAIN.match(self.text, self.at)
        if plain:
            self.keep(self.take(len(plain.group())))
        elif self.text.startswith(CONTINUATION, self.at):
            self.take(2)
        elif mark == "\\":
            self.keep(self.take(2))
        elif mark in READS:
            READS[mark](self)
        elif mark == "#" and self.starts_word():
            self.comment()
        elif mark == "$" and self.text.startswith("$(", self.at):
            self.keep(self.take(2))
            self.code(")")
        else:
            self.keep(self.take(1))

    def blanks(self):
        """Reads blanks."""
        found = self.take(len(BLANKS.match(self.text, self.at).group()))
        if not self.has_single_blanks:
            self.keep(found)
        elif self.parts and self.parts[-1] != " " and self.text[self.at:self.at + 1] not in (";", ""):
            self.keep(" ")

    def newline(self):
        """Reads a newline, which is kept as what means the same."""
        self.take(1)
        found = separator("".join(self.parts))
        if self.has_single_blanks and self.parts[-1:] == [" "]:
            self.parts.pop()
        self.parts += ["\n"] if found is None else [found, " "] if found else [" "] * bool(self.parts)

    def comment(self):
        """Reads a comment, which isn't kept where the text goes on behind it."""
        end = self.text.find("\n", self.at)
        if end < 0:
            self.keep(self.take(len(self.text)))
        else:
            self.at = end

    def single(self):
        """Reads a text within single quotes."""
        end = self.text.find("'", self.at + 1)
        self.keep_quoted(self.take((len(self.text) if end < 0 else end + 1) - self.at))

    def double(self):
        """Reads a text within double quotes."""
        self.keep(self.take(1))
        while self.at < len(self.text):
            mark = self.text[self.at]
            if mark == '"':
                self.keep(self.take(1))
                return
            if self.text.startswith(CONTINUATION, self.at):
                self.take(2)
            elif mark == "\\":
                self.keep(self.take(2))
            elif self.text.startswith("$(", self.at):
                self.keep(self.take(2))
                self.code(")")
            else:
                plain = PLAIN_IN_QUOTES.match(self.text, self.at)
                self.keep_quoted(self.take(len(plain.group()) if plain else 1))

    def backquoted(self):
        """Reads commands within backquotes, which are kept as they are."""
        found = re.compile(r"`(?:\\.|[^`\\])*`?", re.DOTALL).match(self.text, self.at)
        self.keep_quoted(self.take(len(found.group())).replace(CONTINUATION, ""))


READS = {" ": Reading.blanks, "\t": Reading.blanks, "\n": Reading.newline, "'": Reading.single, '"': Reading.double,
         "`": Reading.backquoted}


def read(text, has_single_blanks=False, has_quoted_blanks=True):
    """A shell's text as it is read. A text with a document in it stays as it is."""
    if "<<" in text and "\n" in text:
        return text
    reading = Reading(text, has_single_blanks, has_quoted_blanks)
    reading.code()
    return "".join(reading.parts)


def joined(text):
    """make's command in one line, as far as that means the same: as the shell reads it, with its blanks."""
    return read(text) if CONTINUATION in text else text


# Commands are compared several times.
@functools.lru_cache(1 << 16)
def with_single_blanks(text):
    """A command in which each run of blanks that isn't quoted is one blank, and none before a semicolon: the shell
    reads the same words."""
    if not SPECIAL.search(text):
        # As most are, which is told apart in a hundredth of the time.
        return BLANKS.sub(" ", text).replace(" ;", ";").strip(" ")
    if QUOTED_ALONE.fullmatch(text):
        # As most others are.
        return QUOTED_OR_BLANKS.sub(lambda found: found.group(1) or found.group(2) or " ", text).strip(" ")
    return read(text, has_single_blanks=True)


def without_quoted_blanks(text):
    """The same without the blanks within quotes, which a command is given."""
    return read(text, has_single_blanks=True, has_quoted_blanks=False)
