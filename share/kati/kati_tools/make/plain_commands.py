"""A simple command of a shell's text: its program and its other words."""
import os
import re

from . import shell_text

KEYWORDS = {"if", "then", "elif", "else", "while", "until", "do", "!", "{", "("}
# A variable that stands before a program.
GIVEN = re.compile(r"[A-Za-z_]\w*=")
# How `test` asks of a file.
ASKS_OF_FILE = re.compile(r"-[bcdefghknprstuwxLOGNS]")


class PlainCommand:
    """A simple command by its words: its program and the others."""

    def __init__(self, words):
        words = words[next((at for at, word in enumerate(words) if word not in KEYWORDS and not GIVEN.match(word)),
                           len(words)):]
        self.program, self.words = os.path.basename(words[0]) if words else "", words[1:]

    def operands(self):
        """The words that aren't options; of `test` those that it asks of as of files."""
        if self.program in ("test", "["):
            return [word for before, word in zip(self.words, self.words[1:]) if ASKS_OF_FILE.fullmatch(before)]
        return [word for word in self.words if not word.startswith("-")]


def of_text(text):
    """The simple commands of a shell's text."""
    return [PlainCommand(words) for words in shell_text.simple_commands(text)]
