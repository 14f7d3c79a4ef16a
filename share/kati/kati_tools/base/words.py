"""The words of the command line that the tools share, in argparse's terms."""
import argparse
import os
import sys

from .programs import Stop, write_text

WRONG_USAGE = 64


def columns():
    """How wide help may be, as the parser itself finds it by a module that takes time to load."""
    try:
        return int(os.environ["COLUMNS"])
    except (KeyError, ValueError):
        pass
    try:
        return os.get_terminal_size(sys.__stdout__.fileno()).columns
    except (OSError, ValueError, AttributeError):
        return 80


class Formatter(argparse.RawDescriptionHelpFormatter):
    """Help as wide as the terminal."""

    def __init__(self, prog):
        super().__init__(prog, width=(columns() or 80) - 2)


class Parser(argparse.ArgumentParser):
    """A parser that ends with kati's status for a wrong command line; of unknown words it also tells `hint`."""

    def __init__(self, hint="", **rest):
        super().__init__(formatter_class=Formatter, allow_abbrev=False, **rest)
        self.hint = hint

    def print_help(self, file=None):
        """Prints help."""
        write_text(self.format_help())

    def error(self, message):
        """Ends with a line after the usage."""
        hint = self.hint if message.startswith("unrecognized") else ""
        sys.stderr.write(self.format_usage())
        raise Stop(f"{message}{hint}", WRONG_USAGE)


def add_kati(parser):
    """The option that names the program kati."""
    parser.add_argument("--kati", metavar="PROGRAM",
                        help="the program kati; without it the environment variable KATI, then kati beside this tool, "
                             "then on PATH")


def add_files_from(parser):
    """The options that say which files exist."""
    parser.add_argument("--files-from", "--files", dest="files_from", metavar="git|find|FILE", default="find",
                        help="where the list of the files that exist comes from: `git` asks git for tracked files and "
                             "others that it doesn't ignore; `find` takes each file below this folder, but in folders "
                             "named .git, .hg or .svn; FILE has one name a line. find without it")


def from_here(name):
    """The name of a file as this folder has it, where it is a whole path."""
    return os.path.relpath(name) if os.path.isabs(name) else name


def add_builtin(parser):
    """The option that adds make's usual macros and rules."""
    parser.add_argument("--builtin", action="store_true",
                        help="puts make's usual macros before the makefile and its usual rules after it")


def add_kati_words(parser):
    """The words that go to kati as they are."""
    group = parser.add_argument_group("words for kati")
    group.add_argument("-f", dest="makefile", metavar="FILE",
                       help="the makefile; without it `makefile`, then `Makefile`")
    group.add_argument("--depth", type=int, metavar="N", help="how many levels macros and includes may nest, 1 to 400")
    group.add_argument("--ninja", action="store_true", help="accepted; a Ninja file is always written")
    group.add_argument("words", nargs="*", metavar="GOAL|NAME=VALUE",
                       help="what to make; a macro that overrides the makefile's assignments")


def count(word):
    """The number that a word is, in digits alone; for argparse."""
    if not (word.isascii() and word.isdigit()):
        raise argparse.ArgumentTypeError(f"not a number: {word}")
    return int(word)


def macros_of(words):
    """The words that are macros."""
    return [word for word in words if "=" in word]


def name_of(word):
    """The name of the macro that a word gives a value."""
    return word.split("=", 1)[0].rstrip(":+?")


def goals_of(words):
    """The words that are goals."""
    return [word for word in words if "=" not in word]
