"""Commands that run make: the words that they are given as make gives them, and the pool that has one at a time.

An inner make runs as many jobs as the outer one has, so two at once would run twice as many."""
import os
import re

from ..make import shell_text

MAKES = ("make", "gmake")
# The word by which kati gets the flags of inner makes.
FLAGS = "KATI_MAKEFLAGS"
POOL, WHOLE_POOL = "kati_inner_makes", "kati_not_parallel"
ASSIGNMENT = re.compile(r"[A-Za-z_]\w*=")
# Words that stand before a command.
BEFORE_COMMAND = {"do", "then", "else", "elif", "if", "while", "until", "!", "{", "exec", "env", "time", "nice",
                  "nohup", "command"}
# What make puts a backslash before, in the words of its flags.
ESCAPED = re.compile(r"[ \t\\]")


def is_make(words):
    """Whether a simple command runs make."""
    name = next((word for word in words if word not in BEFORE_COMMAND and not ASSIGNMENT.match(word)), "")
    return os.path.basename(name) in MAKES


def runs_make(command):
    """Whether a command of kati's runs make, in one of its pieces."""
    pieces = shell_text.pieces(command) or [] if "make" in command else []
    # A backquote begins a command, or ends one.
    return any(is_make(words) for piece in pieces
               for words in shell_text.simple_commands(piece.text.replace("`", ";")))


def processors():
    """How many processors this process may use."""
    return len(os.sched_getaffinity(0)) if hasattr(os, "sched_getaffinity") else os.cpu_count() or 1


def flags(jobs, macros):
    """The flags of an inner make, as make has them in MAKEFLAGS behind a blank: of so many jobs, where None stands for
    as many as there are processors and 0 for any number, and of macros of the command line."""
    count = processors() if jobs is None else jobs
    words = [ESCAPED.sub(r"\\\g<0>", word).replace("$", "$$") for word in macros]
    return " ".join([f"-j{count or ''}", *(["--", *words] if words else [])])


def word(jobs, macros):
    """The same as a word for kati."""
    return f"{FLAGS}={flags(jobs, macros)}".replace("$", "$$")


class Pools:
    """A pool of one command at a time for the commands that run make, or for all where they are `not_parallel`: its
    `lines` by the numbers of those before them, none where there are no such commands."""

    def __init__(self, statements, not_parallel):
        name = WHOLE_POOL if not_parallel else POOL
        found = [one for one in statements if one.command is not None and (not_parallel or runs_make(one.command))]
        self.lines = {one.line: [f" pool = {name}"] for one in found}
        if found:
            # Behind kati's first line.
            self.lines[0] = [f"pool {name}", " depth = 1"]
