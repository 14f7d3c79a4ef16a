"""A folder that a rule makes by `mkdir`, as `obj: ; mkdir obj` of `prog: obj obj/a.o`, in which another target lies
that doesn't name it: make comes by the folder first. Ninja makes the folder of each output by itself before a command
runs, so that `mkdir` fails; for kati the folder stands before what lies in it."""
import os
import re

from ..build import comparing
from ..makefile.syntax import Kind
from . import command_reads, taken_away
from .mender import Mender

# What has `mkdir` take a folder that is there.
TAKES = re.compile(r"-\w*p\w*|--parents")


def is_made_once(statement):
    """Whether a command of a statement makes a folder of its name by `mkdir`, which fails where that is there."""
    for text in comparing.unwrapped(statement.command) if "mkdir" in (statement.command or "") else ():
        for one in command_reads.simple_commands(text):
            made = {os.path.normpath(os.path.join(one.folder, name)) for name in one.operands()}
            if one.program == "mkdir" and not any(map(TAKES.fullmatch, one.words)) \
                    and made.intersection(statement.outputs):
                return True
    return False


def parents(names):
    """The folders in which names lie, as far as they name them."""
    found = set()
    for name in names:
        while name := name.rpartition("/")[0]:
            found.add(name)
    return found


class MadeFolders(Mender):
    """Those of a makefile, with the names that lie in each."""

    def __init__(self, port):
        super().__init__(port)
        self.within = None

    def settle(self, translation):
        """Finds them; answers whether that changes the makefile."""
        if self.within is not None:
            return False
        self.within = {}
        folders = {name for one in translation.statements if is_made_once(one) for name in one.outputs}
        if not folders or any(line.kind is Kind.RULE and line.says.is_double for line in self.port.lines()):
            return False
        by_output = {os.path.normpath(name): one for one in translation.statements for name in one.outputs}
        behind = {folder: taken_away.needed_by(by_output[folder], by_output) for folder in folders}
        for one in translation.statements:
            for folder in sorted(folders & parents(one.outputs if one.command is not None else ())):
                if folder not in taken_away.needed_by(one, by_output) and not behind[folder].intersection(one.outputs) \
                        and all(map(taken_away.PLAIN.fullmatch, [folder, *one.outputs])):
                    self.within.setdefault(folder, []).extend(one.outputs)
        return bool(self.within)

    def tail(self):
        """The rules by which the folder comes first."""
        return [f"{' '.join(names)}: | {folder}" for folder, names in (self.within or {}).items()]

    def end(self):
        """Counts the folders."""
        for _ in self.within or ():
            self.port.tell("made folder")
