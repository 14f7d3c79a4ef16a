"""kati-build --remove: takes away what kati-build has written."""
import os

from ..base import files, one_at_a_time, own_files, words
from ..base.programs import Stop, say
from ..build import compile_commands

TOOL = "kati-build"


class Written:
    """What kati-build has written for one Ninja file of a folder, which has the name `stem` before its ending."""

    def __init__(self, folder, stem):
        self.folder, self.room = folder, os.path.join(folder, stem + own_files.ENDING)
        self.output = os.path.join(folder, f"{stem}.ninja")

    def is_output(self):
        """Whether the Ninja file is one of kati-build's."""
        return os.path.isfile(self.output) and own_files.begins_as_output(self.output)

    def names(self):
        """The names of what is there."""
        # For editors it wrote where it was run, which may be another folder than that of the Ninja file.
        beside = {os.path.abspath(name): name
                  for name in (compile_commands.NAME, os.path.join(self.folder, compile_commands.NAME))}
        commands = [name for name in beside.values() if compile_commands.is_own(name, self.room)]
        return [*commands, *([self.output] if self.is_output() else []), self.room]

    def remove(self, say_waiting):
        """Takes it away, alone in the folder; answers the names. The Ninja file goes first: nothing leads then to what
        isn't there any more."""
        with one_at_a_time.held(self.room, say_waiting):
            found = self.names()
            for name in found[:-1]:
                files.remove(name)
            one_at_a_time.remove(self.room)
        return found


def run(asked):
    """Takes away all that kati-build has written in the folder of the Ninja file; answers the exit status."""
    if asked.words:
        raise Stop("--remove takes all away, and no goals or macros", words.WRONG_USAGE)
    folder, removed = os.path.dirname(asked.output), []
    for stem in sorted(own_files.rooms_in(os.path.abspath(folder))):
        one = Written(folder, stem)
        if not os.path.islink(one.room):
            removed += one.remove(lambda room=one.room: say(TOOL, f"waits for another run that has {room}/lock"))
    say(TOOL, f"removed: {' '.join(removed)}" if removed else "nothing is here that kati-build wrote")
    return 0
