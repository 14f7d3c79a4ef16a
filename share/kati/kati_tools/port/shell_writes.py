"""What calls of `$(shell ..)` write into this folder while make is asked: kati's commands may need it, and none of them
makes it.

What calls in recipes write, as `$(shell mkdir -p $(@D))`, is taken away before make is asked again: it is to find the
folder each time as it was the first time, or it would tell other commands."""
import os
import re
import shutil

from ..build import calls_of_recipes, comparing
from ..make import shell_calls
from . import command_reads, watched
from .mender import Mender

# What parts the words of a shell's command that may name files.
BETWEEN_WORDS = re.compile(r"[\s;|&()<>`'\"=$,]+")


def named_by(command):
    """The names that the words of a shell's command may stand for."""
    return {os.path.normpath(word) for word in BETWEEN_WORDS.split(command) if word}


def is_named(path, names):
    """Whether one of these names is that of a path, or of what is below it."""
    found = map(os.path.abspath, names)
    return any(one == path or one.startswith(path + os.sep) for one in found)


def folders_of(paths):
    """The names of those of these paths that are folders."""
    return sorted(os.path.relpath(one) for one in paths if os.path.isdir(one) and not os.path.islink(one))


def note_recipes(port, before):
    """Notes what calls in recipes have written since these paths were all that there was, and has it taken away each
    time that make is asked, and these calls run again. Where it isn't seen which calls these are, all are."""
    paths = port.copy.present() - before
    tops = sorted(one for one in paths if os.path.dirname(one) not in paths)
    if not tops:
        return
    calls = shell_calls.of_room(port.room)
    texts = calls.texts()
    names = {text: named_by(text) for text in texts}
    meant = {text for text in texts if any(is_named(one, names[text]) for one in tops)}
    is_seen = all(any(is_named(one, names[text]) for text in meant) for one in tops)
    calls.run_each_time(meant if is_seen else texts)
    port.run.undone = tops
    keep(port, sorted(paths))


def keep(port, paths):
    """Keeps what stands at these paths now."""
    room = os.path.join(port.room, "by-recipes")
    os.makedirs(room)
    for number, path in enumerate(paths):
        is_file = os.path.isfile(path)
        place = os.path.join(room, str(number)) if is_file else None
        if is_file:
            shutil.copy2(path, place)
        if is_file or os.path.isdir(path):
            port.first.by_recipes[os.path.relpath(path)] = place


def standing(texts):
    """The folders here that calls with these texts make by `mkdir` where they aren't there."""
    commands = [text.partition(" ")[2] for text in texts if "mkdir" in text]
    names = {one for text in commands for one in command_reads.made_by(command_reads.simple_commands(text))}
    found = {os.path.relpath(one) for one in names if one and os.path.isdir(one)}
    return {one for one in found if one.split(os.sep)[0] not in (os.curdir, os.pardir)}


class ShellWrites(Mender):
    """What of that nothing makes that Ninja runs: `folders` while make read the makefile, and `by_recipes`; and the
    folders `standing` that such calls would make again. Ninja makes the folders of what it makes."""

    def __init__(self, port):
        super().__init__(port)
        self.folders, self.by_recipes, self.standing = [], {}, set()

    def settle(self, translation):
        """Notes it, by kati's statements; the makefile stays."""
        # Of what has no command Ninja doesn't make the folder.
        made = {os.path.normpath(name) for one in translation.statements if one.command is not None
                for name in one.outputs}
        for name in list(made):
            while os.path.dirname(name) and os.path.dirname(name) not in made:
                name = os.path.dirname(name)
                made.add(name)
        first = self.port.first
        self.folders = [name for name in first.folders if name not in made]
        # So does what `$(file >..)` writes for kati.
        made.update(os.path.normpath(name) for one in translation.statements if "> '" in (one.command or "")
                    for text in comparing.unwrapped(one.command) for name in calls_of_recipes.WRITTEN.findall(text))
        self.by_recipes = {name: place for name, place in first.by_recipes.items() if name not in made}
        self.standing = standing(shell_calls.of_room(self.port.room).texts()) - made
        return False

    def kept(self):
        """What is to stand in this folder before the build, each file with one that holds it, None for a folder."""
        return {**dict.fromkeys([*self.folders, *sorted(self.standing)]), **self.by_recipes}

    def watched(self):
        """The words to watch for it: where it is gone, it comes again by make."""
        return [watched.THERE + name for name in self.kept()]

    def told(self, writes, reads, more):
        """The lines that name it, with these words for what make did and does, and with what is said behind them."""
        first = [*self.port.first.by_shell, *(f"{name}/" for name in self.folders)]
        in_recipes = [name if place else f"{name}/" for name, place in self.by_recipes.items()]
        if first:
            yield f"$(shell ..) {writes} {' '.join(first)} while make {reads} the makefile{more}"
        if in_recipes:
            yield f"$(shell ..) of recipes {writes} {' '.join(in_recipes)}{more}"
