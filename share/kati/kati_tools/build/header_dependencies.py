"""Header dependencies: which file a compiler writes them to, and the lines that tell Ninja."""
import os
import re

from ..make import shell_text
from ..makefile import includes
from . import ninja_text

FLAGS = ("-MD", "-MMD")
UNKNOWN = set("$`*?[")
# The preprocessor's words, of which others may stand before the one that names the file.
WRITES_BY_PREPROCESSOR = re.compile(r"-Wp,(?:[^,]*,)*?-MM?D,([^,]+)")


def after(words, flag):
    """The word that a flag has, apart or joined to it; the last one counts."""
    found = None
    for at, word in enumerate(words):
        if word == flag and at + 1 < len(words):
            found = words[at + 1]
        elif word.startswith(flag) and len(word) > len(flag):
            found = word[len(flag):]
    return found


SOURCES = (".c", ".cc", ".cpp", ".cxx", ".c++", ".cp", ".m", ".mm", ".s", ".sx", ".i", ".ii")


def sources_of(words):
    """The sources among a compiler's words."""
    return [word for word in words[1:] if os.path.splitext(word)[1].lower() in SOURCES and not word.startswith("-")]


def written_by(words):
    """The file to which a compiler's command writes dependencies: None if it writes none, and "" if that can't be
    told."""
    for word in words:
        named = WRITES_BY_PREPROCESSOR.match(word)
        if named:
            return named.group(1)
    if not any(flag in words for flag in FLAGS):
        return None
    named = after(words, "-MF")
    if named:
        return named
    output, sources = after(words, "-o"), sources_of(words)
    if len(sources) != 1:
        # Objects that are bound have none.
        return "" if sources else None
    # A program that is compiled and linked at once has its dependencies beside it too; without a name that is `a`.
    named = output or (os.path.basename(sources[0]) if "-c" in words else "a")
    return os.path.splitext(named)[0] + ".d"


def moved(name, words):
    """The name of a file after a command that may move it."""
    if words[0] != "mv":
        return name
    names = [word for word in words[1:] if not word.startswith("-")]
    return names[1] if len(names) == 2 and names[0] == name else name


def written_in(text):
    """The same for a shell's text: the file at its end, where it may be moved."""
    found, is_elsewhere = None, False
    for words in shell_text.simple_commands(text):
        is_elsewhere = is_elsewhere or words[0] == "cd"
        written = written_by(words)
        if found is None and written is not None:
            found = "" if is_elsewhere or set(written) & UNKNOWN else written
        elif found:
            found = moved(found, words)
    return found


def depfile_of(command):
    """The file of dependencies of a statement's command: None if it has none, and "" if that can't be told."""
    found = None
    for piece in shell_text.pieces(command) or []:
        written = written_in(piece.text)
        if found is None:
            found = written
        elif found:
            for words in shell_text.simple_commands(piece.text):
                found = moved(found, words)
    return found


def targets_of(command):
    """The targets that the file of dependencies of a statement's command names: those of -MT or -MQ, or the object."""
    compilations = [words for piece in shell_text.pieces(command) or []
                    for words in shell_text.simple_commands(piece.text) if written_by(words) is not None]
    if not compilations:
        return []
    words = compilations[0]
    named = after(words, "-MT") or after(words, "-MQ") or after(words, "-o")
    return named.split() if named else [os.path.splitext(os.path.basename(one))[0] + ".o" for one in sources_of(words)]


class Dependencies:
    """Where statements write their header dependencies: `files` has the file of each statement's first output, `kept`
    those of these outputs whose file has to stay: one that a rule names, or that fits the patterns of what make
    includes, which are `included`. One among the names that kati `read` is an include as any other: what it says is in
    the statements, and Ninja, which would take it away, isn't told of it.

    `doubts` tells of those for which that is no help. Of two statements that write one file, which both may run at
    a time, one would lose what the other has read and removed; so none of them gets it."""

    def __init__(self, found, included=(), read=()):
        self.statements, named, unknown, read = found, {}, [], set(map(os.path.normpath, read))
        for statement in found:
            name = None if statement.command is None else depfile_of(statement.command)
            if name and os.path.normpath(name) in read:
                continue
            if name:
                named.setdefault(name, []).append(statement.outputs[0])
            elif name is not None:
                unknown.append(statement.outputs[0])
        self.files = {outputs[0]: name for name, outputs in named.items() if len(outputs) == 1}
        self.doubts = [f"{output}: it can't be told where its header dependencies are written; -MF FILE says it"
                       for output in unknown]
        self.doubts += [f"{', '.join(outputs)}: header dependencies are written to one file, {name}, and so aren't "
                        "used; -MF '$@.d' gives each its own" for name, outputs in named.items() if len(outputs) > 1]
        self.kept = set()
        self.find_kept(self.fitting(included))

    def fitting(self, patterns):
        """The files that fit these patterns."""
        names = [os.path.normpath(name) for name in self.files.values()]
        return {name for one in dict.fromkeys(patterns) for name in includes.fitting(os.path.normpath(one), names)}

    def find_kept(self, included):
        """Finds the files that have to stay. Ninja reads such a file each time, and wants it to name the first output
        and nothing else; where it doesn't, the file can't be used, and one that is only included goes."""
        named = {os.path.normpath(name) for one in self.statements for name in (*one.inputs, *one.outputs)}
        for statement in self.statements:
            output = statement.outputs[0]
            file = output in self.files and os.path.normpath(self.files[output])
            if not file or file not in named and file not in included:
                continue
            if [os.path.normpath(one) for one in targets_of(statement.command)] == [os.path.normpath(output)]:
                self.kept.add(output)
            elif file not in named:
                self.doubts.append(f"{output}: ninja takes {file} away once it has read it, since it isn't of this "
                                   "name alone; make, which includes it, sees no header of it until it makes it again")
            else:
                file = self.files.pop(output)
                self.doubts.append(f"{output}: header dependencies aren't used, since the makefile names {file}, which "
                                   "isn't of this name alone; -MF gives them another file")

    def lines(self):
        """`depfile` and `deps` for the block of each statement that has dependencies, by the number of its line.

        Ninja takes these keys from a block too. There kati reads them as variables, so that kati --check still
        says the same build. With `deps` Ninja keeps what it read in its log and takes the file away."""
        found = {}
        for statement in self.statements:
            output = statement.outputs[0]
            if output in self.files:
                log = [] if output in self.kept else [" deps = gcc"]
                found[statement.line] = [f" depfile = {ninja_text.escaped_value(self.files[output])}", *log]
        return found
