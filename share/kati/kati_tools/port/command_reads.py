"""What a command of `$(shell ..)` reads, as far as its text tells it: files, folders and patterns that it names.

Rather too much is taken than too little: make is only asked once more where a name that means nothing changes. What
hangs on the machine, as `uname`, has no such words."""
import bisect
import fnmatch
import os
import re
import sys

from ..base.programs import run, which
from ..make import shell_text
from ..make.exported_names import of_the_shell
from ..make.plain_commands import PlainCommand
from . import watched

# A word of a command that names a file, though none is there.
ABSENT = re.compile(r"(?:[\w+@.-]+/)*(?:[\w+@][\w+@.-]*|)\.[A-Za-z][\w-]*")
PLAIN_NAME = re.compile(r"(?!-)(?:[\w+@.-]+/)*[\w+@.-]*[A-Za-z_][\w+@.-]*/?")
# A file that a command names by its whole path counts up to so many bytes.
MOST = 2**20
BREAKS = re.compile(r"[\s;|&()<>`'\"=$,{}]+")
# Commands that name files and read none; that list folders; and that read what they name, though it be absent.
NAMING = {"ls", "dir", "echo", "printf", "find", "basename", "dirname", "test", "[", "realpath", "readlink", "cd"}
LISTING = {"ls", "dir", "find", "tree", "du"}
READING = {"cat", "ls", "head", "tail", "find", "sed", "awk", "grep", "sort", "wc", "cut", ".", "source", "readlink",
           "realpath", "sh", "bash", "test", "["}
# The words of `find` behind which stands what it compares.
COMPARING = {"-name", "-iname", "-path", "-ipath", "-wholename", "-type", "-maxdepth", "-mindepth", "-regex"}
# What git's commands hang on beside the commit: each file's changes, or the list of files.
OF_CHANGES = re.compile(r"--dirty|\b(?:diff|status|diff-index|diff-files|update-index)\b")
OF_FILES = re.compile(r"\bls-files\b")
# The words behind `git ls-files` by which it tells nothing but names of its list; by which it tells of changes, and of
# files that it hasn't.
NAMES_ALONE = {"-z", "-c", "--cached", "--deduplicate", "--full-name", "--recurse-submodules", "--error-unmatch", "--"}
CHANGED, OTHERS = re.compile(r"-\w*[md]\w*|--modified|--deleted"), re.compile(r"-\w*o\w*|--others")


class Simple(PlainCommand):
    """A simple command, and the folder that it runs in."""

    def __init__(self, words, folder):
        super().__init__(words)
        self.folder = folder

    def named(self):
        """The words that may name files; of `find` those before what it compares."""
        if self.program != "find":
            return self.operands()
        return self.words[:next((at for at, one in enumerate(self.words) if one[:1] in ("-", "!", "(")), None)]

    def places(self):
        """What it names of a folder that it may list, this one too."""
        names = [word for word in self.named() if not word.startswith("-")]
        return [os.path.normpath(os.path.join(self.folder, name)) for name in names or ["."]]

    def is_deep(self):
        """Whether it lists what is below folders, too."""
        return self.program not in ("ls", "dir") or any(re.fullmatch(r"-\w*R\w*", one) for one in self.words)

    def listed(self):
        """The folders that it lists, as words to watch."""
        patterns = self.found_names() if self.program == "find" else []
        for place in self.places():
            if os.path.isdir(place) and self.is_deep():
                yield from (f"{place}{watched.BELOW}/{one}" for one in patterns) if patterns else [
                    place + watched.BELOW]
            elif os.path.isdir(place) and "-d" not in self.words:
                yield place

    def patterns(self):
        """The patterns for which the shell has names, as seen from here."""
        words = [] if self.program == "find" else filter(watched.is_pattern, self.operands())
        return [os.path.normpath(os.path.join(self.folder, word)) for word in words]

    def finds(self, name):
        """Whether it finds what has this name, by a pattern or by the folders that it lists."""
        folder, last = os.path.split(name)
        if any(one.count("/") == name.count("/") and fnmatch.fnmatchcase(name, one) for one in self.patterns()):
            return True
        named = self.found_names() if self.program == "find" else []
        is_named = not named or any(fnmatch.fnmatchcase(last, one) for one in named)
        return self.program in LISTING and "-d" not in self.words and is_named and self.lists(folder and f"{folder}/")

    def tops(self):
        """The names of the folders that it may list, with a slash at their ends; that of this one is empty."""
        return ["" if place == "." else f"{place}/" for place in self.places()]

    def lists(self, folder):
        """Whether it lists what is in a folder, of which the name is one of these."""
        tops = self.tops()
        return folder in tops or self.is_deep() and any(map(folder.startswith, tops))

    def beginnings(self):
        """Texts of which one begins each name that it finds."""
        return [*map(before_wild, self.patterns()), *(self.tops() if self.program in LISTING else [])]

    def lists_of_git(self):
        """Whether it tells nothing but names of git's list."""
        is_list = self.program == "git" and "ls-files" in self.words[:1]
        return is_list and all(word in NAMES_ALONE for word in self.words if word.startswith("-"))

    def of_work_tree(self):
        """The words to watch for what `git ls-files` tells beside git's list."""
        options = [word for word in self.words if word.startswith("-")] if "ls-files" in self.words else []
        if any(map(CHANGED.fullmatch, options)):
            yield watched.GIT
        if any(map(OTHERS.fullmatch, options)):
            yield f".{watched.BELOW}"

    def is_recursive_grep(self):
        """Whether it reads all files of the folders that it names."""
        return self.program == "grep" and any(re.fullmatch(r"-\w*[rR]\w*|--recursive", one) for one in self.words)

    def found_names(self):
        """The patterns of the names that `find` finds; none where it finds others, too."""
        if any(word in ("!", "-not", "-prune") for word in self.words):
            return []
        found = [word for before, word in zip(self.words, self.words[1:]) if before == "-name"]
        return found if all(re.fullmatch(r"[^/\s]+", one) for one in found) else []

    def reads(self):
        """The words to watch by what this command is."""
        if self.program in LISTING:
            yield from self.listed()
        if self.program == "git":
            yield from self.of_work_tree()
        for word in self.named():
            place = os.path.normpath(os.path.join(self.folder, word)) if word else ""
            is_read = not (self.program in NAMING or self.lists_of_git())
            if watched.is_pattern(word) and is_read and not re.search(r"\s", word):
                yield watched.CONTENT + place
            elif self.is_recursive_grep() and os.path.isdir(place):
                yield watched.CONTENT + place + watched.BELOW
            elif self.program in READING and not os.path.exists(place) and PLAIN_NAME.fullmatch(word):
                yield place


def simple_commands(command):
    """The simple commands in a command, each with the folder in which it runs as far as `cd` tells it."""
    folder, found = "", []
    for words in shell_text.simple_commands(command):
        one = Simple(words, folder)
        found.append(one)
        if one.program == "cd" and one.operands():
            folder = os.path.join(folder, one.operands()[0])
    return found


def before_wild(pattern):
    """What stands in a pattern before its first sign that stands for others."""
    return re.split(r"[*?\[]", pattern, maxsplit=1)[0]


def beginning_with(names, text):
    """Those of sorted names that begin with a text: of many they are found without a look at each."""
    return names[bisect.bisect_left(names, text):bisect.bisect_left(names, text + chr(sys.maxunicode))]


def found_of(names, command):
    """Those of these sorted names that a command finds by the folders that it lists, or by patterns."""
    return {name for one in simple_commands(command) for text in one.beginnings()
            for name in beginning_with(names, text) if one.finds(name)}


def counts(name, is_lone):
    """Whether a name may be that of a file or a folder that a value hangs on: not this folder itself, which is watched
    where it is listed, nor by a whole path what is large or no plain file, as programs and devices. One that is absent
    now counts where it has the form of a file's name; `is_lone` says that it is looked for in this folder."""
    if os.path.isabs(name) and not name.startswith(os.getcwd() + os.sep):
        return os.path.isfile(name) and os.path.getsize(name) <= MOST
    if not os.path.lexists(name):
        return is_lone and ABSENT.fullmatch(name) is not None
    return os.path.relpath(name).strip("./") != ""


def word_of(name):
    """The word to watch for a name that a command has."""
    return name.rstrip("/") + watched.BELOW if os.path.isdir(name) else name


def made_by(simple):
    """The names of the folders that commands make by `mkdir`, as `test -d obj || mkdir obj`: what they say is the same
    whether these are there or not, unless another command has the names."""
    makes = [one for one in simple if one.program == "mkdir"]
    others = {word.rstrip("/") for one in simple if one.program not in ("mkdir", "test", "[") for word in one.words}
    return {word.rstrip("/") for one in makes for word in one.operands()} - others


def subcommand_of_git(words):
    """What git is to do, of the words behind its name; None where they don't say it."""
    left = iter(words)
    for word in left:
        if word in ("-C", "-c"):
            next(left, None)
        elif not word.startswith("-"):
            return word
    return None


def words_of(command, simple):
    """The words of a command that may be names: all but programs without a folder, what git is to do, as `log`, and
    what `find` compares with the names that it finds."""
    words = BREAKS.split(command)
    # What has no other words may be the file that `<` reads.
    others = [one.program for one in simple if one.words and which(one.program)]
    others += [subcommand_of_git(one.words) for one in simple if one.program == "git"]
    others += [word for one in simple if one.program == "find"
               for before, word in zip(one.words, one.words[1:]) if before in COMPARING]
    for word in others:
        if word in words:
            words.remove(word)
    return [word for word in words if word]


def reads_of(command):
    """The words to watch for a command, each once."""
    simple, found = simple_commands(command), {}
    words = words_of(command, simple)
    made, simple = made_by(simple), [one for one in simple if one.program != "mkdir"]
    simple = [one for one in simple if not made.intersection(word.rstrip("/") for word in one.operands())]
    folders = dict.fromkeys(["", *(one.folder for one in simple)])
    is_listed_only = bool(simple) and all(one.program in ("ls", "dir", "cd") for one in simple)
    for folder in folders:
        for word in (word for word in words if word.rstrip("/") not in made):
            name = os.path.join(folder, word)
            if watched.is_pattern(word):
                found[name] = True
            elif counts(name, not folder) and not (is_listed_only and os.path.isdir(name)):
                found[word_of(name)] = True
    for one in simple:
        found.update(dict.fromkeys(one.reads()))
    found.update(dict.fromkeys(f"{watched.ENVIRONMENT}{name}" for name in of_the_shell(command)
                               if name in os.environ and name != "PWD"))
    if "git" in BREAKS.split(command):
        is_list = BREAKS.split(command).count("git") == sum(one.lists_of_git() for one in simple)
        found.update(dict.fromkeys(of_git(command, is_list)))
    return [word for word in found if not re.search(r"[\s,]", word)]


def of_git(command, is_list):
    """The words to watch for a command of git: what is checked out, its branch, the tags; the list of files, and which
    have changes, where it asks for that; or that list alone."""
    program = which("git")
    words = ["rev-parse", "--git-dir", "--git-common-dir", "--symbolic-full-name", "HEAD"]
    told = run([program, *words])[1].split("\n") if program else []
    if len(told) < 3 or not told[0]:
        return [".git"]
    if is_list:
        return [watched.GIT_FILES]
    own, common, branch = told[:3]
    found = [os.path.join(own, "HEAD"), os.path.join(common, "packed-refs"), f"{common}/refs/tags{watched.BELOW}"]
    found += [os.path.join(common, branch)] if branch.startswith("refs/") else []
    found += [os.path.join(own, "index")] if OF_FILES.search(command) else []
    found += [watched.GIT] if OF_CHANGES.search(command) else []
    return found


def reads_of_calls(patterns, commands, links, contents, known=None):
    """The words to watch for what calls were asked for: the patterns of `wildcard`, the commands of `shell`, the names
    of `realpath`, and what `file` reads. `known` keeps those of each command, which many calls may have."""
    known = {} if known is None else known
    known.update((one, reads_of(one)) for one in commands if one not in known)
    found = [*watched.of_wildcard(" ".join(patterns)), *(watched.LINK + word for word in " ".join(links).split()),
             *(one.strip("< \t") for one in contents), *(word for one in commands for word in known[one])]
    return list(dict.fromkeys(one for one in found if re.fullmatch(r"[^\s,]+", one)))
