"""The list of the files that exist, as kati wants it by --files."""
import functools
import os
import re

from ..base import files, own_files
from . import outside
from ..base.programs import Stop, bytes_of, need, run, text_of

# Folders of version control hold no sources.
CONTROL = {".git", ".hg", ".svn"}
# What --files-from names besides a file.
WALKED = ("git", "find")
# The tools' own files are no sources either.
OWN = {".ninja_log", ".ninja_deps", ".ninja_lock"}


def without_newlines(names):
    """The names that a list and a Ninja file can hold: nearly always all of them, which one look at them tells."""
    return [name for name in names if "\n" not in name] if "\n" in "".join(names) else list(names)


def text_with(names, prefix=""):
    """Names of files as kati reads them, one a line, each with this prefix; in any order, since they are a set for
    kati, and sorting takes nearly as long as looking for them."""
    kept = without_newlines(names)
    return prefix + f"\n{prefix}".join(kept) + "\n" if kept else ""


class Listing:
    """The files that exist, as the text in which kati reads their names; those of them that are sources whatever makes
    them, None where all are; and the folders and files on which the list depends."""

    def __init__(self, text, certain=(), folders=(), watched=()):
        self.text, self.certain = text, certain
        self.folders, self.watched = without_newlines(folders), without_newlines(watched)
        # Whether the files were looked for, and aren't of a list that is the user's.
        self.is_found = certain is not None

    @functools.cached_property
    def names(self):
        """The names, which are mostly not needed one by one."""
        return list(dict.fromkeys(filter(None, self.text.split("\n"))))

    def with_folders(self, found):
        """The listing with what stands in folders outside this one. One that isn't there would come into being in
        another."""
        texts = [text_with(found.names(folder), f"{folder}/") for folder in found.all]
        there = [folder if os.path.isdir(folder) else files.nearest_folder(folder) for folder in found.all]
        return Listing("".join([*texts, self.text]), self.certain, [*self.folders, *there], self.watched)

    def data(self, dropped=()):
        """The text as bytes, without these names."""
        left = text_with([name for name in self.names if name not in dropped]) if dropped else self.text
        return bytes_of(left)

    def unsure(self, before):
        """The names that may be there only because the build made them: not those of the list of before, which is given
        as bytes, nor the certain. There are none where that is the same list, or there was none."""
        if self.certain is None or before is None or before == self.data():
            return set()
        return set(self.names).difference(self.certain, text_of(before).split("\n"))


def plain(name):
    """A path without `./` before it."""
    return name[2:] if name.startswith("./") else name


def inside(folder):
    """The names of the folders and of the files in a folder. Links that lead to folders are neither."""
    folders, names = files.entries(folder)
    return sorted(one.name for one in folders if not one.is_symlink()), names


def walk(skipped):
    """The folders below this one and the files in them; folders of control, those of kati-build and the skipped
    ones aside."""
    names, folders, left = [], [], ["."]
    while left:
        at = left.pop()
        below, found = inside(at)
        if own_files.TRANSLATED in found:
            continue
        before = "" if at == "." else f"{at}/"
        folders.append(at)
        found = [one for one in found if one not in OWN] if not OWN.isdisjoint(found) else found
        names += [before + one for one in found] if before else found
        left += [before + one for one in reversed(below) if one not in CONTROL and before + one not in skipped]
    return names, folders


def walked(skipped):
    """The files below this folder, the skipped folders aside; as `from_git` gives them."""
    names, folders = walk(skipped)
    return names, (), folders


def git(*words):
    """The names that `git ls-files` gives for this folder."""
    status, out, said = run([need("git"), "ls-files", "-z", *words])
    if status:
        raise Stop(f"git ls-files: {said.strip()}")
    return [name for name in out.split("\0") if name]


def from_git(skipped):
    """What git tracks, and what it doesn't ignore, the skipped folders aside; as the names of a listing, the certain of
    them, and what it depends on."""
    tracked = [name for name in git("--cached", "--recurse-submodules") if os.path.isfile(name)]
    others = [name for name in git("--others", "--exclude-standard") if os.path.isfile(name)]
    ignored = git("--others", "--ignored", "--exclude-standard", "--directory")
    folders = walk({name.rstrip("/") for name in ignored} | skipped)[1]
    inside = set(folders)
    others = [name for name in others
              if (os.path.dirname(name) or ".") in inside and os.path.basename(name) not in OWN]
    rules = [name for name in tracked + others if os.path.basename(name) == ".gitignore"]
    return list(dict.fromkeys([*tracked, *others])), tracked, folders, rules


def from_file(path):
    """The names of a file, one a line. Its text stays as it is: for kati neither their order counts, nor how often one
    is there, nor an empty line."""
    text = files.read(path)
    if text is None:
        raise Stop(f"no file {path}")
    return Listing(re.sub(r"\r(?=\n|\Z)", "", text) if "\r" in text else text, None, (), [path])


def here(source, output, room):
    """The files that exist here and below, by the word of --files-from; the file `output` and those in the folder
    `room` aside."""
    if source not in WALKED:
        return from_file(source)
    names, *rest = from_git({room}) if source == "git" else walked({room})
    if output in names:
        names.remove(output)
    return Listing(text_with(names), *rest)


class Lister:
    """Lists the files that exist: those that are `here`, which are looked for once, and those in the folders outside
    this one that makefiles name, with these macros of the command line."""

    def __init__(self, source, output=None, room=None, makefile=None, macros=()):
        self.here, self.is_walked = here(source, output, room), source in WALKED
        self.makefile, self.macros = makefile, macros
        self.record = room and os.path.join(room, outside.RECORD)
        self.marked, self.last = {}, self.here

    def listing(self, makefiles=None):
        """The files for these makefiles, whose names have their bytes, or None where they are to be read; without them
        for those that are guessed."""
        if not self.is_walked or self.makefile is None:
            return self.here
        if makefiles is None:
            # Loaded here alone, since it takes time and is seldom needed.
            from . import includes
            makefiles = dict.fromkeys(includes.asked([self.makefile], self.here.names))
        marked = outside.marked(makefiles)
        if marked != self.marked:
            folders = outside.Folders(marked, makefiles, self.macros, self.record) if marked else None
            self.marked, self.last = marked, self.here.with_folders(folders) if marked else self.here
        return self.last
