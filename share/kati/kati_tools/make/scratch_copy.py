"""Scratch copies of this folder, in which make is asked, makefiles are tried and builds are compared, whatever these
write.

A copy has the names that it is made from, since a makefile may ask for them; links stay links, and times stay too. What
kati-build wrote isn't in it, nor pipes and their kin, which reading would wait for."""
import contextlib
import os
import shutil

from ..base import own_files
from ..makefile import above, sources, syntax
from . import control
from ..base.programs import Stop

# A folder of a megabyte is worth a copy, one of a gigabyte isn't.
MOST_FILES = 2000


def copy_file(source, to):
    """Copies a file; one that can't be read can't be read in the copy either."""
    if os.path.islink(source) or os.path.isfile(source):
        with contextlib.suppress(PermissionError, FileNotFoundError):
            shutil.copy2(source, to, follow_symlinks=False)


def copy_folder(source, to, room, has_control=True):
    """Copies a folder, which the room of the copies may stand in. What version control keeps is linked, or with
    `has_control` false left."""
    os.makedirs(to, exist_ok=True)
    for at, folders, names in os.walk(source):
        there = os.path.normpath(os.path.join(to, os.path.relpath(at, source)))
        if not has_control:
            folders[:] = [name for name in folders if name not in sources.CONTROL]
            names = [name for name in names if name not in sources.CONTROL]
        folders[:] = [name for name in folders
                      if not own_files.is_own(at, name) and os.path.join(os.path.realpath(at), name) != room]
        for name in list(folders):
            path, copied = os.path.join(at, name), os.path.join(there, name)
            if name in sources.CONTROL or os.path.islink(path):
                folders.remove(name)
                os.symlink(os.path.abspath(path) if name in sources.CONTROL else os.readlink(path), copied)
            else:
                os.makedirs(copied, exist_ok=True)
        for name in (name for name in names if not own_files.is_own(at, name)):
            copy_file(os.path.join(at, name), os.path.join(there, name))
        times = os.stat(at)
        os.utime(there, ns=(times.st_atime_ns, times.st_mtime_ns))


def is_small(folder):
    """Whether a folder has few enough files to be copied."""
    count = 0
    for _, _, names in os.walk(folder):
        count += len(names)
        if count > MOST_FILES:
            return False
    return True


def names_of(walked, top):
    """The names of the files that os.walk tells, as seen from a folder."""
    for at, _, names in walked:
        before = os.path.relpath(at, top)
        yield from names if before == os.curdir else (f"{before}/{name}" for name in names)


def times_of(names):
    """When the files of these names were written, of those that are there."""
    found = {}
    for name in names:
        try:
            found[name] = os.lstat(name).st_mtime_ns
        except (FileNotFoundError, NotADirectoryError):
            pass
    return found


class Copy:
    """The copy of this folder in which make is asked, since it can't be in place, as `why` says; `texts` are those of
    the makefiles.

    The folders above it are there too, as far up as makefiles name `..`. What they name there is copied; all else leads
    to where it is."""

    is_copy = True

    def __init__(self, room, texts, why=""):
        self.real, self.room, self.why = os.getcwd(), os.path.realpath(room), why
        parts = self.real.split(os.sep)[1:]
        self.levels = min(above.most_levels(texts), len(parts))
        cut = max(len(parts) - self.levels - 1, 0)
        self.base = os.path.join(self.room, "copy")
        self.real_base = os.sep + os.sep.join(parts[:cut]) if cut else ""
        self.top = os.path.join(self.base, *parts[cut:])
        copy_folder(self.real, self.top, self.room)
        self.control = control.Control(self.real, self.room, self.base, self.real_base)
        self.link_above()
        for up, name in {one for text in texts for one in syntax.names_above(text)}:
            self.copy_above(os.path.join(up, name))

    def link_above(self):
        """Gives each folder above the copy links to what stands in the folder that it is the copy of."""
        here, real = self.top, self.real
        for _ in range(self.levels):
            here, real, own = os.path.dirname(here), os.path.dirname(real), os.path.basename(real)
            if not here.startswith(self.base):
                return
            for name in os.listdir(real):
                is_there = name == own or os.path.lexists(os.path.join(here, name))
                if not is_there and os.path.join(real, name) != self.room and not own_files.is_own(real, name):
                    os.symlink(os.path.join(real, name), os.path.join(here, name))

    def copy_above(self, name):
        """Copies what a makefile names above this folder, in the place of the link to it."""
        link, real = (os.path.normpath(os.path.join(top, name)) for top in (self.top, self.real))
        if not os.path.islink(link) or os.path.islink(real):
            return
        if os.path.isdir(real) and is_small(real):
            os.unlink(link)
            copy_folder(real, link, self.room)
        elif os.path.isfile(real):
            os.unlink(link)
            copy_file(real, link)

    def own(self, name):
        """Makes a file the copy's own, where it stands in the copy or above it; answers whether it is."""
        path = os.path.normpath(os.path.join(self.top, name))
        parts = path[len(self.base):].split(os.sep)[1:] if path.startswith(self.base + os.sep) else []
        at = self.base
        for part in parts:
            at = os.path.join(at, part)
            leads = os.readlink(at) if os.path.islink(at) else None
            if leads is None or leads != self.real_base + at[len(self.base):]:
                continue
            os.unlink(at)
            if os.path.isdir(leads):
                os.mkdir(at)
                for inner in os.listdir(leads):
                    os.symlink(os.path.join(leads, inner), os.path.join(at, inner))
            else:
                copy_file(leads, at)
        return os.path.realpath(path).startswith(self.base + os.sep)

    def take_in(self, name):
        """Has the copy a file of its own in the place of a link that leads out of it; answers whether it led out of
        what the copy is made from, too."""
        link, real = os.path.normpath(os.path.join(self.top, name)), os.path.join(self.real, name)
        is_inside = os.path.isfile(link) and os.path.realpath(link).startswith(self.base + os.sep)
        if not os.path.islink(link) or is_inside:
            return False
        if os.path.isfile(real):
            os.unlink(link)
            shutil.copy2(real, link)
        top = os.path.join(self.real_base, self.top[len(self.base):].split(os.sep)[1])
        return not os.path.realpath(real).startswith(os.path.join(os.sep, top) + os.sep)

    def told(self):
        """What a report says of it: that it is a copy."""
        return [f"make was asked in a copy of this folder: {self.why}"]

    def environment(self):
        """What is in make's environment beside the user's own."""
        return self.control.environment()

    def leads_out(self, name):
        """Whether a file that may be rewritten is a link out of the copy: none is."""
        return False

    def real_path(self, name):
        """The path of a file in the folder that the copy is made from."""
        return os.path.join(self.real, name)

    def real_text(self, text):
        """A text in which this folder is named in the place of its copy."""
        return self.control.real_text(text).replace(self.base, self.real_base)

    def copied_text(self, text):
        """A text in which the copy is named in the place of this folder, or of the highest that is copied."""
        first = self.top[len(self.base):].split(os.sep)[1]
        return text.replace(os.path.join(self.real_base + os.sep, first), os.path.join(self.base, first))

    def files(self, is_above=False):
        """The names of the files that stand in the copy now; also of those above it, where it has any."""
        return set(names_of(os.walk(self.base if is_above else self.top), self.top))

    def times(self):
        """When the files in the copy were written, by their names."""
        return times_of(self.files())

    def times_above(self):
        """When the files above and beside the copy were written that stand in it, by their names."""
        names = self.files(is_above=True) - self.files() if self.levels else ()
        return times_of(names)

    def present(self):
        """The paths of the files and folders that stand in the copy."""
        found = set()
        for at, folders, names in os.walk(self.base):
            folders[:] = [name for name in folders if name not in sources.CONTROL]
            found.update(os.path.join(at, name) for name in [*folders, *names])
        return found

    def is_covered(self, path):
        """Whether what has a path is the copy's own."""
        return os.path.realpath(path).startswith(self.base + os.sep)

    @contextlib.contextmanager
    def entered(self):
        """Makes the copy this process's folder for a while."""
        os.chdir(self.top)
        try:
            yield self
        finally:
            os.chdir(self.real)


def top_of(makefile):
    """The folder that is to be copied for a build, which may write into folders above this one."""
    here, count = os.getcwd(), above.levels(above.texts_of(makefile))
    top = os.path.normpath(os.path.join(here, *[".."] * count))
    home = os.path.realpath(os.path.expanduser("~"))
    if count and os.path.commonpath([top, home]) == top:
        raise Stop(f"{makefile} needs {'/'.join(['..'] * count)}, which is {top}: too much for a scratch copy; "
                   "move what is needed into a folder of its own")
    return top


class WholeCopy:
    """A copy for a build in the folder `room`, where nothing else is: `top` is the whole of it, `folder` that of this
    folder. It has nothing of version control."""

    def __init__(self, makefile, room):
        source, room = top_of(makefile), os.path.realpath(room)
        self.room, self.top = room, os.path.join(room, os.path.basename(source) or "top")
        self.folder = os.path.normpath(os.path.join(self.top, os.path.relpath(os.getcwd(), source)))
        copy_folder(source, self.top, room, False)

    def remove(self):
        """Takes the copy away, and what a build wrote beside it."""
        shutil.rmtree(self.room)
