"""make over this folder at its own path, where what it writes goes elsewhere; in a copy where the host doesn't allow
that.

In place a process of its own has a namespace of mounts, in which something lies over the makefile's folder, and over
those above or beside it to which makefiles name a way. So a value hangs on nothing that a copy hasn't: links that lead
out, scripts that look above, folders by their whole paths. What it does beyond these folders is done, as by make. The
folders as they are stay open by their numbers."""
import contextlib
import functools
import os
import shutil

from ..base import files, own_files, scratch
from ..base.answering import Refused, answer_of
from ..makefile import above, sources, syntax
from . import namespaces, scratch_copy
from ..base.programs import inside

# A variable of the environment that has make asked in copies.
IN_COPIES = "KATI_COPIES"
# A variable of the environment by which git looks above a file system, as what lies over a folder is one of its own.
ACROSS = "GIT_DISCOVERY_ACROSS_FILESYSTEM"


def in_place_or_copy(room, texts, call):
    """What a call answers that is given where make is asked: this folder, in a process of its own; else its copy, in
    this process. `texts` are those of the makefiles."""
    return in_place_or(lambda: InPlace(room, texts).laid_over(), call,
                       lambda why: call(scratch_copy.Copy(room, texts, why)))


def in_place_or(begin, call, call_elsewhere):
    """What a call answers in a process of its own that is given what `begin` answers; else what another call does that
    is given why it can't be so."""
    why = f"the environment has {IN_COPIES}"
    if not os.environ.get(IN_COPIES):
        found = answer_of(begin, call)
        if not isinstance(found, Refused):
            return found
        why = found.why
    return call_elsewhere(why)


@functools.lru_cache(None)
def why_not():
    """Why this host can't have make asked in place, as is tried once with a folder made for it; None where it can."""
    with scratch.room("kati-in-place-") as room, scratch.room("kati-in-place-") as tree, inside(tree):
        found = answer_of(lambda: InPlace(room, [""]).laid_over(), lambda place: None)
        return found.why if isinstance(found, Refused) else None


def above_home(folder):
    """Whether a folder is the user's home, or above it, or above all."""
    home = os.path.realpath(os.path.expanduser("~"))
    return os.path.commonpath([folder, home]) == folder


def is_of_git_above(folder):
    """Whether a folder is in a work tree of git's that begins above it, in the same file system."""
    at, device = folder, os.stat(folder).st_dev
    while os.stat(at).st_dev == device:
        if os.path.exists(os.path.join(at, ".git")):
            return at != folder
        if at == os.path.dirname(at):
            break
        at = os.path.dirname(at)
    return False


def tops_of(texts):
    """This folder and those above it, as far up as makefiles name `..`."""
    here = os.getcwd()
    return [os.path.normpath(os.path.join(here, *[".."] * count)) for count in range(above.levels(texts) + 1)]


def named_above(texts):
    """The folders beside this one, or above it, of which makefiles name something by `..`."""
    here, found = os.getcwd(), set()
    for up, name in {one for text in texts for one in syntax.names_above(text)}:
        path = os.path.realpath(os.path.join(here, up, name))
        found.add(path if os.path.isdir(path) else os.path.dirname(path))
    return {folder for folder in found if os.path.isdir(folder)}


def is_below(path, folder):
    """Whether a path leads into a folder, or is its own."""
    return os.path.commonpath([path, folder]) == folder


def may_lie_over(folder, room):
    """Whether something may lie over a folder beside this one or above it: not over the user's home, nor over the room
    that this run writes to, nor where something is mounted below."""
    return not (above_home(folder) or is_below(room, folder) or namespaces.mounts_below(folder))


def covered_of(folders, room):
    """Of these folders beside this one or above it, those over which something is to lie, and this one. None of them is
    below another."""
    found = {os.getcwd(), *(one for one in folders if may_lie_over(one, room))}
    return sorted(one for one in found if not any(one != other and is_below(one, other) for other in found))


class InPlace:
    """This folder as make is asked in it: at its own path, with something over it and the folders `covered`; for a
    build, which writes more than what is read, over all that makefiles name above. It has what a copy has
    (scratch_copy.Copy)."""

    is_copy = False

    def __init__(self, room, texts, is_for_build=False):
        self.real = self.top = os.getcwd()
        self.room, self.is_for_build = os.path.realpath(room), is_for_build
        self.tops, self.named = tops_of(texts), named_above(texts)
        self.covered = covered_of({*self.tops, *self.named}, self.room)
        parts = self.real.split(os.sep)[1:]
        levels = min(above.most_levels(texts), len(parts))
        self.base = os.sep + os.sep.join(parts[:max(len(parts) - levels - 1, 0)])
        # The folders below what lies over them, and what is written over them.
        self.below, self.upper = {}, {}

    def laid_over(self):
        """Itself, with something over each folder; what kati-build wrote isn't there then."""
        try:
            if os.geteuid():
                self.refuse_others()
            self.refuse_bare()
            if is_of_git_above(self.real):
                # In this process alone, which has a namespace of its own.
                os.environ[ACROSS] = "1"
            is_user = namespaces.enter()
            if is_user and not os.geteuid():
                self.refuse_others()
            # By the mounts of this namespace: those of another one have no way into it.
            self.below = {one: os.open(one, os.O_RDONLY | os.O_DIRECTORY) for one in {*self.covered, self.real}}
            self.refuse()
            for number, folder in enumerate(self.covered):
                self.lay_over_one(folder, number, ["userxattr"] if is_user else [])
            os.chdir(self.real)
            self.hide_own()
        except OSError as error:
            raise Refused(error.strerror) from error
        return self

    def looked_through(self):
        """The folders that are looked through for files of kati-build's and of others: this one, and those beside it
        that makefiles name, but for large ones."""
        return [self.real, *(folder for folder in self.named if self.is_covered(folder)
                             and not is_below(self.real, folder) and scratch_copy.is_small(folder))]

    def refuse_others(self):
        """Stops where something couldn't be written, since its owner isn't known in a namespace of users."""
        looked_through = (one for top in self.looked_through() for one in walked(top))
        if any(map(is_others, [*self.covered, *looked_through])):
            raise Refused("another user or group has files in it")

    def refuse_bare(self):
        """Stops a build that may write into a folder over which nothing may lie."""
        for folder in {*self.tops, *self.named} if self.is_for_build else ():
            if not self.is_covered(folder):
                raise Refused(f"nothing may lie over {folder}")

    def refuse(self):
        """Stops where something could not be as it is."""
        for folder in filter(namespaces.mounts_below, self.covered):
            raise Refused(f"something is mounted below {folder}")
        # Nothing lies over the user's home and what is above it, and no makefile looks there for what it builds from.
        for folder in {*self.covered, *(one for one in self.tops if not above_home(one))}:
            if is_below(self.room, folder):
                raise Refused(f"the folder of temporary files is in {folder}")

    def lay_over_one(self, folder, number, options):
        """Lays something over a folder: what is written goes into the room, or where that has no way for it, into
        memory."""
        place = os.path.join(self.room, f"over-{number}")
        os.makedirs(place, exist_ok=True)
        for is_in_memory in (False, True):
            try:
                if is_in_memory:
                    namespaces.mount("tmpfs", place, "tmpfs", 0, None)
                self.upper[folder] = os.path.join(place, "upper")
                work = os.path.join(place, "work")
                namespaces.lay_over(folder, self.below[folder], self.upper[folder], work, options)
                return
            except OSError as error:
                failed = error
        raise Refused(failed.strerror)

    def hide_own(self):
        """Takes away, in what lies over the folders, what kati-build wrote there."""
        for top in self.looked_through():
            for at, folders, names in os.walk(top):
                own = hide_own_in(at, [*folders, *names])
                folders[:] = [name for name in folders if name not in own and name not in sources.CONTROL]
        for folder in filter(self.is_covered, self.tops):
            hide_own_in(folder, os.listdir(folder))

    def real_path(self, name):
        """The path by which a file of this folder is what it is below."""
        return f"/proc/self/fd/{self.below[self.real]}/{name}"

    def written(self):
        """The paths of what was written over the folders, or taken away, each with the path by which it is what it is
        below."""
        for folder, upper in self.upper.items():
            for at, _, names in os.walk(upper):
                for name in (os.path.relpath(os.path.join(at, name), upper) for name in names):
                    yield os.path.join(folder, name), f"/proc/self/fd/{self.below[folder]}/{name}"

    def own(self, name):
        """Whether a file may be rewritten: it stands in a folder over which something lies, though it be a link."""
        folder, last = os.path.split(os.path.abspath(name))
        return self.is_covered(os.path.join(os.path.realpath(folder), last))

    def is_covered(self, path):
        """Whether something lies over what has a path."""
        return any(is_below(path, folder) for folder in self.covered)

    def leads_out(self, name):
        """Whether a file is a link out of the folders over which something lies."""
        path = self.real_path(name)
        if not os.path.islink(path):
            return False
        return not self.is_covered(os.path.realpath(os.path.join(self.real, os.path.dirname(name), os.readlink(path))))

    def take_in(self, name):
        """Has a file of its own stand in the place of a link; answers whether it led out of what makefiles name."""
        path = os.path.normpath(os.path.join(self.top, name))
        if not os.path.islink(path) or not os.path.isfile(path):
            return False
        is_outside = not self.is_covered(os.path.realpath(path))
        data = files.content(path)
        files.remove(path)
        files.write(path, data or b"")
        return is_outside

    def real_text(self, text):
        """A text as it is in this folder: the same."""
        return text

    copied_text = real_text

    def told(self):
        """What a report says of it: nothing."""
        return []

    def environment(self):
        """What is in make's environment beside the user's own: nothing."""
        return {}

    def files(self, is_above=False):
        """The names of the files in this folder; also of those beside and above it, where something lies over them."""
        tops = self.covered if is_above else [self.top]
        return {name for top in tops for name in scratch_copy.names_of(walked_folders(top), self.top)}

    def times(self):
        """When the files in this folder were written, by their names."""
        return scratch_copy.times_of(self.files())

    def times_above(self):
        """When the files were written that stand above or beside this folder, in what lies over it, by their names."""
        paths = [path for path, _ in self.written() if not is_below(path, self.real) and os.path.lexists(path)]
        return scratch_copy.times_of(os.path.relpath(path, self.top) for path in paths)

    def present(self):
        """The paths of the files and folders that stand in what lies over these, and not below it."""
        return {os.path.normpath(os.path.join(folder, os.path.relpath(at, upper), name))
                for folder, upper in self.upper.items() for at, folders, names in walked_folders(upper)
                for name in [*folders, *names] if self.is_new(folder, os.path.relpath(os.path.join(at, name), upper))}

    def is_new(self, folder, name):
        """Whether something stands in a folder with what lies over it, and not below."""
        below = f"/proc/self/fd/{self.below[folder]}/{name}"
        return os.path.lexists(os.path.join(folder, name)) and not os.path.lexists(below)

    @contextlib.contextmanager
    def entered(self):
        """Makes this folder the process's own for a while, with what lies over it."""
        os.chdir(self.real)
        yield self


def hide_own_in(folder, names):
    """Takes away those of these names in a folder that kati-build wrote, so that the folder's time stays; answers
    them."""
    own, times = own_files.among(folder, names), os.stat(folder)
    for name in own:
        path = os.path.join(folder, name)
        if os.path.isdir(path) and not os.path.islink(path):
            shutil.rmtree(path)
        else:
            files.remove(path)
    if own:
        os.utime(folder, ns=(times.st_atime_ns, times.st_mtime_ns))
    return own


def walked_folders(folder):
    """What os.walk tells, without what version control keeps."""
    for at, folders, names in os.walk(folder):
        folders[:] = [name for name in folders if name not in sources.CONTROL]
        yield at, folders, names


def walked(folder):
    """The paths of all that is in a folder, and its own."""
    yield folder
    for at, folders, names in os.walk(folder):
        yield from (os.path.join(at, name) for name in [*folders, *names])


def is_others(path):
    """Whether something belongs to another user, or to another group."""
    try:
        found = os.lstat(path)
    except OSError:
        return False
    return (found.st_uid, found.st_gid) != (os.geteuid(), os.getegid())
