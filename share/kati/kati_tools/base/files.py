"""Files that are replaced whole, and only where their bytes differ; the folders of those that aren't there."""
import errno
import os
from stat import S_ISREG

from .programs import bytes_of, new_output, text_of

# So much of a large file is read at once, which stays in the processor's cache; memory for all of it would take longer
# than its reading.
PIECE = 2**18
# A file of fewer bytes is read at once.
SMALL = 2**12
# For so many names their folder is read.
MANY = 100


def nearest_folder(name):
    """The folder in which a file would come into being, or the nearest above it that is there."""
    folder = os.path.dirname(name)
    while folder and not os.path.isdir(folder):
        folder = os.path.dirname(folder)
    return folder or "."


def is_folder(entry):
    """Whether an entry of a folder is one, or a link to one; a link that leads round isn't."""
    try:
        return entry.is_dir()
    except OSError:
        return False


def leads_nowhere(entry):
    """Whether an entry of a folder is a link to what isn't there."""
    try:
        entry.stat()
        return False
    except OSError:
        return True


def entries(folder):
    """The entries of a folder that are folders or lead to one, and the names of all others but links that lead
    nowhere; none where it can't be read, or can have no such name."""
    others = []
    try:
        # By its number the folder isn't put before each name, which takes a third of the time.
        handle = os.open(folder, os.O_RDONLY | os.O_CLOEXEC | os.O_DIRECTORY)
    except (OSError, ValueError):
        return [], []
    try:
        with os.scandir(handle) as found:
            # Nearly all are files, which the folder itself tells; all others are put aside.
            names = [one.name for one in found if one.is_file(follow_symlinks=False) or others.append(one)]
        if not others:
            return [], names
        folders = [one for one in others if is_folder(one)]
        kept = set(folders)
        return folders, names + [one.name for one in others if one not in kept and not leads_nowhere(one)]
    except OSError:
        return [], []
    finally:
        os.close(handle)


def any_exists(names):
    """Whether one of these files exists. A folder of many is read once, which takes a tenth of a look at each; and one
    that isn't there has none."""
    by_folder = {}
    for name in names:
        by_folder.setdefault(name[:name.rfind("/") + 1], []).append(name)
    return any(map(any_exists_in, by_folder, by_folder.values()))


def any_exists_in(folder, names):
    """The same for names of one folder, which begin with it."""
    if len(names) > 1 and folder and not os.path.exists(folder):
        return False
    if len(names) > MANY and os.access(folder or ".", os.R_OK):
        # What ends with a slash or dots is no name that a folder lists.
        names = {folder + name for name in [*os.listdir(folder or "."), "", ".", ".."]}.intersection(names)
    return any(map(os.path.lexists, names))


def content(path):
    """The bytes of a file; None where none can be read, and of a pipe or another one that may have no end."""
    try:
        handle = os.open(path, os.O_RDONLY | os.O_CLOEXEC | os.O_NONBLOCK)
    except (OSError, ValueError):
        return None
    # Without the objects of `open`, and without asking what a small file is, which take half the time each. What has no
    # places to read at, as a pipe, fails here.
    try:
        data = os.pread(handle, SMALL, 0)
        is_all = 0 < len(data) < SMALL and not os.pread(handle, 1, len(data))
        return data if is_all else all_of(handle)
    except OSError:
        return None
    finally:
        os.close(handle)


def all_of(handle):
    """The bytes of an open file; None of one that isn't a plain one."""
    found = os.fstat(handle)
    if not S_ISREG(found.st_mode):
        return None
    size, parts = found.st_size, [os.read(handle, found.st_size + 1)]
    while parts[-1] and len(parts[0]) != size:
        parts.append(os.read(handle, PIECE))
    return parts[0] if len(parts) == 1 else b"".join(parts)


def pieces(path):
    """A file's bytes, in pieces that end with a line."""
    with open(path, "rb") as file:
        yield from iter(lambda: file.read(PIECE) + file.readline(), b"")


def same(path, other):
    """Whether two files have the same bytes; not where one can't be read."""
    try:
        with open(path, "rb") as one, open(other, "rb") as two:
            is_as_long = os.fstat(one.fileno()).st_size == os.fstat(two.fileno()).st_size
            return is_as_long and all(piece == two.read(PIECE) for piece in iter(lambda: one.read(PIECE), b""))
    except OSError:
        return False


def read(path):
    """The text of a file, or None where it isn't there."""
    try:
        with open(path, "rb") as file:
            return text_of(file.read())
    except FileNotFoundError:
        return None


def remove(path):
    """Takes a file away, if it is there."""
    try:
        os.unlink(path)
    except FileNotFoundError:
        pass


def remove_all(path):
    """Takes a file away, or a folder with all that is in it, if it is there."""
    if os.path.isdir(path) and not os.path.islink(path):
        # Loaded here alone, since it takes time.
        import shutil
        shutil.rmtree(path)
    else:
        remove(path)


def write(path, data):
    """Writes bytes to a file; where that fails, nothing is left, and the error names the file."""
    try:
        with open(new_output(path), "wb") as file:
            file.write(data)
    except OSError as error:
        remove(path)
        raise OSError(error.errno, error.strerror, path) from error


def new_name(path, room):
    """The name of a new file in the folder `room` for another one."""
    return os.path.join(room, os.path.basename(path) + ".new")


def staged(path, data, room):
    """A new file in the folder `room` with these bytes for another one, whose name `put` gives it."""
    new = new_name(path, room)
    write(new, data)
    return new


def to_disk(path):
    """Has what was written to a file stand on the disk."""
    handle = os.open(path, os.O_RDONLY | os.O_CLOEXEC)
    try:
        os.fsync(handle)
    except OSError:
        # A file system that has no such thing: what is written is as safe there as it can be.
        pass
    finally:
        os.close(handle)


def put(new, path, lasts=False):
    """Gives a new file its name. It gets its time after that, so that it is no older than the folder that holds it."""
    try:
        os.replace(new, path)
    except OSError as error:
        if error.errno != errno.EXDEV:
            raise
        put_elsewhere(new, path, lasts)
    os.utime(path)


def put_elsewhere(new, path, lasts):
    """The same where the file stands in another file system: its bytes come there first, by another name, and onto the
    disk where it outlasts this run."""
    # Loaded here alone, since it takes time and is seldom needed.
    import shutil
    beside = f"{path}.new"
    try:
        write(beside, b"")
        shutil.copyfile(new, beside)
        if lasts:
            to_disk(beside)
        os.replace(beside, path)
    finally:
        remove(beside)
    remove(new)


def put_to_last(new, path):
    """The same as `put` so that a loss of power leaves the old file or the new one, whole."""
    to_disk(new)
    put(new, path, True)


def replace(path, text, room, put_new=put):
    """Gives a file this text, by way of a new file in the folder `room`; answers whether it had another one."""
    data = bytes_of(text)
    if content(path) == data:
        return False
    put_new(staged(path, data, room), path)
    return True


def keep(path, text, room):
    """The same for what outlasts this run."""
    return replace(path, text, room, put_to_last)


def settle(new, path):
    """Gives a new file its name where that file has other bytes; else takes the new one away."""
    if same(new, path):
        remove(new)
    else:
        put_to_last(new, path)
