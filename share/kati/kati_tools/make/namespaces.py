"""A mount namespace of this process's own, and folders over which others lie in it, so that what is written there goes
elsewhere. The system's calls are asked for by the library of C: Python has none of them."""
import ctypes
import os

# The system's numbers for what is asked of it.
NEW_MOUNTS, NEW_USER, PRIVATE, RECURSIVE = 0x20000, 0x10000000, 1 << 18, 1 << 14
# Marks that the system writes for blanks and backslashes in its list of mounts.
MARKS = {"\\040": " ", "\\011": "\t", "\\012": "\n", "\\134": "\\"}


def called(name, *given):
    """Calls a function of the library of C, which answers other than 0 where it fails."""
    library = ctypes.CDLL(None, use_errno=True)
    if getattr(library, name)(*given):
        raise OSError(ctypes.get_errno(), f"{name}: {os.strerror(ctypes.get_errno())}")


def written(path, text):
    """Writes a line to a file of the system's."""
    with open(path, "wb", buffering=0) as file:
        file.write(text.encode())


def enter():
    """Gives this process mounts of its own; an ordinary user is the same one there. Answers whether other users' ids
    aren't known in it."""
    user, group = os.geteuid(), os.getegid()
    is_user = user != 0
    try:
        called("unshare", NEW_MOUNTS | (NEW_USER if is_user else 0))
    except OSError:
        if is_user:
            raise
        # root of a container may have no right to it but in a namespace of users.
        is_user = True
        called("unshare", NEW_MOUNTS | NEW_USER)
    if is_user:
        written("/proc/self/setgroups", "deny")
        written("/proc/self/uid_map", f"{user} {user} 1")
        written("/proc/self/gid_map", f"{group} {group} 1")
    mount(None, "/", None, PRIVATE | RECURSIVE, None)
    return is_user


def mount(source, target, kind, flags, options):
    """Mounts something; the names are texts or None."""
    encoded = [None if one is None else os.fsencode(one) for one in (source, target, kind, options)]
    called("mount", *encoded[:3], ctypes.c_ulong(flags), encoded[3])


def mounts_below(folder):
    """Whether something is mounted below a folder."""
    with open("/proc/self/mountinfo", encoding="utf-8", errors="surrogateescape") as file:
        places = [line.split(" ")[4] for line in file]
    for mark, letter in MARKS.items():
        places = [place.replace(mark, letter) for place in places]
    return any(place.startswith(folder.rstrip(os.sep) + os.sep) for place in places)


def lay_over(folder, lower, upper, work, options):
    """Mounts over a folder what it holds, open by the number `lower`, so that what is written goes into `upper`."""
    for path in (upper, work):
        os.makedirs(path, exist_ok=True)
    # The folder itself has what the upper one has.
    found = os.fstat(lower)
    os.chown(upper, found.st_uid, found.st_gid)
    os.chmod(upper, found.st_mode & 0o7777)
    os.utime(upper, ns=(found.st_atime_ns, found.st_mtime_ns))
    handles = [os.open(path, os.O_RDONLY | os.O_DIRECTORY) for path in (upper, work)]
    try:
        # By their numbers, since names would have to be quoted.
        names = [f"{key}=/proc/self/fd/{one}" for key, one in zip(("lowerdir", "upperdir", "workdir"),
                                                                 [lower, *handles])]
        mount("overlay", folder, "overlay", 0, ",".join([*names, *options]))
    finally:
        for one in handles:
            os.close(one)
