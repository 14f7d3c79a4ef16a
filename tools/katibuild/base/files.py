"""Files: their names, one spelling for each as Ninja has it, and their bytes, read and written whole."""
from __future__ import annotations

import hashlib
import os
import posixpath
from typing import Collection, Iterator, Optional, Set

from .message import Status, Stop


def read(path: str) -> Optional[bytes]:
    """The bytes of a file, or None if it is absent; stops with status 3 if it cannot be read."""
    try:
        with open(path, "rb") as file:
            return file.read()
    except (FileNotFoundError, NotADirectoryError):
        return None
    except OSError as error:
        raise Stop(f"cannot read {path}: {error.strerror}", Status.DEVICE) from error


def text_of(data: bytes) -> str:
    """Bytes as text; bytes that are not UTF-8 survive a way back by `bytes_of`."""
    return data.decode("utf-8", "surrogateescape")


def bytes_of(text: str) -> bytes:
    """The bytes of a text that `text_of` made."""
    return text.encode("utf-8", "surrogateescape")


def replace(path: str, data: bytes, mode: int = 0o644) -> bool:
    """Puts a file in place as a whole, and only if its bytes differ; answers whether they did. Stops with status 3."""
    try:
        if not os.path.islink(path) and read(path) == data:
            return False
        new = f"{path}.new"
        if os.path.lexists(new):
            os.unlink(new)
        descriptor = os.open(new, os.O_WRONLY | os.O_CREAT | os.O_EXCL | os.O_NOFOLLOW, mode)
        with open(descriptor, "wb") as file:
            file.write(data)
        os.replace(new, path)
    except OSError as error:
        raise Stop(f"cannot write {path}: {error.strerror}", Status.DEVICE) from error
    return True


def digest(data: bytes) -> str:
    """The SHA-256 of bytes, in hexadecimal."""
    return hashlib.sha256(data).hexdigest()


def file_digest(path: str) -> Optional[str]:
    """The SHA-256 of a regular file, or None if it is absent, no regular file, or cannot be read."""
    total = hashlib.sha256()
    try:
        if not os.path.isfile(path):
            return None
        with open(path, "rb") as file:
            for block in iter(lambda: file.read(1 << 20), b""):
                total.update(block)
    except OSError:
        return None
    return total.hexdigest()


# -- names -------------------------------------------------------------------------------------------------------------

def ninja_name(name: str) -> str:
    """The name as Ninja spells it: `./a//b/../c` is `a/c`. make's `//a` is `/a`."""
    if "/" not in name:
        return name or "."
    short = posixpath.normpath(name)
    return short[1:] if short.startswith("//") else short


def present(names: Collection[str]) -> Set[str]:
    """Those of the names that exist, by lists of their folders: a look at each takes ten times as long."""
    folders = {name[:name.rfind("/") + 1] for name in names}
    there = [at for at in folders if os.path.isdir(at or ".") and os.access(at or ".", os.R_OK)]
    return {at + name for at in there for name in os.listdir(at or ".")}.intersection(names)


def is_below(path: str, folder: str) -> bool:
    """Whether an absolute path is the folder or is below it."""
    return path == folder or path.startswith(folder.rstrip("/") + "/")


def folders(top: str) -> Iterator[str]:
    """The absolute paths of the folder `top` and of all folders below it; links are not followed."""
    work = [top]
    while work:
        at = work.pop()
        yield at
        try:
            with os.scandir(at) as entries:
                work += [entry.path for entry in entries if entry.is_dir(follow_symlinks=False)]
        except OSError:
            continue  # a folder that cannot be listed holds nothing that make could list
