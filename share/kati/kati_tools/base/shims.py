"""The user's PATH where `python3` is a shim of pyenv's, which puts folders of its own before PATH: that of the version,
its own programs, and those of its plugins. The user's make and ninja haven't them, and a value or a command that has
PATH would be another one than theirs."""
import os

# The variables by which pyenv tells where it is.
TOPS = ("_PYENV_INSTALL_PREFIX", "PYENV_ROOT")


def without_shims(path, tops):
    """A PATH without what a shim of pyenv's, which is in these folders, has put before it: once, as that of a shell
    which a shim has begun is the user's own."""
    folders = path.split(os.pathsep)
    at = next((at for at, one in enumerate(folders[:2]) for top in tops if one == os.path.join(top, "libexec")), None)
    if at is None or at and os.path.basename(os.path.dirname(os.path.dirname(folders[0]))) != "versions":
        return path
    end, seen = at + 1, set()
    while end < len(folders) and folders[end] not in seen and is_of_plugin(folders[end], tops):
        seen.add(folders[end])
        end += 1
    return os.pathsep.join(folders[end:])


def is_of_plugin(folder, tops):
    """Whether a folder has the programs of a plugin."""
    plugin, last = os.path.split(folder)
    return last == "bin" and any(os.path.dirname(plugin) == os.path.join(top, "plugins") for top in tops)


def put_back():
    """Gives this process, and what it runs, the user's PATH."""
    tops = [os.environ[name] for name in TOPS if os.environ.get(name)]
    if tops and "PATH" in os.environ:
        os.environ["PATH"] = without_shims(os.environ["PATH"], tops)
