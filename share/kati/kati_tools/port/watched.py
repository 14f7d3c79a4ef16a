"""What values hang on, as words without blanks: each names something in the folder, and has a sum that tells whether it
is as it was.

| Word | What counts |
|---|---|
| `n.txt` | what is in a file; of a folder the names in it; whether it is there |
| `src/*.c` | the names that fit, as make's `wildcard` has them |
| `src/**`, `src/**/*.c` | the names below a folder, or those that fit |
| `<src/*.c` | what is in the files that fit |
| `@name` | where a link leads; of a file whether it is there |
| `!name` | whether it is there |
| `$NAME` | a variable of the environment, and whether it is there |
| `git:changes` | which files git has that aren't as in its last commit |
| `git:files` | which files git has |

A folder's time counts for nothing, nor what kati-build and kati-port have written."""
import fnmatch
import glob
import hashlib
import os

from ..base import files, own_files, scratch
from ..build import translating
from ..makefile import sources
from ..base.programs import bytes_of, run, which

VALUES = translating.VALUES
BELOW, CONTENT, LINK, THERE, ENVIRONMENT = "/**", "<", "@", "!", "$"
GIT, GIT_FILES = "git:changes", "git:files"
WILD = set("*?[")
NONE = "none"


def is_pattern(word):
    """Whether a word fits names other than itself."""
    return not WILD.isdisjoint(word)


def is_list(word):
    """Whether the names in folders are what counts of a word."""
    return is_pattern(word) and not word.startswith(CONTENT) or os.path.isdir(word)


def is_values_file(name):
    """Whether a name is that of kati-values.mk in this folder."""
    return os.path.basename(name) == VALUES and os.path.dirname(os.path.abspath(name)) == os.getcwd()


def others(names):
    """Those of these names of which neither kati-build nor kati-port wrote what has them."""
    return [name for name in own_files.others(names) if not (is_values_file(name) or scratch.is_room(name))]


def of_wildcard(patterns):
    """The words to watch for what make's `wildcard` gives for patterns: of a plain name, whether it is there."""
    return [one if is_pattern(one) else THERE + one for one in patterns.split()]


def fitting(patterns):
    """What make's `wildcard` gives for patterns where kati-build and kati-port haven't written anything."""
    found = []
    for pattern in patterns.split():
        # A name that begins with a dot fits only a pattern that does; glob has it so too.
        names = glob.glob(pattern.replace("[^", "[!")) if is_pattern(pattern) else [pattern] * os.path.lexists(pattern)
        found += sorted(others(names), key=bytes_of)
    return " ".join(found)


def walked(folder):
    """The folders from this one downwards, each with the names in it, as the copy of it has them in which make is
    asked."""
    for at, folders, names in os.walk(folder or "."):
        own = own_files.among(at, [*folders, *names])
        folders[:] = [one for one in folders if one not in sources.CONTROL and one not in own
                      and not scratch.is_room(os.path.join(at, one))]
        kept = [one for one in names if one not in sources.OWN and one not in own
                and (one != VALUES or not is_values_file(os.path.join(at, one)))]
        yield at, folders + kept


def below(word):
    """The names below a folder that fit, for a word with `**`."""
    folder, _, pattern = word.partition("**")
    pattern = pattern.lstrip("/").replace("[^", "[!") or "*"
    return [before + name for at, names in walked(folder.rstrip("/")) for before in [os.path.join(at, "")]
            for name in (names if pattern == "*" else fnmatch.filter(names, pattern))]


def fitted(word):
    """The names that fit a pattern of any kind."""
    return below(word) if "**" in word else fitting(word).split()


def text_in(name):
    """What tells a file, or the names in a folder, from others; None where it isn't there."""
    if os.path.isdir(name):
        there = others([os.path.join(name, one) for one in os.listdir(name) if one not in sources.OWN])
        return "\n".join(sorted(map(os.path.basename, there)))
    return files.read(name) if os.path.isfile(name) else "" if os.path.lexists(name) else None


def changes():
    """The names of the files in which git sees changes."""
    program = which("git")
    words = ["-c", "core.quotePath=false", "status", "--porcelain", "--untracked-files=no"]
    return run([program, *words], env={**os.environ, "GIT_OPTIONAL_LOCKS": "0"})[1] if program else None


def text_of(word):
    """What counts of what a word names, as a text; None where there is nothing of the name."""
    if word == GIT:
        return changes()
    if word == GIT_FILES:
        return "\0".join(git_files())
    if word.startswith(ENVIRONMENT):
        return os.environ.get(word[1:])
    if word.startswith(LINK):
        return os.path.realpath(word[1:]) if os.path.exists(word[1:]) else None
    if word.startswith(THERE):
        return "" if os.path.lexists(word[1:]) else None
    if word.startswith(CONTENT):
        return "\0".join(f"{name}\0{text_in(name)}" for name in sorted(fitted(word[1:])))
    return "\n".join(sorted(fitted(word))) if is_pattern(word) else text_in(word)


def sum_of(word):
    """A short sum of it; a word of its own where there is nothing."""
    text = text_of(word)
    return NONE if text is None else hashlib.sha256(bytes_of(text)).hexdigest()[:8]


def sums_of(words):
    """The sums of several words."""
    return {word: sum_of(word) for word in words}


def told(word, was):
    """What to say of a word that had another sum, in the form of `src/*.c: other files`."""
    name, now = word.lstrip(CONTENT + LINK + THERE), sum_of(word)
    if word in (GIT, GIT_FILES):
        return "git: other files have changes" if word == GIT else "git has other files"
    if word.startswith(ENVIRONMENT):
        return f"{word} is another one"
    if NONE in (was, now):
        return f"{name} {'is there now' if was == NONE else 'is gone'}"
    if is_pattern(word) and not word.startswith(CONTENT):
        return f"{name} fits other files"
    return f"{name} has other files" if os.path.isdir(name) else f"{name} has changed"


def first_changed(sums):
    """What to say of the first word that hasn't the sum any more that it had; None where all have."""
    return next((told(word, was) for word, was in sums.items() if sum_of(word) != was), None)


def folders_of(pattern):
    """The folders in which a pattern looks for names."""
    folder = os.path.dirname(pattern.partition("**")[0] if "**" in pattern else pattern)
    if "**" in pattern:
        return [at for at, _ in walked(folder)]
    if not is_pattern(folder):
        return [folder or "."]
    found = [one for one in glob.glob(folder.replace("[^", "[!")) if os.path.isdir(one)]
    return [*folders_of(folder), *found]


def inputs_of(word):
    """The files and folders of which one changes its time where a word gets another sum."""
    if word == GIT:
        return git_files()
    if word == GIT_FILES:
        return git_index()
    if word.startswith(ENVIRONMENT):
        # A plain ninja can't see that it changes.
        return []
    if word.startswith(CONTENT):
        return [*folders_of(word[1:]), *fitted(word[1:])]
    name = word.lstrip(LINK + THERE)
    if is_pattern(name):
        return folders_of(name)
    # A link that comes to lead elsewhere changes its folder alone, and so does a file that goes.
    folder = os.path.dirname(name) or "."
    if word.startswith(LINK) and os.path.isfile(name) and not os.path.islink(name) \
            or word.startswith(THERE) and os.path.lexists(name):
        return [folder]
    return [name, folder] if os.path.islink(name) else [name]


def git_index():
    """The file in which git keeps its list, if it has one."""
    program = which("git")
    status, name, _ = run([program, "rev-parse", "--git-path", "index"]) if program else (1, "", "")
    return [name.rstrip("\n")] if status == 0 else []


def git_files():
    """The files that git has."""
    program = which("git")
    found = run([program, "ls-files", "-z", "--recurse-submodules"])[1].split("\0") if program else []
    return [name for name in found if name]


def inputs(words):
    """The same of several words, each once."""
    return list(dict.fromkeys(name for word in words for name in inputs_of(word)))
