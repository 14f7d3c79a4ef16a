"""Whether all is as it was when kati-build last saw that nothing is new, as a shell sees it: where it is, ninja starts
no Python, whose start takes longer than all else then.

It is the same question that `nothing_new` asks, asked more strictly: each file that counts has the times, the length
and the place that it had, each folder has the same names of the same kinds, and the variables of the environment that
count have their values. Where one isn't so, or the shell can't tell, kati-build looks itself. So the look is written
where that has found nothing new, and has nothing of a build for which a shell can't ask, as git."""
import os
import shlex

from ..base import files, own_files
from ..base.programs import bytes_of, run_into, text_of
from ..build import top_file, translating, unchanged
from ..makefile import outside
from . import nothing_new

# What tells a file from another one, and the names in a folder with their kinds; a name has no slash, so that each
# ends where two of them stand.
OF_FILE, OF_NAME = "%.9Y %.9Z %s %i", "%Y %p//\\n"
# What shells set by themselves, whatever the environment has: by their names, and by how others begin.
OF_SHELLS = {"_", "COLUMNS", "DIRSTACK", "EUID", "FUNCNAME", "GROUPS", "HISTCMD", "HOSTNAME", "HOSTTYPE", "IFS",
             "LINENO", "LINES", "MACHTYPE", "OLDPWD", "OPTARG", "OPTERR", "OPTIND", "OSTYPE", "PATH", "PIPESTATUS",
             "PPID", "PS1", "PS2", "PS3", "PS4", "PWD", "RANDOM", "SECONDS", "SHELL", "SHELLOPTS", "SHLVL", "SRANDOM",
             "TERM", "UID"}
OF_EACH_SHELL = ("BASH", "COMP_", "EPOCH", "KSH", "ZSH")
TEXT = "seen=$(\n{look}\n) && [ \"$seen\" = {seen} ] && echo {same}\n"


def is_for_shell(word):
    """Whether the shell can tell that a word which is watched has the sum that it had: by files, names in folders and
    the environment. Where a link leads, and what git says, it can't."""
    from . import watched
    return word != watched.GIT and not word.startswith(watched.LINK)


def is_as_it_is(name):
    """Whether shells hand on a variable of the environment as it is."""
    is_name = name.isidentifier() and name.isascii()
    return is_name and name not in OF_SHELLS and not name.startswith(OF_EACH_SHELL)


def variables(words):
    """The variables of the environment among words that are watched; None where the shell can't tell of one."""
    from . import watched
    found = [word[len(watched.ENVIRONMENT):] for word in words if word.startswith(watched.ENVIRONMENT)]
    are_names = all(map(is_as_it_is, found))
    # With a line's end in a value two of them could be taken for others.
    return found if are_names and not any("\n" in os.environ.get(name, "") for name in found) else None


def of_values(build):
    """The words that are watched for values, of a port or of kati-values.mk."""
    if build.asked.port:
        from .port_record import Record
        kept = Record(build.asked, build.room).kept()
        return list(kept["watched"]) if kept else []
    if os.path.isfile(translating.VALUES):
        from . import frozen_values, kept_values
        text = kept_values.values()
        return [*frozen_values.words_of(text), *frozen_values.variables(text)]
    return []


def own_names(build):
    """The files of these tools' own that count, beside those that are noted."""
    own = [translating.VALUES, *(os.path.join(build.room, name) for name in (own_files.VERSION, *nothing_new.NOTED))]
    ported = nothing_new.makefiles(build) if build.asked.port else ()
    # A link there leads to header dependencies, which are noted by their own names.
    return own + [name for name in ported if not os.path.islink(name)]


def looked_at_outside(build):
    """The makefiles and folders by which folders outside this one were found."""
    lines = (files.read(os.path.join(build.room, outside.RECORD)) or "").split("\n")
    return [name for line in lines[1:3] for name in line.split("\0") if name]


class Counting:
    """What counts for a build, by its kind: folders, files, names of which none is there, and those that count where
    they come or go."""

    def __init__(self, build, noted):
        # A makefile that comes to be read first stands in this folder, whatever the list of files says.
        self.folders, self.files, self.absent = dict.fromkeys([".", *noted.folders]), [], []
        self.looked_at = [(one[1:], one[0] == unchanged.THERE) for one in noted.looked_at]
        for kind, name in noted.names():
            self.take(kind, name)
        for name in [*own_names(build), *looked_at_outside(build)]:
            self.take(unchanged.kind(name), name)

    def take(self, kind, name):
        """Takes in a name."""
        if kind == unchanged.FOLDER:
            self.folders[name] = None
        else:
            (self.files if kind == unchanged.FILE else self.absent).append(name)

    def lines(self):
        """The commands by which a shell tells of them."""
        yield from (f"[ ! -e {word} ] && [ ! -L {word} ]" for word in map(top_file.word, self.absent))
        yield from (f"[ {'' if is_there else '! '}-e {top_file.word(name)} ]" for name, is_there in self.looked_at)
        yield f"LC_ALL=C stat -L -c '{OF_FILE}' -- {' '.join(map(top_file.word, self.files))}"
        if self.folders:
            words = " ".join(map(top_file.word, self.folders))
            yield f"LC_ALL=C find -H {words} -mindepth 1 -maxdepth 1 -printf '{OF_NAME}'"


def commands(build):
    """The commands by which a shell looks, which end well where it can tell; None where it can't."""
    noted, words = unchanged.Noted(build.room), of_values(build)
    environment = variables(words)
    if build.asked.files_from == "git" or environment is None or not all(map(is_for_shell, words)) or not noted.read():
        return None
    lines = ["pwd -P", *(f"printf '%s\\n' \"${{{name}+=}}${{{name}-}}\"" for name in environment)]
    lines += Counting(build, noted).lines()
    return None if any("\n" in line for line in lines) else " &&\n".join(lines)


def seen(build, look):
    """What the shell sees by these commands; None where it can't tell."""
    paths = [files.new_name(one, build.room) for one in (own_files.LOOK, own_files.LOOK + ".seen")]
    files.write(paths[0], bytes_of(look))
    status, said = run_into([top_file.SHELL, paths[0]], paths[1])
    return None if status or said else text_of(files.content(paths[1]) or b"")


def keep(build):
    """Writes the look, where the shell can tell, and nothing is new behind what it has seen."""
    path, look = os.path.join(build.room, own_files.LOOK), commands(build)
    told = look and seen(build, look)
    if told and nothing_new.is_so(build):
        # What a shell takes from a command has no lines' ends behind it.
        text = TEXT.format(look=look, seen=shlex.quote(told.rstrip("\n")), same=top_file.SAME)
        files.keep(path, text, build.room)
    else:
        files.remove(path)
