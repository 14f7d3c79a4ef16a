"""Version control, asked in a copy of a folder as in the folder itself: its commands stand before others on PATH, and
go there first. What kati-build wrote there git is told to ignore."""
import os
import shlex

from ..base import files, own_files
from ..makefile import sources
from ..base.programs import run, which

COMMAND = """\
#!/bin/sh
copy={copy} real={real} here=$(pwd -P)
case $here/ in "$copy"/*) cd "$real/${{here#"$copy"}}" 2> /dev/null ;; esac
GIT_OPTIONAL_LOCKS=0 exec {program} "$@"
"""


def is_under_control(folder):
    """Whether a folder, or one above it, is under version control."""
    while not any(os.path.exists(os.path.join(folder, name)) for name in sources.CONTROL):
        if folder == os.path.dirname(folder):
            return False
        folder = os.path.dirname(folder)
    return True


def ignored(git, folder):
    """What git is to ignore: what it ignores by the user's own file for all repositories, and kati-build's files in a
    folder."""
    found = run([git, "config", "--path", "--get", "core.excludesFile"])[1].strip()
    usual = os.path.join(os.environ.get("XDG_CONFIG_HOME") or os.path.expanduser("~/.config"), "git/ignore")
    own = [name for name in os.listdir(folder) if own_files.is_own(folder, name)]
    path = found or usual
    return "\n".join([files.read(path) if os.path.isfile(path) else "", *own, ""])


class Control:
    """The commands for a copy that begins at `copy`, of what stands at `real`; this folder is `folder`. They stand in a
    folder of the room."""

    def __init__(self, folder, room, copy, real):
        self.room, self.programs = os.path.join(room, "control"), {}
        quoted = {"copy": shlex.quote(copy), "real": shlex.quote(real)}
        for name in sorted(one[1:] for one in sources.CONTROL) if is_under_control(folder) else []:
            program, path = which(name), os.path.join(self.room, name)
            if program:
                os.makedirs(self.room, exist_ok=True)
                words = [program, *(self.ignoring(program, folder) if name == "git" else [])]
                files.replace(path, COMMAND.format(program=shlex.join(words), **quoted), room)
                os.chmod(path, 0o755)
                self.programs[path] = program

    def ignoring(self, git, folder):
        """The words by which git ignores more."""
        path = os.path.join(self.room, "ignored")
        files.replace(path, ignored(git, folder), self.room)
        return ["-c", f"core.excludesFile={path}"]

    def environment(self):
        """What has them found."""
        return {"PATH": f"{self.room}:{os.environ.get('PATH', os.defpath)}"} if self.programs else {}

    def real_text(self, text):
        """A text that names the real commands in the place of these."""
        for path, program in self.programs.items():
            text = text.replace(path, program)
        return text.replace(f"{self.room}:", "")
