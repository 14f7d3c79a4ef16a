"""A first build, for which ninja has no log: it leaves what make would leave of the files that exist."""
import os

from ..base import files, own_files
from ..base.programs import need, say, which
from . import ninja_words

TOOL = "kati-build"
LOGS = (".ninja_log", ".ninja_deps")


class FirstBuild:
    """Begins ninja's log in the folder `room`, for the Ninja file `output`, as was asked for."""

    def __init__(self, asked, output, room):
        self.asked, self.output, self.room = asked, output, room
        self.logs = [os.path.join(room, name) for name in LOGS]
        self.untaken = os.path.join(room, own_files.UNTAKEN)
        # Whether the log lacks what existed before; then the statements, with what was taken of them, and how many
        # weren't, by the reasons.
        self.is_so, self.graph, self.taken, self.left = False, None, {}, {}
        # The files that ninja itself has built.
        self.built = set()

    def begin(self):
        """Looks whether ninja has a log."""
        self.is_so = os.path.exists(self.untaken) or not any(map(os.path.lexists, self.logs))

    def has_ninja(self):
        """Whether the ninja is there whose log is to be written."""
        return bool(which(os.environ.get("NINJA") or "ninja"))

    def refuse(self, translation):
        """Stops before a build that would take or rebuild files that exist, and can't tell what they are."""
        if not self.is_so or self.asked.anew or self.asked.by_ninja:
            return
        # Loaded for a first build alone, since it takes time.
        from . import as_made
        if as_made.makes_what_exists(translation):
            as_made.refuse_beside_others(self.output)
            if self.has_ninja() or not self.asked.no_ninja:
                as_made.refuse_unknown_kind(need("ninja"))

    def end(self, translated, is_of_includes, differs):
        """Begins the log by what exists of what kati `translated`, or drops it where all is to be rebuilt. Where the
        statements are those of includes alone, the log is written for the others once they are known."""
        if self.asked.anew:
            for name in [*self.logs, self.untaken]:
                files.remove(name)
        if not (self.is_so or self.asked.anew):
            if self.asked.as_made:
                say(TOOL, "--as-made: Ninja has a log here already, which stays as it is")
            return
        from . import as_made
        if as_made.any_exists(translated):
            self.graph = as_made.Graph(files.read(translated))
            if not self.asked.anew and self.has_ninja():
                self.built = as_made.built(self.room)
                self.taken, self.left = as_made.take(self.room, self.graph, differs, self.built)
        if is_of_includes and not self.asked.anew:
            files.write(self.untaken, b"")
        else:
            files.remove(self.untaken)

    def tell(self, more):
        """Tells which files that exist stay as they are in the build by these words of ninja's, and which are
        rebuilt."""
        goals = ninja_words.targets(more)
        if self.graph is None or goals is None:
            return
        from . import standing_files
        for line in standing_files.Standing(self.graph, goals, self.taken, self.built, self.room).lines():
            say(TOOL, line)
        if self.left:
            say(TOOL, "rebuilt for " + ", ".join(f"{why}: {number}" for why, number in self.left.items()))
