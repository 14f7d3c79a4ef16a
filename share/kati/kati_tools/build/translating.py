"""A makefile's translation by kati, with the list of the files that exist."""
import functools
import os

from ..base import files
from ..makefile import sources
from . import asked_names, ninja_text
from ..base.own_files import TRANSLATED
from ..base.programs import NO_FILE, SHARE, UNFORESEEN, Stop, bytes_of, find_kati, run, run_into, say, text_of
from ..base.words import WRONG_USAGE, goals_of, macros_of

MACROS, RULES, WITH_BUILTIN = "builtin-macros.mk", "builtin-rules.mk", "with-builtin.mk"
# What kati-port writes beside a makefile, and how the makefile includes it: make may read it in another folder, and
# kati has no list of makefiles.
VALUES, GOALS = "kati-values.mk", "MAKECMDGOALS"
INCLUDE_VALUES = f"include $(dir $(lastword $(MAKEFILE_LIST))){VALUES}"
# What stands there above a call of `shell` that the recipe's own shell runs for kati.
FOR_SHELL = "for the recipe's shell"
# What kati writes of another makefile than the user's.
ASIDE = "aside.ninja.new"
# What a folder has in which another tool makes the makefile, or a Ninja file, and how.
MAKERS = (("configure", "run ./configure first"), ("configure.ac", "run autoreconf -i and ./configure first"),
          ("CMakeLists.txt", "cmake -G Ninja writes a Ninja file itself"),
          ("meson.build", "meson setup writes a Ninja file itself"))
# What is told by a list with what the build makes may change what the build makes; it doesn't go on for ever.
ROUNDS = 4
# kati's statuses where its run came to its end.
ENDED = (0, 1, 2)


def including_values(makefile):
    """How a makefile includes the values of this folder, which make finds from the makefile's own: two forms, of which
    the other one is for a folder with a blank in its path, where the last word of make's list may be but a part of the
    name, so that the list is taken for one name."""
    folder = os.path.dirname(makefile)
    values = os.path.join(os.path.relpath(".", folder), VALUES) if folder else VALUES
    beside = f"$(dir $(lastword $(MAKEFILE_LIST))){values}"
    behind_blank = f"$(subst ?,\\ ,$(dir $(subst $() ,?,$(strip $(MAKEFILE_LIST))))){values}"
    plain = INCLUDE_VALUES if not folder else for_both(beside)
    return plain, for_both(f"$(or $(wildcard {beside}),{behind_blank})")


def for_both(makes):
    """The lines by which make includes the values by this name, and kati by the one that they have in its folder."""
    return "\n".join(["ifdef MAKE_VERSION", f"include {makes}", "else", f"include {VALUES}", "endif"])


def default_makefile():
    """The makefile that kati reads without -f, or None."""
    return next((name for name in ("makefile", "Makefile") if os.path.isfile(name)), None)


def makes_makefile():
    """The makefile that make reads without -f, or None."""
    return "GNUmakefile" if os.path.isfile("GNUmakefile") else default_makefile()


def lister(asked, output=None, room=None):
    """What lists the files that exist, for a makefile and the words of its command line."""
    return sources.Lister(asked.files_from, output, room, asked.makefile or default_makefile(), macros_of(asked.words))


def listing(asked, makefiles=None):
    """The files that exist, for these makefiles, or for those that are guessed."""
    return lister(asked).listing(makefiles)


def tell_of_other(tool, makefile):
    """Tells of a makefile that make would read and kati doesn't; stops where there is none and it is seen how it is
    made."""
    if makefile is None and os.path.isfile("GNUmakefile"):
        say(tool, "make reads GNUmakefile here, and kati doesn't: name it by -f GNUmakefile")
    elif makefile is None and default_makefile() is None:
        for name, hint in MAKERS:
            if os.path.isfile(name):
                raise Stop(f"no makefile, but {name}: {hint}", 2)


def what_to_run():
    """What is to be run before make, where that is seen; else None."""
    return next((f"{name} is here: {hint}" for name, hint in MAKERS[:2] if os.path.isfile(name)), None)


def refuse_passing(makefile):
    """Stops at a makefile that can be read but once, as standard input: the tools read it several times."""
    is_there = makefile is not None and os.path.exists(makefile)
    if is_there and (makefile.startswith(("/dev/", "/proc/")) or not os.path.isfile(makefile)):
        raise Stop(f"{makefile} is no file that can be read again", WRONG_USAGE)


def with_builtin(makefile, room):
    """The name of a makefile in the folder `room`: make's usual macros, the makefile, and make's usual rules."""
    name = makefile or default_makefile()
    if name is None:
        raise Stop("no makefile", 2)
    copies = [os.path.join(room, one) for one in (MACROS, RULES)]
    three = [copies[0], name, copies[1]]
    if any(set(one) & set(" \t#$%*?[~") for one in three):
        raise Stop(f"--builtin: {' '.join(three)}: a name that `include` can't have", WRONG_USAGE)
    if not os.path.isfile(name):
        raise Stop(f"no makefile {name}", 2)
    os.makedirs(room, exist_ok=True)
    for copy, one in zip(copies, (MACROS, RULES)):
        files.replace(copy, files.read(os.path.join(SHARE, one)), room)
    top = os.path.join(room, WITH_BUILTIN)
    files.replace(top, "".join(f"include {one}\n" for one in three), room)
    return top


def word_of_goals(given):
    """The goals as a word for kati, where kati-port wrote down those of its own run, which make has anew in each."""
    is_given = any(word.startswith(f"{GOALS}=") for word in given)
    if is_given or f"\n{GOALS} :=" not in (files.read(VALUES) or ""):
        return []
    return [f"{GOALS}={' '.join(goals_of(given))}".replace("$", "$$")]


class Translation:
    """What kati said, or make in its place: its status, the file that has its Ninja text, and its messages; with the
    names that were left out of its list, and those that it asked for, None where that isn't told.

    The text takes long to read where it is large, so it is read where it is asked for first. That is to be before the
    next translation, which is written to the same file."""

    def __init__(self, status, path, said, dropped=frozenset(), asked=None, whose="kati"):
        self.status, self.path, self.said, self.dropped, self.asked = status, path, said, dropped, asked
        self.whose = whose

    def pieces(self):
        """Its Ninja text, as bytes in pieces that end with a line."""
        return files.pieces(self.path) if self.status == 0 else ()

    @functools.cached_property
    def text(self):
        """Its Ninja text."""
        return text_of(b"".join(self.pieces()))

    def read_now(self):
        """Reads its text, before the next translation is written to the same file."""
        return self.text

    @functools.cached_property
    def statements(self):
        """Its statements, which are built where they are asked for: that takes longer than the translation."""
        return ninja_text.statements(self.text)

    @functools.cached_property
    def heads(self):
        """What stands before the colons of its statements."""
        return ninja_text.Heads(self.pieces())

    @functools.cached_property
    def outputs(self):
        """The names that it makes."""
        return self.heads.outputs()


class Translator:
    """kati with its words, for one makefile; its files stand in the folder `room`. The program kati-asked is run in its
    place where it is given, and tells what kati asks for."""

    # The files that this run has put in place, and the makefiles for which make has told in it that it has no recipe:
    # without a port none.
    put, without_recipes = (), frozenset()

    def __init__(self, asked, room, program=None):
        refuse_passing(asked.makefile)
        self.kati, self.program = find_kati(asked.kati), program
        # The folder that kati runs in, where it isn't this one.
        self.room, self.folder = room, None
        self.makefile = with_builtin(asked.makefile, room) if asked.builtin else asked.makefile
        self.list = os.path.join(room, "files.txt.new")
        self.depth = ["--depth", str(asked.depth)] if asked.depth is not None else []
        self.options = [*self.depth, *(["-f", self.makefile] if self.makefile is not None else [])]
        self.words = [*asked.words, *word_of_goals(asked.words)]

    def command(self, program, *more):
        """The words of a run of kati, or of kati-asked."""
        return [program, *self.options, "--files", self.list, *more, "--", *self.words]

    def with_list(self, listing, dropped=frozenset()):
        """The translation by the files of a listing but these."""
        files.write(self.list, listing.data(dropped))
        command = self.command(self.program or self.kati)
        status, said = run_into(command, self.written, self.folder)
        said = text_of(said)
        if status < 0:
            raise Stop(f"{said}{os.path.basename(command[0])} was ended by signal {-status}", UNFORESEEN)
        if status == NO_FILE:
            # What can't be written is told as of any other file: it is written here.
            status, text, said = run(command, cwd=self.folder)
            files.write(self.written, bytes_of(text))
        asked = self.names_told(status) if self.program and status in ENDED else None
        return Translation(status, self.written, said, dropped, asked)

    def aside(self, makefile, words, folder=None):
        """The translation of another makefile, by its whole path, for these words, by the list of the last one; in a
        folder, or that of kati. What the last one wrote stays."""
        written = os.path.join(os.path.dirname(os.path.abspath(self.list)), ASIDE)
        command = [self.program, *self.depth, "-f", makefile, "--files", os.path.abspath(self.list), "--", *words]
        status, said = run_into(command, written, folder or self.folder)
        own = {os.path.abspath(self.list), makefile, *self.own_makefiles()}
        asked = [name for name in asked_names.cut_off(written) or [] if name not in own]
        return Translation(status, written, text_of(said), asked=asked)

    def own_makefiles(self):
        """The names of makefiles that the tool puts round the user's."""
        return [os.path.join(self.room, name) for name in (MACROS, RULES, WITH_BUILTIN)]

    def names_told(self, status):
        """The names that kati-asked wrote behind kati's text, which are cut off there; those of the tool's own files
        aside."""
        found = asked_names.cut_off(self.written)
        if found is None and status == 0:
            raise Stop(f"{self.program} writes no names behind a NUL, as kati-asked does")
        if found is None:
            return None
        own = {self.list, *self.own_makefiles()}
        return [name for name in found if name not in own]

    @property
    def written(self):
        """The file that kati writes by its standard output."""
        return files.new_name(TRANSLATED, os.path.dirname(self.list))

    def translate(self, listing, made=set, before=b""):
        """The translation by the files of a listing, but for what the build makes and the list of `before` hasn't.

        `made` is called for what the build of before makes, where that matters. A name that stands in the list because
        it was made once, and is made no more, or that doesn't because of that, would tell kati otherwise than the disk:
        so what is made is asked again until it stays."""
        unsure = listing.unsure(before)
        found = self.with_list(listing, unsure and unsure.intersection(made()))
        if found.status and found.dropped:
            found = self.with_list(listing)
        for _ in range(ROUNDS):
            dropped = unsure and unsure.intersection(found.outputs)
            if found.status or dropped == found.dropped:
                break
            found = self.with_list(listing, dropped)
        return found

    def check(self, path):
        """kati's status where it is asked by --check whether a file says what the makefile says, by the list of the
        last translation; and its words."""
        status, _, said = run(self.command(self.kati, "--check", os.path.abspath(path)), cwd=self.folder)
        return status, said

    def pools(self, translation):
        """The pools for commands of a translation; None where there are none, as without a port."""
        return None

    def made_first(self):
        """The files that are to be made first for values, of which nothing is known without a port."""
        return []

    def differs(self, command):
        """Whether a command is told to differ from make's, of which nothing is known without a port."""
        return False

    def makefiles(self, asked):
        """The makefiles by which the folders outside this one are listed, of the names that the translation asks for;
        None where these aren't known."""
        return None if asked is None else dict.fromkeys(asked)
