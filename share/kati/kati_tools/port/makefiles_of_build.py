"""kati-build --port: makefiles that are ported without a change of the user's, in the folder of kati-build's own.

kati runs in a folder in which the ported makefiles have the names that they have here, so that what it reads is
ported, and what it writes is of this folder. A record says what the port came from: while all of that is as it was,
so is the port."""
import argparse
import functools
import os
import shutil

from ..base import at_work, files, own_files, scratch, words
from ..makefile import above
from ..build import begun, comparing, inner_makes, translating
from . import dependency_includes, frozen_values, other_words, watched
from .port_record import FOLDER, Record
from ..base.programs import Stop, find_kati, inside, need, say

TOOL = "kati-build"


class Ported:
    """The ported makefiles of a build, in the folder `room`."""

    def __init__(self, asked, room):
        self.asked, self.room, self.record = asked, room, Record(asked, room)
        self.stuck, self.whose, self.folder, self.is_new = None, None, None, False
        # The line that sums up how kati's commands differ from make's; None where they don't.
        self.difference = None
        # The macros of the command line that stand in the makefile, which overrides them; and the files that this run
        # has put in their places.
        self.taken, self.put = [], []
        # The makefiles for which make has just told that it has no recipe.
        self.without_recipes = set()

    def bring_up(self):
        """Ports again where that is needed."""
        kept = self.record.kept()
        if kept is None or not self.record.has_these_words(kept):
            kept = other_words.OtherWords(self.record).bring_back() or kept
        why = None if kept is None else self.record.changed(kept)
        if kept is not None and why is None and not self.asked.values:
            self.folder = os.path.join(self.room, FOLDER, kept["folder"])
            self.difference, self.taken = kept["difference"], kept["taken"]
            return
        if why:
            say(TOOL, f"{why}: make is asked again")
        self.port(kept)

    def port(self, kept, is_anew=False):
        """Ports; once more where something has changed meanwhile that the port came from. Where it `is_anew`, make is
        asked for all, whatever it told for other goals."""
        need("make")
        self.is_new, before = True, None
        for _ in range(begun.TIMES):
            start = begun.Start(self.room)
            before = self.port_once(kept, start, before, is_anew or self.asked.values)
            if before is None:
                return
            changed = next((word for word in before if any(map(start.is_newer, watched.inputs_of(word)))), "a file")
        raise Stop(f"{changed} changes each time while make is asked: run kati-build again when that is over")

    def outcome(self, room, known):
        """What comes of a port that begins with what is known."""
        # Loaded here alone, since it takes time, and most runs port nothing.
        from ..make import in_place
        from . import port_outcome
        asked = argparse.Namespace(makefile=self.record.makefile, goals=words.goals_of(self.asked.words),
                                   macros=words.macros_of(self.asked.words), kati=self.asked.kati,
                                   depth=self.asked.depth, files_from=self.asked.files_from, has_deps=True,
                                   for_build=True, known=known)
        with at_work.telling(TOOL, port_outcome.AT_WORK.format(asked.makefile)):
            return in_place.in_place_or_copy(room, above.texts_of(asked.makefile),
                                             lambda place: port_outcome.of_port(place, asked, room))

    def port_once(self, kept, start, before, is_anew):
        """Ports, and writes what came of it, where nothing is newer than the start but by sums that `before` has; else
        answers the sums of what the port came from."""
        from . import other_goals
        known = other_goals.kept(self.record, is_anew)
        with scratch.room("kati-build-") as room:
            found = self.outcome(room, known)
            if known.is_doubted(found.stuck, found.found.get("differing", ())):
                return self.port_once(kept, start, before, True)
            self.stuck, self.whose, self.difference, self.taken = (
                found.stuck, found.whose, found.difference, found.taken)
            self.without_recipes = set(found.without_recipes)
            made = [word for word in found.watched if word.lstrip(watched.THERE) in found.made]
            sums = watched.sums_of(word for word in found.watched if word not in made)
            if sums != before and any(map(start.is_newer, watched.inputs({**known.watched, **sums}))):
                return sums
            if not self.stuck:
                sums.update(self.written(found, sums))
        if not self.stuck:
            sums.update(watched.sums_of(made))
            self.note(found, sums, kept)
            other_goals.keep(self.record, known, found.found, sums)
        return None

    def note(self, found, sums, kept):
        """Notes what a port came from, by these sums, and what it `found`, and tells what there is to say of it."""
        written = {os.path.relpath(name, os.path.join(self.room, FOLDER)): watched.sum_of(name)
                   for name in files_below(self.folder)}
        self.record.keep({**self.record.given(), "watched": sums, "written": written, **found.kept()})
        for line in found.report if kept is None or kept["report"] != found.report else []:
            say(TOOL, line)

    def written(self, found, sums):
        """Writes what came of a port, which had these sums before; answers those of lists of names, where it adds but
        what make had made when it told of them."""
        is_known = bool(found.made) and set(found.made) <= set(found.by_rules)
        lists = [word for word in sums if watched.is_list(word)] if is_known else []
        before = watched.sums_of(lists)
        self.write(found)
        return watched.sums_of(word for word in lists if before[word] == sums[word])

    def write(self, found):
        """Writes the ported makefiles, and into this folder what make makes of makefiles before it reads them."""
        other_words.OtherWords(self.record).put_aside()
        self.folder = os.path.join(self.room, FOLDER, found.folder)
        for name in [".", *found.folders]:
            os.makedirs(os.path.join(self.folder, name), exist_ok=True)
        for name, text in found.texts.items():
            place = os.path.normpath(os.path.join(self.folder, name))
            os.makedirs(os.path.dirname(place), exist_ok=True)
            files.keep(place, text, self.room)
        for name, kept in found.made.items():
            if kept is None:
                os.makedirs(name, exist_ok=True)
            elif not os.path.exists(name):
                os.makedirs(os.path.dirname(name) or ".", exist_ok=True)
                shutil.copy2(kept, name)
                self.put.append(name)

    def keep_absent(self, names):
        """Has the record know the includes that kati asked for and that aren't there: one that comes into being is
        ported too."""
        kept = self.record.kept()
        absent = {name: watched.NONE for name in names if not os.path.exists(name) and name not in kept["watched"]
                  and not dependency_includes.is_one(name)}
        if absent:
            kept["watched"].update(absent)
            self.record.keep(kept)

    def lacks(self, names):
        """Whether one of the names that kati asked for is there, and hasn't been ported: as one that a wildcard fits by
        now. Header dependencies are read where they are."""
        kept = self.record.kept()["watched"]
        return any(os.path.isfile(name) and name not in kept and not os.path.lexists(os.path.join(self.folder, name))
                   and not dependency_includes.is_one(name) for name in names)

    def link_dependencies(self, names):
        """Has kati read header dependencies where they are, by links in the folder of the ported makefiles; answers
        whether there are more now, and of these one is there."""
        top, found = os.path.join(os.path.abspath(self.room), FOLDER), False
        for name in filter(dependency_includes.is_one, names):
            place = os.path.abspath(os.path.join(self.folder, name))
            if not os.path.isabs(name) and place.startswith(f"{top}/") and not os.path.lexists(place):
                os.makedirs(os.path.dirname(place), exist_ok=True)
                os.symlink(os.path.relpath(os.path.abspath(name), os.path.dirname(place)), place)
                found = found or os.path.isfile(name)
        return found

    def inputs(self, names):
        """The files and folders that the translation depends on, of those names that it asked for in the folder of the
        ported makefiles; and those that the port and its values came from. By the lock's whole path a folder that is
        moved is known."""
        found = [name for name in names if os.path.normpath(name) != frozen_values.NAME]
        self.keep_absent(found)
        lock = os.path.join(os.path.realpath(self.room), own_files.LOCK)
        return [*found, *watched.inputs(self.record.kept()["watched"]), lock]


def files_below(folder):
    """The files below a folder, but links."""
    paths = (os.path.join(at, name) for at, _, names in os.walk(folder) for name in names)
    return [path for path in paths if not os.path.islink(path)]


class PortedTranslator(translating.Translator):
    """kati with its words, in the folder of the ported makefiles."""

    def __init__(self, asked, room, program):
        self.ported, self.place, self.program = Ported(asked, room), os.path.abspath(room), program
        self.ported.bring_up()
        self.go_in()

    @property
    def put(self):
        """The files that this run has put in place."""
        return self.ported.put

    @property
    def without_recipes(self):
        """The makefiles for which make has told, in this run, that it has no recipe."""
        return self.ported.without_recipes

    def go_in(self):
        """Makes this kati in the folder of the ported makefiles, as far as there are any."""
        self.list, self.makefile = os.path.join(self.place, "files.txt.new"), None
        if self.ported.stuck is not None:
            files.write(self.list, b"")
            return
        given = argparse.Namespace(**vars(self.ported.asked))
        given.kati, given.makefile = find_kati(given.kati), self.ported.record.makefile
        # Those that the makefile overrides stand in it.
        given.words = [word for word in given.words if words.name_of(word) not in self.ported.taken]
        with inside(self.ported.folder):
            super().__init__(given, ".", self.program)
        self.words.append(inner_makes.word(given.jobs, words.macros_of(self.ported.asked.words)))
        self.folder = os.path.abspath(self.ported.folder)
        self.list = os.path.join(self.place, "files.txt.new")

    def ports_again(self):
        """Ports again what this run hasn't ported, and kati refuses: a value that was found again may have it take
        another branch. Answers whether it did, and kati has makefiles now."""
        if self.ported.is_new:
            return False
        self.ported.port(self.ported.record.kept(), is_anew=True)
        self.go_in()
        return self.ported.stuck is None

    def translate(self, listing, made=set, before=b""):
        """kati's translation; its fault where the port is stuck."""
        found = None if self.ported.stuck is not None else self.linked(listing, made, before)
        is_new = found is not None and (found.status == 2 or self.ported.lacks(found.asked or []))
        if is_new and self.ports_again():
            found = self.linked(listing, made, before)
        if self.ported.stuck is not None:
            return translating.Translation(2, None, self.ported.stuck, whose=self.ported.whose)
        return found

    def linked(self, listing, made, before):
        """kati's translation, which reads header dependencies where they are."""
        found = super().translate(listing, made, before)
        if self.ported.link_dependencies(found.asked or []):
            found = super().translate(listing, made, before)
        return found

    def pools(self, translation):
        """A pool for commands that run make, or for all where make would run one at a time."""
        found = inner_makes.Pools(translation.statements, self.ported.record.kept()["not parallel"])
        return found if found.lines else None

    def made_first(self):
        """The files that are to be made first for values."""
        return frozen_values.made_first(files.read(os.path.join(self.ported.folder, frozen_values.NAME)) or "")

    @functools.cached_property
    def differing(self):
        """kati's commands that are told to differ from make's; None where all do, by their environment."""
        return self.ported.record.kept()["differing"]

    def differs(self, command):
        """Whether a command is told to differ from make's."""
        pieces = comparing.unwrapped(command)
        return self.differing is None or any(text.strip() in self.differing for text in pieces)

    def makefiles(self, asked):
        """The ported makefiles with their bytes, whichever were asked for: by their values a path outside is known."""
        walked = os.walk(os.path.join(self.place, FOLDER))
        paths = [os.path.join(at, name) for at, _, names in walked for name in names]
        return {path: files.content(path) for path in paths}

    def watched(self, asked):
        """What the translation, which asked for these names, the port and the values depend on."""
        return self.ported.inputs(asked)
