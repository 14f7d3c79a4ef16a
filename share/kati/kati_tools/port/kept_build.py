"""A build that kati-build keeps: the makefile translated, again where that is needed, and what ninja reads."""
import os
import re
import sys

from ..base import files, one_at_a_time, own_files, words
from ..base.programs import UNFORESEEN, Stop, bytes_of, find_asked, find_kati, say
from ..build import begun, first_build, insertions, ninja_text, ninja_tries, top_file, translating
from . import nothing_new

TOOL = "kati-build"
KATIS_FIRST_LINE = "# kati\n"
# Faults by what GNU make takes, which --port knows what to do about.
PORTED = re.compile(r"\[E(06|16|17|20|22|23)\]$", re.MULTILINE)


def refuse_words(asked, output):
    """Stops at words that no file which is made again can hold, and at a file that another program or a hand wrote."""
    if any("\n" in word for word in [output, *asked.words]):
        raise Stop("a word with a newline, which no Ninja file can hold", words.WRONG_USAGE)
    translating.refuse_passing(asked.makefile)
    there = files.read(output)
    if there and not there.startswith((own_files.FIRST_LINE, KATIS_FIRST_LINE)):
        raise Stop(f"{output} isn't kati-build's: remove it, or name another file by -o", words.WRONG_USAGE)


class Build:
    """What kati-build was asked for, and where its files are."""

    def __init__(self, asked):
        self.asked, self.output = asked, os.path.normpath(asked.output)
        self.room = os.path.splitext(self.output)[0] + own_files.ENDING
        self.translated = os.path.join(self.room, own_files.TRANSLATED)
        self.list, self.names = os.path.join(self.room, "files.txt"), os.path.join(self.room, "asked.txt")
        self.fault = os.path.join(self.room, own_files.FAULT)
        refuse_words(asked, self.output)
        if asked.as_made and not asked.anew:
            from ..build import as_made
            as_made.refuse_beside_others(self.output)
        self.first_build = first_build.FirstBuild(asked, self.output, self.room)
        # What values come from, and what is to be made first for them.
        self.values_from, self.first = [], []
        self.kati = find_kati(asked.kati)
        self.program = find_asked(asked.kati_asked, self.kati)
        # The files that count only where they come or go, None where the translation is looked at each time; and
        # whether it makes nothing but includes.
        self.looked_at, self.is_first = None, False
        self.translator = None
        # How often the ninja that runs this has had it translated; and the includes that rules make, each with whether
        # it was there before ninja could make it.
        self.tries, self.stood = 0, {}

    def makefile(self):
        """The makefile's name."""
        return self.asked.makefile or translating.default_makefile() or "the makefile"

    def command(self):
        """The words by which ninja has the translation made anew."""
        asked, tool = self.asked, os.path.abspath(sys.argv[0])
        # By the Python that runs now, whatever PATH has later, and without packages, which cost time.
        found = [sys.executable or "python3", "-S", tool, "--no-ninja", "-o", self.output]
        found += ["--files-from", asked.files_from, "--kati", self.kati]
        found += ["--kati-asked", self.program] if self.program else []
        # So that a difference from make's commands is no fault, and that it is known what ninja has tried to make.
        found += ["--by-ninja"]
        found += [word for word, is_on in (("--port", asked.port), ("--deps", asked.deps), ("--builtin", asked.builtin),
                                           ("--compile-commands", asked.compile_commands)) if is_on]
        found += ["-f", asked.makefile] if asked.makefile is not None else []
        found += ["--depth", str(asked.depth)] if asked.depth is not None else []
        return [*found, *asked.words, *(["--", f"-j{asked.jobs}"] if asked.port and asked.jobs is not None else [])]

    def makefiles(self):
        """The names that kati takes for the makefile, until one is there."""
        if self.asked.makefile is not None:
            return [self.asked.makefile]
        return ["makefile"] if os.path.isfile("makefile") else ["makefile", "Makefile"]

    def names_before(self):
        """What the translation of before asked for, or else what any one does; None where only a guess can tell. They
        serve until this one tells its own."""
        if self.program is None:
            return None
        return (files.read(self.names) or "").split("\n")[:-1] or self.makefiles()

    def names_now(self, found, listing):
        """What a translation asked for, or may have asked for where it doesn't tell; and what its values come from."""
        if found.status:
            return [*self.makefiles(), *(found.asked or [])]
        first = self.made_first(found)
        if self.asked.port:
            return [*self.translator.watched(found.asked or []), *first]
        told = found.asked
        if told is None:
            from ..makefile import includes
            told = includes.asked(self.makefiles(), listing.names)
        return [*self.makefiles(), *told, *self.values_from, *first]

    def made_first(self, found):
        """The files that a translation makes, that aren't there, and that values in recipes hang on: make comes to
        these once they are made. One that ninja was to make before this run, and that isn't there, its recipe doesn't
        make."""
        names = self.translator.made_first() or self.first
        if not names:
            return set()
        absent = {name for name in names if not os.path.lexists(name)}
        absent.intersection_update(map(os.path.normpath, found.outputs))
        return absent - top_file.inputs_in(files.read(self.output) or "") if self.asked.by_ninja else absent

    def new_translator(self):
        """kati with its words: by ported makefiles where they are asked for, else by those that are here, with the
        values that kati-port wrote brought up."""
        # What ports, and what knows of values, takes time to load.
        if self.asked.port:
            from .makefiles_of_build import PortedTranslator
            return PortedTranslator(self.asked, self.room, self.program)
        if self.asked.values and not os.path.isfile(translating.VALUES):
            raise Stop(f"--values wants --port, or a {translating.VALUES} that kati-port --write wrote",
                       words.WRONG_USAGE)
        if os.path.isfile(translating.VALUES):
            from . import kept_values
            kept_values.keep_true(self.asked, self.names_before() or self.makefiles())
            self.values_from, self.first = kept_values.inputs(), kept_values.made_first()
        return translating.Translator(self.asked, self.room, self.program)

    def translate(self):
        """Makes the translation and the file that ninja reads, alone in the folder; answers the status."""
        def say_waiting():
            say(TOOL, f"waits for another run that has {os.path.join(self.room, own_files.LOCK)}")
        with one_at_a_time.held(self.room, say_waiting) as is_first:
            try:
                nothing_new.drop_of_other_version(self)
                self.first_build.begin()
                status = self.translate_settled()
                if not status:
                    self.tell_of_left()
                    self.begin_log()
                return status
            finally:
                self.tidy(is_first)

    def translate_settled(self):
        """Translates until nothing has changed that was read meanwhile; answers the status."""
        if nothing_new.is_so(self):
            if self.asked.no_ninja:
                # Loaded where ninja asked for nothing alone: the next time a shell sees that.
                from . import shell_look
                shell_look.keep(self)
            return 0
        self.tries = ninja_tries.count(self.room) if self.asked.by_ninja else 0
        inputs, names = begun.Inputs(self.room), self.names_before() or self.makefiles()
        for _ in range(begun.TIMES):
            inputs.begin(names)
            self.translator = self.new_translator()
            inputs.take(self.translator.put)
            found, listing = self.by_its_names()
            includes = self.made_includes(found, listing)
            names = self.names_now(includes.made.found if includes else found, listing)
            changed = inputs.changed(names)
            if changed or self.has_other_files(found, listing, inputs.start):
                continue
            status = self.finish(found, listing, includes, names)
            changed = inputs.changed(names)
            if not changed:
                nothing_new.note(self, [*names, *listing.watched], listing.folders, inputs)
                return status
        if not changed:
            # A build that runs beside this one may make files all the time.
            return self.finish(found, listing, includes, names)
        raise Stop(f"{changed[0]} changes each time while it is read: run kati-build again when that is over")

    def has_other_files(self, found, listing, start):
        """Whether other files are there than those of a listing, as far as folders are newer than the start."""
        if not any(map(start.is_newer, listing.folders)):
            return False
        lister = translating.lister(self.asked, self.output, self.room)
        return set(lister.listing(self.translator.makefiles(found.asked)).names) != set(listing.names)

    def tidy(self, is_first):
        """Takes away what a run leaves that didn't come to its end: its new files; its folder where nothing was in
        it."""
        if not os.path.isdir(self.room):
            return
        if is_first and not os.path.exists(self.translated):
            one_at_a_time.remove(self.room)
        else:
            for name in (name for name in os.listdir(self.room) if name.endswith(".new")):
                files.remove(os.path.join(self.room, name))

    def made_before(self):
        """What the build of before makes."""
        return ninja_text.Heads([files.content(self.translated) or b""]).outputs()

    def by_its_names(self):
        """The translation, and the listing of the files that exist, for which the makefiles count that it asks for: it
        is made by those of before, and again where its own would give another list."""
        before, lister = files.content(self.list), translating.lister(self.asked, self.output, self.room)
        makefiles = self.translator.makefiles(self.names_before())
        listing = lister.listing(makefiles)
        for _ in range(translating.ROUNDS):
            found = self.translator.translate(listing, self.made_before, before)
            told = self.translator.makefiles(found.asked)
            if told in (None, makefiles):
                break
            makefiles, text = told, listing.text
            listing = lister.listing(makefiles)
            if listing.text == text:
                break
        return found, listing

    def finish(self, found, listing, includes, names):
        """Tells what kati said, and writes what came of it, with what makes includes, which depends on these names;
        answers the status."""
        self.looked_at, self.is_first = None, bool(includes) and includes.made.is_first
        if self.is_first:
            files.keep(self.fault, found.said, self.room)
        found = includes.made.found if includes else found
        sys.stderr.buffer.write(bytes_of(found.said))
        if found.status:
            for line in self.ignored_tabs(found):
                say(TOOL, line)
            self.say_kept(f"{found.whose} ended with status {found.status}")
            if not (self.asked.port or self.asked.no_ninja) and PORTED.search(found.said):
                say(TOOL, "is it a makefile for GNU make? --port builds by it as it is, and kati-port --write has kati "
                          "take it")
            return found.status
        if includes and includes.gone():
            self.say_kept(includes.gone())
            return 2
        if self.has_empty_builtins(found):
            return 2
        content = insertions.Content(found, self.asked.deps, includes, self.included_by_make(found),
                                     self.translator.pools(found))
        is_new = self.is_new(content)
        if is_new and not (self.is_first or self.is_right(content)):
            return UNFORESEEN
        included = set(includes.made.names if includes else ())
        names = top_file.watched(names, listing, self.output, included | self.made_first(found))
        restless = ninja_tries.restless(names, found.outputs - included, self.tries)
        if restless:
            say(TOOL, f"another text each time that ninja makes it, so that values hang on what it was: "
                      f"{' '.join(sorted(restless))}")
            names = [name for name in names if name not in restless]
        self.first_build.refuse(found)
        top = top_file.text(self, names, found, is_new, includes)
        if includes:
            from ..build import stood
            files.keep(os.path.join(self.room, own_files.STOOD), stood.text(self.stood), self.room)
            includes.write_marks()
        if not self.is_first:
            self.looked_at = content.hanging.looked_at() + (includes.looked_at() if includes else [])
        self.write(found, content, is_new, top)
        return 0

    def has_empty_builtins(self, found):
        """Whether a recipe line begins with a variable that make has built in and nobody defines, which is told."""
        if self.asked.port or self.asked.builtin:
            return False
        from ..build import empty_builtins
        told = empty_builtins.told(self.translator, found)
        sys.stderr.buffer.write(bytes_of(told))
        if told and os.path.exists(self.output):
            self.say_kept("nothing is written")
        return bool(told)

    def included_by_make(self, found):
        """The patterns of what the makefiles include, where that counts."""
        if not self.asked.deps:
            return []
        from ..makefile import includes
        folder, read = self.translator.folder or ".", found.asked or self.makefiles()
        paths = [path for path in (os.path.join(folder, name) for name in read) if os.path.isfile(path)]
        return [one for path in paths for one in includes.named_in(files.read(path))]

    def made_includes(self, found, listing):
        """The statements of includes that rules make, for a translation; None where there are none."""
        from ..build import made_includes
        before = files.content(self.list)
        looking = made_includes.Looking(self.translator, found)
        made = looking.made(lambda: self.translator.translate(listing, self.made_before, before))
        self.doubts = looking.doubts
        if made is None:
            return None
        from ..build import include_statements, stood
        self.stood = stood.now(os.path.join(self.room, own_files.STOOD), made, self.translator.put)
        return include_statements.Statements(made, self.room, stood.without_dependencies(self.stood, made))

    def is_new(self, content):
        """Whether the text isn't the one that is kept."""
        if content.is_katis:
            return not files.same(self.translator.written, self.translated)
        return content.data != files.content(self.translated)

    def say_kept(self, words):
        """Tells why the build of before is kept."""
        say(TOOL, words + (f"; {self.output} stays as it is" if os.path.exists(self.output) else ""))

    def is_right(self, content):
        """Whether kati says that a text still says what the makefile says. kati's own text needs no asking."""
        if content.is_katis and not self.asked.builtin:
            return True
        status, said = self.translator.check(self.staged(content, content.asked))
        if status:
            sys.stderr.buffer.write(bytes_of(said))
            self.say_kept("what it added to kati's text would change the build, as kati --check says by status "
                          f"{status}")
        return status == 0

    def staged(self, content, data):
        """The new file that has the translation's text with these bytes: kati's own stands there already."""
        return self.translator.written if content.is_katis else files.staged(self.translated, data, self.room)

    def write(self, found, content, is_new, top):
        """Replaces the files of which the bytes differ; the one that ninja reads, with the text `top`, is the last."""
        files.settle(self.translator.list, self.list)
        if found.asked is not None:
            files.keep(self.names, "".join(f"{name}\n" for name in found.asked), self.room)
        if self.asked.compile_commands and not self.is_first:
            from ..build import compile_commands
            compile_commands.keep(found.statements, self.room)
        if is_new:
            self.begin_anew()
            files.put_to_last(self.staged(content, content.data), self.translated)
        # ninja, which asks for no other run of it, needn't hear it each time.
        if is_new or not self.asked.no_ninja:
            for doubt in [*content.doubts, *self.doubts, *self.ignored_tabs(found)]:
                say(TOOL, doubt)
        files.keep(self.output, top, self.room)

    def begin_anew(self):
        """Has a run that is killed from now on begun again by ninja, where the statements may be of other names than
        the file says that ninja reads."""
        if os.path.isdir(os.path.join(self.room, own_files.MARKS)):
            files.keep(self.output, top_file.between(self), self.room)

    def tell_of_left(self):
        """Tells of the header dependencies that a port leaves to make."""
        if self.asked.port:
            from . import left_to_make
            for line in left_to_make.told(self.asked, self.room):
                say(TOOL, line)

    def begin_log(self):
        """Begins ninja's log where it has none."""
        def differs(command):
            self.translator = self.translator or self.new_translator()
            return self.translator.differs(command)
        self.first_build.end(self.translated, self.is_first, differs)
        if self.asked.no_ninja:
            self.first_build.tell([])

    def difference(self):
        """The line that sums up how kati's commands differ from make's, where a port found that; else None."""
        if not self.asked.port:
            return None
        from .port_record import Record
        kept = Record(self.asked, self.room).kept()
        return kept and kept["difference"]

    def ignored_tabs(self, found):
        """What to say of lines behind a tab that make takes and kati ignores, which a port indents."""
        from ..makefile import after_references
        return [] if self.asked.port else list(after_references.told(found.asked or self.makefiles(), found.said))
