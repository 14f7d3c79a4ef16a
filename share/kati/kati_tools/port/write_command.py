"""kati-port --write, --diff and --values: a makefile that kati takes, from one that make takes."""
import argparse
import contextlib
import difflib
import os
import shlex
import sys

from ..base import at_work, files, programs, scratch, words
from ..makefile import above
from ..make import in_place, make_run
from ..build import translating
from . import double_colons, frozen_values, known, other_goals, port_report, renewing, rewriting, saved_meanwhile, \
    saving, writing
from .stuck import Stuck
from ..base.programs import DIFFERS, TOLD_AT_INTERRUPT, Stop, need, write_text

TOOL = "kati-port"
CHANGED = "the files are changed"


class Written:
    """What a port gives: the new texts of files by their names, and the files that make made first; what was read for
    that, and the text of the file of values."""

    def __init__(self, ported):
        real = ported.copy.real_text
        self.texts = {name: real(file.text()) for name, file in ported.ported.items()
                      if file.text() != file.before or name in ported.first.made or name in ported.first.remade}
        values = files.read(frozen_values.NAME)
        if values is not None and real(values) != files.read(ported.copy.real_path(frozen_values.NAME)):
            self.texts[frozen_values.NAME] = real(values)
        made = {name: files.read(name) for name in [*ported.first.made, *ported.first.remade] if name not in self.texts}
        self.made = {name: text if "\0" in text else real(text) for name, text in made.items()}
        self.times, self.read, self.values = ported.first.times, saved_meanwhile.Read(ported), real(values or "")

    def all(self):
        """All of them, those that make wrote first before others, so that none is out of date."""
        return dict(sorted({**self.texts, **self.made}.items(), key=lambda one: self.times.get(one[0], 0)))


def lines_of(text):
    """The lines of a text as diff and patch have them: a newline alone ends one."""
    lines = text.split("\n")
    return [f"{line}\n" for line in lines[:-1]] + ([lines[-1]] if lines[-1] else [])


def differences(texts):
    """The differences between files and their new texts, as diff tells them."""
    for name, text in sorted(texts.items()):
        before = files.read(name)
        old = f"a/{name}" if before is not None else "/dev/null"
        for line in difflib.unified_diff(lines_of(before or ""), lines_of(text), old, f"b/{name}"):
            yield line if line.endswith("\n") else f"{line}\n\\ No newline at end of file\n"


def told(ported, comparison):
    """The lines that say what was done."""
    name = ported.makefile
    found = [*port_report.did(ported), *ported.mender(double_colons.DoubleColons).differences(comparison)]
    yield from (f"{name}: {line}" for line in found)
    yield from (f"{name}: {line}" for line in comparison.told())
    given = [] if name in ("makefile", "Makefile") else ["-f", name]
    given += ["--depth", str(ported.for_kati.depth)] if ported.for_kati.depth is not None else []
    given += ["--deps"] if any(kind == "dependencies" for kind, _ in ported.did) else []
    words_for_build = ["kati-build", "--builtin", *given, *ported.run.goals, *ported.run.macros]
    yield f"{name}: {' '.join(map(shlex.quote, words_for_build))} builds it"


def ported_at(place, asked, room):
    """What is to be written, the lines that say what was done, and whether kati's commands are make's, where make is
    asked in a place."""
    leads = os.path.realpath(os.path.join(place.real, asked.makefile))
    with place.entered():
        made = known.Port(asked, place, room)
        if made.is_led_out:
            raise Stop(f"{asked.makefile} isn't ported: it is a link to {leads}, which others may read; port it there, "
                       "or put a copy in its place. kati-build --port builds by it as it is", 1)
        try:
            translation = rewriting.rewrite(made)
        except Stuck as stuck:
            lines = filter(None, [str(stuck), port_report.advice(made, stuck.fault)])
            raise Stop(place.real_text("\n".join([f"{asked.makefile} isn't ported", *lines])), 1) from None
        refuse_made_above(made)
        comparison = port_report.Comparison(made, translation)
        if not comparison.is_unchanged(lambda: saving.commands_again(made)):
            raise Stop(f"{asked.makefile} isn't ported: make's commands would change\n"
                       + place.real_text("\n".join(changes(comparison))), 1)
        written = Written(made)
        # A link in the place of the file of values is replaced.
        for name in filter(place.leads_out, set(written.texts) - {frozen_values.NAME}):
            raise Stop(f"{asked.makefile} isn't ported: {name} is a link to a file elsewhere, which others may read; "
                       "put a copy in its place. kati-build --port builds by it as it is", 1)
        return written, [place.real_text(line) for line in told(made, comparison)], comparison.is_same()


def refuse_made_above(made):
    """Stops where make writes makefiles anew, and more than those, above or beside this folder: what is written here
    would be without that."""
    first = made.first
    if first.remade and first.made_above:
        raise Stop(f"{made.makefile} isn't ported: make writes {' '.join(first.remade)} anew before anything, and "
                   f"{first.made_above[0]} with it; run make first", 1)


def ported(asked, room):
    """The same, where make can be asked."""
    return in_place.in_place_or_copy(room, above.texts_of(asked.makefile), lambda place: ported_at(place, asked, room))


def changes(comparison):
    """The lines that differ between make's commands before and after."""
    found = difflib.unified_diff(comparison.before, comparison.after[1], "before", "after", lineterm="", n=0)
    return [*found, *comparison.after[2].splitlines()[-3:]]


@contextlib.contextmanager
def telling_of_files():
    """Gives a list for what is written meanwhile. Where an interrupt ends it, or what tells of it can't be written, it
    is said whether files were changed."""
    writings = []

    def changed():
        return CHANGED if any(one.is_done for one in writings) else "no file was changed"

    TOLD_AT_INTERRUPT.append(changed)
    try:
        yield writings
    except OSError as error:
        if changed() == CHANGED:
            raise Stop(f"{programs.told(error)}; {CHANGED}") from error
        raise


def write(asked):
    """Ports one makefile; answers the exit status."""
    need("make")
    with telling_of_files() as writings:
        with at_work.telling(TOOL, rewriting.AT_WORK.format(asked.makefile)):
            beginning, (written, lines, is_same) = saved_meanwhile.ported_as_it_is(
                lambda room: ported(asked, room))
        lines = lines if written.texts else [f"{asked.makefile}: kati takes it as it is", *lines]
        if asked.diff:
            write_text("".join(differences(written.all())))
            sys.stderr.write("".join(f"{line}\n" for line in lines))
            return 0 if is_same else DIFFERS
        writings.append(writing.Writing(written.all()))
        writings[0].write(lambda: beginning.refuse_saved(written.read))
        write_text("".join(f"{line}\n" for line in lines))
    return 0 if is_same else DIFFERS


def run(given):
    """--write and --diff for the words of the command line."""
    if "=" in given.words[0]:
        raise Stop("name a makefile, and then goals and macros", words.WRONG_USAGE)
    files_from = given.files_from if given.files_from in ("git", "find") else os.path.abspath(given.files_from)
    asked = argparse.Namespace(makefile=words.from_here(given.words[0]), goals=words.goals_of(given.words[1:]),
                               kati=given.kati, macros=words.macros_of(given.words), diff=given.diff, depth=None,
                               has_deps=False, for_build=False, files_from=files_from,
                               known=other_goals.Known())
    return write(asked)


def run_values(given):
    """--values for the words of the command line."""
    makefiles = given.makefiles or [word for word in given.words[:1] if "=" not in word and os.path.isfile(word)]
    makefile = makefiles[0] if makefiles else translating.default_makefile()
    if makefile is None or not os.path.isfile(frozen_values.NAME):
        raise Stop(f"no {frozen_values.NAME if makefile else 'makefile'} here")
    rest = given.words[len(makefiles):]
    with telling_of_files() as writings:
        lines = renew_values(makefile, words.goals_of(rest), words.macros_of(rest), writings)
        write_text("".join(f"{line}\n" for line in lines))
    return 0


def renew_values(makefile, goals, macros, writings):
    """Makes kati-values.mk anew, where make is asked first; answers what to say of it. What is written then
    stands in the list `writings`."""
    need("make")
    with scratch.room("kati-port-") as room:
        def renewed(place):
            run = make_run.MakeRun(makefile, goals, macros, room, place.environment())
            with place.entered():
                return renewing.renew(run, room, place.real_text)

        text, doubts = in_place.in_place_or_copy(room, above.texts_of(makefile), renewed)
    before = files.read(frozen_values.NAME)
    if text == before:
        return [f"{frozen_values.NAME}: as before", *doubts]
    writings.append(writing.Writing({frozen_values.NAME: text}))
    writings[-1].write()
    count = sum(line not in before.splitlines() for line in text.splitlines() if not line.startswith("# "))
    words_for_count = "1 value is another" if count == 1 else f"{count} values are others"
    return [f"{frozen_values.NAME}: {words_for_count}", *doubts]
