"""The command kati-compare: the commands that make would run beside those of kati's Ninja file."""
import re
import sys
from collections import Counter

from ..base import files, interrupting, scratch, words
from ..make import make_commands, shell_reading, shell_text
from . import calls_of_recipes, compared_environment, empty_builtins, scratch_builds, translating
from ..make.command_lists import Compared, alone
from ..base.programs import Stop, bytes_of, ending, need, run, say, write_text

TOOL = "kati-compare"
# What `same` is worth where make had macros of the command line too, and what is said of includes that make makes.
SHARED = "; make had the macros of the command line too, see --words-for-kati"
UNMADE = """\
not compared: make would first make what it includes, and read it; kati reads what is there. `make -n` makes it by
"""
MOST_SHOWN = 5

ABOUT = """\
Compares the commands that make would run from nothing with those of the Ninja file that kati
writes, each without the shell round it, whatever their order. Without --build no line of a recipe
is run; what $(shell ..) says is, since make is asked."""

MORE = """\
what is said:
  same: N commands      both have the same commands, each as often. Blanks between words don't count;
                        where they alone differ, this is said, also of values that commands have in
                        their environment for their targets. Macros of the command line are make's
                        too, so `same` doesn't say that make has these values: --words-for-kati does.
                        Calls that the recipe's own shell runs for kati after a port are named, and
                        make has kati's text for them
  nothing to compare    neither has a command
  not compared          make would first make an include that isn't there or is out of date, and the
                        commands that do so: what it then reads, kati doesn't. `make -n` makes them
  else                  lines with - are make's alone, lines with + kati's alone, and a count. Such lines
                        may tell of variables in the environment of commands: those that make
                        exports, as `export A` under `ifdef MAKE_VERSION`, and those that kati has
                        by SHELL. Where make exports all, those count that lines with `export` name,
                        and that commands, scripts or inner makefiles ask for
  With --build, a line with ! is a file that has other bytes; where both had to be built in copies
  of the folder, a line on standard error says why.

how make is asked:
  make -n -B -r -R -f SUFFIXES -f - GOALS MACROS SHELL=noop < MAKEFILE
  SUFFIXES is a file with the suffixes that kati begins with. `-f -` keeps make from making its
  makefile again; a line before the makefile puts its name into MAKEFILE_LIST. noop, a shell that
  does nothing for a recipe, keeps it from running lines with $(MAKE), and runs what $(shell ..)
  says. What make includes it makes anew, for -B; those commands count where kati has them too, and
  are asked for by --trace where make doesn't print them. A backslash and its newline in a recipe
  are joined as kati joins them. Where it drops circles, it is asked once more, with `-o FILE` for
  each file that has nothing left to be made from: by -B alone it would run the recipe. The
  environment is the user's own, without what a make hands on to another; kati takes no macros from
  it, so what make takes is told. With --builtin make is asked without `-r -R`, and in both builds it
  has its own rules in any case. What its commands have in their environment two targets tell that
  stand behind the makefile: make is asked for them without `-n -B`, which values may come from, and
  noop runs nothing then, too. Where variables may have another value for another target, all recipes
  tell it in the same way. A makefile by which make has another shell than noop, as by `override
  SHELL`, is refused with its line (status 1), before a line may run.

environment:
  KATI, MAKE, NINJA   the programs kati, make and ninja
  KATI_COPIES         where it is set, --build builds in copies of the folder

examples:
  kati-compare                      the first target of the makefile
  kati-compare all install          all commands of both goals
  kati-compare --builtin -f lua.mk  make by its own rules, kati by those of share/kati
  kati-compare --build              builds both ways, the tree untouched, and compares the bytes
  kati-port --macros Makefile | xargs kati-compare --words-for-kati       whether the words hold

exit status:
  0   the same, or nothing to compare
  1   they differ, or aren't compared; --build: a build failed, or files differ
  2   the makefile has a fault, as kati says; or, without --builtin, a recipe line begins with a
      variable that make has built in, as $(CC), and no makefile defines it
  3   a file can't be read, a program isn't there, or make has a fault where kati has none
  4   kati ran out of memory
  64  wrong usage
  70  a fault of the tool itself
  130 interrupted, or ended by SIGTERM or SIGHUP"""


EXPORTED = re.compile(r'(?:\w+="(?:\\.|[^"\\])*" )+')


def parser():
    """The command line of kati-compare."""
    made = words.Parser(prog="kati-compare", description=ABOUT, epilog=MORE,
                        usage="kati-compare [--build] [--words-for-kati] [--builtin] [--files-from git|find|FILE]\n"
                              "                    [--kati PROGRAM] [KATI WORDS]")
    made.add_argument("--build", action="store_true",
                      help="builds by make and by ninja, each so that what it writes goes elsewhere, from as far up as "
                           "the makefiles name ../, and compares the files that came into being")
    made.add_argument("--words-for-kati", action="store_true",
                      help="gives the macros NAME=VALUE to kati alone, so that it shows whether they are what make has "
                           "by itself")
    words.add_builtin(made)
    words.add_files_from(made)
    words.add_kati(made)
    words.add_kati_words(made)
    return made


def unwrapped(command):
    """The commands that a command of kati's holds, each without the shell round it."""
    pieces = shell_text.pieces(command)
    return [command] if pieces is None else [shell_reading.unprinted(piece.text) for piece in pieces]


def shell_of(commands):
    """What kati has for $(SHELL): the words before the flags of the first piece, without the variables that
    kati-port puts there."""
    for command in commands:
        for piece in shell_text.pieces(command) or []:
            return EXPORTED.sub("", piece.shell).split(" -")[0]
    return "/bin/sh"


def ninja_commands(translation, room):
    """The commands of ninja -t commands on kati's text."""
    path = f"{room}/compared.ninja"
    files.replace(path, translation.text, room)
    status, out, said = run([need("ninja"), "-f", path, "-t", "commands"])
    if status:
        raise Stop(f"ninja refuses what kati wrote: {said.strip()}")
    return [line for line in out.split("\n") if line]


def besides(before, said):
    """What make prints that is no command of the goals: the lines before it makes them, and those of $(info ..) in
    recipes, which kati writes on standard error."""
    messages = Counter(line.strip() for line in said.split("\n")) - Counter(before)
    return [*before, *messages.elements()]


def counted(number, noun):
    """A number with its noun."""
    return f"{number} {noun}{'' if number == 1 else 's'}"


def verdict(found, are_words_shared, environment, calls):
    """The line that says how the commands of both compare, their environment, and the calls that the recipe's shell
    runs."""
    if found.is_same and environment.lines:
        return f"differ: the environment of commands; {counted(found.count, 'command')} the same"
    if found.is_same and calls.differences:
        return f"differ: what calls give that the recipe's shell runs; {counted(found.count, 'command')} the same"
    if not found.is_same:
        return f"differ: {counted(len(found.makes), 'command')} of make's alone, {len(found.katis)} of kati's alone, " \
               f"{found.count - len(found.katis)} the same"
    if not found.count:
        return "nothing to compare: neither make nor kati has a command for these goals"
    blanks = f", {found.in_blanks} of them but for blanks" if found.in_blanks else ""
    blanks += "; their environment but for blanks" if environment.has_other_blanks else ""
    blanks += "; calls that the recipe's shell runs aside" if calls.told else ""
    return f"same: {counted(found.count, 'command')}{blanks}{SHARED if are_words_shared else ''}"


def calls_in(by_make, asking, words, recipes):
    """The calls that the recipe's shell runs for kati, which a port wrote: make is asked once more, with kati's text in
    the place of them."""
    written = calls_of_recipes.Written()
    marked = asking.ask([*words, *written.words()]) if written.katis else None
    return calls_of_recipes.CallsOfRecipes(by_make, marked, recipes, written.meant)


def compare_commands(asking, asked, recipes, said, environment):
    """Tells whether make and kati have the same commands; answers whether they do."""
    goals, macros = words.goals_of(asked.words), words.macros_of(asked.words)
    makes_macros = [] if asked.words_for_kati else macros
    by_kati = [text.strip() for recipe in recipes for text in recipe]
    by_make, before = asking.commands(goals, makes_macros)
    first = alone(asking.first(makes_macros), [line.strip() for line in said.split("\n")])
    if first:
        shown = first[:MOST_SHOWN] + ([f"and {len(first) - MOST_SHOWN} more"] if len(first) > MOST_SHOWN else [])
        write_text("".join([UNMADE, *(f"  {line}\n" for line in shown)]))
        return False
    calls = calls_in(by_make, asking, [*goals, *makes_macros], recipes)
    by_make = calls.commands
    found = Compared(by_make, besides(before, said), by_kati)
    if found.katis:
        silent = asking.before_with_silent(makes_macros)
        by_make += alone(found.katis, alone(found.katis, silent))
        found = Compared(by_make, besides(before, said), by_kati)
    write_text("".join(f"{line}\n" for line in [*environment.lines, *calls.told, *calls.differences]))
    write_text("".join([*(f"- {line}\n" for line in found.makes), *(f"+ {line}\n" for line in found.katis)]))
    write_text(verdict(found, bool(makes_macros), environment, calls) + "\n")
    return found.is_same and not (environment.lines or calls.differences)


def compare_builds(asked, translation, room):
    """Builds both ways, and tells whether the same files came into being; answers whether they did."""
    given = words.goals_of(asked.words) if asked.words_for_kati else asked.words
    by_make, by_ninja = scratch_builds.both(asked.makefile, given, translation, room)
    if by_make.why:
        say(TOOL, f"built in copies of this folder: {by_make.why}")
    lines = list(scratch_builds.told(by_make, by_ninja))
    if lines:
        write_text("".join(f"{line}\n" for line in lines) + "the builds differ\n")
    elif not by_make.files:
        write_text("nothing to compare: no file came into being; is this folder built already?\n")
    else:
        write_text(f"same: {counted(len(by_make.files), 'file')} came into being\n")
    return not lines


def compare(asked):
    """Compares, and answers the exit status."""
    translating.refuse_passing(asked.makefile)
    translating.tell_of_other(TOOL, asked.makefile)
    with scratch.room("kati-compare-") as room:
        translator = translating.Translator(asked, room)
        listing = translating.listing(asked)
        translation = translator.translate(listing)
        if translation.status:
            say(TOOL, f"kati ended with status {translation.status}:\n{translation.said.rstrip()}")
            return translation.status
        empty = "" if asked.builtin else empty_builtins.told(translator, translation)
        if empty:
            sys.stderr.buffer.write(bytes_of(empty))
            return 2
        commands = ninja_commands(translation, room)
        asking = make_commands.Asking(asked.makefile or translating.default_makefile(), asked.builtin,
                                      shell_of(commands), room)
        asking.refuse_other_shells(words.goals_of(asked.words) if asked.words_for_kati else asked.words)
        environment = compared_environment.ComparedEnvironment(asking, asked, translation.statements, listing)
        is_same = compare_commands(asking, asked, list(map(unwrapped, commands)), translation.said, environment)
        if asked.build:
            is_same = compare_builds(asked, translation, room) and is_same
        return 0 if is_same else 1


def command(line):
    """The exit status of the command for the words of its command line."""
    asked = parser().parse_intermixed_args(line)
    interrupting.end_as_interrupted()
    return compare(asked)


def main(line):
    """Runs the command on the words of its command line, and answers its exit status."""
    return ending(TOOL, command, line)
