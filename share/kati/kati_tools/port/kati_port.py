"""The command kati-port: everything in a makefile that kati refuses or that would mean something else."""
import argparse
from collections import Counter

from ..base import files, interrupting, scratch, words
from ..makefile import branches
from ..make import macro_values
from ..build import translating
from . import leaning, scanning
from ..base.programs import Stop, ending, write_text

TOOL = "kati-port"

ABOUT = """\
With --write, rewrites a makefile and its includes until kati takes them; make does with them what
it did before.

Without it, tells everything in makefiles, and in the files that they include by a plain name, that
kati refuses or that would silently mean something else: FILE:LINE, the form, the number of the fault
(docs/LANGUAGE.md) and one line of advice. Then come a line that counts them, and the first fault of
kati itself.

The makefile is looked through without expanding anything, so what is told is a hint. What kati
itself says counts. What stands under `ifdef MAKE_VERSION` is for make alone: GNU make has that
macro by itself, and kati hasn't."""

MORE = """\
what --write does:
  It runs kati, mends the line that its fault names, with those that make reads and kati would refuse
  in the same way, and so on, so that only what they meet is changed. What kati refuses stands under
  `ifdef MAKE_VERSION`, what kati gets in the `else` of it.
  A call that asks the machine, as $(shell uname), becomes a macro of kati-values.mk, which is the
  call for make, and for kati the value that make gave. make is asked where the makefile
  stands, and what it writes goes elsewhere; where the system doesn't allow that, in a copy.
  The report says what was done, that make's commands are as before, and whether kati's are make's.
  Where nothing is known to mend, no file is changed, and the fault is told.

what is told without it:
  [Enn]       kati refuses the form by this fault, if it meets it: a macro that nothing uses does no
              harm. [Enn, not taken] stands in a branch that kati doesn't take, as it told of each up to
              its first fault; it isn't counted, and may be met with other words
  [no fault]  kati takes the form, in another sense than make: names that lean on built-in rules,
              built-in macros, what tells of make's run, $(MAKE), variables of the environment that
              are often asked for, VPATH, suffix rules with prerequisites or beside a pattern rule,
              double colons without prerequisites, $? and $%, -lNAME as a prerequisite, .NOTPARALLEL,
              conditionals and comments within a recipe that make hands to the shell, lib.a(a.o b.o),
              includes that make makes, what stands behind a tab after a line like $(eval ..)

environment:
  KATI, MAKE    the programs kati and make
  KATI_COPIES   where it is set, make is asked in a copy of the folder

examples:
  kati-port --write Makefile         makes kati take it
  kati-port --write --diff Makefile all CC=gcc   the change that this would be, for these words
  kati-port --values                 makes kati-values.mk anew
  kati-port Makefile                 what stands in the way
  kati-port --builtin src/Makefile   the same for kati-build --builtin
  kati-port Makefile CC=gcc          the same, where CC is given to kati
  kati-port --macros Makefile        macros that come from $(shell ..) and $(wildcard ..), as words
  kati-port --macros Makefile | xargs kati-build all       hands these words to kati-build

exit status:
  0   nothing that counts is in the way, and kati takes the makefile; --macros: the words are printed;
      --write: the makefile is ported, and kati's commands are make's; --values: the file has what
      make tells now
  1   something was told; --write: kati doesn't take the makefile, and no file was changed
  3   a file can't be read, or a program isn't there; --macros: make has a fault, or the copy can't be
      made; --write: a makefile was saved meanwhile, and no file was changed
  5   --write: the makefile is ported, and kati's commands differ from make's, as the report says
  64  wrong usage
  70  a fault of the tool itself
  130 interrupted, or ended by SIGTERM or SIGHUP; --write and --values say whether files were changed"""


def parser():
    """The command line of kati-port."""
    made = words.Parser(prog="kati-port", description=ABOUT, epilog=MORE,
                        usage="kati-port [--macros] [--builtin] [--files-from git|find|FILE] [--kati PROGRAM]\n"
                              "                 [[-f] MAKEFILE..] [NAME=VALUE]..\n"
                              "       kati-port --write [--diff] [--files-from ..] [--kati PROGRAM]\n"
                              "                 [[-f] MAKEFILE] [GOAL|NAME=VALUE]..\n"
                              "       kati-port --values [[-f] MAKEFILE] [GOAL|NAME=VALUE]..")
    made.add_argument("--write", action="store_true",
                      help="rewrites the makefile and its includes until kati takes them, for these goals and macros, "
                           "with make's usual macros and rules as kati-build --builtin has them")
    made.add_argument("--diff", action="store_true", help="with --write: shows the change, and writes nothing")
    made.add_argument("--values", action="store_true",
                      help="asks make again for the values of kati-values.mk, and writes the file anew")
    made.add_argument("--macros", action="store_true",
                      help="asks `make -pn`, whose writes go elsewhere, for the values of macros that come from "
                           "$(shell ..) and $(wildcard ..), and prints them as NAME=VALUE words for kati, quoted for a "
                           "shell, one a line")
    words.add_builtin(made)
    words.add_files_from(made)
    words.add_kati(made)
    made.add_argument("-f", dest="makefiles", metavar="FILE", action="append", default=[],
                      help="the makefile, as make and kati-build take it; it stands before the other words then")
    made.add_argument("words", nargs="*", metavar="MAKEFILE|GOAL|NAME=VALUE",
                      help="a makefile, and without one that which make reads; behind it, with --write, a goal; a "
                           "macro that is given to kati")
    return made


class Makefile:
    """A makefile that is looked through, with the macros that are given, and the files that exist for it."""

    def __init__(self, name, asked, macros):
        self.name, self.asked, self.macros = name, asked, macros
        self.listing = translating.listing(self.words_for(name))

    def words_for(self, name):
        """What kati is asked, for this makefile or a copy of it."""
        return argparse.Namespace(kati=self.asked.kati, makefile=name, builtin=self.asked.builtin, depth=None,
                                  words=self.macros, files_from=self.asked.files_from)

    def translation(self, name, room):
        """kati's translation of the makefile, or of a copy of it."""
        return translating.Translator(self.words_for(name), room).translate(self.listing)

    def findings(self):
        """What stands in the way in it and its includes, file by file, from the first line to the last."""
        scan = scanning.Scan(word.split("=", 1)[0] for word in self.macros)
        scan.file_of(self.name)
        with scratch.room("kati-port-") as room:
            copy = branches.write_copies(scan, room)[self.name]
            scan.is_idle_place = branches.not_taken(self.translation(copy, room).said)
        found = scan.findings + leaning.findings(scan, self.asked.builtin)
        for one in found:
            one.is_idle = scan.is_idle(one.file, one.number)
        order = {name: number for number, name in enumerate(dict.fromkeys(one.file for one in found))}
        found = {(one.file, one.number, one.form, one.kind): one for one in found}
        return sorted(found.values(), key=lambda one: (one.file != self.name, order[one.file], one.number))

    def first_fault(self):
        """What kati says of it: its first fault, or None where it takes it."""
        with scratch.room("kati-port-") as room:
            found = self.translation(self.name, room)
            if found.status == 0:
                return None
            lines = [line for line in found.said.split("\n") if line]
            return lines[-1] if lines else f"status {found.status}"


def counted(found, fault):
    """The line that counts the findings by fault; `fault` is kati's own."""
    idle = sum(one.is_idle for one in found)
    rest = f"; {idle} in branches that aren't taken" if idle else ""
    counts = Counter(one.fault() for one in found if not one.is_idle)
    if not counts:
        return ("nothing in the way" if fault is None else "nothing found beside kati's own fault") + rest
    told = ", ".join(f"{counts[fault]} {fault}" for fault in sorted(counts))
    return f"{sum(counts.values())} in the way: {told}{rest}"


def port(makefile):
    """Tells what stands in the way of one makefile; answers whether something does."""
    found, fault = makefile.findings(), makefile.first_fault()
    lines = [*(one.told() for one in found), f"{makefile.name}: {counted(found, fault)}",
             f"kati takes {makefile.name}" if fault is None else f"kati's first fault: {fault}"]
    write_text("".join(f"{line}\n" for line in lines))
    return any(not one.is_idle for one in found) or fault is not None


def ask_macros(makefile, macros):
    """Prints the words for the macros of a makefile and its includes."""
    scan = scanning.Scan(())
    scan.file_of(makefile)
    read = sorted(scan.read, key=lambda one: (one != makefile, one))
    names = [name for file in read for name in macro_values.names_in(files.read(file))]
    write_text("".join(f"{word}\n" for word in macro_values.words(makefile, list(dict.fromkeys(names)), macros)))


def makefile_here():
    """The makefile that make reads here."""
    found = translating.makes_makefile()
    if found is None:
        raise Stop("no makefile is here: name one", words.WRONG_USAGE)
    return found


def run_port(asked):
    """Answers the exit status."""
    if len(asked.makefiles) > 1:
        raise Stop("one makefile stands after -f", words.WRONG_USAGE)
    asked.words = [*asked.makefiles, *asked.words]
    if not (asked.values or words.goals_of(asked.words)):
        asked.words.insert(0, makefile_here())
    for makefile in words.goals_of(asked.words[:1] if asked.write or asked.diff or asked.values else asked.words):
        translating.refuse_passing(makefile)
    if asked.write or asked.diff or asked.values:
        # Loaded here alone, so that --help and a look at a makefile start fast.
        from . import write_command
        does = write_command.run if asked.write or asked.diff else write_command.run_values
        return does(asked)
    macros, makefiles = words.macros_of(asked.words), words.goals_of(asked.words)
    if asked.macros:
        for makefile in makefiles:
            ask_macros(makefile, macros)
        return 0
    return 1 if any([port(Makefile(makefile, asked, macros)) for makefile in makefiles]) else 0


def command(line):
    """The exit status of the command for the words of its command line."""
    asked = parser().parse_intermixed_args(line)
    interrupting.end_as_interrupted()
    return run_port(asked)


def main(line):
    """Runs the command on the words of its command line, and answers its exit status."""
    return ending(TOOL, command, line)
