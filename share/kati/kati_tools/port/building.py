"""The command kati-build: translates a makefile, keeps the translation up to date, and runs ninja."""
import argparse
import os

from ..base import words
from ..base.programs import DIFFERS, ending, say
from ..build import ninja_words, translating
from .kept_build import TOOL, Build

ABOUT = """\
Lists the sources, translates the makefile by kati, writes a Ninja file that has it translated again
where that is needed, and runs ninja.

Where kati refuses the makefile, the build of before is kept. A file is replaced only where its
bytes differ."""

MORE = """\
files:
  build.ninja                  what ninja reads, or FILE of -o. It has the makefile translated again
                               when it, an include or the list of sources changes, or an absent
                               include comes into being. So a plain `ninja` is enough from then on
  build.kati/translated.ninja  what kati wrote; with --deps, where header dependencies are too
  build.kati/ported/           the makefiles that --port ported, and their values
  build.kati/aside/            the same for other goals and macros, until they are given again
  build.kati/other-goals.json  what make told that holds for other goals, too
  build.kati/files.txt         the list of the files that exist, as kati got it
  build.kati/asked.txt         the files that kati asked for, by which the next list is made
  build.kati/stale/            marks of includes that rules make; build.kati/fault.txt kati's fault
  build.kati/includes/         symbolic links to these includes, by which ninja sees them
  build.kati/stood.txt         which of these includes existed before ninja could make them
  build.kati/outside.txt       the folders outside this one that rules name, until a makefile changes
  build.kati/version           the form of these files: those of another version are made anew
  build.kati/.begun            when the last run began: what is saved later is looked at again
  build.kati/.tries            how often one run of ninja has had it translated
  build.kati/.inputs           what the last translation came from: where that is so, none is made
  build.kati/.look             by which a shell sees that, and ninja starts no Python
  build.kati/lock              what a run holds while it translates: one at a time, the next one waits
  build.kati/                  has ninja's own log too. It is named after FILE: .kati for .ninja

what is added:
  To the block of a statement --deps adds where its header dependencies are. What hangs on a target
  that is made each time, as one of .PHONY, gets `restat = 1`, where its file is there: so what is
  made from it is made again only if it changed, as by make. Before a file with such lines is put in
  place, and with --builtin, `kati --check` is asked of it, by the same words and list; where its
  status isn't 0, the build of before is kept. kati's own text isn't asked of.

includes that rules make:
  Such an include is made before the makefile is read, as by make, and again when it is out of date;
  where it isn't there yet, or kati has a fault by it, the Ninja file has at first what makes it
  alone. kati-asked is needed for that. Its command is guarded: where a file is gone that it is made
  from, or where it may fail, the translation decides. docs/USING.md tells what differs from make.

which files are watched:
  Each file that the translation asked for, and no other makefile. The program kati-asked is run in
  kati's place where it is found, and tells them behind what kati writes; so one run gives both.
  Without it, lines that begin with `include`, `-include` or `sinclude` are looked for. Of a name
  that holds a reference, each listed file that it could name is watched.
  The list of sources is made again when a folder that it is made from has changed. What the build
  itself makes isn't listed, unless it was there when the list was first made. The list of git and
  of find has the files of the folders outside this one that rules name, as ../inc of ../inc/h.h.

any GNU makefile:
  --port does what kati-port --write does, with copies of the makefiles in build.kati/ported/, and
  takes --builtin and --deps as given. Where kati's commands differ from make's, that is told,
  and by the last line of each run, too.
  make is asked again for all values when a makefile changes, a file or folder that a command names
  or lists, or what a pattern fits; a folder changes where its names do. A line says which. So it is
  too of a kati-values.mk that kati-port --write wrote. --values asks again also for what can't be
  seen to have changed, as a program's version. In a tree that was copied, run it once.

  An inner make gets the macros of the command line, and as many jobs as ninja by -j, or else as there
  are processors, by MAKEFLAGS and MAKELEVEL; one runs at a time. .NOTPARALLEL has one command run at
  a time. What is added for that, pools, `kati --check` refuses, and isn't asked of it.

header dependencies:
  --deps gives each statement whose command has -MD or -MMD the file that the compiler writes: that
  of -MF, or the one named after the output. So ninja makes again what includes a changed header.
  Of two statements that write the same file none can use it; this is said, and -MF $@.d helps.
  Ninja takes the file away once it has read it, but for one that the makefile names, or that make
  includes. Files that a rule makes by cc -MM, and that are included, need no --deps.

the first build:
  The first build leaves what make would leave. If ninja has no log, kati-build writes a line for
  each file that exists, with the file's own time: ninja then rebuilds what is out of date, and
  nothing else. kati-build prints how many files stay as they are, and the names of those that ninja
  rebuilds. A file that make built with other variables, or that a failed recipe left half-written,
  counts as up to date. A file is rebuilt if its header dependencies are in doubt, or if kati's
  command differs from make's. Next to a different Ninja file the run stops, if a file exists that
  the new build makes. --anew deletes ninja's log and rebuilds everything. --as-made is accepted.

  A rule without prerequisites runs only if its file is missing. A rule for a makefile or an include
  that existed before the first build runs by file times alone. Neither a missing log nor a changed
  command runs these rules, and ninja -t clean keeps their files.

variables that make has built in:
  Without --port and --builtin, $(CC) and its kind are empty. The run stops with status 2 at a recipe
  line that begins with one, if no makefile defines that variable.

environment:
  KATI, KATI_ASKED, NINJA      the programs kati, kati-asked and ninja
  MAKE                         the program make, which is asked for values
  KATI_COPIES                  where it is set, make is asked in a copy of the folder

examples:
  kati-build                             builds the first target
  kati-build --port                      the same by a makefile that kati doesn't take as it is
  kati-build all CC=clang                builds `all` by clang
  kati-build --deps 'CFLAGS=-O2 -MMD'    with header dependencies, which the compiler writes for -MMD
  kati-build --port --anew               the same, and rebuilds everything
  kati-build --builtin -j4 -- -v         with make's usual rules; ninja runs four jobs, shows commands
  kati-build -o clean.ninja clean        another file for another goal, so that build.ninja stays
  kati-build --remove                    takes away what kati-build wrote; what was built stays

exit status:
  0     built; with --no-ninja: translated
  2     the makefile has a fault, as kati says, or a recipe line begins with a built-in variable of
        make's that no makefile defines; the build of before is kept
  3     a file can't be read or written, changes each time that it is read, or a program isn't there
  4     kati ran out of memory
  5     with --port and --no-ninja: translated, and kati's commands differ from make's
  64    wrong usage; the Ninja file that is there isn't one of kati's; a first build that can't tell
        what files that exist are: --anew rebuilds everything
  70    a fault of the tool itself; where kati --check tells of it, the build of before is kept.
        Or a signal ended kati
  130   interrupted, or ended by SIGTERM or SIGHUP
  else  ninja's own: 1 where a command failed, 2 and 130 where it was interrupted. Where a signal ended
        ninja, this is said: 3 where its output was closed, else 1"""


def parser():
    """The command line of kati-build."""
    made = words.Parser(prog="kati-build", description=ABOUT, epilog=MORE, hint="; ninja's own stand after --",
                        usage="kati-build [--port] [--values] [--files-from git|find|FILE] [--deps] [--builtin]\n"
                              "                  [-o FILE] [-j N] [--no-ninja] [--anew] [--as-made]\n"
                              "                  [--compile-commands] [--kati PROGRAM] [--kati-asked PROGRAM]\n"
                              "                  [KATI WORDS] [-- NINJA WORDS]\n"
                              "       kati-build --remove [-o FILE]")
    made.add_argument("--port", action="store_true",
                      help="builds by any GNU makefile: what kati refuses is ported in FILE's folder, and the makefile "
                           "stays as it is; see below")
    made.add_argument("--values", action="store_true",
                      help="asks make again for all that the makefiles ask the machine for, with --port or where a "
                           "kati-values.mk is; see below")
    words.add_files_from(made)
    made.add_argument("--deps", action="store_true", help="header dependencies, see below")
    words.add_builtin(made)
    made.add_argument("-o", dest="output", metavar="FILE", default="build.ninja",
                      help="the Ninja file; build.ninja without it")
    made.add_argument("-j", dest="jobs", type=words.count, metavar="N",
                      help="how many commands ninja runs at once, as by -jN after --")
    made.add_argument("--no-ninja", action="store_true", help="translates, and doesn't run ninja")
    made.add_argument("--remove", action="store_true",
                      help="takes away all that kati-build has written in this folder, or that of FILE, and does no "
                           "more")
    made.add_argument("--as-made", action="store_true",
                      help="accepted: a first build takes what exists as make has made it; see below")
    made.add_argument("--anew", action="store_true",
                      help="rebuilds everything; see below")
    made.add_argument("--by-ninja", action="store_true", help=argparse.SUPPRESS)
    made.add_argument("--compile-commands", action="store_true",
                      help="writes compile_commands.json too, for editors: compilations without the shell round them")
    words.add_kati(made)
    made.add_argument("--kati-asked", metavar="PROGRAM",
                      help="the program kati-asked; without it KATI_ASKED, then the one beside kati")
    words.add_kati_words(made)
    return made


def build(asked, more):
    """Translates, and runs ninja where kati takes the makefile; or takes away what is there."""
    if asked.remove:
        from . import removing
        return removing.run(asked)
    made = Build(asked)
    if not asked.no_ninja:
        translating.tell_of_other(TOOL, asked.makefile)
    status = made.translate()
    if status:
        return status
    difference = made.difference()
    if asked.no_ninja:
        return DIFFERS if difference and not asked.by_ninja else 0
    made.first_build.tell(more)
    # Loaded here alone, since it takes time, and ninja runs this tool without ninja.
    from ..build import running_ninja
    status = running_ninja.run(TOOL, made.output, more)
    if difference:
        say(TOOL, difference)
    return status


def command(line):
    """The exit status of the command for the words of its command line."""
    at = line.index("--") if "--" in line else len(line)
    asked = parser().parse_intermixed_args(line[:at])
    for_ninja = [*([] if asked.jobs is None else [f"-j{asked.jobs}"]), *line[at + 1:]]
    asked.jobs = ninja_words.jobs(for_ninja)
    if asked.port:
        asked.builtin = asked.deps = True
        # The makefile that make would read.
        asked.makefile = asked.makefile or ("GNUmakefile" if os.path.isfile("GNUmakefile") else None)
        translating.refuse_passing(asked.makefile)
        asked.makefile = asked.makefile and words.from_here(asked.makefile)
    # Loaded here, since it takes time, and the help needs none of it.
    from ..base import interrupting
    interrupting.end_as_interrupted()
    return build(asked, for_ninja)


def main(line):
    """Runs the command on the words of its command line, and answers its exit status."""
    return ending(TOOL, command, line)
