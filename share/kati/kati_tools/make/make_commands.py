"""The commands that make would run, asked in such a way that nothing is run."""
import os
import re
import shlex

from ..base import files
from . import command_environment, dropped_circles, recipe_shell, shell_calls, shell_reading, target_environment
from .running import run_make
from ..base.programs import Stop, bytes_of

# The suffixes that kati begins with: `make -r` begins with none. What is made on the way stays, as with kati:
# `.SECONDARY`.
SUFFIXES = ".SUFFIXES: .o .c .cc .cpp .s .S .y .l .h .sh .a .f\n.SECONDARY:\n"
# A goal that nothing is needed for, before which make only makes the files that it reads. No default goal comes of
# it. It isn't .PHONY, nor is what else is added here: a makefile may have that with a double colon.
NO_GOAL = "kati_compare_makes_nothing"
NO_RULE = f"{NO_GOAL}: ;\n.DEFAULT_GOAL :=\n"
# A shell that runs no line of a recipe, but tells its environment for two. make reads what $(shell ..) prints from a
# pipe, and leaves its own output, which is a file, to recipes.
NOOP = """\
#!/bin/sh
{restored}
{answering}
case "$*" in
*kati_tells_its_environment_1) /usr/bin/env -0 > {told}1;;
*kati_tells_its_environment_2) /usr/bin/env -0 > {told}2;;
esac
exit 0
"""
# Two targets that have it told, by another shell too where the makefile overrides SHELL; and a macro that is there
# where make exports all.
TELLING = ("kati_tells_1", "kati_tells_2")
# The first line of a makefile that is read behind others, by which it isn't in the list of makefiles.
UNLISTED = "MAKEFILE_LIST := $(filter-out $(lastword $(MAKEFILE_LIST)),$(MAKEFILE_LIST))\n"
TELLING_RULES = f"""\
{UNLISTED}\
{TELLING[0]}: ; /usr/bin/env -0 > {{told}}1 # kati_tells_its_environment_1
{TELLING[1]}: ; /usr/bin/env -0 > {{told}}2 # kati_tells_its_environment_2
.SECONDARY:
{command_environment.OF_ALL} = 1
"""
# How make names the makefile that it reads as standard input, of which it makes a file of its own.
OF_THIS_MAKEFILE = re.compile(r"(^|\[)(?:-|[^\s:]*/Gm\w{6}):(\d+):", re.MULTILINE)
# A line before the makefile, by which it has its name in make too.
NAMED = "MAKEFILE_LIST := $() {name}\n"
# A command of make's, with the lines that go on; and what it says for itself.
COMMAND = re.compile(r"(?:[^\\\n]|\\.)+", re.DOTALL)
NOTHING = re.compile(r"make(\[\d+\])?: .*")
# What one make hands to another that it runs: none of it is for a make that is asked.
OF_ANOTHER_MAKE = ("MAKEFLAGS", "MFLAGS", "MAKELEVEL", "MAKEFILES", "GNUMAKEFLAGS")


def environment(**more):
    """The environment in which make is asked: the user's own, but for what another make would hand on."""
    return {**{name: value for name, value in os.environ.items() if name not in OF_ANOTHER_MAKE}, **more}


def write_noop(name, shell, room):
    """Writes the shell that runs no recipe; for $(shell ..) it is this one."""
    text = NOOP.format(restored=target_environment.restored(), answering=shell_calls.of_room(room).answering(shell),
                       told=shlex.quote(told_by(name)))
    files.replace(name, text, room)
    os.chmod(name, 0o755)


def told_by(noop):
    """How the names of the files begin in which such a shell tells its environment."""
    return f"{noop}-environment-"


def with_goals(given, goals):
    """An environment in which makefiles have MAKECMDGOALS as for these goals."""
    return {**given, "MAKECMDGOALS": " ".join(goals)}


def telling(noop):
    """The text of a makefile, to be read behind others, that has commands of two targets tell their environments."""
    for number in (1, 2):
        files.remove(f"{told_by(noop)}{number}")
    rules = TELLING_RULES.format(told=shlex.quote(told_by(noop)).replace("$", "$$"))
    return rules + recipe_shell.guard(os.path.dirname(noop))


def told(noop):
    """The environments that these have told, None for what isn't told."""
    texts = [files.read(f"{told_by(noop)}{number}") for number in (1, 2)]
    return [text and dict(one.split("=", 1) for one in text.split("\0") if "=" in one) for text in texts]


def told_environments(noop, given, ask):
    """The same where make is given one. `ask` has it read the makefile, and a file behind that, for some words and in
    an environment: no options, by which values may differ."""
    rules = f"{noop}-telling.mk"
    files.write(rules, bytes_of(telling(noop)))
    ask(rules, [*TELLING, f"SHELL={noop}"], given)
    return told(noop)


def added_to_environment(noop, given, goals, ask):
    """What make adds to the environment that it is given, for its commands, as they tell it."""
    given = with_goals(given, goals)
    return command_environment.Added(told_environments(noop, given, ask), given, noop)


def lines_of(text):
    """The commands that make printed, each as the shell reads it; nothing make says for itself."""
    if "\\\n" not in text:
        lines = text.split("\n")
    else:
        lines = [shell_reading.joined(one) for one in COMMAND.findall(text)]
    return [line.strip() for line in lines if line.strip() and not NOTHING.fullmatch(line)]


class Asking:
    """How make is asked about a makefile: by standard input, with a shell that runs no recipe.

    `shell` is what stands for $(SHELL). `noop` is given as the shell, so that what make runs even under -n, lines with
    $(MAKE), does nothing; it runs what $(shell ..) and != say. Without its own macros and rules make has what kati
    has, a list of suffixes. Its own rules can't be included in their place: make tries suffix rules behind all pattern
    rules of its makefiles."""

    def __init__(self, makefile, has_builtin, shell, room):
        self.makefile, self.has_builtin, self.shell = makefile, has_builtin, shell
        self.suffixes, self.noop, self.given, self.guard = (
            os.path.join(room, name) for name in ("suffixes", "noop", "given", "guard.mk"))
        # The files whose recipes make would run for -B alone.
        self.room, self.left_alone = room, []
        name = makefile.replace("$", "$$").replace("#", "\\#")
        files.write(self.given, bytes_of(NAMED.format(name=name)) + (files.content(makefile) or b""))
        files.replace(self.suffixes, SUFFIXES + NO_RULE, room)
        files.replace(self.guard, UNLISTED + recipe_shell.guard(room), room)
        write_noop(self.noop, shell, room)

    def with_scratch(self, given):
        """An environment by which make's own copy of its standard input, which a make that is killed leaves, stands in
        the scratch folder. The shell of commands has the user's TMPDIR."""
        return {**given, "TMPDIR": os.path.dirname(self.noop)}

    def refuse_other_shells(self, words):
        """Stops where make, with these words, would run a line of a recipe by another shell than the one that runs
        none."""
        files.replace(self.guard, UNLISTED + recipe_shell.ASKED, self.room)

        def look(**variables):
            return self.run(words, self.has_builtin, True, ["-p"], **variables)[1]

        recipe_shell.refuse_others(look, self.makefile, self.room)
        files.replace(self.guard, UNLISTED + recipe_shell.guard(self.room), self.room)

    def run(self, words, has_builtin, always, more=(), **variables):
        """make's status for these words, with what it prints, which `noop` must find to be no pipe; `more` are options
        of make, and `variables` are in its environment too."""
        call = ["-n", *(self.always() if always else []), *([] if has_builtin else ["-r", "-R"])]
        call += [*more, "--no-print-directory", "-f", self.suffixes, "-f", "-", "-f", self.guard, *words]
        return run_make([*call, f"SHELL={self.noop}"], self.room, self.with_scratch(environment(**variables)),
                        self.given)

    def always(self):
        """The words by which make runs the recipes of all, but for those that it would run for -B alone."""
        return ["-B", *dropped_circles.words(self.left_alone)]

    def leaves_alone(self, words):
        """Whether make, with these words, leaves files alone by circles that it drops; it is told to, from then on."""
        _, out, said = self.run(words, self.has_builtin, True, ["-p"], LC_ALL="C")
        self.left_alone = dropped_circles.Circles(out, said).files
        return bool(self.left_alone)

    def ask(self, words, always=True):
        """What make prints for these words, a command a line; with `always` as if nothing were made yet."""
        status, out, said = self.run(words, self.has_builtin, always)
        out = out.replace(self.noop, self.shell)
        if status:
            # Without the line before it.
            told = OF_THIS_MAKEFILE.sub(lambda one: f"{one[1]}{self.makefile}:{int(one[2]) - 1}:", said).strip()
            takes_it = not self.has_builtin and self.run(words, True, always)[0] == 0
            hint = "\nmake takes it with its own rules: try --builtin" if takes_it else ""
            raise Stop(f"make ends with status {status} where kati has no fault:\n{told}{hint}")
        if always and not self.left_alone and dropped_circles.are_told(said) and self.leaves_alone(words):
            return self.ask(words)
        return lines_of(out)

    def commands(self, goals, macros):
        """The commands for the goals. And what make prints before it makes them: it makes the includes anew, which
        kati doesn't, so those commands are the ones that a goal without any needs."""
        before = self.ask([NO_GOAL, *macros])
        return self.ask([*goals, *macros]), before

    def added_to_environment(self, goals, macros):
        """What make adds to the environment of its commands."""
        def ask(rules, more, has):
            call = [*([] if self.has_builtin else ["-r", "-R"]), "-f", self.suffixes, "-f", "-", "-f", rules]
            run_make([*call, *macros, *more], self.room, self.with_scratch(has), self.given)

        return added_to_environment(self.noop, environment(), goals, ask)

    def environments(self, goals, macros):
        """What make's commands have in their environment, line by line of their recipes."""
        def ask(word):
            call = [*self.always(), *([] if self.has_builtin else ["-r", "-R"]), "--no-print-directory",
                    "-f", self.suffixes, "-f", "-", "-f", self.guard, *goals, *macros, word]
            return run_make(call, self.room, self.with_scratch(environment()), self.given)[0]

        return target_environment.all_told(os.path.dirname(self.noop), self.shell, ask)

    def before_with_silent(self, macros):
        """The commands that make runs before it makes the goals, with those that a recipe's `@` has it not print, since
        it runs them in earnest: with -n too, but by `noop`. None by a make that has no --trace."""
        status, out, _ = self.run([NO_GOAL, *macros], self.has_builtin, True, ["--trace"])
        return [] if status else lines_of(out.replace(self.noop, self.shell))

    def first(self, macros):
        """The commands by which make would first make what it includes: what isn't there, or is older than that of
        which it is made."""
        return self.ask([NO_GOAL, *macros], always=False)
