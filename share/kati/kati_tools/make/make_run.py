"""make, asked about a makefile in such a way that it runs no recipe, and still answers $(shell ..)."""
import os
import re
import subprocess

from ..base import files
from . import (command_environment, command_lists, database, dropped_circles, exported_names, kept_answers,
               make_commands, recipe_shell, shell_calls, target_environment)
from .running import run_make
from ..base.programs import Stop

NO_GOAL = "kati_port_makes_nothing"
ANSWER = "@@kati:"
END = ":kati@@"
TOLD = re.compile(rf"{ANSWER}(\d+) (.*?){END}\n", re.DOTALL)
OWN_SHELL = ("$(SHELL)", "$(.SHELLFLAGS)")
SECONDS = 120
# The special target in make's database, at the beginning of a line: a form of that takes ten times as long.
NOT_PARALLEL = "\n.NOTPARALLEL:"
# What stands between its commands and the first line of its database.
DATABASE_OF = re.compile(r"(?:# .*\n)+")
# What a recipe tells of the flags of a run that asks, and what one has make say behind those of makefiles; and flags by
# which make runs several commands at a time.
FLAGS = f": {ANSWER}0 $(MAKEFLAGS){END} {ANSWER}1 $(MFLAGS){END}"
MADE = f": {ANSWER}made "
BEHIND = f"{MADE}$(MAKEFLAGS){END}"
PARALLEL = re.compile(r"^-?\w*j|\s-j|--jobs")
# What a run that asks has besides -Bn.
OWN_FLAGS = ("--no-print-directory", "--eval=.SECONDARY:")


def shell_in(lines):
    """The shell that makefiles name by a path, else the usual one."""
    for line in lines:
        name, _, value = line.assignment() or ("", "", "")
        if name == "SHELL" and re.fullmatch(r"/[\w./]+", value) and os.access(value, os.X_OK):
            return value
    return "/bin/sh"


def questions(texts):
    """The text of a makefile that has make tell what these texts come to, by their numbers."""
    return "".join(f"$(info {ANSWER}{number} {text}{END})\n" for number, text in enumerate(texts))


def answered(out):
    """What make told of numbered questions: the answers of each, in order."""
    found = {}
    # A form takes ten times as long for the many answers of a large makefile.
    for part in out.split(ANSWER)[1:]:
        number, _, rest = part.partition(" ")
        value, end, _ = rest.partition(f"{END}\n")
        if end and number.isdecimal():
            found.setdefault(int(number), []).append(value)
    return found


def users_flags(text):
    """make's flags, as a makefile has them, without those of a run that asks."""
    letters, *words = text.split(" ")
    dash = letters[:1] if letters.startswith("-") and not letters.startswith("--") else ""
    letters = "".join(one for one in letters[len(dash):] if one not in "Bn") if "=" not in letters else letters
    kept = [one for one in words if one not in OWN_FLAGS and not one.startswith("SHELL=")]
    return " ".join([dash + letters if letters else "", *(kept if kept != ["--"] else [])])


def with_users_flags(out, told):
    """What make printed, with the flags that a user's run has in the place of those of this one, which it `told`, where
    it was asked for its database, too, or not."""
    for flags in filter(None, re.findall(rf"{ANSWER}[01] (.*?){END}", told)):
        for one in (flags, flags.replace("Bn", "Bnp", 1)):
            out = out.replace(one, users_flags(flags))
    return out


class MakeRun:
    """How make is asked about one makefile with its goals and macros, in this process's folder. `known` is what it told
    before that doesn't hang on the goals, and still is so."""

    def __init__(self, makefile, goals, macros, room, more, known=None):
        self.makefile, self.goals, self.macros, self.room, self.more = makefile, goals, macros, room, more
        self.answers = kept_answers.Answers(known or {}, room)
        # Whether the makefile has make run one command at a time.
        self.is_not_parallel = False
        # What calls of $(shell ..) in recipes write, which is taken away before make is asked.
        self.undone = ()
        # The circles that make drops, once it has told of some.
        self.circles = None
        # What it told besides where it was asked for something else: the shell and flags of the makefile's own, by a
        # run without goals; values of texts; how it makes makefiles; and the environment of commands, with an option.
        self.own_shell, self.told_besides, self.first, self.environments_told = {}, {}, None, [None]
        # Its database at the end of what it would do for the goals, where it was asked for it.
        self.ended_with = None
        self.noop, self.extra = (os.path.join(room, name) for name in ("noop", "question.mk"))
        self.use_shell("/bin/sh")

    def use_shell(self, shell):
        """Makes this shell the one that answers $(shell ..)."""
        make_commands.write_noop(self.noop, shell, self.room)

    def environment(self):
        """The environment that a makefile is asked in, in which this folder has the name by which the user has gone
        into it."""
        here = os.environ.get("PWD", "")
        is_here = os.path.isabs(here) and os.path.isdir(here) and os.path.samefile(here, os.curdir)
        return make_commands.environment(**{"PWD": here if is_here else os.getcwd(), **self.more})

    def run(self, words, given=None):
        """What make says to these words: its status, standard output and standard error; `given` is its environment,
        where it is another one."""
        for path in self.undone:
            files.remove_all(path)
        try:
            return run_make(words, self.room, given or self.environment(), seconds=SECONDS)
        except subprocess.TimeoutExpired:
            raise Stop(f"make takes more than {SECONDS} seconds to read {self.makefile}", 1) from None

    def forget_calls(self):
        """Has each call of $(shell ..) run once more, where a file is another one now."""
        shell_calls.of_room(self.room).forget()

    def ask(self, goals=None, question="", flags=(), given=None):
        """What make would do for the goals; a question is a makefile's text that is read after the makefile. `given` is
        its environment, where it is another one."""
        files.replace(self.extra, make_commands.UNLISTED + recipe_shell.guard(self.room) + question, self.room)
        words = [*flags, "-n", *self.always(), *OWN_FLAGS, "-f", self.makefile, "-f", self.extra]
        goals = self.goals if goals is None else goals
        return self.run([*words, *goals, *self.macros, f"SHELL={self.noop}"], given)

    def always(self):
        """The words by which make runs the recipes of all, but for those that it would run for -B alone."""
        return ["-B", *(dropped_circles.words(self.circles.files) if self.circles else [])]

    def with_database(self, **variables):
        """What make would do for the goals, with its database; `variables` are in its environment, too."""
        words = ["-p", "-n", "-B", "--no-print-directory", "-f", self.makefile, *self.goals, *self.macros]
        return self.run([*words, f"SHELL={self.noop}"], {**self.environment(), **variables})

    def has_circles(self, said):
        """Whether make says for the first time that it drops circles, by which it leaves files alone."""
        if self.circles is not None or not dropped_circles.are_told(said):
            return False
        self.circles = dropped_circles.Circles(*self.with_database(LC_ALL="C")[1:])
        return bool(self.circles.files)

    def refuse_other_shells(self):
        """Stops where a line of a recipe would be run by another shell than the one that runs none. By then make has
        read the makefiles, and has made nothing but that commands of the tools' own tell their environment."""
        known = self.answers.known(kept_answers.SHELLS)
        if known is not None:
            self.is_not_parallel = known
            return
        words = [f"-{exported_names.OPTION}", "-f", self.makefile, "-f", self.extra, *make_commands.TELLING]

        def look(**variables):
            files.replace(self.extra, make_commands.telling(self.noop), self.room)
            given = {**make_commands.with_goals(self.environment(), self.goals), **variables}
            return self.run([*words, *self.macros, f"SHELL={self.noop}"], given)[1]

        told = recipe_shell.refuse_others(look, self.makefile, self.room)
        self.is_not_parallel = NOT_PARALLEL in told
        self.environments_told = make_commands.told(self.noop)
        self.answers.tell(kept_answers.SHELLS, self.is_not_parallel)

    def only_read(self, goal, *flags):
        """What make says, in its own language, where it reads the makefile for a goal for which it makes nothing."""
        files.replace(self.extra, f"{goal}: ;\n", self.room)
        words = [*flags, "-n", "--no-print-directory", "-f", self.makefile, "-f", self.extra, goal, *self.macros]
        return self.run([*words, f"SHELL={self.noop}"], {**self.environment(), "LC_ALL": "C"})

    def database(self, goal):
        """make's database once it has read the makefile."""
        return self.only_read(goal, "-p")[1]

    def warnings(self):
        """What make warns of once it has read the makefile."""
        return self.only_read(NO_GOAL)[2]

    def added_to_environment(self, may_hang_on_option):
        """What make adds to the environment of its commands; whether that may hang on the option by which it was looked
        which shell make has."""
        def ask(rules, more, given):
            self.run(["-f", self.makefile, "-f", rules, *self.macros, *more], given)

        given = make_commands.with_goals(self.environment(), self.goals)
        known = self.answers.known(kept_answers.ENVIRONMENT)
        if known is not None:
            told = [kept_answers.environment(one, given) for one in known]
        else:
            is_told = not may_hang_on_option and None not in self.environments_told
            told = self.environments_told if is_told else make_commands.told_environments(self.noop, given, ask)
            found = [kept_answers.difference(one, given) for one in told if one is not None]
            if None not in told and not any(map(kept_answers.has_exports, found)):
                self.answers.tell(kept_answers.ENVIRONMENT, found)
        return command_environment.Added(told, given, self.noop)

    def environments(self, shell):
        """What make's commands have in their environment, line by line of their recipes."""
        given = self.environment()
        files.replace(self.extra, make_commands.UNLISTED + recipe_shell.guard(self.room) + ".SECONDARY:\n", self.room)
        words = [*self.always(), "--no-print-directory", "-f", self.makefile, "-f", self.extra, *self.goals,
                 *self.macros]
        return target_environment.all_told(self.room, shell, lambda word: self.run([*words, word], given)[0])

    def make_includes(self):
        """Has make make the makefiles that it reads, as it does before anything; answers its status, what it says, and
        the names of what it has read then."""
        known = self.answers.known(kept_answers.INCLUDES)
        if known is not None:
            return 0, "", known
        asked = questions(["$(MAKEFILE_LIST)", *OWN_SHELL])
        # The makefiles have the goals of a user's run, and recipes don't hand them on to other makes.
        question = f"{asked}unexport MAKECMDGOALS\n{NO_GOAL}: ;\n"
        files.replace(self.extra, make_commands.UNLISTED + question, self.room)
        status, out, said = self.run(["-n", "-f", self.makefile, "-f", self.extra, NO_GOAL, *self.macros],
                                     make_commands.with_goals(self.environment(), self.goals))
        # Where make has made one of them, it reads all once more.
        told = answered(out)
        names = (told.get(0) or [""])[-1].split()
        self.own_shell = {text: told[number][-1] for number, text in enumerate(OWN_SHELL, 1) if number in told}
        if not status:
            self.answers.tell(kept_answers.INCLUDES, names)
            for text, value in self.own_shell.items():
                self.answers.tell(kept_answers.WITH_OWN_SHELL + text, value)
        return status, said, names

    def told(self, kind, texts, ask):
        """What make tells of texts, None for those that it doesn't; `ask` answers its output for the text of a makefile
        that has it tell those that aren't known, with which it ends."""
        known = {text: self.told_besides.get(kind + text, self.answers.known(kind + text)) for text in texts}
        more = [text for text in texts if known[text] is None]
        if more:
            # The error keeps make from anything but reading.
            found = answered(ask(questions(more) + "$(error asked)\n"))
            told = iter([found.get(number, [None])[0] for number in range(len(more))])
        values = [next(told) if known[text] is None else known[text] for text in texts]
        for text, value in zip(texts, values):
            if value is not None:
                self.answers.tell(kind + text, value)
        return values

    def values(self, texts):
        """What these texts expand to behind the makefile, None for those that make doesn't tell."""
        return self.told(kept_answers.VALUE, texts, lambda question: self.ask(question=question)[1])

    def values_with_own_shell(self, texts):
        """The same where make has the shell that the makefile gives it."""
        def ask(question):
            files.replace(self.extra, make_commands.UNLISTED + question, self.room)
            return self.run(["-n", "-f", self.makefile, "-f", self.extra, *self.goals, *self.macros])[1]

        return self.told(kept_answers.WITH_OWN_SHELL, texts, ask)

    def value(self, text):
        """The same for one text."""
        return self.values([text])[0]

    def commands(self, goals=None, texts=(), has_database=False, may_make=True):
        """The status, the commands that make would run for the goals, what it says, and the commands before those,
        which make makefiles, where something may; in the same run it is asked for the values of texts, and for its
        database where that is of use."""
        status, out, said = self.ask_all(goals, questions(texts), has_database)
        if self.has_circles(said):
            status, out, said = self.ask_all(goals, questions(texts), has_database)
        if status and texts:
            # One of them may be none that make can expand.
            status, out, said = self.ask_all(goals, "", False)
        elif texts:
            told = answered(out)
            self.told_besides.update((kept_answers.VALUE + text, told[number][-1])
                                     for number, text in enumerate(texts) if number in told)
        begin, *parts = out.split(MADE)
        texts = [begin, *(part.partition(f"{END}\n")[2] for part in parts)]
        has_order = len(parts) == 2 and not PARALLEL.search(parts[1].partition(END)[0])
        first = TOLD.sub("", "".join(texts[:-1])) if has_order else ""
        out = texts[-1] if has_order else TOLD.sub("", "".join(texts))
        # Where make is silent, or comes by them in no order, it tells by itself what makes makefiles.
        flags = self.flags_told() if OWN_FLAGS[-1] in out or may_make and not has_order else ""
        before = [line for line in make_commands.lines_of(first if has_order else flags) if ANSWER not in line]
        lines = make_commands.lines_of(with_users_flags(out, flags))
        return status, lines if has_order else command_lists.alone(lines, before), said, before

    def ask_all(self, goals, question, has_database):
        """The same as `ask`, where make says that it has made the makefiles: by a rule of the first and the last that
        it reads, which aren't there, as one of the two is the last that it makes. With its database for what tells of
        it; without where it speaks another language."""
        first, last = (os.path.join(self.room, name) for name in ("read-first", "read-last"))
        is_plain = re.fullmatch(r"[\w./+-]+", last) is not None
        question += f"{first} {last}: ; {BEHIND}\n-include {last}\n" if is_plain else ""
        given = {**self.environment(), "MAKEFILES": first} if is_plain else None
        status, out, said = self.ask(goals, question, ["-p"] * has_database, given)
        out, is_told, self.ended_with = out.partition(database.BEGIN) if has_database else (out, "", None)
        start = out.rfind("# GNU Make ")
        if has_database and not (is_told and DATABASE_OF.fullmatch(out, start)):
            return self.ask_all(goals, question, False)
        return status, out[:start] if has_database else out, said

    def flags_told(self):
        """What make says where it makes nothing but makefiles, and then its flags."""
        first = self.first or self.answers.known(kept_answers.FIRST)
        if first is None:
            first = self.ask([NO_GOAL], f"{NO_GOAL}: ; {FLAGS}\n")[1]
            self.answers.tell(kept_answers.FIRST, first)
        self.first = first
        return first
