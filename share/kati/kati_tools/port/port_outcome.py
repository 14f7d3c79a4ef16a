"""What came of a port for kati-build --port, as data: the process that ported may be another one, and what it wrote is
gone with it."""
import os
import shutil
from dataclasses import dataclass, field

from ..base import files
from ..build import translating
from ..makefile import includes, ported_text, quick_looks, statements, syntax
from . import dependency_includes, double_colons, frozen_values, known, made_values, making_makefiles, other_goals, \
    port_report, rewriting, shell_writes, unseen_reads, watched, written_outside
from .stuck import Stuck

AT_WORK = rewriting.AT_WORK


@dataclass
class Outcome:
    """The words to watch; why the port is stuck, and by which program, None where it isn't. Else the folder of the
    ported makefiles and their texts, what make has made before anything, each with the file that holds it, None for a
    folder, those of them that it made by rules, before it was asked for values; the folders that their includes go
    through; the makefiles for which make has no recipe; what it has found out that holds for other goals; and what
    kati-build keeps of it: what to say, which of kati's commands differ, None where all do, the line that sums that up,
    None where they don't, the includes of header dependencies that nothing reads for Ninja, the macros of the command
    line that stand in the makefile, and whether make runs one job at a time."""

    watched: list
    stuck: str = None
    whose: str = None
    folder: str = None
    texts: dict = field(default_factory=dict)
    made: dict = field(default_factory=dict)
    by_rules: list = field(default_factory=list)
    folders: list = field(default_factory=list)
    without_recipes: list = field(default_factory=list)
    found: dict = field(default_factory=dict)
    report: list = field(default_factory=list)
    differing: list = None
    difference: str = None
    left: list = field(default_factory=list)
    taken: list = field(default_factory=list)
    is_not_parallel: bool = False

    def kept(self):
        """What the record of a port has of it."""
        return {"report": self.report, "differing": self.differing, "not parallel": self.is_not_parallel,
                "difference": self.difference, "taken": self.taken, "folder": self.folder,
                "left to make": self.left}


def of_port(place, asked, room):
    """The outcome of a port where make is asked: in this folder, or in a copy."""
    with place.entered():
        made = known.Port(asked, place, room)
        try:
            translation = rewriting.rewrite(made)
        except Stuck as stuck:
            lines = filter(None, [str(stuck), port_report.advice(made, stuck.fault)])
            said = place.real_text("".join(f"{one}\n" for one in lines))
            return Outcome([asked.makefile], stuck=said, whose=stuck.whose)
        found = of_rewritten(made, port_report.Comparison(made, translation, made.first.commands), room)
        found.left = made.mender(dependency_includes.DependencyIncludes).left(translation)
        return found


def of_rewritten(made, comparison, room):
    """The outcome of a port that came to an end."""
    real = made.copy.real_text
    report = [real(line) for line in told(made, comparison)]
    differs_otherwise = comparison.in_environment or comparison.of_the_shell
    texts = {name: real(text) for name, text in texts_of(made).items()}
    return Outcome(watched_by(made, texts), folder=os.path.relpath(made.copy.top, made.copy.base), texts=texts,
                   made={**made.mender(shell_writes.ShellWrites).kept(),
                         **kept_in(os.path.join(room, "made"), [*made.first.made, *made.first.by_shell])},
                   by_rules=[*made.first.made], folders=folders_of(made),
                   without_recipes=making_makefiles.without_recipes(made),
                   found=other_goals.found_by(made, comparison), report=report,
                   differing=None if differs_otherwise else [real(line) for line in comparison.katis],
                   difference=None if comparison.is_same() else report[-1], taken=sorted(made.for_kati.taken_words),
                   is_not_parallel=made.run.is_not_parallel)


def kept_in(folder, names):
    """Files of these names, each with a copy of it in a folder."""
    os.makedirs(folder, exist_ok=True)
    found = {name: os.path.join(folder, str(number)) for number, name in enumerate(names)}
    for name, place in found.items():
        shutil.copy2(name, place)
    return found


def folders_of(made):
    """The folders through which makefiles name others by `..`, as x of x/../y.mk."""
    lines = [line for file in made.ported.values() if quick_looks.may_include_up(file.before)
             for line in syntax.Makefile(file.before).lines]
    names = [statements.without_comment(line.text)[statements.first_word(line.text)[1]:].strip()
             for line in lines if line.kind is syntax.Kind.INCLUDE and "/.." in line.text]
    told = made.run.values(names)
    paths = map(before_up, " ".join(filter(None, told)).split())
    return sorted({path for path in paths if path and os.path.isdir(path)})


def before_up(path):
    """The part of a path before the first `..` in it that leads out of a folder below this one; None without one."""
    head, up, _ = path.partition("/../")
    here = os.getcwd() + os.sep
    head = head[len(here):] if head.startswith(here) else head
    return head if up and head and not os.path.isabs(head) and ".." not in head.split("/") else None


def watched_by(made, texts):
    """The words to watch for a port with these texts: the makefiles, includes that aren't there, and what its values
    hang on."""
    named = {name for file in made.ported.values() for name in includes.named_in(file.before) if "*" not in name}
    named = {name for name in named if not os.path.exists(name) and not dependency_includes.is_one(name)}
    found = {*made.first.read, *made.written_out.files, *named} - set(made.first.hidden)
    found.update(made.freezer.watched(), frozen_values.words_of(texts.get(frozen_values.NAME, "")))
    found.update([f".{watched.BELOW}"] if made.freezer.hangs_on_list() else [])
    found.update(f"{watched.ENVIRONMENT}{name}" for name in made.first.of_environment)
    found.update(made.mender(shell_writes.ShellWrites).watched())
    return sorted(found - {frozen_values.NAME})


def texts_of(made):
    """The texts of all makefiles of a port, for kati alone."""
    tops, folder = [], made.copy.top
    while folder.startswith(made.copy.base) and folder not in tops:
        tops.append(folder)
        folder = os.path.dirname(folder)
    found = {name: relative_includes(file.text(), tops) for name, file in made.ported.items()}
    if os.path.isfile(frozen_values.NAME):
        found[frozen_values.NAME] = files.read(frozen_values.NAME)
    return found


def relative_includes(text, tops):
    """A makefile's text in which an include by its whole path is one by its name as seen from the first of these
    folders, which stand above each other: by its whole path it would be the user's own."""
    return "".join(with_relative_names(line, tops) for line in syntax.Makefile(text).lines)


def may_be_whole_path(line):
    """Whether a line includes something for kati by a name that may be a whole path. The tool's own line has none."""
    is_makes = any(branch == 0 and block.lines[0].joined == ported_text.MAKES_ALONE for block, branch in line.around)
    is_own = line.text == translating.INCLUDE_VALUES
    return not (is_makes or is_own) and any("$" in name or name.startswith("/") for name in line.says.names)


def with_relative_names(line, tops):
    """A line of such a text."""
    if line.kind is syntax.Kind.INCLUDE and may_be_whole_path(line):
        names_at = statements.first_word(line.text)[1]
        end = len(statements.without_comment(line.text))
        names = line.text[names_at:end].strip(" \t")
        names = f"$(subst //,/,{names})" if "$" in names else names
        for number, top in enumerate(tops):
            names = f"$(patsubst {top}/%,{'../' * number}%,{names})"
        line.text = f"{line.text[:names_at]} {names}{line.text[end:]}"
    return line.written()


def told(made, comparison):
    """What to say of a port: that make was asked in a copy, where it was; what came into this folder by $(shell ..), as
    it does where make reads the makefile, and what was written elsewhere; which values are of before the build; and how
    kati's commands differ from make's, where they do."""
    written = list(made.mender(shell_writes.ShellWrites).told("wrote", "read", ""))
    others = comparison.notes if comparison.is_same() else list(comparison.told())[1:]
    written += written_outside.told(made)
    doubtful = [*made.mender(made_values.MadeValues).told,
                *made.mender(double_colons.DoubleColons).differences(comparison)]
    return [*made.copy.told(), *written, *unseen_reads.told(made), *doubtful, *others]
