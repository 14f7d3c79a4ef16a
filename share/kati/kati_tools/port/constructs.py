"""What mends each construct: the table that docs/PORTING.md's own of what becomes of constructs is compared with.

Most is mended where kati has a fault, by the fault's number; the rest before kati is asked, or once it takes the
makefile and means something else by it than make."""
from typing import Callable, Mapping, NamedTuple

from . import (circles, default_goal, default_rule, dependency_includes, double_colons, environment_names, file_writes,
    folder_search, inner_makes, literal_percents, made_folders, made_values, mending, mending_appends, mending_exports,
    mending_lines, mending_shell, of_the_run, recipe_prefix, second_expansion, shared_includes, shell_flags,
    shell_writes, suffix_names, suffix_needs, taken_away, taken_back, target_macros, value_texts, written_out)


class Construct(NamedTuple):
    """A construct, by its row of docs/PORTING.md, and what mends it: `faults` by the number of kati's fault, `other`
    whatever the fault is, where nothing else mends it; both are given the port and the fault, and answer whether they
    did something. `when_read` is for a port of which make has read the makefiles and hasn't told of them, `at_first`
    for one of which kati hasn't been asked. A `mender` does what has to be kept in mind between such times."""

    row: str
    faults: Mapping[str, Callable] = {}
    other: Callable = None
    when_read: Callable = None
    at_first: Callable = None
    mender: type = None


# In the order in which they are mended.
CONSTRUCTS = (
    Construct("`.RECIPEPREFIX = >`", when_read=recipe_prefix.mend),
    Construct("a variable of the environment, as `$(HOME)` or `CC ?= gcc`", at_first=environment_names.hand),
    Construct("`CURDIR` and what else tells of the run", at_first=of_the_run.ask),
    Construct("`$(shell ..)`, `$(wildcard ..)`, `origin`, `flavor`, `abspath`, `realpath`, `!=`, `$(MAKEFILE_LIST)`, "
              "`$(.SHELLSTATUS)`",
              {"E16": mending.refused_function, "E17": mending.shell_assignment}, at_first=shared_includes.add_values),
    Construct("`$(value X)` of a macro that is mended", mender=value_texts.ValueTexts),
    Construct("`$(S:%=\\%)`, `$(patsubst %,\\%,..)`", {"E18": literal_percents.mend}),
    Construct("`*.c` among names", {"E20": mending.refused_name}),
    Construct("`include mk/*.mk`", {"E20": mending.refused_include}),
    Construct("`ifdef $(NAME)`, where that is empty", {"E15": mending_lines.empty_name}),
    Construct("`ifeq ($(X)),a)`, where make takes a parenthesis too much as text",
              {"E15": mending_lines.odd_parenthesis}),
    Construct("`override`, `private`, `undefine`", {"E17": mending_lines.modified}),
    Construct("`load`", {"E17": mending_lines.loaded}),
    Construct("`%: %.c` without a recipe, an empty `.SUFFIXES`, `-r` in `MAKEFLAGS`", mender=taken_back.TakenBack),
    Construct("`VPATH`, `vpath`", {"E17": mending.folder_pattern}, mender=folder_search.Search),
    Construct("`-lm` as a prerequisite", mender=folder_search.Search),
    Construct("`X:: y` without a recipe, which make makes by an implicit rule", mender=double_colons.DoubleColons),
    Construct("`.o: ; mkdir .o`, where the goals need a file or folder of that name", mender=suffix_names.SuffixNames),
    Construct("`.c.o: defs.h` with a recipe", mender=suffix_needs.SuffixNeeds),
    Construct("`.o.c:` or `%.c: %.o`, where `x.o` needs `x.c`", {"E28": circles.mend}, mender=circles.Circles),
    Construct("an empty `.DEFAULT_GOAL`, behind which make takes the next target for the goal",
              mender=default_goal.DefaultGoal),
    Construct("`.DEFAULT`", {"E22": mending.default}, mender=default_rule.DefaultRule),
    Construct("`debug: CFLAGS += -g`, where the goals don't need `debug`", {"E23": mending.target_macro},
              mender=target_macros.TargetMacros),
    Construct("the same where they need it", mender=target_macros.TargetMacros),
    Construct("`$(MAKE_VERSION)`, `.FEATURES`", at_first=mending.makes_own),
    Construct("a tab before an assignment, a conditional or an include, behind a line of references as `$(eval ..)`",
              at_first=mending_lines.behind_references),
    Construct("conditionals and other words behind a tab",
              {number: mending_lines.tabs for number in ("E05", "E06", "E10", "E11", "E12")},
              other=mending_lines.tab_conditionals),
    Construct("`.SECONDEXPANSION`", {"E22": second_expansion.mend}),
    Construct("`X = $(eval X := $(shell ..))$(X)`, which a recipe is the first to use",
              {"E32": mending.evaluated_value}),
    Construct("macros or includes that nest in more than 100 levels", {"E08": mending.too_deep}),
    Construct("a template in which `eval` reads what kati refuses",
              {"E16": written_out.mend_functions, "E32": written_out.evaluated_values}, other=written_out.mend),
    Construct("`$(shell ..)` that has another value each time in a recipe, or reads a file there that the build makes",
              mender=made_values.MadeValues),
    Construct("`$(file >$@,..)` in a recipe", mender=file_writes.FileWrites),
    Construct("`$(shell mkdir -p deps)`, of a folder in which the build makes nothing",
              mender=shell_writes.ShellWrites),
    Construct("`$(MAKE) -C lib`", mender=inner_makes.InnerMakes),
    Construct("`.POSIX`", mender=shell_flags.ShellFlags),
    Construct("a backslash and a newline within single quotes in a recipe", mender=mending_shell.ShellTexts),
    Construct("a comment in a recipe that ends in a backslash", mender=mending_shell.ShellTexts),
    Construct("`+=` to an empty value, or of an empty one, where the blank counts", mender=mending_appends.Appends),
    Construct("`export X`, `export X = ..`, also under `ifdef MAKE_VERSION`", {"E17": mending_lines.exported},
              mender=mending_exports.Exports),
    Construct("`export`, `.EXPORT_ALL_VARIABLES`", {"E22": mending.export_all}, mender=mending_exports.Exports),
    Construct("`-include *.d` and other includes of header dependencies that a compiler writes by `-MD` or `-MMD`",
              mender=dependency_includes.DependencyIncludes),
    Construct("those that a rule makes, as by `cc -MM`, or that a recipe moves or rewrites",
              {"E04": mending.absent_include, **{number: mending.by_dependencies for number in ("E24", "E28", "E31")}},
              mender=dependency_includes.DependencyIncludes),
    Construct("`obj: ; mkdir obj`, where `obj/a.o` doesn't name `obj`", mender=made_folders.MadeFolders),
    Construct("`all: clean prog`, where `clean` takes `prog` away by `rm`", mender=taken_away.TakenAway),
)
# What has to be kept in mind, in the order of the table.
MENDERS = tuple(dict.fromkeys(one.mender for one in CONSTRUCTS if one.mender))
# In the order in which they are settled: what is made by which rules comes first; then, by one translation, what the
# commands have, each by itself; and what compares them with make's is last, exported variables behind what is appended.
TOGETHER = (target_macros.TargetMacros, made_values.MadeValues, inner_makes.InnerMakes, shell_flags.ShellFlags)
SETTLED = tuple(dict.fromkeys(TOGETHER if one in TOGETHER else (one,) for one in MENDERS))
# In the order in which it stands at the end of the makefile.
AT_THE_END = (default_goal.DefaultGoal, folder_search.Search, target_macros.TargetMacros, mending_exports.Exports,
              shell_flags.ShellFlags, mending_shell.ShellTexts, taken_back.TakenBack, made_folders.MadeFolders,
              taken_away.TakenAway)


def give_menders(port):
    """Gives a port what mends its constructs."""
    for kind in (*AT_THE_END, *MENDERS):
        port.mender(kind)


def mend_read(port):
    """Mends what make read, before it is asked for values."""
    for one in CONSTRUCTS:
        if one.when_read:
            one.when_read(port)


def begin(port):
    """Mends what kati needn't be asked about."""
    begun = set()
    for one in CONSTRUCTS:
        if one.at_first:
            one.at_first(port)
        if one.mender and one.mender not in begun:
            begun.add(one.mender)
            port.mender(one.mender).begin()


def by_number(fault):
    """What mends faults of this number, in the order in which it is tried."""
    return [one.faults[fault.number] for one in CONSTRUCTS if fault.number in one.faults]


def menders_of(fault):
    """The same for a fault, with what is tried whatever the fault is."""
    return [*by_number(fault), *(one.other for one in CONSTRUCTS if one.other)]


def settle(port, translation):
    """Mends the first constructs by which kati's translation isn't make's, and beside them, for a build alone, others
    that may not have to be mended then; answers whether the makefile has changed."""
    for at, kinds in enumerate(SETTLED):
        if any([port.mender(kind).settle(translation) for kind in kinds]):
            others = [kind for more in SETTLED[at + 1:] for kind in more] if port.asked.for_build else []
            for kind in others:
                port.mender(kind).settle_beside(translation)
            return True
    return False


def end(port):
    """Says where values came from, and counts what was done."""
    port.freezer.settle_sources()
    for kind in MENDERS:
        port.mender(kind).end()
