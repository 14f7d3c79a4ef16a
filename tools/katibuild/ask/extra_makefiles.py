"""The makefiles that make reads before and after the user's own."""
from __future__ import annotations

import re
from typing import Container, Iterable

from .database import Variable
from .question import Question
from .recorder import ENVIRONMENT, TARGET, Recorder

NOTHING = "kati-nothing"      # the goal that does nothing
MARKER = "kati-left-to-make"  # the recipe of a target that is left to make
HELPERS = "KATI_NO KATI_SP KATI_FLAGS KATI_LETTERS KATI_OWN"
# What recipes and inner makes see in MAKEFLAGS and MFLAGS: only the letters and words go that the tools have added.
# make expands `$@` in MAKEFLAGS for each recipe alone: while make reads, 4.3 has no `-- NAME=VALUE` in it, and 4.4
# would define these variables again.
OPTIONS = """\
unexport {helpers}
KATI_FLAGS := $(filter-out --trace --debug% -j% --jobserver%,$(wordlist 2,9999,-$(MAKEFLAGS)))
KATI_LETTERS := $(filter-out --% -I% -O% -l% -C% -f% -o% -W%,$(filter -%,$(KATI_FLAGS)))
KATI_FLAGS := $(filter-out -- $(MAKEOVERRIDES) $(KATI_LETTERS),$(KATI_FLAGS))
KATI_LETTERS := $(subst p,,$(subst n,,$(subst B,,$(filter-out --%,$(firstword -$(MAKEFLAGS))))))$(KATI_LETTERS)
KATI_LETTERS := {letters}$(subst -,,$(subst $(KATI_SP),,$(KATI_LETTERS)))
KATI_OWN := $(KATI_LETTERS)$(if $(KATI_FLAGS),$(KATI_SP)$(KATI_FLAGS))
override MAKEFLAGS = $(KATI_OWN)$(if $@,$(if $(MAKEOVERRIDES),$(KATI_SP)-- $(MAKEOVERRIDES)))
override export MFLAGS := $(strip $(addprefix -,$(KATI_LETTERS)) $(KATI_FLAGS))
"""
LAST = """\
.RECIPEPREFIX :=
KATI_NO :=
KATI_SP := $(KATI_NO) $(KATI_NO)
MAKEFILE_LIST := $(subst $(KATI_SP){room}/last,,$(MAKEFILE_LIST))
override SHELL := {shell}
export {target} = $@$(if $%,($%))
.NOTPARALLEL:{colon}
{options}-include {environment}
{environment}: ; @{environment}
{room}/last: ;
"""
# An empty recipe runs no shell, whatever SHELL is.
BEHIND_READING = """\
.RECIPEPREFIX :=
KATI_NO :=
KATI_SP := $(KATI_NO) $(KATI_NO)
MAKEFILE_LIST := $(subst $(KATI_SP){room}/nothing,,$(MAKEFILE_LIST))
$(file >{room}/makefiles,$(subst {room}/first,,$(MAKEFILE_LIST)))
$(file >{room}/shell,$(SHELL))
$(file >{room}/goal,$(.DEFAULT_GOAL))
{options}{nothing}: ;
{room}/first {room}/nothing: ;
"""


def name_text(name: str, is_pattern: bool = False) -> str:
    """A name as a makefile spells it."""
    text = re.sub(r"([\s#:%\\])" if not is_pattern else r"([\s#:])", r"\\\1", name)
    return text.replace("$", "$$")


def first(question: Question) -> str:
    """Read before the user's makefile where the goal does nothing: the makefile sees the user's goals."""
    goals = " ".join(question.goals).replace("$", "$$").replace("#", "\\#")
    return (f"MAKECMDGOALS := {goals}\n" if goals else "undefine MAKECMDGOALS\n") + "MAKEFILE_LIST :=\n"


def behind_reading(room: str) -> str:
    """Read after the user's makefile where the goal does nothing."""
    return BEHIND_READING.format(room=room, nothing=NOTHING, options=OPTIONS.format(helpers=HELPERS, letters=""))


def last(recorder: Recorder, shell: str, of_targets: Iterable[Variable] = (), left: Iterable[str] = (),
         absent: Iterable[str] = (), kept: Iterable[str] = (), letters: str = "",
         double_colon: Container[str] = ()) -> str:
    """Read after the user's makefile where make is asked.

    `shell` is the makefile's own SHELL, `of_targets` are those of targets and patterns, `left` are heads of rules whose
    recipes make must not expand, `absent` are files that no rule makes, and `kept` are intermediate files: make without
    `-n` would delete them. `letters` are options that make adds to MAKEFLAGS only after it has read all makefiles.
    `double_colon` are special targets that the makefile has with `::`.
    """
    options = OPTIONS.format(helpers=HELPERS, letters=letters)
    lines = [LAST.format(room=recorder.room, shell=recorder.paths[shell], target=TARGET, options=options,
                         environment=ENVIRONMENT, colon=":" * (".NOTPARALLEL" in double_colon))]
    for one in of_targets:
        head = name_text(one.target, "%" in one.target) + (": private" if one.is_private else ":")
        lines.append(f"{head} override SHELL := {recorder.paths[one.value]}\n")
    lines += [f"{name_text(name)}: ;\n" for name in absent]
    lines += [f".PRECIOUS:{':' * ('.PRECIOUS' in double_colon)} {name_text(name)}\n" for name in kept]
    lines += [f"{head} ; @{MARKER}\n" for head in left]
    return "".join(lines)


def with_recipe(head: str, recipe: Iterable[str], is_one_shell: bool) -> str:
    """A rule whose lines make runs under `-n`, too."""
    lines = [f"\t{'' if is_one_shell and number else '+'}{line}\n" for number, line in enumerate(recipe)]
    return "".join([f"{head}\n", *lines])
