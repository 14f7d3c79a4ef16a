"""Makefiles that the makefile includes: what makes them, and which prerequisites those hidden from make name."""
from __future__ import annotations

import os
import re
from typing import FrozenSet, Iterable, Iterator, Mapping, Tuple

from ..base.files import read as bytes_in, text_of
from ..base.message import Stop
from .answer import Answer, Include, Reading, Rule
from .question import Question

RULE = re.compile(r"([^\s:=#$][^:=#$\t]*?)\s*:(?![:=])([^=:;$]*)$")
LARGE = 1 << 22               # bytes; a larger include holds no header dependencies of one file
Rules = Mapping[str, Tuple[Rule, ...]]


def includes_of(question: Question, reading: Reading, rules: Rules) -> Tuple[Include, ...]:
    """The makefile itself, which a rule may make, and the makefiles that it includes, absent ones too."""
    return tuple(include_of(question.folder, name, name in reading.absent_includes, rules)
                 for name in (*reading.makefiles, *reading.absent_includes))


def include_of(folder: str, name: str, is_absent: bool, rules: Rules) -> Include:
    """One included makefile."""
    some = rules.get(name) or rules.get(os.path.normpath(name), ())
    has_rule = any(rule.recipe for rule in some)
    made_from = tuple(closure(name, rules)) if has_rule else ()
    is_always = has_rule and any(is_always_made(rule, rules, folder) for rule in some)
    return Include(name, not is_absent, has_rule, is_always, made_from)


def content(folder: str, name: str) -> bytes:
    """The bytes of an include; none if it is too large to be a depfile, or cannot be read."""
    path = os.path.join(folder, name)
    try:
        return (bytes_in(path) or b"") if os.path.isfile(path) and os.path.getsize(path) <= LARGE else b"\t"
    except (OSError, Stop):
        return b"\t"


def rules_in(data: bytes) -> Iterator[object]:
    """The rules of a makefile, as (targets, prerequisites); None stands for anything else."""
    for line in text_of(data).replace("\r\n", "\n").replace("\\\n", " ").split("\n"):
        if not line.strip() or line.startswith("#"):
            continue
        found = RULE.match(line)
        yield (found.group(1), found.group(2)) if found else None
        if not found:
            return


def is_always_made(rule: Rule, rules: Rules, folder: str) -> bool:
    """Whether make makes the rule's target at each run: it is phony, or needs a name such as FORCE."""
    if rule.is_phony or rule.is_double_colon and rule.recipe and not rule.inputs:
        return True
    return any(one.is_phony or not one.inputs and one.is_target and not any(one.recipe)
               and not os.path.lexists(os.path.join(folder, name))
               for name in rule.inputs for one in rules.get(name, ()))


def closure(name: str, rules: Rules) -> Iterator[str]:
    """What a target is made from, through all rules."""
    seen, work = {name}, [name]
    while work:
        for rule in rules.get(work.pop(), ()):
            for one in (*rule.inputs, *rule.order_only):
                if one not in seen:
                    seen.add(one)
                    work.append(one)
                    yield one


def more_goals(question: Question, includes: Iterable[str], answer: Answer) -> FrozenSet[str]:
    """Names in hidden includes that a rule of the makefile can make from what exists."""
    names = set(prerequisites(question.folder, includes))
    explicit = {rule.targets[0] for rule in answer.rules if rule.recipe and rule.targets[0] in names
                and (rule.inputs or not os.path.lexists(os.path.join(question.folder, rule.targets[0])))}
    patterns = [(pattern(target), rule.inputs) for rule in answer.patterns for target in rule.targets if target != "%"]
    fitting = {name for name in names if any(can_make(name, one, inputs, question.folder) for one, inputs in patterns)}
    return frozenset(explicit | fitting)


def can_make(name: str, target: "re.Pattern[str]", inputs: Iterable[str], folder: str) -> bool:
    """Whether a pattern rule fits a name, and its prerequisites exist."""
    found = target.fullmatch(name)
    at = os.path.dirname(name[:found.start(1)]) if found else ""
    return bool(found) and bool(inputs) and all(
        os.path.lexists(os.path.join(folder, at if "/" not in one else "", one.replace("%", found.group(1))))
        for one in inputs)


def prerequisites(folder: str, includes: Iterable[str]) -> Iterator[str]:
    """The prerequisites that includes name."""
    for include in includes:
        for rule in rules_in(content(folder, include)):
            if rule is not None:
                yield from (re.sub(r"\\([ #])", r"\1", word) for word in re.findall(r"(?:\\[ #]|\S)+", rule[1]))


def pattern(target: str) -> "re.Pattern[str]":
    """A pattern of make's as a regular expression: `%.h` fits `sub/a.h`, too."""
    before, _, behind = target.partition("%")
    folders = "" if "/" in target else "(?:.*/)?"
    return re.compile(f"{folders}{re.escape(before)}(.+){re.escape(behind)}", re.DOTALL)
