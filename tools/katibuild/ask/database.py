"""The database that `make -p` prints, parsed: the only reader of that text."""
from __future__ import annotations

import re
from typing import Dict, Iterator, List, Mapping, NamedTuple, Optional, Sequence, Tuple

from ..base.message import Place
from .answer import Rule

BEGIN, VERSION = "\n# Make data base, printed on ", "# GNU Make "
BUILTIN = "#  Builtin rule"
HEAD = "#  recipe to execute ("
SPECIAL = (".", "# Not a target:\n.")   # how the texts of special targets begin
AUTHORED = ("makefile", "'override' directive", "command line")
LATE = ("SHELL", "eval", "(shell", "(wildcard", "(file", "(realpath", "{shell", "{wildcard", "{file", "{realpath")
END_OF_FILES = "\n# files hash-table stats"
VARIABLE = re.compile(r"([^\s#:=]+) (:{0,3}|\+)= ?(.*)$", re.DOTALL)
ORIGIN = re.compile(r"# (makefile|default|environment|'override' directive|command line|automatic|environment under -e|"
                    r"'undefine'd|undefined)( private)?(?: \(from '(.*)', line (\d+)\))?$")
UNCLOSED = re.compile(r"(?m)^(?![#\t]).*?: define \S+$(?![\s\S]*^endef$)")   # of a variable of a target


class Variable(NamedTuple):
    """A variable as the makefile defines it; `target` is '' for a global one, a pattern, or a target."""

    name: str
    value: str                                   # unexpanded where the variable is deferred
    is_deferred: bool
    origin: str = "makefile"
    target: str = ""
    is_private: bool = False
    place: Optional[Place] = None


class Database(NamedTuple):
    """What make knows when its run ends."""

    variables: Mapping[str, Variable]            # global
    of_targets: Tuple[Variable, ...]             # of targets and patterns
    rules: Mapping[str, Tuple[Rule, ...]]        # by target; several for `::`
    patterns: Tuple[Rule, ...]                   # implicit rules of the makefile


def split(printed: str) -> Tuple[str, str]:
    """What a run of make printed, and the text of its database. With `--debug` make's version is printed first."""
    said, begin, database = printed.rpartition(BEGIN)
    return (said if said.startswith(VERSION) else said.rpartition(VERSION)[0], database) if begin else (printed, "")


def parse(text: str, beginnings: Tuple[str, ...] = ()) -> Database:
    """The database in one pass; linear. With `beginnings`, and where nothing has a call that matters when a recipe is
    expanded (LATE), only files whose text begins so are parsed."""
    implicit = text.find("\n# Implicit Rules\n")
    files = text.find("\n# Files\n", implicit)
    end = text.find(END_OF_FILES, files)
    first, _, patterns = text[:implicit].partition("\n# Pattern-specific Variable Values\n")
    variables = {one.name: one for one in variables_of(first.split("\n"))}
    of_targets: List[Variable] = list(pattern_variables(patterns))
    of_patterns, of_files = text[implicit:files], text[files + len("\n# Files\n"):end if end >= 0 else len(text)]
    deferred = (one.value for one in variables.values() if one.is_deferred and one.origin in AUTHORED)
    if beginnings and any(word in one for one in (patterns, of_files, of_patterns, *deferred) for word in LATE):
        beginnings = ()
    rules = rules_of(of_files, of_targets, beginnings)
    return Database(variables, tuple(of_targets), rules, tuple(implicit_rules(of_patterns)))


def variables_of(lines: Sequence[str], target: str = "") -> Iterator[Variable]:
    """Variables, each behind the comment that tells its origin."""
    origin, at = None, 0
    while at < len(lines):
        line = lines[at]
        at += 1
        if line.startswith("# "):
            origin = ORIGIN.match(line)
        elif origin and line:
            end = at
            if line.startswith("define "):
                end = closing(lines, at)
                line = "\n".join((f"{line[7:]} = {lines[at]}", *lines[at + 1:end]))
            found = VARIABLE.match(line)
            if found:
                yield variable(origin, target, *found.groups())
            origin, at = None, end + (end > at)


def closing(lines: Sequence[str], at: int) -> int:
    """The number of the line that ends a `define`: an `endef` that a comment, an empty line or nothing follows."""
    while at < len(lines) and not (lines[at] == "endef" and (at + 1 == len(lines) or lines[at + 1][:1] in ("", "#"))):
        at += 1
    return at


def variable(origin: re.Match, target: str, name: str, kind: str, value: str) -> Variable:
    """A variable whose origin make printed."""
    what, private, file, line = origin.groups()
    is_deferred = not kind.startswith(":")
    return Variable(name, value if is_deferred else value.replace("$$", "$"), is_deferred, what, target, bool(private),
                    Place(file, int(line)) if file else None)


def pattern_variables(text: str) -> Iterator[Variable]:
    """Variables of patterns, as `%.x :`, `# makefile ..`, `# SHELL := ..`."""
    for part in re.split(r"\n(?=.* :\n# )", text):
        head, _, rest = part.lstrip("\n").partition("\n")
        if head.endswith(" :"):
            yield from variables_of(re.sub(r"(?m)^(# .*\n)# ", r"\1", rest, count=1).split("\n"), head[:-2])


# A rule, its prerequisites, and the targets that are made with it, as make prints them: names with blanks are known
# only when all rules are read.
Record = Tuple[Rule, str, str]


def rules_of(text: str, of_targets: List[Variable], beginnings: Tuple[str, ...]) -> Dict[str, Tuple[Rule, ...]]:
    """The rules by target. Variables of targets are appended to `of_targets`."""
    known: Dict[str, tuple] = {}
    records = [one for one in [record_of(part, of_targets, known) for part in parts(text)
                               if not beginnings or part.startswith(beginnings)] if one is not None]
    blanks = blank_names(rule.targets[0] for rule, _, _ in records if " " in rule.targets[0])
    rules: Dict[str, Tuple[Rule, ...]] = {}
    for rule, needs, others in records:
        rule = with_names(rule, needs, others, blanks) if blanks or others else rule
        name = rule.targets[0]
        rules[name] = (*rules[name], rule) if name in rules else (rule,)
    return rules


def parts(text: str) -> Iterator[str]:
    """The text of each file. An empty line ends it, but not within a continued line or a `define`."""
    whole = ""
    for part in text.split("\n\n"):
        whole = f"{whole}\n\n{part}" if whole else part
        is_open = part.endswith("\\") and (len(part) - len(part.rstrip("\\"))) % 2 \
            or whole[:2] == "# " and "define " in whole and bool(UNCLOSED.search(whole))
        if not is_open:
            yield whole.lstrip("\n") if whole[:1] == "\n" else whole
            whole = ""
    yield from (whole.lstrip("\n"),) if whole else ()


def record_of(text: str, of_targets: List[Variable], known: Dict[str, tuple]) -> Optional[Record]:
    """The record of one file, or None; `known` keeps recipes: many files have one recipe."""
    prefix, is_target = "\t", True
    if text[:1] in ".#":
        if text.startswith(".RECIPEPREFIX = "):
            line, _, text = text.partition("\n")
            prefix = line[16:] or "\t"
        if text.startswith("# Not a target:\n"):
            text, is_target = text[16:], False
        elif text.startswith("# "):
            text, is_target = without_variables(text, of_targets)
    head, _, rest = text.partition("\n")
    name, colon, needs = head.partition(": ")
    name = name if colon else head[:-1] if head[-1:] == ":" else ""
    is_double_colon = name[-1:] == ":"
    name = name[:-1] if is_double_colon else name
    if not name or name[:1] == "#":
        return None
    at = rest.find(HEAD)
    while at > 0 and rest[at - 1] != "\n":
        at = rest.find(HEAD, at + 1)
    comments, last = (rest[:at], rest[at:]) if at >= 0 else (rest, "")
    if last and last not in known:
        known[last] = recipe_of(last, prefix)
    recipe, place = known[last] if last else ((), None)
    others = comments.partition("#  Also makes: ")[2].partition("\n")[0] if "#  Also makes: " in comments else ""
    inputs, order_only = divided(needs.split()) if "|" in needs else (tuple(needs.split()), ())
    if not is_target and BUILTIN in comments:
        return None
    return Rule((name,), inputs, order_only, "#  Phony target" in comments, is_double_colon,
                "#  File is an intermediate" in comments, recipe, place,
                is_target or bool(recipe or needs)), needs, others


def divided(needs: List[str]) -> Tuple[Tuple[str, ...], Tuple[str, ...]]:
    """The prerequisites before and behind `|`."""
    if "|" not in needs:
        return tuple(needs), ()
    at = needs.index("|")
    return tuple(needs[:at]), tuple(one for one in needs[at + 1:] if one != "|")


def without_variables(text: str, of_targets: List[Variable]) -> Tuple[str, bool]:
    """The text behind the target's own variables, and whether the file is a target."""
    lines, at = text.split("\n"), 0
    while at + 1 < len(lines) and ORIGIN.match(lines[at]):
        target, _, line = lines[at + 1].partition(": ")
        end = closing(lines, at + 2) + 1 if line.startswith("define ") and "endef" in lines[at:] else at + 2
        of_targets.extend(variables_of([lines[at], line, *lines[at + 2:end]], target))
        at = end
    is_target = lines[at] != "# Not a target:"
    return "\n".join(lines[at if is_target else at + 1:]), is_target


def recipe_of(text: str, prefix: str) -> Tuple[Tuple[str, ...], Optional[Place]]:
    """The logical lines of a recipe behind its head, and its place; an empty recipe is one empty line."""
    head, _, body = text.partition("\n")
    file, has_place, number = head[len(HEAD):].rpartition("', line ")
    place = Place(file[len("from '"):], int(number.rstrip("):"))) if has_place else None
    body = body.rstrip("\n")
    if body.startswith(prefix) and "\n" not in body and "\\" not in body:
        return (body[1:],), place
    recipe, line = [], ""
    for one in body.split("\n"):
        line = f"{line}\n{one}" if line else one[1:] if one.startswith(prefix) else one
        if not (line.endswith("\\") and (len(line) - len(line.rstrip("\\"))) % 2):
            recipe.append(line)
            line = ""
    recipe += [line] if line else []
    return tuple(recipe), place


def with_names(rule: Rule, needs: str, others: str, blanks: Mapping[str, List[Tuple[str, ...]]]) -> Rule:
    """The rule with the names of prerequisites that have blanks, and those of the targets that are made with it."""
    inputs, order_only = divided(words_of(needs, blanks))
    name = rule.targets[0]
    beside = (one for one in words_of(others, blanks) if one != name)
    return rule._replace(targets=(name, *beside), inputs=inputs, order_only=order_only)


def blank_names(names: Iterator[str]) -> Mapping[str, List[Tuple[str, ...]]]:
    """Names with blanks by their first words, the longest first: make prints them as they are."""
    found: Dict[str, List[Tuple[str, ...]]] = {}
    for words in sorted({tuple(name.split(" ")) for name in names}, key=len, reverse=True):
        found.setdefault(words[0], []).append(words)
    return found


def words_of(text: str, blanks: Mapping[str, List[Tuple[str, ...]]]) -> List[str]:
    """The names in a list of prerequisites."""
    if not blanks:
        return text.split()
    words, found, at = text.split(" "), [], 0
    while at < len(words):
        name = next((one for one in blanks.get(words[at], ()) if tuple(words[at:at + len(one)]) == one), (words[at],))
        at += len(name)
        if any(name):
            found.append(" ".join(name))
    return found


def implicit_rules(text: str) -> Iterator[Rule]:
    """The makefile's own implicit rules; the built-in ones are left out."""
    for part in parts(text):
        record = record_of(part.partition("\n# Implicit Rules\n")[2] or part, [], {})
        if record is not None and record[0].place is not None:
            yield record[0]._replace(targets=tuple(record[0].targets[0].split()))
