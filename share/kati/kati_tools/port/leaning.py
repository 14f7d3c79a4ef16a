"""What a makefile takes for granted that make has and kati hasn't: built-in rules, macros, and what it is told by
its surroundings."""
import os
import re

from ..base import files
from ..makefile import includes
from ..makefile.advice import Finding
from ..makefile.forms import SUFFIXES, is_suffix_rule
from ..makefile.references import without_references
from ..base.programs import SHARE
from ..build.translating import MACROS

OF_MAKE = {"MAKEFLAGS", "MFLAGS", "CURDIR", "MAKEFILE_LIST", "MAKECMDGOALS", "MAKELEVEL", "MAKE_VERSION", "MAKE_HOST",
           "MAKE_COMMAND", "MAKE_RESTARTS", "MAKEFILES", "MAKEOVERRIDES", ".FEATURES", ".INCLUDE_DIRS", ".VARIABLES",
           ".LIBPATTERNS", ".SHELLSTATUS"}
OF_THE_ENVIRONMENT = {"HOME", "PATH", "PWD", "OLDPWD", "USER", "LOGNAME", "HOSTNAME", "TMPDIR", "LANG", "TERM",
                      "DISPLAY"}
# Those of share/kati, and those of make's other languages.
OTHER_MACROS = {"CO", "COFLAGS", "FC", "F77", "GET", "LINT", "M2C", "MAKEINFO", "OBJC", "PC", "TANGLE", "TEX",
                "TEXI2DVI", "WEAVE", "CWEAVE", "CTANGLE", "COMPILE.f", "COMPILE.m", "COMPILE.p", "LINK.f", "LINK.m",
                "LINK.p"}
BRACKETS = {"(", ")"}
SOURCES = (".c", ".cc", ".C", ".cpp", ".s", ".S", ".o")


def macros_of_share():
    """The names that share/kati assigns."""
    return set(re.findall(r"^([A-Za-z_.]+) *=", files.read(os.path.join(SHARE, MACROS)), re.MULTILINE))


def has_object_rule(rules):
    """Whether a pattern rule, a static one or a suffix rule makes names that end in .o."""
    for rule in rules:
        patterns = [rule.pattern or "", *(name for name in rule.targets if "%" in name)]
        if any(one.endswith("%.o") or one == "%" for one in patterns):
            return True
        if any(name.endswith(".o") and is_suffix_rule(name) for name in rule.targets):
            return True
    return False


def objects(scan):
    """Where names that end in .o stand that no rule with a recipe makes: one finding, for the first of them."""
    if has_object_rule(scan.rules):
        return
    made = {name for rule in scan.rules if rule.has_recipe for name in rule.targets}
    named = [(rule.file, rule.number, name) for rule in scan.rules for name in rule.needs + rule.targets] + scan.values
    for file, number, name in named:
        is_member = not BRACKETS.isdisjoint(without_references(name))
        if name.endswith((".o", ".o)", ".o}")) and name not in made and not name.startswith("*") and not is_member:
            yield Finding(file, number, name, "built-in rule")
            return


def programs(scan):
    """Targets without a recipe of which a prerequisite has their name and a suffix."""
    made = {name for rule in scan.rules if rule.has_recipe for name in rule.targets}
    for rule in scan.rules:
        for name in rule.targets:
            if name not in made and any(name + suffix in rule.needs for suffix in SOURCES):
                yield Finding(rule.file, rule.number, f"{name}: {' '.join(rule.needs)}", "built-in rule")


def suffix_rules(scan):
    """Rules that look like suffix rules and have prerequisites."""
    for rule in scan.rules:
        is_suffix = not rule.is_double and any(is_suffix_rule(name) for name in rule.targets)
        if is_suffix and rule.needs and rule.has_recipe:
            form = f"{' '.join(rule.targets)}: {' '.join(rule.needs)}"
            yield Finding(rule.file, rule.number, form, "suffix prerequisites")


def cut_suffixes(name):
    """The two suffixes of a target that looks like a suffix rule of two: what is made, and its source."""
    return [(made, name[:-len(made)]) for made in SUFFIXES if name.endswith(made) and name[:-len(made)] in SUFFIXES]


def suffix_order(scan):
    """Suffix rules for which there is a pattern rule too: make and kati may choose another one of the two."""
    patterns = {(target, need) for rule in scan.rules for target in rule.targets for need in rule.needs}
    for rule in scan.rules:
        names = rule.targets if rule.has_recipe and not rule.needs else []
        for name in names:
            if any(("%" + made, "%" + source) in patterns for made, source in cut_suffixes(name)):
                yield Finding(rule.file, rule.number, f"{name}:", "suffix order")


def groups(scan):
    """Grouped targets without a recipe."""
    for rule in scan.rules:
        if rule.is_group and not rule.has_recipe:
            yield Finding(rule.file, rule.number, f"{' '.join(rule.targets)} &:", "group")


def first_taken(scan, places):
    """The first of these places that kati takes, else the first of all."""
    return next((one for one in places if not scan.is_idle(*one[:2])), places[0])


def macros(scan, has_builtin):
    """Macros that are referred to and that nothing assigns, though make has them."""
    kinds = {**dict.fromkeys(OTHER_MACROS, "built-in macro"), **dict.fromkeys(OF_MAKE, "of make"),
             **dict.fromkeys(OF_THE_ENVIRONMENT, "environment"), "MAKE": "inner make"}
    if not has_builtin:
        kinds.update(dict.fromkeys(macros_of_share(), "built-in macro"))
    for name, places in scan.uses.items():
        if name in kinds and name not in scan.assigned:
            yield Finding(*first_taken(scan, places), f"$({name})", kinds[name])


def wild_values(scan):
    """Values with wildcards of macros that a rule's names refer to."""
    for name, places in scan.wild.items():
        if name in scan.needed:
            file, number, word = first_taken(scan, places)
            yield Finding(file, number, f"{name} = {word}", "name")


def is_made(name, rules):
    """Whether a rule with commands makes a file; of a name that holds a reference, what may be such a name."""
    ending = includes.pattern_of(name).rpartition("*")[2]
    for rule in rules:
        for target in rule.targets if rule.has_commands else []:
            if "$" in name and ending and target.endswith(ending) and ("%" in target or "$" in target):
                return True
            before, percent, after = target.partition("%")
            if name == target or percent and name.startswith(before) and name.endswith(after):
                return True
    return False


def made_includes(scan):
    """Includes that make would first make."""
    for file, number, word, name in scan.unmade:
        if is_made(name, scan.rules):
            yield Finding(file, number, f"{word} {name}", "made include")


def findings(scan, has_builtin):
    """All of them."""
    found = [*suffix_rules(scan), *suffix_order(scan), *groups(scan), *macros(scan, has_builtin), *wild_values(scan),
             *made_includes(scan)]
    return found if has_builtin else [*found, *objects(scan), *programs(scan)]
