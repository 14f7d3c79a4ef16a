"""Quick looks at the texts of large makefiles, for which reading them whole (`syntax.py`) takes too long.

Each finds what the reading finds, or more; the tests compare them."""
import functools
import re

# What may continue a line: backslashes at its end, of which the last one isn't quoted where their number is odd.
CONTINUED = re.compile(r"(\\+)\r?\n[ \t]*")
# An `include` at a line's beginning; a line that another one continues in is none.
HARD_INCLUDE = re.compile(rb"(?<!\\\n)^( *)include(?=[ \t])", re.MULTILINE)
# An include with `..` behind a folder.
INCLUDE_UP = re.compile(r"^[ \t]*[-s]?include\b.*/\.\.", re.MULTILINE)
# A line of a rule that has no recipe, as compilers write them; and how such a file ends.
RULE_ALONE = re.compile(r"[^\t#=]*:[^=]*|[ \t]*|#.*")
# A line that is no recipe line, behind a line's end; and a recipe on the line of its rule.
PLAIN_LINE, RECIPE = re.compile(rb"\n([^\t\n].*)"), re.compile(b";.*")
# A line of references that come to nothing, with a line behind a tab before the next one of another kind; and a line of
# a conditional behind a tab.
IGNORED_TABS = re.compile(r"""^[ ]*\$[({](?:eval|info|warning|error)\b.*\n
                              (?:[ ]*(?:(?:\#|ifn?eq|ifn?def|else|endif).*)?\n)*\t
                              |^\t[ \t]*(?:ifn?eq|ifn?def|else|endif)\b""", re.MULTILINE | re.VERBOSE)
# Lines with a reference or a `%` before a colon, and suffix rules; no recipe lines, and no comments. The first of these
# bytes stands where it is looked for, so that a line of many is looked through once. Behind a line's end, as all forms
# that begin so: what begins with a byte is found twice as fast as the beginning of a line.
COMPUTED_RULE = re.compile(r"\n(?![\t#])((?:\.[^\n:]*|[^\n$%]*[$%][^\n]*):.*)")
ASSIGNING = re.compile(r":{1,3}=")
# What may take back make's own rules.
TAKING_BACK = re.compile(r"^ *%[^:=\n]*:[ \t]*%|\.SUFFIXES\b|\bMAKEFLAGS[ \t]*[:+?!]*=.*r|--no-builtin-rules",
                         re.MULTILINE)
# What stands before a reference in the name of a macro, of one that a function asks of, too.
COMPUTED = re.compile(r"\$[({](?:(?:call|value|flavor|origin)[ \t]+)?([^\s(){}$:,]*)\$")
# References to macros by names that are written out, with what may stand behind these, and without.
NAMED, PLAIN = re.compile(r"\$[({]([^\s:,$(){}]+)"), re.compile(r"\$[({]([^\s:,$(){}]+)[)}]")
# An assignment that leaves nothing of a value of before, and what begins and ends lines that may not count.
ASSIGNED_OR_LINES = re.compile(r"""\n(?:[ ]*(?:(?:override|export)[ ]+)*([\w.]+)[ \t]*(?::{0,3}|\?|!)=
                                   |[ \t]*(?:(ifn?def|ifn?eq|define)|endif|endef)\b)""", re.VERBOSE)


def places_of(text, part):
    """Where a part stands in a text."""
    at = text.find(part)
    while at >= 0:
        yield at
        at = text.find(part, at + 1)


# A few makefiles are asked for it again and again.
@functools.lru_cache(16)
def without_continuations(text):
    """A makefile's text with continued lines joined."""
    def blank(found):
        count = len(found.group(1))
        return "\\" * (count - 1) + " " if count % 2 else found.group()
    return text if "\\" not in text else CONTINUED.sub(blank, text)


def softened(data):
    """A makefile's bytes in which each line with `include` takes an absent file for an empty one."""
    return HARD_INCLUDE.sub(rb"\1-include", data)


def has_rules_alone(text):
    """Whether a makefile has nothing but rules without recipes, as compilers write header dependencies."""
    return all(map(RULE_ALONE.fullmatch, without_continuations(text).split("\n")))


def plain_lines(data):
    """The lines of a makefile's bytes that don't begin with a tab, but for empty ones."""
    return PLAIN_LINE.findall(b"\n" + data)


def without_recipes(data):
    """Lines of rules, as bytes, without the recipes on them."""
    return RECIPE.sub(b"", data) if b";" in data else data


def may_have_ignored_tabs(text):
    """Whether a makefile may have lines behind a tab that make takes and kati ignores (after_references.py)."""
    return IGNORED_TABS.search(without_continuations(text)) is not None


def may_have_rule(text, name):
    """Whether a rule in a makefile's text, in which continued lines are joined, may have a name before its colon."""
    return name in text and re.search(rf"^(?![\t#])[^\n]*{re.escape(name)}[^\n]*:", text, re.MULTILINE) is not None


def may_include_up(text):
    """Whether a makefile may include something by `..` behind a folder."""
    return "/.." in text and INCLUDE_UP.search(without_continuations(text)) is not None


def computed_rules(text):
    """The lines of such a text that may be rules with a reference or a `%` in their targets, and suffix rules."""
    return COMPUTED_RULE.findall("\n" + text)


def before_colons(line):
    """What stands before the last colon of a line that assigns nothing."""
    return ASSIGNING.sub(" ", line).rpartition(":")[0]


def may_have_another_shell(text):
    """Whether make may have another shell than the usual one by a makefile, or other flags for it."""
    return "SHELL" in text or may_be_posix(text)


def may_be_posix(text):
    """Whether a makefile may have `.POSIX`."""
    return ".POSIX" in text


def may_take_rules_back(text):
    """Whether a makefile may take back rules that make has by itself."""
    return TAKING_BACK.search(text) is not None


def names_in(text):
    """The names of macros, and of functions, with which references in a text begin."""
    return NAMED.findall(text)


def beginnings_of_computed(text):
    """With what the names of macros begin that a text computes, each as far as it is written out."""
    return COMPUTED.findall(text)


def surely_assigned(text):
    """The macros to which a makefile's text gives a value whatever holds: in no conditional, and in no `define`."""
    found, depth = set(), 0
    for statement in ASSIGNED_OR_LINES.finditer("\n" + without_continuations(text)):
        assigned, begin = statement.groups()
        if not assigned:
            depth += 1 if begin else -1
        elif not depth:
            found.add(assigned)
    return found


def form_of(names):
    """The form of a text that has one of these names of macros as a word, or one of a letter behind a dollar."""
    words, letters = ("|".join(map(re.escape, some)) for some in (names, [one for one in names if len(one) == 1]))
    return re.compile(rf"(?<![\w.-])(?:{words})(?![\w.-])" + (rf"|\$(?:{letters})" if letters else ""))


def with_values(text, value_of):
    """A text in which each reference to a macro that is written out is what `value_of` answers for its name, or stays
    where that is None."""
    def value(found):
        one = value_of(found.group(1))
        return found.group() if one is None else one
    return PLAIN.sub(value, text)
