"""Calls of `shell`, and of `file` that write, which the recipe's own shell runs for kati.

make's command has what such a call gave when make was asked, and kati's the call itself. make is asked once more, with
kati's text in the place of these calls: where the commands are the same then, they have the same text, and the calls
are told aside. Where the recipe's shell is seen to read another value than make, that is a difference."""
import re

from ..base import files
from ..make import plain_commands, shell_text
from .translating import FOR_SHELL, VALUES

BEGIN, END = "[[kati-shell:", ":shell-kati]]"
MARKED = re.compile(rf"{re.escape(BEGIN)}(.*?){re.escape(END)}", re.DOTALL)
# What a shell makes something else of where it stands in its text than where a command has written it.
READ_BY_SHELL = re.compile(r"""['"\\$`;|&()<>*?\[\]~#!{}]""")
# Programs that print nothing of what they name, and those that write no file that they name.
PRINTING_NONE = {"touch", "mkdir", "rm", "chmod", "true", ":", "echo", "printf"}
WRITING_NONE = {"cat", "cmp", "diff", "echo", "grep", "head", "ls", "printf", "tail", "test", "[", "wc"}
NAMES_OF_SHELL = re.compile(r"\$\{?(\w+)")
ENDS_WELL = re.compile(r"(?:\|\||;)\s*(?:true|:)\s*\)$")
# What it runs for a call of `file`, and the names of files in such texts.
WRITES, WRITTEN = "{prints} {mark} '{name}';", re.compile(r">>? '([^'\n]*)';")
OF_SHELL = "$("
# How many are named, and by which words.
MOST, RUNS = 5, "for kati the recipe's own shell runs, when it comes to it: "
ASSIGNED = re.compile(r"(?:^|[\s;|&(){}])[A-Za-z_]\w*=$")


def shortened(texts, between):
    """The first of some texts, and how many more there are."""
    more = f" and {len(texts) - MOST} more" if len(texts) > MOST else ""
    return between.join(list(texts)[:MOST]) + more


class Use:
    """A call in a command of make's: what the shell runs, the command before it, and what make had for it."""

    def __init__(self, call, before, value):
        self.call, self.before, self.value = call, before, value


def uses_in(marked, plain):
    """The calls in a command with marks, beside the same command as make has it; None where that is another one."""
    parts, values, at = MARKED.split(marked), [], 0
    first, *between, last = parts[::2] if len(parts) > 1 else [marked, ""]
    for text in [first, *between]:
        start = plain.find(text, at)
        if start < 0 or not values and start:
            return None
        values.append(plain[at:start])
        at = start + len(text)
    end = len(plain) - len(last)
    if end < at or not plain.endswith(last) or len(parts) == 1 and at != end:
        return None
    before = ["".join(parts[:2 * number + 1]) for number in range(len(parts) // 2)]
    return [Use(*one) for one in zip(parts[1::2], before, [*values[1:], plain[at:end]])]


def uses(marked, plain):
    """The same for each command, where all others are the same. Where a call alone is a line of a recipe and gives
    nothing, make has no command for it."""
    alone = [not MARKED.sub("", line).strip() for line in marked]
    rest = iter(plain)
    if len(marked) == len(plain) + sum(alone):
        plain = ["" if is_alone else next(rest, None) for is_alone in alone]
    found = [uses_in(*pair) for pair in zip(marked, plain)]
    return None if len(marked) != len(plain) or None in found else found


class CallsOfRecipes:
    """The calls that the recipe's shell runs, by make's commands, the same with marks round these calls, None where
    make doesn't tell, and the commands of each of kati's statements; `meant` are the calls as make has them.

    `commands` are make's, with kati's text of these calls where nothing else differs by that; `told` has a line for
    them, and `differences` one for each of which the recipe's shell may read another value."""

    def __init__(self, commands, marked, recipes, meant):
        self.commands, self.told, self.differences = commands, [], []
        found = None if marked is None else uses(marked, commands)
        if found is None:
            return
        self.commands = [MARKED.sub(r"\1", line) for line in marked]
        calls = dict.fromkeys(use.call for line in found for use in line)
        named = shortened(dict.fromkeys(meant), ", ")
        self.told = [RUNS + named] * bool(calls)
        why = {use.call: reason for line in found for use in line for reason in [why_other(use)] if reason}
        why.update(late_reads(calls, recipes))
        self.differences = [f"{call} may give the recipe's shell another value than make: {reason}"
                            for call, reason in list(why.items())[:MOST]]
        self.differences += [f"and {len(why) - MOST} more such calls"] * (len(why) > MOST)


def marked_text(katis):
    """kati's text of such a call between two marks, which make is given in the place of its own."""
    return f"{BEGIN}{katis}{END}"


class Written:
    """Such calls in the kati-values.mk of this folder, which kati-port wrote: kati's text by the macro's name, and the
    calls as make has them."""

    def __init__(self):
        text = files.read(VALUES) or ""
        self.katis = dict(re.findall(rf"^# {FOR_SHELL}\n(\S+) = (.*)$", text, re.MULTILINE))
        makes = dict(re.findall(r"^(\S+) = (.*)$", text.partition("\nelse\n")[0], re.MULTILINE))
        self.meant = [makes[name] for name in self.katis if name in makes]

    def words(self):
        """The macros by which make has kati's text between marks."""
        return [f"{name}={marked_text(katis)}" for name, katis in self.katis.items()]


def is_within(quote, before):
    """Whether a shell's text ends within quotes of this kind."""
    open_quote, is_escaped = "", False
    for mark in before:
        if is_escaped:
            is_escaped = False
        elif mark == "\\" and open_quote != "'":
            is_escaped = True
        elif mark == open_quote:
            open_quote = ""
        elif not open_quote and mark in "'\"":
            open_quote = mark
    return open_quote == quote


def why_other(use):
    """Why the recipe's shell is seen to have another value for a call than make; None where it isn't."""
    if not use.call.startswith(OF_SHELL):
        return None
    if not (use.before.strip() or use.value or ENDS_WELL.search(use.call)):
        return "a fault of its own ends the recipe, where make goes on"
    if is_within("'", use.before):
        return "it stands within quotes"
    if is_within('"', use.before):
        is_other = re.search(r"[\s\"\\$`]", use.value)
        return f"it stands within quotes, and make has {use.value}" if is_other else None
    if ASSIGNED.search(use.before):
        return "a variable of the shell gets it"
    return f"make's shell reads {use.value} as its own text" if READ_BY_SHELL.search(use.value) else None


def late_reads(calls, recipes):
    """The calls that read what commands before them in their recipe may write, or hang on what those do, each with
    what that is."""
    for recipe in recipes:
        texts = [text.strip() for text in recipe]
        for at, text in enumerate(texts):
            for call in (call for call in calls if call in text):
                why = why_late if call.startswith(OF_SHELL) else why_written_late
                reason = why(call, text[:text.index(call)], texts[:at])
                if reason:
                    yield call, reason


def why_written_late(call, before, others):
    """Why it counts that the recipe's shell writes a file later than make, which does before it runs anything; None
    where it isn't seen to."""
    rest = [WRITTEN.sub("; ", text) for text in (*others, before)]
    named = {word for text in rest for words in shell_text.simple_commands(text) for word in words}
    both = sorted(named.intersection(WRITTEN.findall(call)))
    return f"its recipe names {both[0]} before it" if both else None


def why_late(call, before, others):
    """Why a call hangs on what its recipe does before it; None where it isn't seen to."""
    own = shell_text.simple_commands(before)
    if any(words[0] == "cd" for words in own):
        return "it is run in another folder"
    named = set(NAMES_OF_SHELL.findall(call))
    if any(re.search(rf"\b{name}\b", before) for name in named):
        return "it names a variable that the recipe sets"
    command = call[len("$("):-1]
    read = {word for one in plain_commands.of_text(command) if one.program not in PRINTING_NONE
            for word in one.operands()}
    written = {word for text in (*others, before) for words in shell_text.simple_commands(text)
               if words[0] not in WRITING_NONE for word in words}
    both = sorted(read & written)
    return f"its recipe names {both[0]} before it" if both else None
