"""How the folders outside this one are found that makefiles name: without expanding more than macros of one word. A
folder more does no harm."""
import functools
import re
from collections import Counter

from ..base import files
from . import includes, quick_looks, statements
from ..base.programs import bytes_of, text_of

# A path outside stands behind a blank or another of these marks, and ends at one or before one of the ends. Each of the
# first is a blank in an even text, each other a tab.
MARKS_AND_ENDS = b"\t\n\r\v\f:,(|", b";)#$%"
EVEN = bytes.maketrans(b"".join(MARKS_AND_ENDS), b" " * len(MARKS_AND_ENDS[0]) + b"\t" * len(MARKS_AND_ENDS[1]))
# `=` is such a mark too, but also a letter of a name.
EQUALS = re.compile(rb"=(?=[./])")
# By how a path outside begins, what follows, up to the last slash: names are many, and folders few.
UP, BELOW = rb"(?:/(?:[^ \t]*/)?|(?=[ \t]))", rb"(?:[^ \t]*/)?"
KINDS = ((b"..", UP), (b"/", BELOW), (b"./", rb"/*(?:\./+)*\.\." + UP))
# So many folders that are known already are passed over in the form itself, which takes a third of the time.
MOST_PASSED = 8
# These hold no sources, and change all the time.
NEVER = ("/dev/", "/proc/", "/sys/")
MOST_LEVELS = 10


def pieces(data):
    """Bytes in pieces that end with a line, of which one at a time takes memory."""
    at = 0
    while at < len(data):
        end = data.find(b"\n", at + files.PIECE) + 1 or len(data)
        yield data[at:end]
        at = end


class Text:
    """The lines of makefiles that are no recipe: the values of macros, each with the others it was assigned, the lines
    that have neither `=` nor a reference, which are most, and all others."""

    def __init__(self, macros):
        self.given = dict(word.split("=", 1) for word in macros)
        self.values = {name: [value] for name, value in self.given.items()}
        self.plain, self.others = [], []

    def add(self, data):
        """Takes in a makefile, as bytes."""
        others = []
        for piece in pieces(bytes_of(quick_looks.without_continuations(text_of(data))) if b"\\" in data else data):
            lines = quick_looks.plain_lines(piece)
            joined = b"\n".join(lines)
            if b"=" in joined or b"$" in joined:
                # All others are put aside.
                joined = b"\n".join([line for line in lines if b"=" not in line and b"$" not in line
                                     or others.append(text_of(line))])
            self.plain.append(joined)
        for line in others:
            found = statements.assignment(line) if "=" in line else None
            if found and "$" not in found.name and found.name not in self.given:
                self.values.setdefault(found.name, []).append(found.value)
            else:
                self.others.append(line)

    def of_rules(self):
        """The lines that aren't assignments and hold a reference or `=`, and the values of the macros that these
        need."""
        found, seen, left = list(self.others), set(), [line for line in self.others if "$" in line]
        while left:
            names = set(quick_looks.names_in(left.pop())) - seen
            seen |= names
            values = [value for name in names for value in self.values.get(name, [])]
            found += values
            left += values
        return found

    def word(self, name, number):
        """The value of a macro, where that is one word; where it has several, that of this number or the last."""
        values = self.values.get(name)
        value = values[min(number, len(values) - 1)].split("#")[0].strip() if values else ""
        return value if len(value.split()) == 1 else None

    @staticmethod
    def expanded(line, value_of):
        """A line in which each macro is its value."""
        for _ in range(MOST_LEVELS):
            line, before = quick_looks.with_values(line, value_of), line
            if line == before:
                break
        return line

    def expansions(self, lines):
        """What lines may say, by each value of their macros. A line whose macros have no further value says nothing
        else by the next ones."""
        count = min(max(map(len, self.values.values()), default=1), MOST_LEVELS)
        found = set()
        for number in range(count):
            value_of, left = functools.lru_cache(None)(functools.partial(self.word, number=number)), []
            for line in lines:
                named = set()
                found.add(self.expanded(line, lambda name: named.add(name) or value_of(name)))
                left += [line] if any(len(self.values.get(name, ())) > number + 1 for name in named) else []
            lines = left
        return found

    def with_paths(self):
        """The even text in which the paths of rules stand."""
        lines = self.of_rules()
        expanded = self.expansions([line for line in lines if "$" in line])
        others = "\n".join([*(line for line in lines if "$" not in line), *expanded])
        return even(b"\n".join([b"", *self.plain, EQUALS.sub(b"= ", bytes_of(others)), b""]))

    def included(self):
        """The names of includes that macros give."""
        lines = [line for line in self.others if "$" in line and statements.include(line)]
        return includes.named_in("\n".join(self.expansions(lines)))


def even(data):
    """A text, with a line's end before it and behind it, as one in which a path outside stands behind a blank, and a
    blank or a tab behind it, without recipes."""
    return quick_looks.without_recipes(data).translate(EVEN)


def form(begin, rest, known):
    """The form of a path that begins and goes on so, and isn't in one of the known folders itself."""
    passed = b"|".join(re.escape(one[len(begin):]) + rb"[^/ \t]*[ \t]" for one in known if one.startswith(begin))
    return re.compile(b" " + re.escape(begin) + (b"(?!" + passed + b")" if passed else b"") + rest)


def folders_in(data):
    """The folders outside this one that stand in an even text, up to their last slash."""
    found = set()
    for begin, rest in KINDS:
        at, known = data.find(b" " + begin), set()
        while at >= 0 and len(known) < MOST_PASSED:
            one = form(begin, rest, known).search(data, at)
            at = one.start() if one else -1
            known.update([one.group()[1:]] if one else [])
        found |= known
        if at >= 0:
            found.update(one[1:] for one in set(form(begin, rest, ()).findall(data, at)))
    return set(map(text_of, found))


class Paths:
    """The paths of an even text."""

    def __init__(self, text):
        self.text = text

    def named(self, folder, below):
        """Of a folder those of the names below it that are named themselves, and itself where something else in it
        is."""
        if not below and folder not in self.before_up:
            return [folder]
        named = [folder + name for name in ("..", *below) if folder + name in self.all]
        return named if self.counts[folder] == len(named) else [folder, *named]

    @functools.cached_property
    def all(self):
        """The words that may be paths, which takes as long to find as the folders, and mostly isn't needed."""
        words = {word.partition(b"\t")[0] for word in set(self.text.split(b" "))}
        return {text_of(word) for word in words if b"/" in word or b".." in word}

    @functools.cached_property
    def before_up(self):
        """What stands before `..` in a path, up to the slash between them."""
        found, path = set(), b""
        for piece in self.text.split(b"/..")[:-1]:
            at = max(piece.rfind(b" "), piece.rfind(b"\t")) + 1
            # A piece without a blank goes on with the path before it.
            path = (b"" if at else path + b"/..") + piece[at:]
            found.add(text_of(path + b"/"))
        return found

    @functools.cached_property
    def counts(self):
        """How many of them are in each folder."""
        return Counter(path[:path.rfind("/") + 1] for path in self.all)


def folders(text, look):
    """The folders that the paths of an even text mean, or in which their files stand, but for those that hold no
    sources; `look` answers the folders in one, and its files."""
    paths, found = Paths(text), set()
    for folder in folders_in(text):
        if not folder.startswith(NEVER):
            is_open = folder.endswith("/")
            found.update(paths.named(folder, [one.name for one in look(folder)[0]]) if is_open else [folder])
    plain = {folder.rstrip("/") for folder in found}
    return sorted(folder for folder in plain if folder and not f"{folder}/".startswith(NEVER))


def text_of_makefiles(found, seen, macros, marked):
    """The even text in which the paths of rules stand: of makefiles, given as bytes by their names, and of what they
    include by the value of a macro, but for what is seen already; and all names that these values give. Of more names
    `marked` answers those that may name such paths, with their bytes."""
    text, seen, included = Text(macros), set(seen), {}
    while found:
        for data in found.values():
            text.add(data)
        included.update(dict.fromkeys(text.included()))
        left = [name for name in included if name not in seen]
        seen.update(left)
        found = marked(dict.fromkeys(left))
    return text.with_paths(), included
