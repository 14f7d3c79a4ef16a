"""What stands in the Ninja file for includes that rules make (made_includes.py), beside what kati wrote:

- `restat` for each statement from which an include is made, for recipes that leave a file as it is.
- `generator` where the command names what the include says, which would make it anew each time; and for an include
  that was there before ninja could make it: file times alone count for it then, as for make, and `ninja -t clean`
  leaves it. Files of header dependencies don't get it.
- A link to the include in the place of the include, which is a phony target made from its link. So ninja sees the
  include's own time, and can be told that it is out of date without a change of that time, which is make's, too.
- A guard round the command. Where a file is gone that its rule names, as a deleted source, or where it fails and make
  would go on, the include counts as out of date and isn't made, and the translation decides: it may not be needed any
  more. For that a file takes the link's place, with a date of long ago, another one each time, since with `restat` the
  same date twice counts as unchanged. A file of kati-build's own, the mark, that is among its inputs, gets the time of
  now, also where the recipe fails: newer versions of Ninja note the time at which a command begins and not the
  file's, so a moment passes first.
- Statements for files that may be gone: those that guards look for, and headers that only dependencies name.
- They are no goals of the build, though kati was asked for them: what is made each time would be made twice."""
import os
import shlex

from ..base.own_files import LINKS, MARKS
from . import made_includes, ninja_text
from .top_file import FAULTS_NAME

RESTAT, GENERATOR = " restat = 1", " generator = 1"


# What stands in the guard before the mark gets the time of now.
LATER = "sleep 0.01 2>/dev/null; touch"


def place(room, folder, name):
    """Where something of an include is, in a folder of kati-build's."""
    return os.path.join(room, folder, name.replace("%", "%25").replace("/", "%2F"))


def mark_of(room, name):
    """The mark of an include."""
    return place(room, MARKS, name)


def link_of(room, name):
    """The link to an include."""
    return place(room, LINKS, name)


def target_of(room, name):
    """Where the link to an include leads."""
    return os.path.relpath(name, os.path.join(room, LINKS))


def linked(line, room, names):
    """A `build` line whose outputs of these names are made from links, behind the lines that say so."""
    outputs, rest = ninja_text.cut(line)
    links = {ninja_text.escaped(name): ninja_text.escaped(link_of(room, name)) for name in names}
    made = [links.get(name, name) for name in ninja_text.names(outputs)]
    return "\n".join([*(f"build {name}: phony {link}" for name, link in links.items()),
                      f"build {' '.join(made)}:{rest}"])


def with_input(line, name):
    """A `build` line with one more input, behind the first bar."""
    head, bar, rest = line.partition(" || ")
    return f"{head}{' ' if ' | ' in head else ' | '}{ninja_text.escaped(name)}{bar}{rest}"


class Statements:
    """What is added to the text of these `MadeIncludes`, and put in the place of some lines; `phonies` are the names
    that may be absent, `gone` tells of a file that an include needs and that isn't there. `stood` are the includes that
    were there before ninja could make them."""

    def __init__(self, made, room, stood=frozenset()):
        self.made, self.room, self.stood = made, room, stood
        self.lines = made.found.text.split("\n")
        self.made_leaves = {name: [one for one in self.own(name).inputs if one not in made.by_output]
                            for name in made.names}
        self.added, self.replaced = {}, {}
        for statement in self.cone():
            self.take(statement)
        self.cut_goals()
        self.phonies = self.may_be_absent()

    def own(self, name):
        """What makes an include, without what dependencies say."""
        return self.made.own.get(name) or self.made.by_output[name]

    def cone(self):
        """The statements with a command from which includes are made, each once."""
        left, seen = list(self.made.names), set()
        found = {}
        while left:
            name = left.pop()
            statement = self.made.by_output.get(name)
            if name in seen or statement is None:
                continue
            seen.add(name)
            left += statement.needs
            if statement.command is not None:
                found[statement.line] = statement
        return [found[line] for line in sorted(found)]

    def take(self, statement):
        """Adds to a statement, and guards it where it makes an include."""
        names = [name for name in self.made.names if name in statement.outputs]
        is_settled = not self.made.settled.union(self.stood).isdisjoint(names)
        self.added[statement.line] = [RESTAT, *([GENERATOR] if is_settled else [])]
        if names:
            # What ninja shows is the command without its guard.
            self.added[statement.line].append(f" description = {ninja_text.escaped_value(statement.command)}")
            at = next(at for at in range(statement.line, -1, -1) if self.lines[at].startswith(" command = "))
            self.replaced[at] = " command = " + ninja_text.escaped_value(self.guarded(statement, names))
            line = with_input(self.lines[statement.line], mark_of(self.room, names[0]))
            self.replaced[statement.line] = linked(line, self.room, names)

    def guarded(self, statement, names):
        """The command of a statement that makes these includes, with its guard."""
        mark = shlex.quote(mark_of(self.room, names[0]))
        links = {shlex.quote(link_of(self.room, name)): shlex.quote(target_of(self.room, name)) for name in names}
        begin = "".join(f"test -h {link} || ln -sf {target} {link}; " for link, target in links.items())
        # A link that stayed would have its include get the date.
        stale = f"{LATER} {mark}; rm -f {' '.join(links)} && touch -d @$$ {' '.join(links)}; exit 0"
        leaves = list(dict.fromkeys(leaf for name in names for leaf in self.made_leaves[name]))
        looks = "".join(f"test -e {shlex.quote(leaf)} || {{ {stale}; }}; " for leaf in leaves)
        failed = stale if self.made.soft.issuperset(names) else f"{LATER} {mark}; exit 1"
        return f"{begin}{looks}{{ {statement.command}; }} || {{ {failed}; }}"

    def cut_goals(self):
        """Takes the includes out of the goals of the build; where it has nothing but them, its goal tells the fault."""
        number = max(at for at, line in enumerate(self.lines) if line.startswith("default "))
        goals = ninja_text.names(self.lines[number])[1:]
        kept = goals[:self.made.count]
        if self.made.is_first:
            kept = [FAULTS_NAME]
            self.replaced[self.made.by_output[made_includes.GOAL].line] = "#"
        if kept != goals:
            self.replaced[number] = " ".join(["default", *kept])

    def may_be_absent(self):
        """The files that nothing makes and that Ninja takes as absent: those of guards, headers that an include is only
        said to depend on, and marks."""
        made = self.made.by_output
        found = [leaf for name in self.made.names for leaf in self.made_leaves[name]]
        for name, statement in made.items():
            own = self.made.own.get(name)
            if own is not None and own is not statement:
                found += [one for one in statement.needs if one not in made and one not in own.needs]
        found += [mark_of(self.room, name) for name in self.made.names]
        return list(dict.fromkeys(found))

    def gone(self):
        """What to say of a file that an include needs, where it isn't there and no rule makes it; else None."""
        for name in [] if self.made.is_first else self.made.names:
            for leaf in self.made_leaves[name] if name not in self.made.soft else []:
                if not os.path.exists(leaf):
                    return f"no rule makes {leaf}, which {name} needs"
        return None

    def looked_at(self):
        """The files that count only where they come or go: marks, and those of which includes are made. Each stands
        behind `+` where it is there, else behind `-`."""
        leaves = [leaf for name in self.made.names for leaf in self.made_leaves[name]]
        names = dict.fromkeys([*leaves, *(mark_of(self.room, name) for name in self.made.names)])
        return [("+" if os.path.exists(name) else "-") + name for name in names]

    def write_marks(self):
        """Makes the marks that aren't there, as old as can be, and the links."""
        folders = [os.path.join(self.room, folder) for folder in (MARKS, LINKS)]
        for folder in folders:
            os.makedirs(folder, exist_ok=True)
        marks, links = (set(os.listdir(folder)) for folder in folders)
        for name in self.made.names:
            mark, link = mark_of(self.room, name), link_of(self.room, name)
            if os.path.basename(mark) not in marks:
                os.close(os.open(mark, os.O_WRONLY | os.O_CREAT, 0o666))
                os.utime(mark, (1, 1))
            if os.path.basename(link) not in links:
                os.symlink(target_of(self.room, name), link)
