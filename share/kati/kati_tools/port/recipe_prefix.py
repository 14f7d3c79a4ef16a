"""`.RECIPEPREFIX`: the lines of recipes begin with a tab instead, for both programs."""
import re

from ..makefile.ported_text import PortedFile

NAME, TAB = ".RECIPEPREFIX", "\t"


def assigned(line):
    """The operator and value of a line that assigns the mark; None for another line."""
    name, *rest = line.assignment() or ("",)
    return rest if name == NAME else None


def given(operator, value, last):
    """The mark that an assignment gives; `last` is the one that make has at the end."""
    return last if "$" in value or operator == "+=" else (value or TAB)[0]


def with_tab(line, mark):
    """A logical line that begins with a tab where it began with the mark; one that began with a tab has spaces then.

    make takes the mark, and no other blank, away from a line that continues a recipe's, but not in a `define`, of which
    it joins such lines by a blank."""
    first, *rest = line.text.split("\n")
    if not first.startswith(mark):
        blanks = re.match(r"[ \t]*", first).group() if first.startswith(TAB) else ""
        return "\n".join([blanks.expandtabs(8) + first[len(blanks):], *rest])
    if line.is_body:
        return "\n".join([TAB + first[1:], *rest])
    rest = [TAB + one[1:] if one.startswith(mark) else TAB + one if one.startswith(TAB) else one for one in rest]
    return "\n".join([TAB + first[1:], *rest])


def converted(file, mark, last):
    """A file's lines, where `mark` holds at its beginning."""
    for line in file.lines:
        found = assigned(line)
        if found:
            mark = given(*found, last)
            yield "\n".join(f"# {one}" for one in line.text.split("\n"))
        else:
            yield line.text if mark == TAB else with_tab(line, mark)


def mend(port):
    """Gives the files tabs where one of them assigns another mark. An include that doesn't assign it has the mark that
    make has at the end where lines begin with that and none with a tab."""
    all_files = list(port.ported.values())
    assigning = [file for file in all_files if any(map(assigned, file.lines))]
    last = (port.run.value(f"$({NAME})") or TAB)[0] if assigning else TAB
    for file in all_files:
        begins = {line.text[:1] for line in file.lines}
        is_meant = file in assigning or assigning and last in begins and TAB not in begins
        if is_meant:
            text = "\n".join(converted(file, TAB if file in assigning else last, last))
            new = PortedFile(file.name, text.replace("\n", file.ending), file.lines[0].prefix)
            new.before, port.ported[file.name] = file.before, new
            port.tell("prefix")
