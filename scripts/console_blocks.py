"""The console blocks of a document: the commands in them, and whether a command printed what the block shows."""
import re

BLOCK = re.compile(r"^```console *\n(.*?)^```$", re.MULTILINE | re.DOTALL)
PROGRESS = re.compile(r"\[\d+/\d+\] ")


def blocks_of(text):
    """The blocks that are to be run: the number of the first line, and the lines. ```console long is not run."""
    for match in BLOCK.finditer(text):
        yield text.count("\n", 0, match.start()) + 1, match.group(1).splitlines()


def commands_of(lines):
    """The commands of a block, each with the lines that it prints. A command continues after a backslash."""
    found, continues = [], False
    for line in lines:
        if continues:
            found[-1][0] += "\n" + line
        elif line.startswith("$ "):
            found.append([line[2:], []])
        else:
            found[-1][1].append(line)
        continues = line.endswith("\\") and (continues or line.startswith("$ "))
    return found


def in_order(lines):
    """The lines, with Ninja's lines of progress sorted and without their numbers."""
    plain = [PROGRESS.sub("[] ", line).rstrip() for line in lines]
    progress = iter(sorted(line for line in plain if line.startswith("[] ")))
    return [next(progress) if line.startswith("[] ") else line for line in plain]


def match(wanted, got):
    """Whether lines are the wanted ones; a line ... matches any lines."""
    if not wanted or not got:
        return all(line == "..." for line in wanted) and (bool(wanted) or not got)
    if wanted[0] == "...":
        return match(wanted[1:], got) or match(wanted, got[1:])
    return wanted[0] == got[0] and match(wanted[1:], got[1:])


def fits(wanted, got):
    """Whether a command printed the wanted lines. Ninja's lines of progress may come in any order."""
    return match(in_order(wanted), in_order(got))
