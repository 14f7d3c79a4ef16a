#!/usr/bin/env python3
"""Checks how the tools read makefiles: all makefiles below the folders.

    scripts/check_syntax.py [--kati PROGRAM | --no-kati] FOLDER..

For each file with a makefile's name it checks three things. The lines that the tools read are the text, byte for byte,
and the references are the line. The parts of assignments and rules are at their places. Each line that kati names in a
fault, a warning or a message is the first of a logical line. kati runs in the makefile's folder; its output is dropped.

It prints a line for each makefile with a difference, and how many makefiles were read.

examples:
  scripts/check_syntax.py .
  scripts/check_syntax.py --no-kati ~/sources

exit status:
  0   no difference
  1   a difference
  2   wrong usage, or no kati"""
import argparse
import os
import re
import subprocess
import sys
from pathlib import Path

sys.dont_write_bytecode = True
TOP = Path(__file__).resolve().parent.parent
sys.path.insert(0, str(TOP / "share/kati"))

from kati_tools.base import programs  # noqa: E402
from kati_tools.makefile import includes, references, statements, syntax  # noqa: E402

SECONDS = 600
PLACE = re.compile(r"^(.+?):(\d+): ", re.MULTILINE)
SKIPPED = {".git", ".hg", ".svn"}


class Counts:
    """What was looked at."""

    def __init__(self):
        self.makefiles = self.lines = self.references = self.places = 0

    def told(self):
        """The line that tells of it."""
        return (f"{self.makefiles} makefiles: {self.lines} lines, {self.references} references, "
                f"{self.places} lines that kati names")


def makefiles_below(folder):
    """The files below a folder that have a makefile's name, and the folder itself where it is a file."""
    if folder.is_file():
        yield folder
    for at, folders, names in os.walk(folder):
        folders[:] = sorted(one for one in folders if one not in SKIPPED)
        yield from (Path(at) / name for name in sorted(names)
                    if includes.MAKEFILES.search(name) and (Path(at) / name).is_file())


def together(text, found, start, end):
    """A piece of a text, put together from the references in it and what stands between them."""
    parts, last = [], start
    for one in found:
        inside = one.inside
        parts += [text[last:one.start], "$", text[one.start + 1:inside[0]], together(text, one.inner, *inside),
                  text[inside[1]:one.end]]
        last = one.end
    return "".join([*parts, text[last:end]])


def is_where_it_says(line):
    """Whether the parts of what a line says stand where they are said to."""
    says = line.says
    if isinstance(says, statements.Assignment):
        text = statements.without_comment(line.joined)
        between = text[says.name_at + len(says.name):says.value_at].strip()
        return (text.startswith(says.name, says.name_at) and between == says.operator
                and text[says.value_at:].strip(references.BLANKS) == says.value)
    if isinstance(says, statements.Rule):
        return says.text == line.joined and says.text[says.colon] == ":" and says.text[says.end:][:1] in ("", ";", "#")
    return True


def wrong_lines(lines, counts):
    """What isn't so with lines, as words."""
    number = 1
    for line in lines:
        found = references.forest(line.text)
        counts.references += sum(1 for one in found for _ in one.all())
        if line.number != number:
            yield f"line {line.number} is line {number}"
        if together(line.text, found, 0, len(line.text)) != line.text:
            yield f"line {line.number} isn't its references together"
        if not is_where_it_says(line):
            yield f"line {line.number} has its parts elsewhere"
        number += len(line.endings)


def places_named(kati, makefile):
    """The files and the numbers of their lines that kati names where it reads a makefile."""
    ran = subprocess.run([kati, "-f", makefile.name], cwd=makefile.parent, stdin=subprocess.DEVNULL,
                         stdout=subprocess.DEVNULL, stderr=subprocess.PIPE, timeout=SECONDS, check=False)
    for name, number in PLACE.findall(programs.text_of(ran.stderr)):
        path = makefile.parent / name
        if path.is_file():
            yield path, int(number)


def wrong_places(kati, makefile, counts):
    """The lines that kati names and that begin no logical line, as words."""
    for path, number in sorted(set(places_named(kati, makefile))):
        counts.places += 1
        if number not in {line.number for line in syntax.lines(text_in(path))}:
            yield f"kati names {path.name}:{number}, where no line begins"


def text_in(path):
    """The text of a file, with its bytes."""
    return programs.text_of(path.read_bytes())


def wrong(makefile, kati, counts):
    """What isn't so with a makefile, as words."""
    text = text_in(makefile)
    read = syntax.Makefile(text)
    counts.makefiles += 1
    counts.lines += len(read.lines)
    if read.text() != text:
        yield "put together again it is another text"
    yield from wrong_lines(read.lines, counts)
    # A text with a NUL is no text for kati, whose fault has the number of its line, whatever begins there.
    if kati and "\0" not in text:
        yield from wrong_places(kati, makefile, counts)


def arguments():
    """The words of the command line."""
    parser = argparse.ArgumentParser(prog="check_syntax.py", description=__doc__,
                                     formatter_class=argparse.RawDescriptionHelpFormatter)
    which = parser.add_mutually_exclusive_group()
    which.add_argument("--kati", metavar="PROGRAM", help="the program kati; without it KATI, then the built one")
    which.add_argument("--no-kati", action="store_true", help="do not run kati")
    parser.add_argument("folders", nargs="+", metavar="FOLDER", type=Path,
                        help="a folder with makefiles at any depth, or a makefile")
    asked = parser.parse_args()
    missing = next((one for one in asked.folders if not one.exists()), None)
    if missing is not None:
        parser.error(f"no folder {missing}")
    asked.kati = None if asked.no_kati else asked.kati or programs.find("kati")
    if not (asked.kati or asked.no_kati):
        parser.error("no kati: build it, or give --no-kati")
    asked.kati = asked.kati and os.path.abspath(asked.kati)
    return asked


def main():
    asked, counts, is_wrong = arguments(), Counts(), False
    for makefile in (one for folder in asked.folders for one in makefiles_below(folder)):
        for words in wrong(makefile, asked.kati, counts):
            is_wrong = True
            print(f"{makefile}: {words}")
    print(counts.told())
    return int(is_wrong)


if __name__ == "__main__":
    sys.exit(main())
