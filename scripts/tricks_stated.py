#!/usr/bin/env python3
"""Writes docs/TRICKS.md, the table of what is done for speed, from the heads of the modules that do it.

A head is the lines //! at the beginning of a module of crates/*/src. A trick is described only there:

    //! Fast: a name is hashed in one write, and looked up before it is copied. Spares half of a look-up of a long name.

A trick has at most three such lines of fewer than 120 columns, and ends at the next trick or with the head. The table
has the crates in the order of crates.txt. The check `tricks` of scripts/check_docs.py compares it.

examples:
  scripts/tricks_stated.py             prints how docs/TRICKS.md and the heads differ
  scripts/tricks_stated.py --write     writes docs/TRICKS.md

exit status:
  0   docs/TRICKS.md is what the heads say, or was written
  1   it is not, or a head has a trick of another form
  64  wrong usage"""
import argparse
import re
import sys
from pathlib import Path

ROOT = Path(__file__).resolve().parent.parent
DOCUMENT = "docs/TRICKS.md"
BEGINNING = """\
<!-- made by scripts/tricks_stated.py --write -->
# What is done for speed

Each row is a line `//! Fast: .. Spares ..` at the head of a module. docs/BENCHMARKS.md has the times. docs/DESIGN.md
says how the modules work together.

| What is done | What it spares | Module |
|---|---|---|
"""
HEAD = re.compile(r"(?://!.*\n)*")
TRICK = re.compile(r"Fast: (.+)\. Spares (.+)\.")
MARK, WIDTH, MOST = "//! Fast:", 120, 3


def tricks_of(head):
    """The lines of each trick of a head."""
    found = []
    for line in head.splitlines():
        if line.startswith(MARK):
            found.append([])
        if found:
            found[-1].append(line)
    return found


def modules(root):
    """The modules of the crates, in the order of crates.txt: the crate, the name in its `src`, and the head."""
    listed = (root / "crates.txt").read_text(encoding="utf-8")
    for crate in re.findall(r"^(\w+):", listed, re.MULTILINE):
        source = root / "crates" / crate / "src"
        for path in sorted(source.rglob("*.rt")):
            yield crate, path.relative_to(source).as_posix(), HEAD.match(path.read_text(encoding="utf-8")).group(0)


def cells(lines):
    """What a trick does and what it spares; None if its lines have another form."""
    told = TRICK.fullmatch(" ".join(line[len("//!"):].strip() for line in lines))
    fits = len(lines) <= MOST and max(map(len, lines)) < WIDTH
    return told.groups() if told and fits and not any("|" in line for line in lines) else None


def rows(root):
    """The rows of the table."""
    for crate, module, head in modules(root):
        for lines in tricks_of(head):
            told = cells(lines)
            if told:
                yield f"| {told[0]} | {told[1]} | {crate} `{module}` |\n"


def misshapen(root):
    """The modules with a trick of another form, and its first line."""
    for crate, module, head in modules(root):
        for lines in tricks_of(head):
            if not cells(lines):
                yield f"crates/{crate}/src/{module}: {lines[0]}"


def document(root):
    """The document that the heads make."""
    return BEGINNING + "".join(rows(root))


def differing(root):
    """How the document and the heads differ, a line each."""
    yield from misshapen(root)
    path = root / DOCUMENT
    wanted, found = document(root), path.read_text(encoding="utf-8") if path.is_file() else ""
    if found == wanted:
        return
    lines, others = wanted.splitlines(), found.splitlines()
    yield from (f"not in {DOCUMENT}: {line}" for line in lines if line not in others)
    yield from (f"in no head: {line}" for line in others if line not in lines)
    yield f"scripts/tricks_stated.py --write writes {DOCUMENT}"


class Parser(argparse.ArgumentParser):
    """A parser that ends with the project's status for wrong usage."""

    def error(self, message):
        self.print_usage(sys.stderr)
        self.exit(64, f"{self.prog}: {message}\n")


def main():
    parser = Parser(description=__doc__, formatter_class=argparse.RawDescriptionHelpFormatter)
    parser.add_argument("--write", action="store_true", help=f"write {DOCUMENT}")
    parser.add_argument("--root", metavar="FOLDER", default=str(ROOT),
                        help="the repository; without this option, that of the script")
    asked = parser.parse_args()
    root = Path(asked.root).resolve()
    if asked.write:
        (root / DOCUMENT).write_text(document(root), encoding="utf-8")
    troubles = list(differing(root))
    for line in troubles:
        print(line)
    return 1 if troubles else 0


if __name__ == "__main__":
    sys.exit(main())
