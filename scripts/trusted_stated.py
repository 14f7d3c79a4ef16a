#!/usr/bin/env python3
"""The list of trusted definitions, docs/TRUSTED.md: what the promise of the programs rests on.

It begins with the contracts of `kati_on_host` and `asked_on_host`, with the ghost members by which they see the host's
files and outputs, and with the contract of `refuse`. From there each name is followed through the modules of
definitions. The list has the definitions module by module, and the types of code and the words of libraries that they
use. scripts/check_docs.py compares the document as its check `trusted`.

Each definition that is listed needs a comment that is understood without the one before it, and the first comment of
its module has to name a section of a manual, or to say whose own the module is.

examples:
  scripts/trusted_stated.py             says whether the document is what the definitions say
  scripts/trusted_stated.py --write     writes docs/TRUSTED.md
  scripts/trusted_stated.py --count     prints how many definitions, lines, types and words there are

exit status:
  0   the document is what the definitions say, or it was written
  1   it isn't, or a comment is missing or of another form
  64  wrong usage"""
import argparse
import re
import sys
from pathlib import Path

sys.dont_write_bytecode = True
from trusted.listing import listing_of
from trusted.page import counted, page

ROOT = Path(__file__).resolve().parent.parent
DOCUMENT = "docs/TRUSTED.md"
SOURCE = re.compile(r"manual|POSIX|\bown\b")
REPEATS = re.compile(r"the same\b", re.IGNORECASE)


def nameless(listing):
    """The places where the list would begin that name nothing, since the code has another form there."""
    for root in listing.roots:
        if not root.places:
            yield f"crates/{root.file} has no {root.kind} {root.name}"


def misshapen(listing):
    """The definitions and modules without the comment that the list needs."""
    for one in listing.definitions():
        if not one.comment:
            yield f"no comment: {one.name} in {one.module}, line {one.line}"
        elif REPEATS.match(one.comment):
            yield f"a comment that needs the one before it: {one.name} in {one.module}, line {one.line}"
    for name in sorted({module for module, _ in listing.rest.definitions}):
        if not SOURCE.search(listing.modules[name].comment):
            yield f"no section of a manual at the head of {name}"


def differing(root):
    """What is wrong with the document and the comments, a line each."""
    listing, document = listing_of(root), root / DOCUMENT
    yield from nameless(listing)
    yield from misshapen(listing)
    if not document.is_file() or document.read_text(encoding="utf-8") != page(listing):
        yield f"{DOCUMENT} isn't what the definitions say: scripts/trusted_stated.py --write writes it"


def counts(listing):
    """How much is trusted, in one line."""
    definitions = listing.definitions()
    told = [counted(len(definitions), "definition"), counted(sum(len(one.lines) for one in definitions), "line"),
            counted(len(listing.named), "type"), counted(len(listing.held), "type") + " in their fields",
            counted(len(listing.words()), "word")]
    return ", ".join(told)


class Parser(argparse.ArgumentParser):
    """A parser that ends with the project's status for wrong usage."""

    def error(self, message):
        self.print_usage(sys.stderr)
        self.exit(64, f"{self.prog}: {message}\n")


def main():
    parser = Parser(description=__doc__, formatter_class=argparse.RawDescriptionHelpFormatter)
    parser.add_argument("--write", action="store_true", help=f"write {DOCUMENT}")
    parser.add_argument("--count", action="store_true", help="print how much is trusted")
    parser.add_argument("--root", metavar="FOLDER", default=str(ROOT),
                        help="the repository; without it that of this script")
    asked = parser.parse_args()
    root = Path(asked.root).resolve()
    if asked.count:
        print(counts(listing_of(root)))
        return 0
    if asked.write:
        (root / DOCUMENT).write_text(page(listing_of(root)), encoding="utf-8")
    troubles = list(differing(root))
    for line in troubles:
        print(line)
    return 1 if troubles else 0


if __name__ == "__main__":
    sys.exit(main())
