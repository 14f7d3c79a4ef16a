#!/usr/bin/env python3
"""Writes docs/QUICK.md: the clauses that go one way, by the labels that say so.

A label that begins with `quick` says that its clause promises something only where the function answers more than its
idle body, which returns no, `None` or the like, or does nothing. What the idle body is, the clause tells:

    ensures quick { IfSome result (λ name. ..) }     None
    ensures quick { result ≡ true → .. }             false

or else a line above the function, such as `// Idle: does nothing.` If each clause of a function goes one way and leaves
the same answer open, its labels have to say so.

A test names a function in its comment, in backquotes. If none does, the tests are listed that call it, as in
docs/TESTS.md: only public functions can be called. The check `quick` of scripts/check_docs.py compares the document.

examples:
  scripts/quick_clauses.py             prints how docs/QUICK.md and the labels differ
  scripts/quick_clauses.py --write     writes docs/QUICK.md

exit status:
  0   docs/QUICK.md is what the labels say, or was written
  1   it is not, a label is missing, or nothing tells what an idle body is
  64  wrong usage"""
import argparse
import re
import sys
from pathlib import Path
from typing import NamedTuple

sys.dont_write_bytecode = True
import tested_calls

ROOT = Path(__file__).resolve().parent.parent
DOCUMENT = "docs/QUICK.md"
LABEL, MOST = "quick", 3
BEGINNING = """\
<!-- made by scripts/quick_clauses.py --write -->
# Clauses that go one way

A label that begins with `quick` marks a clause that goes one way on purpose, mostly for speed. The idle body would
pass: it always returns what that column has, or does only that. The program's outcome stays the same, because the
caller then takes a slower way. So only a test can show that such a function finds anything. Most of them are private,
and no test can call them.

| Crate | Module | Function | Labels | Idle body | Tests |
|---|---|---|---|---|---|
"""
FUNCTION = re.compile(r"^( *)(pub(?:\(\w+\))? )?fn (\w+)" + tested_calls.PARAMETERS + r"\(([^)]*)", re.MULTILINE)
CLAUSE = re.compile(r"^ *(ensures|requires) (?:(\w+) )?\{", re.MULTILINE)
ABOVE = re.compile(r"(?:^ *(?://|#\[).*\n)+\Z", re.MULTILINE)
TEST = re.compile(r"((?:^ *//.*\n)+)#\[test\]\n(?:pub )?fn (\w+)", re.MULTILINE)
TOLD = re.compile(r"^ *///? Idle: (.+)\.$", re.MULTILINE)
# What a clause of this form promises nothing of.
IDLE = ((re.compile(r"(?:.*→ )?IfSome result "), "`None`"),
        (re.compile(r"(?:IsTrue result|result ≡ true) →"), "`false`"),
        (re.compile(r"result ≡ false →|.*→ result ≡ true$"), "`true`"),
        (re.compile(r"IfOk result \(λ (\w+)\. \1 ≡ true →"), "`Ok(false)`"),
        (re.compile(r"IfOk result \(λ (\w+)\. IfSome \1 "), "`Ok(None)`"))


class Quick(NamedTuple):
    """A function; `clauses` has pairs of a label and a clause, `told` what a comment says of the idle body."""
    crate: str
    module: str
    call: tested_calls.Call
    is_public: bool
    clauses: tuple
    told: str

    def labels(self):
        return [label for label, _ in self.clauses if label.startswith(LABEL)]

    def idle(self):
        """What the idle body is; nothing if that isn't known."""
        found = {idle_of(clause) for label, clause in self.clauses if label.startswith(LABEL)}
        return self.told or (found.pop() if len(found) == 1 else "")

    def goes_one_way(self):
        """Whether no clause promises anything of one answer."""
        found = {idle_of(clause) for _, clause in self.clauses}
        return len(found) == 1 and "" not in found

    def lacks_label(self):
        return self.goes_one_way() and len(self.labels()) < len(self.clauses)


def idle_of(clause):
    return next((answer for form, answer in IDLE if form.match(clause)), "")


def clauses_of(head):
    """The pairs of label and clause that a contract ensures, each clause on one line."""
    found = list(CLAUSE.finditer(head))
    ends = [match.start() for match in found[1:]] + [len(head)]
    for match, end in zip(found, ends):
        if match[1] == "ensures":
            yield match[2] or "", " ".join(head[match.end():end].split())[:-1].rstrip()


def functions_of(crate, module, text):
    """The functions of a module that have clauses."""
    found = list(FUNCTION.finditer(text))
    ends = [match.start() for match in found[1:]] + [len(text)]
    for match, end in zip(found, ends):
        head, body, _ = text[match.end():end].partition(f"\n{match[1]}{{\n")
        clauses = tuple(clauses_of(head)) if body else ()
        if clauses:
            above = ABOVE.search(text, 0, match.start())
            told = TOLD.search(above.group(0)) if above else None
            owner = tested_calls.owner(text, match.start())[1]
            call = tested_calls.Call(crate, owner, match[3], "self" in match[4].split(",")[0])
            yield Quick(crate, module, call, match[2] == "pub ", clauses, told[1] if told else "")


def all_functions(root):
    """The functions of all crates that have clauses, in the order of crates.txt."""
    listed = (root / "crates.txt").read_text(encoding="utf-8")
    for crate in re.findall(r"^(\w+):", listed, re.MULTILINE):
        source = root / "crates" / crate / "src"
        for path in sorted(source.rglob("*.rt")):
            yield from functions_of(crate, path.relative_to(source).as_posix(), path.read_text(encoding="utf-8"))


def naming(root, crate, call):
    """The tests of a crate whose comments name a function, with its type if it has one."""
    for path in sorted((root / "crates" / crate / "src").rglob("*.rt")):
        text = path.read_text(encoding="utf-8")
        for match in TEST.finditer(text):
            if f"`{call}`" in match[1]:
                yield match[2]


def tests_of(root, one):
    """The tests that name a function; if none does, those that call it."""
    crate = tested_calls.TESTED_BY.get(one.crate, one.crate) + "_tests"
    found = list(naming(root, crate, one.call))
    if one.is_public and not found:
        found = tested_calls.tests_of(list(tested_calls.functions_of(root, crate)), one.call)
    more = f", and {len(found) - MOST} more" if len(found) > MOST else ""
    return ", ".join(f"`{test}`" for test in found[:MOST]) + more


def rows(root, functions):
    """The rows of the table."""
    for one in functions:
        if one.labels():
            cells = (one.crate, f"`{one.module}`", f"`{one.call}`", ", ".join(f"`{label}`" for label in one.labels()),
                     one.idle(), tests_of(root, one))
            yield "".join(f"| {cell} " if cell else "| " for cell in cells) + "|\n"


def differing(root):
    """What is wrong with the labels and the document, a line each."""
    functions = list(all_functions(root))
    for one in functions:
        place = f"crates/{one.crate}/src/{one.module}: {one.call}"
        if one.lacks_label():
            yield f"{place} has a clause that goes one way, whose label doesn't begin with {LABEL}"
        if one.labels() and not one.idle():
            yield f"{place}: nothing tells what an idle body is"
    path = root / DOCUMENT
    found = path.read_text(encoding="utf-8").splitlines() if path.is_file() else []
    wanted = (BEGINNING + "".join(rows(root, functions))).splitlines()
    if found != wanted:
        yield from (f"not in {DOCUMENT}: {line}" for line in wanted if line not in found)
        yield from (f"of no label: {line}" for line in found if line not in wanted)
        yield f"scripts/quick_clauses.py --write writes {DOCUMENT}"


class Parser(argparse.ArgumentParser):
    """A parser that ends with the project's status for wrong usage."""

    def error(self, message):
        self.print_usage(sys.stderr)
        self.exit(64, f"{self.prog}: {message}\n")


def main():
    parser = Parser(description=__doc__, formatter_class=argparse.RawDescriptionHelpFormatter)
    parser.add_argument("--write", action="store_true", help=f"write {DOCUMENT}")
    parser.add_argument("--root", metavar="FOLDER", default=str(ROOT),
                        help="the repository; without this option, that of the script")
    asked = parser.parse_args()
    root = Path(asked.root).resolve()
    if asked.write:
        (root / DOCUMENT).write_text(BEGINNING + "".join(rows(root, all_functions(root))), encoding="utf-8")
    troubles = list(differing(root))
    for line in troubles:
        print(line)
    return 1 if troubles else 0


if __name__ == "__main__":
    sys.exit(main())
