#!/usr/bin/env python3
"""Writes docs/TESTS.md: which tests call each public function that allocates.

A public function allocates if it may return a fault of memory, or if it is a whole program. A test calls a function
directly, or through helpers in its own crate or in a crate of doubles. A method is found by its name, whatever its
type. The check `calls` of scripts/check_docs.py compares the document, and fails if no test calls a function.

examples:
  scripts/tested_calls.py             prints how docs/TESTS.md and the tests differ
  scripts/tested_calls.py --write     writes docs/TESTS.md

exit status:
  0   docs/TESTS.md is what the tests say, or was written
  1   it is not, or no test calls a function
  64  wrong usage"""
import argparse
import re
import sys
from pathlib import Path
from typing import NamedTuple

ROOT = Path(__file__).resolve().parent.parent
DOCUMENT = "docs/TESTS.md"
# A crate whose tests are in the crate of tests of another one.
TESTED_BY = {"kt_ninja_reader": "kt_ninja"}
DOUBLES = ("kt_rules_doubles", "kt_ninja_doubles", "kati_doubles")
MOST = 3
PARAMETERS = r"(?:<(?:[^<>]|<[^<>]*>)*>)?"
CALL = re.compile(r"^ *(?:pub )?fn (\w+)" + PARAMETERS + r"\(([^{;]*?)\)\s*->([^{;]*?)(?:\{|;|ensures|requires)",
                  re.MULTILINE)
FAULTS = re.compile(r"AllocError|\b(?:Text|Line|Rule|Graph|Read|Arg|Run|File)Fault\b|\bStop\b")
OWNER = re.compile(r"^(pub trait|trait|impl)" + PARAMETERS + r" (?:[^\n{]* for )?(\w+)", re.MULTILINE)
FUNCTION = re.compile(r"^( *)((?:#\[[^\n]*\]\s*)*)(?:pub(?:\(\w+\))? )?fn (\w+)", re.MULTILINE)
CALLED = re.compile(r"(?:(\w+)::|(\.)|\b)(\w+)(?:::<[^()]*>)?\(")
BEGINNING = """\
<!-- made by scripts/tested_calls.py --write -->
# Which tests call a function

No contract can say that memory is found. So each public function that allocates is called by a test, which shows that
the call succeeds. The table has up to {} tests of each, those that call it directly first, and the number of the
others. The tests are in the crate of tests of that crate.

| Crate | Function | Tests |
|---|---|---|
"""


class Call(NamedTuple):
    """A public function that allocates; `owner` is its type or trait, if it has one."""
    crate: str
    owner: str
    name: str
    is_method: bool

    def __str__(self):
        return f"{self.owner}::{self.name}" if self.owner else self.name


class Function(NamedTuple):
    """A function of a crate of tests, and the calls in its body: type, dot and name."""
    name: str
    is_test: bool
    calls: frozenset


def owner(text, start):
    """The kind and the name of what a function is in, such as `impl` or `pub trait`."""
    for match in reversed(list(OWNER.finditer(text, 0, start))):
        return match.groups() if "\n}" not in text[match.start():start] else ("", "")
    return "", ""


def allocates(arguments, answer):
    return bool(FAULTS.search(answer)) or ("alloc: Global" in arguments and answer.strip() == "u8")


def calls_of_file(crate, text):
    """The public functions of a module that allocate."""
    for match in CALL.finditer(text):
        kind, name = owner(text, match.start())
        is_public = match.group(0).lstrip().startswith("pub ") or kind == "pub trait"
        if is_public and allocates(match.group(2), match.group(3)):
            yield Call(crate, name, match.group(1), "self" in match.group(2).split(",")[0])


def crates(root):
    """The crates that have tests, from below."""
    listed = re.findall(r"^(\w+):", (root / "crates.txt").read_text(encoding="utf-8"), re.MULTILINE)
    return [crate for crate in listed if TESTED_BY.get(crate, crate) + "_tests" in listed]


def calls_of_code(root):
    """The public functions that allocate, in the order of the crates."""
    for crate in crates(root):
        paths = sorted((root / "crates" / crate / "src").rglob("*.rt"))
        found = {call for path in paths for call in calls_of_file(crate, path.read_text(encoding="utf-8"))}
        yield from sorted(found)


def functions_of(root, crate):
    """The functions of a crate of tests or doubles."""
    for path in sorted((root / "crates" / crate / "src").rglob("*.rt")):
        text = path.read_text(encoding="utf-8")
        for match in FUNCTION.finditer(text):
            end = text.find(f"\n{match[1]}}}", match.end())
            body = text[match.end():end if end >= 0 else len(text)].partition("{")[2]
            yield Function(match[3], "#[test]" in match[2], frozenset(CALLED.findall(body)))


def makes(function, call):
    """Whether a function calls this one directly."""
    return any(name == call.name and (dot if call.is_method else not dot and (not call.owner or before == call.owner))
               for before, dot, name in function.calls)


def tests_of(functions, call):
    """The names of the tests that call a function, the direct ones first."""
    reached = [function for function in functions if makes(function, call)]
    known = {function.name for function in reached}
    for function in reached:
        callers = [one for one in functions if one.name not in known and any(name == function.name
                                                                             for _, _, name in one.calls)]
        reached += callers
        known |= {one.name for one in callers}
    return list(dict.fromkeys(function.name for function in reached if function.is_test))


def rows(root):
    """Each public function that allocates, and the tests that call it."""
    helpers = [function for crate in DOUBLES for function in functions_of(root, crate)]
    known = {}
    for call in calls_of_code(root):
        crate = TESTED_BY.get(call.crate, call.crate) + "_tests"
        if crate not in known:
            known[crate] = [*functions_of(root, crate), *helpers]
        yield call, tests_of(known[crate], call)


def document(found):
    """The document that these rows make."""
    text = BEGINNING.format(MOST)
    for call, tests in found:
        more = f", and {len(tests) - MOST} more" if len(tests) > MOST else ""
        text += f"| {call.crate} | `{call}` | {', '.join(f'`{name}`' for name in tests[:MOST])}{more} |\n"
    return text


def troubles(root):
    """What is wrong with the tests and the document, a line each."""
    found = list(rows(root))
    yield from (f"{call.crate}: no test calls {call}" for call, tests in found if not tests)
    path = root / DOCUMENT
    if not path.is_file() or path.read_text(encoding="utf-8") != document(found):
        yield f"{DOCUMENT} is not current: scripts/tested_calls.py --write"


class Parser(argparse.ArgumentParser):
    """A parser that ends with the project's status for wrong usage."""

    def error(self, message):
        self.print_usage(sys.stderr)
        self.exit(64, f"{self.prog}: {message}\n")


def main():
    parser = Parser(description=__doc__, formatter_class=argparse.RawDescriptionHelpFormatter)
    parser.add_argument("--write", action="store_true", help=f"write {DOCUMENT}")
    parser.add_argument("--root", metavar="FOLDER", default=str(ROOT),
                        help="the repository; without this option, that of the script")
    asked = parser.parse_args()
    root = Path(asked.root).resolve()
    if asked.write:
        (root / DOCUMENT).write_text(document(list(rows(root))), encoding="utf-8")
    found = list(troubles(root))
    for line in found:
        print(line)
    return 1 if found else 0


if __name__ == "__main__":
    sys.exit(main())
