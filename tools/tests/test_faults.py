"""The table of faults: in the code, in its definition, and in docs/LANGUAGE.md, section 13.

Run it by `python3 -m unittest discover tools/tests` at the top of the repository.
"""
import pathlib
import re
import unittest

TOP = pathlib.Path(__file__).resolve().parents[2]
CODE = TOP / "crates/kt_rules/src/fault_kind.rt"
DEFINITION = TOP / "crates/kt_rules/specs/FaultKinds.antt"
TEST = TOP / "crates/kt_rules_tests/src/fault_kinds.rt"
LANGUAGE = TOP / "docs/LANGUAGE.md"

# What docs/LANGUAGE.md writes for the name that a fault tells of.
NAMES = ("NAME", "WORD", "OUT")


def text_of(path):
    return path.read_text(encoding="utf-8")


def variants(code):
    """The names of the faults, in the order of the type."""
    body = re.search(r"pub enum FaultKind \{\n(.*?)\n\}", code, re.DOTALL).group(1)
    return [line.strip().rstrip(",") for line in body.splitlines()]


def rows_of_code(code):
    """The rows of the code: name, number, words."""
    rows = re.findall(r'^ *FaultKind::(\w+) => \((\d+), b"([^"]*)"\),$', code, re.MULTILINE)
    return [(name, int(number), words) for name, number, words in rows]


def rows_of_definition(definition):
    """The rows of the definition: name, number, words."""
    rows = re.findall(r'^fault_kind_row kind\.(\w+) = \((\d+), codes "([^"]*)"\)$', definition, re.MULTILINE)
    return [(name, int(number), words) for name, number, words in rows]


def rows_of_list(language):
    """The rows of the list: number, words. The words of E19 are the text that the makefile gives."""
    rows = []
    for number, cell in re.findall(r"^\| E(\d\d) \| ([^|]*) \|", language, re.MULTILINE):
        words = cell.strip("`") if cell.startswith("`") else ""
        for name in NAMES:
            if words.endswith(" " + name):
                words = words[: -len(name)]
        rows.append((int(number), words))
    return rows


class Faults(unittest.TestCase):
    def setUp(self):
        self.code = rows_of_code(text_of(CODE))

    def test_each_fault_has_one_row(self):
        self.assertEqual([name for name, _, _ in self.code], variants(text_of(CODE)))

    def test_numbers_are_unique_and_none_is_25(self):
        numbers = [number for _, number, _ in self.code]
        self.assertEqual(len(numbers), len(set(numbers)))
        self.assertNotIn(25, numbers)

    def test_definition_has_the_same_rows(self):
        self.assertEqual(self.code, rows_of_definition(text_of(DEFINITION)))

    def test_list_has_the_same_rows(self):
        self.assertEqual([(number, words) for _, number, words in self.code], rows_of_list(text_of(LANGUAGE)))

    def test_crate_of_tests_names_each_fault(self):
        body = re.search(r"^const KINDS: .*?\];$", text_of(TEST), re.DOTALL | re.MULTILINE).group(0)
        self.assertEqual(re.findall(r"FaultKind::(\w+),", body), variants(text_of(CODE)))


if __name__ == "__main__":
    unittest.main()
