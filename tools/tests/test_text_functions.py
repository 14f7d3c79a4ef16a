"""The table of text functions: in the code, in its definition, and in docs/LANGUAGE.md, section 4. And the lists of
all functions: in the code, and in what kati-port knows.

Run it by `python3 -m unittest discover tools/tests` at the top of the repository.
"""
import re
import unittest

from support import TOP

from kati_tools.makefile import forms

CODE = TOP / "crates/kt_text/src/functions/text_function.rt"
CALLS = TOP / "crates/kt_eval/src/expanding/calls.rt"
DEFINITION = TOP / "crates/kt_text/specs/TextFunctions.antt"
LANGUAGE = TOP / "docs/LANGUAGE.md"


def text_of(path):
    return path.read_text(encoding="utf-8")


def variants(code):
    """The names of the functions' variants, in the order of the type."""
    body = re.search(r"pub enum TextFunction \{\n(.*?)\n\}", code, re.DOTALL).group(1)
    return [line.strip().rstrip(",") for line in body.splitlines()]


def rows_of_code(code):
    """The rows of the code: variant, name, number of arguments."""
    rows = re.findall(r'^ *TextFunction::(\w+) => \(b"([^"]*)", (\d+)\),$', code, re.MULTILINE)
    return [(variant, name, int(arguments)) for variant, name, arguments in rows]


def rows_of_definition(definition):
    """The rows of the definition: variant, name, number of arguments."""
    rows = re.findall(r'^function_row (\w+) = \(codes "([^"]*)", (\d+)\)$', definition, re.MULTILINE)
    return [(variant, name, int(arguments)) for variant, name, arguments in rows]


def numbers_in_list(language):
    """The numbers of arguments that the list of functions shows, by name."""
    section = language.split("\n## 4. ")[1].split("\n## 5. ")[0]
    shown = {}
    for cell in re.findall(r"^\| (`[^|]*`) \|", section, re.MULTILINE):
        for name, arguments in re.findall(r"`([a-z-]+) ([^`]*)`", cell):
            shown[name] = len(arguments.split(","))
    return shown


def names_in(function):
    """The names that a function of the code compares with."""
    body = re.search(rf"^fn {function}\(.*?^}}", text_of(CALLS), re.DOTALL | re.MULTILINE).group(0)
    return re.findall(r'is_name\(name, b"([^"]*)"\)', body)


class TextFunctions(unittest.TestCase):
    def setUp(self):
        self.code = rows_of_code(text_of(CODE))

    def test_each_function_has_one_row(self):
        self.assertEqual([variant for variant, _, _ in self.code], variants(text_of(CODE)))

    def test_names_are_unique(self):
        names = [name for _, name, _ in self.code]
        self.assertEqual(len(names), len(set(names)))

    def test_each_function_is_looked_up(self):
        body = re.search(r"^const TEXT_FUNCTIONS: .*?\];$", text_of(CODE), re.DOTALL | re.MULTILINE).group(0)
        self.assertEqual(re.findall(r"TextFunction::(\w+),", body), variants(text_of(CODE)))

    def test_definition_has_the_same_rows(self):
        self.assertEqual(self.code, rows_of_definition(text_of(DEFINITION)))

    def test_kati_port_knows_the_same_functions(self):
        names = [name for _, name, _ in self.code]
        self.assertCountEqual(forms.FUNCTIONS, names + names_in("other_function"))

    def test_kati_port_knows_the_functions_that_are_refused(self):
        self.assertCountEqual(forms.REFUSED, names_in("is_refused_function"))

    def test_list_shows_as_many_arguments(self):
        shown = numbers_in_list(text_of(LANGUAGE))
        for _, name, arguments in self.code:
            with self.subTest(name):
                self.assertEqual(shown.get(name), arguments)


if __name__ == "__main__":
    unittest.main()
