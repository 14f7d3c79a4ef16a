"""The rooms of the package: imports go downward only, no module has state, and modules stay small."""
from __future__ import annotations

import ast
import subprocess
import sys
import unittest
from pathlib import Path

PACKAGE = Path(__file__).resolve().parent.parent / "katibuild"
TESTS = Path(__file__).resolve().parent
ROOMS = ("base", "ask", "graph", "ninja", "strict", "keep", "compare", "advice", "command")
MOST_LINES, MOST_COLUMNS, MOST_TEST_LINES, MOST_MODULES, MOST_IN_ALL = 250, 120, 500, 52, 6200
LONGER = {"advice.faults": 300}            # a table
CONSTANT_CALLS = {"frozenset", "re.compile", "struct.Struct", "Option"}   # Option: a NamedTuple of options
LOOK = "katibuild.keep.stale"              # what build.ninja starts at each run of ninja
MOST_OF_LOOK = 10


def modules():
    """The modules of the package: (room, name, path)."""
    return [(path.parent.name, path.stem, path) for path in sorted(PACKAGE.glob("*/*.py"))]


def tree_of(path):
    """The module's syntax, as Python 3.8 reads it."""
    return ast.parse(path.read_text(encoding="utf-8"), str(path), feature_version=(3, 8))


def imported(room, path):
    """The modules of the package that a module imports anywhere: (room, module), or (None, text) for a bad import."""
    for node in ast.walk(tree_of(path)):
        if isinstance(node, ast.Import):
            yield from ((None, one.name) for one in node.names if one.name.startswith(("katibuild", "kati_tools")))
        elif isinstance(node, ast.ImportFrom):
            yield from imported_from(room, node)


def imported_from(room, node):
    """The modules that one `from .. import ..` names."""
    if node.level == 0:
        if (node.module or "").startswith(("katibuild", "kati_tools")):
            yield None, node.module
        return
    parts = (node.module or "").split(".") if node.module else []
    where = [room, *parts] if node.level == 1 else parts
    names = [one.name for one in node.names]
    if len(where) == 2:
        yield where[0], where[1]
    elif len(where) == 1:
        yield from ((where[0], name) for name in names)
    else:
        yield from ((name, "__init__") for name in names)


def called(node):
    """The name of what a call calls, as `re.compile`."""
    if isinstance(node, ast.Attribute):
        return f"{called(node.value)}.{node.attr}"
    return node.id if isinstance(node, ast.Name) else "?"


def has_state(value):
    """Whether a value that a module-level name is given can change, or is the result of some call."""
    for node in ast.walk(value):
        if isinstance(node, (ast.List, ast.Dict, ast.Set, ast.ListComp, ast.DictComp, ast.SetComp, ast.GeneratorExp)):
            # a constant frozenset or tuple may be made of one
            if node is value:
                return True
        elif isinstance(node, ast.Call) and called(node.func) not in CONSTANT_CALLS:
            return True
    return False


class Rooms(unittest.TestCase):
    """Each rule over all modules."""

    def test_every_room_is_known(self):
        self.assertEqual(set(), {room for room, _, _ in modules()} - set(ROOMS))
        self.assertGreater(len(modules()), 10)

    def test_imports_go_downward(self):
        for room, name, path in modules():
            for other, what in imported(room, path):
                with self.subTest(module=f"{room}.{name}", imports=f"{other}.{what}"):
                    self.assertIsNotNone(other, "imports are relative, and never of the old package")
                    self.assertIn(other, ROOMS)
                    self.assertLessEqual(ROOMS.index(other), ROOMS.index(room), "a room above")

    def test_no_cycle(self):
        needs = {(room, name): set(imported(room, path)) for room, name, path in modules()}
        while True:
            free = {one for one, others in needs.items() if not others & needs.keys() - {one}}
            if not free:
                break
            needs = {one: others for one, others in needs.items() if one not in free}
        self.assertEqual({}, needs, "these modules import each other")

    def test_no_module_level_state(self):
        for room, name, path in modules():
            for node in tree_of(path).body:
                value = node.value if isinstance(node, (ast.Assign, ast.AnnAssign, ast.AugAssign)) else None
                if value is not None and not isinstance(node, ast.AugAssign):
                    with self.subTest(module=f"{room}.{name}", line=node.lineno):
                        self.assertFalse(has_state(value))
                self.assertNotIsInstance(node, ast.AugAssign, f"{room}.{name}:{node.lineno}")
            globals_of = [node.lineno for node in ast.walk(tree_of(path)) if isinstance(node, ast.Global)]
            self.assertEqual([], globals_of, f"{room}.{name} has `global`")

    def test_sizes(self):
        total = 0
        for room, name, path in modules():
            lines = path.read_text(encoding="utf-8").split("\n")[:-1]
            total += len(lines) if name != "__init__" else 0
            with self.subTest(module=f"{room}.{name}"):
                self.assertLessEqual(len(lines), LONGER.get(f"{room}.{name}", MOST_LINES))
                self.assertEqual([], [n for n, line in enumerate(lines, 1) if len(line) > MOST_COLUMNS])
        self.assertLessEqual(total, MOST_IN_ALL)
        self.assertLessEqual(sum(name != "__init__" for _, name, _ in modules()), MOST_MODULES)

    def test_sizes_of_tests(self):
        for path in TESTS.glob("*.py"):
            lines = path.read_text(encoding="utf-8").split("\n")[:-1]
            with self.subTest(module=path.name):
                self.assertLessEqual(len(lines), MOST_TEST_LINES)
                self.assertEqual([], [n for n, line in enumerate(lines, 1) if len(line) > MOST_COLUMNS])

    def test_first_line_is_a_sentence(self):
        for room, name, path in modules():
            with self.subTest(module=f"{room}.{name}"):
                text = ast.get_docstring(tree_of(path)) or ""
                self.assertRegex(text, r"^\S.*[.:]")

    @unittest.skipUnless((PACKAGE / "keep/stale.py").is_file(), "no look yet")
    def test_the_look_loads_little(self):
        ran = subprocess.run([sys.executable, "-B", "-X", "importtime", "-c", f"import {LOOK}"], cwd=PACKAGE.parent,
                             stderr=subprocess.PIPE, stdout=subprocess.PIPE, check=False)
        self.assertEqual(0, ran.returncode, ran.stderr.decode())
        loaded = [line.split("|")[-1].strip() for line in ran.stderr.decode().split("\n")]
        own = [name for name in loaded if name.startswith("katibuild.") and (PACKAGE.parent / (
            name.replace(".", "/") + ".py")).is_file()]
        self.assertLessEqual(len(own), MOST_OF_LOOK, own)


class TheRulesThemselves(unittest.TestCase):
    """What the rules refuse."""

    def test_state(self):
        for text, is_state in (("[]", True), ("{}", True), ("{1}", True), ("dict()", True), ("(1, 2)", False),
                               ("frozenset(('a', 'b'))", False), ("re.compile('x')", False), ("'x'", False),
                               ("frozenset(f())", True), ("-1", False), ("1 << 16", False), ("f'{A}b'", False)):
            with self.subTest(text=text):
                self.assertEqual(is_state, has_state(ast.parse(text, mode="eval").body))

    def test_imports(self):
        for text, found in (("from ..base import stop", [("base", "stop")]),
                            ("from .answer import Line", [("ask", "answer")]),
                            ("from . import answer", [("ask", "answer")]),
                            ("from ..base.stop import Stop", [("base", "stop")]),
                            ("import katibuild.base", [(None, "katibuild.base")]),
                            ("def f():\n    from ..keep import stale", [("keep", "stale")]),
                            ("from kati_tools.base import x", [(None, "kati_tools.base")]), ("import os", [])):
            with self.subTest(text=text):
                path = Text(text)
                self.assertEqual(found, list(imported("ask", path)))


class Text:
    """A module's text in the place of its file."""

    def __init__(self, text):
        self.text = text

    def read_text(self, encoding):
        return self.text

    def __str__(self):
        return "text"


if __name__ == "__main__":
    unittest.main()
