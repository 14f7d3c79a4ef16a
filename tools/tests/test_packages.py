"""The packages of the tools: what each may import."""
import ast
import functools
import re
import unittest

from support import TOP

PACKAGES = ("base", "makefile", "make", "build", "port")
TOOLS = TOP / "share/kati/kati_tools"


@functools.lru_cache(maxsize=None)
def imports(path):
    """The statements by which a module imports, wherever they stand in it."""
    text = path.read_text(encoding="utf-8")
    return [node for node in ast.walk(ast.parse(text)) if isinstance(node, (ast.Import, ast.ImportFrom))]


def imported(path):
    """The packages that a module imports from by relative imports, each with its line."""
    for node in imports(path):
        if isinstance(node, ast.ImportFrom) and node.level:
            own = node.level == 1
            yield (path.parent.name if own else node.module.split(".")[0]), node.lineno


def modules_imported(path):
    """The modules that a module imports by relative imports, wherever these stand in it."""
    for node in imports(path):
        if isinstance(node, ast.ImportFrom) and node.level:
            package = ".".join(filter(None, [path.parent.name if node.level == 1 else None, node.module]))
            yield from [f"{package}.{one.name}" for one in node.names]
            yield package


def unused(path):
    """The names that a module imports and doesn't use, each with its line; what the linter is told to pass over is
    passed over."""
    lines = path.read_text(encoding="utf-8").splitlines()
    others = [line for line in lines if not line.lstrip().startswith(("import ", "from "))]
    words = set(re.findall(r"\w+", "\n".join(others)))
    for node in imports(path):
        if "noqa" not in lines[node.lineno - 1] and getattr(node, "module", None) != "__future__":
            names = [(one.asname or one.name).split(".")[0] for one in node.names]
            yield from [f"{path.relative_to(TOP)}:{node.lineno}: {name}" for name in names if name not in words]


class Packages(unittest.TestCase):
    """Each module stands in a package, and imports its own and those before it."""

    def test_each_module_stands_in_a_package(self):
        self.assertEqual([path.name for path in sorted(TOOLS.glob("*.py"))], ["__init__.py"])
        self.assertEqual({path.parent.name for path in TOOLS.glob("*/*.py")}, set(PACKAGES))

    def test_packages_import_those_before_them(self):
        seen = 0
        for path in sorted(TOOLS.glob("*/*.py")):
            for package, line in imported(path):
                seen += 1
                with self.subTest(f"{path.relative_to(TOOLS)}:{line}"):
                    self.assertIn(package, PACKAGES[:PACKAGES.index(path.parent.name) + 1])
        self.assertGreater(seen, 100)

    def test_no_module_imports_itself_by_others(self):
        names = {f"{path.parent.name}.{path.stem}": set(modules_imported(path)) for path in TOOLS.glob("*/*.py")}
        while True:
            leaves = {name for name, needed in names.items() if names.keys().isdisjoint(needed)}
            if not leaves:
                break
            names = {name: needed for name, needed in names.items() if name not in leaves}
        self.assertEqual(names, {})


class Modules(unittest.TestCase):
    """Each module of the tools, of their tests and of the scripts."""

    MODULES = [path for name in ("share", "tools", "scripts") for path in sorted((TOP / name).rglob("*.py"))]

    def test_none_is_too_long(self):
        lengths = {path.relative_to(TOP): path.read_text(encoding="utf-8").count("\n") for path in self.MODULES}
        self.assertEqual({path: length for path, length in lengths.items() if length >= 500}, {})

    def test_each_uses_what_it_imports(self):
        self.assertEqual([name for path in self.MODULES for name in unused(path)], [])
        self.assertGreater(len(self.MODULES), 100)


if __name__ == "__main__":
    unittest.main()
