"""What each tool and script says of itself."""
from support import TOOLS, TOP, Tree


class Help(Tree):
    """--help, and a wrong command line."""

    def test_each_tool_tells_its_options_examples_and_statuses(self):
        for name in ("kati-build", "kati-port", "kati-compare"):
            with self.subTest(name):
                ran = self.tool(name, "--help", KATI="no/such/program")
                self.assertEqual((ran.status, ran.said), (0, ""))
                for part in (f"usage: {name}", "--files-from", "--builtin", "--kati PROGRAM", "\nexamples:\n",
                             "\nexit status:\n"):
                    self.assertIn(part, ran.out)
                self.assertEqual([line for line in ran.out.split("\n") if len(line) >= 120], [])
                self.assertEqual(self.tool(name, "--such").status, 64)

    def test_scripts(self):
        for path in (TOP / "scripts/run_checks.py", TOP / "scripts/check_builtin.py", TOP / "tools/tests/__main__.py"):
            with self.subTest(path.name):
                ran = self.run_in("python3", path, "--help")
                self.assertEqual(ran.status, 0)
                self.assertIn("exit status is", ran.out)

    def test_no_line_of_their_code_is_too_long(self):
        for top in (TOOLS, TOP / "share", TOP / ".ci"):
            for path in sorted(path for path in top.rglob("*") if path.is_file() and path.suffix != ".pyc"):
                lines = path.read_text(encoding="utf-8").split("\n")
                long = [number for number, line in enumerate(lines, 1) if len(line) > 120]
                self.assertEqual(long, [], path)

    def test_tools_leave_nothing_beside_themselves(self):
        self.tool("kati-port", "--help")
        left = [path for path in TOOLS.rglob("__pycache__") if not path.parent.name.endswith("tests")]
        self.assertEqual([*left, *(TOP / "share").rglob("__pycache__")], [])
