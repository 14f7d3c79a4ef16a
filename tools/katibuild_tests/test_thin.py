"""The thin path from make to Ninja: three rules, two commands, and products with make's bytes."""
from __future__ import annotations

import unittest

from trees import Ran, Tree, BUILD

MAKEFILE = "all: prog\nprog: main.o\n\tcc -o $@ $^\nmain.o: main.c\n\tcc -c $< -o $@\n"
FILES = {"Makefile": MAKEFILE, "main.c": "int main(void) { return 3; }\n"}


class Thin(Tree):
    """One small program."""

    def setUp(self):
        super().setUp()
        self.put(FILES)

    def test_products_have_the_bytes_of_make(self):
        self.assertEqual(0, self.make().status)
        made = self.contents()
        self.start_again()
        self.put(FILES)
        ran = self.build()
        self.assertEqual(0, ran.status, ran.said)
        self.assertEqual(made, self.contents())
        self.assertEqual(3, Ran([self.top / "prog"], self.top).status)

    def test_the_commands_are_those_of_make(self):
        commands = [line for line in self.make("-n").said.split("\n") if line]
        self.assertEqual(0, self.build().status)
        for command in commands:
            with self.subTest(command):
                self.assertIn(command, self.ninja("-t", "commands").said)

    def test_the_second_build_has_nothing_to_do(self):
        self.build()
        for ran in (self.build(), self.ninja()):
            self.assertEqual((0, False), (ran.status, ran.has_work), ran.said)

    def test_an_edited_source(self):
        self.build()
        self.put({"main.c": "int main(void) { return 4; }\n"})
        ran = self.ninja()
        self.assertEqual((0, True), (ran.status, ran.has_work), ran.said)
        self.assertEqual(4, Ran([self.top / "prog"], self.top).status)

    def test_a_source_that_does_not_compile(self):
        self.put({"main.c": "int main(void) {\n"})
        self.assertEqual(1, self.build().status)
        self.put(FILES)
        self.assertEqual(0, self.build().status)

    def test_a_foreign_build_file_stays(self):
        self.put({"build.ninja": "# mine\n"})
        ran = self.build()
        self.assertEqual((64, "# mine\n"), (ran.status, self.read("build.ninja")), ran.said)
        self.assertIn("build.ninja", ran.said)

    def test_the_old_package_keeps_its_folders(self):
        ran = Ran([*BUILD[:-1], "--no-ninja"], self.top)
        self.assertEqual(0, ran.status, ran.said)
        self.assertTrue((self.top / "build.kati").is_dir())
        ran = self.build()
        self.assertEqual(64, ran.status)
        self.assertIn("kati-build --remove", ran.said)

    def test_wrong_usage(self):
        for words, said in ((["--whi"], "--why"), (["-j", "x"], "-j"), (["-j0"], "-j0")):
            with self.subTest(words):
                ran = self.build(*words)
                self.assertEqual(64, ran.status, ran.said)
                self.assertIn(said, ran.said)
                self.assertFalse((self.top / ".kati").exists())


if __name__ == "__main__":
    unittest.main()
