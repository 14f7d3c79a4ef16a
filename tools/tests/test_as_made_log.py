"""What kati-build says of files that exist before a first build, and what it writes of them, refuses and leaves."""
import os
import unittest

from kati_tools.build import ninja_kind, ninja_log, ninja_words
from support import Tree, needs

# Hashes of so many bytes, of which the one at a place is seven times that place and the count; as ninja 1.13 has them.
RAPID = {
    0: 0x5a6ef77074ebc84b, 1: 0xe04e965e17daa8e3, 3: 0x5e9c2fab588102bc,
    4: 0xa07e9a79711dcd38, 7: 0x6133acae15f1e906, 8: 0xa38b4aa24bf6b83b,
    16: 0x57862cc81fd1435b, 17: 0x41bc767813807687, 32: 0x379df9b8b073a809,
    33: 0xa2e74722c722dfcd, 48: 0x9ba5cd7d171e5407, 49: 0x172eaf4fc0e4313f,
    97: 0xe451b4b3ce95053e, 200: 0x0d98c2ac04673995,
}
MAKEFILE = "all: out other\nout: in\n\tcp in out\nother: in\n\tcp in other\n.PHONY: all clean\nclean: ; rm -f out\n"


class Hashes(unittest.TestCase):
    """The hashes of commands."""

    def test_ninja_1_13(self):
        for length, wanted in RAPID.items():
            data = bytes((at * 7 + length) % 256 for at in range(length))
            self.assertEqual(ninja_log.rapid(data), wanted, length)

    @needs("ninja")
    def test_the_ninja_at_hand_is_known(self):
        kind = ninja_kind.of("ninja")
        self.assertIn(kind.head, ninja_kind.HEADS)
        self.assertEqual(kind.hash, ninja_log.rapid if kind.head.endswith("7") else ninja_log.murmur)


class Words(unittest.TestCase):
    """The words of ninja's command line."""

    def test_targets(self):
        for words, wanted in {"": [], "-j4 -v": [], "-j 4 a": ["a"], "a -k0 b": ["a", "b"], "-vj4 a": ["a"],
                              "-- -n": ["-n"], "--verbose": [], "-n": None, "-vn": None, "-t clean": None,
                              "-C x": None, "-fx": None, "--version": None, "-h": None, "-d list": None,
                              "-d stats": []}.items():
            self.assertEqual(ninja_words.targets(words.split()), wanted, words)

    def test_jobs(self):
        for words, wanted in {"": None, "-j4": 4, "-v -j 8": 8, "-j4 -j2": 2, "-kj -vj3": 3, "-j": None, "-jx": None,
                              "-j0": 0, "-- -j4": None}.items():
            self.assertEqual(ninja_words.jobs(words.split()), wanted, words)


@needs("kati", "kati-asked", "make", "ninja")
class FirstBuilds(Tree):
    """A tree that make has built, before Ninja has a log."""

    def setUp(self):
        super().setUp()
        self.write(Makefile=MAKEFILE, **{"in": "1\n"})
        self.assertEqual(self.run_in("make").status, 0)

    def build(self, *words, **environment):
        """What kati-build says on standard error; it must end well."""
        ran = self.tool("kati-build", *words, **environment)
        self.assertEqual(ran.status, 0, ran.all)
        return ran.said

    def test_what_exists_is_told_before_ninja_starts(self):
        self.assertEqual(self.build(), "kati-build: files that exist and stay as they are: 2\n")
        self.assertEqual(self.build(), "")

    def test_by_ninjas_words_it_is_told_of_what_it_makes(self):
        for words in (["-n"], ["-t", "targets"], ["--version"], ["-nv", "out"]):
            self.assertEqual(self.build("--", *words), "", words)
            os.unlink(self.top / "build.kati/.ninja_log")
        self.assertEqual(self.build("--", "-j", "2", "out"), "kati-build: files that exist and stay as they are: 1\n")

    def test_what_is_made_at_each_run_does_not_count(self):
        self.write(clean="")
        self.assertEqual(self.build("clean"), "")

    def test_ninja_makes_what_make_makes(self):
        for words in ([], ["--as-made"]):
            self.run_in("make")
            os.unlink(self.top / "other")
            self.assertEqual(self.build("--no-ninja", *words),
                             "kati-build: files that exist and stay as they are: 1\n")
            self.assertEqual(self.made_anew(lambda: self.ninja()), ["other"])
            self.assertIn("no work to do", self.ninja())
            self.assertEqual(self.tool("kati-build", "--remove").status, 0)

    def test_a_log_that_is_there_stays(self):
        self.build()
        before = (self.top / "build.kati/.ninja_log").read_bytes()
        self.assertEqual(self.build("--as-made", "--no-ninja"),
                         "kati-build: --as-made: Ninja has a log here already, which stays as it is\n")
        self.assertEqual((self.top / "build.kati/.ninja_log").read_bytes(), before)

    def test_it_is_refused_beside_another_ninja_file(self):
        self.build("-o", "debug.ninja", "--no-ninja")
        for words in ([], ["-o", "new.ninja"]):
            for more in ([], ["--as-made"]):
                ran = self.tool("kati-build", *more, *words)
                self.assertEqual((ran.status, ran.said),
                                 (64, "kati-build: debug.ninja is here too, and the files that exist may be made by "
                                      "its words\nhelp: kati-build --anew rebuilds everything\n"))
                self.assertFalse((self.top / "build.ninja").exists())
        self.assertEqual(self.build("--anew"), "kati-build: files that exist and are rebuilt: out, other\n")

    def test_a_ninja_with_another_log_is_refused_where_files_exist(self):
        other = self.program("other-ninja", 'ninja "$@" && sed -i "1s/v[0-9]*/v99/" "$2/.ninja_log"')
        for words in ([], ["--no-ninja"], ["--as-made"]):
            ran = self.tool("kati-build", *words, NINJA=other)
            self.assertEqual((ran.status, ran.said),
                             (64, f"kati-build: the log of {other} is of no kind that is known, so all files that "
                                  "exist would be rebuilt\nhelp: kati-build --anew rebuilds everything\n"))
            self.assertFalse((self.top / "build.ninja").exists())
        self.build("--anew", "--no-ninja", NINJA=other)
        self.assertFalse((self.top / "build.kati/.ninja_log").exists())

    def test_a_command_that_is_told_to_differ_gets_no_line(self):
        self.write(Makefile="all: out other\nout: in ; echo '$(.VARIABLES)' > out\nother: in ; cp in other\n")
        self.assertEqual(self.run_in("make").status, 0)
        said = self.tool("kati-build", "--port", "--no-ninja").said
        self.assertIn("kati's commands differ", said)
        self.assertIn("kati-build: files that exist and stay as they are: 1\n"
                      "kati-build: files that exist and are rebuilt: out\n"
                      "kati-build: rebuilt for another command than make's: 1\n", said)


@needs("kati", "kati-asked", "make", "ninja", "cc")
class Headers(Tree):
    """Ninja's log of header dependencies."""

    def test_it_has_what_the_compiler_wrote(self):
        self.write(Makefile="main.o: main.c ; cc -MMD -c main.c -o main.o\n", main_c='#include "a.h"\n', a_h="")
        self.assertEqual(self.run_in("make").status, 0)
        self.assertEqual(self.tool("kati-build", "--deps", "--as-made", "--no-ninja").status, 0)
        self.assertEqual(self.ninja("-t", "deps", "main.o").split("\n")[1:3], ["    main.c", "    a.h"])
        self.assertIn("(VALID)", self.ninja("-t", "deps", "main.o"))


if __name__ == "__main__":
    unittest.main()
