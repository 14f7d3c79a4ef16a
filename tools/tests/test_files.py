"""Large files are read in pieces: what is told of them is what their bytes say."""
import os
import tempfile
import unittest
from pathlib import Path

from support import TOP  # noqa: F401

from kati_tools.base import files
from kati_tools.build import ninja_text


class Pieces(unittest.TestCase):
    """Texts about as long as a piece."""

    LENGTHS = [0, 1, *(count * files.PIECE + more for count in (1, 2) for more in (-1, 0, 1))]

    def setUp(self):
        room = tempfile.TemporaryDirectory()
        self.addCleanup(room.cleanup)
        self.one, self.other = Path(room.name) / "one", Path(room.name) / "other"

    def texts(self):
        """Texts of these lengths: of short lines, of one line, and of a line that a piece would cut."""
        for length in self.LENGTHS:
            yield (b"line\n" * length)[:length]
            yield b"x" * length
            yield (b"x" * (length // 2) + b"\n" + b"x" * length)[:length]

    def test_pieces_are_the_text_and_end_with_a_line(self):
        for text in self.texts():
            self.one.write_bytes(text)
            found = list(files.pieces(self.one))
            self.assertEqual(b"".join(found), text)
            self.assertTrue(all(piece.endswith(b"\n") for piece in found[:-1]))

    def test_files_are_the_same_where_all_bytes_are(self):
        for text in self.texts():
            self.one.write_bytes(text)
            self.other.write_bytes(text)
            self.assertTrue(files.same(self.one, self.other))
            for changed in (text + b"\n", text[:-1] or b"y", text[:-1] + b"y", b"y" + text[1:]):
                self.other.write_bytes(changed)
                self.assertFalse(files.same(self.one, self.other))

    def test_a_file_s_content_is_its_bytes(self):
        for length in (0, 1, *(files.SMALL * count + more for count in (1, 2, 99) for more in (-1, 0, 1))):
            self.one.write_bytes(b"x" * length)
            self.assertEqual(files.content(self.one), b"x" * length)
        # The size of such a file is said to be 0.
        self.assertEqual(files.content("/proc/version"), Path("/proc/version").read_bytes())

    def test_what_is_no_plain_file_has_no_content(self):
        os.mkfifo(self.one)
        # With a writer there is something to read, and without one nothing to wait for.
        self.assertIsNone(files.content(self.one))
        writer = os.open(self.one, os.O_RDWR)
        self.addCleanup(os.close, writer)
        os.write(writer, b"text")
        for path in (self.one, self.other, self.one.parent, "/dev/null", "/dev/zero", "/dev/full", "a\0b"):
            self.assertIsNone(files.content(path), path)

    def test_a_file_that_is_not_there_is_the_same_as_none(self):
        self.one.write_bytes(b"")
        self.assertFalse(files.same(self.one, self.other))
        self.assertFalse(files.same(self.other, self.one))

    def test_the_names_before_colons_are_found_in_each_piece(self):
        first, rest = b"build a: r0 x\n", b"rule r1\n command = build no: r\nbuild b c: r1 y\nbuild d$:e: r1\n"
        self.assertEqual(ninja_text.Heads([first, rest]).outputs(), {"a", "b", "c", "d:e"})
        self.assertEqual(ninja_text.Heads([first + rest]).outputs(), {"a", "b", "c", "d:e"})

    def test_no_names_before_colons(self):
        self.assertEqual(ninja_text.Heads([b"# kati\n"]).outputs(), set())


class AnyExists(unittest.TestCase):
    """Whether one of many files exists is what a look at each tells, in folders that are read and in others."""

    FEW, MANY = 3, files.MANY + 1

    def setUp(self):
        room = tempfile.TemporaryDirectory()
        self.addCleanup(room.cleanup)
        self.addCleanup(os.chdir, os.getcwd())
        os.chdir(room.name)
        os.mkdir("d")
        Path("there").touch()
        Path("d/there").touch()
        os.symlink("nowhere", "link")

    def test_each_way_to_spell_a_name(self):
        lone = ["there", "./there", "d/there", "d//there", "d/../there", "link", "d", "d/", "d/.", "d/..", ".", "..",
                "/", os.path.abspath("there"), "absent", "d/absent", "there/absent", "link/absent", "no/there",
                "no/../there"]
        folders = ["", "./", "d/", "d//", "d/../", "there/", "link/", "no/", os.path.abspath("d") + "/"]
        for count in (0, self.FEW, self.MANY):
            for folder in folders:
                others = [f"{folder}t{number}" for number in range(count)]
                for name in lone:
                    with self.subTest(count=count, folder=folder, name=name):
                        is_there = not name.endswith("absent") and not name.startswith("no/")
                        self.assertEqual(files.any_exists([*others, name]), is_there)
                self.assertFalse(files.any_exists(others))

    def test_one_of_many(self):
        for folder in ("", "d/"):
            names = [f"{folder}t{number}" for number in range(self.MANY)]
            Path(names[7]).touch()
            self.assertTrue(files.any_exists(names))
