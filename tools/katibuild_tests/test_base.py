"""The room base: files, programs, signals, locks, names and messages, beside what the kernel does."""
from __future__ import annotations

import multiprocessing
import os
import posixpath
import signal
import stat
import sys
import tempfile
import time
import unittest
from pathlib import Path

sys.path.insert(0, str(Path(__file__).resolve().parent.parent))

from katibuild.base import files, interrupt, lock, message, programs  # noqa: E402
from katibuild.base.message import Status, Stop  # noqa: E402


class Room(unittest.TestCase):
    """A test in a folder of its own."""

    def setUp(self):
        room = tempfile.TemporaryDirectory(prefix="kati-tests-")
        self.addCleanup(room.cleanup)
        self.top = room.name

    def path(self, name):
        return os.path.join(self.top, name)


class Files(Room):
    """Reading and replacing."""

    def test_replacing(self):
        path = self.path("a")
        for data, is_new in ((b"1", True), (b"1", False), (b"\xff\0", True), (b"", True)):
            with self.subTest(data=data):
                before = os.stat(path).st_mtime_ns if os.path.exists(path) else None
                self.assertEqual(is_new, files.replace(path, data))
                self.assertEqual(data, Path(path).read_bytes())
                self.assertEqual(["a"], os.listdir(self.top))
                self.assertTrue(is_new or os.stat(path).st_mtime_ns == before)

    def test_links_are_not_followed(self):
        """Neither a link in the file's place nor one in the new file's leads a write elsewhere."""
        Path(self.path("other")).write_text("keep")
        for name in ("a", "a.new"):
            os.symlink("other", self.path(name))
        files.replace(self.path("a"), b"new")
        self.assertEqual(("keep", "new"), tuple(Path(self.path(name)).read_text() for name in ("other", "a")))
        self.assertFalse(os.path.islink(self.path("a")))

    def test_absent_and_unreadable(self):
        self.assertIsNone(files.read(self.path("absent")))
        self.assertIsNone(files.file_digest(self.path("absent")))
        self.assertIsNone(files.file_digest(self.top))
        for call in (lambda: files.read(self.top), lambda: files.replace(self.path("no/folder"), b"")):
            with self.assertRaises(Stop) as stopped:
                call()
            self.assertEqual(Status.DEVICE, stopped.exception.status)

    def test_digests_are_sha256(self):
        """The value is that of FIPS 180-2, appendix B.1."""
        Path(self.path("a")).write_bytes(b"abc")
        expected = "ba7816bf8f01cfea414140de5dae2223b00361a396177a9cb410ff61f20015ad"
        self.assertEqual([expected] * 2, [files.digest(b"abc"), files.file_digest(self.path("a"))])

    def test_text_and_bytes(self):
        data = bytes(range(256))
        self.assertEqual(data, files.bytes_of(files.text_of(data)))


class Programs(Room):
    """Running and finding."""

    def test_outputs_are_regular_files(self):
        """The recorder takes a pipe for the output of a `$(shell ..)` call."""
        ran = programs.run(["/bin/sh", "-c", "test -f /dev/fd/1 && test -f /dev/fd/2 && cat && echo x && echo y >&2"],
                           self.top, os.environ)
        self.assertEqual((0, b"x\n", b"y\n"), tuple(ran))

    def test_statuses(self):
        for text, status in (("exit 3", 3), ("kill -9 $$", 137)):
            self.assertEqual(status, programs.run(["/bin/sh", "-c", text], self.top, {}).status)

    def test_absent(self):
        for call in (lambda: programs.run([self.path("absent")], self.top, {}),
                     lambda: programs.find({"PATH": self.top}, ("ninja",))):
            with self.assertRaises(Stop) as stopped:
                call()
            self.assertEqual(Status.DEVICE, stopped.exception.status)

    def test_named_by_variables(self):
        program = self.path("n")
        Path(program).write_text("#!/bin/sh\n")
        os.chmod(program, 0o755)
        self.assertEqual(program, programs.find({"PATH": "/nowhere", "NINJA": program}, ("ninja",)).ninja)

    def test_serving_meanwhile(self):
        """A program that fills a pipe (64 KiB on Linux) ends only if the pipe is read while it runs."""
        path = self.path("pipe")
        os.mkfifo(path)
        with open(os.open(path, os.O_RDONLY | os.O_NONBLOCK), "rb", buffering=0) as pipe:
            seen = Reader(pipe.fileno())
            ran = programs.run(["/bin/sh", "-c", "head -c 300000 /dev/zero > pipe"], self.top, os.environ, seen)
        self.assertEqual((0, 300000), (ran.status, seen.count))


class Reader(programs.Meanwhile):
    """Counts the bytes that arrive at a descriptor."""

    def __init__(self, descriptor):
        os.set_blocking(descriptor, False)
        self.descriptor, self.count = descriptor, 0

    def fileno(self):
        return self.descriptor

    def serve(self):
        try:
            for data in iter(lambda: os.read(self.descriptor, 1 << 16), b""):
                self.count += len(data)
        except BlockingIOError:
            pass


class Locks(Room):
    """One run at a time."""

    def test_a_second_run_waits(self):
        path, said = self.path("lock"), []
        go, process = multiprocessing.Event(), None
        process = multiprocessing.Process(target=hold, args=(path, go))
        process.start()
        self.assertTrue(go.wait(60))
        start = time.monotonic()
        with lock.held(path, lambda: said.append("waits")):
            waited = time.monotonic() - start
        process.join()
        self.assertEqual(["waits"], said)
        self.assertGreater(waited, 0.1)
        with lock.held(path, lambda: said.append("waits")):
            self.assertEqual(["waits"], said)

    def test_a_link_is_no_lock(self):
        os.symlink("nowhere", self.path("lock"))
        with self.assertRaises(Stop) as stopped:
            with lock.held(self.path("lock"), lambda: None):
                pass
        self.assertEqual(Status.DEVICE, stopped.exception.status)
        self.assertEqual(["lock"], os.listdir(self.top))


def hold(path, go):
    """Holds a lock for a while."""
    with lock.held(path, lambda: None):
        go.set()
        time.sleep(0.3)


class Signals(Room):
    """Ending by a signal."""

    def test_each_signal_ends_the_run_once(self):
        for number in interrupt.SIGNALS:
            with self.subTest(signal=number):
                before = signal.getsignal(number)
                with self.assertRaises(interrupt.Interrupted) as ended:
                    with interrupt.as_exit():
                        os.kill(os.getpid(), number)
                self.assertEqual(number, ended.exception.number)
                self.assertEqual(before, signal.getsignal(number))

    def test_scratch_folders(self):
        with interrupt.scratch_folder() as folder:
            self.assertEqual(0o700, stat.S_IMODE(os.stat(folder).st_mode))
            Path(folder, "a").write_text("")
        self.assertFalse(os.path.exists(folder))
        with interrupt.scratch_folder(keep=True) as folder:
            pass
        os.rmdir(folder)


class Paths(Room):
    """Names of files."""

    def test_one_spelling_a_file(self):
        """Each two spellings that the kernel opens as one file (no links here) have one name."""
        os.makedirs(self.path("a/b"))
        for name in ("a", "a/b"):
            Path(self.path(name), "f").write_text("")
        names = ["a/f", "./a/f", "a//f", "a/./f", "a/b/../f", "a/b/f", "a/b//f", "a/b/./f", "./a/b/../../a/b/f"]
        for one in names:
            for other in names:
                same = os.path.samefile(self.path(one), self.path(other))
                self.assertEqual(same, files.ninja_name(one) == files.ninja_name(other), (one, other))
        self.assertTrue(posixpath.isabs(files.ninja_name("//a/b")))
        self.assertEqual("/a/b", files.ninja_name("//a/b"))

    def test_below(self):
        for path, folder, is_below in (("/a", "/a", True), ("/a/b", "/a", True), ("/ab", "/a", False),
                                       ("/a", "/", True), ("/", "/a", False)):
            self.assertEqual(is_below, files.is_below(path, folder), (path, folder))

    def test_folders(self):
        os.makedirs(self.path("a/b"))
        os.symlink("a", self.path("link"))
        Path(self.path("file")).write_text("")
        self.assertEqual({self.top, self.path("a"), self.path("a/b")}, set(files.folders(self.top)))


class Messages(unittest.TestCase):
    """What people see."""

    def test_texts(self):
        place = message.Place("Makefile", 3)
        for given, text in ((message.Message("no goal"), "kati-build: no goal"),
                            (message.Message("no rule", place), "Makefile:3: no rule"),
                            (message.Message("no rule", place, "add one"), "Makefile:3: no rule\nhelp: add one")):
            self.assertEqual(text, message.lines_of(given))

    def test_no_name_steers_a_terminal(self):
        for letter in map(chr, [*range(0x20), *range(0x7f, 0xa0), 0x202e, 0xdc80]):
            if letter != "\n":
                self.assertNotIn(letter, message.lines_of(message.Message(f"no {letter}")))
        self.assertEqual("ä", message.printable("ä"))


if __name__ == "__main__":
    unittest.main()
