"""make is asked where the makefile stands, with something over that place; where the host can't, in a copy."""
import ctypes
import os
import pickle
import signal
import subprocess
import traceback
import unittest
from pathlib import Path

from support import Tree, needs

from kati_tools.base import answering, own_files, programs, scratch
from kati_tools.make import in_place, namespaces

WHY_NOT = in_place.why_not()
# What a process needs that may not read this Python any more.
NEEDED = (ctypes, pickle, namespaces)
LOOKS = "V := $(shell {}) $(wildcard x/../*.c)\nout: ; echo $(V) $(CURDIR) > $@\n"
NOBODY, SET_DUMPABLE = 12345, 4


def written(command):
    """What a command writes."""
    return subprocess.run(["sh", "-c", command], stdout=subprocess.PIPE, check=True).stdout.decode().split()


class Answers(unittest.TestCase):
    """A call in a process of its own."""

    def test_what_it_answers_or_raises(self):
        self.assertEqual(answering.answer_of(lambda: 2, lambda given: [given, "\udcff"]), [2, "\udcff"])
        with self.assertRaises(programs.Stop) as stopped:
            answering.answer_of(lambda: None, lambda _: self.stop())
        self.assertEqual((str(stopped.exception), stopped.exception.status), ("words", 7))
        with self.assertRaises(programs.Stop) as stopped:
            answering.answer_of(lambda: None, lambda _: [][0])
        self.assertIn("IndexError", str(stopped.exception))
        with self.assertRaises(OSError):
            answering.answer_of(lambda: None, lambda _: os.stat("/nowhere"))
        with self.assertRaises(programs.Stop):
            answering.answer_of(lambda: None, lambda _: os.kill(os.getpid(), signal.SIGKILL))

    @staticmethod
    def stop():
        """Ends as a tool does."""
        raise programs.Stop("words", 7)

    def test_a_process_that_refuses(self):
        def refuse():
            raise answering.Refused("it rains")

        self.assertEqual(answering.answer_of(refuse, lambda _: None).why, "it rains")

    def test_it_ends_with_the_one_that_began_it(self):
        with scratch.room("kati-tests-") as room:
            pipe = os.path.join(room, "pipe")
            os.mkfifo(pipe)
            first = os.fork()
            if not first:
                answering.answer_of(lambda: None, lambda _: self.tell_and_wait(pipe))
                os._exit(0)
            with open(pipe, "rb") as file:
                self.assertEqual(file.readline(), b"begun\n")
                os.kill(first, signal.SIGKILL)
                os.waitpid(first, 0)
                # It is at an end where nothing has the pipe open any more.
                self.assertEqual(file.read(), b"")

    @staticmethod
    def tell_and_wait(pipe):
        """Tells that it has begun, and waits for ever."""
        with open(pipe, "wb", buffering=0) as file:
            file.write(b"begun\n")
            signal.pause()


@unittest.skipIf(WHY_NOT, f"without a namespace of mounts: {WHY_NOT}")
class Places(Tree):
    """What is so in place."""

    def setUp(self):
        super().setUp()
        self.put_all({"Makefile": "all:\n", "n.txt": "1\n", "sub/m.txt": "2\n", "build.kati/lock": "",
                      "build.kati/x": "", "build.ninja": own_files.FIRST_LINE, "../v": "7\n"})
        os.symlink("../v", self.top / "v")
        os.utime(self.top, (1000, 1000))

    def state(self):
        """All that is in the folder and above it, with times and modes."""
        paths = sorted(self.top.parent.rglob("*"))
        return [(str(path), path.lstat().st_mtime_ns, path.lstat().st_mode) for path in paths]

    def look(self, command, texts=("all:\n",)):
        """What a command writes that is run in place, as this user or another one."""
        with scratch.room("kati-tests-") as room, programs.inside(self.top):
            def asked(place):
                self.assertFalse(place.is_copy, getattr(place, "why", None))
                with place.entered():
                    return written(command), sorted(place.files())

            os.chmod(room, 0o777)
            return in_place.in_place_or_copy(room, texts, asked)

    def test_it_is_the_same_place(self):
        before, outside = self.state(), written(f"cd {self.top}; pwd; id -u; id -g; stat -c %Y . n.txt; cat v")
        told, names = self.look("pwd; id -u; id -g; stat -c %Y . n.txt; cat v; echo 2 > n.txt; rm sub/m.txt; "
                                "echo > new; mkdir -p other/x")
        self.assertEqual(told, outside)
        self.assertEqual(names, ["Makefile", "n.txt", "new", "v"])
        self.assertEqual(self.state(), before)
        self.assertNotIn(str(self.top), Path("/proc/self/mountinfo").read_text())

    def test_what_kati_build_wrote_is_not_there(self):
        self.assertEqual(self.look("ls")[0], ["Makefile", "n.txt", "sub", "v"])

    def test_folders_that_makefiles_name_above_are_covered(self):
        before = self.state()
        self.look("echo 8 > ../v; echo > ../new", ["all: ; cat ../v\n"])
        self.assertEqual(self.state(), before)

    def test_temporary_files_may_be_in_the_home_that_makefiles_name(self):
        """They stand in the folder above, over which nothing lies where that is the user's home."""
        self.put_all({"Makefile": "V := $(shell cat ../v)\nall: ; echo $(V)\n", "../temporary/x": ""})
        given = {"TMPDIR": str(self.top.parent / "temporary"), "HOME": str(self.top.parent)}
        self.assertNotIn("in a copy", self.tool("kati-port", "--diff", "Makefile", **given).whole)
        given["HOME"] = str(self.top.parent.parent / "elsewhere")
        said = self.tool("kati-port", "--diff", "Makefile", **given).whole
        self.assertIn("the folder of temporary files is in ", said)

    def test_an_ordinary_user_may_have_it_too(self):
        for path in [self.top.parent, *self.top.parent.rglob("*")]:
            os.lchown(path, *([NOBODY] * 2 if os.getuid() == 0 else [os.getuid(), os.getgid()]))
        before = self.state()
        self.as_nobody(self.test_it_is_the_same_place)
        self.assertEqual(self.state(), before)

    def as_nobody(self, call):
        """Does something as a user without rights, where this one has them."""
        child = os.fork()
        if child:
            self.assertEqual(os.waitpid(child, 0)[1], 0)
            return
        try:
            # The checkout may be below a folder that such a user can't reach.
            os.chdir(self.top)
            if os.getuid() == 0:
                os.setgroups([])
                os.setgid(NOBODY)
                os.setuid(NOBODY)
                # The process has its own files of the system again, as each that such a user begins.
                ctypes.CDLL(None).prctl(SET_DUMPABLE, 1)
            call()
            os._exit(0)
        except BaseException:
            traceback.print_exc()
        finally:
            os._exit(1)

    def test_a_copy_where_another_user_has_files(self):
        if os.getuid():
            self.skipTest("files of another user want root")

        os.chmod(self.top.parent, 0o755)

        def look():
            with scratch.room("kati-tests-") as room, programs.inside(self.top):
                answer = in_place.in_place_or_copy(room, ["all:\n"], lambda place: (place.is_copy, place.why))
                self.assertEqual(answer, (True, "another user or group has files in it"))

        self.as_nobody(look)


@needs("kati", "kati-asked", "make", "ninja")
class Ported(Tree):
    """A port has make's values, whatever lies round the folder; and says where it had them from a copy."""

    def makes(self, makefile, **texts):
        """What make makes by a makefile, beside which there is something above its folder."""
        self.put("Makefile", makefile)
        self.put_all({"../VERSION": "7.1\n", "../common/a.c": "", "v.sh": "cat ../VERSION 2> /dev/null\n", "x/y": ""})
        self.assertEqual(self.run_in("make", "-s").status, 0)
        found = self.read("out")
        (self.top / "out").unlink()
        return found

    @unittest.skipIf(WHY_NOT, f"without a namespace of mounts: {WHY_NOT}")
    def test_what_lies_above_is_found(self):
        os.makedirs(self.top.parent / "common")
        os.symlink("../common/a.c", self.top / "a.c")
        for command in ("sh v.sh", "cd `dirname $(CURDIR)` && cat VERSION", "cat $(CURDIR)/x/../../VERSION"):
            wanted = self.makes(LOOKS.format(command))
            self.assertIn("7.1 x/../a.c", wanted)
            ran = self.tool("kati-port", "--write", "Makefile")
            self.assertIn("kati's commands are make's\n", ran.out)
            self.assertNotIn("in a copy", ran.whole)
            self.assertEqual(self.tool("kati-build", "--builtin").status, 0)
            self.assertEqual(self.read("out"), wanted)
            (self.top / "out").unlink()
            (self.top / "kati-values.mk").unlink()

    @needs("git")
    def test_git_is_found_that_keeps_a_folder_above(self):
        who = ["-c", "user.name=a", "-c", "user.email=a@b"]
        self.put("Makefile", "V := $(shell git describe --always) $(shell git ls-files)\nout: ; echo $(V) > $@\n")
        for words in (["init", "-q", ".."], ["add", "Makefile"], [*who, "commit", "-q", "-m", "one"]):
            self.assertEqual(self.run_in("git", *words).status, 0)
        self.assertEqual(self.run_in("make", "-s").status, 0)
        wanted = self.read("out")
        self.assertRegex(wanted, r"^\w{7,} Makefile\n$")
        for copies in ("", "1"):
            (self.top / "out").unlink()
            ran = self.tool("kati-build", "--port", KATI_COPIES=copies)
            self.assertEqual((ran.status, self.read("out")), (0, wanted), ran.all)
            self.assertEqual(self.tool("kati-build", "--remove").status, 0)

    def test_a_copy_is_told(self):
        self.put("Makefile", LOOKS.format("echo 1"))
        words = "make was asked in a copy of this folder: the environment has KATI_COPIES\n"
        for call in (("kati-port", "--diff", "Makefile"), ("kati-build", "--port", "--no-ninja")):
            self.assertIn(f": {words}", self.tool(*call, KATI_COPIES="1").whole)
        ran = self.tool("kati-port", "--diff", "Makefile", TMPDIR=str(self.top))
        self.assertIn("Makefile: make was asked in a copy of this folder: ", ran.whole)


if __name__ == "__main__":
    unittest.main()
