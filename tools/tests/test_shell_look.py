"""What a shell sees of a build in which nothing is new, so that ninja starts no Python, and what it leaves to it."""
import os
import shutil
import unittest
from unittest import mock

from support import TOP, Tree, kati, kati_asked, needs
from test_nothing_new import VERSION

# By this no Python can start.
WITHOUT_PYTHON = {"PYTHONHOME": "/nowhere"}
CALLS = "V := $(shell cat doc/x)\nW := $(wildcard doc/*) $(CC) $(HOME)\n"


@needs("kati", "kati-asked", "make", "ninja")
class Looks(Tree):
    """Where nothing is new a shell sees that, and nothing else."""

    def setUp(self):
        super().setUp()
        self.put_all({"a.c": "a\n", "inc.mk": "", "doc/x": "1\n"})

    def settle(self, *words):
        """Builds by these words and then by ninja until nothing is new, which is seen by Python once."""
        for one in (words, ["ninja"], ["ninja"], ["ninja"]):
            self.let_time_pass()
            ran = self.run_in(*one)
            self.assertEqual(ran.status, 0, ran.all)

    def settled(self, *words, makefile=CALLS + VERSION + "include inc.mk\n"):
        """A build by this makefile in which nothing is new."""
        self.put("Makefile", makefile)
        self.settle(self.tool_path("kati-build"), *words)

    def starts_python(self, *words, **environment):
        """Whether ninja, which has to look, starts Python."""
        self.let_time_pass()
        self.put("another", "")
        os.unlink(self.top / "another")
        ran = self.run_in("ninja", *words, **WITHOUT_PYTHON, **environment)
        self.assertIn("translating Makefile", ran.out)
        self.assertIn(ran.status, (0, 1), ran.all)
        self.assertEqual("encodings" in ran.all, ran.status == 1, ran.all)
        return ran.status == 1

    def test_nothing_is_new(self):
        makefiles = {(): VERSION + "include inc.mk\n", ("--port",): CALLS + VERSION,
                     ("--builtin", "--deps"): VERSION + "-include a.d\n%.d: %.c ; echo 'out: inc.mk' > $@\n",
                     ("--files-from", "list"): VERSION}
        self.put("list", "a.c\ndoc/x\n")
        for words, makefile in makefiles.items():
            with self.subTest(words):
                self.settled(*words, makefile=makefile)
                self.assertFalse(self.starts_python())
                self.assertEqual(self.read("out"), "1\na\n")

    @mock.patch.dict(os.environ, HOME="/one")
    def test_values_that_were_written(self):
        self.put("Makefile", CALLS + VERSION)
        self.assertEqual(self.tool("kati-port", "--write", "Makefile").status, 0)
        self.settle(self.tool_path("kati-build"), "--builtin")
        self.assertFalse(self.starts_python())
        self.assertTrue(self.starts_python(HOME="/another"))
        self.put("doc/x", "2\n")
        self.assertTrue(self.starts_python())

    def test_what_is_new_is_left_to_python(self):
        def put(name, text):
            return lambda: self.put(name, text)

        def in_its_place():
            self.put("another.mk", "# a\n")
            os.replace(self.top / "another.mk", self.top / "inc.mk")

        def of_the_same_date():
            found = os.stat(self.top / "doc/x")
            self.put("doc/x", "2\n")
            os.utime(self.top / "doc/x", ns=(found.st_atime_ns, found.st_mtime_ns))

        def a_folder():
            os.unlink(self.top / "doc/y")
            (self.top / "doc/y").mkdir()

        self.settled("--port")
        ported = next((self.top / "build.kati/ported").rglob("Makefile")).relative_to(self.top)
        edits = {"a makefile": put("Makefile", CALLS + VERSION + "include inc.mk\n#\n"),
                 "an include": put("inc.mk", "# a\n"), "a source": put("new.c", ""),
                 "a file that a pattern fits": put("doc/y", ""),
                 "a folder in the place of a file": a_folder,
                 "a file that a command reads": put("doc/x", "2\n"), "another of the same date": of_the_same_date,
                 "another in its place": in_its_place,
                 "what kati wrote": put("build.kati/translated.ninja", ""), "what was ported": put(ported, ""),
                 "the look is emptied": put("build.kati/.look", ""),
                 "the look ends early": put("build.kati/.look", "echo\n"),
                 "what was noted": lambda: os.unlink(self.top / "build.kati/.inputs")}
        for what, edit in edits.items():
            with self.subTest(what):
                self.assertFalse(self.starts_python())
                edit()
                self.assertTrue(self.starts_python())
                self.settle("ninja")

    def test_a_list_of_files_that_is_another_one(self):
        self.put("list", "a.c\n")
        rules = "out: a.o ; cat a.o > out\n%.o: %.s ; cp $< $@\n%.o: %.c ; cp $< $@\n"
        self.settled("--files-from", "list", makefile=rules)
        self.assertFalse(self.starts_python())
        self.put_all({"a.s": "s\n", "list": "a.c\na.s\n"})
        self.assertTrue(self.starts_python())
        self.settle("ninja")
        self.assertEqual(self.read("out"), "s\n")

    def test_what_is_read_first_now_beside_a_list_of_files(self):
        for name, words in (("kati-values.mk", ()), ("GNUmakefile", ("--port",))):
            with self.subTest(name):
                self.put("list", "a.c\n")
                self.settled(*words, "--files-from", "list", makefile="V := $(wildcard *.x)\n" * bool(words) + VERSION)
                self.assertFalse(self.starts_python())
                self.put(name, VERSION)
                self.assertTrue(self.starts_python())
                os.unlink(self.top / name)

    @mock.patch.dict(os.environ, TERM="one")
    def test_a_variable_that_shells_set_themselves(self):
        self.settled("--port", makefile="V := $(TERM)\n" + VERSION)
        self.assertTrue(self.starts_python())

    def test_another_environment_and_another_place(self):
        self.settled("--port")
        self.assertTrue(self.starts_python(CC="another"))
        self.assertTrue(self.starts_python(HOME="/another"))
        self.assertFalse(self.starts_python())
        place = self.top
        self.top = place.parent / "moved"
        os.rename(place, self.top)
        self.assertTrue(self.starts_python())

    def test_a_tool_that_is_another_one_now(self):
        place = self.top.parent / "installed"
        for name in ("share/kati", "tools"):
            shutil.copytree(TOP / name, place / name, ignore=shutil.ignore_patterns("tests", "__pycache__"))
        for name, program in (("kati", kati()), ("kati-asked", kati_asked())):
            os.symlink(program, place / "tools" / name)
        self.put("Makefile", CALLS + VERSION)
        self.settle(place / "tools/kati-build", "--port")
        self.assertFalse(self.starts_python())
        with open(place / "share/kati/kati_tools/port/port_report.py", "a", encoding="ascii") as file:
            file.write("# another one\n")
        self.assertTrue(self.starts_python())

    def test_what_a_shell_cannot_tell(self):
        self.run_in("git", "init", "-q", ".")
        self.settled("--files-from", "git", makefile=VERSION)
        self.assertTrue(self.starts_python())
        os.symlink("doc", self.top / "link")
        self.settled("--port", makefile="V := $(realpath link/x)\n" + VERSION)
        self.assertTrue(self.starts_python())

    def test_one_that_a_tree_brings_along_is_taken_away(self):
        self.put_all({"Makefile": VERSION, "build.kati/.look": "echo same\n"})
        self.assertEqual(self.tool("kati-build", "--no-ninja").status, 0)
        self.assertFalse((self.top / "build.kati/.look").exists())

    def test_names_that_mean_something_to_a_shell(self):
        self.put_all({"-x.c": "", "sub dir/$(y) 'z'.c": "", "(/!.c": "", "*": ""})
        self.settled("--port")
        self.assertFalse(self.starts_python())
        self.put("(/-newer", "")
        self.assertTrue(self.starts_python())


if __name__ == "__main__":
    unittest.main()
