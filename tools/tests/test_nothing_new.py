"""Runs of kati-build that have nothing new to translate, and so run no kati, beside those that have."""
import os
import shutil
import sys
import unittest

from support import TOP, Tree, needs

# A recipe that makes a file and takes it away again, as programs do that name their version.
VERSION = "out: .version a.o\n\tcat .version a.o > out\n%.o: %.c ; cat $< > $@\n" \
    ".version: force\n\t@echo 1 > .v.new; cmp -s .version .v.new || cp .v.new .version; rm -f .v.new\nforce:\n"

# Runs kati-build and tells which files were opened, and which modules were loaded.
LOOKING = """\
import os, sys
opened = set()
sys.addaudithook(lambda event, given: opened.add(str(given[0])) if event == "open" else None)
sys.path.insert(0, sys.argv.pop(1))
sys.argv.pop(0)
from kati_tools.port import building
status = building.main(sys.argv[1:])
print("", *opened, *(f"loads {name}" for name in sys.modules), sep="\\n")
sys.exit(status)
"""


@needs("kati", "kati-asked", "make", "ninja")
class Nothing(Tree):
    """What a run counts of kati's runs."""

    def setUp(self):
        super().setUp()
        self.count = self.top.parent / "count"
        self.environment = self.around(f"echo >> {self.count}")
        self.put_all({"a.c": "a\n", "inc.mk": "", "doc/x": ""})

    def runs(self, *words):
        """How often kati runs in a run, which must end well."""
        self.count.write_text("")
        ran = self.run_in(*words, **self.environment)
        self.assertEqual(ran.status, 0, ran.all)
        return self.count.read_text().count("\n")

    def settled(self, *words, makefile=VERSION + "include inc.mk\n"):
        """Builds until what the build made is known."""
        self.put("Makefile", makefile)
        self.let_time_pass()
        self.runs(self.tool_path("kati-build"), *words)
        for _ in range(2):
            self.let_time_pass()
            self.runs("ninja")

    def test_a_file_that_comes_and_goes(self):
        for words in ((), ("--port",), ("--files-from", "git")):
            with self.subTest(words):
                self.run_in("git", "init", "-q", ".")
                self.settled(*words)
                self.assertEqual(self.runs("ninja"), 0)
                self.assertEqual(self.runs(self.tool_path("kati-build"), *words), 0)
                self.assertEqual(self.read("out"), "1\na\n")

    def test_includes_that_rules_make(self):
        include = "-include a.d\n%.d: %.c ; echo 'out: h.h' > $@\n"
        edits = {"the source": lambda: self.put("a.c", "b\n"), "the include": lambda: self.touch("a.d"),
                 "the include is gone": lambda: os.unlink(self.top / "a.d"),
                 "its mark is gone": lambda: os.unlink(self.top / "build.kati/stale/a.d")}
        self.put("h.h", "")
        self.settled(makefile=VERSION + include)
        self.assertEqual((self.runs("ninja"), self.read("out")), (0, "1\na\n"))
        for what, edit in edits.items():
            with self.subTest(what):
                edit()
                self.assertGreater(self.runs("ninja"), 0)
                self.assertEqual(self.read("a.d"), "out: h.h\n")
                self.let_time_pass()
                self.runs("ninja")
                self.assertEqual(self.runs("ninja"), 0)
        self.assertEqual(self.read("out"), "1\nb\n")
        self.settled("--port", makefile=VERSION + include)
        self.assertEqual(self.runs("ninja"), 0)

    def test_what_is_new_is_translated(self):
        def put(name, text):
            return lambda: self.put(name, text)

        edits = {"a makefile": put("Makefile", VERSION + "# more\ninclude inc.mk\n"),
                 "an include": put("inc.mk", "# a\n"),
                 "a source": put("new.c", ""),
                 "its own file": lambda: (self.top / "build.kati/translated.ninja").write_text(""),
                 "what counts where it changed": lambda: os.unlink(self.top / "out")}
        self.settled()
        for what, edit in edits.items():
            with self.subTest(what):
                self.let_time_pass()
                edit()
                self.assertGreater(self.runs(self.tool_path("kati-build")), 0)
                for _ in range(2):
                    self.let_time_pass()
                    self.runs("ninja")
                self.assertEqual(self.runs("ninja"), 0)

    def test_other_words_and_an_absent_include(self):
        self.settled(makefile=VERSION + "-include absent.mk\n")
        self.assertEqual(self.runs("ninja"), 0)
        self.put("absent.mk", "X = 1\n")
        self.assertGreater(self.runs("ninja"), 0)
        self.assertGreater(self.runs(self.tool_path("kati-build"), "X=2"), 0)

    def test_what_kati_wrote_is_emptied(self):
        for words in ((), ("--port",)):
            with self.subTest(words):
                self.settled(*words, makefile="out: a.c ; cat a.c > out\n")
                self.assertEqual(self.runs("ninja"), 0)
                before, folder = self.read("build.kati/translated.ninja"), os.stat(self.top / "build.kati").st_mtime_ns
                self.put("build.kati/translated.ninja", "")
                self.assertEqual(os.stat(self.top / "build.kati").st_mtime_ns, folder)
                self.assertGreater(self.runs("ninja"), 0)
                self.assertEqual(self.read("build.kati/translated.ninja"), before)
                self.assertEqual(self.runs("ninja"), 0)

    def test_nothing_is_read_or_loaded_that_is_not_needed(self):
        self.put("Makefile", "V := $(shell cat doc/x)\nout: a.c ; cat a.c > out\n")
        for _ in range(3):
            self.let_time_pass()
            told = self.run_in(sys.executable, "-B", "-S", "-c", LOOKING, TOP / "share/kati",
                               self.tool_path("kati-build"), "--port", **self.environment).out.split("\n")
        loaded = {line.split(" ")[1].replace(".", "/") for line in told if line.startswith("loads kati_tools.")}
        read = {line.split("/share/kati/")[1][:-len(".py")] for line in told
                if "/share/kati/" in line and line.endswith(".py")}
        self.assertLessEqual(read, {*loaded, *(f"{one}/__init__" for one in loaded), "kati_tools/__init__"})
        self.assertNotIn("loads subprocess", told)
        self.assertIn("loads kati_tools.port.building", told)

    def test_a_tool_that_is_another_one_now(self):
        place = self.top.parent / "installed"
        for name in ("share/kati", "tools"):
            shutil.copytree(TOP / name, place / name, ignore=shutil.ignore_patterns("tests", "__pycache__"))
        tool = place / "tools/kati-build"
        self.put("Makefile", "V := $(shell cat doc/x)\nout: a.c ; cat a.c > out\n")
        for _ in range(2):
            self.let_time_pass()
            self.runs(tool, "--port")
        self.assertEqual(self.runs(tool, "--port"), 0)
        with open(place / "share/kati/kati_tools/port/port_report.py", "a", encoding="ascii") as file:
            file.write("# another one\n")
        ran = self.run_in(tool, "--port", **self.environment)
        self.assertIn("kati-build: kati or these tools are others: make is asked again\n", ran.said)

    def test_values_of_a_port(self):
        self.settled("--port", makefile="V := $(shell cat doc/x)\n" + VERSION)
        self.assertEqual(self.runs("ninja"), 0)
        self.put("doc/x", "2\n")
        self.assertGreater(self.runs("ninja"), 0)


if __name__ == "__main__":
    unittest.main()
