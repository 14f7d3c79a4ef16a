"""Files outside the folder: kati's list has those of the folders that makefiles name."""
import shutil
import time
import unittest

from support import TOOLS, Ran, Tree, needs

from kati_tools.makefile import paths_outside, quick_looks

RULE = "a.o:\n%.o: %.c {}\n\tcc -c -o $@ $<\n"

# How a makefile names the folder ../inc, in which h.h stands; {top} is the absolute path of the folder above.
NAMED = [
    RULE.format("../inc/h.h"),
    RULE.format("./../inc/h.h"),
    RULE.format("{top}/inc/h.h"),
    "TOP = ..\n" + RULE.format("$(TOP)/inc/h.h"),
    "INC = $(TOP)/inc\nTOP = ..\n" + RULE.format("${INC}/h.h"),
    "HEADERS := ../inc/g.h \\\n\t../inc/h.h\n" + RULE.format("$(HEADERS)"),
    RULE.format("$(addprefix ../inc/,h.h)"),
    "DIRS = ../inc ../none\n" + RULE.format("$(firstword $(foreach d,$(DIRS),$(d)/h.h))"),
    "ifdef X\nTOP = ../none\nelse\nTOP = ..\nendif\n" + RULE.format("$(TOP)/inc/h.h"),
    "include ../rules.mk\n",
    "TOP = ..\ninclude $(TOP)/rules.mk\n",
    "define R\n%.o: %.c ../inc/h.h\n\tcc -c -o $$@ $$<\nendef\na.o:\n$(eval $(R))\n",
    "a.o: ../src/b.o\n\techo $^\n../src/%.o: ../src/%.c\n\tcc -c -o $@ $<\n",
    ".SUFFIXES: .c .o\na.o: ../src/b.o\n\techo $^\n.c.o:\n\tcc -c -o $@ $<\n",
    "a.o:\n%.o: ../src/%.c\n\tcc -c -o $@ $<\n",
]
# Nothing of this is asked for by a rule.
UNNAMED = "CC = /usr/bin/cc\nPREFIX = /usr\nall: a.o\n%.o: %.c\n\tcc -c -o $@ $< -I ../inc > /dev/null\n" \
    "install: a.o ; cp a.o $(PREFIX)\n"


@needs("kati", "ninja", "make")
class Outside(Tree):
    """A makefile in prog/, beside inc/ and src/."""

    def setUp(self):
        super().setUp()
        for name in ("inc/g.h", "inc/h.h", "src/a.c", "src/b.c", "prog/a.c"):
            self.put(name, "")
        self.put("rules.mk", RULE.format("../inc/h.h"))

    def lay(self, makefile):
        self.put("prog/Makefile", makefile.replace("{top}", str(self.top)))

    def run_there(self, name, *words):
        return Ran([TOOLS / name if name.startswith("kati") else name, *words], self.top / "prog")

    def test_the_commands_are_make_s(self):
        for makefile in NAMED:
            with self.subTest(makefile):
                self.lay(makefile)
                by_make = self.run_there("make", "-n", "-B", "-r", "-R").out.splitlines()
                self.assertIn("cc -c -o ", by_make[0])
                for more in ([], ["TOP=.."]):
                    ran = self.run_there("kati-compare", *more)
                    self.assertEqual(ran.status, 0, ran.all)
                    self.assertIn(f"same: {len(by_make)} command", ran.out)

    def test_a_name_of_the_command_line(self):
        self.lay("TOP = ../none\n" + RULE.format("$(TOP)/inc/h.h"))
        self.assertEqual(self.run_there("make", "-n", "-r", "TOP=..").out, "cc -c -o a.o a.c\n")
        self.assertIn("same: 1 command;", self.run_there("kati-compare", "TOP=..").out)

    @needs("git")
    def test_the_list_of_git(self):
        self.lay(NAMED[0])
        self.assertEqual(self.run_in("git", "init", "-q").status, 0)
        self.assertEqual(self.run_there("kati-compare", "--files-from", "git").out, "same: 1 command\n")

    def test_only_what_rules_name_is_listed(self):
        self.lay(UNNAMED)
        self.assertEqual(self.run_there("kati-build", "--no-ninja").status, 0)
        self.assertEqual(sorted(self.read("prog/build.kati/files.txt").splitlines(True)), ["Makefile\n", "a.c\n"])

    def test_what_comes_and_goes_there_is_seen(self):
        self.lay("a.o:\n%.o: ../new/%.c\n\tcp ../new/a.c $@\n%.o: %.c ../inc/h.h\n\techo old > $@\n")
        self.assertEqual(self.run_there("kati-build").status, 0)
        self.assertEqual(self.read("prog/a.o"), "old\n")
        self.assertEqual(self.run_there("ninja").status, 0)
        self.assertEqual(self.run_there("ninja").out, "ninja: no work to do.\n")
        self.put("new/a.c", "new\n")
        self.assertEqual(self.run_there("ninja").status, 0)
        self.assertEqual(self.read("prog/a.o"), "new\n")
        (self.top / "new/a.c").unlink()
        self.assertEqual(self.run_there("ninja").status, 0)
        self.assertEqual(self.read("prog/a.o"), "old\n")

    def test_an_absent_folder_of_the_highest_one_is_no_reason_to_translate(self):
        self.lay("a.o:\n%.o: %.c /absent-for-kati/h.h\n\tcc -c -o $@ $<\n%.o: %.c\n\tcp $< $@\n")
        self.assertEqual(self.run_there("kati-build").status, 0)
        self.assertEqual(self.run_there("ninja").status, 0)
        self.assertEqual(self.run_there("ninja").out, "ninja: no work to do.\n")

    def test_what_the_build_makes_there_is_no_source(self):
        self.lay("all: ../out/b.o\n../out/%.o: ../src/%.c\n\tmkdir -p ../out; cp $< $@\n%.x: ../out/%.o ; cp $< $@\n")
        self.assertEqual(self.run_there("kati-build").status, 0)
        self.assertEqual(self.run_there("ninja").status, 0)
        self.assertEqual(sorted(self.read("prog/build.kati/files.txt").split()),
                         ["../src/a.c", "../src/b.c", "Makefile", "a.c"])

    def listed(self, name="build", *words):
        """The names of a list, after a run."""
        self.assertEqual(self.run_there("kati-build", "--no-ninja", "-o", f"{name}.ninja", *words).status, 0)
        return sorted(self.read(f"prog/{name}.kati/files.txt").split())

    def test_what_was_found_before_counts_only_where_all_is_as_it_was(self):
        for name in ("only/h.h", "more/b.c", "late/b.c"):
            self.put(name, "")
        # Of the first value kati asks for no include.
        makefile = "TOP = ..\nTOP = ../none\n-include $(TOP)/more.mk\n" \
            + RULE.format("../inc/deep $(TOP)/h.h ../src/b.c")
        edits = [lambda: self.lay(makefile), lambda: self.lay(makefile.replace("src/b.c", "late/b.c")),
                 lambda: self.put("inc/deep/deep.h", ""), lambda: self.put("inc/other/other.h", ""),
                 lambda: self.put("more.mk", "b.o: ../more/b.c\n"), lambda: self.put("more.mk", "b.o: ../src/b.c\n"),
                 lambda: shutil.rmtree(self.top / "inc/deep"), lambda: self.put("inc/deep", "")]
        for number, edit in enumerate(edits):
            edit()
            for name, words in (("one", []), ("two", ["TOP=../only"]), ("two", ["TOP=.."])):
                with self.subTest(number, words=words):
                    again = self.listed(name, *words)
                    shutil.rmtree(self.top / f"prog/{name}.kati")
                    self.assertEqual(again, self.listed(name, *words))

    def test_what_make_writes_above_with_a_makefile(self):
        self.put("sub/full.mk", "all: ; echo $(shell cat ../made) > out\n")
        self.put("sub/Makefile", "all: out\nMakefile: FORCE ; cd .. && cp sub/full.mk sub/Makefile && echo 1 > made\n"
                                 "FORCE:\n")
        before = self.read("sub/Makefile")
        for option in ("--write", "--diff"):
            ran = self.run_in("env", "-C", "sub", self.tool_path("kati-port"), option, "Makefile")
            self.assertIn("make writes Makefile anew before anything, and ../made with it; run make first", ran.said)
            self.assertEqual((ran.status, self.read("sub/Makefile")), (1, before))
        self.assertEqual(self.run_in("make", "-C", "sub").status, 0)
        self.assertEqual(self.read("sub/out"), "1\n")

    def test_it_is_not_looked_for_again(self):
        self.lay(RULE.format("../inc/h.h"))
        inc, src = ["../inc/g.h", "../inc/h.h"], ["../src/a.c", "../src/b.c"]
        self.assertEqual(self.listed(), [*inc, "Makefile", "a.c"])
        record = self.top / "prog/build.kati/outside.txt"
        kept = record.read_text()
        head, _, found = kept.rpartition("\n")
        self.assertEqual(found, "../inc")
        record.write_text(f"{head}\n../src")
        self.assertEqual(self.listed(), [*src, "Makefile", "a.c"])
        for damaged in ("", f"{head}\n../src\n", kept[1:], "\n\n\n../src"):
            record.write_text(damaged)
            self.assertEqual(self.listed(), [*inc, "Makefile", "a.c"])
            self.assertEqual(record.read_text(), kept)


class Texts(unittest.TestCase):
    """Makefiles as texts, which may be large."""

    def test_lines_that_go_on(self):
        for text, wanted in (("a\\\n  b", "a b"), ("a\\\\\nb", "a\\\\\nb"), ("a\\\\\\\r\n\tb\n", "a\\\\ b\n"),
                             ("a\\", "a\\")):
            self.assertEqual(quick_looks.without_continuations(text), wanted)

    def found(self, names):
        """The folders outside that a rule with these names means."""
        text = paths_outside.Text(())
        text.add(f"all: {' '.join(names)}\n".encode())
        return paths_outside.folders(text.with_paths(), lambda folder: ([], []))

    def test_paths_that_go_up_again(self):
        for name, wanted in (("../a/../../b", "../a/../.."), ("../a/..", "../a/.."), ("../a/../b/../c", "../a/../b/.."),
                             ("../a/../", "../a/.."), ("../a/..b", "../a")):
            self.assertEqual(self.found([name]), [wanted])
        self.assertEqual(self.found(["../b.h", "../a/../b.h", "../a/c.h"]), ["..", "../a", "../a/.."])

    def test_the_time_grows_with_the_folders(self):
        def takes(count):
            names, begin = [f"../d{one}/a.h" for one in range(count)], time.process_time()
            self.assertEqual(len(self.found(names)), count)
            return time.process_time() - begin

        # By the square it would be 256 times as much, in any round; the least of several isn't far above 16 times.
        few, many = [], []
        while len(many) < 3 or min(many) >= 64 * min(few) and len(many) < 10:
            few.append(takes(1_000))
            many.append(takes(16_000))
        self.assertLess(min(many), 64 * min(few))
