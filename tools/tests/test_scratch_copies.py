"""The copies in which make is asked: values are those of this folder, and of what stands above it."""
import os
import shutil
import unittest

from support import Tree, needs

from kati_tools.base import programs
from kati_tools.makefile import above
from kati_tools.build import begun, scratch_builds


class Levels(unittest.TestCase):
    """How far up a copy begins in which a build is tried."""

    LEVELS = {
        "all: ; cat ../a ../../b": 2, "TOP = ..\nall: ; cat $(TOP)/../a": 2, "all: ; $(MAKE) -C lib": 0,
        "all: ; $(MAKE) -C man/man1 ../../po/$@": 0, "all: ; $(MAKE) -C man $(subst man/,../../,$@)": 1,
        "all: ; mkdir -p build && cd build && cmake ..": 0, "all: ; (cd lib && ./configure) && cp ../a .": 1,
        "all: ; cd lib && (cat ../a; cat ../../b)": 1, "all: ; cd $(D) && cat ../a": 1,
        "all: ; cd ../lib && cat ../a": 1,
    }

    def test_levels(self):
        for text, wanted in self.LEVELS.items():
            self.assertEqual(above.levels([text], bool), wanted, text)

    def test_levels_for_what_is_not_there(self):
        for text, wanted in {"all: ; @echo try ../no/": 0, "all: ; cat $(A)/../no": 0, "all: ; cat ../no$(B)": 1,
                             "all: ; cat ../*.c": 1, "all: ; cd .. && ls": 1, "all: ; cat ../../no": 2,
                             "all: ; cat ../no ../yes.c": 1}.items():
            self.assertEqual(above.levels([text], lambda name: name == "yes.c"), wanted, text)

    def test_what_a_build_that_failed_said(self):
        said = ["make: *** [Makefile:1: a] Error 1", *(f"note {number}" for number in range(99))]
        self.assertEqual(scratch_builds.end_of("\n".join(said)).split("\n")[:2], [said[0], "note 79"])
        self.assertEqual(scratch_builds.end_of("one\ntwo\n"), "one\ntwo")


@needs("kati", "kati-asked", "make", "ninja")
class Copies(Tree):
    """What a copy has, and what is asked where it is."""

    def test_values_far_above(self):
        self.put("a/b/Makefile", "TOP = ../..\nS := $(wildcard $(TOP)/../x/*.c)\nall: ; echo $(S) > out\n")
        self.put("../x/1.c", "")
        build = self.tool_path("kati-build")
        ran = self.run_in("sh", "-c", f"cd a/b && {build} --port && cat out && make -s && cat out")
        self.assertEqual(ran.out.splitlines()[-2:], ["../../../x/1.c"] * 2, ran.all)

    def test_the_folder_of_temporary_files_may_be_this_one_or_above(self):
        self.put("Makefile", "V := $(wildcard k* ../k*)\nall: ; echo $(V) > all\n")
        for folder in (self.top, self.top.parent):
            ran = self.tool("kati-build", "--port", TMPDIR=folder)
            self.assertEqual((ran.status, self.read("all")), (0, "\n"), ran.all)
            shutil.rmtree(self.top / "build.kati")

    def test_folders_that_links_lead_to_keep_their_modes(self):
        self.put_all({"Makefile": "V := $(shell cat lib/a)\nall: ; echo $(V) > all\n", "../linked/a": "1\n"})
        linked = self.top.parent / "linked"
        linked.chmod(0o755)
        (self.top / "lib").symlink_to(linked)
        for copies in ({"KATI_COPIES": "1"}, {}):
            self.assertEqual(self.tool("kati-build", "--port", **copies).status, 0)
            self.assertEqual((linked.stat().st_mode & 0o777, self.read("all")), (0o755, "1\n"))
            shutil.rmtree(self.top / "build.kati")

    def test_a_file_that_cant_be_copied_is_told(self):
        self.put("Makefile", "N := $(shell wc -c < n.txt)\nall: ; echo $(N)\n")
        self.put("n.txt", "n" * 200_000)
        ran = self.run_in("sh", "-c", f"ulimit -f 100; KATI_COPIES=1 {self.tool_path('kati-build')} --port")
        self.assertEqual(ran.status, 3, ran.all)
        self.assertIn("n.txt: File too large", ran.said)

    @needs("git")
    def test_version_control_above_this_folder(self):
        self.put("sub/Makefile", "S := $(shell git ls-files) $(shell git ls-files ..)\n"
                                 "T := $(shell git rev-parse --show-prefix) $(shell git status --porcelain)\n"
                                 "U := $(shell command -v git) $(GIT_DIR)\nall: ; echo $(S) $(T) $(U) > ../../out\n")
        self.put("sub/a.c", "")
        who = ["-c", "user.name=a", "-c", "user.email=a@b"]
        for words in (["init", "-q"], ["add", "."], [*who, "commit", "-q", "-m", "one"]):
            self.assertEqual(self.run_in("git", *words).status, 0)
        self.assertEqual(self.run_in("make", "-C", "sub").status, 0)
        wanted = self.read("../out")
        for _ in range(2):
            ran = self.run_in("sh", "-c", f"cd sub && {self.tool_path('kati-build')} --port --values")
            self.assertEqual((ran.status, self.read("../out")), (0, wanted), ran.all)


@needs("kati", "kati-asked", "make", "ninja")
class OwnFiles(Tree):
    """What kati-build writes isn't there for make: the values are those that make has where kati-build never ran."""

    FOLDERS = "S := $(wildcard */) $(wildcard ../tree/b*) $(wildcard */lock src/*/) $(wildcard build.ninja other.*)\n"
    LOOP = "T := $(foreach p,b* o*/ src/*/,$(wildcard $(p)))\nall: ; echo $(S) $(T) > ../out\n"

    def setUp(self):
        super().setUp()
        for name in ("src/a/x", "b.c", "build.c", "mine.kati/x", "mine.ninja"):
            self.put(name, "")

    def wanted(self, makefile):
        """Writes a makefile, and keeps what make makes by it."""
        self.put("Makefile", makefile)
        self.assertEqual(self.run_in("make").status, 0)
        self.makes = self.read("../out")

    def builds(self, *words):
        """Builds anew, and sees that it is what make made."""
        (self.top.parent / "out").unlink()
        ran = self.run_in(*words)
        self.assertEqual(ran.status, 0, ran.all)
        self.assertEqual(self.read("../out"), self.makes)

    def test_by_a_port(self):
        self.wanted("A := $(wildcard *)\n" + self.FOLDERS + self.LOOP.replace("(S)", "(S) $(A)"))
        for words in ((), (), ("-o", "other.ninja"), ("-o", "other.ninja"), ("--values",), ()):
            with self.subTest(words):
                self.builds(self.tool_path("kati-build"), "--port", *words)
        self.builds("ninja")
        self.builds("ninja", "-f", "other.ninja")

    def test_what_a_run_writes_is_no_change_of_what_it_reads(self):
        self.wanted(self.FOLDERS + self.LOOP)
        self.builds(self.tool_path("kati-build"), "--port")
        with programs.inside(self.top):
            inputs = begun.Inputs("build.kati")
            inputs.begin([])
            for name in ("build.ninja", "b.c"):
                os.utime(name)
            self.assertEqual(inputs.changed(["build.ninja", "b.c"]), ["b.c"])

    def test_by_a_written_makefile(self):
        self.wanted(self.FOLDERS + self.LOOP)
        self.assertEqual(self.tool("kati-build", "--port", "-o", "other.ninja").status, 0)
        ran = self.tool("kati-port", "--write", "Makefile")
        self.assertIn("kati's commands are make's", ran.out, ran.all)
        for words in ((), (), ("-o", "third.ninja"), ("--values",), ()):
            with self.subTest(words):
                self.builds(self.tool_path("kati-build"), "--builtin", *words)
        self.builds("ninja")

    def test_in_folders_that_commands_and_patterns_name(self):
        self.put("../lib/Makefile", "all: ; true\n")
        self.put("../lib/sub/x", "")
        self.put("x.c", "")
        self.wanted("S := $(shell find ../lib -type f) $(wildcard ../lib/*/)\nall: x.c ; echo $(S) > ../out\n")
        build = self.tool_path("kati-build")
        self.assertEqual(self.run_in("sh", "-c", f"cd ../lib && {build}").status, 0)
        self.builds(build, "--port")
        record = self.top / "build.kati/ported.json"
        before = record.stat().st_mtime_ns
        self.builds(build, "--port")
        self.assertEqual(record.stat().st_mtime_ns, before)
