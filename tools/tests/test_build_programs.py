"""scripts/build_programs.py and the words of the root's Makefile, with a program that stands for the toolchain."""
import os
import re
import shutil
import sys

from support import TOP, Tree, kati, needs

SCRIPTS = ("build_programs.py", "crate_costs.py", "crate_costs.txt")
PROGRAMS = ("kati_program", "kati_asked")
# It notes where it runs and with which words, and builds what `rt run` builds.
TOOLCHAIN = """
name=$(basename "$PWD"); echo "$name: $*" >> ../../log
test "$name" != "$FAILS" || exit 1
if test "$1" = run; then mkdir -p out; echo > out/$name; chmod +x out/$name; echo help; fi
"""


class Building(Tree):
    """A repository with the crates' names alone."""

    def setUp(self):
        super().setUp()
        (self.top / "scripts").mkdir()
        for name in SCRIPTS:
            shutil.copy2(TOP / "scripts" / name, self.top / "scripts")
        for name in ("crates.txt", "Makefile"):
            shutil.copy2(TOP / name, self.top)
        for name in self.crates():
            (self.top / "crates" / name).mkdir(parents=True)
        (self.top.parent / "bin").mkdir()
        self.program("bin/rt", TOOLCHAIN)

    def crates(self):
        """The names of crates.txt."""
        return re.findall(r"^(\w+):", (TOP / "crates.txt").read_text(), re.MULTILINE)

    def run_with(self, *words, **environment):
        """What a command does that finds the toolchain's stand-in."""
        path = f"{self.top.parent / 'bin'}:{os.environ['PATH']}"
        return self.run_in(*words, PATH=path, **environment)

    def build(self, *words, **environment):
        return self.run_with(sys.executable, "-B", "scripts/build_programs.py", *words, **environment)

    def test_each_crate_behind_what_it_stands_on(self):
        ran = self.build()
        self.assertEqual((ran.status, ran.said), (0, ""), ran.all)
        log = self.read("log").splitlines()
        rows = dict(re.findall(r"^(\w+):(.*)$", (TOP / "crates.txt").read_text(), re.MULTILINE))
        done = []
        for line in log:
            name, _, words = line.partition(": ")
            below = [one for one in rows[name].split() if one in rows]
            self.assertLessEqual(set(below), set(done))
            self.assertEqual(words, "run -- --help" if name in PROGRAMS else "check")
            done.append(name)
        self.assertEqual(tuple(done[-2:]), PROGRAMS)
        self.assertEqual([line.split(":")[0] for line in ran.out.splitlines()],
                         [f"[{number}/{len(done)}] {name}" for number, name in enumerate(done, 1)])
        self.assertNotIn("kt_text_tests", done)
        self.assertNotIn("kt_text_laws", done)

    def test_how_long_the_rest_takes(self):
        # At half the speed of the machine of the marks: 60 and 240 seconds there, and nothing known of the others.
        self.put("scripts/crate_costs.txt", "speed 120 60\nkt_list 120 0 0 0\nkt_text 480 0 0 0\n")
        lines = self.build().out.splitlines()
        known, rest = "on the machine of docs/DEVELOPING.md", "if nothing is kept"
        self.assertEqual(lines[0], f"[1/{len(lines)}] kt_list: the rest takes 5 min {known}, {rest}")
        # The stand-in takes no time, so that it tells nothing of this machine.
        self.assertEqual(lines[1], f"[2/{len(lines)}] kt_text: the rest takes 4 min {known}, {rest}")

    def test_a_crate_that_fails(self):
        ran = self.build(FAILS="kt_rules")
        self.assertEqual((ran.status, ran.said), (1, "kt_rules failed\n"))
        self.assertEqual(self.read("log").splitlines()[-1], "kt_rules: check")

    def test_a_program_that_is_not_there_afterwards(self):
        self.program("bin/rt", "exit 0")
        ran = self.build()
        self.assertEqual((ran.status, ran.said), (1, "no crates/kati_program/out/kati_program was built\n"))

    def test_without_the_toolchain(self):
        for name in ("sh", "env"):
            (self.top.parent / "bin" / f"only-{name}").mkdir()
        ran = self.run_in(sys.executable, "-B", "scripts/build_programs.py", PATH=str(self.top.parent / "bin/only-sh"))
        self.assertEqual((ran.status, ran.said), (3, "no program rt: the toolchain is not on PATH\n"))
        self.assertEqual(self.build("--no-such-word").status, 64)
        self.assertEqual(self.build("--list").out.split()[-2:], list(PROGRAMS))


@needs("make")
class Words(Building):
    """The words of the Makefile, which README names."""

    def make(self, *words, **environment):
        return self.run_with("make", *words, **environment)

    def test_what_each_would_do(self):
        files = " ".join(f"--data {name}=../../example/{name}" for name in ("Makefile", "config.mk", "files.txt"))
        for words, told in (([], "python3 scripts/build_programs.py\n"), (["check"], ".ci/run\n"),
                            (["try"], f"cd crates/kati_program && rt try {files} -- --files files.txt\n")):
            with self.subTest(words):
                ran = self.make("-n", *words)
                self.assertEqual((ran.status, ran.all), (0, told))
                self.assertIn(f"$ make {' '.join(words)}".rstrip() + "\n", (TOP / "README.md").read_text())

    def test_make_builds_both(self):
        self.assertEqual(self.make().status, 0)
        self.assertTrue(all((self.top / "crates" / name / "out" / name).is_file() for name in PROGRAMS))

    def test_try_proves_nothing(self):
        self.assertEqual(self.make("try").status, 0)
        self.assertRegex(self.read("log"), r"^kati_program: try --data [^\n]*\n$")

    def test_install_and_deb_start_no_toolchain(self):
        for goal in ("install", "deb"):
            with self.subTest(goal):
                ran = self.make(goal, f"DESTDIR={self.top}/root")
                self.assertEqual(ran.status, 2)
                self.assertIn("no crates/kati_program/out/kati_program: run make first\n", ran.said)
                # One that is named counts in its place.
                ran = self.make(goal, f"DESTDIR={self.top}/root", "PROGRAM=/bin/sh")
                self.assertIn("no crates/kati_asked/out/kati_asked: run make first\n", ran.said)
                self.assertEqual(sorted(path.name for path in self.top.iterdir()), ["Makefile", "crates", "crates.txt",
                                                                                     "scripts"])
                self.assertNotRegex(self.make("-n", goal, "PROGRAM=/bin/sh", "ASKED=/bin/sh").out, r"\brt\b")

    @needs("kati")
    def test_kati_takes_the_file(self):
        for goal in ("all", "try", "check", "install", "uninstall", "deb"):
            ran = self.run_in(kati(), goal)
            self.assertEqual((ran.status, ran.said), (0, ""))
            self.assertIn(f"build {goal}: ", ran.out)
