"""kati-build where something is in its way: two runs at a time, a full disk, killed runs, odd names, its own faults."""
import os
import shutil
import signal
import subprocess

from support import LONG, TOOLS, TOP, Tree, kati, needs


def planted(room, name, old, new):
    """The path of a tool in the folder `room`, with a fault in its code."""
    place = room / "planted"
    shutil.rmtree(place, ignore_errors=True)
    shutil.copytree(TOP / "share/kati", place / "share/kati")
    shutil.copytree(TOOLS, place / "tools", ignore=shutil.ignore_patterns("tests"))
    changed = [path for path in (place / "share/kati/kati_tools").rglob("*.py") if old in path.read_text()]
    if len(changed) != 1:
        raise AssertionError(f"{old!r} stands in {len(changed)} modules")
    changed[0].write_text(changed[0].read_text().replace(old, new))
    return place / "tools" / name


@needs("kati", "ninja")
class Faults(Tree):
    """What is said, and what is left."""

    def one_line(self, ran, status):
        """A tool ended with this status, and without a traceback."""
        self.assertEqual(ran.status, status, ran.all)
        self.assertNotIn("Traceback", ran.all)
        return ran.said

    def left(self):
        """What a run left for itself."""
        return sorted(path.name for path in self.top.rglob("*.new"))

    def start(self, *words, **environment):
        return subprocess.Popen([TOOLS / "kati-build", *words], cwd=self.top, env={**os.environ, **environment},
                                stdin=subprocess.DEVNULL, stdout=subprocess.PIPE, stderr=subprocess.PIPE)

    def but_for_waiting(self, running):
        """What a run says; that it waits for another one hangs on how much else the machine does."""
        said = running.communicate(timeout=LONG)[1].decode()
        return said.replace("kati-build: waits for another run that has build.kati/lock\n", "")

    def test_many_runs_at_a_time(self):
        self.write(Makefile="-include a.mk\nout: ; echo '$(A)' > out\n")
        for _ in range(3):
            running = [self.start("--no-ninja") for _ in range(6)]
            for one in running:
                said = self.but_for_waiting(one)
                self.assertEqual((one.returncode, said), (0, ""))
            shutil.rmtree(self.top / "build.kati")
        self.assertEqual(self.left(), [])

    def test_many_runs_of_a_faulty_makefile(self):
        self.write(Makefile="endif\n")
        running = [self.start("--no-ninja") for _ in range(6)]
        for one in running:
            said = self.but_for_waiting(one)
            self.assertEqual(said.splitlines()[0], "Makefile:1: *** stray endif [E11]")
            self.assertEqual(one.returncode, 2)
        self.assertEqual([path.name for path in self.top.iterdir()], ["Makefile"])

    def test_a_folder_that_another_run_made_and_does_not_hold_yet(self):
        # Of several runs one makes the folder, and another may be the first to hold it; neither leaves it.
        self.write(Makefile="endif\n")
        (self.top / "build.kati").mkdir()
        self.one_line(self.tool("kati-build"), 2)
        self.assertEqual([path.name for path in self.top.iterdir()], ["Makefile"])

    def test_a_run_that_waits_says_so(self):
        self.write(Makefile="out: ; echo > out\n")
        # The first goes on when the second has said that it waits, however long either takes.
        first = self.start("--no-ninja", **self.around("touch ../begun; until test -e ../said; do sleep 0.1; done"))
        self.wait_for(lambda: (self.top.parent / "begun").exists())
        second = self.start("--no-ninja")
        said = second.stderr.readline()
        (self.top.parent / "said").touch()
        self.assertEqual(said, b"kati-build: waits for another run that has build.kati/lock\n")
        for one in (first, second):
            self.assertEqual((one.communicate(timeout=LONG)[1], one.returncode), (b"", 0))

    def test_a_killed_run(self):
        self.write(Makefile="out: ; echo > out\n")
        ran = self.tool("kati-build", **self.around("kill -9 $PPID"))
        self.assertEqual(ran.status, -signal.SIGKILL)
        self.one_line(self.tool("kati-build"), 0)
        self.assertEqual(self.left(), [])
        shutil.rmtree(self.top / "build.kati")
        (self.top / "build.ninja").unlink()
        ran = self.tool("kati-build", **self.around("kill -15 $PPID; sleep 1"))
        self.assertEqual((ran.status, ran.said), (130, "kati-build: interrupted\n"))
        self.assertEqual(sorted(path.name for path in self.top.iterdir()), ["Makefile", "out"])

    @needs("kati-asked")
    def test_a_run_that_is_killed_before_it_cuts_off_the_names(self):
        self.write(Makefile="out: Makefile ; echo > out\n")
        self.one_line(self.tool("kati-build"), 0)
        before = self.read("build.kati/translated.ninja")
        self.put("Makefile", "out: Makefile ; echo 2 > out\n")
        ran = self.tool("kati-build", **self.around('"$PROGRAM" "$@"; kill -9 $PPID; exit'))
        self.assertEqual(ran.status, -signal.SIGKILL)
        self.assertIn("echo 2 > out", self.read("build.kati/translated.ninja.new"))
        self.assertIn("\0", self.read("build.kati/translated.ninja.new"))
        self.assertEqual(self.read("build.kati/translated.ninja"), before)
        self.ninja()
        self.assertEqual((self.read("out"), self.left()), ("2\n", []))
        self.assertNotIn("\0", self.read("build.kati/translated.ninja"))

    def interrupted(self, *words, **environment):
        """A command's status and what it said, that minds interrupts as one does that a terminal began."""
        ran = subprocess.run(words, cwd=self.top, env={**os.environ, **environment}, stdin=subprocess.DEVNULL,
                             stdout=subprocess.PIPE, stderr=subprocess.STDOUT,
                             preexec_fn=lambda: signal.signal(signal.SIGINT, signal.SIG_DFL))
        return ran.returncode, ran.stdout.decode()

    def test_an_interrupt(self):
        self.write(Makefile="out: ; echo > out\n")
        told = self.interrupted(TOOLS / "kati-build", **self.around("kill -2 $PPID; sleep 1"))
        self.assertEqual(told, (130, "kati-build: interrupted\n"))
        self.assertEqual([path.name for path in self.top.iterdir()], ["Makefile"])

    def test_an_interrupt_of_ninja_is_ninja_s(self):
        self.write(Makefile="out: Makefile ; kill -2 $$PPID; sleep 1; echo > out\n")
        status, said = self.interrupted(TOOLS / "kati-build")
        self.assertIn("interrupted by user", said)
        self.assertNotIn("Traceback", said)
        self.assertEqual(status, self.interrupted("ninja")[0])

    def test_a_full_disk(self):
        self.write(Makefile="out: ; echo > out\n")
        (self.top / "build.kati").mkdir()
        # A tool that follows a link, as kati-build doesn't, meets a disk that is full.
        tool = planted(self.top.parent, "kati-build", "O_CLOEXEC | os.O_NOFOLLOW", "O_CLOEXEC")
        for name in ("files.txt.new", "translated.ninja.new", "build.ninja.new"):
            with self.subTest(name):
                (self.top / "build.kati" / name).symlink_to("/dev/full")
                said = self.one_line(self.run_in(tool, "--no-ninja", KATI=str(kati())), 3)
                self.assertEqual(said, f"kati-build: build.kati/{name}: No space left on device\n")
                self.assertEqual(self.left(), [])
        ran = self.run_in("sh", "-c", f"{TOOLS / 'kati-port'} Makefile > /dev/full")
        self.assertEqual(self.one_line(ran, 3), "kati-port: standard output: No space left on device\n")

    def test_a_limit_of_bytes(self):
        self.write(Makefile="out: " + " ".join(f"{number}.c" for number in range(999)) + "; echo > out\n")
        said = self.one_line(self.run_in("sh", "-c", f"ulimit -f 1; exec {TOOLS / 'kati-build'} --no-ninja"), 3)
        self.assertEqual(said, "kati-build: build.kati/translated.ninja.new: File too large\n")
        self.assertEqual([path.name for path in self.top.iterdir()], ["Makefile"])

    def test_a_folder_that_cannot_be_written(self):
        self.write(Makefile="out: ; echo > out\n")
        said = self.one_line(self.tool("kati-build", "-o", "/proc/kati/build.ninja"), 3)
        self.assertEqual(said, "kati-build: /proc/kati: No such file or directory\n")
        self.put("sub", "no folder")
        said = self.one_line(self.tool("kati-build", "-o", "sub/build.ninja"), 3)
        self.assertIn("sub", said)

    def test_a_folder_that_is_gone(self):
        gone = f"mkdir gone; cd gone; rmdir ../gone; exec {TOOLS}"
        for line, status in (("kati-build", 3), ("kati-compare", 2), ("kati-port Makefile", 3)):
            said = self.one_line(self.run_in("sh", "-c", f"{gone}/{line}"), status)
            self.assertTrue(said.startswith(line.split()[0]), said)

    def test_a_file_that_is_gone_meanwhile(self):
        self.write(Makefile="out: ; echo > out\n")
        ran = self.tool("kati-build", "--no-ninja", **self.around("rm -r build.kati"))
        self.assertIn("no file build.kati/files.txt.new", self.one_line(ran, 2))
        ran = self.tool("kati-build", "--no-ninja", **self.around("touch gone; rm build.kati/lock"))
        self.one_line(ran, 0)
        ran = self.tool("kati-build", "--no-ninja", **self.around("rm -f Makefile"))
        self.assertIn("no makefile", self.one_line(ran, 2))

    def test_names_that_are_not_utf_8(self):
        name = b"\xff\xfe of x.c"
        (self.top / os.fsdecode(name)).write_bytes(b"")
        folder = self.top / os.fsdecode(b"f\xff")
        folder.mkdir()
        (folder / "y.c").write_bytes(b"")
        (self.top / "Makefile").write_bytes(b"# $(shell \xff)\nA = \xff\nall: a.o ; echo $(A) > out\n"
                                            b"%.o: f\xff/%.c ; cp $< $@\na.o: f\xff/y.c ; cp $< $@\n")
        for tool, words in (("kati-build", ["--compile-commands"]), ("kati-compare", []), ("kati-port", ["Makefile"]),
                            ("kati-port", ["--macros", "Makefile"]), ("kati-compare", ["--build"])):
            with self.subTest((tool, words)):
                self.assertEqual(self.raw(tool, *words), (0, b""))
        self.assertEqual((self.top / "out").read_bytes(), b"\xff\n")
        self.assertIn(name, (self.top / "build.kati/files.txt").read_bytes())
        word = os.fsdecode(b"B=\xfe")
        for tool, words, status in (("kati-build", [word], 64), ("kati-compare", [word], 64),
                                    ("kati-port", ["Makefile", word], 1), ("kati-port", [word], 1)):
            with self.subTest((tool, words)):
                ended, said = self.raw(tool, *words)
                self.assertEqual(ended, status)
                self.assertNotIn(b"Traceback", said)

    def raw(self, tool, *words):
        """A tool's status and the bytes that it says."""
        ran = subprocess.run([TOOLS / tool, *words], cwd=self.top, stdin=subprocess.DEVNULL, stdout=subprocess.PIPE,
                             stderr=subprocess.PIPE)
        return ran.returncode, ran.stderr

    def test_a_folder_with_a_newline(self):
        self.put("new\nline/x.c", "")
        self.write(Makefile="out: ; echo > out\n")
        self.one_line(self.tool("kati-build"), 0)
        self.assertEqual(self.read("build.kati/files.txt"), "Makefile\n")

    def test_links_that_lead_round_or_nowhere(self):
        self.write(Makefile="out: a.o ; cat a.o > out\n%.o: %.c ../odd/h.h ; cat $< > $@\n", a_c="text\n")
        odd = self.top.parent / "odd"
        odd.mkdir()
        (odd / "h.h").write_text("")
        for folder in (self.top, odd):
            (folder / "round").symlink_to("round")
            (folder / "nowhere").symlink_to("no/such/file")
            (folder / "above").symlink_to("..")
        for tool, words in (("kati-build", []), ("kati-compare", ["--build"]), ("kati-port", ["Makefile"]),
                            ("kati-port", ["--macros", "Makefile"])):
            with self.subTest((tool, words)):
                self.one_line(self.tool(tool, *words), 0)
        self.assertEqual(self.read("out"), "text\n")

    def test_nesting_without_end(self):
        self.write(Makefile="all: ; echo " + "$(a" * 20000 + ")" * 20000 + "\n")
        self.assertIn("[E08]", self.one_line(self.tool("kati-build", "--no-ninja"), 2))
        self.assertIn("[E08]", self.tool("kati-port", "Makefile").out)

    def test_a_closed_output(self):
        self.write(Makefile="all: ; echo $(shell ls)\n" * 999)
        for line in ("kati-port Makefile", "kati-port --help", "kati-compare --help"):
            ran = self.run_in("bash", "-c", f"{TOOLS}/{line} | true; echo ${{PIPESTATUS[0]}}")
            self.assertNotIn("Traceback", ran.said)
            self.assertNotIn("Exception", ran.said)

    def test_whatever_is_left_is_a_line_and_a_status(self):
        self.write(Makefile="all: ; echo\n")
        begin = "def run_port(asked):\n"
        tool = planted(self.top.parent, "kati-port", begin, begin + "    asked = 1 / 0\n")
        said = self.one_line(self.run_in(tool, "Makefile"), 70)
        self.assertRegex(said, r"^kati-port: a fault of this tool, at kati_port.py:\d+: ZeroDivisionError: .*\n$")


@needs("kati", "ninja", "cc")
class Asking(Tree):
    """kati --check is asked of what kati-build adds."""

    MAKEFILE = "all: a.o b\na.o: a.c\n\tcc -MMD -c -o $@ $<\nb: force\n\ttouch b\nforce:\n"

    def test_a_planted_fault_is_caught_and_the_build_of_before_kept(self):
        self.write(Makefile=self.MAKEFILE, a_c="")
        self.assertEqual(self.tool("kati-build", "--deps", "--no-ninja", "all", "X=1").status, 0)
        before = [self.read(name) for name in ("build.ninja", "build.kati/translated.ninja", "build.kati/files.txt")]
        self.put("b", "")
        self.put("new.c", "")
        for old, new in (('LINE = " restat = 1"', 'LINE = "build more: phony b\\n restat = 1"'),
                         ('f" depfile = {', 'f" depfile = x\\ndefault b\\n depfile = {'),
                         ('found[number + 1:number + 1] = added[number]', 'found[number:number + 1] = added[number]'),
                         ('[" deps = gcc"]', '[" deps = gcc", "build a.x: phony a.c"]'),
                         ('[" deps = gcc"]', '[" command = true"]')):
            with self.subTest(new):
                tool = planted(self.top.parent, "kati-build", old, new)
                ran = self.run_in(tool, "--deps", "--no-ninja", "all", "X=1", KATI=str(kati()))
                self.assertEqual(ran.status, 70, ran.all)
                self.assertIn("what it added to kati's text would change the build, as kati --check says", ran.said)
                self.assertTrue(ran.said.endswith("; build.ninja stays as it is\n"), ran.said)
                names = ("build.ninja", "build.kati/translated.ninja", "build.kati/files.txt")
                self.assertEqual([self.read(name) for name in names], before)
                self.assertEqual(sorted(path.name for path in self.top.rglob("*.new")), [])

    def asked(self, *words):
        """How often kati is run, and how often of them with --check."""
        log = self.top.parent / "log"
        log.write_text("")
        ran = self.tool("kati-build", "--no-ninja", *words, **self.around(f"echo \"$*\" >> {log}"))
        self.assertEqual(ran.status, 0, ran.all)
        lines = log.read_text().splitlines()
        return len(lines), len([line for line in lines if "--check" in line])

    def test_what_is_asked_when(self):
        self.write(Makefile="all: a.o\na.o: a.c\n\tcc -MMD -c -o $@ $<\n", a_c="")
        self.assertEqual(self.asked(), (1, 0))
        self.assertEqual(self.asked("--deps"), (2, 1))
        self.assertEqual(self.asked("--deps"), (1, 0))
        self.assertEqual(self.asked("--builtin"), (2, 1))
        self.assertEqual(self.asked("--builtin"), (1, 0))

    def test_the_same_words_and_list_are_asked(self):
        self.write(other_mk="include inc.mk\n$(A): b.o\n%.o: %.c ; cc -MMD -c -o $@ $<\n", inc_mk="A ?= no\n", b_c="")
        words = ["-f", "other.mk", "--depth", "7", "--deps", "--builtin", "A=all", "all"]
        ran = self.tool("kati-build", *words)
        self.assertEqual((ran.status, ran.said), (0, ""), ran.all)
        self.assertIn(" depfile = b.d\n deps = gcc\n", self.read("build.kati/translated.ninja"))
