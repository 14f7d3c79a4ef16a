"""What kati-build adds to kati's text: where a file counts only if it changed, and header dependencies."""
import shutil
import sys

from support import TOP, Tree, kati, needs

sys.path.insert(0, str(TOP / "scripts"))
import large_makefiles  # noqa: E402


class Built(Tree):
    """A tree that is built until nothing is left to do but what is made each time."""

    def build(self, *words):
        ran = self.tool("kati-build", *words)
        self.assertEqual(ran.status, 0, ran.all)
        self.ninja()
        self.check()

    def check(self):
        """kati says that the file that ninja reads is what the makefile says."""
        self.assertEqual(self.run_in(kati(), "--files", "build.kati/files.txt", "--check",
                                     "build.kati/translated.ninja").status, 0)

    def made_by(self, tool):
        """The files that the tool makes anew, where nothing has changed."""
        return self.made_anew(lambda: self.assertEqual(self.run_in(tool).status, 0))


@needs("kati", "ninja", "make")
class AlwaysRun(Built):
    """Targets that hang on one that ninja makes each time."""

    # A recipe that leaves its file as it is, a file made from that, and one that changes each time.
    CASES = [
        "prog: lib.a ; cp lib.a prog\nlib.a: force ; test -f lib.a || echo > lib.a\nforce:\n",
        "prog: lib.a ; cp lib.a prog\nlib.a: alias\n\ttest -f lib.a || echo > lib.a\nalias: force\nforce:\n",
        "prog: date.h ; cp date.h prog\ndate.h: date.raw ; cmp -s date.raw $@ || cp date.raw $@\n"
        "date.raw: force ; echo same > date.raw\nforce:\n",
        "prog: lib.a ; cp lib.a prog\nlib.a: phony ; test -f lib.a || echo > lib.a\n.PHONY: phony\nphony: ; @true\n",
        "prog: gen ; echo > prog\ngen: force ; @true\nforce:\n",
        "prog: lib.a ; cp lib.a prog\nlib.a: x | force ; echo > lib.a\nforce:\nx: ; echo > x\n",
        "prog: a$$b ; cp 'a$$b' prog\na$$b: force ; test -f 'a$$b' || echo > 'a$$b'\nforce:\n",
        "prog: lib.a ; cp lib.a prog\n.PHONY: lib.a\nlib.a: ; test -f lib.a || echo > lib.a\n",
        "prog: a b ; cat a b > prog\na b &: force ; test -f a || touch a b\nforce:\n",
    ]

    def test_what_is_made_anew_is_what_make_makes(self):
        for makefile in self.CASES:
            with self.subTest(makefile):
                self.put("Makefile", makefile)
                self.build()
                by_ninja = self.made_by("ninja")
                self.assertEqual(self.made_by("ninja"), by_ninja)
                self.assertEqual(self.run_in("make").status, 0)
                self.assertEqual(by_ninja, self.made_by("make"))
                for path in [*self.top.glob("*"), *self.top.glob("build.kati/*"), *self.top.glob(".ninja*")]:
                    if path.is_file():
                        path.unlink()

    def test_a_change_goes_on(self):
        self.write(Makefile="prog: lib.a ; cp lib.a prog\nlib.a: force ; cmp -s x lib.a || cp x lib.a\nforce:\n", x="1")
        self.build()
        self.assertEqual(self.made_by("ninja"), [])
        self.put("x", "2")
        self.assertEqual(self.made_by("ninja"), ["lib.a", "prog"])
        self.assertEqual(self.read("prog"), "2")

    def test_where_nothing_runs_each_time_nothing_is_added(self):
        self.write(Makefile="prog: lib.a ; cp lib.a prog\nlib.a: x ; echo > lib.a\nx: ; echo > x\n")
        self.build()
        self.assertNotIn("restat", self.read("build.kati/translated.ninja"))


@needs("kati", "ninja", "cc", "make")
class NamedFiles(Built):
    """Files of header dependencies that the makefile names."""

    CASES = [
        ("main.d", "main: main.o ; cc -o $@ $^\n%.o: %.c %.d ; cc -MMD -c -o $@ $<\nmain.d: ;\n"),
        ("a.d", "main: main.o a.d ; cc -o $@ main.o\nmain.o: main.c\n\tcc -MMD -MF a.d -MT $@ -c -o $@ $<\n"
                "a.d: main.o ;\n"),
        ("main.d", "main: main.o ; cc -o $@ $^\nmain.o: main.c ./main.d\n\tcc -MMD -c -o $@ $< && touch $@\n"
                   "./main.d: ;\n"),
    ]

    def test_nothing_is_left_to_do_and_headers_are_seen(self):
        for name, makefile in self.CASES:
            with self.subTest(makefile):
                self.write(Makefile=makefile, main_c='#include "h.h"\nint main(void) { return A; }\n',
                           h_h="#define A 0\n")
                self.build("--deps")
                self.assertEqual(self.ninja(), "ninja: no work to do.\n")
                self.assertTrue((self.top / name).exists())
                self.put("h.h", "#define A 7\n")
                self.ninja()
                self.assertEqual(self.run_in("./main").status, 7)
                self.ninja()
                self.assertEqual(self.ninja(), "ninja: no work to do.\n")

    def test_where_ninja_could_not_use_such_a_file_it_is_said(self):
        for makefile in ("main: main.o main.d ; cc -o $@ main.o\n"
                         "main.o main.d &: main.c ; cc -MMD -c -o main.o main.c\n",
                         "main: main.o ; cc -o $@ $^\nmain.o: main.c main.d\n"
                         "\tcc -MMD -MT '$@ main.d' -c -o $@ $<\nmain.d: ;\n"):
            with self.subTest(makefile):
                self.write(Makefile=makefile, main_c="int main(void) { return 0; }\n")
                ran = self.tool("kati-build", "--deps")
                self.assertEqual(ran.status, 0, ran.all)
                self.assertRegex(ran.said, r"^kati-build: main\.[do]: header dependencies aren't used, since the ")
                self.ninja()
                self.assertEqual(self.ninja(), "ninja: no work to do.\n")

    def test_one_that_kati_reads_stays_for_make(self):
        self.write(Makefile="main: main.o ; cc -o $@ $^\nmain.o: main.c ; cc -MMD -c -o $@ $<\n-include main.d\n",
                   main_c='#include "h.h"\nint main(void) { return A; }\n', h_h="#define A 0\n")
        self.build("--deps")
        for number, tool in enumerate(("ninja", "make", "ninja", "make"), 1):
            self.put("h.h", f"#define A {number}\n")
            self.assertEqual(self.run_in(tool).status, 0)
            self.assertEqual((self.run_in("./main").status, self.read("main.d")), (number, "main.o: main.c h.h\n"))

    def test_other_files_go_to_ninja_s_log(self):
        self.write(Makefile="main.o: main.c ; cc -MMD -c -o $@ $<\n", main_c="")
        self.build("--deps")
        self.assertFalse((self.top / "main.d").exists())


@needs("kati", "kati-asked")
class Time(Tree):
    """What kati-build takes beside kati: processor time, as ninja has it translate again, with the same Python.

    Both are run in turn, and the least of each counts: what else runs on the machine only adds to it. A round more is
    taken where the bound isn't met, up to the most.

    The bound is twice what docs/DECISIONS.md tells, which scripts/build_times.py measures: on another machine Python is
    slower beside kati, and no round may be a quiet one. What it is to find is far above: a look at each statement in
    Python takes ten times what kati does, and work by the square much more."""

    BOUND, FEWEST, MOST = 4, 3, 10

    def processor_time(self, *words):
        """The processor time of a command and all that it runs, in seconds."""
        ran = self.run_in("bash", "-c", 'TIMEFORMAT="%U %S"; time "$@" > ../out', "-", *words)
        self.assertEqual(ran.status, 0, ran.said)
        return sum(map(float, ran.said.split()))

    def assert_keeps_pace(self, files, *words, is_first=False):
        """kati-build with these words takes up to so many times what kati takes by the same list; where it runs again,
        or first."""
        for name, text in files.items():
            self.put(name, text)
        build = [sys.executable, "-S", self.tool_path("kati-build"), "--no-ninja", *words]
        self.assertEqual(self.run_in(*build).status, 0)
        by_kati, by_build = [], []
        while len(by_kati) < self.FEWEST or min(by_build) >= self.BOUND * min(by_kati) and len(by_kati) < self.MOST:
            by_kati.append(self.processor_time(kati(), "--files", "build.kati/files.txt"))
            if is_first:
                shutil.rmtree(self.top / "build.kati")
                (self.top / "build.ninja").unlink()
            by_build.append(self.processor_time(*build))
        self.assertLess(min(by_build), self.BOUND * min(by_kati))

    def listed(self, shape):
        """The files of a large makefile, with the list of its sources."""
        files, sources = shape
        return {**files, "list.txt": "\n".join([*sources, ""])}

    def test_many_rules(self):
        self.assert_keeps_pace(self.listed(large_makefiles.rules(100_000)), "--files-from", "list.txt")

    def test_many_rules_in_the_first_run(self):
        files = self.listed(large_makefiles.rules(100_000))
        files["Makefile"] = files["Makefile"].replace("CC = cc\n", "include $(X)config.mk\n")
        self.assert_keeps_pace({**files, "config.mk": "CC = cc\n"}, "--files-from", "list.txt", is_first=True)

    def test_many_rules_by_eval_in_the_first_run(self):
        self.assert_keeps_pace(self.listed(large_makefiles.modules(50_000)), "--files-from", "list.txt", is_first=True)

    def test_many_names_above(self):
        # Each name of a rule is looked at here, to find the folders.
        count = 50_000
        rules = "".join(f"t{one}: ../src/s{one}.c ../src/h{one % 100}.h\n\tcc -o $@ $<\n" for one in range(count))
        (self.top.parent / "src").mkdir()
        for one in range(count):
            (self.top.parent / f"src/s{one}.c").touch()
        self.assert_keeps_pace({"Makefile": f"all: {' '.join(f't{one}' for one in range(count))}\n{rules}"})
