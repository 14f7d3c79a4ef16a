"""kati-build and kati-asked: one run gives the translation and the names of what it hangs on."""
import os

from support import Tree, kati, kati_asked, needs

from kati_tools.build import asked_names


@needs("kati", "kati-asked")
class Names(Tree):
    """How often kati-asked runs in kati's place, and what is watched."""

    def setUp(self):
        super().setUp()
        self.log = self.top.parent / "log"
        for name in ("src", "up"):
            (self.top.parent / name).mkdir()
            (self.top.parent / name / "x.c").touch()

    def build(self, *words, status=0, do=""):
        """What kati-build says, which ends with this status."""
        self.log.write_text("")
        around = self.around(f"echo $0 >> {self.log}\n{do}")
        ran = self.tool("kati-build", "--no-ninja", *words, **around)
        self.assertEqual(ran.status, status, ran.all)
        self.assertEqual(sorted(path.name for path in self.top.rglob("*.new")), [])
        return ran.said

    def runs(self, *words):
        """How often kati-asked runs in a run of kati-build; kati itself isn't run."""
        self.build(*words)
        lines = self.log.read_text().splitlines()
        self.assertEqual({os.path.basename(line) for line in lines}, {"asked-around"})
        return len(lines)

    def is_watched(self, name):
        return f"    {name}\n" in self.read("build.ninja").replace(" $\n", "\n")

    def listed(self):
        return sorted(self.read("build.kati/files.txt").split())

    def test_one_run_is_enough(self):
        self.write(Makefile="N = a\ninclude $(N).mk\n-include b.mk\nall: Makefile $(X) ; echo > all\n",
                   a_mk="A = 1\n", x_c="")
        self.assertEqual((self.runs(), self.runs()), (1, 1))
        self.put("a.mk", "include c.mk\n")
        self.put("c.mk", "")
        self.assertEqual(self.runs(), 1)
        self.put("b.mk", "-include d.mk\n")
        self.put("d.mk", "")
        self.assertEqual((self.runs(), self.runs("X=x.c")), (1, 1))
        names = ["Makefile", "a.mk", "c.mk", "b.mk", "d.mk"]
        self.assertEqual([name for name in names if self.is_watched(name)], names)
        self.assertEqual(self.read("build.kati/asked.txt").split(), ["makefile", *names])

    def test_the_translation_is_katis_own(self):
        self.write(Makefile="-include a.mk\nall: Makefile ; echo $(A) > all\n", a_mk="A = 1\n")
        self.assertEqual(self.runs(), 1)
        self.assertEqual(self.read("build.kati/translated.ninja"), self.run_in(kati(), "--files", os.devnull).out)

    def test_an_include_that_names_a_folder_above(self):
        self.write(Makefile="-include a.mk\nall: x.o ; echo > all\n%.o: %.c ; cp $< $@\n", x_c="")
        self.assertEqual(self.runs(), 1)
        self.put("a.mk", "%.o: ../src/%.c ; cp $< $@\n")
        # The names of before have it already, as one that isn't there.
        self.assertEqual(self.runs(), 1)
        self.assertEqual(self.listed(), ["../src/x.c", "Makefile", "a.mk", "x.c"])
        self.assertIn("../src/x.c", self.read("build.kati/translated.ninja"))
        self.put("a.mk", "include b.mk\n")
        self.put("b.mk", "%.o: ../up/%.c ; cp $< $@\n")
        # That one is new, and gives another list.
        self.assertEqual((self.runs(), self.runs()), (2, 1))
        self.assertEqual(self.listed(), ["../up/x.c", "Makefile", "a.mk", "b.mk", "x.c"])
        self.assertIn("build x.o: r1 ../up/x.c", self.read("build.kati/translated.ninja"))
        self.assertTrue(self.is_watched("b.mk") and self.is_watched("../up"))
        self.put("a.mk", "")
        self.assertEqual((self.runs(), self.runs()), (2, 1))
        self.assertEqual(self.listed(), ["Makefile", "a.mk", "b.mk", "x.c"])
        self.assertFalse(self.is_watched("b.mk") or self.is_watched("../up"))

    def test_the_names_at_a_fault(self):
        # Without the list by the names of this run no rule would fit.
        self.write(Makefile="include a.mk\nA = 1\n", a_mk="%.o: ../src/%.c ; cp $< $@\n")
        self.assertEqual(self.runs("x.o"), 2)
        self.assertIn("build x.o: r0 ../src/x.c", self.read("build.kati/translated.ninja"))
        before = self.read("build.ninja")
        self.put("Makefile", "include b.mk\nendif\n")
        self.put("b.mk", "%.o: ../up/%.c ; cp $< $@\n")
        self.assertEqual(self.build("x.o", status=2), "Makefile:2: *** stray endif [E11]\n"
                         "kati-build: kati ended with status 2; build.ninja stays as it is\n")
        self.assertEqual(self.read("build.ninja"), before)
        self.put("Makefile", "include b.mk\n")
        self.assertEqual(self.runs("x.o"), 2)
        self.assertIn("../up/x.c", self.listed())

    def test_a_run_that_did_not_come_to_its_end(self):
        self.write(Makefile="all: Makefile ; echo > all\n")
        self.assertEqual(self.runs(), 1)
        before = [self.read(f"build.kati/{name}") for name in ("translated.ninja", "asked.txt", "files.txt")]
        self.write(Makefile="include a.mk\nall: ; echo $(A) > all\n", a_mk="%.o: ../src/%.c ; cp $< $@\n")
        kept = "build.ninja stays as it is\n"
        for status in (3, 4, 64, 70):
            with self.subTest(status):
                do = f"printf '\\000makefile\\nMakefile\\na'; echo why >&2; exit {status}"
                self.assertEqual(self.build(status=status, do=do),
                                 f"why\nkati-build: kati ended with status {status}; {kept}")
        (self.top / "a.mk").unlink()
        (self.top / "a.mk").mkdir()
        self.assertEqual(self.build(status=3), f"kati: cannot read a.mk\nkati-build: kati ended with status 3; {kept}")
        self.assertEqual([self.read(f"build.kati/{name}") for name in ("translated.ninja", "asked.txt", "files.txt")],
                         before)

    def test_the_other_name_of_the_makefile_is_watched_with_make_s_rules_too(self):
        self.write(Makefile="all: ; echo > all\n", list_txt="x.c\n")
        self.build("--builtin", "--files-from", "list.txt")
        self.assertTrue(self.is_watched("Makefile") and self.is_watched("."))

    def test_a_program_that_tells_no_names(self):
        self.write(Makefile="all: ; echo > all\n")
        # As an earlier kati-asked, and as one that tells nothing.
        for text in ("printf 'makefile\\nMakefile\\n'", "exit 0"):
            with self.subTest(text):
                program = self.program("other", text)
                ran = self.tool("kati-build", "--kati-asked", program)
                self.assertEqual((ran.status, ran.said), (3, f"kati-build: {program} writes no names behind a NUL, as "
                                                             "kati-asked does\n"))
                self.assertEqual([path.name for path in self.top.iterdir()], ["Makefile"])

    def test_kati_is_run_where_no_kati_asked_is(self):
        self.write(Makefile="include $(X)a.mk\nall: Makefile ; echo $(A) > all\n", a_mk="A = 1\n", b_mk="A = 2\n")
        with self.without_asked():
            self.assertEqual(self.tool("kati-build", "--no-ninja").status, 0)
        self.assertNotIn("--kati-asked", self.read("build.ninja"))
        self.assertTrue(self.is_watched("a.mk"))
        self.assertFalse((self.top / "build.kati/asked.txt").exists())
        self.assertEqual(self.read("build.kati/translated.ninja"), self.run_in(kati(), "--files", os.devnull).out)

    def test_it_is_the_one_beside_kati(self):
        self.write(Makefile="all: ; echo > all\n")
        for place, other in (("bin/kati", "bin/kati-asked"),
                             ("kati_program/out/kati_program", "kati_asked/out/kati_asked")):
            with self.subTest(place):
                paths = [self.top.parent / one for one in (place, other)]
                for path, program in zip(paths, (kati(), kati_asked())):
                    path.parent.mkdir(parents=True, exist_ok=True)
                    path.symlink_to(program)
                ran = self.tool("kati-build", "--no-ninja", "--kati", paths[0], KATI_ASKED="")
                self.assertEqual(ran.status, 0, ran.all)
                self.assertIn(f"--kati {paths[0]} --kati-asked {paths[1]}", self.read("build.ninja"))

    CALL = "$(foreach n,1 2,$(eval $(call T,$(n))))\n"
    EVALUATED = "define T\n{}\nendef\n" + CALL
    # Texts, and whether make reads d.mk by them.
    TEXTS = (("F = -I include\n# to include d.mk\n", False), ("-include\\\n d.mk\n", True),
             ("include\td.mk # no.mk\n", True), ("$(eval -inc$()lude d.mk)\n", True), ("include $(N)d.mk\n", True),
             ("# no \\\ninclude d.mk\n", False), ("X = \\\\\ninclude d.mk\n", True),
             ("ifdef F\ninclude no.mk\nelse\n \t include d.mk\nendif\n", True),
             ("ifdef F\ninclude d.mk\nendif\n", False), ("define F\ninclude d.mk\nendef\n", False),
             (EVALUATED.format("-include d.mk"), True), (EVALUATED.format("E = 1\n$(F)include d.mk"), True),
             (EVALUATED.format("E = 1") + "T = include d.mk\n" + CALL, True))

    @needs("make")
    def test_what_make_reads_is_watched(self):
        for text, is_read in self.TEXTS:
            with self.subTest(text):
                self.write(Makefile=text + "all: Makefile ; true\n", d_mk="$(info d is read)\n")
                self.assertEqual("d is read" in self.run_in("make", "-n").out, is_read)
                self.assertEqual((self.runs(), self.is_watched("d.mk")), (1, is_read))


class Cutting(Tree):
    """The names are cut off the end of what kati-asked wrote."""

    def test_what_is_cut_off(self):
        many = [f"folder/of/names/{number}.mk" for number in range(9000)]
        for text in (b"", b"# kati\n", b"x" * 200_000 + b"\n"):
            for names in ([], ["a"], ["a", "b c"], many):
                with self.subTest((len(text), len(names))):
                    data = "".join(f"{name}\n" for name in [*names, *names[:1]])
                    (self.top / "file").write_bytes(text + b"\0" + data.encode())
                    self.assertEqual(asked_names.cut_off(self.top / "file"), names)
                    self.assertEqual((self.top / "file").read_bytes(), text)

    def test_where_no_nul_is(self):
        for text in (b"", b"makefile\nMakefile\n", b"x" * 300_000):
            (self.top / "file").write_bytes(text)
            self.assertIsNone(asked_names.cut_off(self.top / "file"))
            self.assertEqual((self.top / "file").read_bytes(), text)
        self.assertIsNone(asked_names.cut_off(self.top / "none"))
