"""kati-build --port on the days after: what is asked again, what is saved meanwhile, and what becomes of files of its
own."""
import os
import shutil
import subprocess

from support import Tree, kati_asked, needs

from kati_tools.base.programs import DIFFERS

LOOP = "MODS := $(notdir $(wildcard mod/*))\nSRCS := $(foreach m,$(MODS),$(wildcard mod/$(m)/*.c))\n" \
    "out: $(SRCS)\n\techo $^ > $@\n"


def files_of(folder):
    """The names of the files below a folder."""
    return {str(path.relative_to(folder)) for path in folder.rglob("*") if path.is_file()}


class Ported(Tree):
    """A tree that is built by kati-build --port."""

    def build(self, *words, status=0, **environment):
        ran = self.tool("kati-build", "--port", *words, **environment)
        self.assertEqual(ran.status, status, ran.all)
        return ran.all

    def built_by_make(self, name="out"):
        """What make makes of a file, anew; it is as before afterwards."""
        path = self.top / name
        was = (path.read_bytes(), path.stat()) if path.exists() else None
        ran = self.run_in("make", "-s", "-B")
        self.assertEqual(ran.status, 0, ran.all)
        found = self.read(name)
        if was:
            path.write_bytes(was[0])
            os.utime(path, ns=(was[1].st_atime_ns, was[1].st_mtime_ns))
        return found

    def assert_as_make(self):
        """ninja makes what make makes, and has nothing to do then."""
        said = self.ninja()
        self.assertEqual(self.read("out"), self.built_by_make())
        self.ninja()
        self.assertIn("no work to do", self.ninja())
        return said


@needs("kati", "kati-asked", "make", "ninja")
class Asked(Ported):
    """Values that are asked for again."""

    def test_a_list_of_files_has_what_make_makes_first(self):
        self.put("Makefile", "N := $(sort $(shell find . -name '*.mk') $(wildcard *.mk))\n"
                             "out: Makefile ; echo $(N) $(U) > out\ninclude made.mk\nmade.mk: made.in ; cp $< $@\n")
        self.put("made.in", "U = made\n")
        self.assertNotIn("asked again", self.build())
        self.assertEqual(self.read("out"), "./made.mk made.mk made\n")
        self.put("more.mk", "")
        self.assertIn("fits other files: make is asked again\n", self.build())
        self.assertEqual(self.read("out"), "./made.mk ./more.mk made.mk more.mk made\n")

    def test_an_element_of_a_loop_that_comes_has_its_own_value(self):
        self.put("Makefile", LOOP)
        self.put_all({"mod/a/1.c": "", "mod/b/2.c": ""})
        self.build()
        self.assertEqual(self.read("out"), self.built_by_make())
        self.put("mod/c/3.c", "")
        self.assertIn("kati-build: mod/* fits other files: make is asked again\n", self.assert_as_make())
        self.assertEqual(self.read("out"), "mod/a/1.c mod/b/2.c mod/c/3.c\n")
        self.put("mod/c/4.c", "")
        self.assert_as_make()
        shutil.rmtree(self.top / "mod/b")
        self.assert_as_make()

    def test_the_same_of_a_makefile_that_was_written(self):
        self.put("Makefile", LOOP)
        self.put_all({"mod/a/1.c": "", "mod/b/2.c": ""})
        self.assertEqual(self.tool("kati-port", "--write", "Makefile").status, 0)
        self.assertEqual(self.tool("kati-build", "--builtin").status, 0)
        for name in ("mod/c/3.c", "mod/c/4.c"):
            self.put(name, "")
            self.assert_as_make()

    def test_what_names_of_a_written_makefile_fit(self):
        self.put("Makefile", "D = mk\ninclude $(D)/*.mk\nout: *.in src/*.in\n\techo \"$(S)\" $^ > $@\n")
        self.put_all({"mk/a.mk": "S += a\n", "1.in": "", "src/2.in": ""})
        self.assertEqual(self.tool("kati-port", "--write", "Makefile").status, 0)
        self.assertEqual(self.tool("kati-build", "--builtin").status, 0)
        self.put_all({"mk/b.mk": "S += b\n", "0.in": ""})
        self.assert_as_make()
        self.assertEqual(self.read("out"), "a b 0.in 1.in src/2.in\n")
        values = self.read("kati-values.mk")
        self.assertIn("kati-values.mk: as before\n", self.tool("kati-port", "--values").out)
        self.assertEqual(self.read("kati-values.mk"), values)

    def test_what_no_command_reads(self):
        self.put("Makefile", "V := $(file < n.txt)$(notdir $(realpath link)) $(notdir $(realpath absent))\n"
                             "out: Makefile\n\techo \"$(V)\" > $@\n")
        self.put_all({"n.txt": "1\n", "other": ""})
        (self.top / "link").symlink_to("n.txt")
        self.build()
        for do in ("echo 2 > n.txt", "ln -sfn other link", "echo > absent"):
            self.let_time_pass()
            self.run_in("sh", "-c", do)
            self.assert_as_make()

    def test_a_name_that_comes_to_stand_in_another_folder(self):
        self.put_all({"Makefile": "VPATH = va vb\nout: one.p two.p\n\tcat $^ > $@\n", "va/one.p": "1\n",
                      "vb/two.p": "2\n"})
        self.build()
        for name in ("va/two.p", "two.p"):
            self.put(name, f"{name}\n")
            self.assertIn(f"kati-build: {name} is there now: make is asked again\n", self.assert_as_make())
        for name in ("two.p", "va/two.p"):
            self.let_time_pass()
            (self.top / name).unlink()
            self.assert_as_make()
        self.put("va/one.p", "another\n")
        self.assertNotIn("asked again", self.assert_as_make())

    def test_a_made_file_that_comes_to_stand_in_another_folder(self):
        self.put_all({"Makefile": "VPATH = obj\nall: x.o sub/y.o\n%.o: %.c\n\tmkdir -p $(@D); cp $< $@\n", "x.c": "",
                      "sub/y.c": "", "obj/some": ""})
        self.build("--no-ninja")
        for name, said in (("obj/x.o", "obj/x.o"), ("obj/sub/y.o", "obj/sub")):
            self.put(name, "")
            own = name[len("obj/"):]
            told = self.build("--no-ninja", status=DIFFERS)
            self.assertIn(f"kati-build: {said} is there now: make is asked again\n", told)
            self.assertIn(f"kati-build: {own} stands in a folder that is searched, as {name}: ", told)
        self.let_time_pass()
        self.ninja()
        said = self.build("--no-ninja")
        self.assertIn(".o is there now: make is asked again\n", said)
        self.assertNotIn("stands in a folder", said)
        self.assertEqual(self.build("--no-ninja"), "")
        self.put("obj/sub/z.o", "")
        self.assertEqual(self.build("--no-ninja"), "")

    def test_a_source_of_a_pattern_rule_that_comes_to_stand_here(self):
        self.put_all({"Makefile": "VPATH = va\nout: one.o\n\tcat $^ > $@\n%.o: %.c\n\tcat $< > $@\n",
                      "va/one.c": "1\n"})
        self.build()
        self.put("one.c", "here\n")
        self.assert_as_make()


@needs("kati", "kati-asked", "make", "ninja")
class Meanwhile(Ported):
    """What is saved while a run reads it."""

    def asked_with(self, do):
        """A program in the place of kati-asked that does something, by a shell, when it has ended."""
        return self.program("asked", f"{kati_asked()} \"$@\"; status=$?\n{do}\nexit $status")

    def build_with(self, do, status=0):
        ran = self.tool("kati-build", "--kati-asked", self.asked_with(do))
        self.assertEqual(ran.status, status, ran.all)
        return ran.all

    def test_a_makefile_that_is_saved_while_kati_reads(self):
        self.put("Makefile", "out: Makefile\n\techo old > $@\n")
        self.build_with("test -e ../edited || sed -i s/old/new/ Makefile; : > ../edited")
        self.assertEqual(self.read("out"), "new\n")
        self.assertIn("no work to do", self.ninja())

    def test_one_that_is_saved_in_place_while_ninja_has_it_translated(self):
        self.put("Makefile", "out: Makefile\n\techo one > $@\n")
        self.build_with("test -s ../edit && sed s/two/three/ Makefile > ../new && cat ../new > Makefile; : > ../edit")
        self.ninja()
        self.put("../edit", "1\n")
        self.put("Makefile", "out: Makefile\n\techo two > $@\n")
        self.ninja()
        self.assertEqual(self.read("out"), "three\n")
        self.assertIn("no work to do", self.ninja())

    def test_an_include_that_is_taken_away_meanwhile(self):
        self.put_all({"Makefile": "-include a.mk\nout:\n\techo $(A) > $@\n", "a.mk": "A = a\n"})
        self.build_with("rm -f a.mk")
        self.ninja()
        self.assertEqual(self.read("out"), "\n")

    def test_a_source_that_comes_meanwhile(self):
        self.put_all({"Makefile": "out: a.o\n\tcat a.o > $@\n%.o: %.y ; cat $< > $@\n%.o: %.z ; cat $< > $@\n",
                      "a.z": "z\n"})
        self.build_with("test -e a.y || echo y > a.y")
        self.assertEqual(self.read("out"), "y\n")

    def test_a_makefile_that_changes_each_time(self):
        self.put("Makefile", "out: Makefile\n\techo one > $@\n")
        said = self.build_with("echo '# more' >> Makefile", status=3)
        self.assertIn("kati-build: Makefile changes each time while it is read: run kati-build again ", said)
        self.assertFalse((self.top / "build.ninja").exists())

    def make_with(self, do):
        """A program in the place of make that does something, by a shell, when it has told values."""
        return self.program("make", f"{shutil.which('make')} \"$@\"; status=$?\n{do}\nexit $status")

    def test_what_is_saved_while_it_ports(self):
        for name, text in (("Makefile", "V := $(shell cat n.txt)\nout:\n\techo new $(V) > $@\n"), ("n.txt", "2\n")):
            with self.subTest(name):
                self.put("Makefile", "V := $(shell cat n.txt)\nout:\n\techo old $(V) > $@\n")
                self.put("n.txt", "1\n")
                self.put(f"../{name}.new", text)
                once = f"test -e {self.top}/../{name}.new && mv {self.top}/../{name}.new {self.top}/{name}"
                self.build(KATI_COPIES="1",
                           MAKE=self.make_with(f"case $* in *kati_port_makes_nothing*) ;; *) {once};; esac"))
                self.ninja()
                self.assertEqual(self.read("out"), self.built_by_make())
                shutil.rmtree(self.top)
                self.top.mkdir()

    def test_a_file_that_changes_each_time_while_it_ports(self):
        self.put("Makefile", "V := $(shell cat n.txt)\nout:\n\techo $(V) > $@\n")
        self.put("n.txt", "1\n")
        said = self.build(status=3, KATI_COPIES="1", MAKE=self.make_with(f"echo >> {self.top}/n.txt"))
        self.assertIn("kati-build: n.txt changes each time while make is asked: run kati-build again ", said)


@needs("kati", "kati-asked", "make", "ninja")
class OwnFiles(Ported):
    """The files of kati-build's own."""

    def setUp(self):
        super().setUp()
        self.put("Makefile", "V := $(shell echo 1)\nO := $(CURDIR)\nout: Makefile\n\techo \"[$(V)] $(O)\" > $@\n")
        self.build()
        self.wanted = self.read("out")
        (self.top / "out").unlink()

    def assert_made_anew(self):
        self.assertEqual(self.build().count("fault"), 0)
        self.assertEqual(self.read("out"), self.wanted)
        (self.top / "out").unlink()

    def test_files_that_are_emptied_or_gone(self):
        room = self.top / "build.kati"
        names = sorted(path.relative_to(room) for path in room.rglob("*") if path.is_file() and path.name != "lock")
        self.assertIn("ported.json", map(str, names))
        for do in (lambda path: path.write_bytes(b""), lambda path: path.unlink()):
            for some in (names, *([one for one in names if one.name == own] for own in ("Makefile", "kati-values.mk"))):
                with self.subTest(some):
                    for name in some:
                        do(room / name)
                    self.assert_made_anew()
        shutil.rmtree(room / "ported")
        self.assert_made_anew()

    def test_ninja_has_an_emptied_translation_made_anew(self):
        self.let_time_pass()
        (self.top / "build.kati/translated.ninja").write_text("")
        self.ninja()
        self.assertEqual(self.read("out"), self.wanted)

    def test_records_of_another_form(self):
        for text in ('{"wildcards": {}}', "[]", "1", "{", '{"watched": []}'):
            with self.subTest(text):
                (self.top / "build.kati/ported.json").write_text(text)
                self.assert_made_anew()

    def test_what_tools_of_before_built_is_made_anew_with_a_line(self):
        line = "kati-build: build.kati is of another version of kati-build: made anew\n"
        for text in (None, "1\n"):
            path = self.top / "build.kati/version"
            path.unlink() if text is None else path.write_text(text)
            self.assertEqual(self.build().count(line), 1)
            self.assertNotIn(line, self.build())

    def test_a_tree_that_is_copied_or_moved(self):
        self.ninja()
        for call in (lambda to: self.run_in("cp", "-a", self.top, to), lambda to: self.top.rename(to)):
            other = self.top.parent / f"other{len(list(self.top.parent.iterdir()))}"
            call(other)
            ran = subprocess.run([self.tool_path("kati-build"), "--port"], cwd=other, stdout=subprocess.PIPE,
                                 stderr=subprocess.STDOUT, text=True)
            self.assertIn(f"kati-build: this folder was {self.top}: make is asked again\n", ran.stdout)
            self.assertEqual((other / "out").read_text(), f"[1] {other}\n")
            texts = [path.read_bytes() for path in (other / "build.kati").rglob("*.ninja")]
            self.assertNotIn(str(self.top).encode() + b"\"", b"".join(texts))

    def test_a_moved_tree_is_known_by_ninja_alone(self):
        self.ninja()
        other = self.top.parent / "other"
        self.top.rename(other)
        ran = subprocess.run(["ninja"], cwd=other, stdout=subprocess.PIPE, stderr=subprocess.STDOUT, text=True)
        self.assertEqual((other / "out").read_text(), f"[1] {other}\n", ran.stdout)
        self.top = other
        self.assertIn("no work to do", self.ninja())

    def test_all_that_was_written_is_taken_away(self):
        before = {"Makefile"}
        self.ninja()
        ran = self.tool("kati-build", "--port", "--anew", "-o", "more.ninja", "--compile-commands")
        self.assertEqual(ran.status, 0)
        self.put("mine.ninja", "# mine\n")
        self.assertEqual(self.tool("kati-build", "--remove", "all").status, 64)
        ran = self.tool("kati-build", "--remove")
        self.assertEqual(ran.status, 0)
        self.assertEqual(ran.said, "kati-build: removed: build.ninja build.kati compile_commands.json more.ninja "
                                   "more.kati\n")
        self.assertEqual(files_of(self.top), before | {"out", "mine.ninja"})
        self.assertEqual(self.tool("kati-build", "--remove").said,
                         "kati-build: nothing is here that kati-build wrote\n")

    def test_commands_for_editors_are_taken_away_where_they_are_its_own(self):
        kept = "build.kati build.ninja"
        for later, removed in ((lambda: None, f"compile_commands.json {kept}"),
                               (lambda: self.tool("kati-build", "--port"), f"compile_commands.json {kept}"),
                               (lambda: self.put("compile_commands.json", "[{}]\n"), kept)):
            self.assertEqual(self.tool("kati-build", "--port", "--compile-commands").status, 0)
            later()
            self.assertEqual(sorted(self.tool("kati-build", "--remove").said.split()[2:]), sorted(removed.split()))

    def test_those_for_a_build_elsewhere_are_taken_away_too(self):
        words = ["--port", "-o", "sub/x.ninja"]
        (self.top / "sub").mkdir()
        self.assertEqual(self.tool("kati-build", *words, "--compile-commands").status, 0)
        self.assertIn("compile_commands.json", files_of(self.top))
        self.assertEqual(self.tool("kati-build", "--remove", "-o", "sub/x.ninja").status, 0)
        self.assertNotIn("compile_commands.json", files_of(self.top))

    def test_only_what_is_its_own_is_taken_away(self):
        shutil.rmtree(self.top)
        self.put_all({"build.ninja": "# mine\n", "build.kati/mine": "", "other/lock": "",
                      "compile_commands.json": "[]"})
        before = files_of(self.top)
        self.assertEqual(self.tool("kati-build", "--remove").status, 0)
        self.assertEqual(files_of(self.top), before)
