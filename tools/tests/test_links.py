"""Links that stand in the place of the tools' own files, other file systems, and makefiles that are no files."""
import os
import tempfile

from support import TOP, Tree, needs


@needs("kati", "ninja")
class Links(Tree):
    """What a tree brings along leads nowhere but into the tree."""

    PORTED = "V := $(shell echo 1)\nout:\n\techo $(V) > out\n"

    def setUp(self):
        super().setUp()
        self.home = self.top.parent / "home"
        (self.home / "ported").mkdir(parents=True)
        self.texts = {"ported/thesis": "thesis\n", "my.new": "x\n", "rc": "alias ll=ls\n"}
        for name, text in self.texts.items():
            (self.home / name).write_text(text)

    def check_home(self):
        """All files of the user's folder are as they were."""
        found = {str(path.relative_to(self.home)): path.read_text() for path in self.home.rglob("*") if path.is_file()}
        self.assertEqual(found, self.texts)

    @needs("make")
    def test_a_folder_of_the_user_s(self):
        self.put("Makefile", self.PORTED)
        (self.top / "build.kati").symlink_to("../home")
        self.assertEqual(self.tool("kati-build", "--port", "--no-ninja").status, 0)
        self.check_home()
        self.assertTrue((self.top / "build.kati/translated.ninja").is_file())
        self.assertEqual(self.tool("kati-build", "--port").status, 0)
        self.assertEqual(self.read("out"), "1\n")

    def test_a_faulty_makefile_beside_a_folder_of_the_user_s(self):
        self.put("Makefile", "endif\n")
        (self.top / "build.kati").symlink_to("../home")
        self.assertEqual(self.tool("kati-build").status, 2)
        self.check_home()

    @needs("make")
    def test_links_within_the_folder(self):
        self.put("Makefile", self.PORTED)
        for name in ("ported", "files.txt", "ported.json", "translated.ninja", "asked.txt", "more"):
            with self.subTest(name):
                (self.top / "build.kati").mkdir()
                (self.top / "build.kati" / name).symlink_to("../../home" if name in ("ported", "more") else
                                                            "../../home/rc")
                self.assertEqual(self.tool("kati-build", "--port", "--no-ninja").status, 0)
                self.check_home()
                self.run_in("rm", "-r", "build.kati", "build.ninja")

    def test_a_new_file_that_is_a_link(self):
        self.put("Makefile", "out: ; echo > out\n")
        for name in ("files.txt.new", "translated.ninja.new", "build.ninja.new"):
            with self.subTest(name):
                self.run_in("rm", "-rf", "build.kati", "build.ninja")
                (self.top / "build.kati").mkdir()
                (self.top / "build.kati" / name).symlink_to("../../home/rc")
                ran = self.tool("kati-build", "--no-ninja")
                self.assertEqual((ran.status, ran.said),
                                 (3, f"kati-build: build.kati/{name}: Too many levels of symbolic links\n"))
                self.check_home()
                # It is gone with that run.
                self.assertEqual(self.tool("kati-build", "--no-ninja").status, 0)

    def test_the_lock(self):
        self.put("Makefile", "out: ; echo > out\n")
        for leads in ("/nowhere/x", "../../home/rc", "lock"):
            with self.subTest(leads):
                self.run_in("rm", "-rf", "build.kati")
                (self.top / "build.kati").mkdir()
                (self.top / "build.kati/lock").symlink_to(leads)
                ran = self.tool("kati-build")
                self.assertEqual((ran.status, ran.said),
                                 (3, "kati-build: build.kati/lock is a link, which isn't followed: remove it\n"))
                self.check_home()

    @needs("make")
    def test_the_file_of_values(self):
        self.put("Makefile", self.PORTED)
        (self.top / "kati-values.mk").symlink_to("../home/rc")
        self.assertEqual(self.tool("kati-port", "--write", "Makefile").status, 0)
        self.check_home()
        self.assertFalse((self.top / "kati-values.mk").is_symlink())
        self.assertEqual(self.tool("kati-build", "--builtin").status, 0)
        self.assertEqual(self.read("out"), "1\n")

    @needs("make")
    def test_a_makefile_that_is_a_link_stays_one(self):
        self.put("real.mk", self.PORTED)
        (self.top / "Makefile").symlink_to("real.mk")
        self.assertEqual(self.tool("kati-port", "--write", "Makefile").status, 0)
        self.assertTrue((self.top / "Makefile").is_symlink())
        self.assertIn("kati-values.mk", self.read("real.mk"))


@needs("kati", "ninja", "make")
class OtherFileSystem(Tree):
    """What kati-build writes stands in another file system than the tree."""

    def setUp(self):
        super().setUp()
        here = os.stat(self.top).st_dev
        places = [one for one in ("/dev/shm", "/run", "/var/tmp", "/tmp", str(TOP))
                  if os.access(one, os.W_OK) and os.stat(one).st_dev != here]
        if not places:
            self.skipTest("no other file system that can be written")
        room = tempfile.TemporaryDirectory(prefix="kati-tests-", dir=places[0])
        self.addCleanup(room.cleanup)
        self.other = room.name
        self.put_all({"Makefile": "S := $(wildcard *.src)\nout: $(S)\n\tcat $^ > $@\n", "a.src": "a\n"})

    def build(self, *words):
        """Runs kati-build, which must end well."""
        ran = self.tool("kati-build", *words)
        self.assertEqual(ran.status, 0, ran.all)

    def test_a_folder_that_is_a_link_there(self):
        (self.top / "build.kati").symlink_to(self.other)
        self.build("--port")
        self.assertEqual(self.read("out"), "a\n")

    def test_files_for_editors(self):
        self.build("--port", "--compile-commands", "-o", f"{self.other}/x.ninja")
        self.assertTrue((self.top / "compile_commands.json").is_file())
        self.assertEqual(sorted(path.name for path in self.top.iterdir()),
                         ["Makefile", "a.src", "compile_commands.json", "out"])

    def test_a_makefile_that_is_ported(self):
        self.assertEqual(self.tool("kati-port", "--write", "Makefile").status, 0)
        self.build("--builtin", "-o", f"{self.other}/y.ninja")
        self.put("b.src", "b\n")
        self.build("--builtin", "-o", f"{self.other}/y.ninja")
        self.assertEqual(self.read("out"), "a\nb\n")
        self.assertEqual([path.name for path in self.top.iterdir() if ".new" in path.name], [])


@needs("kati", "ninja", "make")
class NoFiles(Tree):
    """A makefile that is a pipe, a folder or a device is refused at once."""

    def test_each_tool(self):
        os.mkfifo(self.top / "pipe")
        (self.top / "folder").mkdir()
        for name in ("pipe", "folder", "/dev/null", "/dev/stdin"):
            for words in (["kati-build", "-f", name], ["kati-build", "--port", "-f", name],
                          ["kati-compare", "-f", name], ["kati-port", name],
                          ["kati-port", "--macros", name], ["kati-port", "--write", name],
                          ["kati-port", "--write", "--diff", name],
                          ["kati-port", "--values", "-f", name]):
                with self.subTest(words):
                    ran = self.tool(*words)
                    self.assertEqual((ran.status, ran.said),
                                     (64, f"{words[0]}: {name} is no file that can be read again\n"))
