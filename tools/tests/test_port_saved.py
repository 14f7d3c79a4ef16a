"""What is saved while kati-port --write runs, and what a loss of power leaves of it and of a build."""
import os
import subprocess
import sys
from unittest import mock

from support import LONG, TOOLS, TOP, Tree, needs, without_at_work

from kati_tools.port import writing

SAVED = "kati-port: {} was saved while it was ported: no file was changed; run kati-port again\n"


@needs("kati", "make")
class Saved(Tree):
    """A file is saved while kati runs for the first time."""

    def port_while(self, save, *words):
        """The status of a port and what it said, during which a call saves something."""
        begun, go = self.top.parent / "begun", self.top.parent / "go"
        os.mkfifo(go)
        around = self.around(f"test -e {begun} || {{ touch {begun}; read line < {go}; }}")
        ran = subprocess.Popen([TOOLS / "kati-port", "--write", "Makefile", *words], cwd=self.top, text=True,
                               env={**os.environ, **around}, stdin=subprocess.DEVNULL, stdout=subprocess.PIPE,
                               stderr=subprocess.PIPE)
        self.wait_for(begun.exists)
        save()
        go.write_text("\n")
        said = ran.communicate(timeout=LONG)[1]
        return ran.returncode, without_at_work(said)

    def test_a_makefile(self):
        for name, text in (("Makefile", "# mine\n"), ("inc.mk", "# mine\n"), ("kati-values.mk", "# mine\n")):
            with self.subTest(name):
                self.put_all({"Makefile": "V := $(shell echo 1)\nout: ; echo $(V) > out\ninclude inc.mk\n",
                              "inc.mk": "W := $(shell echo 2)\n"})
                before = {one: self.read(one) for one in ("Makefile", "inc.mk")}
                told = self.port_while(lambda: self.put(name, text))
                self.assertEqual(told, (3, SAVED.format(name)))
                after = {path.name: path.read_text() for path in self.top.iterdir()}
                self.assertEqual(after, {**before, name: text})
                for path in (self.top.parent / "begun", self.top.parent / "go", self.top / name):
                    path.unlink()

    def test_a_makefile_that_make_makes(self):
        self.put_all({"Makefile": "V := $(shell echo 1)\nout: ; echo $(V) > out\ninclude inc.mk\n"
                                  "inc.mk: inc.in ; cp inc.in inc.mk\n", "inc.in": "A = 1\n"})
        told = self.port_while(lambda: self.put("inc.mk", "# mine\n"))
        self.assertEqual((told, self.read("inc.mk")), ((3, SAVED.format("inc.mk")), "# mine\n"))

    def test_the_same_bytes_are_no_change(self):
        self.put("Makefile", "V := $(shell echo 1)\nout: ; echo $(V) > out\n")
        self.assertEqual(self.port_while(lambda: self.touch("Makefile")), (0, ""))

    def test_what_a_value_hangs_on_is_asked_for_again(self):
        self.put_all({"Makefile": "V := $(shell cat version)\nout: ; echo $(V) > out\n", "version": "1\n"})
        self.assertEqual(self.port_while(lambda: self.put("version", "2\n")), (0, ""))
        self.assertIn("\nV_V := 2\n", self.read("kati-values.mk"))


# Runs kati-build, and prints each file that it puts in place, and whether its bytes had come to the disk.
RECORDED = """\
import os, sys
sys.path.insert(0, sys.argv[1])
del sys.argv[:2]
from kati_tools.port import building
synced, to_disk, replace = set(), os.fsync, os.replace
def fsync(handle):
    synced.add(os.readlink(f"/proc/self/fd/{handle}"))
    to_disk(handle)
def put(new, place):
    print(os.path.abspath(place), os.path.abspath(new) in synced, sep="\\t", flush=True)
    replace(new, place)
os.fsync, os.replace = fsync, put
sys.exit(building.main(sys.argv[1:]))
"""


class Power(Tree):
    """What is brought to the disk, and when."""

    def test_files_before_their_places_and_folders_behind(self):
        self.put("Makefile", "before\n")
        done, synced, replaced = [], os.fsync, os.replace

        def fsync(handle):
            done.append(("to the disk", os.readlink(f"/proc/self/fd/{handle}")))
            synced(handle)

        def replace(new, place):
            done.append(("in place", new, place))
            replaced(new, place)

        names = [str(self.top / name) for name in ("Makefile", "new/below/b.mk")]
        with mock.patch.object(os, "fsync", fsync), mock.patch.object(os, "replace", replace):
            writing.Writing(dict.fromkeys(names, "after\n")).write()
        new = [one[1] for one in done[:2]]
        self.assertEqual(done[:4], [*(("to the disk", one) for one in new),
                                    *(("in place", *pair) for pair in zip(new, names))])
        folders = [str(self.top / name) for name in ("", "new", "new/below")]
        self.assertEqual(sorted(done[4:]), [("to the disk", one.rstrip("/")) for one in folders])
        self.assertEqual([self.read(name) for name in names], ["after\n"] * 2)

    @needs("kati", "make")
    def test_files_of_a_build_before_their_places(self):
        self.put_all({"Makefile": "V := $(shell echo 1)\nall: a.o\n\techo $(V) > out\na.o: a.c\n\tcc -c a.c\n",
                      "a.c": ""})
        words = ["--port", "--no-ninja", "--compile-commands"]
        ran = self.run_in(sys.executable, "-B", "-c", RECORDED, TOP / "share/kati", TOOLS / "kati-build", *words)
        self.assertEqual(ran.status, 0, ran.all)
        places = dict(line.split("\t") for line in ran.out.splitlines())
        # Others are notes that each translation makes anew.
        ported = [f"build.kati/ported/{self.top.name}/{name}" for name in ("Makefile", "kati-values.mk")]
        for name in ("build.ninja", "compile_commands.json", *ported, *(f"build.kati/{name}" for name in (
                "translated.ninja", "files.txt", "asked.txt", "version", "ported.json", "other-goals.json"))):
            self.assertEqual(places.get(str(self.top / name)), "True", (name, places))
