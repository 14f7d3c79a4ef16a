"""kati-port --write --diff: what it prints is a patch that gives what --write writes."""
import shutil

from support import Tree, needs


@needs("kati", "make", "patch")
class Diff(Tree):
    """A patch, whatever bytes the makefile has."""

    def check(self, makefile):
        """`patch` makes of a copy what --write makes of the makefile."""
        name, copy = "Makefile", self.top.parent / "copy"
        for folder in (self.top, copy):
            shutil.rmtree(folder, ignore_errors=True)
            folder.mkdir()
            (folder / name).write_bytes(makefile)
        line = "exec \"$1\" --write --diff \"$2\" 2> ../said | (cd ../copy && patch -s -p1)"
        ran = self.run_in("sh", "-c", line, "sh", self.tool_path("kati-port"), name)
        self.assertEqual((ran.status, ran.all), (0, ""), (self.top.parent / "said").read_text())
        self.assertEqual((self.top / name).read_bytes(), makefile)
        ran = self.tool("kati-port", "--write", name)
        self.assertEqual(ran.status, 0, ran.all)
        for one in (name, "kati-values.mk"):
            self.assertEqual((copy / one).read_bytes(), (self.top / one).read_bytes())
        self.assertNotEqual((self.top / name).read_bytes(), makefile)

    def test_bytes_that_look_like_the_end_of_a_line(self):
        rule = b"V := $(shell echo 1)\nout:\n\techo $(V) > out\n"
        for odd in (b"\f", b"\v", b"\x1c", b"\x85", b"\xc2\x85", b"\xe2\x80\xa8", b"\xff"):
            with self.subTest(odd):
                self.check(b"# one\n#" + odd + b" two\n" + rule)

    def test_no_newline_at_the_end(self):
        self.check(b"out:\n\techo $(V) > out\nV := $(shell echo 1)")
        self.check(b"V := $(shell echo 1)\nout:\n\techo $(V) > out\n# last")
