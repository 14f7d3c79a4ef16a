"""What the tests of ports share: trees that kati-port writes, and what make and ninja build in them."""
import shutil

from support import Tree


def tree_of(top):
    """The texts of the files in a folder, but for those of the tools and of ninja."""
    own = ("build.ninja", ".ninja_log")
    return {str(path.relative_to(top)): path.read_text() for path in sorted(top.rglob("*"))
            if path.is_file() and path.name not in own and "build.kati" not in path.parts
            and path.suffix != ".mk" and path.name != "Makefile"}


class PortedTree(Tree):
    """A tree for each construct."""

    def put_all(self, files):
        """Writes a new tree."""
        shutil.rmtree(self.top)
        self.top.mkdir()
        for name, text in files.items():
            self.put(name, text)

    def makes_commands(self):
        """What make would do from nothing."""
        ran = self.run_in("make", "-n", "-B", "--no-print-directory")
        self.assertEqual(ran.status, 0, ran.all)
        return ran.out

    def built_by_make(self):
        """The files after a build by make, in a folder of the same name that is this tree afterwards."""
        kept = self.top.with_name("kept")
        shutil.copytree(self.top, kept)
        ran = self.run_in("make")
        self.assertEqual(ran.status, 0, ran.all)
        found = tree_of(self.top)
        shutil.rmtree(self.top)
        kept.rename(self.top)
        return found

    def port(self, *words, status=0):
        """What kati-port says of the makefile."""
        ran = self.tool("kati-port", "--write", "Makefile", *words)
        self.assertEqual(ran.status, status, ran.all)
        return ran

    def check_construct(self, files, words, status=0):
        """Ports the files: make's commands and what it builds are as before, ninja builds the same, and these words
        stand in the makefile or in its values."""
        self.put_all(files)
        wanted, built = self.makes_commands(), self.built_by_make()
        said = self.port(status=status).out
        self.assertIn("make's commands are as before", said)
        text = self.read("Makefile") + "".join(path.read_text() for path in self.top.glob("kati-values.mk"))
        self.assertEqual([word for word in words if word not in text], [], text)
        self.assertEqual(self.makes_commands(), wanted, text)
        self.assertEqual(self.built_by_make(), built, text)
        ran = self.tool("kati-build", "--builtin", *(["--depth", "400"] if "--depth 400" in said else []))
        self.assertEqual(ran.status, 0, ran.all + text)
        self.assertEqual(tree_of(self.top), built, text)
        return said
