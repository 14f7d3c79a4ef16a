"""What the random tests of edits share: a tree whose files follow from a state, and what a build from nothing makes of
them at the same path."""
import os
import shutil

from support import Tree

LINK = "-> "


class EditedTree(Tree):
    """A tree that is laid anew after each edit."""

    def setUp(self):
        super().setUp()
        self.begin()

    def begin(self):
        """Begins with an empty folder; what was laid before is forgotten."""
        shutil.rmtree(self.top)
        shutil.rmtree(self.top.parent / "up", ignore_errors=True)
        self.top.mkdir()
        self.laid, self.gone = {}, {}

    def lay(self, files, is_old=False):
        """Writes the files that differ, and takes away those that aren't the tree's any more, with the folders in which
        none is left. Where `is_old`, a file that comes back as it was has its old date."""
        for name in [name for name in self.laid if name not in files]:
            self.take_away(name, files)
        for name, text in files.items():
            # What stands beside the folder is the same for a build from nothing.
            if self.laid.get(name) != text and not self.is_beside(name, text):
                self.put_down(name, text)
                if is_old and self.gone.get(name, (None, 0))[0] == text:
                    os.utime(self.top / name, ns=(self.gone[name][1],) * 2)
        self.laid = dict(files)

    def is_beside(self, name, text):
        """Whether a file outside the folder is there as it should be."""
        path = self.top / name
        return name.startswith("../") and path.exists() and path.read_text() == text

    def put_down(self, name, text):
        """Writes a file, or a link where its text begins as one."""
        path = self.top / name
        path.parent.mkdir(parents=True, exist_ok=True)
        if not text.startswith(LINK):
            path.write_text(text)
            return
        path.unlink(missing_ok=True)
        path.symlink_to(text[len(LINK):])

    def take_away(self, name, files):
        """Takes a file away, and the folders in which no file of the tree is left, with what was built there."""
        path = self.top / name
        self.gone[name] = (self.laid[name], path.lstat().st_mtime_ns)
        path.unlink()
        for folder in list(path.relative_to(self.top).parents)[:-1]:
            if folder.parts[0] != ".." and not any(other.startswith(f"{folder}/") for other in files):
                shutil.rmtree(self.top / folder)

    def made(self):
        """The time of each file, but for those of kati-build's own folder."""
        return {str(path.relative_to(self.top)): path.stat().st_mtime_ns for path in self.top.rglob("*")
                if path.is_file() and "build.kati" not in path.parts and path.name != "build.ninja"}

    def from_nothing(self, files, *words):
        """What make does with these files where nothing was built, at the same path: its status, what it said, and the
        bytes of each file that it made."""
        kept, laid, gone = self.top.with_name("kept"), self.laid, self.gone
        self.top.rename(kept)
        self.top.mkdir()
        self.laid, self.gone = {}, {}
        try:
            self.lay(files)
            ran = self.run_in("make", *words)
            made = {str(path.relative_to(self.top)): path.read_bytes() for path in self.top.rglob("*")
                    if path.is_file() and str(path.relative_to(self.top)) not in files}
        finally:
            shutil.rmtree(self.top)
            kept.rename(self.top)
            self.laid, self.gone = laid, gone
        return ran.status, ran.all, made
