"""A first build by kati-build on trees that make has built: what Ninja then makes is what make makes."""
import os
import subprocess
import unittest
from pathlib import Path

from made_trees import PLAIN, PORTED
from support import LONG, Tree, needs


class OfTrees(Tree):
    """A tree that make has built, and for which kati-build wrote Ninja's log; then each change twice, once for make and
    once for ninja."""

    def shell(self, text):
        """Runs a shell's text in the tree, later than what is there."""
        self.let_time_pass()
        subprocess.run(["sh", "-c", text], cwd=self.top, check=True, timeout=LONG, stdout=subprocess.DEVNULL)

    def copy(self, source, target):
        """Copies a tree, with its times, in the place of another one."""
        subprocess.run(["rm", "-rf", str(target)], check=True)
        subprocess.run(["cp", "-a", str(source), str(target)], check=True)

    def states(self):
        """What tells whether a file of the tree was made anew, for those that the build makes."""
        found = {}
        for at, folders, names in os.walk(self.top):
            folders[:] = [name for name in folders if not name.endswith(".kati")]
            for name in (name for name in names if not name.endswith((".d", ".ninja"))):
                state = os.lstat(os.path.join(at, name))
                found[os.path.relpath(os.path.join(at, name), self.top)] = state.st_mtime_ns, state.st_ino
        return found

    def changed_by(self, *words):
        """The files that a command made anew or took away, and whether it ended well."""
        before = self.states()
        self.let_time_pass()
        ran = self.run_in(*words)
        after = self.states()
        return {name for name in {*before, *after} if before.get(name) != after.get(name)}, ran.status == 0

    def twice(self, kept, case, *words):
        """What a command changes after a change of the kept tree, and what it does once more."""
        self.copy(kept, self.top)
        self.shell(case)
        return [self.changed_by(*words), self.changed_by(*words)]

    def try_tree(self, made, *words):
        """Tries all cases of a tree."""
        subprocess.run(["rm", "-rf", str(self.top)], check=True)
        self.put_all({"Makefile": made.makefile.replace("    ", "\t"), **made.files})
        self.let_time_pass()
        self.run_in("make")
        self.shell(made.before)
        ran = self.tool("kati-build", *words, "--no-ninja")
        self.assertNotIn(ran.status, (2, 3, 64, 70), ran.all)
        kept = Path(f"{self.top}.kept")
        self.copy(self.top, kept)
        for case in made.cases:
            by_make, by_ninja = self.twice(kept, case, "make"), self.twice(kept, case, "ninja", "-j1")
            if made.is_more:
                self.assertLessEqual(by_make[0][0], by_ninja[0][0], case)
            else:
                self.assertEqual(by_ninja, by_make, case)


@needs("kati", "kati-asked", "make", "ninja", "cc")
class AsMade(OfTrees):
    """All of the trees."""

    def test_what_kati_takes_as_it_is(self):
        for name, made in PLAIN.items():
            with self.subTest(name):
                self.try_tree(made)

    def test_what_is_ported(self):
        for name, made in PORTED.items():
            with self.subTest(name):
                self.try_tree(made, "--port")


if __name__ == "__main__":
    unittest.main()
