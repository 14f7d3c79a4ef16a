"""What values hang on: a name that comes, goes or changes has make asked again where a command's output changes, and
a folder's time, or what no command asks for, has not."""
import os
import unittest

from support import Tree, needs

from kati_tools.base.programs import inside
from kati_tools.port import command_reads, watched

GIT = "git init -q . && git config user.email a && git config user.name b && git add n.txt && git commit -qm one"
# Commands, with what a shell does to the folder before they are seen first, and then, when they have other outputs.
CHANGING = [
    ("ls src/*.src", "", "echo > src/b.src"),
    ("echo src/*.src", "", "echo > src/b.src"),
    ("find src -name '*.src' | sort", "", "echo > src/b.src"),
    ("ls src", "", "echo > src/b.src"),
    ("cat src/*.src", "", "echo > src/b.src; echo 2 > src/b.src"),
    ("cat src/*.src", "", "echo 2 > src/a.src"),
    ("cd src; ls", "", "echo > src/b.src"),
    ("cd src && cat a.src", "", "echo 2 > src/a.src"),
    ("ls -1 ./src/*.src", "", "echo > src/b.src"),
    ("find . -name '*.src' | sort", "", "mkdir src/deep; echo > src/deep/b.src"),
    ("find -name \"*.src\" | sort", "", "echo > u.src"),
    ("find . -type d | sort", "", "mkdir src/deep"),
    ("find src \\( -name '*.txt' -o -name b.src \\) -print", "", "echo > src/b.src"),
    ("find . ! -name '*.src' -type f | sort", "", "echo > u.txt"),
    ("ls *.src", "", "echo > u.src"),
    ("ls", "", "echo > u.src"),
    ("ls -d */", "", "mkdir deep"),
    ("ls -R src", "", "mkdir src/deep; echo > src/deep/x"),
    ("cat n.txt", "", "echo 2 > n.txt"),
    ("cat < n.txt", "", "echo 2 > n.txt"),
    (". ./n.txt; echo $X", "echo X=1 > n.txt", "echo X=2 > n.txt"),
    ("./run", "echo 'echo 1' > run; chmod +x run", "echo 'echo 2' > run"),
    ("sh run", "echo 'echo 1' > run", "echo 'echo 2' > run"),
    ("test -e FLAG && echo yes", "", "echo > FLAG"),
    ("if [ -d sub ]; then echo yes; fi", "", "mkdir sub"),
    ("cat src/FLAG 2> /dev/null", "", "echo 1 > src/FLAG"),
    ("ls sub 2> /dev/null", "", "mkdir sub; echo > sub/x"),
    ("mkdir -p sub; ls sub", "mkdir sub", "echo > sub/x"),
    ("cat version.h 2> /dev/null || echo 0", "", "echo 1 > version.h"),
    ("cat n.txt 2> /dev/null || echo 0", "", "rm n.txt"),
    ("cat link", "ln -s n.txt link", "echo 2 > n.txt"),
    ("cat link", "ln -s n.txt link", "echo 7 > src/a.src; ln -sfn src/a.src link"),
    ("grep -r two . | sort", "echo two > src/a.src", "echo two > src/b.src"),
    ("git log --format=%s -1", GIT, "git commit -q --allow-empty -m two"),
    ("git tag", GIT, "git tag v1"),
    ("git diff --quiet || echo dirty", GIT, "echo 2 > n.txt"),
    ("git describe --always --dirty", GIT, "echo 2 > n.txt"),
    ("git ls-files", GIT, "git add src"),
    ("git ls-files -z -- '*.src' 'src/*'", GIT, "git add src"),
    ("git ls-files -s", GIT, "echo 2 > n.txt; git add n.txt"),
    ("git ls-files -m", GIT, "echo 2 > n.txt"),
    ("git ls-files --others", GIT, "echo > src/b.src"),
    ("git ls-files && git log --format=%s -1", GIT, "git commit -q --allow-empty -m two"),
    ("git rev-parse --abbrev-ref HEAD", GIT, "git checkout -qb other"),
    ("cat log; git log --format=%s -1", f"{GIT} && echo > log", "echo 2 > log"),
]
# The same, of which the outputs stay.
STAYING = [
    ("ls src", "", "echo 2 > src/a.src"),
    ("ls src", "", "echo > src/b.src; rm src/b.src; touch src"),
    ("find . -name '*.src' | sort", "", "echo 2 > src/a.src; echo > src/a.o; mkdir deep"),
    ("ls src/*.src", "", "echo 2 > src/a.src; echo > src/a.o"),
    ("cat n.txt", "", "touch n.txt; echo > src/b.src"),
    ("test -e FLAG && echo yes", "", "echo > OTHER"),
    ("uname", "", "echo > FLAG"),
    ("mkdir -p sub", "mkdir sub", "echo > sub/x"),
    ("[ -d sub ] || mkdir sub", "", "mkdir sub; echo > sub/x"),
    ("git log --format=%s -1", f"{GIT} && echo > log", "echo 2 > log"),
    ("( git ls-files '*.src' 2> /dev/null || find . -name '*.src' )", f"{GIT} && git add src",
     "git commit -qm two; echo 2 > src/a.src; git commit -qam three"),
    ("git ls-files '*.src' || find . -name '*.src'", "", "echo 2 > src/a.src; echo 2 > t.src"),
    ("git ls-files; ls src", f"{GIT} && echo > git && echo > ls", "echo 2 > git; echo 2 > ls"),
    ("A=1 git rev-parse HEAD", f"{GIT} && echo > git", "echo 2 > git"),
    ("find . \\( -name .git -type d -prune \\) -o \\( -name '*.src' -type f -print \\)", GIT,
     "echo 2 > t.src; git commit -q --allow-empty -m two"),
    ("git -C . -c a.b=c --no-pager log --format=%s -1", f"{GIT} && echo > log", "echo 2 > log"),
]


def times_of(names):
    """The time of each file or folder that is there."""
    return {one: os.stat(one).st_mtime_ns for one in names if os.path.exists(one)}


class Watching(Tree):
    """The words that are watched for a command."""

    def outputs_and_changed(self, command, before, after):
        """A command's output before and after a change of the folder, and what is told of the change."""
        self.fresh_folder(before)
        with inside(self.folder):
            sums = watched.sums_of(command_reads.reads_of(command))
            first = self.shell(command)
            self.shell(after)
            return first, self.shell(command), watched.first_changed(sums)

    def fresh_folder(self, before):
        """Makes a folder with three files, and what a shell adds."""
        self.folder = self.top / str(len(list(self.top.iterdir())))
        (self.folder / "src").mkdir(parents=True)
        for name, text in (("src/a.src", "1\n"), ("t.src", "1\n"), ("n.txt", "1\n")):
            (self.folder / name).write_text(text)
        self.shell(before)

    def shell(self, text):
        """What a shell prints in that folder."""
        return self.run_in("sh", "-c", f"cd {self.folder} && {{ {text or ':'}\n}}").out

    @needs("git")
    def test_what_changes_an_output_is_seen(self):
        for command, before, after in CHANGING:
            with self.subTest(f"{command}: {after}"):
                first, second, told = self.outputs_and_changed(command, before, after)
                self.assertNotEqual(first, second)
                self.assertIsNotNone(told)

    @needs("git")
    def test_what_changes_none_is_not(self):
        for command, before, after in STAYING:
            with self.subTest(f"{command}: {after}"):
                first, second, told = self.outputs_and_changed(command, before, after)
                self.assertEqual((first, told), (second, None))

    def test_what_is_told(self):
        self.put_all({"a.c": "", "n.txt": "1\n", "src/a.c": "", "gone": ""})
        with inside(self.top):
            for word, do, told in (("*.c", "echo > b.c", "*.c fits other files"), ("n.txt", "echo 2 > n.txt",
                                    "n.txt has changed"), ("src", "echo > src/b.c", "src has other files"),
                                   ("gone", "rm gone", "gone is gone"), ("new", "echo > new", "new is there now"),
                                   ("<*.c", "echo 2 > a.c", "*.c has changed")):
                sums = watched.sums_of([word])
                self.assertIsNone(watched.first_changed(sums))
                self.run_in("sh", "-c", do)
                self.assertEqual(watched.first_changed(sums), told)

    def test_each_change_is_one_of_an_input(self):
        """Ninja looks at these alone: one of them has another time."""
        for command, before, after in (one for one in CHANGING if "git" not in one[0]):
            with self.subTest(f"{command}: {after}"):
                self.fresh_folder(before)
                with inside(self.folder):
                    inputs = watched.inputs(command_reads.reads_of(command))
                    inputs = [one if os.path.lexists(one) else os.path.dirname(one) or "." for one in inputs]
                    first = times_of(inputs)
                    self.let_time_pass()
                    self.shell(after)
                    self.assertNotEqual(first, times_of(inputs))


if __name__ == "__main__":
    unittest.main()
