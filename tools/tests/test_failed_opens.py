"""Files that the program can't open, of each kind and at each place of a name: it does what LANGUAGE's table says."""
import os
import shutil
import subprocess

from support import LONG, TOP, Tree, kati, needs

PLACES = ("`-f`", "`include`", "`-include`", "`--files`", "`--check`")
# Who has no right to what another one shuts.
NOBODY = 65534


def table():
    """The names of LANGUAGE's table, and what it says of each by the places."""
    lines = (TOP / "docs/LANGUAGE.md").read_text().splitlines()
    begin = next(number for number, line in enumerate(lines) if line.startswith("| A name | as |"))
    rows = [[cell.strip() for cell in line.strip("|").split("|")] for line in lines[begin:]]
    rows = rows[:next((number for number, row in enumerate(rows) if len(row) < 3), len(rows))]
    if tuple(rows[0][2:]) != PLACES:
        raise AssertionError(rows[0])
    return {row[1].strip("`").replace("nn..n", "n" * 256): row[2:] for row in rows[2:]}


def as_nobody():
    """Makes this process another user's, where it is root's, who may read all."""
    if os.getuid() == 0:
        os.setgroups([])
        os.setgid(NOBODY)
        os.setuid(NOBODY)


@needs("kati")
class FailedOpens(Tree):
    """Each name at each place."""

    def setUp(self):
        super().setUp()
        # The program stands in the folder, since the way to it elsewhere may be shut.
        shutil.copy2(kati(), self.top / "kati")
        self.put_all({"file": "", "locked": "", "shut/a.mk": "", "good.mk": "all: ; echo\n"})
        (self.top / "folder").mkdir()
        (self.top / "round").symlink_to("round")
        (self.top / "nowhere").symlink_to("not/there")
        self.top.chmod(0o755)
        (self.top / "kati").chmod(0o755)
        (self.top / "locked").chmod(0)
        (self.top / "shut").chmod(0)
        self.addCleanup((self.top / "shut").chmod, 0o755)

    def kati(self, *words):
        """The program's status, and its standard output and error."""
        ran = subprocess.run(["./kati", *words], cwd=self.top, stdin=subprocess.DEVNULL, stdout=subprocess.PIPE,
                             stderr=subprocess.PIPE, preexec_fn=as_nobody, timeout=LONG)
        return ran.returncode, ran.stdout.decode(), ran.stderr.decode()

    def words(self, place, name):
        """The words by which the name stands at a place."""
        if "include" in place:
            makefile = "of" + place.strip("`") + ".mk"
            (self.top / makefile).write_text(f"{place.strip('`')} {name}\nall: ; echo\n")
            return ["-f", makefile]
        return ["-f", name] if place == "`-f`" else ["-f", "good.mk", place.strip("`"), name]

    def test_each_kind_at_each_place(self):
        by_name = table()
        self.assertEqual(len(by_name), 9)
        for name, told in by_name.items():
            for place, one in zip(PLACES, told):
                with self.subTest((name[:20], place)):
                    status, _, fault = one.partition(", ")
                    found = self.kati(*self.words(place, name))
                    self.assertEqual(found[0], int(status), found)
                    if fault:
                        self.assertTrue(found[2].endswith(f" [{fault}]\n"), found)
                    if status == "3":
                        self.assertEqual(found[1:], ("", f"kati: cannot read {name}\n"))
