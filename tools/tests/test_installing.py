"""The root's Makefile: install, uninstall and deb, by make and by kati's Ninja file."""
import os
import re
import shutil
import subprocess
import tempfile
import unittest
from collections import Counter
from pathlib import Path

ROOT = Path(__file__).resolve().parent.parent.parent
KATI = Path(os.environ.get("KATI") or ROOT / "crates/kati_program/out/kati_program").resolve()
KATI_ASKED = Path(os.environ.get("KATI_ASKED") or ROOT / "crates/kati_asked/out/kati_asked").resolve()
# The programs, as words of the makefile and of make_deb.py.
PROGRAMS = [f"PROGRAM={KATI}", f"ASKED={KATI_ASKED}"]
OPTIONS = ["--program", KATI, "--asked", KATI_ASKED]
COMMANDS = ["kati", "kati-asked", "kati-build", "kati-compare", "kati-port"]
# Words of a make round the tests, and programs for them, aren't meant for the commands that they run.
QUIET = {key: value for key, value in os.environ.items() if not key.startswith(("MAKE", "MFLAGS", "KATI"))}
# dpkg wants ldconfig and start-stop-daemon, which stand where a user's PATH may not lead.
QUIET["PATH"] = QUIET.get("PATH", os.defpath) + ":/usr/sbin:/sbin"


# A link of a document to a file, or to a part of one.
LINK = re.compile(r"\]\((?!\w+:)([^)#]+)[)#]")


def needs(*names):
    """Skips a test where a command isn't there."""
    missing = [name for name in names if not shutil.which(name)]
    return unittest.skipIf(missing, "not there: " + ", ".join(missing))


def run(*words, status=0, **rest):
    """The output of a command, with its errors, which has to end with this status."""
    done = subprocess.run([str(word) for word in words], stdout=subprocess.PIPE, stderr=subprocess.STDOUT, text=True,
                          env=QUIET, check=False, **rest)
    if done.returncode != status:
        raise AssertionError(f"{words}: status {done.returncode}\n{done.stdout}")
    return done.stdout


def tree(folder):
    """What stands below a folder: each file's bytes, mode or link, by its name."""
    found = {}
    for path in sorted(Path(folder).rglob("*")):
        name = str(path.relative_to(folder))
        if path.is_symlink():
            found[name] = os.readlink(path)
        elif path.is_file():
            found[name] = (path.stat().st_mode & 0o777, path.read_bytes())
    return found


def unwrapped(command):
    """The lines of a command that kati wrote, without the shell round each."""
    lines = []
    for line in command.split(" && /bin/sh -c "):
        line = line[len("/bin/sh -c "):] if line.startswith("/bin/sh -c ") else line
        lines.append(line[1:-1].replace("'\\''", "'"))
    return lines


class Scratch(unittest.TestCase):
    """A test with a folder of its own."""

    def setUp(self):
        for program in (KATI, KATI_ASKED):
            if not program.is_file():
                self.skipTest(f"not there: {program}")
        self.folder = Path(tempfile.mkdtemp(prefix="kati-test-"))
        self.addCleanup(shutil.rmtree, self.folder)

    def translated(self, *words):
        """A Ninja file of the root's makefile."""
        path = self.folder / "kati.ninja"
        with open(path, "wb") as out:
            subprocess.run([KATI, "-f", "Makefile", *PROGRAMS, *words], cwd=ROOT, stdout=out, check=True)
        return path


class Translating(Scratch):
    """kati takes the makefile, and says the commands that make says."""

    @needs("make", "ninja")
    def test_commands_are_those_of_make(self):
        for goal in ("all", "try", "install", "uninstall", "deb", "check"):
            with self.subTest(goal):
                ninja = self.translated("DESTDIR=/x", goal)
                ours = run("ninja", "-f", ninja, "-t", "commands", cwd=ROOT).splitlines()
                theirs = run("make", "-n", "-r", "-R", goal, "DESTDIR=/x", *PROGRAMS, cwd=ROOT).splitlines()
                self.assertEqual(Counter(line for command in ours for line in unwrapped(command)), Counter(theirs))


class Installing(Scratch):
    """What install puts, and uninstall takes away."""

    def install(self, goal="install", name="root"):
        run("make", "-s", goal, f"DESTDIR={self.folder / name}", "PREFIX=/usr", *PROGRAMS, cwd=ROOT)
        return self.folder / name / "usr"

    @needs("make")
    def test_each_command_runs_and_has_its_page_and_completions(self):
        usr = self.install()
        for name in COMMANDS:
            with self.subTest(name):
                self.assertIn("usage: ", run(usr / "bin" / name, "--help").lower())
                for path in (f"man/man1/{name}.1", f"bash-completion/completions/{name}",
                             f"fish/vendor_completions.d/{name}.fish"):
                    self.assertTrue((usr / "share" / path).is_file(), path)
        self.assertTrue((usr / "share/zsh/site-functions/_kati").is_file())

    @needs("make")
    def test_an_installed_kati_asked_is_the_program(self):
        usr = self.install()
        self.assertEqual((usr / "bin/kati-asked").read_bytes(), KATI_ASKED.read_bytes())
        # kati's text, and then as the example's makefile has it: the list, the makefile by its two names, its include.
        self.assertEqual(run(usr / "bin/kati-asked", "--files", "files.txt", cwd=ROOT / "example"),
                         run(KATI, "--files", "files.txt", cwd=ROOT / "example")
                         + "\0files.txt\nmakefile\nMakefile\nconfig.mk\n")

    @needs("make")
    def test_an_installed_kati_is_the_program(self):
        usr = self.install()
        self.assertEqual((usr / "bin/kati").read_bytes(), KATI.read_bytes())
        self.assertEqual(run(usr / "bin/kati", "--files", "files.txt", cwd=ROOT / "example"),
                         run(KATI, "--files", "files.txt", cwd=ROOT / "example"))

    @needs("make", "ninja", "cc")
    def test_an_installed_kati_build_builds_the_example(self):
        usr = self.install()
        copy, before = shutil.copytree(ROOT / "example", self.folder / "example"), tree(usr)
        run(usr / "bin/kati-build", cwd=copy)
        self.assertTrue((copy / "prog").is_file())
        # The programs beside it were found, and nobody named them.
        self.assertIn(f"--kati-asked {usr / 'bin/kati-asked'}", (copy / "build.ninja").read_text())
        self.assertEqual(tree(usr), before)

    @needs("make")
    def test_the_tools_are_installed_with_their_bytecode(self):
        usr = self.install()
        told = run("python3", "-v", "-S", usr / "bin/kati-build", "--help")
        loaded = re.findall(r"^# code object from '?.*/kati_tools/.*(\.pyc?)'?$", told, re.MULTILINE)
        self.assertEqual(set(loaded), {".pyc"})
        # A source that is changed counts, whatever its time.
        source = usr / "share/kati/kati_tools/base/words.py"
        text, times = source.read_text(), source.stat()
        source.write_text(text.replace("without it `makefile`", "without it: `makefile`"))
        os.utime(source, ns=(times.st_atime_ns, times.st_mtime_ns))
        self.assertIn("without it: `makefile`", run(usr / "bin/kati-build", "--help"))

    @needs("make")
    def test_documents_name_no_file_that_is_not_installed(self):
        doc = self.install() / "share/doc/kati-ninja"
        for path in sorted(ROOT.joinpath("docs").glob("*.md")) + [ROOT / "README.md"]:
            self.assertTrue((doc / path.relative_to(ROOT)).is_file(), path)

    @needs("make")
    def test_links_of_installed_documents_lead_to_installed_files(self):
        doc = self.install() / "share/doc/kati-ninja"
        links = [(path, link) for path in sorted(doc.rglob("*.md")) for link in LINK.findall(path.read_text())]
        self.assertIn("docs/times.svg", {str((path.parent / link).relative_to(doc)) for path, link in links})
        for path, link in links:
            self.assertTrue((path.parent / link).is_file(), f"{path}: {link}")

    @needs("make")
    def test_the_whole_example_and_nothing_that_was_built(self):
        doc = self.install() / "share/doc/kati-ninja/example"
        tracked = subprocess.run(["git", "ls-files", "example"], cwd=ROOT, stdout=subprocess.PIPE, text=True,
                                 check=False)
        names = sorted(Path(name).name for name in tracked.stdout.split())
        if not names:
            self.skipTest("not there: git, or no checkout")
        self.assertEqual(sorted(path.name for path in doc.iterdir()), names)

    @needs("make")
    def test_uninstall_leaves_nothing(self):
        usr = self.install()
        (usr / "bin/other").write_text("stays")
        self.install("uninstall")
        self.assertEqual(list(tree(usr)), ["bin/other"])
        self.assertEqual([name for name in ("kati", "doc/kati-ninja") if (usr / "share" / name).exists()], [])

    @needs("make", "ninja")
    def test_ninja_installs_the_same(self):
        usr = self.install()
        ninja = self.translated(f"DESTDIR={self.folder / 'other'}", "PREFIX=/usr", "install")
        # The log would stand in the repository.
        ninja.write_text(f"builddir = {self.folder}\n" + ninja.read_text())
        run("ninja", "-f", ninja, cwd=ROOT)
        self.assertEqual(tree(self.folder / "other/usr"), tree(usr))

    @needs("make")
    def test_a_program_that_is_not_there_is_a_fault(self):
        for name in ("PROGRAM", "ASKED"):
            for goal in ("install", "deb"):
                with self.subTest(name=name, goal=goal):
                    words = [word for word in PROGRAMS if not word.startswith(name)] + [f"{name}=no/such/program"]
                    told = run("make", goal, f"DESTDIR={self.folder}", *words, cwd=ROOT, status=2)
                    self.assertIn("no/such/program", told)
                    self.assertEqual(tree(self.folder), {})


class Packaging(Scratch):
    """The Debian package, installed into a folder."""

    def package(self):
        path = run("python3", ROOT / "scripts/make_deb.py", *OPTIONS, "--output", self.folder).strip()
        return Path(path)

    def dpkg(self, *words, status=0, known=""):
        """dpkg on a folder of its own, whose database knows what the package stands on."""
        root = self.folder / "root"
        base = root / "var/lib/dpkg"
        if not base.is_dir():
            for name in ("info", "updates", "triggers"):
                (base / name).mkdir(parents=True)
            entry = ("Package: {}\nStatus: install ok installed\nMaintainer: a <a@example.org>\n"
                     "Architecture: {}\nVersion: 9\nDescription: stands in\n\n")
            (base / "status").write_text(entry.format("libc6", "amd64") + entry.format("python3", "amd64") + known)
        forced = ["--force-not-root", "--force-script-chrootless", f"--log={self.folder}/log"]
        return run("dpkg", f"--root={root}", *forced, *words, status=status)

    @needs("make", "dpkg", "dpkg-deb", "strip")
    def test_installs_and_goes_without_a_trace(self):
        package = self.package()
        self.dpkg("-l")
        before = self.paths()
        self.dpkg("-i", package)
        root = self.folder / "root"
        for name in ("kati", "kati-asked"):
            self.assertIn(f"Usage: {name} [", run(root / "usr/bin" / name, "--help"))
        for name in COMMANDS:
            self.assertTrue((root / f"usr/share/man/man1/{name}.1.gz").is_file(), name)
        self.assertTrue((root / "usr/share/zsh/vendor-completions/_kati").is_file())
        self.assertTrue(list(root.glob("usr/share/kati/kati_tools/port/__pycache__/building.*.pyc")))
        self.dpkg("-r", "kati-ninja")
        self.assertEqual(self.paths(), before)

    def paths(self):
        """What stands in the folder, but for dpkg's own database."""
        root = self.folder / "root"
        return sorted(str(path.relative_to(root)) for path in root.rglob("*")
                      if not str(path.relative_to(root)).startswith("var/lib/dpkg"))

    @needs("make", "dpkg", "dpkg-deb", "strip")
    def test_conflicts_with_the_other_kati(self):
        package = self.package()
        other = ("Package: kati\nStatus: install ok installed\nMaintainer: a <a@example.org>\nArchitecture: amd64\n"
                 "Version: 9\nDescription: another program\n\n")
        self.dpkg("-l", known=other)
        self.assertIn("conflict", self.dpkg("-i", package, status=1))

    @needs("make", "dpkg-deb", "strip")
    def test_says_what_it_needs(self):
        package = self.package()
        wanted = {"Package": "kati-ninja", "Conflicts": "kati", "Recommends": "ninja-build",
                  "Depends": "libc6 (>= 2.34), python3 (>= 3.8)"}
        for key, value in wanted.items():
            self.assertEqual(run("dpkg-deb", "-f", package, key).strip(), value)

    def test_a_program_that_is_not_there_is_told(self):
        for option in ("--program", "--asked"):
            with self.subTest(option):
                words = [*OPTIONS, option, "no/such/program", "--output", self.folder]
                told = run("python3", ROOT / "scripts/make_deb.py", *words, status=1)
                self.assertEqual(told, f"make_deb.py: no/such/program: no such file; build the program first, or "
                                       f"name it by {option}\n")
                self.assertEqual(tree(self.folder), {})

    @needs("make", "dpkg-deb", "strip", "objdump")
    def test_the_library_is_as_new_as_the_programs_want(self):
        symbols = run("objdump", "-T", KATI) + run("objdump", "-T", KATI_ASKED)
        versions = {tuple(map(int, word.strip("()")[len("GLIBC_"):].split(".")))
                    for word in symbols.split() if word.strip("()").startswith("GLIBC_")}
        self.assertTrue(versions)
        self.assertLessEqual(max(versions), (2, 34))

    @needs("make", "dpkg-deb", "strip", "lintian")
    def test_lintian_misses_the_licence_alone(self):
        told = subprocess.run(["lintian", "--allow-root", "--tag-display-limit", "0", self.package()],
                              stdout=subprocess.PIPE, stderr=subprocess.STDOUT, text=True, check=False).stdout
        errors = [line for line in told.splitlines() if line.startswith("E:")]
        self.assertEqual([line.split()[2] for line in errors], ["no-copyright-file"], told)


if __name__ == "__main__":
    unittest.main()
