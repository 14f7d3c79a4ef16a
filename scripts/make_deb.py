#!/usr/bin/env python3
"""Makes a Debian package of the built programs, the tools, manual pages, completions and documents.

The package is named kati-ninja, because Debian's package kati has another program with the same path. Its files are
those of `make install`. The script needs make, dpkg-deb and the built programs kati and kati-asked, but no root.

examples:
  scripts/make_deb.py                          kati-ninja_VERSION_ARCHITECTURE.deb in this folder
  scripts/make_deb.py --output packages        the same in that folder, which must exist
  scripts/make_deb.py --program ./kati --asked ./kati-asked
                                               with other built programs

exit status:
  0   the package is made, and its path is printed
  1   something failed, and is printed
  64  wrong usage"""
import argparse
import gzip
import hashlib
import os
import re
import shutil
import subprocess
import sys
import tempfile
from email.utils import formatdate
from pathlib import Path

ROOT = Path(__file__).resolve().parent.parent
BUILT = "crates/kati_program/out/kati_program"
BUILT_ASKED = "crates/kati_asked/out/kati_asked"
NAME = "kati-ninja"
# The version of the C library that has each symbol that the programs ask for.
LIBC = "libc6 (>= 2.34)"
TEXT = """\
translates makefiles to Ninja files
 kati translates a makefile of POSIX make, with a named subset of GNU make, into
 a build file for Ninja. The translation is formally verified.
 .
 kati-build translates and runs Ninja, also for makefiles that need GNU make.
 kati-port lists what kati refuses in a makefile, kati-compare compares the
 commands with those of make, and kati-asked prints the files that kati reads.
"""

# Bytecode hangs on the Python of the machine.
POSTINST = """\
#!/bin/sh
set -e
if [ "$1" = configure ]; then
    cd "$DPKG_ROOT/usr/share/kati"
    python3 -m compileall -q -d /usr/share/kati/kati_tools kati_tools || true
fi
"""
PRERM = """\
#!/bin/sh
set -e
find "$DPKG_ROOT/usr/share/kati/kati_tools" -name __pycache__ -prune -exec rm -rf {} +
"""


class Failure(Exception):
    """The package can't be made; the text says why."""


class Parser(argparse.ArgumentParser):
    """A parser that ends with the project's status for wrong usage."""

    def error(self, message):
        self.print_usage(sys.stderr)
        self.exit(64, f"{self.prog}: {message}\n")


def parser():
    made = Parser(description=__doc__, formatter_class=argparse.RawDescriptionHelpFormatter)
    made.add_argument("--program", default=BUILT, metavar="FILE", help=f"the built kati; {BUILT} without it")
    made.add_argument("--asked", default=BUILT_ASKED, metavar="FILE",
                      help=f"the built kati-asked; {BUILT_ASKED} without it")
    made.add_argument("--output", default=".", metavar="FOLDER", help="where the package goes; this folder without it")
    return made


def run(*words, **rest):
    """The output of a command that has to end well."""
    try:
        return subprocess.run(words, check=True, stdout=subprocess.PIPE, text=True, **rest).stdout
    except (OSError, subprocess.CalledProcessError) as error:
        raise Failure(f"{words[0]}: {error}") from error


def version():
    """The newest version of CHANGELOG.md."""
    found = re.search(r"^## (\d[\d.]*)", (ROOT / "CHANGELOG.md").read_text(encoding="utf-8"), re.MULTILINE)
    if not found:
        raise Failure("CHANGELOG.md names no version")
    return found.group(1)


def built(name, option):
    """The path of a built program, which has to be there."""
    path = (ROOT / name).resolve()
    if not path.is_file():
        raise Failure(f"{name}: no such file; build the program first, or name it by {option}")
    return path


def installed(program, asked, tree):
    """Puts the files of `make install` below the tree, where a package has them."""
    # Words of a make round this script aren't meant for this one.
    quiet = {key: value for key, value in os.environ.items() if not key.startswith(("MAKE", "MFLAGS"))}
    run("make", "-s", "-C", str(ROOT), "install", f"DESTDIR={tree}", "PREFIX=/usr", f"PROGRAM={program}",
        f"ASKED={asked}", "ZSH=/usr/share/zsh/vendor-completions", env=quiet)


def compress(path):
    """Puts a compressed file in place of a plain one, without a name and a time in it."""
    with open(f"{path}.gz", "wb") as out, gzip.GzipFile("", "wb", 9, out, mtime=0) as packed:
        packed.write(path.read_bytes())
    path.unlink()


def as_debian_has_it(tree):
    """The programs without their symbols, pages and changes compressed, no bytecode, and Python by its path."""
    for bytecode in list((tree / "usr/share/kati/kati_tools").rglob("__pycache__")):
        shutil.rmtree(bytecode)
    run("strip", "--remove-section=.comment", *(str(tree / "usr/bin" / name) for name in ("kati", "kati-asked")))
    for page in sorted((tree / "usr/share/man/man1").iterdir()):
        compress(page)
    changes = tree / f"usr/share/doc/{NAME}/changelog"
    changes.write_text(f"{NAME} ({version()}) unstable; urgency=medium\n\n  * CHANGELOG.md says what is new.\n\n"
                       f" -- {maintainer()}  {formatdate(localtime=True)}\n", encoding="utf-8")
    compress(changes)
    for tool in sorted((tree / "usr/bin").iterdir()):
        text = tool.read_bytes()
        if text.startswith(b"#!/usr/bin/env -S python3 -S\n"):
            tool.write_bytes(text.replace(b"#!/usr/bin/env -S python3 -S", b"#!/usr/bin/python3 -S", 1))


def files_of(tree):
    """The plain files below the tree, as the package names them."""
    return sorted(path for path in tree.rglob("*") if path.is_file() and not path.is_symlink())


def maintainer():
    """Who makes the package, as git or the environment names them."""
    name = os.environ.get("DEBFULLNAME") or asked_of_git("user.name") or "kati"
    mail = os.environ.get("DEBEMAIL") or asked_of_git("user.email") or "kati@example.org"
    return f"{name} <{mail}>"


def asked_of_git(key):
    done = subprocess.run(["git", "config", key], cwd=ROOT, stdout=subprocess.PIPE, text=True, check=False)
    return done.stdout.strip()


def control(tree, architecture):
    """The text of the file `control`."""
    size = sum(-(-path.stat().st_size // 1024) for path in files_of(tree))
    return (f"Package: {NAME}\nVersion: {version()}\nArchitecture: {architecture}\nMaintainer: {maintainer()}\n"
            f"Installed-Size: {size}\nDepends: {LIBC}, python3 (>= 3.8)\nRecommends: ninja-build\n"
            f"Suggests: make\nConflicts: kati\nSection: devel\nPriority: optional\nDescription: {TEXT}")


def package(tree, output):
    """Writes the package of what is below the tree, and answers its path."""
    architecture = run("dpkg", "--print-architecture").strip()
    sums = [f"{hashlib.md5(path.read_bytes()).hexdigest()}  {path.relative_to(tree)}\n" for path in files_of(tree)]
    text = control(tree, architecture)
    (tree / "DEBIAN").mkdir(0o755)
    (tree / "DEBIAN/md5sums").write_text("".join(sums), encoding="utf-8")
    (tree / "DEBIAN/control").write_text(text, encoding="utf-8")
    for name, text in (("postinst", POSTINST), ("prerm", PRERM)):
        (tree / "DEBIAN" / name).write_text(text, encoding="utf-8")
        (tree / "DEBIAN" / name).chmod(0o755)
    path = output / f"{NAME}_{version()}_{architecture}.deb"
    run("dpkg-deb", "--root-owner-group", "-Zxz", "--build", str(tree), str(path))
    return path


def main():
    words = parser().parse_args()
    scratch = Path(tempfile.mkdtemp(prefix="kati-deb-"))
    try:
        os.chmod(scratch, 0o755)
        installed(built(words.program, "--program"), built(words.asked, "--asked"), scratch)
        as_debian_has_it(scratch)
        print(package(scratch, Path(words.output)))
    except Failure as failure:
        print(f"make_deb.py: {failure}", file=sys.stderr)
        return 1
    finally:
        shutil.rmtree(scratch)
    return 0


if __name__ == "__main__":
    sys.exit(main())
