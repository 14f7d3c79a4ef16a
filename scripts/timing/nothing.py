"""The table of builds with nothing to do, for scripts/times.py: make and Ninja on a tree that is built."""
import shutil
import subprocess
import sys
import tempfile
from pathlib import Path

import large_makefiles as large

from .tools import LIST, MEGABYTE, Tool, run_all, write

SIZES = (1_000, 10_000, 100_000)
TOOL = Path(__file__).resolve().parent.parent.parent / "tools/kati-build"


def kati_build(asked, *words):
    """The words that run kati-build of this checkout."""
    return [sys.executable, "-S", str(TOOL), "--kati", asked.kati, "--kati-asked", asked.kati_asked, *words]


def first_translation(folder, asked, notes):
    """kati-build without ninja, in a folder where it has not run."""
    tool = Tool("first", kati_build(asked, "--no-ninja"), 8 * MEGABYTE)
    for _ in range(asked.runs):
        shutil.rmtree(folder / "build.kati", ignore_errors=True)
        (folder / "build.ninja").unlink(missing_ok=True)
        tool.run(folder, asked.seconds, notes)
    return tool


def build(folder, size, asked):
    """Puts all targets there, as an earlier build by make left them. A first build takes them as they are."""
    for number in range(size):
        (folder / f"t{number}").touch()
    shutil.rmtree(folder / "build.kati", ignore_errors=True)
    (folder / "build.ninja").unlink()
    subprocess.run(kati_build(asked), cwd=folder, stdout=subprocess.DEVNULL, stderr=subprocess.DEVNULL, check=True)


def is_built(folder):
    """Whether both make and ninja have nothing to do."""
    ninja = subprocess.run(["ninja", "-n"], cwd=folder, stdout=subprocess.PIPE, check=True).stdout
    make = subprocess.run(["make", "-q", "-r", "-R", "CC=cc"], cwd=folder, stdout=subprocess.DEVNULL, check=False)
    return b"no work to do" in ninja and make.returncode == 0


def print_table(asked):
    """Prints a row for each size: the times of builds with nothing to do, and of the first translation."""
    print("| Rules | `make` | `make -r -R` | `ninja` | `kati-build` | `kati-build`, first translation |")
    print("|---|---|---|---|---|---|")
    for size in SIZES:
        size = max(size // 100, 1) if asked.small else size
        with tempfile.TemporaryDirectory(prefix="times_") as name:
            # What the runs write is not among the files that kati-build looks at.
            notes, folder = Path(name), Path(name) / "tree"
            folder.mkdir()
            write(folder, *large.rules(size))
            (folder / LIST).unlink()
            first = first_translation(folder, asked, notes)
            build(folder, size, asked)
            if not is_built(folder):
                sys.exit("times.py: the tree is not built as make and ninja see it")
            found = [Tool(tool, words, 8 * MEGABYTE) for tool, words in (
                ("make", ["make"]), ("bare", ["make", "-r", "-R"]), ("ninja", ["ninja"]),
                ("build", kati_build(asked)))]
            run_all(found, folder, asked, notes)
        print(f"| {size:,} | {' | '.join(tool.told() for tool in [*found, first])} |", flush=True)
