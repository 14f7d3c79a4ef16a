"""The table of the Ninja files of kati and ckati, for scripts/times.py: their sizes, and how Ninja loads them."""
import subprocess
import tempfile
from pathlib import Path

import large_makefiles as large

from .tools import LIST, MEGABYTE, Tool, run_all, write

CASES = (("one-line rules", large.rules), ("targets made by a pattern rule", large.pattern))
SIZE = 100_000
OUTPUTS = {"kati": "kati.ninja", "ckati": "build.ninja"}


def write_files(folder, asked, ckati):
    """The Ninja file of each program."""
    with open(folder / OUTPUTS["kati"], "wb") as out:
        subprocess.run([asked.kati, "-f", "Makefile", "--files", LIST], cwd=folder, stdout=out, check=True)
    subprocess.run(ckati, cwd=folder, stdout=subprocess.DEVNULL, stderr=subprocess.DEVNULL, check=True)


def cells(folder, asked):
    """What stands in a row for each program: the size of its file, and Ninja's time and memory."""
    found = [Tool(name, ["ninja", "-f", output, "-t", "targets"], 8 * MEGABYTE) for name, output in OUTPUTS.items()]
    run_all(found, folder, asked)
    for tool in found:
        size = (folder / OUTPUTS[tool.name]).stat().st_size
        yield from (f"{size / 1e6:.1f}", tool.told())


def print_table(asked, ckati):
    """Prints a row for each case."""
    print("| Makefile of | N | kati's file, MB | Ninja loads it | ckati's file, MB | Ninja loads it |")
    print("|---|---|---|---|---|---|")
    for label, make_files in CASES:
        size = SIZE // 100 if asked.small else SIZE
        with tempfile.TemporaryDirectory(prefix="times_") as name:
            folder = Path(name)
            write(folder, *make_files(size))
            write_files(folder, asked, ckati)
            print(f"| {label} | {size:,} | {' | '.join(cells(folder, asked))} |", flush=True)
