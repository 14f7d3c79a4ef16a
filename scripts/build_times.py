#!/usr/bin/env python3
"""Times kati-build next to kati, and prints a table of processor time (user and system).

kati runs alone, with the list that kati-build made and with its output into a file. kati-build runs without ninja:
first in a folder where it has not run, again with nothing changed, and again after a change of the makefile. The runs
take turns, and the least of each counts. scripts/large_makefiles.py makes the makefiles; sources are empty files.
--tools names another kati-build: an installed one starts faster, because its bytecode is installed, too.

examples:
  scripts/build_times.py                             all cases
  scripts/build_times.py --runs 9 rules              one case
  scripts/build_times.py --tools /usr/local/bin      the installed tools

exit status:
  0   the table is printed
  1   a run failed
  2   wrong usage"""
import argparse
import os
import resource
import shutil
import subprocess
import sys
import tempfile
from pathlib import Path

sys.dont_write_bytecode = True
import large_makefiles as large

ROOT = Path(__file__).resolve().parent.parent
LIST = "build.kati/files.txt"


def with_names_above(count):
    """Rules whose headers stand in a folder beside this one."""
    files, sources = large.rules(count)
    names = [f"../inc/{name}" if name.startswith("h") else name for name in sources]
    return {"Makefile": files["Makefile"].replace(" h", " ../inc/h")}, names


CASES = {
    "rules": (large.rules, 100_000), "above": (with_names_above, 100_000), "pattern": (large.pattern, 100_000),
    "headers": (large.headers, 10_000), "modules": (large.modules, 50_000), "chain": (large.chain, 100_000),
    "included": (large.included, 10_000),
}


def write(folder, files, sources):
    """Writes the makefiles, and an empty file for each source."""
    for name, text in {**files, **dict.fromkeys(sources, "")}.items():
        path = folder / name
        path.parent.mkdir(parents=True, exist_ok=True)
        path.write_text(text)


def processor_time(words, folder):
    """The milliseconds that a command takes and all that it runs."""
    before = resource.getrusage(resource.RUSAGE_CHILDREN)
    with open(folder.parent / "out", "wb") as out:
        subprocess.run(words, cwd=folder, stdin=subprocess.DEVNULL, stdout=out, check=True)
    after = resource.getrusage(resource.RUSAGE_CHILDREN)
    return 1000 * (after.ru_utime + after.ru_stime - before.ru_utime - before.ru_stime)


def forget(folder):
    """Takes away what kati-build made."""
    shutil.rmtree(folder / "build.kati", ignore_errors=True)
    (folder / "build.ninja").unlink(missing_ok=True)


def measure(folder, asked):
    """The times of a case, by what was run."""
    makefile, times = folder / "Makefile", {name: [] for name in ("kati", "first", "again", "changed")}
    text = makefile.read_text()
    build = [sys.executable, "-S", os.path.join(asked.tools, "kati-build"), "--no-ninja", "--kati", asked.kati,
             "--kati-asked", asked.kati_asked]
    for number in range(asked.runs):
        forget(folder)
        times["first"].append(processor_time(build, folder))
        times["again"].append(processor_time(build, folder))
        times["kati"].append(processor_time([asked.kati, "--files", LIST], folder))
        makefile.write_text(f"{text}all: more\nmore: ; echo {number}\n")
        times["changed"].append(processor_time(build, folder))
        makefile.write_text(text)
    return {name: min(found) for name, found in times.items()}


def main():
    parser = argparse.ArgumentParser(description=__doc__, formatter_class=argparse.RawDescriptionHelpFormatter)
    parser.add_argument("cases", nargs="*", metavar="CASE", choices=[[], *CASES], help=", ".join(CASES))
    parser.add_argument("--kati", default=str(ROOT / "crates/kati_program/out/kati_program"), metavar="PROGRAM",
                        help="the built program")
    parser.add_argument("--kati-asked", default=str(ROOT / "crates/kati_asked/out/kati_asked"), metavar="PROGRAM",
                        help="the built kati-asked")
    parser.add_argument("--tools", default=str(ROOT / "tools"), metavar="FOLDER", help="where kati-build is")
    parser.add_argument("--runs", type=int, default=5, metavar="N", help="runs of each, 5 without it")
    parser.add_argument("--small", action="store_true", help="a hundredth of each size")
    asked = parser.parse_args()
    # They run in other folders.
    asked.kati, asked.kati_asked, asked.tools = map(os.path.abspath, (asked.kati, asked.kati_asked, asked.tools))
    print("| Case | N | kati | kati-build first | again | changed | first to kati | again | changed |")
    print("|---|---|---|---|---|---|---|---|---|")
    for name in asked.cases or CASES:
        make_files, size = CASES[name]
        size = size // 100 if asked.small else size
        with tempfile.TemporaryDirectory(prefix="build_times_") as room:
            write(Path(room) / "tree", *make_files(size))
            found = measure(Path(room) / "tree", asked)
        kati, *others = found.values()
        cells = [f"{one:,.0f}" for one in found.values()] + [f"{one / kati:.2f}" for one in others]
        print(f"| {name} | {size:,} | {' | '.join(cells)} |", flush=True)


if __name__ == "__main__":
    try:
        main()
    except (OSError, subprocess.CalledProcessError) as error:
        sys.exit(f"build_times.py: {error}")
