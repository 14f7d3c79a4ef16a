#!/usr/bin/env python3
"""Times the built kati next to ckati, make and ninja, and prints the tables of docs/BENCHMARKS.md.

TABLE is one of translating, units, layers, text, reading, hostile, files, nothing; without one, all tables are made.
scripts/large_makefiles.py makes the makefiles. The tools run in turn. The least time of the runs counts, and the most
memory. kati has a stack of 8 MB, the others 1 GB, because ckati needs it for a chain of 100,000 targets.

Needed are /usr/bin/time and, for their columns, the Debian packages ckati, make and ninja-build. The table "units"
needs a C compiler for the object that counts allocations, and valgrind, which counts instructions. Both counts are the
same in each run.

examples:
  scripts/times.py                      all tables
  scripts/times.py --runs 1 hostile     one table, each case once
  scripts/times.py --small              a hundredth of each size, to try the script
  scripts/times.py --record units       also puts the table into docs/BENCHMARKS.md
  scripts/times.py --picture            draws docs/times.svg from the first table of docs/BENCHMARKS.md

exit status:
  0   the tables are printed
  2   wrong usage"""
import argparse
import os
import re
import shutil
import subprocess
import sys
import tempfile
from pathlib import Path

sys.dont_write_bytecode = True
import large_makefiles as large
from refusing.runs import CannotTry, Record, RECORD, built_object
from timing import ninja_files, nothing, picture, recording
from timing.tools import LIST, MEGABYTE, Tool, ratio, run_all, write

ROOT = Path(__file__).resolve().parent.parent
BUILT = ROOT / "crates/kati_program/out/kati_program"
BUILT_ASKED = ROOT / "crates/kati_asked/out/kati_asked"
FIGURES, PICTURE = ROOT / "docs/BENCHMARKS.md", ROOT / "docs/times.svg"
# How often the memory of a unit is measured.
PEAKS = 3
PLAN = "plan.ninja"
MAKE = ["make", "-n", "-r", "-R"]
CKATI = ["ckati", "--ninja", "--no_builtin_rules", "-f", "Makefile"]

# What the makefile is, how it is made, and its sizes; with make alone where ckati doesn't know what stands in it.
TRANSLATING = [
    ("one-line rules", large.rules, (10_000, 100_000)),
    ("targets made by a pattern rule", large.pattern, (10_000, 100_000)),
    ("targets made by a chain of two pattern rules", large.two_patterns, (1_000, 10_000)),
    ("modules of rules with macros", large.modules, (5_000, 50_000)),
    ("included files", large.included, (1_000, 10_000)),
    ("words through text functions", large.text_functions, (10_000, 100_000)),
    ("targets in a chain", large.chain, (10_000, 100_000)),
    ("prerequisites of one target", large.prerequisites, (10_000, 100_000)),
    ("objects with a hundred headers each", large.headers, (1_000, 10_000)),
    ("recipes of ten lines", large.recipes, (1_000, 10_000)),
    ("macro assignments", large.macros, (10_000, 100_000)),
    ("conditionals", large.conditionals, (10_000, 100_000)),
]
LAYERS = [
    ("nodes with a recipe of ten lines", large.canned_recipes, (10_000, 100_000)),
    ("prerequisites of one target, in `$^` and `$(^F)`", large.lists_of_names, (10_000, 100_000)),
    ("targets of a static pattern rule", large.static_pattern, (10_000, 100_000)),
    ("targets of one group", large.group, (1_000, 10_000)),
]
TEXT = [
    ("`sort`", large.sorted_words, (100_000, 1_000_000)),
    ("`sort` of words that differ", large.sorted_distinct, (100_000, 1_000_000)),
    ("`filter` by 10,000 words", large.filtered, (100_000, 1_000_000)),
    ("`patsubst`", large.substituted, (100_000, 1_000_000)),
    ("a line continued after each word", large.continued, (100_000, 1_000_000)),
]
WITHOUT_CKATI = (large.two_patterns, large.group)
HOSTILE = [
    ("a chain of 100,000 targets", large.chain, 100_000),
    ("100,000 nested conditionals", large.nested_conditionals, 100_000),
    ("30,000 suffixes, as many bare targets", large.suffixes, 30_000),
    ("16 MB of `#`", lambda size: large.repeated(size, "#"), large.MOST),
    ("16 MB of `$(`", lambda size: large.repeated(size, "$("), large.MOST),
    ("16 MB of backslashes", lambda size: large.repeated(size, "\\"), large.MOST),
    ("16 MB of one name", lambda size: large.repeated(size, "x", ": ;\n"), large.MOST),
]


def tools(asked, with_ckati=True):
    """kati, ckati and make, as far as they are there."""
    found = [Tool("kati", [asked.kati, "-f", "Makefile", "--files", LIST], 8 * MEGABYTE)]
    if with_ckati and shutil.which("ckati"):
        found.append(Tool("ckati", CKATI, 1024 * MEGABYTE))
    if shutil.which("make"):
        found.append(Tool("make", MAKE, 1024 * MEGABYTE))
    return found


def compare(rows, asked):
    """Prints a row for each size of each makefile: kati beside the others."""
    print("| Case | N | kati | Growth | ckati | `make -n` | kati to ckati | kati to make | Memory to ckati |")
    print("|---|---|---|---|---|---|---|---|---|")
    for name, make_files, sizes in rows:
        found = {tool.name: tool for tool in tools(asked, make_files not in WITHOUT_CKATI)}
        for size in sizes:
            size = max(size // 100, 1) if asked.small else size
            compare_one(f"{name} | {size:,}", make_files(size), found, asked)


def compare_one(row, made, found, asked):
    absent = Tool("absent", [], 0)
    with tempfile.TemporaryDirectory(prefix="times_") as name:
        folder = Path(name)
        write(folder, *made)
        for tool in found.values():
            tool.next_size()
        run_all(list(found.values()), folder, asked)
        loads = loads_in_ninja(folder, folder / "kati.out")
    kati, ckati, make = (found.get(name, absent) for name in ("kati", "ckati", "make"))
    cells = [kati.told() + loads, kati.growth(), ckati.told(), make.told()]
    cells += [ratio(kati, ckati, "seconds"), ratio(kati, make, "seconds"), ratio(kati, ckati, "bytes")]
    print(f"| {row} | {' | '.join(cells)} |", flush=True)


def loads_in_ninja(folder, text):
    """Nothing where ninja takes the text, or isn't there."""
    if not shutil.which("ninja"):
        return ""
    run = subprocess.run(["ninja", "-f", str(text), "-t", "targets", "all"], cwd=folder, capture_output=True)
    return "" if run.returncode == 0 else ", ninja refuses it"


def read_back(asked):
    """Prints how long kati takes to write a Ninja file and to check it, and ninja to read it and list its targets."""
    print("| N | Bytes | kati | Growth | `kati --check` | Growth | `ninja -t targets all` | Growth |")
    print("|---|---|---|---|---|---|---|---|")
    kati = Tool("kati", [asked.kati, "--files", LIST], 8 * MEGABYTE)
    check = Tool("check", [*kati.words, "--check", PLAN], 8 * MEGABYTE)
    ninja = Tool("ninja", ["ninja", "-f", PLAN, "-t", "targets", "all"], 1024 * MEGABYTE)
    for size in (10_000, 100_000):
        size = size // 100 if asked.small else size
        with tempfile.TemporaryDirectory(prefix="times_") as name:
            folder = Path(name)
            write(folder, *large.pattern(size))
            with open(folder / PLAN, "wb") as out:
                subprocess.run(kati.words, cwd=folder, stdout=out, check=True)
            for tool in (kati, check, ninja):
                tool.next_size()
            run_all([kati, check, ninja], folder, asked)
            cells = [f"{size:,}", f"{os.path.getsize(folder / PLAN):,}"]
        for tool in (kati, check, ninja):
            cells += [tool.told(), tool.growth()]
        print(f"| {' | '.join(cells)} |", flush=True)


def hostile(asked):
    """Prints the status, time and memory of kati alone on texts that someone might send to harm it."""
    print("| Makefile | Bytes | Status | Seconds | MB | Memory over size |")
    print("|---|---|---|---|---|---|")
    for row, make_files, size in HOSTILE:
        kati = Tool("kati", [asked.kati, "-f", "Makefile"], 8 * MEGABYTE)
        with tempfile.TemporaryDirectory(prefix="times_") as name:
            size = write(Path(name), *make_files(size // 100 if asked.small else size))
            run_all([kati], Path(name), asked)
        seconds = "-" if kati.seconds is None else f"{kati.seconds:.2f}"
        cells = [row, f"{size:,}", str(kati.status), seconds]
        cells += [f"{kati.bytes / MEGABYTE:.0f}", f"{kati.bytes / size:.1f}"]
        print(f"| {' | '.join(cells)} |", flush=True)


def allocations(words, folder, shared_object):
    """How many times a run asks for memory."""
    record = folder / "record"
    record.write_bytes(bytes(RECORD.size))
    subprocess.run(words, cwd=folder, env=dict(os.environ, LD_PRELOAD=shared_object, REFUSE_RECORD=str(record)),
                   stdout=subprocess.DEVNULL, check=True)
    return Record(*RECORD.unpack(record.read_bytes())).growth


def instructions(words, folder):
    """How many instructions a run takes."""
    counting = ["valgrind", "--tool=callgrind", "--callgrind-out-file=/dev/null", *words]
    run = subprocess.run(counting, cwd=folder, stdout=subprocess.DEVNULL, stderr=subprocess.PIPE, text=True, check=True)
    return int(re.search(r"Collected : (\d+)", run.stderr)[1])


def unit_figures(make_files, size, asked, shared_object):
    """Instructions and allocations of one run."""
    words = [asked.kati, "-f", "Makefile", "--files", LIST]
    with tempfile.TemporaryDirectory(prefix="times_") as name:
        folder = Path(name)
        write(folder, *make_files(size))
        return instructions(words, folder), allocations(words, folder, shared_object)


def peak(make_files, size, asked):
    """The least peak of a few runs, in bytes: it varies by some 100 KB."""
    kati = Tool("kati", [asked.kati, "-f", "Makefile", "--files", LIST], 8 * MEGABYTE)
    with tempfile.TemporaryDirectory(prefix="times_") as name:
        folder = Path(name)
        write(folder, *make_files(size))
        peaks = []
        for _ in range(PEAKS):
            kati.bytes = 0
            kati.run(folder, asked.seconds)
            peaks.append(kati.bytes)
        return min(peaks)


def units(asked):
    """Prints what one unit more costs: the difference of two sizes, a fifth and two fifths of a case's smaller one; of
    memory, of that size and of twice as much."""
    print("| Case | Instructions a unit | Allocations a unit | Bytes a unit at the peak |")
    print("|---|---|---|---|")
    with tempfile.TemporaryDirectory(prefix="times_") as folder:
        shared_object = built_object(folder)
        for label, make_files, sizes in TRANSLATING:
            full = max(sizes[0] // 100 if asked.small else sizes[0], 1)
            size = max(full // 5, 1)
            one, two = (unit_figures(make_files, n, asked, shared_object) for n in (size, 2 * size))
            more = [(after - before) / size for before, after in zip(one, two)]
            memory = peak(make_files, 2 * full, asked) - peak(make_files, full, asked)
            # A peak of few pages doesn't tell what a unit takes.
            told = f"{memory / full:,.0f}" if memory >= MEGABYTE // 4 else "-"
            print(f"| {label} | {more[0]:,.0f} | {more[1]:,.1f} | {told} |", flush=True)


TABLES = {
    "translating": ("The whole program", lambda asked: compare(TRANSLATING, asked)),
    "units": ("What a unit costs", units),
    "layers": ("Large nodes and lists of names", lambda asked: compare(LAYERS, asked)),
    "text": ("Text functions", lambda asked: compare(TEXT, asked)),
    "reading": ("Reading a Ninja file", read_back),
    "hostile": ("Hostile makefiles", hostile),
    "files": ("The Ninja files of kati and ckati", lambda asked: ninja_files.print_table(asked, CKATI)),
    "nothing": ("A build with nothing to do", nothing.print_table),
}


def record(title, printed):
    """Puts a table that was printed into the document."""
    try:
        text = recording.recorded(FIGURES.read_text(encoding="utf-8"), title, printed)
    except ValueError as why:
        sys.exit(f"times.py: {why}")
    FIGURES.write_text(text, encoding="utf-8")


def main():
    parser = argparse.ArgumentParser(description=__doc__, formatter_class=argparse.RawDescriptionHelpFormatter)
    parser.add_argument("tables", nargs="*", metavar="TABLE", choices=[[], *TABLES], help=", ".join(TABLES))
    parser.add_argument("--kati", default=str(BUILT), metavar="PROGRAM", help="the built program")
    parser.add_argument("--kati-asked", default=str(BUILT_ASKED), metavar="PROGRAM",
                        help="the built kati-asked, for the table `nothing`")
    parser.add_argument("--runs", type=int, default=3, metavar="N", help="runs of each, 3 without it")
    parser.add_argument("--seconds", type=int, default=60, metavar="N",
                        help="the limit of a run; 60 without it")
    parser.add_argument("--small", action="store_true", help="a hundredth of each size")
    parser.add_argument("--picture", action="store_true",
                        help="draw docs/times.svg from docs/BENCHMARKS.md, and run nothing")
    parser.add_argument("--record", action="store_true",
                        help="put each table into docs/BENCHMARKS.md")
    asked = parser.parse_args()
    if asked.record and asked.small:
        parser.error("--record wants the sizes of the document")
    if asked.picture:
        PICTURE.write_text(picture.draw(picture.rows_of(FIGURES.read_text())))
        return
    asked.kati, asked.kati_asked = map(os.path.abspath, (asked.kati, asked.kati_asked))
    if not os.access(asked.kati, os.X_OK):
        sys.exit(f"{asked.kati} is not built: (cd crates/kati_program && rt run -- --help > /dev/null)")
    for name in asked.tables or TABLES:
        title, print_table = TABLES[name]
        print(f"## {title}\n", flush=True)
        try:
            with recording.kept() as printed:
                print_table(asked)
        except CannotTry as why:
            sys.exit(f"times.py: {why}")
        print(flush=True)
        if asked.record:
            record(title, printed.getvalue())


if __name__ == "__main__":
    main()
