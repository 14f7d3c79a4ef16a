#!/usr/bin/env python3
"""Shows where the built kati's time goes, case by case, in a table that is in no document.

Each case of the table "The whole program" of docs/BENCHMARKS.md runs at half its larger size under `perf record`
(Debian's package linux-perf). Each sample counts for the first group that its function belongs to. Shares are in
percent of a run's samples; those below one percent are left out.

examples:
  scripts/where_time_goes.py            the table, of the built program
  scripts/where_time_goes.py --small    a hundredth of each size, to try the script

exit status:
  0   the table is printed
  2   wrong usage"""
import argparse
import re
import subprocess
import tempfile
from collections import Counter
from pathlib import Path

import times

# The groups, in the order in which they are asked; a function is told by its path, and one of the kernel's by `[k]`.
GROUPS = [
    ("Pages", r"\[k\] "),
    ("Memory", r"\[\.\] ((_int_|__libc_)?(malloc|free|realloc|calloc|memalign)|c?free@"
               r"|malloc_consolidate|unlink_chunk|sysmalloc"
               r"|rattle_(alloc|dealloc|realloc)|std_alloc::.*grow|.*Destruct.*::drop)"),
    ("Reading and expanding", r"\[\.\] kt_(text|syntax|eval)::"),
    ("Rules", r"\[\.\] kt_rules::"),
    ("Recipes", r"\[\.\] kt_recipe::"),
    ("Ninja text", r"\[\.\] kt_ninja(_reader)?::"),
    ("Graph and plan", r"\[\.\] (kt_graph|kati|kati_args|kati_program|kt_list)::"),
    ("Names hashed, sorted", r"\[\.\] .*(indexmap|index_table|hash|sip|sort)"),
    ("Bytes searched, copied", r"\[\.\] .*(memchr|memcpy|memmove|memset|memcmp|memmem|bstr|slice|iter)"),
    ("Else", r""),
]
SHOWN = ["Memory", "Pages", "Reading and expanding", "Rules", "Graph and plan", "Recipes", "Ninja text",
         "Bytes searched, copied", "Names hashed, sorted", "Else"]
SAMPLE = re.compile(r"\s*([\d.]+)%\s+(\[[.k]\] .*?)\s*$")


def shares(kati, folder):
    """The share of each group in one run in this folder."""
    data = folder / "perf.data"
    subprocess.run(["perf", "record", "-q", "-F", "4000", "-o", data, kati, "-f", "Makefile", "--files", times.LIST],
                   cwd=folder, stdout=subprocess.DEVNULL, stderr=subprocess.DEVNULL, check=True)
    asked = ["perf", "report", "-i", data, "--stdio", "--no-children", "-F", "overhead,sym", "--percent-limit", "0"]
    report = subprocess.run(asked, capture_output=True, text=True, check=True).stdout
    found = Counter()
    for line in report.splitlines():
        if sample := SAMPLE.match(line):
            group = next(name for name, pattern in GROUPS if re.match(pattern, sample.group(2)))
            found[group] += float(sample.group(1))
    return found


def row(kati, label, make, size):
    with tempfile.TemporaryDirectory(prefix="where_time_goes_") as name:
        folder = Path(name)
        times.write(folder, *make(size))
        found = shares(kati, folder)
    cells = [f"{found[name]:.0f}" if found[name] >= 0.5 else "-" for name in SHOWN]
    return f"| {label} | {size:,} | {' | '.join(cells)} |"


def main():
    parser = argparse.ArgumentParser(description=__doc__, formatter_class=argparse.RawDescriptionHelpFormatter)
    parser.add_argument("--kati", type=Path, default=times.BUILT, metavar="PROGRAM", help="the built program")
    parser.add_argument("--small", action="store_true", help="a hundredth of each size")
    asked = parser.parse_args()
    print("| Case | N |", " | ".join(SHOWN), "|")
    print("|---" * (2 + len(SHOWN)) + "|")
    for label, make, sizes in times.TRANSLATING:
        size = sizes[1] // 2
        print(row(asked.kati.resolve(), label, make, size // 100 if asked.small else size), flush=True)


if __name__ == "__main__":
    main()
