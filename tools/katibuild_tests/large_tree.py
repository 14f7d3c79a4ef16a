#!/usr/bin/env python3
"""Times kati-build --ask in a tree of many folders; run by hand.

    python3 tools/katibuild_tests/large_tree.py [FOLDERS]

Prints seconds of: the first build, a build with nothing to do, a plain ninja with nothing to do, and a plain ninja
after a file has appeared in one folder. Each but the first is the median of five.
"""
from __future__ import annotations

import os
import statistics
import subprocess
import sys
import tempfile
import time
from pathlib import Path

TOOLS = Path(__file__).resolve().parent.parent
MAKEFILE = "SRCS := $(wildcard d*/*.c)\nprog: $(SRCS:.c=.o)\n\t@cat $^ > $@\n%.o: %.c\n\t@cp $< $@\n"


def seconds(words, top):
    """How long a command takes, which must end well."""
    start = time.monotonic()
    subprocess.run(words, cwd=top, check=True, stdout=subprocess.DEVNULL, stderr=subprocess.DEVNULL)
    return time.monotonic() - start


def main():
    count = int(sys.argv[1]) if len(sys.argv) > 1 else 10_000
    with tempfile.TemporaryDirectory() as top:
        for number in range(count):
            os.makedirs(os.path.join(top, f"d{number // 100}", f"e{number % 100}"))
        for number in range(0, count, 100):
            Path(top, f"d{number // 100}", "s.c").write_text(f"{number}\n")
        Path(top, "Makefile").write_text(MAKEFILE)
        build = [sys.executable, "-S", TOOLS / "kati-build", "--ask"]
        print(f"first build: {seconds(build, top):.2f}")
        print(f"nothing to do: {statistics.median(seconds(build, top) for _ in range(5)):.2f}")
        print(f"plain ninja: {statistics.median(seconds(['ninja'], top) for _ in range(5)):.3f}")
        found = []
        for number in range(5):
            Path(top, "d0/e0", f"new{number}").touch()
            found.append(seconds(["ninja"], top))
        print(f"a file has appeared: {statistics.median(found):.2f}")


if __name__ == "__main__":
    main()
