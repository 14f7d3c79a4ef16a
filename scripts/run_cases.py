#!/usr/bin/env python3
"""Runs a built kati on the cases, each in an empty folder of its own.

It prints the cases that fail, then 'N passed, M failed'. docs/DEVELOPING.md has the format of a case. What a case does
not name is not compared, and neither are the names of the files that kati tries to read.

examples:
  scripts/run_cases.py crates/kati_program/out/kati_program     all of crates/kati_cases/data
  scripts/run_cases.py ./kati crates/kati_cases/data/porting.cases
  scripts/run_cases.py ./kati --case 'one rule'

scripts/try_cases.py tries the cases before a program is built.

exit status:
  0   each case passed
  1   a case failed
  64  wrong usage, or an unknown case"""
import argparse
import glob
import os
import re
import subprocess
import sys
import tempfile

SECONDS = 60
DATA = os.path.join(os.path.dirname(os.path.abspath(__file__)), "..", "crates", "kati_cases", "data")


def bytes_of(word):
    """The bytes of a word in which a backslash and two digits stand for a byte."""
    return re.sub(rb"\\([0-9a-f]{2})", lambda m: bytes([int(m.group(1), 16)]), word)


def copies_of(line):
    """The bytes of a line of copies: `*N TEXT`, and with numbers `#FROM N TEXT`, or `~FROM N TEXT` in byte order."""
    mark, rest = line[:1], line[1:]
    if mark == b"*":
        times, text = rest.split(b" ", 1)
        return bytes_of(text) * int(times)
    first, times, text = rest.split(b" ", 2)
    numbers = range(int(first), int(first) + int(times))
    if mark == b"~":
        numbers = sorted(numbers, key=str)
    text = bytes_of(text)
    return b"".join(text.replace(b"{i+1}", b"%d" % (i + 1)).replace(b"{i}", b"%d" % i) for i in numbers)


def text_of(line):
    """The bytes that a line of a text stands for."""
    if line[:1] == b"|":
        return line[1:] + b"\n"
    if line[:1] == b">":
        return line[1:]
    return bytes_of(line[1:]) if line[:1] == b"?" else copies_of(line)


def cases_in(path):
    """The cases of a file: each a list of its lines' keywords, words and texts."""
    cases = []
    with open(path, "rb") as file:
        for line in file.read().split(b"\n"):
            if not line:
                continue
            if line[:1] in b"|>?*#~":
                cases[-1][-1][2] += text_of(line)
                continue
            keyword, _, word = line.partition(b" ")
            if keyword == b"case":
                cases.append([])
            cases[-1].append([keyword, bytes_of(word), b""])
    return cases


def holds(out, wanted):
    """Whether the lines stand in the output in this order."""
    lines = iter(out.split(b"\n"))
    return all(any(line == want for line in lines) for want in wanted)


def outcome(program, case, folder):
    """What the program does in a folder with the case's files."""
    for keyword, name, text in case:
        if keyword == b"file":
            path = os.path.join(os.fsencode(folder), name)
            os.makedirs(os.path.dirname(path), exist_ok=True)
            with open(path, "wb") as file:
                file.write(text)
    pipes = {b"out": subprocess.PIPE, b"err": subprocess.PIPE}
    full = [word for keyword, word, _ in case if keyword == b"full"]
    for name in full:
        pipes[name] = open("/dev/full", "wb")
    words = [word for keyword, word, _ in case if keyword == b"arg"]
    try:
        return subprocess.run([program] + words, cwd=folder, stdin=subprocess.DEVNULL, stdout=pipes[b"out"],
                              stderr=pipes[b"err"], timeout=SECONDS)
    finally:
        for name in full:
            pipes[name].close()


def differences(case, done):
    """What the program did otherwise than the case says."""
    for keyword, word, text in case:
        if keyword == b"status" and done.returncode != int(word):
            yield "status %d, not %d" % (done.returncode, int(word))
        if keyword == b"out" and done.stdout != text:
            yield "output %r" % done.stdout[:400]
        if keyword == b"err" and done.stderr != text:
            yield "error output %r" % done.stderr[:400]
        if keyword == b"has" and not holds(done.stdout, text.split(b"\n")[:-1]):
            yield "output without its lines: %r" % done.stdout[:400]


def faults_of(program, case, folder):
    """What is wrong with a run of the case."""
    try:
        return list(differences(case, outcome(program, case, folder)))
    except subprocess.TimeoutExpired:
        return ["no end in %d seconds" % SECONDS]


class Parser(argparse.ArgumentParser):
    """A parser that ends with the project's status for wrong usage."""

    def error(self, message):
        self.print_usage(sys.stderr)
        self.exit(64, "%s: %s\n" % (self.prog, message))


def main():
    parser = Parser(description=__doc__, formatter_class=argparse.RawDescriptionHelpFormatter)
    parser.add_argument("program", metavar="PROGRAM", help="the built program")
    parser.add_argument("--case", action="append", metavar="NAME", help="only the case of this name; may be repeated")
    parser.add_argument("files", nargs="*", metavar="FILE.cases",
                        help="files of cases; without one, all of the repository")
    words = parser.parse_args()
    program, asked = os.path.abspath(words.program), {name.encode() for name in words.case or ()}
    paths = words.files or sorted(glob.glob(os.path.join(DATA, "*.cases")))
    found = [(path, case) for path in paths for case in cases_in(path) if not asked or case[0][1] in asked]
    missing = asked - {case[0][1] for _, case in found}
    if missing:
        parser.error("no case: " + b", ".join(sorted(missing)).decode())
    passed = failed = 0
    for path, case in found:
        with tempfile.TemporaryDirectory() as folder:
            wrong = faults_of(program, case, folder)
        passed, failed = (passed, failed + 1) if wrong else (passed + 1, failed)
        for line in wrong:
            print("%s: %s: %s" % (os.path.basename(path), case[0][1].decode(), line))
    print("%d passed, %d failed" % (passed, failed))
    return 1 if failed else 0


if __name__ == "__main__":
    sys.exit(main())
