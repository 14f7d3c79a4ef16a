#!/usr/bin/env python3
"""Compares how kati and Ninja read Ninja files.

Each text NAME.ninja in scripts/ninja_texts is the build of the makefile NAME.mk in another spelling; its first line has
the makefile's goals after `# goals: `. `kati --check` says whether kati reads a text as the makefile's plan. Ninja
reads a text like kati's own file if `ninja -t targets all`, `-t query` and `-t commands -s` print the same outputs,
inputs and commands.

Both read each text, each beginning of a text, and each text with one byte less or some bytes more at each place above
its last `default` line: some ten thousand texts, in a minute or two. No tool of Ninja prints default targets, so texts
without a `default` line are not compared.

examples:
  scripts/compare_with_ninja.py           the built program
  scripts/compare_with_ninja.py ./kati    another program

exit status:
  0   both agree, except where a difference is known
  1   they do not
  64  wrong usage"""
import argparse
import re
import subprocess
import sys
import tempfile
from collections import Counter
from concurrent.futures import ThreadPoolExecutor
from pathlib import Path

HERE = Path(__file__).resolve().parent
BUILT = HERE.parent / "crates/kati_program/out/kati_program"
ADDED = [b" ", b"\n", b"$", b":", b"|", b"=", b"#", b"x"]
DEFAULT_LINE = re.compile(rb"\ndefault ")

TAKEN, REFUSED, OTHERWISE = "takes it for the plan", "refuses it", "reads something else"

# What kati is known to take in its own way: whether it says that the text is the plan, what Ninja does, and what stands
# in the text.
KNOWN = [
    ("a joined newline where a line begins, which Ninja refuses", True, REFUSED, rb"^ *\$\n"),
    ("a name that goes on after a joined newline; Ninja ends it there", True, REFUSED, rb"\$\w+\$\n *\w"),
    ("a `command` of the file, which Ninja takes where the statement has no block", True, OTHERWISE, rb"^command *="),
    ("the same, where the file's is the command", False, TAKEN, rb"^command *="),
    ("outputs after a bar, which kati refuses", False, TAKEN, rb"^build(\$:|[^:\n])*\|"),
    ("a keyword with no space after it, which kati refuses", False, TAKEN, rb"^build[$=]"),
    ("a `default` line that is joined to the line above it, of which no tool of Ninja's tells", False, TAKEN,
     rb"\$\ndefault "),
]


def ninja(folder, *words):
    """What a tool of Ninja prints, or None where it refuses the file."""
    run = subprocess.run(["ninja", "--quiet", "-t", *words], cwd=folder, capture_output=True)
    return run.stdout if run.returncode == 0 else None


def reading(text):
    """What Ninja tells of a text: its outputs, their inputs and their commands; None where it refuses the text."""
    with tempfile.TemporaryDirectory() as folder:
        Path(folder, "build.ninja").write_bytes(text)
        targets = ninja(folder, "targets", "all")
        if targets is None:
            return None
        outputs = [line.rsplit(b": ", 1) for line in targets.splitlines()]
        names = [name for name, _ in outputs]
        kinds = [rule == b"phony" for _, rule in outputs]
        inputs = ninja(folder, "query", *names) if names else b""
        # Rules may have any names.
        inputs = [line for line in inputs.splitlines() if not line.startswith(b"  input: ")]
        return names, kinds, inputs, ninja(folder, "commands", "-s", *names) if names else b""


class Pair:
    """A makefile, and a text that says its build."""

    def __init__(self, program, path):
        self.name, self.program = path.stem, program
        self.text, self.makefile = path.read_bytes(), path.with_suffix(".mk").read_bytes()
        goals = re.match(rb"# goals: (.*)", self.makefile)
        self.goals = goals[1].decode().split() if goals else []
        self.plan = reading(self.run([], {}).stdout)

    def run(self, words, files):
        """kati on the makefile, in a folder that holds these files."""
        with tempfile.TemporaryDirectory() as folder:
            for name, text in {"Makefile": self.makefile, **files}.items():
                Path(folder, name).write_bytes(text)
            return subprocess.run([self.program, *words, *self.goals], cwd=folder, capture_output=True)

    def is_plan(self, text):
        """Whether kati reads the text as the makefile's plan."""
        status = self.run(["--check", "text"], {"text": text}).returncode
        if status not in (0, 1):
            raise ValueError(f"kati ends with status {status} on {text!r}")
        return status == 0

    def told(self, text):
        """What kati says of a text, and what Ninja does."""
        found = reading(text)
        return self.is_plan(text), REFUSED if found is None else TAKEN if found == self.plan else OTHERWISE

    def texts(self):
        """The text, its beginnings, and what a byte less or more makes of it, each once; those that hold all `default`
        lines."""
        text, found = self.text, [self.text]
        last = [line.start() for line in DEFAULT_LINE.finditer(text)][-1]
        found += [text[:end] for end in range(len(text))]
        for at in range(last):
            found += [text[:at] + text[at + 1:], *(text[:at] + byte + text[at:] for byte in ADDED)]
        lines = len(DEFAULT_LINE.findall(text))
        return [one for one in dict.fromkeys(found) if len(DEFAULT_LINE.findall(one)) == lines]


def known(text, is_plan, does):
    """Why kati is known to read a text otherwise than Ninja, or None."""
    for why, plan, done, pattern in KNOWN:
        if (is_plan, does) == (plan, done) and re.search(pattern, text, re.MULTILINE):
            return why
    return None


class Parser(argparse.ArgumentParser):
    """A parser that ends with the project's status for wrong usage."""

    def error(self, message):
        self.print_usage(sys.stderr)
        self.exit(64, f"{self.prog}: {message}\n")


def main():
    parser = Parser(description=__doc__, formatter_class=argparse.RawDescriptionHelpFormatter)
    parser.add_argument("program", nargs="?", metavar="PROGRAM", default=BUILT, help="the built program")
    program = str(Path(parser.parse_args().program).resolve())
    compared, wrong, reasons = 0, 0, Counter()
    for path in sorted((HERE / "ninja_texts").glob("*.ninja")):
        pair = Pair(program, path)
        if not pair.is_plan(pair.text):
            print(f"{pair.name}: kati does not read it as its makefile's plan")
            wrong += 1
        texts = pair.texts()
        compared += len(texts)
        with ThreadPoolExecutor() as pool:
            for text, (is_plan, does) in zip(texts, pool.map(pair.told, texts)):
                if is_plan == (does == TAKEN):
                    continue
                why = known(text, is_plan, does)
                reasons[why] += 1
                if why is None:
                    wrong += 1
                    print(f"{pair.name}: for kati it is {'' if is_plan else 'not '}the plan, Ninja {does}: {text!r}")
    for why, count in sorted(reasons.items(), key=str):
        if why:
            print(f"{count} texts: {why}")
    print(f"{compared} texts compared, {sum(reasons.values())} read differently, {wrong} of these unknown")
    return 1 if wrong else 0


if __name__ == "__main__":
    sys.exit(main())
