#!/usr/bin/env python3
"""Tries the cases in memory, before anything is proved: builds crates/kati_cases with `rt try`, and runs it.

It tries all cases, those of the named files, or those of --case. It prints each case that fails with the part that
differs (status, output, error output, names asked for), then `N passed, M failed`. `K skipped` counts cases that need a
host: scripts/run_cases.py runs these with the built program. docs/DEVELOPING.md has the format of a case. With all
cases, the stored run crates/kati_cases/stdout is compared, too: a line that it lacks, or that no case prints, is a
failure.

`rt try` compiles the crates with checks and proves nothing. It keeps nothing, and takes two to three processor minutes
each time.

examples:
  scripts/try_cases.py                                 all of crates/kati_cases/data
  scripts/try_cases.py --case 'one rule' --case 'double colon'
  scripts/try_cases.py crates/kati_cases/data/porting.cases

exit status:
  0   each case passed, and the stored run is that of the cases
  1   a case failed, or the stored run differs
  2   nothing was tried: the program was not built, or stopped
  64  wrong usage, or an unknown file or case"""
import argparse
import difflib
import re
import subprocess
import sys
import tempfile
from pathlib import Path

ROOT = Path(__file__).resolve().parent.parent
CRATE = ROOT / "crates/kati_cases"
DATA = CRATE / "data"
# How a line of the program begins, after two spaces.
PASSED, FAILED, HOST = "passed: ", "FAILED by its ", "host: "


class Parser(argparse.ArgumentParser):
    """A parser that ends with the project's status for wrong usage."""

    def error(self, message):
        self.print_usage(sys.stderr)
        self.exit(64, f"{self.prog}: {message}\n")


def names_of_files(parser):
    """The files that the program reads, in its order; each file of cases is one of them."""
    code = (CRATE / "src/main.rt").read_text(encoding="utf-8")
    named = re.findall(r'"(\w+)"', re.search(r"const FILES[^=]*= \[(.*?)\];", code, re.DOTALL).group(1))
    left_out = sorted({path.stem for path in DATA.glob("*.cases")} - set(named))
    if left_out:
        parser.error(f"not in FILES of crates/kati_cases/src/main.rt: {', '.join(left_out)}")
    return named


def cases_in(text):
    """The cases of a file, each its name and its bytes."""
    for part in re.split(rb"^(?=case )", text, flags=re.MULTILINE)[1:]:
        yield part.split(b"\n", 1)[0][len(b"case "):].decode(), part


def chosen_texts(parser, words, named):
    """The text of each file that the program reads, without the cases that aren't asked for."""
    texts, missing = dict.fromkeys(named, b""), set(words.case or ())
    for path in words.files or [DATA / f"{name}.cases" for name in named]:
        path = Path(path)
        if path.stem not in texts or not path.is_file():
            parser.error(f"no file of cases that crates/kati_cases reads: {path}")
        for name, text in cases_in(path.read_bytes()):
            if not words.case or name in words.case:
                texts[path.stem] += text
                missing.discard(name)
    if missing:
        parser.error(f"no case: {', '.join(sorted(missing))}")
    return texts


def printed(words, texts):
    """What the program prints of these files, or None where it has no status 0."""
    with tempfile.TemporaryDirectory(prefix="kati-cases-") as folder:
        command = [words.rt, "try", "--seconds", str(words.seconds)]
        for name, text in texts.items():
            path = Path(folder, f"{name}.cases")
            path.write_bytes(text)
            command += ["--data", f"{path.name}={path}"]
        try:
            done = subprocess.run(command, cwd=CRATE, stdin=subprocess.DEVNULL, stdout=subprocess.PIPE,
                                  stderr=subprocess.PIPE, check=False)
        except OSError as error:
            print(f"{words.rt}: {error.strerror}")
            return None
    if done.returncode:
        print(done.stderr.decode(errors="replace").rstrip())
        return None
    return done.stdout.decode(errors="replace")


def told(lines):
    """Prints the cases that failed, and answers how many passed, failed and were skipped."""
    file, passed, failed, skipped = "", 0, 0, 0
    for line in lines:
        word = line.strip()
        if not line.startswith("  "):
            file = line
        elif word.startswith(FAILED):
            failed += 1
            print(f"{file}.cases: {word}")
        else:
            passed, skipped = passed + word.startswith(PASSED), skipped + word.startswith(HOST)
    return passed, failed, skipped


def compare_with_stored(lines):
    """Prints the lines by which the stored run differs from this one, and answers how many. A case that fails has its
    line with `passed: ` there."""
    wanted = [re.sub(f"^  {FAILED}[a-z ]*: ", f"  {PASSED}", line) for line in lines]
    stored = (CRATE / "stdout").read_text(encoding="utf-8").splitlines()
    found = [line for line in difflib.ndiff(stored, wanted) if line[0] in "+-"]
    for line in found:
        print(f"crates/kati_cases/stdout {'lacks' if line[0] == '+' else 'has'} the line: {line[2:]}")
    return len(found)


def main():
    parser = Parser(description=__doc__, formatter_class=argparse.RawDescriptionHelpFormatter)
    parser.add_argument("--case", action="append", metavar="NAME", help="only the case of this name; may be repeated")
    parser.add_argument("--rt", default="rt", metavar="COMMAND", help="the toolchain's command; rt without it")
    parser.add_argument("--seconds", type=int, default=300, metavar="N",
                        help="the limit of the program; 300 without it")
    parser.add_argument("files", nargs="*", metavar="FILE.cases",
                        help="files of cases, under names that crates/kati_cases reads; without one all")
    words = parser.parse_args()
    out = printed(words, chosen_texts(parser, words, names_of_files(parser)))
    if out is None:
        return 2
    passed, failed, skipped = told(out.splitlines())
    if not words.case and not words.files:
        failed += compare_with_stored(out.splitlines())
    print(f"{passed} passed, {failed} failed" + (f", {skipped} skipped" if skipped else ""))
    return 1 if failed else 0


if __name__ == "__main__":
    sys.exit(main())
