"""Each growth, read and write refused in turn, on a few cases (scripts/refuse_growths.py).

Run it by `python3 -m unittest discover tools/tests` at the top of the repository. The program is that of the
environment variable KATI, or the built one.
"""
import os
import re
import shutil
import subprocess
import sys
import tempfile
import unittest
from pathlib import Path

sys.dont_write_bytecode = True
TOP = Path(__file__).resolve().parents[2]
sys.path.insert(0, str(TOP / "scripts"))
from refusing.outcomes import Outcome, allowed_outcomes  # noqa: E402
from refusing.runs import Record, Refusal  # noqa: E402

SCRIPT = TOP / "scripts/refuse_growths.py"
KATI = Path(os.environ.get("KATI") or TOP / "crates/kati_program/out/kati_program")

# A program for the case `one rule` alone, with one mistake for each test.
PROGRAM = r"""
#include <fcntl.h>
#include <stdlib.h>
#include <string.h>
#include <unistd.h>

static const char text[] = "# kati\nrule r0\n command = /bin/sh -c 'cc -c a.c -o a.o'\n"
                           "build a.o: r0 a.c\ndefault a.o\n";

static int fails(int status, const char *line)
{
    (void)!write(2, line, strlen(line));
    return status;
}

static int put(const char *bytes, size_t size)
{
    while (size > 0) {
        ssize_t count = write(1, bytes, size);
        if (count < 0 || (count == 0 && !EMPTY_WRITES))
            return 0;
        if (WRITES_ONCE)
            return 1;
        bytes += count;
        size -= count;
    }
    return 1;
}

int main(void)
{
    char bytes[100], *first = malloc(10), *second;
    ssize_t count;
    int file;

    if (!first && CRASHES)
        abort();
    if (!first)
        return fails(4, MEMORY);
    file = open("Makefile", O_RDONLY);
    while ((count = read(file, bytes, READS_AT_ONCE ? 100 : 50)) > 0)
        if (READS_AT_ONCE)
            break;
    if (count < 0)
        return fails(3, "kati: cannot read Makefile\n");
    if (READS_AT_ONCE && count < 20)
        return fails(2, "Makefile:1: *** missing separator [E05]\n");
    if (!put(text, EARLY ? 7 : 0))
        return fails(3, "kati: cannot write\n");
    second = realloc(first, 20);
    if (!second)
        return fails(4, MEMORY);
    if (!put(text + (EARLY ? 7 : 0), sizeof text - 1 - (EARLY ? 7 : 0)))
        return fails(3, FAILURE);
    return 0;
}
"""
RIGHT = {"EMPTY_WRITES": "0", "WRITES_ONCE": "0", "CRASHES": "0", "READS_AT_ONCE": "0", "EARLY": "0",
         "MEMORY": r'"kati: no memory\n"', "FAILURE": r'"kati: cannot write\n"'}


def run_script(*words):
    """The script's exit status, and what it prints."""
    done = subprocess.run([sys.executable, str(SCRIPT)] + [str(word) for word in words], stdout=subprocess.PIPE,
                          stderr=subprocess.STDOUT, timeout=600)
    return done.returncode, done.stdout.decode()


@unittest.skipUnless(shutil.which("cc"), "no C compiler (cc)")
@unittest.skipUnless(os.access(KATI, os.X_OK), "no built program")
class Kati(unittest.TestCase):
    def test_quick_form(self):
        status, shown = run_script("--quick", "--jobs", 2, KATI)
        self.assertEqual(status, 0, shown)
        self.assertRegex(shown, r"(?m)^wrong: 0$")
        self.assertEqual(shown.splitlines()[-1], "5 passed, 0 failed")
        for call in ("growths", "reads", "writes"):
            self.assertGreater(int(re.search(r"(?m)^%s: (\d+);" % call, shown).group(1)), 0, shown)


@unittest.skipUnless(shutil.which("cc"), "no C compiler (cc)")
class Mistakes(unittest.TestCase):
    """The script finds the mistake of a program."""

    def built(self, folder, words, **mistakes):
        source = Path(folder) / "program.c"
        source.write_text(PROGRAM, encoding="ascii")
        values = ["-D%s=%s" % pair for pair in dict(RIGHT, **mistakes).items()]
        compiled = subprocess.run(["cc", "-O0", "-o", str(source.with_suffix("")), str(source)] + values + words)
        if words and compiled.returncode != 0:
            self.skipTest("cc can't link by " + " ".join(words))
        self.assertEqual(compiled.returncode, 0)
        return source.with_suffix("")

    def outcome(self, words=(), **mistakes):
        with tempfile.TemporaryDirectory() as folder:
            program = self.built(folder, list(words), **mistakes)
            return run_script("--case", "one rule", "--jobs", 1, program)

    def assert_wrong(self, call, **mistakes):
        status, shown = self.outcome(**mistakes)
        self.assertEqual(status, 1, shown)
        self.assertIn("one rule: " + call, shown)
        self.assertEqual(shown.splitlines()[-1], "0 passed, 1 failed")

    def test_none(self):
        status, shown = self.outcome()
        self.assertEqual(status, 0, shown)
        growths, reads, writes = shown.splitlines()[1:4]
        self.assertEqual(growths, "growths: 2; refused: 2 fail (0 as the case)")
        self.assertEqual(reads, "reads: 2; refused: 2 fail (0 as the case), 2 one (2 as the case)")
        self.assertEqual(writes, "writes: 1; refused: 1 fail (0 as the case), 1 one (1 as the case),"
                                 " 1 none (0 as the case)")

    def test_crash(self):
        self.assert_wrong("growth 1, fail: status -6", CRASHES="1")

    def test_other_line(self):
        self.assert_wrong("growth 2, fail: status 4", MEMORY=r'"out of memory\n"')

    def test_output_before_memory_is_refused(self):
        self.assert_wrong("growth 2, fail: status 4, output b'# kati", EARLY="1")

    def test_short_read_taken_for_all(self):
        self.assert_wrong("read 1, one: status 2", READS_AT_ONCE="1")

    def test_short_write_taken_for_all(self):
        self.assert_wrong("write 1, one: status 0, output b'#',", WRITES_ONCE="1")

    def test_failed_write_untold(self):
        self.assert_wrong("write 1, fail: status 3", FAILURE='""')

    def test_write_of_nothing_tried_again(self):
        self.assert_wrong("write 1, none: status 0", EMPTY_WRITES="1")

    def test_static_program_is_told(self):
        status, shown = self.outcome(words=["-static"])
        self.assertEqual(status, 2, shown)
        self.assertIn("linked statically", shown)


class Allowed(unittest.TestCase):
    """What is allowed of a run with a message, by what was refused."""

    WRITTEN = Outcome(0, b"# kati\n", b"hi\n")
    CHECKED = Outcome(1, b"", b"hi\n")

    def allowed(self, own, call, way="fail", words=(), opens=3, descriptor=0, taken=(0, 0)):
        recorded = Record(1, 9, 9, 9, 3, 0, 0, 0, 0, 0, b"")
        record = Record(1, 9, 9, 9, opens, 1, opens, descriptor, taken[0], taken[1], b"a.mk")
        return allowed_outcomes(list(words), Refusal(call, 1, way), own, recorded, record)

    def test_growth(self):
        memory = Outcome(4, b"", b"kati: no memory\n")
        self.assertEqual(self.allowed(self.WRITTEN, "growth"), [self.WRITTEN, memory])

    def test_growth_before_the_file_to_be_checked(self):
        outcomes = self.allowed(self.CHECKED, "growth", words=[b"--check", b"o"], opens=2)
        self.assertEqual(outcomes, [self.CHECKED, Outcome(4, b"", b"kati: no memory\n"),
                                    Outcome(4, b"", b"hi\nkati: no memory\n")])

    def test_growth_in_the_file_to_be_checked(self):
        outcomes = self.allowed(self.CHECKED, "growth", words=[b"--check=o"])
        self.assertEqual(outcomes, [self.CHECKED, Outcome(4, b"", b"hi\nkati: no memory\n")])

    def test_read(self):
        self.assertEqual(self.allowed(self.WRITTEN, "read"), [Outcome(3, b"", b"kati: cannot read a.mk\n")])
        self.assertEqual(self.allowed(self.WRITTEN, "read", way="one"), [self.WRITTEN])

    def test_read_under_check(self):
        words = [b"--check", b"o"]
        self.assertEqual(self.allowed(self.CHECKED, "read", words=words),
                         [Outcome(3, b"", b"hi\nkati: cannot read a.mk\n")])
        self.assertEqual(self.allowed(self.CHECKED, "read", words=words, opens=2),
                         [Outcome(3, b"", b"kati: cannot read a.mk\n")])

    def test_write_to_the_output(self):
        for way in ("fail", "none"):
            self.assertEqual(self.allowed(self.WRITTEN, "write", way=way, descriptor=1, taken=(2, 3)),
                             [Outcome(3, b"# ", b"hi\nkati: cannot write\n")])

    def test_write_to_the_error_output(self):
        self.assertEqual(self.allowed(self.WRITTEN, "write", descriptor=2, taken=(0, 1)),
                         [Outcome(3, b"", b"hkati: cannot write\n")])
        self.assertEqual(self.allowed(Outcome(64, b"", b"usage\n"), "write", descriptor=2, taken=(0, 1)),
                         [Outcome(64, b"", b"u")])

    def test_write_of_the_line_of_a_failure(self):
        own = Outcome(3, None, b"hi\nkati: cannot write\n")
        self.assertEqual(self.allowed(own, "write", descriptor=2, taken=(0, 3)), [Outcome(3, None, b"hi\n")])
        self.assertEqual(self.allowed(own, "write", descriptor=2), [Outcome(3, None, b"kati: cannot write\n")])

    def test_write_elsewhere(self):
        self.assertEqual(self.allowed(self.WRITTEN, "write", descriptor=5), [])


class CommandLine(unittest.TestCase):
    def test_help(self):
        status, shown = run_script("--help")
        self.assertEqual(status, 0)
        self.assertIn("exit statuses:", shown)

    def test_unknown_case(self):
        status, shown = run_script("--case", "no such case", sys.executable)
        self.assertEqual(status, 2)
        self.assertIn("no case has this name: no such case", shown)


if __name__ == "__main__":
    unittest.main()
