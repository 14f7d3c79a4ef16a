"""The completions: each is loaded by its shell and asked, in a folder with a makefile of its own."""
import os
import pty
import re
import select
import shutil
import subprocess
import tempfile
import time
import unittest
from pathlib import Path

SHARE = Path(__file__).resolve().parent.parent.parent / "share"
MAKEFILE = """\
CC = cc
FLAGS := -O1
all lib: x.o
.PHONY: all
%.o: %.c
\tcc $<
x.o: x.c ; cc: $(CC)
"""
OTHER = "OTHER ?= 1\nother:\n\ttrue\n"

# The words up to the cursor, and what is to be offered, whatever else is.
ASKED = [
    ("kati ", ["all", "lib", "x.o", "CC=", "FLAGS="]),
    ("kati a", ["all"]),
    ("kati --", ["--ninja", "--files", "--check", "--depth", "--help"]),
    ("kati -f o", ["other.mk"]),
    ("kati --files s", ["sources.txt"]),
    ("kati --check b", ["build.ninja"]),
    ("kati -f other.mk ", ["other", "OTHER="]),
    ("kati-asked --", ["--ninja", "--files", "--check", "--depth", "--help"]),
    ("kati-asked l", ["lib"]),
    ("kati-asked --files s", ["sources.txt"]),
    ("kati-asked --check b", ["build.ninja"]),
    ("kati-asked -f other.mk ", ["other", "OTHER="]),
    ("kati-build --", ["--port", "--files-from", "--files", "--deps", "--builtin", "--no-ninja", "--anew", "--as-made",
                       "--compile-commands", "--kati"]),
    ("kati-build --files-from g", ["git"]),
    ("kati-build l", ["lib"]),
    ("kati-port --", ["--write", "--diff", "--values", "--macros", "--builtin", "--files-from", "--kati"]),
    ("kati-port o", ["other.mk"]),
    ("kati-port -f o", ["other.mk"]),
    ("kati-port --write -f other.mk o", ["other"]),
    ("kati-compare --", ["--build", "--builtin", "--files-from", "--kati", "--depth"]),
]
# Names of which a shell would run a part, or expand it, where a completion evaluated them; each recipe's file is made
# where that happens. A blank ends a name.
HOSTILE = """\
bq`>made-1`: y
bq`touch made-2`: y
dl$(shell touch made-3): y
dl$$(>made-4): y
sq'>made-5': y
dq">made-6"`>made-7`": y
sc;>made-8;: y
st*: y
bl\\ ank: y
pl: `>made-9` $(shell >made-10)
M = `>made-11`
`>made-12` = x
"""
# The beginning of a word, and the names that have to be offered for it.
HOSTILE_ASKED = [("bq", ["bq`>made-1`", "bq`touch"]), ("sq", ["sq'>made-5'"]), ("dq", ["dq\">made-6\"`>made-7`\""]),
                 ("sc", ["sc;>made-8;"]), ("st", ["st*"]), ("bl", ["bl\\"]), ("pl", ["pl"]), ("M", ["M="]),
                 ("", ["pl"])]
COMMANDS = "kati kati-asked kati-build kati-port kati-compare"
# What a terminal is told beside text.
CODES = re.compile(r"\x1b\[[0-9;?]*[a-zA-Z]|\x07")
# What is never offered.
NEVER = {"%.o", ".PHONY", "cc"}


def backslashed(name):
    """A name with a backslash before each character that a shell may evaluate."""
    return re.sub(r"[^\w.=-]", r"\\\g<0>", name)


class Completing(unittest.TestCase):
    def setUp(self):
        self.folder = tempfile.mkdtemp(prefix="kati-test-")
        self.addCleanup(shutil.rmtree, self.folder)
        for name, text in (("Makefile", MAKEFILE), ("other.mk", OTHER), ("sources.txt", ""), ("build.ninja", "")):
            Path(self.folder, name).write_text(text, encoding="utf-8")

    def ask(self, offered):
        """Asks all of the table by a function of the line, which answers the words that are offered."""
        for line, wanted in ASKED:
            with self.subTest(line):
                words = offered(line)
                self.assertEqual([word for word in wanted if word not in words], [], words)
                self.assertEqual(NEVER & set(words), set())

    def ask_hostile(self, offered, quoted=backslashed):
        """Asks for the names of a makefile that a shell must not evaluate; `quoted` is a name as the shell has it."""
        Path(self.folder, "Makefile").write_text(HOSTILE, encoding="utf-8")
        before = sorted(os.listdir(self.folder))
        for command in ("kati", "kati-port"):
            for beginning, wanted in HOSTILE_ASKED:
                with self.subTest(f"{command} {beginning}"):
                    words = offered(f"{command} {beginning}")
                    self.assertEqual([name for name in wanted if quoted(name) not in words], [], words)
                    self.assertEqual(sorted(os.listdir(self.folder)), before)

    def in_bash(self, line):
        """The words that bash offers."""
        script = (f'source {SHARE}/bash-completion/completions/kati; COMP_WORDS=("$@"); COMP_CWORD=$(($# - 1)); '
                  f'_kati "$1"; printf "%s\\n" "${{COMPREPLY[@]}}"')
        done = subprocess.run(["bash", "-c", script, "bash", *line.split(" ")], cwd=self.folder,
                              stdout=subprocess.PIPE, text=True, check=True)
        return done.stdout.split("\n")

    @unittest.skipUnless(shutil.which("bash"), "not there: bash")
    def test_bash(self):
        self.ask(self.in_bash)

    @unittest.skipUnless(shutil.which("bash"), "not there: bash")
    def test_bash_evaluates_no_text_of_a_file(self):
        self.ask_hostile(self.in_bash)

    @unittest.skipUnless(shutil.which("bash"), "not there: bash")
    def test_bash_asks_for_each_command(self):
        script = f"source {SHARE}/bash-completion/completions/kati; complete -p {COMMANDS}"
        done = subprocess.run(["bash", "-c", script], stdout=subprocess.PIPE, text=True, check=True)
        self.assertEqual(len(done.stdout.splitlines()), len(COMMANDS.split()))

    @unittest.skipUnless(shutil.which("bash"), "not there: bash")
    def test_a_name_that_bash_completes_is_one_argument(self):
        Path(self.folder, "Makefile").write_text(HOSTILE, encoding="utf-8")
        Path(self.folder, "z file;>made-13").touch()
        before = sorted(os.listdir(self.folder))
        shell = Terminal(["bash", "--norc", "--noprofile", "-i"], self.folder)
        self.addCleanup(shell.close)
        shell.send(f"source {SHARE}/bash-completion/completions/kati; PS1='> '; unset HISTFILE\n")
        for command in ("kati", "kati-port"):
            shell.send(f"{command}() {{ printf '<%s>\\n' \"$@\"; }}; print''f 'rea''dy\\n'\n")
            shell.read_until("ready\r\n")
        for line, wanted in (("kati st", "<st*>"), ("kati sc", "<sc;>made-8;>"), ("kati sq", "<sq'>made-5'>"),
                             ("kati-port z", "<z file;>made-13>"), ("kati -f z", "<-f>\r\n<z file;>made-13>")):
            with self.subTest(line):
                shell.send(f"{line}\t\nprint''f 'do''ne\\n'\n")
                self.assertIn(f"\n{wanted}\r\n", shell.read_until("done\r\n"))
                self.assertEqual(sorted(os.listdir(self.folder)), before)

    def in_fish(self, line):
        """The words that fish offers."""
        script = f"source {SHARE}/fish/vendor_completions.d/kati.fish; complete -C '{line}'"
        done = subprocess.run(["fish", "--no-config", "-c", script], cwd=self.folder, stdout=subprocess.PIPE,
                              text=True, env={**os.environ, "HOME": self.folder}, check=True)
        return [word.split("\t")[0] for word in done.stdout.splitlines()]

    @unittest.skipUnless(shutil.which("fish"), "not there: fish")
    def test_fish(self):
        self.ask(self.in_fish)

    @unittest.skipUnless(shutil.which("fish"), "not there: fish")
    def test_fish_evaluates_no_text_of_a_file(self):
        self.in_fish("kati ")
        self.ask_hostile(self.in_fish, str)

    def zsh(self):
        """A zsh that lists its completions by control-X."""
        shell = Terminal(["zsh", "-f", "-i"], self.folder)
        self.addCleanup(shell.close)
        shell.send(f"fpath=({SHARE}/zsh/site-functions $fpath); autoload -Uz compinit; compinit -u -D\n")
        shell.send("bindkey '^X' list-choices; LISTMAX=1000; PS1='> '; print re''ady\n")
        shell.read_until("ready\r\n")
        shell.read_until("> ")
        return shell

    @unittest.skipUnless(shutil.which("zsh"), "not there: zsh")
    def test_zsh(self):
        self.ask(self.zsh().offered)

    @unittest.skipUnless(shutil.which("zsh"), "not there: zsh")
    def test_zsh_evaluates_no_text_of_a_file(self):
        self.ask_hostile(self.zsh().offered)


class Terminal:
    """A shell that thinks that somebody types."""

    def __init__(self, words, folder):
        self.shown = ""
        self.process, self.end = pty.fork()
        if self.process == 0:
            os.chdir(folder)
            variables = {"PATH": os.environ["PATH"], "HOME": folder, "TERM": "dumb", "COLUMNS": "200"}
            os.execvpe(words[0], words, {**variables, "LC_ALL": "C.UTF-8"})

    def send(self, text):
        os.write(self.end, text.encode())

    def read_until(self, mark, seconds=60):
        """What is shown up to the mark; what comes after it is left for the next call."""
        last = time.monotonic() + seconds
        while mark not in self.shown and time.monotonic() < last:
            if select.select([self.end], [], [], 0.2)[0]:
                self.shown += CODES.sub("", os.read(self.end, 65536).decode(errors="replace"))
        before, _, self.shown = self.shown.partition(mark)
        return before

    def offered(self, line):
        """The words that control-X lists after a line, which is shown again then; control-U takes it away.

        What is typed before the list is there would keep zsh from listing."""
        self.send(line + "\x18")
        shown = self.read_until("> " + line)
        self.send("\x15print do''ne\n")
        self.read_until("done\r\n")
        self.read_until("> ")
        return shown.split("\n", 1)[-1].split()

    def close(self):
        os.close(self.end)
        os.waitpid(self.process, 0)


if __name__ == "__main__":
    unittest.main()
