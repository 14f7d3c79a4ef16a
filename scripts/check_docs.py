#!/usr/bin/env python3
"""Checks that the documents say what is so.

The checks:
  options    kati's code, docs/LANGUAGE.md, manual page and completions have the same options; so have kati-asked, each
             tool, and their pages and completions
  faults     docs/LANGUAGE.md has the numbers of the faults in the code; each example there gives its fault
  cases      porting.cases has the makefiles of docs/PORTING.md, in order; names of cases are unique
  calls      docs/TESTS.md is current; a test calls each public function that allocates
  files      each file that a document names, and each link within the repository, exists
  specs      each definition that a document names as specs/.. exists in a crate; in docs/PROOFS.md in the crate of its
             section
  walk       the functions, types, definitions and modules that docs/DESIGN.md names are where it says
  shapes     the types of a rule in the list of docs/DESIGN.md are in the crates that it says
  names      each name of a definition or of a type of code has one meaning
  crates     crates.txt and the table of crates in docs/DESIGN.md have the same dependencies; only crates of laws
             and of tests depend on crates of laws
  lemmas     no crate of the product has a lemma that no proof of its code needs, except for the laws on limits: what
             only a law needs is in a crate of laws
  closed     specs/ of the product's crates has only the definitions that the promise depends on, and imports nothing
             from specs/views/ or specs/inner/; only its own crate uses specs/inner/
  lines      lines of documents have at most 120 columns, except in tables and output
  sizes      documents have at most the words of scripts/document_sizes.py, outside code blocks
  examples   each block ```console of README.md, example/README.md and docs/USING.md prints what the document has. bash
             runs it in a copy of the repository, with the built programs, the tools, make and ninja. A block
             ```console long is not run. Lines that begin with [N/M] may come in any order; a line ... stands for any
             lines
  scripts    --help of each script has examples and exit statuses; docs/DEVELOPING.md lists each script
  gate       README's test command runs .ci/run
  picture    docs/times.svg is drawn from the table in docs/BENCHMARKS.md
  tricks     docs/TRICKS.md is what the heads of the modules say
  quick      docs/QUICK.md lists the clauses that go one way, and their labels say so
  diagrams   the diagrams of docs/DESIGN.md are current
  trusted    docs/TRUSTED.md lists the definitions that the promise depends on, and each of them has a comment

examples:
  scripts/check_docs.py                        all checks, with the built programs
  scripts/check_docs.py --kati /usr/bin/kati --kati-asked /usr/bin/kati-asked
                                               with other programs
  scripts/check_docs.py faults files           only these checks

It prints what fails, then what is skipped because a program is missing, then `N passed, M failed`, with `, K skipped`
if anything is.

exit status:
  0   nothing failed
  1   something failed
  64  wrong usage"""
import argparse
import os
import re
import shutil
import subprocess
import sys
import tempfile
from pathlib import Path

sys.dont_write_bytecode = True
import console_blocks
import crates_stated
import definitions_stated
import diagrams
import document_sizes
import lemmas_used
import names_stated
import options_stated
import quick_clauses
import shapes_stated
import specs_closed
import tested_calls
import tricks_stated
import trusted_stated
from timing import picture

HERE = Path(__file__).resolve().parent.parent
# The programs, and where they are built.
BUILT = {"kati": "crates/kati_program/out/kati_program", "kati-asked": "crates/kati_asked/out/kati_asked"}
TOOLS = ["kati-build", "kati-compare", "kati-port"]
# What a tool prints if a translation takes more than a second, as on a busy machine.
AT_WORK = re.compile(r"^kati-(?:build|port): ports .*: make is asked .*\n", re.MULTILINE)
SCRIPTS_IN = "docs/DEVELOPING.md"
RUN = ["README.md", "example/README.md", "docs/USING.md"]
SECONDS = 120
WIDTH = 120

NAMED = re.compile(r"(?:docs|scripts|crates|tools|share|example|\.ci)/[\w./*{},-]*|\b[A-Z]{3,}\.md\b")
FAULT = re.compile(r"\w+::\w+(?:\([^)]*\))? => \(?(\d+)\b")
MARK = "\x01done\x01"


class Report:
    """Counts what passed, failed and was skipped, and prints the last two."""

    def __init__(self):
        self.passed = self.failed = self.skipped = 0

    def check(self, fine, what, *more):
        """Counts a check; if it fails, prints what is wrong."""
        if fine:
            self.passed += 1
            return
        self.failed += 1
        print("failed: " + what)
        for line in more:
            print("    " + line)

    def same(self, first, second, what):
        """Counts a check that two sets are the same."""
        differ = sorted(set(first) ^ set(second))
        self.check(not differ, f"{what}: {', '.join(differ)}")

    def skip(self, what):
        self.skipped += 1
        print("skipped: " + what)

    def last_line(self):
        return f"{self.passed} passed, {self.failed} failed" + (f", {self.skipped} skipped" if self.skipped else "")


class Place:
    """The repository, and the programs that exist, by their names."""

    def __init__(self, root, programs):
        self.root, self.programs, self.kati = root, programs, programs.get("kati")

    def text(self, name):
        return (self.root / name).read_text(encoding="utf-8")

    def documents(self):
        return [path for pattern in ("*.md", "docs/*.md", "example/*.md") for path in sorted(self.root.glob(pattern))]


def said(*words, **rest):
    """What a command prints on both outputs, and its status."""
    done = subprocess.run([str(word) for word in words], stdin=subprocess.DEVNULL, stdout=subprocess.PIPE,
                          stderr=subprocess.STDOUT, timeout=SECONDS, check=False, **rest)
    return done.stdout.decode(errors="replace"), done.returncode


# ---- options


def options_of_bash(place, command):
    file = place.root / "share/bash-completion/completions/kati"
    return set(said("bash", "-c", f'source "{file}"; _kati_options {command}')[0].split())


def check_options(place, report):
    of_code = options_stated.of_code(place.text("crates/kati_args/src/command.rt"))
    wanted = dict.fromkeys(BUILT, of_code)
    stated = options_stated.of_table(place.text("docs/LANGUAGE.md"))
    report.same(of_code, stated, "options of the code and of docs/LANGUAGE.md differ")
    for name in BUILT:
        if name in place.programs:
            helped = options_stated.of_help(said(place.programs[name], "--help")[0])
            report.same(of_code, helped, f"options of the code and of the help of {name} differ")
        else:
            report.skip(f"options of the help of {name}: the program is not built")
    for tool in TOOLS:
        wanted[tool] = options_stated.of_help(said(sys.executable, place.root / "tools" / tool, "--help")[0])
    for command, options in wanted.items():
        page = options_stated.of_page(place.text(f"share/man/man1/{command}.1"))
        report.same(options, page, f"options of {command} and of its manual page differ")
        if shutil.which("bash"):
            completed = options_of_bash(place, command)
            report.same(options, completed, f"options of {command} and of its completion for bash differ")
        else:
            report.skip("completion for bash: no bash")
    every = set().union(*wanted.values())
    zsh = place.text("share/zsh/site-functions/_kati")
    report.same(every, options_stated.of_zsh(zsh), "options and completions for zsh differ")
    fish = place.text("share/fish/vendor_completions.d/kati.fish")
    report.same(every, options_stated.of_fish(fish), "options and completions for fish differ")


# ---- faults


def faults_of_code(place):
    """The numbers in the table of faults, which is a match to pairs of a number and words."""
    return {f"E{int(number):02}" for number in FAULT.findall(place.text("crates/kt_rules/src/fault_kind.rt"))}


def rows_of_faults(text):
    """The number of each fault in the table of docs/LANGUAGE.md, and its example."""
    for row in re.findall(r"^\| (E\d\d \|.*)$", text, re.MULTILINE):
        cells = re.split(r"(?<!\\) ?\| ?", row)
        yield cells[0].strip(), cells[3].replace("\\|", "|")


def put_example(example, folder):
    """Makes the makefile of an example: one line after the other, what a shell command writes, or none."""
    spans = re.findall(r"`([^`]*)`", example)
    if not spans:
        return
    if re.match(r"printf |yes ", spans[0]):
        subprocess.run(["bash", "-c", spans[0]], cwd=folder, check=True)
        return
    Path(folder, "Makefile").write_text("".join(line.replace("→", "\t") + "\n" for line in spans), encoding="utf-8")


def check_faults(place, report):
    rows = list(rows_of_faults(place.text("docs/LANGUAGE.md")))
    numbers = {number for number, _ in rows}
    report.same(faults_of_code(place), numbers, "faults of the code and of docs/LANGUAGE.md differ")
    if not place.kati:
        report.skip("the examples of faults: the program is not built")
        return
    for number, example in rows:
        with tempfile.TemporaryDirectory() as folder:
            put_example(example, folder)
            out, status = said(place.kati, cwd=folder)
            fine = status == 2 and f"[{number}]" in out
            report.check(fine, f"the example of {number} gives status {status}", out.strip())


# ---- cases, files and lines


def makefiles_of_cases(text):
    """The file Makefile of each case, in order; of texts only plain lines are known."""
    found = []
    for line in text.splitlines():
        if re.match(r"[a-z]", line):
            found += [""] * (line == "file Makefile")
            is_makefile = line == "file Makefile"
        elif line and is_makefile:
            found[-1] += line[1:] + "\n"
    return found


def check_names_of_cases(place, report):
    names = [name for path in sorted(place.root.glob("crates/kati_cases/data/*.cases"))
             for name in re.findall(rb"^case (.*)$", path.read_bytes(), re.MULTILINE)]
    twice = sorted({name.decode() for name in names if names.count(name) > 1})
    report.check(names and not twice, "cases with one name:", *twice)


def check_cases(place, report):
    check_names_of_cases(place, report)
    blocks = re.findall(r"^```make\n(.*?)^```$", place.text("docs/PORTING.md"), re.MULTILINE | re.DOTALL)
    cases = makefiles_of_cases(place.text("crates/kati_cases/data/porting.cases"))
    report.check(len(blocks) == len(cases), f"docs/PORTING.md has {len(blocks)} makefiles, porting.cases {len(cases)}")
    for block, case in zip(blocks, cases):
        report.check(block == case, "a makefile of docs/PORTING.md is not that of its case:", *block.splitlines())


def check_calls(place, report):
    found = list(tested_calls.troubles(place.root))
    report.check(not found, "tests of public functions that allocate:", *found)


def named_files(text):
    """The names in a document that look like files of the repository."""
    for name in NAMED.findall(text):
        name = name.rstrip(".,;:-")
        if "/out/" not in name and not re.search(r"\b[A-Z]{2,}\b(?!\.md)", name) and name.strip("./"):
            yield name


def is_there(place, name):
    if re.fullmatch(r"[A-Z]+\.md", name):
        return (place.root / name).is_file() or (place.root / "docs" / name).is_file()
    return any(place.root.glob(name.rstrip("/")))


def check_files(place, report):
    for path in place.documents():
        text = path.read_text(encoding="utf-8")
        missing = [name for name in dict.fromkeys(named_files(text)) if not is_there(place, name)]
        for link in re.findall(r"\]\(([^)#:]+)[)#]", text):
            if not (path.parent / link).exists():
                missing.append(link)
        heads = re.findall(r"^#+ (.*)$", text, re.MULTILINE)
        heads = {re.sub(r"[^\w -]", "", head).lower().replace(" ", "-") for head in heads}
        missing += ["#" + link for link in re.findall(r"\]\(#([^)]+)\)", text) if link not in heads]
        report.check(not missing, f"{path.relative_to(place.root)} names files that do not exist: {', '.join(missing)}")


def check_specs(place, report):
    for path in place.documents():
        missing = definitions_stated.unknown(place.root, path.read_text(encoding="utf-8"))
        report.check(not missing, f"{path.relative_to(place.root)} names definitions that do not exist: "
                     + ", ".join(missing))


def check_walk(place, report):
    missing = list(definitions_stated.differing(place.root))
    report.check(not missing, "docs/DESIGN.md names what does not exist:", *missing)


def check_shapes(place, report):
    wrong = list(shapes_stated.differing(place.root))
    report.check(not wrong, "docs/DESIGN.md lists shapes of a rule that do not exist:", *wrong)


def check_names(place, report):
    twice = list(names_stated.doubled(place.root))
    report.check(not twice, "names with two meanings, and their places:", *twice)


def check_crates(place, report):
    differ = list(crates_stated.differing(place.root))
    report.check(not differ, "crates.txt and docs/DESIGN.md differ on what a crate depends on:", *differ)


def check_lemmas(place, report):
    found = list(lemmas_used.unneeded(place.root))
    report.check(not found, "lemmas that no proof of code needs:", *found)


def check_closed(place, report):
    found = list(specs_closed.troubles(place.root))
    report.check(not found, "definitions in the wrong folder:", *found)


def check_lines(place, report):
    for path in place.documents():
        fenced, long = False, []
        for number, line in enumerate(path.read_text(encoding="utf-8").splitlines(), 1):
            if line.startswith("```"):
                fenced = not fenced
            if len(line) > WIDTH and not fenced and not line.startswith(("|", "    ")):
                long.append(str(number))
        name = path.relative_to(place.root)
        report.check(not long, f"{name} has lines of more than {WIDTH} columns: {', '.join(long)}")


def check_sizes(place, report):
    texts = {path.relative_to(place.root).as_posix(): path.read_text(encoding="utf-8") for path in place.documents()}
    wrong = list(document_sizes.troubles(texts))
    report.check(not wrong, "sizes of documents:", *wrong)


# ---- examples


def copy_of(place, folder):
    """A copy of the repository without the crates, and a folder of its commands."""
    copy = Path(folder, "kati")
    left_out = shutil.ignore_patterns("crates", ".git", "__pycache__")
    shutil.copytree(place.root, copy, symlinks=True, ignore=left_out)
    commands = Path(folder, "bin")
    commands.mkdir()
    for name, program in place.programs.items():
        (commands / name).symlink_to(program)
    for tool in TOOLS:
        (commands / tool).symlink_to(copy / "tools" / tool)
    return copy, commands


def printed(place, commands):
    """What the commands of a block print, one after the other in one shell."""
    with tempfile.TemporaryDirectory(prefix="kati-docs-") as folder:
        copy, known = copy_of(place, folder)
        script = "".join(f"{command}\nprintf '{MARK}\\n'\n" for command, _ in commands)
        variables = {"PATH": f"{known}:{os.environ['PATH']}", "HOME": folder, "LC_ALL": "C.UTF-8", "TERM": "dumb"}
        out, _ = said("bash", "-c", script, cwd=copy, env=variables)
        out = AT_WORK.sub("", out)
        return [part.lstrip("\n") if at else part for at, part in enumerate(out.split(MARK)[:-1])]


def check_block(place, report, name, lines):
    commands = console_blocks.commands_of(lines)
    try:
        outputs = printed(place, commands)
    except subprocess.TimeoutExpired:
        outputs = []
    for at, (command, wanted) in enumerate(commands):
        got = outputs[at].splitlines() if at < len(outputs) else ["(nothing: the shell ended, or took too long)"]
        report.check(console_blocks.fits(wanted, got), f"{name}: {command}", *(f"+ {line}" for line in got))


def check_examples(place, report):
    missing = [name for name in ("bash", "make", "ninja", "cc") if not shutil.which(name)]
    missing += [name for name in BUILT if name not in place.programs]
    for name in RUN:
        if not (place.root / name).is_file():
            report.check(False, f"{name} does not exist")
            continue
        for number, lines in console_blocks.blocks_of(place.text(name)):
            if missing:
                report.skip(f"{name}:{number}: missing: {', '.join(missing)}")
            else:
                check_block(place, report, f"{name}:{number}", lines)


# ---- scripts and gate


def check_scripts(place, report):
    scripts = sorted(place.root.glob("scripts/*.py"))
    scripts = [path for path in scripts if "__main__" in path.read_text(encoding="utf-8")]
    for path in scripts + [place.root / "tools" / tool for tool in TOOLS]:
        told, status = said(sys.executable, "-B", path, "--help")
        lacks = [word for word in ("usage:", "example", "exit status") if word not in told.lower()]
        fine = status == 0 and not lacks
        report.check(fine, f"{path.relative_to(place.root)} --help: status {status}, without {', '.join(lacks)}")
    listed = re.findall(r"^\| `(?:python3 )?(scripts/\w+\.py)", place.text(SCRIPTS_IN), re.MULTILINE)
    names = [path.relative_to(place.root).as_posix() for path in scripts]
    report.same(names, listed, f"scripts and the table of {SCRIPTS_IN} differ")


def check_gate(place, report):
    test = place.text("README.md").partition("## Test\n")[2].partition("\n## ")[0]
    commands = re.findall(r"^\$ (.*)$", test, re.MULTILINE)
    is_gate = re.search(r"^check:\n\t\.ci/run$", place.text("Makefile"), re.MULTILINE)
    report.check(commands == ["make check"] and is_gate, f"README's test commands aren't the gate: {commands}")


def check_picture(place, report):
    drawn = picture.draw(picture.rows_of(place.text("docs/BENCHMARKS.md")))
    report.check(drawn == place.text("docs/times.svg"), "docs/times.svg is not that of the table in docs/BENCHMARKS.md")


def check_tricks(place, report):
    differ = list(tricks_stated.differing(place.root))
    report.check(not differ, "docs/TRICKS.md and the heads of the modules differ:", *differ)


def check_quick(place, report):
    wrong = list(quick_clauses.differing(place.root))
    report.check(not wrong, "clauses that go one way:", *wrong)


def check_diagrams(place, report):
    wrong = list(diagrams.troubles(place.root))
    report.check(not wrong, "diagrams:", *wrong)


def check_trusted(place, report):
    differ = list(trusted_stated.differing(place.root))
    report.check(not differ, "docs/TRUSTED.md doesn't say what the promise rests on:", *differ)


CHECKS = {"options": check_options, "faults": check_faults, "cases": check_cases, "calls": check_calls,
          "files": check_files, "specs": check_specs, "walk": check_walk, "shapes": check_shapes, "names": check_names,
          "crates": check_crates, "lemmas": check_lemmas, "closed": check_closed, "lines": check_lines,
          "sizes": check_sizes,
          "examples": check_examples, "scripts": check_scripts, "gate": check_gate, "picture": check_picture,
          "tricks": check_tricks, "quick": check_quick, "diagrams": check_diagrams, "trusted": check_trusted}


class Parser(argparse.ArgumentParser):
    """A parser that ends with the project's status for wrong usage."""

    def error(self, message):
        self.print_usage(sys.stderr)
        self.exit(64, f"{self.prog}: {message}\n")


def variable(name):
    """The variable of the environment that names a program."""
    return name.upper().replace("-", "_")


def programs_of(root, words):
    """The programs that are there, by their names."""
    found = {}
    for name, built in BUILT.items():
        named = getattr(words, name.replace("-", "_")) or os.environ.get(variable(name))
        path = Path(named or root / built).resolve()
        if path.is_file():
            found[name] = path
    return found


def parser():
    made = Parser(description=__doc__, formatter_class=argparse.RawDescriptionHelpFormatter)
    for name in BUILT:
        made.add_argument("--" + name, metavar="PROGRAM",
                          help=f"the program; without it that of the variable {variable(name)}, then the built one")
    made.add_argument("--root", metavar="FOLDER", default=str(HERE),
                      help="the repository; without it that of this script")
    made.add_argument("checks", nargs="*", metavar="CHECK", help="a check, as they are named above; all without one")
    return made


def main():
    made = parser()
    words = made.parse_args()
    unknown = [name for name in words.checks if name not in CHECKS]
    if unknown:
        made.error(f"no check: {', '.join(unknown)}")
    root = Path(words.root).resolve()
    place, report = Place(root, programs_of(root, words)), Report()
    for name in words.checks or CHECKS:
        CHECKS[name](place, report)
    print(report.last_line())
    return 1 if report.failed else 0


if __name__ == "__main__":
    sys.exit(main())
