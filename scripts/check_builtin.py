#!/usr/bin/env python3
"""Compares make's usual macros and rules in share/kati with those of GNU make.

    scripts/check_builtin.py [--kati PROGRAM]

- Each macro of builtin-macros.mk must have the value that `make -p` prints. No usual macro of make may be missing,
  except those about make's own run.
- Each rule of builtin-rules.mk must have make's recipe. No rule for C, C++, assembler, lex, yacc and shell scripts may
  be missing.
- make and kati must print the same commands for a small tree of such sources. Blanks at the ends of a command do not
  count.

examples:
  scripts/check_builtin.py
  scripts/check_builtin.py --kati crates/kati_program/out/kati_program

The exit status is 0 if all agree, 1 if something differs, 3 if a program is missing."""
import argparse
import os
import re
import sys
import tempfile
from pathlib import Path

sys.dont_write_bytecode = True
TOP = Path(__file__).resolve().parent.parent
sys.path.insert(0, str(TOP / "share/kati"))

from kati_tools.base import files, programs  # noqa: E402
from kati_tools.makefile import sources  # noqa: E402
from kati_tools.make import make_commands  # noqa: E402
from kati_tools.build import comparing, translating  # noqa: E402

LANGUAGES = {"", ".o", ".c", ".cc", ".C", ".cpp", ".s", ".S", ".y", ".l", ".sh"}
TREE = ["one.c", "two.cc", "three.C", "four.cpp", "five.s", "six.S", "seven.y", "eight.l", "nine.c", "ten.cc",
        "eleven.S", "part.c", "thirteen.l", "fourteen.S", "fifteen.C", "sixteen.cpp", "seventeen.s", "eighteen.sh"]
GOALS = ["one.o", "two.o", "three.o", "four.o", "five.o", "six.o", "seven.o", "eight.o", "nine", "ten", "eleven",
         "twelve", "seven", "thirteen.c", "fourteen.s", "fifteen", "sixteen", "seventeen", "eighteen"]
# The macros that tell of make's run, or of what kati hasn't; and a macro that make has by itself, as it prints it.
OF_THE_RUN = {"MAKE", "MAKE_COMMAND", "MAKE_HOST", "MAKE_VERSION", "MAKEFILES", "SHELL", "CHECKOUT,v", "SUFFIXES"}
USUAL = re.compile(r"^# default\n([^.\s][^\s:=]*) :?= (?=\S)", re.MULTILINE)
# Rules without recipes, and values for macros that make leaves empty.
MAKEFILE = "twelve: twelve.o part.o\ntwelve.o: one.c\n\tcp one.o twelve.o\none.o: one.h\none.h: ; touch one.h\n" \
    "CFLAGS = -Wall\nCPPFLAGS = -DX\nCXXFLAGS = -g\nLDFLAGS = -s\nLDLIBS = -lm\nASFLAGS = -g\nYFLAGS = -d\n" \
    "LFLAGS = -8\nTARGET_ARCH = -m64\nTARGET_MACH = -m32\nLOADLIBES = -lc\n"


def run_make(words, **rest):
    """Runs make by itself, without macros from the environment."""
    return programs.run(["make", *words], executable=programs.need("make"), env=make_commands.environment(), **rest)


def told_by_make():
    """The macros and the rules that `make -p` tells, a rule by its target and prerequisites; and the names of those
    macros that makefiles may mean."""
    _, out, _ = run_make(["-p", "-f", os.devnull])
    return parts_of(out.split("# Implicit Rules")[0])[0], parts_of(out)[1], set(USUAL.findall(out)) - OF_THE_RUN


def parts_of(text):
    """The macros and the pattern rules of a makefile, or of what make -p prints."""
    macros, rules, recipe = {}, {}, []
    for line in text.split("\n"):
        macro = re.fullmatch(r"([A-Za-z0-9_.]+) :?= ?(.*)", line)
        rule = re.fullmatch(r"(%[^:]*): *(%.*)", line)
        if macro:
            macros[macro[1]] = macro[2]
        elif rule:
            recipe = rules.setdefault((rule[1], " ".join(dict.fromkeys(rule[2].split()))), [])
        elif line.startswith("\t"):
            recipe.append(line.strip())
        elif line and not line.startswith("#"):
            # Another rule, as one of an archive's members.
            recipe = []
    return macros, rules


def is_ours(rule):
    """Whether a rule is of the languages, and of one prerequisite."""
    return all(name.startswith("%") and name[1:] in LANGUAGES for name in rule)


def differences_of_texts():
    """How the two files differ from what make tells."""
    macros, rules, usual = told_by_make()
    our_macros = parts_of(files.read(os.path.join(programs.SHARE, translating.MACROS)))[0]
    our_rules = parts_of(files.read(os.path.join(programs.SHARE, translating.RULES)))[1]
    yield from (f"{name} is absent, and for make {macros.get(name)!r}" for name in sorted(usual - set(our_macros)))
    for name, value in our_macros.items():
        if macros.get(name) != value:
            yield f"{name} is {value!r}, and for make {macros.get(name)!r}"
    for name in (rule for rule in {**rules, **our_rules} if is_ours(rule)):
        if rules.get(name) != our_rules.get(name):
            yield f"{name[0]}: {name[1]} has the recipe {our_rules.get(name)}, and for make {rules.get(name)}"


def differences_of_commands(kati):
    """How the commands for the tree differ: make's by its own rules, kati's by these files."""
    with tempfile.TemporaryDirectory() as tree, tempfile.TemporaryDirectory() as room:
        os.chdir(tree)
        for name in TREE:
            Path(name).touch()
        Path("Makefile").write_text(MAKEFILE)
        # What is made on the way stays, as with kati.
        with open("given", "w+b") as given:
            given.write(f"{MAKEFILE}.SECONDARY:\n".encode())
            given.seek(0)
            status, out, said = run_make(["-n", "-B", "-f", "-", *GOALS], stdin=given)
        asked = argparse.Namespace(kati=kati, makefile="Makefile", builtin=True, depth=None, words=GOALS)
        found = translating.Translator(asked, room).translate(sources.Listing(sources.text_with(TREE)))
        texts = (text for one in found.statements for text in comparing.unwrapped(one.command or "''"))
        by_kati = [text.strip() for text in texts if text]
        os.chdir(TOP)
    if status or found.status:
        yield f"make ends with status {status}, kati with {found.status}: {said}{found.said}"
        return
    by_make = make_commands.lines_of(out)
    yield from (f"make alone: {line}" for line in comparing.alone(by_make, by_kati))
    yield from (f"kati alone: {line}" for line in comparing.alone(by_kati, by_make))
    print(f"{len(by_make)} commands compared")


def check(asked):
    """Prints the differences; answers the exit status."""
    found = [*differences_of_texts(), *differences_of_commands(asked.kati and os.path.abspath(asked.kati))]
    print("\n".join([*found, "share/kati differs from make" if found else "share/kati agrees with make"]))
    return 1 if found else 0


def main():
    parser = argparse.ArgumentParser(description=__doc__, formatter_class=argparse.RawDescriptionHelpFormatter)
    parser.add_argument("--kati", metavar="PROGRAM", help="the program kati; without it KATI, then the built one")
    return programs.ending("check_builtin.py", check, parser.parse_args())


if __name__ == "__main__":
    sys.exit(main())
