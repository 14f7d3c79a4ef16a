#!/usr/bin/env python3
"""Draws the two diagrams of docs/DESIGN.md: docs/pipeline.svg and docs/crates.svg.

The pipeline is the table of steps in this script; each step names a function, which its crate must have. The crates are
those of crates.txt, without crates for tests and laws. `dot` of Debian's package graphviz draws both. The first line of
each picture has the checksums of its graph and its drawing. By these the check `diagrams` of scripts/check_docs.py
knows whether the picture is current, whatever the version of graphviz.

examples:
  scripts/diagrams.py             prints which diagrams are not current
  scripts/diagrams.py --write     draws those

exit status:
  0   the diagrams are current, or were drawn
  1   one is not current
  3   no program dot
  64  wrong usage"""
import argparse
import hashlib
import re
import shutil
import subprocess
import sys
from pathlib import Path
from typing import NamedTuple

ROOT = Path(__file__).resolve().parent.parent
NO_PART = re.compile(r"\w+_(?:tests|doubles|laws)|kt_testing|kati_cases")
PROGRAMS = ("kati_program", "kati_asked")
PLAIN, DATA, PROGRAM = "#eef3f8", "#fbf6e6", "#dcead8"
STYLE = ('  node [shape=box, style="filled,rounded", fillcolor="{}", color="#5b6b7a", fontname="Helvetica", '
         'fontsize=12, margin="0.16,0.08"];\n'
         '  edge [color="#5b6b7a", fontname="Helvetica", fontsize=10, arrowsize=0.7];\n').format(PLAIN)


class Step(NamedTuple):
    """A step of a run: the crate and the function that takes it, what it does, and what it hands to which steps."""
    crate: str
    function: str
    does: str
    hands: tuple


# What a run reads and writes, and which steps get it.
READ = {
    "arguments": ("args_of",),
    "list of files": ("listed",),
    "makefile, included files": ("line_marks",),
    "file of --check": ("read_plan",),
}
WRITTEN = ("Ninja file", "status 0 or 1")
STEPS = (
    Step("kati_args", "args_of", "parses the command line",
         (("macros", "read_items"), ("goals", "chosen_goals"), ("file name", "listed"))),
    Step("kati", "listed", "reads the list of files", (("sources", "of"),)),
    Step("kt_text", "line_marks", "finds logical lines", (("lines", "marked_blocks"),)),
    Step("kt_syntax", "marked_blocks", "finds conditionals and define", (("blocks", "read_items"),)),
    Step("kt_eval", "read_items", "expands macros, reads lines",
         (("rule lines", "read_rule"), ("macros", "write"))),
    Step("kt_rules", "read_rule", "parses rule lines", (("rules", "add"),)),
    Step("kt_rules", "add", "keeps the rules in a book",
         (("first target", "chosen_goals"), ("names", "of"), ("rules", "graph"))),
    Step("kati", "chosen_goals", "chooses the goals", (("goals", "graph"),)),
    Step("kt_graph", "of", "collects the known names", (("known names", "graph"),)),
    Step("kt_graph", "graph", "searches rules for all names that the goals need", (("nodes", "write"),
                                                                                     ("nodes", "plan"))),
    Step("kt_recipe", "write", "expands recipes, quotes commands", (("commands", "plan"),)),
    Step("kati", "plan", "makes a statement of each group of nodes", (("plan", "write_view"), ("plan", "check"))),
    Step("kt_ninja", "write_view", "prints the plan", (("", "Ninja file"),)),
    Step("kt_ninja_reader", "read_plan", "reads a Ninja file", (("plan", "check"),)),
    Step("kati", "check", "compares two plans", (("", "status 0 or 1"),)),
)
# The type that a method belongs to.
OWNERS = {"of": "Known", "add": "Book", "write": "Commands", "plan": "Planner"}


def shown(function):
    """A function's name after that of its type."""
    return f"{OWNERS[function]}::{function}" if function in OWNERS else function


def pipeline(_root):
    """The graph of a run, in the language of dot."""
    lines = [f'  "{name}" [fillcolor="{DATA}", shape=note, style=filled];' for name in (*READ, *WRITTEN)]
    lines += [f'  "{name}" -> "{step}";' for name, steps in READ.items() for step in steps]
    for crate, function, does, hands in STEPS:
        label = f'<<b>{crate}</b><br/>{shown(function)}<br/><font point-size="10">{does}</font>>'
        lines.append(f'  "{function}" [label={label}];')
        lines += [f'  "{function}" -> "{to}" [label=" {what} "];' for what, to in hands]
    lines.append('  "line_marks" -> "read_items" [label=" include ", style=dashed, dir=back];')
    return "digraph pipeline {\n  ranksep=0.32; nodesep=0.3;\n" + STYLE + "\n".join(lines) + "\n}\n"


def depending(text):
    """What each crate of the product depends on, by crates.txt: crates and libraries."""
    rows = dict(line.split(":", 1) for line in text.splitlines() if line and not line.startswith("#"))
    return {crate: row.split() for crate, row in rows.items() if not NO_PART.fullmatch(crate)}


def below(depends, crate):
    """All crates that a crate depends on, directly or through others."""
    direct = [name for name in depends[crate] if name in depends]
    return set(direct).union(*(below(depends, name) for name in direct))


def crates(root):
    """The graph of the crates, without dependencies that follow from others."""
    depends = depending((root / "crates.txt").read_text(encoding="utf-8"))
    lines = []
    for crate, names in depends.items():
        libraries = ", ".join(name for name in names if name not in depends)
        more = f'<br/><font point-size="10">{libraries}</font>' if libraries else ""
        colour = f', fillcolor="{PROGRAM}"' if crate in PROGRAMS else ""
        lines.append(f'  "{crate}" [label=<<b>{crate}</b>{more}>{colour}];')
        inner = [name for name in names if name in depends]
        followed = set().union(*(below(depends, name) for name in inner))
        lines += [f'  "{crate}" -> "{name}";' for name in inner if name not in followed]
    return "digraph crates {\n  ranksep=0.35; nodesep=0.3;\n" + STYLE + "\n".join(lines) + "\n}\n"


PICTURES = {"docs/pipeline.svg": pipeline, "docs/crates.svg": crates}


def checksum(text):
    return hashlib.sha256(text.encode()).hexdigest()[:16]


def head(graph, drawing):
    """The first line of a picture."""
    return f"<!-- made by scripts/diagrams.py; graph {checksum(graph)}, drawing {checksum(drawing)} -->\n"


def is_current(text, graph):
    """Whether a picture is the drawing of this graph, and unchanged since."""
    first, _, drawing = text.partition("\n")
    return first + "\n" == head(graph, drawing)


def picture(graph):
    """The picture of a graph, by dot; its own comments, which name its version, are left out."""
    done = subprocess.run(["dot", "-Tsvg"], input=graph, stdout=subprocess.PIPE, universal_newlines=True, check=True)
    drawing = re.sub(r"<!--.*?-->\n?", "", done.stdout[done.stdout.index("<svg"):], flags=re.DOTALL)
    return head(graph, drawing) + drawing


def lacking(root):
    """The steps whose function their crate does not have."""
    for step in STEPS:
        sources = (root / "crates" / step.crate / "src").rglob("*.rt")
        made = re.compile(rf"\bfn {step.function}\b")
        if not any(made.search(path.read_text(encoding="utf-8")) for path in sources):
            yield f"scripts/diagrams.py: {step.crate} has no function {shown(step.function)}"


def outdated(root):
    """The pictures that are not current."""
    for name, graph_of in PICTURES.items():
        path = root / name
        if not path.is_file() or not is_current(path.read_text(encoding="utf-8"), graph_of(root)):
            yield name


def troubles(root):
    """What is wrong with the diagrams, a line each."""
    yield from lacking(root)
    yield from (f"{name} is not current: scripts/diagrams.py --write" for name in outdated(root))


class Parser(argparse.ArgumentParser):
    """A parser that ends with the project's status for wrong usage."""

    def error(self, message):
        self.print_usage(sys.stderr)
        self.exit(64, f"{self.prog}: {message}\n")


def main():
    parser = Parser(description=__doc__, formatter_class=argparse.RawDescriptionHelpFormatter)
    parser.add_argument("--write", action="store_true", help="draw the diagrams that are not current")
    parser.add_argument("--root", metavar="FOLDER", default=str(ROOT),
                        help="the repository; without this option, that of the script")
    asked = parser.parse_args()
    root = Path(asked.root).resolve()
    if asked.write and not shutil.which("dot"):
        print("diagrams.py: no program dot: install graphviz", file=sys.stderr)
        return 3
    for name in list(outdated(root)) if asked.write else []:
        (root / name).write_text(picture(PICTURES[name](root)), encoding="utf-8")
    found = list(troubles(root))
    for line in found:
        print(line)
    return 1 if found else 0


if __name__ == "__main__":
    sys.exit(main())
