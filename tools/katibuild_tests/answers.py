"""Answers written by hand, and their builds by kati and ninja in a folder."""
from __future__ import annotations

import os
import subprocess
from pathlib import Path

from katibuild.ask.answer import Answer, Line, Rule
from katibuild.base import programs
from katibuild.base.message import Place
from katibuild.graph import groups, order, walk, writer
from katibuild.ninja import blocks, kati, top

PLACE = Place("Makefile", 1)


def rule(target, inputs="", recipe="", order_only="", **more):
    """A rule of names in one text each."""
    targets = tuple(target.split())
    return Rule(targets, tuple(inputs.split()), tuple(order_only.split()), recipe=(recipe,) if recipe else (),
                place=PLACE if recipe else None, **more)


def answer(goals, rules, lines, **more):
    """An answer of rules and of pairs of a target and a text."""
    return Answer(tuple(goals.split()), tuple(rules), tuple(Line(*one) for one in lines), (), (), frozenset(),
                  more.pop("left", frozenset()), **more)


def graph_of(asked, folder, known=(), separated=()):
    """The graph of an answer whose files are in a folder."""
    found = walk.graph_of(asked, lambda name: os.path.lexists(os.path.join(folder, name)), frozenset(known))
    return order.ordered(groups.joined(found, separated), lambda name: os.path.isdir(os.path.join(folder, name)))


def translated(graph):
    """What the writer makes of a graph, and what kati makes of that."""
    file = writer.write(graph)
    return file, kati.translate(programs.find(os.environ), file, file.goals)


def place(folder, file, text):
    """Puts the files of a translation where ninja reads them."""
    run = Path(folder, ".kati/run")
    run.mkdir(parents=True, exist_ok=True)
    for name, data in file.scripts.items():
        (run / name).write_bytes(data)
        (run / name).chmod(0o755)
    Path(folder, ".kati/statements").write_bytes(blocks.with_blocks(text, ()))
    Path(folder, "build.ninja").write_bytes(top.text("true"))


def build(folder, graph, *arguments):
    """Builds a graph in a folder; answers ninja's status and what it prints."""
    file, text = translated(graph)
    place(folder, file, text)
    return ninja(folder, *arguments)


def ninja(folder, *arguments):
    """Runs ninja in a folder; answers its status and what it prints."""
    ran = subprocess.run([programs.find(os.environ).ninja, *arguments], cwd=folder, stdin=subprocess.DEVNULL,
                         stdout=subprocess.PIPE, stderr=subprocess.STDOUT, check=False)
    return ran.returncode, ran.stdout.decode("utf-8", "surrogateescape")
