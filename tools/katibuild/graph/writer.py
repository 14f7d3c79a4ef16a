"""Writes the graph as a makefile for kati: explicit rules alone, in which every dollar is doubled."""
from __future__ import annotations

import itertools
import re
from collections import Counter
from typing import Callable, Dict, Iterable, List, Mapping, NamedTuple, Optional, Tuple

from ..base.files import bytes_of, digest
from ..base.message import Place, Stop
from . import scripts
from .node import Command, Graph, Node
from .scripts import is_bourne, one_line, quoted

HEAD = """\
# kati-build writes this makefile: the rules that GNU make answered, for kati to translate. Do not edit it.
E = =
S = ;
B = $(subst ,, )
.SUFFIXES:
"""
USUAL = "/bin/sh"
# An argument of a program has at most 131,072 bytes in Linux, and Ninja hands its whole command to /bin/sh as one.
LONGEST, AROUND = 120_000, 24    # so many bytes kati writes around the text of a command
MOST, SHORT = 16_777_216, 200    # bytes of a makefile for kati; of a command, where the makefile would have more
SPECIAL = re.compile(r"[ :#$=;]")
BACKSLASHES = re.compile(r"(\\*)#")
REFUSED = re.compile(r"[*?\[|\t\r\n\0]|^~|\\$|^$|.\(.*\)$", re.DOTALL)
REFUSED_TARGET = re.compile(r"%|&$|^\.(?:PHONY|SUFFIXES|POSIX|PRECIOUS|SECONDARY|INTERMEDIATE|SILENT|DELETE_ON_ERROR|"
                            r"NOTPARALLEL|SECONDEXPANSION|ONESHELL|DEFAULT|IGNORE|WAIT|EXPORT_ALL_VARIABLES)$|"
                            r"^_kati_always_build_$")
PHONY = ".kati/phony/"
IN_PATH, NOT_IN_PATH = re.compile(r"[\w+-][\w.+-]*", re.ASCII), re.compile(r"[^\w.+-]", re.ASCII)
HELP = "kati has no such name; rename the file"


class GraphFile(NamedTuple):
    """The makefile; where each of its lines comes from; the scripts that its commands run; and the goals for kati."""

    text: bytes
    places: Mapping[int, Optional[Place]]
    scripts: Mapping[str, bytes]
    goals: Tuple[str, ...]


Written = Tuple[str, Tuple[str, ...]]    # what a node became: its shell, and the lines of its recipe


def doubled(text: str) -> str:
    """A text that kati does not expand."""
    return text.replace("$", "$$")


def name_text(name: str) -> str:
    """A name as kati reads it in a rule. `=` and `;` come out of an expansion, where they have no meaning."""
    if not SPECIAL.search(name):
        return name
    text = BACKSLASHES.sub(r"\1\1\\#", doubled(name)).replace(" ", "\\ ").replace(":", "\\:")
    return text.replace("=", "$(E)").replace(";", "$(S)")


def macro_text(name: str) -> str:
    """A name as a part of a macro's name, which has neither blanks nor colons. No name has a `%`."""
    if not SPECIAL.search(name):
        return name
    text = BACKSLASHES.sub(r"\1\1\\#", doubled(name)).replace(" ", "%b").replace(":", "%c")
    return text.replace("=", "$(E)").replace(";", "$(S)")


def refuse_names(graph: Graph) -> None:
    """Stops where kati has no word for a name, with the place of the rule that makes the file or needs it."""
    nodes = list(nodes_of(graph))
    targets = {name: node for node in nodes for name in node.outputs}
    for name in targets:
        if REFUSED.search(name) or REFUSED_TARGET.search(name):
            raise Stop(f"the target '{name}' cannot be translated", place=targets[name].place, help=HELP)
    refused = {name for name in set().union(*(node.inputs + node.order_only for node in nodes)).difference(targets)
               if REFUSED.search(name)}
    for node in nodes if refused else ():
        for name in (*node.inputs, *node.order_only):
            if name in refused:
                raise Stop(f"the prerequisite '{name}' cannot be translated", place=node.place, help=HELP)


def size(text: str) -> int:
    """How many bytes a text has between single quotes."""
    return (len(text) if text.isascii() else len(bytes_of(text))) + 3 * text.count("'")


def is_simple(text: str, longest: int) -> bool:
    """Whether a text is surely short, and one line that shells and kati read as it is."""
    return text.isascii() and text.isprintable() and 2 * len(text) < longest and "'" not in text and "\\" not in text \
        and text.strip() != "" and not text.startswith(scripts.MARKS)


class Scripts:
    """The scripts of a graph, by their names; each shell with its environment is made once."""

    def __init__(self, longest: int) -> None:
        self.longest = longest
        self.all: Dict[str, bytes] = {}
        self.shells: Dict[Tuple, str] = {}

    def path(self, script: scripts.Script) -> str:
        """Keeps a script; answers its path."""
        self.all[script[0]] = script[1]
        return scripts.path_of(script)

    def shell(self, command: Command, place: Optional[Place]) -> str:
        """The word of the shell that runs a command by `-c`."""
        key = command.shell, command.environment
        if key not in self.shells:
            program, *flags = command.shell
            is_plain = not command.environment and flags == ["-c"] and quoted(program) == program
            self.shells[key] = program if is_plain else \
                self.path(scripts.script(command.shell, command.environment, place))
        return self.shells[key]

    def written(self, node: Node) -> Written:
        """The shell and the recipe of a node. Commands that differ in their shells are scripts as a whole."""
        if len(node.commands) == 1 and is_simple(node.commands[0].text, self.longest):
            one = node.commands[0]
            return self.shell(one, node.place), (f"\t{'-' if one.is_ignored else ''}{doubled(one.text)}",)
        commands = [one for one in node.commands if one.text.strip()]
        shells = {self.shell(one, node.place) for one in commands}
        texts = [one_line(one.text) for one in commands]
        if len(shells) > 1 or any(text is None and not is_bourne(one.shell) for text, one in zip(texts, commands)):
            texts = [self.path(scripts.whole_script(one.shell, one.environment, one.text, node.place))
                     for one in commands]
            shells = {USUAL}
        texts = [". " + self.path(scripts.text_script(one.text)) if text is None or size(text) > self.longest else text
                 for text, one in zip(texts, commands)]
        shell = shells.pop() if shells else ""
        marked = [(text, one.is_ignored) for text, one in zip(texts, commands)]
        if sum(size(text) + len(shell) + AROUND for text in texts) > LONGEST:
            marked, shell = [(self.path(scripts.recipe_script(shell, marked)), False)], USUAL
        return shell, tuple(f"\t{'-' if is_ignored else ''}{doubled(text)}" for text, is_ignored in marked)


def rule_line(node: Node, spelled: Callable[[str], str]) -> str:
    """The line of a node's targets and prerequisites, each as it is `spelled`."""
    outputs, inputs = " ".join(map(spelled, node.outputs)), "".join([" " + spelled(one) for one in node.inputs])
    # an empty reference, since the first of several names may be a word of kati's, as `include`
    line = f"{outputs}:{inputs}" if len(node.outputs) == 1 else f"$(){outputs} &:{inputs}"
    return f"{line} | {' '.join(map(spelled, node.order_only))}" if node.order_only else line


def shell_lines(shells: Mapping[str, str]) -> List[str]:
    """The macros of shells: one for all, or one for each target that has another than most have."""
    counts = Counter(shells.values())
    usual = counts.most_common(1)[0][0] if counts else USUAL
    if len(counts) < 2:
        return [f"SHELL = {usual}"]
    is_plain = not any(" " in name or ":" in name for name in shells)
    target = "$@" if is_plain else "$(subst :,%c,$(subst $(B),%b,$@))"
    others = [f"S_{macro_text(name)} = {shell}" for name, shell in shells.items() if shell != usual]
    return [f"SHELL = $(or $(S_{target}),{usual})", *others]


def nodes_of(graph: Graph) -> Iterable[Node]:
    """Each node once, and a node for each goal that is a file without a rule."""
    yield from (node for name, node in graph.nodes.items() if node.outputs[0] == name)
    yield from (Node((name,)) for name in graph.goals if name not in graph.nodes)


def phony_path(name: str) -> str:
    """The output of a phony target's recipe, which is never there."""
    return PHONY + (name if IN_PATH.fullmatch(name) else f"{digest(bytes_of(name))[:8]}-{NOT_IN_PATH.sub('_', name)}")


def apart(node: Node) -> Tuple[Node, ...]:
    """A phony target as an alias of its recipe. So Ninja neither takes a file that has the target's name for the
    target, nor deletes it by `-t clean`."""
    if not node.is_phony or node.inputs and not node.commands:
        return (node,)
    own = phony_path(node.outputs[0])
    return node._replace(outputs=(own,), is_phony=bool(node.commands)), Node(node.outputs, (own,), place=node.place)


def by_output(graph: Graph) -> Dict[str, Node]:
    """The nodes by the outputs that Ninja's text has."""
    return {**graph.nodes, **{phony_path(name): node for name, node in graph.nodes.items() if node.is_phony}}


def write(graph: Graph) -> GraphFile:
    """The makefile of a graph. Stops where kati has no word for a name."""
    refuse_names(graph)
    found = written_by(graph, Scripts(LONGEST))
    if len(found.text) > MOST:
        found = written_by(graph, Scripts(SHORT))
    if len(found.text) > MOST:
        raise Stop(f"the graph has {len(found.text)} bytes, and kati reads at most {MOST}")
    return found


def written_by(graph: Graph, kept: Scripts) -> GraphFile:
    """The makefile, with scripts in the place of commands that are too long."""
    shells: Dict[str, str] = {}
    is_usual = not SPECIAL.search("".join({name for node in nodes_of(graph) for name in (*node.outputs, *node.inputs,
                                                                                         *node.order_only)}))
    written: List[Tuple[Node, Tuple[str, ...]]] = []
    for node in itertools.chain.from_iterable(map(apart, nodes_of(graph))):
        shell, recipe = kept.written(node)
        if shell:
            shells[min(node.outputs, key=bytes_of) if len(node.outputs) > 1 else node.outputs[0]] = shell
        written.append((node, recipe))
    lines = [*HEAD.split("\n")[:-1], *shell_lines(shells)]
    places: List[Optional[Place]] = [None] * len(lines)
    for node, recipe in written:
        lines += [f".PHONY: {name_text(node.outputs[0])}"] if node.is_phony else []
        lines.append(rule_line(node, str if is_usual else name_text))
        lines += recipe
        places += [node.place] * (len(lines) - len(places))
    return GraphFile(bytes_of("\n".join(lines) + "\n"), dict(enumerate(places, 1)), {**graph.scripts, **kept.all},
                     graph.goals)
