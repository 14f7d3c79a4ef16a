"""kati's text with keys added to its statements, and the check that nothing else differs."""
from __future__ import annotations

import re
from typing import Callable, Collection, Container, Dict, Iterable, Iterator, List, Mapping

from ..base.files import bytes_of
from ..base.message import Status, Stop
from ..graph.node import Graph, Node
from ..graph.writer import by_output
from . import headers, inner_makes
from .text import ALWAYS, Block, NinjaText, escaped_value

# No line of kati's begins as these. A first letter is found faster than `^`.
ADDED = re.compile(rb"\n (?:depfile|description|generator|pool|restat) = .*")
DEPFILE = re.compile(rb"^ depfile = (.*)$", re.MULTILINE)
LONGEST = 2_000                  # letters of a description


def added(text: NinjaText, graph: Graph, depfiles: Mapping[str, str], is_file: Callable[[str], bool],
          renewing: Mapping[str, str], left_alone: Collection[str] = ()) -> List[Block]:
    """All that is added to kati's text; `depfiles` are paths by outputs, and so are those of keep.turns.renewing."""
    return [*headers.blocks(text, {**renewing, **depfiles}), *generators(text, depfiles, left_alone),
            *restats(text, is_file), *inner_makes.blocks(text, graph), *descriptions(text, graph)]


def generators(text: NinjaText, depfiles: Container[str], left_alone: Collection[str] = ()) -> Iterator[Block]:
    """`generator` for each statement without inputs, order-only ones aside: make runs such a recipe only where the file
    is absent. By `generator` neither another command nor a lost log makes the file stale, which the user may have
    edited, and `ninja -t clean` leaves the file alone. So it is for `left_alone`, too."""
    for one in text.statements:
        is_left = bool(left_alone) and all(name in left_alone for name in one.outputs)
        if (one.is_bare or is_left) and one.outputs[0] not in depfiles:
            yield Block(one.line, (("generator", "1"),))


def restats(text: NinjaText, is_file: Callable[[str], bool]) -> Iterator[Block]:
    """`restat` for each statement whose outputs are all files now.

    Not where an output is absent: Ninja would take a command that makes no file for one that changed nothing, and what
    depends on it would go stale. Not for phony targets either: make rebuilds what needs them each time.
    """
    for one in text.statements:
        if not one.is_phony and all(map(is_file, one.outputs)) and ALWAYS not in one.inputs:
            yield Block(one.line, (("restat", "1"),))


def description(node: Node) -> str:
    """The lines that make would echo, as one; a silent recipe shows its target."""
    echoed = [" ".join(one.text.replace("\\\n", " ").split()) for one in node.commands if one.is_echoed]
    text = " && ".join([one for one in echoed if one])
    return text[:LONGEST] or f"making {node.outputs[0]}"


def descriptions(text: NinjaText, graph: Graph) -> Iterator[Block]:
    """`description` for each statement with a command."""
    nodes = by_output(graph)
    for one in text.statements:
        node = nodes.get(one.outputs[0])
        if node is not None and not one.is_phony:
            yield Block(one.line, (("description", description(node)),))


def with_blocks(text: NinjaText, blocks: Iterable[Block], hidden: Collection[str] = ()) -> bytes:
    """The text with these blocks. Stops if the text without them is not kati's, byte for byte, or if a file that is
    hidden from make is the depfile of no statement."""
    more: Dict[int, str] = {}
    for block in blocks:
        for key, value in block.pairs:
            more[block.line] = f"{more.get(block.line, '')}\n {key} = {escaped_value(value)}"
    lines = text.data.split(b"\n")
    for number, added_text in more.items():
        lines[number - 1] += bytes_of(added_text)
    data = b"\n".join(lines)
    check(data, text, hidden)
    return data


def kati_data(data: bytes) -> bytes:
    """kati's own bytes in a text with blocks."""
    return ADDED.sub(b"", data)


def check(data: bytes, text: NinjaText, hidden: Collection[str]) -> None:
    """Holds a text about to be written against kati's, and against the files that are hidden from make."""
    if kati_data(data) != text.data:
        raise Stop("the Ninja text without kati-build's lines is not kati's", Status.INTERNAL)
    depfiles = set(DEPFILE.findall(data))
    lost = sorted(name for name in hidden if bytes_of(escaped_value(name)) not in depfiles)
    if lost:
        raise Stop(f"'{lost[0]}' is hidden from make, and no statement reads it", Status.INTERNAL)
