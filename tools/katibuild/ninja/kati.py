"""kati, the verified translator, run on the graph."""
from __future__ import annotations

import os
import re
from typing import NamedTuple, Optional, Sequence, Union

from ..base import files, interrupt, programs
from ..base.message import Place, Status, Stop
from ..graph.writer import GraphFile
from . import text
from .text import NinjaText

FAULT = re.compile(r"(?m)^(?:graph:(\d+)|kati): \*\*\* (.*?)(?: \[(E\d\d)\])?$")
NAME = "graph"


class Fault(NamedTuple):
    """What kati refuses: its message, the line of the makefile it comes from, and its number."""

    text: str
    place: Optional[Place] = None
    number: str = ""


def translate(paths: programs.Programs, graph_file: GraphFile, goals: Sequence[str]) -> Union[NinjaText, Fault]:
    """kati's Ninja text for the graph and these goals, or the fault that it finds."""
    with interrupt.scratch_folder() as folder:
        files.replace(os.path.join(folder, NAME), graph_file.text)
        ran = programs.run([paths.kati, "-f", NAME, "--", *goals], folder, os.environ)
    if ran.status == 0:
        return text.parse(ran.output)
    return fault_of(files.text_of(ran.errors), ran.status, graph_file)


def fault_of(errors: str, status: int, graph_file: GraphFile) -> Fault:
    """The fault in what kati printed; stops if kati failed for another reason."""
    found = FAULT.search(errors)
    if status != 2 or not found:
        words = errors.strip().split("\n")[-1] or f"status {status}"
        raise Stop(f"kati failed: {words}", Status.INTERNAL if status != 3 else Status.DEVICE)
    place = graph_file.places.get(int(found.group(1))) if found.group(1) else None
    return Fault(found.group(2), place, found.group(3) or "")
