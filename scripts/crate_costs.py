"""The cost of each crate in the gate, from scripts/crate_costs.txt, which scripts/gate_cost.py --record writes."""
from pathlib import Path
from typing import Dict, NamedTuple

PATH = Path(__file__).resolve().parent / "crate_costs.txt"
HEAD = """\
# Processor seconds of each crate in the gate with nothing kept: its proof, its tests, its edits, and how many edits
# these are. scripts/gate_cost.py --record writes this file; the tests of a crate are a crate of their own.
# `speed` has what scripts/gate_cost.py --speed took on the machine of these figures, and on that of the gate's marks.
"""


class Cost(NamedTuple):
    """Processor seconds of a crate, and how many edits they have."""
    proof: float
    tests: float
    edits: float
    count: int


class Costs(NamedTuple):
    """What all crates cost, and what the crate by which machines are compared took here and on that of the marks."""
    crates: Dict[str, Cost]
    here: float
    there: float

    def reference(self, crate):
        """The seconds of a crate's proof on the machine of the gate's marks; 0 where none are known."""
        return self.crates[crate].proof * self.there / self.here if crate in self.crates else 0


def read(path=PATH):
    """The costs of the file."""
    lines = path.read_text(encoding="utf-8").splitlines()
    rows = {words[0]: words[1:] for words in (line.split() for line in lines if line and not line.startswith("#"))}
    here, there = map(float, rows.pop("speed"))
    crates = {crate: Cost(*map(float, row[:3]), int(row[3])) for crate, row in rows.items()}
    return Costs(crates, here, there)


def write(costs, path=PATH):
    """Writes the file."""
    rows = [f"{crate} {one.proof:.0f} {one.tests:.0f} {one.edits:.0f} {one.count}"
            for crate, one in costs.crates.items()]
    text = "\n".join([f"speed {costs.here:.0f} {costs.there:.0f}", *rows, ""])
    path.write_text(HEAD + text, encoding="utf-8")
