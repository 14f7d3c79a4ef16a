"""scripts/crate_costs.txt: what is written is read, and a gate's samples become costs."""
import importlib
import sys
import tempfile
import unittest
from pathlib import Path

from support import TOP

sys.path.append(str(TOP / "scripts"))


class Costs(unittest.TestCase):
    """The file, and what scripts/gate_cost.py writes into it."""

    def setUp(self):
        self.costs = importlib.import_module("crate_costs")

    def test_the_file_of_the_repository(self):
        found = self.costs.read()
        crates = {line.split(":")[0] for line in (TOP / "crates.txt").read_text().splitlines() if line[:1] != "#"}
        self.assertLessEqual(set(found.crates), crates)
        self.assertEqual(found.reference("no_such_crate"), 0)
        # Each crate that is proved stands there.
        self.assertGreater(found.reference("kt_ninja_reader"), 0)

    def test_what_is_written_is_read(self):
        cost = importlib.import_module("gate_cost")
        table = {"b": {"proof": [10.2, 20], "tests": [], "edits": [1, 1, 1]},
                 "a": {"proof": [80], "tests": [7], "edits": []}}
        with tempfile.TemporaryDirectory() as room:
            path = Path(room) / "costs.txt"
            edits = Path(room) / "crates/b/must-fail"
            edits.mkdir(parents=True)
            for name in ("one.edit", "two.edit", "notes.txt"):
                (edits / name).touch()
            self.costs.write(cost.costs_of(table, 120.4, cost.edits_in(room)), path)
            text, found = path.read_text(), self.costs.read(path)
        self.assertEqual([line for line in text.splitlines() if line[0] != "#"],
                         ["speed 120 60", "a 80 7 0 0", "b 30 0 3 2"])
        self.assertEqual(found.crates["b"], self.costs.Cost(30, 0, 3, 2))
        self.assertEqual((found.reference("a"), found.reference("b")), (40, 15))
