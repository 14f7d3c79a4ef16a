"""kati-build by makefiles with includes that rules make, as make's manual has them: each step of a scenario under make
and under ninja.

Where KATI_INCLUDES is set, all scenarios are tried, else some of them."""
import os
import unittest

import include_forms
import include_trees
from include_scenarios import Compared
from support import Tree, needs


@needs("kati", "kati-asked", "make", "ninja", "gcc")
class Scenarios(Tree):
    """Trees, and edits of them."""


def tried(scenario):
    """A test of a scenario."""
    def test(self):
        Compared(self, scenario, self.top).run()
    return test


ALL = {**include_trees.TREES, **include_forms.FORMS}
for name in ALL if os.environ.get("KATI_INCLUDES") else include_trees.QUICK:
    setattr(Scenarios, f"test_{name.replace(' ', '_').replace(',', '')}", tried(ALL[name]))


if __name__ == "__main__":
    unittest.main()
