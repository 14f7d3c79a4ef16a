"""A build runs each recipe as often as make does, although what it makes may change the makefile's text."""
from __future__ import annotations

import unittest
from typing import Mapping, NamedTuple

from trees import Tree


class Row(NamedTuple):
    """A makefile whose recipes write to `log`, with the files of its tree."""

    name: str
    makefile: str
    files: Mapping[str, str] = {}


ROWS = (
    Row("an always-run recipe names what is built", ".PHONY: all\nSUBS := $(wildcard *.out)\nall: x.out\n"
        "\techo ran $(SUBS) >> log\nx.out:\n\techo x >> log; touch $@\n"),
    Row("a file's recipe names what is built", "N := $(words $(wildcard *.o))\nall: a.o b.o prog\n"
        "%.o: %.c\n\techo $@ $(N) >> log; cp $< $@\nprog: a.o b.o\n\techo prog $(N) >> log; cat $^ > $@\n",
        {"a.c": "a", "b.c": "b"}),
    Row("an always-run recipe asks the clock", "NOW = $(shell date +%N)\nall: header prog\nheader:\n"
        "\techo header >> log; : $(NOW)\nprog: $(wildcard *.in)\n\techo prog >> log; touch $@ $@.o\n", {"a.in": ""}),
    Row("a built makefile is included if it is there", "all: .depend prog\n.depend: ; echo 'prog.o: h' > $@\n"
        "%.o: %.c\n\techo $@ >> log; cp $< $@\n%: %.o\n\techo $@ by .o >> log; cp $< $@\n"
        "%: %.c\n\techo $@ by .c >> log; cp $< $@\nifneq ($(wildcard .depend),)\ninclude .depend\nendif\n",
        {"prog.c": "", "h": ""}),
    Row("a recipe writes the makefile", "WAS = new\nall: conf\n\techo all $(WAS) >> log\nconf:\n"
        "\techo conf >> log; touch $@; sed '1s/new/configured/' Makefile > m; mv m Makefile\n"),
)


class Rounds(Tree):
    """Each row: what recipes wrote in one build and in the next, by make and by kati-build."""

    def logs(self, row, build):
        """What `log` has after the first and after the second build."""
        self.start_again()
        self.put({"Makefile": row.makefile, "log": "", **row.files})
        found = []
        for _ in range(2):
            ran = build("-j1")
            self.assertEqual(0, ran.status, ran.said)
            found.append((self.top / "log").read_text())
        return found

    def test_as_often_as_make(self):
        for row in ROWS:
            with self.subTest(row.name):
                self.assertEqual(self.logs(row, self.make), self.logs(row, self.build))


if __name__ == "__main__":
    unittest.main()
