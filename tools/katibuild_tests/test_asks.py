"""How often make is read: at most twice in a first build and for a new source, once for a flag, else not at all."""
from __future__ import annotations

import os
import unittest
from typing import Mapping, NamedTuple, Tuple

from trees import Tree

SOURCES = {"m.c": "#include \"h.h\"\nint f(void);int main(void){return H+f();}\n", "f.c": "int f(void){return 1;}\n",
           "h.h": "#define H 3\n"}
PROGRAM = "SRCS := $(wildcard *.c)\nCFLAGS = -O0\nprog: $(SRCS:.c=.o)\n\tcc -o $@ $^\n"
EDITS = (("nothing", ":", 0), ("a header", "echo '#define H 4' > h.h", 0), ("a source", "echo '//' >> f.c", 0),
         ("an editor's file", "touch .m.c.swp m.c~", 0), ("a new source", "echo 'int k;' > k.c", 2),
         ("a flag", "sed -i s/-O0/-O1/ Makefile", 1), ("nothing more", ":", 0))


class Row(NamedTuple):
    """A makefile, and how often make may be read at first and after each edit."""

    name: str
    makefile: str
    first: int = 2
    more: Mapping[str, int] = {}
    files: Mapping[str, str] = SOURCES
    edits: Tuple[Tuple[str, str, int], ...] = EDITS


ROWS = (
    Row("no header dependencies", PROGRAM + "%.o: %.c\n\tcc $(CFLAGS) -c -o $@ $<\n"),
    Row("depfiles beside objects", PROGRAM + "%.o: %.c\n\tcc $(CFLAGS) -MMD -c -o $@ $<\n-include $(SRCS:.c=.d)\n"),
    Row("depfiles by a wildcard", PROGRAM + "%.o: %.c\n\tcc $(CFLAGS) -MMD -c -o $@ $<\n-include $(wildcard *.d)\n"),
    Row("depfiles by a wildcard over names", PROGRAM + "%.o: %.c\n\tcc $(CFLAGS) -MMD -c -o $@ $<\nD := $(SRCS:.c=.d)\n"
        "P := $(wildcard $(D))\nifneq ($(P),)\ninclude $(P)\nendif\n"),
    Row("depfiles in a hidden folder", PROGRAM + "%.o: %.c\n\t@mkdir -p .deps\n\tcc $(CFLAGS) -MMD -MF .deps/$*.d "
        "-c -o $@ $<\n-include $(SRCS:%.c=.deps/%.d)\n"),
    # make remakes these, so that an edited header is a reason to read the makefile
    Row("depfiles by a rule", PROGRAM + "%.o: %.c\n\tcc $(CFLAGS) -c -o $@ $<\n%.d: %.c\n\tcc -MM -MT $*.o -MT $@ $< > "
        "$@\n-include $(SRCS:.c=.d)\n", 2, {"a header": 1, "a source": 1}),
)


class Asks(Tree):
    """Each row, with a make that counts its runs."""

    def setUp(self):
        super().setUp()
        self.counter = self.top.parent / "count"
        self.make_program = self.top.parent / "bin/make"
        self.make_program.parent.mkdir()
        self.make_program.write_text(f"#!/bin/sh\ncase \" $* \" in *' -B '*) echo >> {self.counter};; esac\n"
                                     "exec /usr/bin/make \"$@\"\n")
        self.make_program.chmod(0o755)

    def asks(self, build):
        """How often a build reads the graph of make."""
        self.counter.write_text("")
        ran = build(MAKE_PROGRAM=str(self.make_program), PATH=f"{self.make_program.parent}:{os.environ['PATH']}")
        self.assertEqual(0, ran.status, ran.said)
        return len(self.counter.read_text()), ran.said

    def test_rows(self):
        for row in ROWS:
            self.start_again()
            self.put({**row.files, "Makefile": row.makefile})
            count, said = self.asks(self.build)
            with self.subTest(row.name):
                self.assertLessEqual(count, row.first, said)
            for name, edit, most in row.edits:
                self.sh(edit)
                count, said = self.asks(self.build)
                with self.subTest(row.name, edit=name):
                    self.assertLessEqual(count, row.more.get(name, most), said)

    def test_a_plain_ninja_after_kati_build(self):
        for row in ROWS:
            self.start_again()
            self.put({**row.files, "Makefile": row.makefile})
            self.asks(self.build)
            with self.subTest(row.name):
                self.assertEqual(0, self.asks(self.ninja)[0])


if __name__ == "__main__":
    unittest.main()
