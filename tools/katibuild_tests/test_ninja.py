"""Ninja's text and log, as kati-build writes them, held against ninja itself."""
from __future__ import annotations

import os
import time
import unittest
from pathlib import Path

import answers
from answers import answer, graph_of, ninja, rule, translated
from katibuild.base import programs
from katibuild.base.message import Stop
from katibuild.graph.writer import GraphFile
from katibuild.ninja import as_made, blocks, headers, inner_makes, kati, log, text, top
from katibuild.ninja.text import Block, NinjaText, Statement
from test_graph import Room as Folder

# Hashes of so many bytes, of which the one at a place is seven times that place and the count; as ninja 1.13 has them.
RAPID = {
    0: 0x5a6ef77074ebc84b, 1: 0xe04e965e17daa8e3, 3: 0x5e9c2fab588102bc, 4: 0xa07e9a79711dcd38,
    7: 0x6133acae15f1e906, 8: 0xa38b4aa24bf6b83b, 16: 0x57862cc81fd1435b, 17: 0x41bc767813807687,
    32: 0x379df9b8b073a809, 33: 0xa2e74722c722dfcd, 48: 0x9ba5cd7d171e5407, 49: 0x172eaf4fc0e4313f,
    97: 0xe451b4b3ce95053e, 200: 0x0d98c2ac04673995,
}
LENGTHS = (*range(2, 34), 47, 48, 49, 50, 63, 64, 65, 95, 96, 97, 98, 111, 112, 143, 144, 145, 192, 193, 700, 5000)
DEPFILES = (
    (b"m.o: m.c h.h\n\nh.h:\n", "m.o"), (b"m.o: m.c \\\n h.h\n", "m.o"), (b"./d//m.o : m.c\n", "d/m.o"),
    (b"# gcc\nm.o: a$$b c\\ d\n", "m.o"), (b"m.o m.d: m.c\n", None), (b"X=1\nm.o: m.c\n", None), (b"", None),
    (b"m.o: m.c\n\tcc\n", None), (b"m.o: m.c\nn.o: x\n", None), (b"m.o: $(X)\n", None), (b"m.o:: m.c\n", None),
    (b"m.o: X = 1\n", None), (b"%.o: %.c\n", None), (b"include x\n", None), (b"m.o: m.c ; cc\n", None),
    (b"m.o:\n", None),    (b"m.o: m.c\nifdef X\nendif\n", None), (b"m.o: m.c\r\n", "m.o"), (b"m.o := m.c\n", None),
)
CALLS_OF_MAKE = ("make -C sub", "/usr/bin/make", "cd x && gmake all", "(make)", "'make'", "x=`make -s v`", "make;")
OTHER_CALLS = ("cmake -B x", "make-it", "echo remake", "makefile", "cc -o make.o")


class Logs(Folder):
    """The hashes, and what ninja makes of lines that it did not write."""

    def test_rapidhash(self):
        for length, wanted in RAPID.items():
            data = bytes((at * 7 + length) % 256 for at in range(length))
            self.assertEqual(wanted, log.rapid(data), length)

    def test_the_ninja_at_hand(self):
        letters = "".join(chr(ord("a") + at * 7 % 26) for at in range(max(LENGTHS)))
        commands = {f"o{length}": (": " + letters)[:length] if length > 2 else ":;" for length in LENGTHS}
        Path(self.top, "build.ninja").write_text("".join(
            f"rule {name}\n command = {command}\nbuild {name}: {name}\n" for name, command in commands.items()))
        self.assertEqual(0, ninja(self.top)[0])
        kind = log.kind_of(programs.find(os.environ))
        found = log.read(Path(self.top, ".ninja_log").read_bytes(), kind)
        self.assertEqual({name: log.hashed(kind, command) for name, command in commands.items()},
                         {name: entry.hash for name, entry in found.entries.items()})

    def test_a_ninja_with_another_log_is_unknown(self):
        other = Path(self.top, "other")
        other.write_text('#!/bin/sh\nninja "$@" && sed -i "1s/v[0-9]*/v99/" .ninja_log\n')
        other.chmod(0o755)
        self.assertIsNone(log.kind_of(programs.find({**os.environ, "NINJA": str(other)})))

    def test_lines_are_added_and_taken_away(self):
        kind = log.Kind(*log.HEADS[0])
        empty = log.read(None, kind)
        data = log.with_lines(empty, {"a": log.Entry(5, 7), "b\udcff": log.Entry(6, 8)})
        found = log.read(data, kind)
        self.assertEqual({"a": (5, 7), "b\udcff": (6, 8)}, found.entries)
        data = log.with_lines(found, {"c": log.Entry(9, 9)}, ["a", "z"])
        self.assertEqual({"b\udcff": (6, 8), "c": (9, 9)}, log.read(data, kind).entries)
        torn = log.read(data + b"1\t2\t3", kind)
        data = log.with_lines(torn, {"d": log.Entry(1, 1)})
        self.assertEqual({"b\udcff", "c", "d"}, set(log.read(data, kind).entries))
        self.assertEqual({}, log.read(data, log.Kind(*log.HEADS[2])).entries)


class AsMade(Folder):
    """Trees that make built before Ninja has a log; ninja says what it would run."""

    def setUp(self):
        super().setUp()
        rules = [rule("all", "p q"), rule("p", "a", "x"), rule("q", "b", "x")]
        self.asked = answer("all", rules, [("p", "cp a p; echo p >> ran"), ("q", "cp b q; echo q >> ran")])
        for name in "abpq":
            Path(self.top, name).write_text(name)
            time.sleep(0.02)
        file, self.text = translated(graph_of(self.asked, self.top))
        answers.place(self.top, file, self.text)
        self.kind = log.kind_of(programs.find(os.environ))
        self.log = Path(self.top, ".kati/.ninja_log")

    def write(self, made, gone=()):
        """Adds lines to ninja's log."""
        data = self.log.read_bytes() if self.log.exists() else None
        self.log.write_bytes(log.with_lines(log.read(data, self.kind), made, gone))

    def time_of(self, name):
        """The time of a file, or None."""
        path = Path(self.top, name)
        return path.stat().st_mtime_ns if path.exists() else None

    def ran(self):
        """Which commands ninja ran."""
        path = Path(self.top, "ran")
        path.write_text("")
        self.assertEqual(0, ninja(self.top)[0])
        return sorted(path.read_text().split())

    def take(self, present, rebuilds=()):
        """Writes lines for outputs that count as made."""
        made = as_made.to_log(self.text, present, rebuilds)
        self.write(log.lines(made, {name: self.time_of(name) for name in made}, self.kind))

    def test_without_lines_ninja_makes_all(self):
        self.assertEqual(["p", "q"], self.ran())

    def test_what_make_would_not_rebuild_is_not_run(self):
        self.take({"p", "q"})
        self.assertEqual([], self.ran())

    def test_what_make_would_rebuild_is_run(self):
        self.take({"p", "q"}, {"q"})
        self.assertEqual(["q"], self.ran())
        self.assertEqual([], self.ran())

    def test_edited_after(self):
        self.take({"p", "q"})
        Path(self.top, "a").write_text("new")
        self.assertEqual(["p"], self.ran())

    def test_by_turns(self):
        self.ran()
        time.sleep(0.02)
        for name in "ap":                       # an edit, and make's build
            Path(self.top, name).write_text(name)
            time.sleep(0.02)
        Path(self.top, "b").write_text("b")     # an edit alone
        found = log.read(self.log.read_bytes(), self.kind)
        turn = as_made.by_turns(self.text, found, self.time_of, {}, {})
        self.assertEqual((["p"], ()), (list(turn.made), turn.gone))
        self.write(turn.made, turn.gone)
        self.assertEqual(["q"], self.ran())

    def test_an_output_that_is_older_than_ninja_left_it(self):
        self.ran()
        before = {name: self.time_of(name) for name in "pq"}
        os.utime(Path(self.top, "p"), ns=(before["p"] - 10 ** 9,) * 2)
        found = log.read(self.log.read_bytes(), self.kind)
        turn = as_made.by_turns(self.text, found, self.time_of, {}, before)
        self.assertEqual(({}, ("p",)), (turn.made, turn.gone))
        self.write(turn.made, turn.gone)
        self.assertEqual(["p"], self.ran())

    def test_another_text_alone(self):
        self.ran()
        lines = tuple(line._replace(text=line.text + "; true") for line in self.asked.lines)
        file, new = translated(graph_of(self.asked._replace(lines=lines), self.top, known=["p", "q"]))
        answers.place(self.top, file, new)
        found = log.read(self.log.read_bytes(), self.kind)
        self.write(as_made.same_build(self.text, new, found, lambda name: name == "q"))
        self.assertEqual(["q"], self.ran())

    def test_a_statement_that_lacks_an_output_is_not_made(self):
        one = Statement(1, 2, ("x", "y"), ("a",), (), "c")
        for present, wanted in (({"x", "y"}, {"x": "c", "y": "c"}), ({"x"}, {}), (set(), {})):
            self.assertEqual(wanted, as_made.to_log(NinjaText(b"", (one,)), present, ()))


class Blocks(Folder):
    """What is added to kati's text, and the check of that."""

    def setUp(self):
        super().setUp()
        rules = [rule("all", "m.o", is_phony=True), rule("m.o", "m.c", "x"), rule("t", "m.o", "x", is_phony=True)]
        self.graph = graph_of(answer("all t", rules, [("m.o", "cc -c m.c"), ("t", "make -C sub")]), self.top)
        self.text = translated(self.graph)[1]

    def test_all_that_is_added(self):
        found = blocks.added(self.text, self.graph, {"m.o": "m $.d"}, lambda name: True, {})
        data = blocks.with_blocks(self.text, found, {"m $.d"})
        for line in (b" depfile = m $$.d\n", b" restat = 1\n", b" description = cc -c m.c\n"):
            self.assertIn(line, data)
        self.assertEqual(1, data.count(b"restat"))
        self.assertEqual(self.text.data, blocks.kati_data(data))
        self.assertEqual(self.text.statements, text.parse(blocks.kati_data(data)).statements)

    def test_generator_only_without_inputs(self):
        rules = [rule("all", "a b c d e p"), rule("a"), rule("b"), rule("c", "s"), rule("d"), rule("e", "p"),
                 rule("p", is_phony=True)]
        rules[2] = rules[2]._replace(order_only=("a",))
        graph = graph_of(answer("all", rules, [(name, f"touch {name}") for name in "abcdep"]), self.top)
        found = blocks.generators(translated(graph)[1], {"d": "d.d"})
        lines = translated(graph)[1].data.decode().split("\n")
        self.assertEqual(["build a: ", "build b: "], [lines[one.line - 1][:9] for one in found])

    def test_a_text_that_is_not_katis_is_refused(self):
        data = blocks.with_blocks(self.text, ())
        for other in (data + b"\n", data.replace(b"m.c", b"n.c"), data.replace(b" command", b"  command"),
                      data.replace(b"default", b" deps = gcc\ndefault"), data.replace(b"# kati\n", b"")):
            with self.assertRaises(Stop) as stopped:
                blocks.check(other, self.text, ())
            self.assertEqual(70, stopped.exception.status)

    def test_a_hidden_file_without_a_statement_is_refused(self):
        one = next(one for one in self.text.statements if one.outputs == ("m.o",))
        more = [Block(one.line, (("depfile", "m.d"),))]
        blocks.with_blocks(self.text, more, {"m.d"})
        for hidden in ({"n.d"}, {"m.d", "n.d"}, {"m"}):
            with self.assertRaises(Stop) as stopped:
                blocks.with_blocks(self.text, more, hidden)
            self.assertEqual(70, stopped.exception.status)

    def test_restat_only_where_all_outputs_are_files(self):
        statements = (Statement(1, 2, ("a", "b"), (), (), "c"), Statement(3, 4, ("c",), (), (), "c"),
                      Statement(5, 6, ("d",), (), (), "", True), Statement(7, 8, ("e",), (text.ALWAYS,), (), "c"))
        for files, wanted in (("abcde", [1, 3]), ("acde", [3]), ("", [])):
            found = blocks.restats(NinjaText(b"", statements), lambda name: name in files)
            self.assertEqual(wanted, [block.line for block in found])

    def test_depfiles_by_content(self):
        for data, wanted in DEPFILES:
            with self.subTest(data):
                self.assertEqual(wanted, headers.target_of(data))

    def test_inner_makes(self):
        for words in (*CALLS_OF_MAKE, *OTHER_CALLS):
            with self.subTest(words):
                self.assertEqual(words in CALLS_OF_MAKE, inner_makes.runs_make(words))

    def test_faults_have_the_place_of_the_makefile(self):
        file = GraphFile(b"all:\n\tx\nall:: b\n\ty\n", {3: answers.PLACE}, {}, ("all",))
        found = kati.translate(programs.find(os.environ), file, file.goals)
        self.assertEqual(("single and double colon on all", answers.PLACE, "E24"), found)

    def test_statements_of_katis_text(self):
        data = (b"# kati\nbuild _kati_always_build_: phony\nrule r0\n command = a $$b\nbuild a$ b: r0\n"
                b"rule r1\n command = x\nbuild c$:d e$$: r1 f g$ h | _kati_always_build_ || i j\n"
                b"build k: phony || l\nbuild m: phony n o\n"
                b"rule r2\n command = $  y\nbuild p: r2 \xc2\xa0\xff q || r\ndefault m\n")
        found = [one[2:] for one in text.parse(data).statements]
        self.assertEqual([
            ((text.ALWAYS,), (), (), "", True), (("a b",), (), (), "a $b", False),
            (("c:d", "e$"), ("f", "g h", text.ALWAYS), ("i", "j"), "x", False), (("k",), (), ("l",), "", True),
            (("m",), ("n", "o"), (), "", True), (("p",), ("\xa0\udcff", "q"), ("r",), "  y", False)], found)

    def test_goals_of_make(self):
        Path(self.top, ".kati").mkdir()
        Path(self.top, ".kati/statements").write_bytes(b"build all: phony\n")
        goals = [top.PhonyGoal("install", "echo run >> log", ("all",)), top.PhonyGoal("a b:", "echo $HOME > c", ())]
        Path(self.top, "install").write_text("read me")
        Path(self.top, "build.ninja").write_bytes(top.text("true", goals))
        for words in (["install"], ["a b:"], ["-t", "clean"], ["install"]):
            status, said = ninja(self.top, *words)
            self.assertEqual(0, status, said)
        read = [Path(self.top, name).read_text() for name in ("install", "log", "c")]
        self.assertEqual(["read me", "run\nrun\n", f"{os.environ['HOME']}\n"], read)


if __name__ == "__main__":
    unittest.main()
