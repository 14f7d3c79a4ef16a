"""What a port costs: runs of kati and of make don't grow with the number of faults that don't hang on each other."""
import gc
import os
import random
import shlex
import subprocess
import types
import unittest
from unittest import mock

from support import Tree, kati, kati_asked, needs

from kati_tools.base import files, own_files, programs, scratch
from kati_tools.makefile import ported_text
from kati_tools.make import make_run, recipe_shell, running, shell_reading, shell_text
from kati_tools.port import command_reads, freezing, frozen_values, make_probes, read_lines

# Of each construct: lines of a makefile, and what its recipe has of them; ~ stands for a number.
CONSTRUCTS = (
    ("S~ := $(shell echo s~)\n", "$(S~)"),
    ("W~ = $(wildcard *~.c)\n", "$(W~)"),
    ("", "$(shell echo r~)"),
    ("B~ != echo b~\n", "$(B~)"),
    ("export E~ = e~\n", "$$E~"),
    ("export A~ = $(shell echo a~)\n", "$$A~"),
    ("all: Z~ = $(shell echo z~)\n", "$(Z~)"),
    ("override O~ = o~\n", "$(O~)"),
    ("U~ = 1\nundefine U~\n", "$(U~)"),
    ("private P~ = 1\n", "$(P~)"),
    ("override define D~\nd~\nendef\n", "$(D~)"),
    ("\tifeq (1,1)\nT~ = ~\n\tendif\n", "$(T~)"),
    ("\tinclude i~.mk\n", ""),
    ("ifndef $(NONE~)\nN~ = ~\nelse\nN~ := $(shell exit ~)\nendif\n", "$(N~)"),
    ("all: X~ = x~\n", "$(X~)"),
    ("all: n~*.c\n", ""),
    ("vpath %.v~ src\n", ""),
    ("V~ = $(eval V~ := $(shell echo v~))$(V~)\n", "$(V~)"),
    ("define L~\nall: M~ = $1\nendef\n$(eval $(call L~,m~))\n", "$(M~)"),
    ("define G~\nH~ := $$(shell echo h~)\nendef\n$(eval $(G~))\n", "$(H~)"),
    ("Q~ := $(MAKE_VERSION)\n", "$(Q~)"),
    ("-include x~*.d\n", ""),
)


def makefile(count):
    """A makefile that has each construct so many times."""
    parts = [(lines.replace("~", str(number)), use.replace("~", str(number)))
             for number in range(1, count + 1) for lines, use in CONSTRUCTS]
    return "".join(lines for lines, _ in parts) + "all:\n" + "".join(f"\techo {use}\n" for _, use in parts if use)


def template(count):
    """A makefile of which a line evaluates a template for a hundred objects, by a macro that asks a shell for each of
    them; what else the line refers to may be asked for, and isn't, so many times."""
    lines = [("ifeq (a,b)\nF~ := $(shell echo f~)\nendif\n", "$(F~)"), ("D~ = $(shell echo d~)\n", "$(D~)")]
    parts = [(line.replace("~", str(number)), use.replace("~", str(number)))
             for number in range(1, count + 1) for line, use in lines]
    objects = " ".join(f"o{number}" for number in range(100))
    return "".join([f"OBJECTS = {objects}\nquoted = $(shell echo $1 $2 | tr o q)\n",
                    "define RULE\n$(1):\n\techo $(2) > $$@\nendef\n", *(line for line, _ in parts),
                    f"FLAGS = $(if $(NONE),{''.join(use for _, use in parts)})\nall: $(OBJECTS)\n",
                    "$(foreach o,$(OBJECTS),$(eval $(call RULE,$(o),$(call quoted,$(o),a b)$(FLAGS))))\n"])


@needs("kati", "kati-asked", "make")
class Cost(Tree):
    """Programs that stand for kati, kati-asked and make count their runs."""

    def setUp(self):
        super().setUp()
        programs = (("KATI", "kati", kati()), ("KATI_ASKED", "kati", kati_asked()), ("MAKE", "make", "make"))
        self.counted = self.top.parent / "counted"
        self.counting = {key: self.program(f"{key}-counted", f'echo {name} >> {self.counted}\nexec {path} "$@"')
                         for key, name, path in programs}

    def runs(self, *words, tool="kati-port"):
        """How often a port by a tool runs kati and make, and what it says. A run of kati-asked in the place of kati's
        counts as one of kati."""
        self.counted.write_text("")
        ran = self.tool(tool, *words, **self.counting)
        self.assertEqual(ran.status, 0, ran.all)
        found = self.counted.read_text().split()
        return found.count("kati"), found.count("make"), ran.all

    def test_the_runs_do_not_grow_with_the_faults(self):
        os.mkdir(self.top / "src")
        for number in range(1, 6):
            self.put_all({f"i{number}.mk": "", f"n{number}-a.c": ""})
        counts = []
        for count in (2, 5):
            self.put("Makefile", makefile(count))
            *runs, said = self.runs("--diff", "Makefile")
            self.assertIn("kati's commands are make's\n", said)
            counts.append(runs)
        self.assertEqual(counts[0], counts[1])

    def test_nor_with_what_a_template_may_come_to(self):
        counts = []
        for count in (2, 6):
            self.put("Makefile", template(count))
            *runs, said = self.runs("--diff", "Makefile")
            self.assertIn("kati's commands are make's\n", said)
            counts.append(runs)
        self.assertEqual(counts[0], counts[1])
        self.assertLess(counts[1][0], 6)

    def test_nor_with_the_names_of_a_rule(self):
        """Each name hangs on a macro that is another one behind the rule."""
        counts = []
        for count in (2, 6):
            rules = [f"D = d{number}\nall: $(D)/*.a $(D)/*.b\n" for number in range(count)]
            self.put_all({f"d{number}/x.{end}": "" for number in range(count) for end in "ab"})
            self.put("Makefile", f"{''.join(rules)}all: ; echo $^ > $@\nD = other\n")
            *runs, said = self.runs("--diff", "Makefile")
            self.assertIn("kati's commands are make's\n", said)
            counts.append(runs)
        self.assertEqual(counts[0], counts[1])

    def test_what_commands_have_is_settled_at_once(self):
        """Macros of targets and flags of the shell cost one translation more together, exported variables one, and what
        the build makes and stands there none; make is asked once for what it tells together."""
        self.put_all({"a.c": "", "a.o": "", "prog": ""})
        self.put("Makefile", ".POSIX:\nexport E = e\nN := $(shell echo 1)\nprog: CFLAGS = -O2\nprog: a.o\n"
                             "\tcc $(CFLAGS) -o $@ $^ # $(CURDIR) $$E $(N)\na.o: a.c\n\tcc -c $(CFLAGS) $<\n")
        katis, makes, said = self.runs("--diff", "Makefile")
        self.assertIn("kati's commands are make's\n", said)
        self.assertEqual((katis, makes), (5, 5))

    def test_a_build_mends_beside_each_other_what_its_commands_have(self):
        """Rules that are taken back, macros of targets, text within quotes, blanks of `+=` and exported variables,
        which make and kati have otherwise, cost one translation more together; make tells of all of them in the runs
        by which it tells its shell, its commands and values."""
        self.put_all({"a.c": "", "Makefile": "MAKEFLAGS += -r\nN := $(shell echo 1)\nexport E = e\nV =\nV += x\n"
                      "prog: F = 1\nprog: a.c\n\techo '$(F) a\\\n\tb' $$E \"$(V)\" $(N) > $@\n"})
        katis, makes, said = self.runs("--port", "--no-ninja", tool="kati-build")
        self.assertNotIn("differ", said)
        self.assertEqual((katis, makes), (5, 4))

    def test_what_is_appended_to_an_immediate_macro_is_asked_for_apart(self):
        """Where it is references alone, whether it comes to something isn't asked beside the values of calls, which
        would be run once more by that."""
        self.put("Makefile", "N := $(shell echo)\nV := 1\nV += $(N)\nall: ; echo '[$(V)]' > out\n")
        katis, makes, said = self.runs("--port", "--no-ninja", tool="kati-build")
        self.assertNotIn("differ", said)
        self.assertEqual((katis, makes), (5, 5))

    def test_a_call_that_make_did_not_come_by_is_mended_with_the_one_round_it(self):
        """As that of a folder which is there: it isn't left for a fault of its own."""
        counts = []
        for output, used in (("a.ninja", ""), ("b.ninja", "$(M)")):
            self.put("Makefile", "F := $(shell echo f)\nM = $(if $(wildcard $(@D)),,$(shell mkdir -p $(@D)))\n"
                                 f"out:\n\t{used}echo $(F) > $@\n")
            katis, makes, said = self.runs("--port", "--no-ninja", "-o", output, tool="kati-build")
            self.assertNotIn("differ", said)
            counts.append((katis, makes))
        self.assertEqual(counts[0], counts[1])

    def test_makefiles_that_make_has_no_recipe_for_are_not_asked_about(self):
        """As make's database tells it, though a rule with a reference in its targets may be that of each."""
        counts = []
        self.put("a.mk", "")
        for target in ("out", "$(X)"):
            self.put("Makefile", f".SUFFIXES:\nX := $(shell echo out)\ninclude a.mk\n{target}: ; echo > $@\n")
            *runs, said = self.runs("--diff", "Makefile")
            self.assertIn("kati's commands are make's\n", said)
            counts.append(runs)
        self.assertEqual(counts[0], counts[1])

    def test_an_include_that_the_goals_need_is_translated_with_them(self):
        """What makes an include is a statement already then; else the makefile is translated once more for it."""
        counts = []
        for need in ("conf.mk", "a.c"):
            self.put_all({"a.c": "", "conf.in": "", "conf.mk": "C = 1\n", "Makefile":
                          f"prog: a.c {need}\n\techo $(C) > $@\ninclude conf.mk\nconf.mk: conf.in\n\tcp $< $@\n"})
            katis, _, said = self.runs("--anew", "--no-ninja", "-o", f"{need}.ninja", tool="kati-build")
            self.assertEqual(said, "kati-build: files that exist and stay as they are: 1\n")
            counts.append(katis)
        self.assertEqual(counts, [3, 4])

    def test_an_include_that_the_port_makes_is_no_change(self):
        """What the port itself puts in its place, as make has made it, is known: kati translates once, as where it is
        there already; and nothing is new to the next run, as kati-build's own files are in no folder that is listed."""
        self.put_all({"a.c": "", "Makefile": "N := $(shell echo 1)\nout: a.c\n\techo $(N) $(C) > $@\n"
                      "include ./conf.mk\nconf.mk: a.c\n\techo C = 1 > $@\n"})
        counts = [self.runs("--port", "--no-ninja", tool="kati-build")[:2] for _ in range(2)]
        self.assertEqual(self.read("conf.mk"), "C = 1\n")
        self.assertEqual(counts[1], (0, 0))
        self.assertEqual(sorted(self.read("build.kati/files.txt").split()), ["Makefile", "a.c", "conf.mk"])
        self.assertEqual(self.tool("kati-build", "--remove").status, 0)
        self.assertEqual(self.runs("--port", "--no-ninja", tool="kati-build")[0], counts[0][0])

    def test_what_make_has_told_of_makefiles_kati_is_not_asked(self):
        """Which includes rules make, where the goals need those that make has a recipe for: kati-asked translates once
        for the goals, and once as without what they say; else also what all makefiles need, and those with the
        goals."""
        asked = f'echo asked >> {self.counted}\nexec {kati_asked()} "$@"'
        self.counting["KATI_ASKED"], counts = self.program("asked-counted", asked), []
        for need in ("conf.mk", "a.c"):
            self.put_all({"a.c": "", "conf.mk": "C = 1\n", "b.mk": "", "Makefile":
                          f"N := $(shell echo 1)\nprog: a.c {need}\n\techo $(C) $(N) > $@\ninclude conf.mk b.mk\n"
                          "-include c.mk\nconf.mk: ; echo C = 1 > $@\n.SUFFIXES:\n$(X): ; echo > $@\nX := d\n"})
            self.runs("--port", "--anew", "--no-ninja", "-o", f"{need}.ninja", tool="kati-build")
            counts.append(self.counted.read_text().split().count("asked"))
        self.assertEqual(counts, [2, 4])

    def test_what_make_does_not_come_by_stays(self):
        self.put("Makefile", "A := $(shell echo a)\nifeq ($(A),b)\nB := $(shell echo b)\nexport C\nelse ifeq ($(A),a)\n"
                             "D := $(shell echo d)\nexport E = e\nelse\nF := $(shell echo f)\noverride G = 1\nendif\n"
                             "H = $(shell echo h)\nall:\nifneq ($(A),)\n\techo $(D) $$E\nendif\n\techo $(A)\n")
        said = self.runs("--diff", "Makefile")[2]
        changed = [line[1:] for line in said.split("\n") if line.startswith("-") and not line.startswith("---")]
        self.assertEqual(changed, ["A := $(shell echo a)", "D := $(shell echo d)"])
        self.assertIn("+ifdef MAKE_VERSION\n export E = e\n+else\n", said)
        self.assertNotIn("+ifdef MAKE_VERSION\n export C\n", said)

    def test_it_is_said_after_a_second(self):
        self.put("Makefile", "N := $(shell sleep 1.2; echo 1)\nall: ; echo $(N) > out\n")
        words = "ports Makefile: make is asked what its lines mean, and kati whether it takes them\n"
        self.assertEqual(self.tool("kati-port", "--diff", "Makefile").whole.count(f"kati-port: {words}"), 1)
        self.assertEqual(self.tool("kati-build", "--port").whole.count(f"kati-build: {words}"), 1)


class Waiting(unittest.TestCase):
    """Waiting for make."""

    def test_its_status_and_a_limit(self):
        self.assertEqual(running.status_of(["sh", "-c", "exit 3"], 60), 3)
        with self.assertRaises(subprocess.TimeoutExpired):
            running.status_of(["sleep", "60"], 0.01)


class Quick(unittest.TestCase):
    """What is told apart quickly, or once, in texts that are large."""

    def test_the_words_of_a_shell_are_those_of_shlex(self):
        def slow(text):
            reader = shlex.shlex(text, posix=True, punctuation_chars=True)
            reader.whitespace_split, reader.commenters = True, ""
            try:
                return list(reader)
            except ValueError:
                return None

        made, letters = random.Random(1), ["a", "-b", " ", "\t", "\n", "'", '"',
                                          "\\", ";", "&&", "|", "(", ")", ">", "$", "#"]
        for _ in range(5000):
            text = "".join(made.choice(letters) for _ in range(made.randrange(12)))
            self.assertEqual(shell_text.shell_words(text), slow(text), text)

    def test_commands_with_single_blanks_are_as_they_are_read(self):
        made, seen = random.Random(2), 0
        letters = ["a", "-b", " ", "  ", "\t", "\n", "'", '"', "\\", ";", "&&", "(", ")", "<<", "$", "$(", "#", "`",
                   " ;"]
        for _ in range(20000):
            text = "".join(made.choice(letters) for _ in range(made.randrange(12)))
            seen += shell_reading.SPECIAL.search(text) is not None and bool(shell_reading.QUOTED_ALONE.fullmatch(text))
            if shell_reading.SPECIAL.search(text):
                self.assertEqual(shell_reading.with_single_blanks(text), shell_reading.read(text, True), text)
        self.assertGreater(seen, 500)

    def test_answers(self):
        out = ("cc a\n@@kati:0 a b:kati@@\n@@kati:12 1\n2:kati@@\nx @@kati:0 :kati@@\n"
               "@@kati:x y:kati@@\n@@kati:3 open\n")
        self.assertEqual(make_run.answered(out), {0: ["a b", ""], 12: ["1\n2"]})

    def test_values_that_come_again_are_told_once(self):
        found = {1: ["a|1 2", f"b|{make_probes.SAME}", f"c|{make_probes.LINES}", f"c|{make_probes.SAME}", "d|x|y"],
                 2: ["no value"]}
        self.assertEqual(make_probes.with_values(found), {
            1: ["a|1 2", "b|1 2", "c|\n", "c|\n", "d|x|y"], 2: ["no value"]})

    def test_a_database_is_looked_at_where_it_names_the_shell(self):
        others = "A = 1\n\tcc -c a.c\n# a comment\n" * 1000
        database = f"# variables\n{others}# (from 'm', line 3)\nSHELL = /bin/sh\n"
        with mock.patch.object(recipe_shell, "fault_in", wraps=recipe_shell.fault_in) as looks:
            self.assertEqual(recipe_shell.first_fault(database, "m", "/room"), "m:3: override of SHELL")
        self.assertEqual(looks.call_count, 1)

    def test_its_lines_are_judged_as_where_all_are_looked_at(self):
        def slow(database):
            is_body = False
            for line in database.split("\n"):
                words = recipe_shell.fault_in(line, "/room", is_body) if "SHELL" in line else None
                if words:
                    return f"m: {words}"
                is_body = line.startswith("define ") or is_body and line != "endef"
            return None

        made, seen = random.Random(3), set()
        lines = ("SHELL = /bin/sh", "SHELL = /room/noop", "define X", "define SHELL", "endef", "endefs", "a: SHELL = x",
                 "\toverride SHELL=x", "X = $(eval override SHELL := y)", "MAKEFLAGS = SHELL=/x", "X = 1", "")
        for _ in range(5000):
            database = "\n".join(made.choice(lines) for _ in range(made.randrange(9)))
            found = slow(database)
            self.assertEqual(recipe_shell.first_fault(database, "m", "/room"), found, database)
            seen.add(found)
        self.assertGreater(len(seen), 2)

    def test_whether_make_reads_a_line_is_looked_for_once(self):
        """And anew where make has told more."""
        file = ported_text.PortedFile("Makefile", "ifdef A\nB = 1\nelse\nB = 2\nendif\n")
        found = read_lines.ReadLines([file])
        with mock.patch.object(found, "is_taken", wraps=found.is_taken) as looks:
            self.assertEqual([found.is_read(file.lines[at]) for at in (1, 3, 1, 3)], [True, False, True, False])
            self.assertEqual(looks.call_count, 2)
            # It tells where it comes by the `else`: then it has not taken the first branch.
            found.take({read_lines.FIRST: [""]})
            self.assertEqual([found.is_read(file.lines[at]) for at in (1, 3)], [False, True])

    def test_names_of_kati_build_are_told_folder_by_folder(self):
        made = random.Random(4)
        with scratch.room("kati-tests-") as room, programs.inside(room):
            for name in ("a/build.kati/lock", "a/build.ninja", "a/build.c", "b/build.ninja", "other.kati/lock"):
                os.makedirs(os.path.dirname(name), exist_ok=True)
                files.write(name, own_files.FIRST_LINE.encode())
            parts = ("a", "b", "build.kati", "build.ninja", "build.c", "other.kati", "x", ".", "..", "")
            paths = ["/".join(made.choice(parts) for _ in range(made.randrange(1, 5))) for _ in range(3000)]
            found = [path for path in paths if not own_files.is_below(path)]
            self.assertEqual(own_files.others(paths), found)
            self.assertLess(len(found), len(paths) - 100)
            with mock.patch.object(own_files, "rooms_in", wraps=own_files.rooms_in) as looks:
                self.assertEqual(len(own_files.others([f"c/{number}" for number in range(100)])), 100)
            self.assertLess(looks.call_count, 5)

    def test_python_looks_seldom_for_what_refers_to_itself_alone(self):
        before = gc.get_threshold()
        try:
            found = programs.ending("kati-build", gc.get_threshold)
        finally:
            gc.set_threshold(*before)
        self.assertGreaterEqual(found[0], 100_000)

    def test_a_command_of_many_calls_is_looked_at_once(self):
        probes = types.SimpleNamespace(asked=[{}, {}, {}, {}])
        probes.asked_behind = lambda call, numbers: {"cat a b": None} if numbers is probes.asked[1] else {}
        port = types.SimpleNamespace(probes=probes, copy=types.SimpleNamespace(real_text=str),
                                     first=types.SimpleNamespace(by_recipes=()))
        freezer = freezing.Freezer(port)
        with mock.patch.object(command_reads, "reads_of", return_value=["a", "b"]) as reads:
            self.assertEqual([freezer.watched_by_calls([one]) for one in range(50)], [["a", "b"]] * 50)
        self.assertEqual(reads.call_count, 1)


class Compared(str):
    """A text that counts how often it is compared with others."""

    count = 0
    __hash__ = str.__hash__

    def __eq__(self, other):
        Compared.count += 1
        return str.__eq__(self, other)


class Names(unittest.TestCase):
    """The macros of kati-values.mk."""

    LINE = types.SimpleNamespace(prefix="V_")

    def test_their_names(self):
        values = frozen_values.Values()
        values.take("$(V_a) V_a_3x V_b_2")

        def add(*rest):
            return values.add(self.LINE, *rest)

        self.assertEqual(add("a", "1", "1", ""), "V_a_2")
        self.assertEqual(add("a", "2", "2", ""), "V_a_3")
        self.assertEqual(add("a", "1", "1", ""), "V_a_2")
        self.assertEqual(add("a", "1", "1", "", True), "V_a_4")
        self.assertEqual(add("b", "3", None, ""), "V_b")
        values.all[-1].table = {"V_b_x": "1"}
        self.assertEqual(add("b", "3", None, ""), "V_b_3")
        self.assertEqual(add("a", "4", "4", ""), "V_a_5")

    def test_a_new_one_is_compared_with_few(self):
        values, Compared.count = frozen_values.Values(), 0
        for number in range(500):
            values.add(self.LINE, "shell", Compared(number), Compared(number), "")
        self.assertLess(Compared.count, 2000)
