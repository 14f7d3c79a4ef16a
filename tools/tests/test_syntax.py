"""How makefiles are read: what stands in a text, by hand-written examples; and that the text is made of it again."""
import ast
import random
import re
import sys
import unittest

from support import TOP, Ran, Tree, kati, needs

from kati_tools.makefile import after_references, quick_looks, references, statements, syntax
from kati_tools.makefile.syntax import Kind
from kati_tools.port import scanning

sys.path.insert(0, str(TOP / "scripts"))
import check_syntax  # noqa: E402

SCRIPT = TOP / "scripts/check_syntax.py"
TOOLS = TOP / "share/kati/kati_tools"
# The modules that read makefiles, and those that have a form of makefile text as well: of what the tools themselves
# have written, of make's database, of Ninja's or a shell's text that looks alike. None may come to these.
READERS = {"makefile/references.py", "makefile/statements.py", "makefile/syntax.py", "makefile/quick_looks.py"}
OTHERS = {
    "build/ninja_text.py": "Ninja's text", "make/exported_names.py": "a shell's text",
    "make/make_commands.py": "a shell's text", "make/recipe_shell.py": "make's database",
    "make/shell_reading.py": "a shell's text", "makefile/forms.py": "a shell's text",
    "build/calls_of_recipes.py": "a shell's text", "port/mending_shell.py": "a shell's text",
}
# What a form has that is one of makefile text: a reference, an operator, a word of a statement, a continued line.
MAKEFILE_TEXT = re.compile("|".join((
    r"\\\$\[?\(?[({]", r"\\\$\\[({]", r"\\\$\(\?:", r"\\\$\\\$",
    r"\[[^\]]*[?+!][^\]]*\][?*+]?\)?=", r":\{\d?,\d?\}\)?=",
    r"\[\^\\s:", r"\(\?:\\\.\\\./\)",
    r"\bifn?\??(?:eq|def)", r"\b(?:endef|define|endif|include|override|export|vpath)\b", r"\\\\\\n")))
# Pieces of which odd texts are made.
PIECES = ("$(", "${", ")", "}", "$", "$$", "$x", "$(a:b=c)", "define", "endef", "ifdef X", "else", "endif",
          "ifeq (a,b)", "include", "export", "override", " ", "\t", "\n", "\n", "\n\t", "\\\n", "\\\\\n", "\r\n",
          "\\\r\n", "\r", "#", "\\#", ":", "::", "&:", "=", ":=", "+=", "!=", "a", "b.o", "%", ";", ",", "|", "\\",
          "'", "\u00a0", "\udcff")
ODD = ("", "\n", "\\", "\\\n", "a\\\n\\\n\nb", "\t", "\ta\\\n\tb\n", "a:b\r\n\tc\\\r\n\td\r\ne", "define", "define x",
       "endef\nendif\nelse\n", "$(", "$(a", "${a)", "a = $(b\\\n c)\nd", "#\\\n x\ny", "\ufeffa: b", "ifdef", "=",
       ": b", "&:", "a: b # c; d\n", "\t\\\n\t\\\n")


def parts(text):
    """Each reference of a text as it is written, its name or its function, and its arguments."""
    return [(one.text, one.name or one.function, *one.arguments()) for one in references.references(text)]


def kinds(text):
    """The kinds of the lines of a text, but for an empty one at its end."""
    return [line.kind for line in syntax.Makefile(text).lines][:-1]


class Lines(unittest.TestCase):
    """Logical lines, their numbers and their endings."""

    def test_lines_that_go_on(self):
        found = syntax.lines("a\\\n  b \\\n \\\n c\nd\\\\\ne\\")
        self.assertEqual([(line.number, line.joined) for line in found], [(1, "a b c"), (5, "d\\\\"), (6, "e\\")])

    def test_line_that_goes_on_to_the_end(self):
        self.assertEqual([(line.number, line.text) for line in syntax.lines("a\nb\\\n")], [(1, "a"), (2, "b\\\n")])

    def test_carriage_returns(self):
        found = syntax.lines("a\\\r\nb\r\nc\r")
        self.assertEqual([(line.number, line.text, line.endings) for line in found],
                         [(1, "a\\\nb", ("\r\n", "\r\n")), (3, "c\r", ("",))])

    def test_words_end_at_blanks_of_make_alone(self):
        self.assertEqual(references.words(" a\u00a0b\tc$(d e)f \\ g "), ["a\u00a0b", "c$(d e)f", "\\ g"])


class References(unittest.TestCase):
    """References as a tree."""

    def test_forms(self):
        self.assertEqual(parts("$a ${b} $(c) $$(d) $$$e $(f:.c=.o) $"), [
            ("$a", "a"), ("${b}", "b"), ("$(c)", "c"), ("$e", "e"), ("$(f:.c=.o)", "f")])

    def test_tree(self):
        outer, other = references.forest("x$(if $(a),${b$(c)}) $(d)")
        self.assertEqual([one.text for one in outer.inner], ["$(a)", "${b$(c)}"])
        self.assertEqual([one.text for one in outer.inner[1].inner], ["$(c)"])
        self.assertEqual((outer.start, outer.end, other.start, other.inner), (1, 20, 21, []))

    def test_arguments(self):
        self.assertEqual(parts("$(call f,a,(b,c),{d,e)")[0],
                         ("$(call f,a,(b,c),{d,e)", "call", "f", "a", "(b,c)", "{d", "e"))
        self.assertEqual(parts("${subst a,${b,c},d}")[0][2:], ("a", "${b,c}", "d"))
        self.assertEqual(parts("$(strip\n a )")[0][2:], ("a ",))

    def test_brackets_of_each_kind_count_for_themselves(self):
        self.assertEqual([text for text, *_ in parts("$(a(b)c) $(a{b) ${a(b}")], ["$(a(b)c)", "$(a{b)", "${a(b}"])

    def test_unbalanced(self):
        found = references.references("$(a ${b) $(c")
        self.assertEqual([(one.text, one.body, one.is_closed) for one in found],
                         [("$(a ${b)", "a ${b", True), ("${b", "b", False), ("$(c", "c", False)])
        self.assertEqual([one.text for one in references.references("$(a(b $c")], ["$(a(b $c", "$c"])

    def test_names(self):
        self.assertEqual([one.name for one in references.references("$(a:b=c) $(a:b) $(a b) $($c) $@ $(@D)")],
                         ["a", None, None, None, "c", "@", "@D"])
        self.assertEqual([one.named() for one in references.references("$(call f,x) $(value g) $(flavor $h) ${i:j=k}")],
                         ["f", "g", None, "h", "i"])
        self.assertEqual(references.forest("$(a:%.c=$(b)/%.o)")[0].substitution, ("%.c", "$(b)/%.o"))

    def test_marks_outside_references(self):
        for text, marks, place in (("$(a:b):c", ":", 6), ("a\\:b:c", ":", 4), ("a\\\\:b", ":", 3),
                                   ("\\$(a:b):c", ":", 7), ("$$(a:b", ":", 4), ("$(a:b", ":", -1), ("a;b#c", "#;", 1),
                                   ("\\", ":", -1)):
            self.assertEqual(references.find_outside(text, marks), place, text)

    def test_words_that_functions_hand_on(self):
        text = "$(sort *.c $(if *.d,*.e *.f)) $(filter *.g,$(or *.h)) $(subst *.i,,*.j) $(*.k) $(eval x: *.l)"
        found = [text[slice(*place)] for span in references.handed_on(references.forest(text))
                 for place in references.places_of_words(text, *span)]
        self.assertEqual(found, ["*.c", "$(if *.d,*.e *.f)", "*.e", "*.f", "x:", "*.l"])

    def test_many_levels(self):
        for text in ("$(" * 3000 + "a" + ")" * 3000, "$(" * 3000, "$(a)" * 3000):
            self.assertEqual(check_syntax.together(text, references.forest(text), 0, len(text)), text)


class Statements(unittest.TestCase):
    """What a line says."""

    def test_assignments(self):
        for text, wanted in (
                ("A=b", ((), "A", "=", "b")), ("  A ::= b ", ((), "A", "::=", "b")), ("A:::=b", ((), "A", ":::=", "b")),
                ("$(a_$(b)) += $(c)", ((), "$(a_$(b))", "+=", "$(c)")), ("a+b?c;d = e", ((), "a+b?c;d", "=", "e")),
                ("override export A ?= b", (("override", "export"), "A", "?=", "b")),
                ("private=1", ((), "private", "=", "1")),
                ("export export = 1", (("export",), "export", "=", "1")), ("define = x", ((), "define", "=", "x")),
                ("ifeq = 3", ((), "ifeq", "=", "3")), ("$x!=ls", ((), "$x", "!=", "ls")), ("A ! = b", None),
                ("A =", ((), "A", "=", "")), ("a b = c", None), ("a:b=c", None), ("a : = b", None), ("= b", None),
                ("unexport A = b", None), ("a: b = c", None), ("$(a = b)", None), ("$(a = b", None)):
            found = statements.assignment(text)
            self.assertEqual(found and found[:4], wanted, text)

    def test_definitions(self):
        for text, wanted in (("define a", ((), "a", "")), ("define a =", ((), "a", "=")),
                             (" define $(a b) := ", ((), "$(a b)", ":=")), ("define", ((), "", "")),
                             ("override export define a", (("override", "export"), "a", "")),
                             ("define=a", None), ("define ?= a", None), ("unexport define a", None),
                             ("defined a", None)):
            self.assertEqual(statements.definition(text), wanted, text)
        texts = ("undefine a", "override undefine $(b) c", "undefine = a")
        self.assertEqual([statements.undefined(text) for text in texts], ["a", "$(b) c", None])

    def test_conditions(self):
        for text, wanted in (("ifeq (a, b)", ("ifeq", None, "(a, b)")), ("else ifdef X", ("else", "ifdef", "X")),
                             ("else", ("else", None, "")), ("else x", ("else", None, "x")),
                             ("endif", ("endif", None, "")),
                             ("ifeq(a,b)", None), ("endif = a", None)):
            found = statements.condition(text)
            self.assertEqual(found and found[:3], wanted, text)
            self.assertEqual(text[found.rest_at:] if found else None, wanted and wanted[2], text)

    def test_includes(self):
        self.assertEqual(statements.include("-include a $(b c).d"), ("-include", ("a", "$(b c).d")))
        self.assertEqual([statements.include(text) for text in ("include: a", "include = a", "includes a")], [None] * 3)

    def test_rules(self):
        rule = statements.Rule("a $(b:c=d) : e | f\\:g ; h # i")
        self.assertEqual((rule.targets, rule.needs, rule.recipe), (["a", "$(b:c=d)"], ["e", "|", "f\\:g"], " h # i"))
        self.assertEqual((rule.colon, rule.is_double, rule.is_group, rule.pattern), (11, False, False, None))
        rule = statements.Rule("a.o b.o: %.o: %.c # x; y")
        self.assertEqual((rule.targets, rule.pattern, rule.needs, rule.recipe), (["a.o", "b.o"], "%.o", ["%.c"], None))
        rule = statements.Rule("a &:: b")
        self.assertEqual((rule.targets, rule.needs, rule.is_double, rule.is_group), (["a"], ["b"], True, True))
        texts = ("a b", "$(a:b=c)", "a\\:b", ": b")
        self.assertEqual([statements.Rule(text).is_rule for text in texts], [False, False, False, True])

    def test_assignments_for_targets(self):
        rule = statements.Rule("a b: private C += d;e $(f) # g")
        self.assertEqual((rule.specific[:4], rule.targets, rule.recipe),
                         ((("private",), "C", "+=", "d;e $(f)"), ["a", "b"], None))
        self.assertIsNone(statements.Rule("a: ; b = c").specific)
        self.assertEqual(statements.Rule("a: b:=c").specific[:4], ((), "b", ":=", "c"))


class Makefiles(unittest.TestCase):
    """Blocks of lines, and lines behind a tab."""

    def test_each_kind(self):
        text = ("A = b\n# c\nd: e\n\tf\ndefine g\nh\nendef\nifdef A\nendif\ninclude i\nundefine A\nexport\nj: A = k\n"
                "$(info l)\nm\n\tn\n")
        self.assertEqual(kinds(text), [
            Kind.ASSIGNMENT, Kind.BLANK, Kind.RULE, Kind.RECIPE, Kind.DEFINE, Kind.BODY, Kind.ENDEF, Kind.CONDITION,
            Kind.CONDITION, Kind.INCLUDE, Kind.UNDEFINE, Kind.DIRECTIVE, Kind.TARGET_ASSIGNMENT, Kind.REFERENCE,
            Kind.OTHER, Kind.STRAY_TAB])

    def test_places_of_words(self):
        """The names of a rule, or the words of a value; not what a recipe, a comment or the name of a macro has."""
        for text, *words in (("*.b: *.a|*.c ; ls *.d", "*.b", "*.a", "*.c"), ("a: x\\\n *.c # *.d", "a", "x", "*.c"),
                             ("*.x *.y : *.z : *.w", "*.x", "*.y", "*.z", "*.w"),
                             ("A=*.c \\\n  *.d # *.e", "*.c", "*.d"), ("a *.x: B := *.c;*.d # *.e", "*.c;*.d"),
                             ("$(call f,a, *.c)", "$(call f,a, *.c)", "a", "*.c")):
            line = syntax.Makefile(text).lines[0]
            self.assertEqual([line.text[slice(*place)] for place in syntax.places(line)], words)

    def test_place_of_a_word(self):
        line = syntax.Makefile("x*.c: a*.c *.c *.c").lines[0]
        self.assertEqual((syntax.place_of(line, "*.c"), syntax.place_of(line, "c")), ((11, 14), None))

    def test_names_above(self):
        text = "I = -I ../inc/sys ..a/../b\n\tcp '../../c d' $(T)/../e ../ .../f\n"
        self.assertEqual(syntax.names_above(text),
                         {("../", "inc"), ("../", "b"), ("../../", "c"), ("../", "e")})

    def test_definitions_in_others(self):
        text = "define a\ndefine b\n\tendef\nendef\n override define\nendef # x\nA = b\n"
        self.assertEqual(kinds(text), [Kind.DEFINE, *[Kind.BODY] * 4, Kind.ENDEF, Kind.ASSIGNMENT])

    def test_conditionals(self):
        read = syntax.Makefile("ifdef A\nifeq (a,b)\nX = 1\nelse ifdef B\nX = 2\nelse\nX = 3\nendif\nelse\nX = 4\n"
                               "endif\nX = 5\n")
        around = {line.says.value: [(block.number, branch) for block, branch in line.around]
                  for line in read.lines if line.kind is Kind.ASSIGNMENT}
        self.assertEqual(around, {"1": [(1, 0), (2, 0)], "2": [(1, 0), (2, 1)], "3": [(1, 0), (2, 2)], "4": [(1, 1)],
                                  "5": []})
        self.assertEqual([[line.number for line in block.lines] for block in read.blocks], [[1, 9, 11], [2, 4, 6, 8]])

    def test_conditionals_in_a_definition_are_none(self):
        self.assertEqual(syntax.Makefile("define a\nifdef B\nendef\nX = 1\n").blocks, [])

    def recipe_lines(self, text):
        """The lines behind a tab: number, kind, the number of the rule's line, and whether that is sure."""
        return [(line.number, line.kind, line.rule and line.rule.number, line.is_sure)
                for line in syntax.Makefile(text).lines if line.is_tab]

    def test_rule_stays_open(self):
        text = "a: b\n\n# c\nifdef D\n\tifdef\nelse\n\tX = 1\nendif\n\tX = 1\nX = 1\n\tX = 1\n\techo\n"
        self.assertEqual(self.recipe_lines(text), [(number, Kind.RECIPE, 1, True) for number in (5, 7, 9)] + [
            (11, Kind.ASSIGNMENT, None, False), (12, Kind.STRAY_TAB, None, False)])

    def test_rule_of_a_branch(self):
        text = "ifdef A\nb: c\nelse\nX = 1\n\tY = 1\nendif\n\techo\n\tZ = 1\n\techo\n"
        self.assertEqual(self.recipe_lines(text), [(5, Kind.ASSIGNMENT, None, False), (7, Kind.RECIPE, 2, False),
                                                   (8, Kind.ASSIGNMENT, None, False), (9, Kind.STRAY_TAB, None, False)])

    def test_rule_of_each_branch(self):
        text = "ifdef A\nb: c\nelse\nd: c\nendif\n\tX = 1\n"
        self.assertEqual(self.recipe_lines(text), [(6, Kind.RECIPE, 4, True)])
        self.assertEqual(self.recipe_lines(text.replace("else", "else ifdef E")), [(6, Kind.ASSIGNMENT, None, False)])

    def test_rule_that_a_branch_closes(self):
        text = "a: b\nifdef A\nX = 1\nendif\n\techo\n\tendif\n"
        self.assertEqual(self.recipe_lines(text), [(5, Kind.RECIPE, 1, False), (6, Kind.CONDITION, None, False)])

    def test_reference_alone_may_open_a_rule(self):
        self.assertEqual(self.recipe_lines("$(call a)\n\techo\n\tA = 1\n\techo\n"), [
            (2, Kind.RECIPE, 1, False), (3, Kind.ASSIGNMENT, None, False), (4, Kind.STRAY_TAB, None, False)])

    def test_assignment_for_targets_opens_none(self):
        self.assertEqual(self.recipe_lines("a: B = c\n\tD = e\n"), [(2, Kind.ASSIGNMENT, None, False)])


class Scans(Tree):
    """What is found in a makefile's way follows what its lines are."""

    def found(self, text):
        """The findings in a makefile, and those of its rules that have a recipe."""
        self.put("Makefile", text)
        scan = scanning.Scan(())
        scan.file_of(str(self.top / "Makefile"))
        return ([(one.number, one.kind) for one in scan.findings],
                [one.targets for one in scan.rules if one.has_recipe])

    def test_recipe_behind_branches(self):
        self.assertEqual(self.found("a: b\nifdef A\nX = 1\nendif\n\techo $(shell d)\n"), ([(5, "in recipe")], [["a"]]))
        self.assertEqual(self.found("ifdef A\na: b\nelse\nc: d\nendif\n\tX = $(wildcard e)\n"),
                         ([(6, "in recipe")], [["c"]]))

    def test_comments_and_conditions_are_no_recipes(self):
        self.assertEqual(self.found("a: b # $(shell c); d\n"), ([], []))
        self.assertEqual(self.found("a: b\nifeq ($(shell c),)\nendif\n"), ([(2, "elsewhere")], []))

    def test_words_before_an_assignment(self):
        self.assertEqual(self.found("override export A := $(shell b)\n"), ([(1, "override"), (1, "shell")], []))
        self.assertEqual(self.found("export = 1\noverride = 2\n"), ([], []))


class WholeTexts(Tree):
    """Put together again, a text is the same; and what kati says names lines that begin there."""

    def wrong(self, text):
        """What isn't so with a text."""
        read = syntax.Makefile(text)
        self.assertEqual(read.text(), text)
        return list(check_syntax.wrong_lines(read.lines, check_syntax.Counts()))

    def test_odd_texts(self):
        numbers = random.Random(7)
        for text in [*ODD, *("".join(numbers.choices(PIECES, k=numbers.randrange(1, 40))) for _ in range(500))]:
            with self.subTest(text):
                self.assertEqual(self.wrong(text), [])

    @needs("kati")
    def test_lines_that_kati_names(self):
        texts = {f"{number}.mk": text for number, text in enumerate((
            "A = b\\\n c\n\tfoo\\\n\n", "a: \\\n b\n\t$(error \\\n x)\n", "ifdef A\nifdef \\\n\nB\nendif\n",
            "define A\n$(warning x)\nendef\n\n$(eval $(A))\n$(warning \\\n\n)\nx\r\n", "a:\n\t@b \\\n\tc $(shell x)\n",
            "a: ;b\na: ;c\n\na:: d \\\n e\n", "define X\n\\\nendef\nendef\n", "-include absent\ninclude 0.mk\n",
            "X = 1 # \\\n\\\n\nY\n", "t: \\\n\\\n\n\tx\n\ty\n?\n"))}
        self.put_all(texts)
        ran = Ran([SCRIPT, "--kati", kati(), self.top], self.top)
        self.assertEqual((ran.status, ran.out.split("\n")[0]), (0, ran.out.strip()))
        self.assertRegex(ran.out, r"^10 makefiles: .* [1-9][0-9]+ lines that kati names$")

    @needs("kati")
    def test_makefiles_of_the_repository(self):
        ran = Ran([SCRIPT, "--kati", kati(), TOP / "Makefile", TOP / "share", TOP / "tools", TOP / "scripts"], self.top)
        self.assertEqual(ran.status, 0, ran.all)
        self.assertNotIn(" 0 lines,", ran.out)


def forms_in(path):
    """The regular expressions of a module, as they are written."""
    for node in ast.walk(ast.parse(path.read_text())):
        is_form = isinstance(node, ast.Call) and ast.dump(node.func).startswith("Attribute(value=Name(id='re'")
        parts = [one.value for one in ast.walk(node.args[0]) if isinstance(one, ast.Constant)] if is_form else []
        yield "".join(one if isinstance(one, str) else one.decode("latin-1") for one in parts
                      if isinstance(one, (str, bytes)))


class OneReading(unittest.TestCase):
    """Makefile text is read in one place."""

    def test_no_other_module_has_a_form_of_makefile_text(self):
        names = {str(path.relative_to(TOOLS)): path for path in TOOLS.glob("*/*.py")}
        found = {name for name, path in names.items() if any(map(MAKEFILE_TEXT.search, forms_in(path)))}
        self.assertEqual(found - READERS, set(OTHERS))

    def test_what_such_a_form_is(self):
        for form in (r"\$[({]shell", r"\$\((\w+)\)", r"[:+?!]*=", r"^ifdef X", r"(\\+)\\\n", r"define ", r":{0,3}=",
                     r"\$\$x", r"(?![^\s:;|])", r"((?:\.\./)+)(\w+)"):
            self.assertRegex(form, MAKEFILE_TEXT)
        for form in (r"[*?\[]", r"\.(d|dep)$", r"(\.\w+)(\.\w+)", r"^default (.*)$"):
            self.assertNotRegex(form, MAKEFILE_TEXT)


class QuickLooks(unittest.TestCase):
    """Quick looks at large texts find what the reading finds."""

    TEXTS = ("a: $(b) ${c:x=y} $(call d,$(e)) $$(f)\n",
             "include a\n include b\n\tinclude c\n-include d\nx \\\ninclude e\n#\ninclude = f\n",
             "a: b \\\n c\n\nd.o: e.h\n# f\n", "a: b ; c\n\td;e\n")

    def test_names(self):
        for text in self.TEXTS:
            self.assertLessEqual({one.name for one in references.references(text) if one.is_bracketed and one.name},
                                 set(quick_looks.names_in(text)))
        values = {"a": "1", "b": "2", "c": "3"}
        self.assertEqual(quick_looks.with_values("$(a)/${b}$(c:x=y)$d", values.get), "1/2$(c:x=y)$d")

    def test_what_makes_a_difference_to_make_s_own(self):
        taking = ("%: %.c\n", " %.o : %.c\n", ".SUFFIXES:\n", "$(eval .SUFFIXES:)\n", "MAKEFLAGS += -r\n",
                  "export MAKEFLAGS:=rR\n", "MAKEFLAGS = --no-builtin-rules\n")
        self.assertEqual([text for text in taking if not quick_looks.may_take_rules_back(text)], [])
        self.assertFalse(quick_looks.may_take_rules_back("a: b\nb.o: %.o: %.c\n\t$(MAKE) $(MAKEFLAGS) r\n"))
        wanted = {"SHELL = x\n": (True, False), ".a .POSIX:\n": (True, True), "a: b\n": (False, False)}
        found = {text: (quick_looks.may_have_another_shell(text), quick_looks.may_be_posix(text)) for text in wanted}
        self.assertEqual(found, wanted)

    def test_includes(self):
        softened = quick_looks.softened(self.TEXTS[1].encode()).decode()
        before, after = ([line.says.word for line in syntax.Makefile(text).lines
                          if line.kind is Kind.INCLUDE and not line.is_tab] for text in (self.TEXTS[1], softened))
        self.assertEqual((before, after), (["include", "include", "-include"], ["-include"] * 3))

    def test_includes_that_lead_up(self):
        self.assertTrue(all(map(quick_looks.may_include_up, (
            "include a/../b\n", "A = 1\n  -include $(x)/../b\n", "\tinclude b a/..\n", "sinclude a \\\n b/../c\n"))))
        self.assertFalse(any(map(quick_looks.may_include_up, (
            "include ../b\n", "A = a/../b\n", "include a\nA = b/../c\n", "a: b/../c ; include\n"))))

    def test_tabs_that_kati_ignores(self):
        pieces = ("$(info x)\n", "${eval A = 1}\n", "$(eval \\\n x)\n", "$(call a)\n", "\tA = 1\n", "\tifdef A\n",
                  "ifdef A\n", "else\n", "endif\n", "\tendif\n", "# a\n", "\n", "a:\n", "B = 1\n", "\techo\n", "  \n")
        numbers, seen = random.Random(3), 0
        for _ in range(2000):
            text = "".join(numbers.choices(pieces, k=numbers.randrange(2, 9)))
            lines = syntax.Makefile(text).lines
            if after_references.surely_nothing(lines) or after_references.half_conditionals(lines):
                seen += 1
                self.assertTrue(quick_looks.may_have_ignored_tabs(text), text)
        self.assertGreater(seen, 50)
        self.assertFalse(quick_looks.may_have_ignored_tabs("$(info x)\na:\n\techo\n"))

    def test_rules(self):
        texts = (*self.TEXTS, "$(A) b%.o : c\n.c.o:\n\tcc\n# d: $e\nf := $(g):h\ni $(j) &: k ; l: m\n")
        for text in map(quick_looks.without_continuations, texts):
            rules = [line for line in syntax.Makefile(text).lines if line.kind is Kind.RULE]
            computed = quick_looks.computed_rules(text)
            for line in rules:
                is_computed = any("$" in name or "%" in name or name.startswith(".") for name in line.says.targets)
                self.assertTrue(line.text in computed or not is_computed, line.text)
                self.assertTrue(all(quick_looks.may_have_rule(text, name) for name in line.says.targets), line.text)
        self.assertEqual(quick_looks.computed_rules("a: b\n# c: $d\n\te: $f\ng: ; h $i: j\n"), ["g: ; h $i: j"])
        self.assertEqual([quick_looks.may_have_rule(texts[-1], name) for name in ("cc", "j", "e", "none")],
                         [False, True, False, False])
        self.assertEqual(quick_looks.before_colons("a := b c: d"), "a   b c")

    def test_lines(self):
        for text in self.TEXTS:
            joined = quick_looks.without_continuations(text)
            lines = [line.joined for line in syntax.lines(text) if line.joined and not line.is_tab]
            self.assertEqual([line.decode().split() for line in quick_looks.plain_lines(joined.encode())],
                             [line.split() for line in lines])
        self.assertEqual([quick_looks.has_rules_alone(text) for text in self.TEXTS], [False, False, True, False])


class Script(Tree):
    """scripts/check_syntax.py."""

    def test_without_kati(self):
        self.write(a__Makefile="all: b\n\tc $(d)\n", a__notes_txt="", e_mk="F = g\n")
        ran = self.run_in(SCRIPT, "--no-kati", ".")
        self.assertEqual((ran.status, ran.out), (0, "2 makefiles: 5 lines, 1 references, 0 lines that kati names\n"))

    def test_what_kati_names_wrongly(self):
        self.write(Makefile="a: \\\n b\n")
        wrong = self.program("kati", "echo 'Makefile:2: *** x [E05]' >&2; exit 2")
        ran = self.run_in(SCRIPT, "--kati", wrong, "Makefile")
        self.assertEqual((ran.status, ran.out.split("\n")[0]),
                         (1, "Makefile: kati names Makefile:2, where no line begins"))

    def test_wrong_usage(self):
        self.assertEqual(self.run_in(SCRIPT).status, 2)
        ran = self.run_in(SCRIPT, "--no-kati", "absent")
        self.assertEqual((ran.status, "no folder absent" in ran.said), (2, True))
        self.assertIn("exit status", self.run_in(SCRIPT, "--help").out)


if __name__ == "__main__":
    unittest.main()
