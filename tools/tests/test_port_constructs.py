"""kati-port --write of constructs that are rarer, and of makefiles that have other names than Makefile."""
import os

from ported_trees import PortedTree, tree_of
from support import Tree, needs

# Of each construct: the files, and words that stand in the makefile or in kati-values.mk afterwards.
CONSTRUCTS = {
    "a check of make's version":
        ({"Makefile": "ifeq ($(filter 3.8% 4.%,$(MAKE_VERSION)),)\n$(error too old a make)\nendif\n"
                      "M = $(firstword $(subst ., ,$(MAKE_VERSION:%=x%)))\nall: ; echo hi $(M) > out\n"},
         ["$(V_MAKE_VERSION)", "# $(MAKE_VERSION)\nV_MAKE_VERSION := "]),
    "a check of make's features":
        ({"Makefile": "$(if $(filter target-specific,$(.FEATURES)),,$(error no target-specific))\n"
                      "ifdef .FEATURES\nF = 1\nendif\nall: ; echo hi $(F) > out\n"},
         ["# tells of the run\n.FEATURES := "]),
    "a suffix rule with prerequisites":
        ({"Makefile": "all: a.o b.o c.o\n.SUFFIXES: .x .y\n.c.o .x.o: a.h | d.h # ignored\n\tcp $< $@; echo $^ >> $@\n"
                      ".y.o: a.h ; cp $< $@\na.h d.h: ; touch $@\n",
          "a.c": "a\n", "b.x": "b\n", "c.y": "c\n"},
         ["\n.c.o .x.o:# ignored\n", "\n.y.o:; cp $< $@\n"]),
    "a double colon behind .PHONY":
        ({"Makefile": "N := $(shell echo 1)\n.PHONY:: all\nall:: a\na: ; echo $(N) > $@\n.PHONY:: clean\n"
                      "clean:: ; rm -f a\n"},
         ["V_N := 1"]),
    "the status of a call":
        ({"Makefile": "A := $(shell echo x; exit 3)\nB := $(.SHELLSTATUS)\nC := $(shell cat c)\n"
                      "ifeq ($(.SHELLSTATUS),0)\nD = ok\nendif\nE != exit 4\n"
                      "$(if $(filter 4,$(.SHELLSTATUS)),,$(error no))\n"
                      "all: ; echo $(A) $(B) $(C) $(D) > out\n", "c": "c\n"},
         ["B := $(V_B)", "# $(.SHELLSTATUS) reads c ", "\nV_B := 3\n"]),
    "a goal behind an empty .DEFAULT_GOAL":
        ({"Makefile": "state: ; echo 1 > state\n.DEFAULT_GOAL := $(NULL)\nout: ; echo $(shell echo 1) > out\n"
                      "other: ; echo > other\n"},
         ["\n.DEFAULT_GOAL = out\n"]),
    "a static pattern that is expanded twice":
        ({"Makefile": "F_a = 1\nall: x/a.o x/b.o\n.SECONDEXPANSION:\nP = x/%.o\n"
                      "x/a.o x/b.o: $(P): %.c | $$(@D)/.d\n\techo $(F_$*) $* $< > $@\nx/.d: ; mkdir x; touch $@\n",
          "a.c": "", "b.c": ""},
         ["\nx/a.o x/b.o: $(P):\n"]),
    "a call in a comment that make expands":
        ({"Makefile": "define T\n# by $(shell cat n)\n$1: ; echo $1 > $1\nendef\ndefine R\n# $(wildcard n*)\n"
                      "echo r > r\nendef\nall: a b r\n# $(shell touch never)\n"
                      "b:\n\t# $(shell cat n) $(wildcard n)\n\techo b > b\n$(eval $(call T,a))\nr:\n\t$(R)\n",
          "n": "1\n"},
         ["# $(shell touch never)\n", "\n\t# $(V_shell) $(V_wildcard_2)\n"]),
    "a conditional by a name that is empty":
        ({"Makefile": "ifndef $(OS_)\n OS_ = linux\nendif\nifeq (1,2)\nelse ifdef $(NONE) # none\nX = 1\nelse\nX = 2\n"
                      "endif\nall: ; echo $(OS_) $(X) > out\n"},
         ["ifndef $(or $(OS_),KATI_NO_NAME)\n", "else ifdef $(or $(NONE),KATI_NO_NAME) # none\n"]),
    "a conditional with a parenthesis too much":
        ({"Makefile": "C = gcc\nifneq ($(C)),no) # none\nX = 1\nendif\nifeq (1,2)\n"
                      "else ifeq ($(C)) ,  gcc$(E))\nX += 2\nelse ifeq ($(C))\",\tgcc$(E))\nelse\nX += 3\nendif\n"
                      "ifeq (a,$(C)) )\nX += $(shell echo 4)\nendif\nifneq ($(C)) ),gcc) gcc)\nX += 5\nendif\n"
                      "all: ; echo $(X) > out\n"},
         ["ifneq \"$(C))\" \"no\" # none\n", "else ifeq '$(C))\"' 'gcc$(E)'\n", "ifeq (a,$(C)) )\n",
          "ifneq \"$(C)) )\" \"gcc\"\n"]),
    "another mark before recipe lines":
        ({"Makefile": ".RECIPEPREFIX = >\ndefine R\n$(1):\n> echo $(1) \\\n>> $(1)\nendef\nall: a b \\\n\tc\n"
                      "a:\n>@echo a > a ; \\\n> echo \"x\\\n\tb\" >> a\n\tX = 1\nb: ; echo $(X) > b\n"
                      "$(eval $(call R,c))\n"},
         ["# .RECIPEPREFIX = >\n", "a:\n\t@echo a", "\n        X = 1\n"]),
    "a mark that is a blank, in an include too":
        ({"Makefile": "E :=\n.RECIPEPREFIX := $(E) $(E)\nall: a b\na:\n  echo a > a\ninclude b.mk\n",
          "b.mk": "b: \n  echo b > b\n"},
         ["# .RECIPEPREFIX := $(E) $(E)\n", "\na:\n\t echo a > a\n"]),
    "a mark that changes":
        ({"Makefile": ".RECIPEPREFIX := !\nall: a b\na:\n! echo a > a\n.RECIPEPREFIX :=\nb:\n\techo b > b\n"}, []),
    "a target's macro in a template":
        ({"Makefile": "F = 0\nall: p q r s\ndefine PROG\n$(1): F += -D$(1) $$(G)\n$(1): $(1).c\n\techo $$(F) > $$@\n"
                      "endef\nG = g,h\n$(foreach p,p q,$(eval $(call PROG,$(p))))\ninclude more.mk\n"
                      "add = $(eval $(call PROG,$(1)))\n$(call add,s)\n",
          "more.mk": "$(eval $(call PROG,r))\n", "p.c": "", "q.c": "", "r.c": "", "s.c": ""},
         ["ifdef MAKE_VERSION\n$(foreach p,p q,$(eval $(call PROG,$(p))))\nelse\n", "\nF_HERE = -Dp $(G)\n"]),
    "a template that has values among its arguments":
        ({"Makefile": "all: a.out b.out c.out\nF = 0\ndefine PROG\n$(1).out: F += -D$(1)\n$(1).out: $(2)\n"
                      "\techo $$(F) > $$@; cat $$^ >> $$@\nendef\ndefine OUT\nexport X_$(1) = $(2)\n"
                      "$(1).out: ; echo $$$$X_$(1) > $$@\nendef\nN := $(shell echo 1)\n"
                      "$(foreach n,a b,$(eval $(call PROG,$(n),$(wildcard $(n)/*.c))))\n"
                      "$(eval $(call OUT,c,$(shell ls a)))\n",
          "a/1.c": "1\n", "b/2.c": "2\n", "b/3.c": "3\n"},
         ["ifdef MAKE_VERSION\n$(foreach n,a b,$(eval $(call PROG,$(n),$(wildcard $(n)/*.c))))\nelse\n",
          "endif\nifdef MAKE_VERSION\n$(eval $(call OUT,c,$(shell ls a)))\nelse\n"]),
    "a wildcard in a template that another one evaluates":
        ({"Makefile": "all: a/prog b/prog\ndefine OBJS\n$1_OBJS := $$(patsubst %.c,%.o,$$(wildcard $1/*.c))\nendef\n"
                      "define PROG\n$$(eval $$(call OBJS,$1))\n$1/prog: $$($1_OBJS)\n\tcat $$^ > $$@\nendef\n"
                      "%.o: %.c\n\tcp $< $@\n$(foreach p,a b,$(eval $(call PROG,$(p))))\n",
          "a/1.c": "1\n", "b/2.c": "2\n", "b/3.c": "3\n"},
         ["\na_OBJS := $(patsubst %.c,%.o,$(V_a_OBJS))\na/prog: $(a_OBJS)\n", "# $(wildcard b/*.c)\nV_b_OBJS := "]),
    "words that kati refuses in a template":
        ({"Makefile": "all: a b\nF = 1\ndefine T\nexport X_$1 = $1,1\noverride F += $1\n"
                      "$1: ; echo $$$$X_$1 $$(F) > $1\nundefine G\nendef\nG = 2\n"
                      "$(eval $(call T,a))\n$(eval $(call T,b))\n"},
         ["X_a=\"$(X_a)\""]),
    "one behind a tab, which others behind tabs name":
        ({"Makefile": "ifndef NO\n\tifndef X\n\t\tX = $(eval X := $(shell echo val))$(X)\n\tendif\n\tF += $(X)\nelse\n"
                      "\tY = $(eval Y := 1)$(Y)\nendif\nG = -O $(F)\nall: ; echo $(G) > out\n"},
         ["ifdef MAKE_VERSION\n                X = $(eval X := $(shell echo val))$(X)\nelse\nX = $(V_X)\nendif\n",
          "\n\tF += $(X)\n", "\n\tY = $(eval Y := 1)$(Y)\n"]),
    "a macro that evaluates its own value":
        ({"Makefile": "X = $(eval X := $(shell echo val))$(X)\nY = $(if $(Y_),,$(eval Y_ := $(shell cat y)))$(Y_)\n"
                      "all: ; echo $(X) $(Y) > out\n", "y": "v2\n"},
         ["ifdef MAKE_VERSION\nX = $(eval X := $(shell echo val))$(X)\nelse\nX = $(V_X)\nendif\n", " reads y "]),
    "a template that has macros evaluate their own values":
        ({"Makefile": "lazy = $(eval $1 = $$(eval $1 := $(value $(1)))$$($1))\nX = $(shell echo val) $(Z)\n"
                      "Y = $(shell cat y)\nZ = z\n$(call lazy,X)\n$(call lazy,Y)\nall: ; echo $(X) $(Y) > out\n",
          "y": "v2\n"},
         ["ifdef MAKE_VERSION\n$(call lazy,X)\nelse\n", "\nX = $(V_X)\n", " reads y "]),
    "values of many words, which come again for each target or for one alone":
        ({"Makefile": "W = $(wildcard w/*)\nall: a b c\na b c:\n\techo $(W) $(wildcard $(@D)/$@.d/*) > $@\n",
          **{f"{folder}/{number}": "" for folder in ("w", "a.d", "c.d") for number in range(25)}, "b.d/1": ""},
         ["W = $(V_W)\n", "V_wildcard_.-b := ./b.d/1\n"]),
    "which prerequisites are there, asked by a macro that is called":
        ({"Makefile": "new = $(filter-out F,$(wildcard $^))\n"
                      "made = $(if $(strip $(new)),echo $(1) $(new) > $@,echo $(1) > $@)\n"
                      "all: a b\na: in F\n\t$(call made,1)\nb: to F\n\t$(call made,2)\nF:\n", "in": "", "to": ""},
         ["\nV_new = $(V_new_$@)\n", "\nV_new_b := to\n"]),
    "the text of a macro that is mended":
        ({"Makefile": "X = $(shell echo hi) \\# there\nY = y $(X)\nall:\n"
                      "\techo '$(value X)' '$(value Y)' $(X) '$(words $(value X))' > out\n"},
         ["echo '$(V_X_2)' '$(value Y)' $(X) '$(words $(V_X_2))' > out\n", "V_X_2 := $$(shell echo hi) \\# there\n"]),
    "backslashes before a pattern's place":
        ({"Makefile": "S = a.c b\nall:\n\techo '$(S:%=\\\\%)"
                      " $(patsubst %.c,\\\\\\\\%.o\\%,$(S)) $(S:.c=\\\\%)' > out\n"},
         ["$(subst KATI_BACKSLASH,\\,$(S:%=KATI_BACKSLASH%))", "$(subst KATI_PERCENT,%,$(S:.c=\\\\KATI_PERCENT))"]),
    "a quoted percent sign":
        ({"Makefile": "S = a.c b.c\nP = $(patsubst %.c,\\%%.o,$(S))\n"
                      "Q = $(patsubst a.c,\\%,$(S))\n"
                      "all:\n\techo '$(S:%=\\%)' '$(S:%.c=%\\%x)' '$(S:.c=\\%)' '$(P)' '$(Q)' > out\n"},
         ["P = $(subst KATI_PERCENT,%,$(patsubst %.c,KATI_PERCENT%.o,$(S)))\n"]),
    "a command that a recipe's function asks about":
        ({"Makefile": "all: a b\na b:\n\techo $(if $(shell test $@ = a && echo x),yes,no) > $@\n"},
         ["$(if $(V_shell),yes,no) > $@\n", "\nV_shell = $(V_shell_$@)\n"]),
    "a shell's script among the names of a rule":
        ({"Makefile": "A = `echo a/b | sed -e 's/[ \\/]/-/g'`\nOBJS = d/$(A)/x.o\nall: ; echo $(A) > out\n"
                      "prog: $(OBJS) y.o\n\techo $(OBJS) > $@\n"},
         ["\nprog: $(V_names) y.o\n\techo $(OBJS) > $@\n"]),
    ".SECONDEXPANSION of pattern rules":
        ({"Makefile": ".SECONDEXPANSION:\n.SUFFIXES:\nall: x.q d/y.q z.r\nx_SRC = x1 x2\ny_SRC = y1\n"
                      "%.q: $$($$(*F)_SRC) | $$(@D)/dir\n\techo $* $< $^ > $@\n%.none: $$(x)\n\techo none > $@\n"
                      "%.r: $$($$*_SRC); echo $* > $@\nx1 x2 y1: ; echo $@ > $@\n./dir d/dir: ; mkdir -p $@\n"
                      "dir: ; mkdir -p dir\n"},
         ["x.q d/y.q: %.q:\n", "\n.KATI_NO_TARGET_8:\nendif\n\techo none", "\nz.r: %.r: ; echo"]),
}


@needs("kati", "kati-asked", "make", "ninja")
class Constructs(PortedTree):
    """Each is ported, make does what it did, and what ninja builds is what make builds."""

    def test_a_command_in_a_branch_of_a_recipe(self):
        text = "all: a b\na b:\n\techo $(if $(V),,$(shell echo $@ at $$(cat n))) > $@\n"
        self.check_construct({"Makefile": text, "n": "1\n"},
                             ["$(if $(V),,$(V_shell))", "V_shell = $$(echo $@ at $$(cat n))"])

    def test_each_construct(self):
        for name, (files, words) in CONSTRUCTS.items():
            with self.subTest(name):
                self.assertIn("kati's commands are make's", self.check_construct(files, words))


@needs("kati", "kati-asked", "make", "ninja")
class WrittenOut(Tree):
    """What a line evaluates stands for kati as make told it: what that hangs on has it told again."""

    def test_a_loop_over_folders(self):
        self.put("Makefile", "define T\n$1/out: F += $1\n$1/out: $(shell cat $1/name)\n"
                             "\tcat $$^ > $$@; echo $$(F) >> $$@\nall: $1/out\nendef\nall:\n"
                             "$(foreach d,$(wildcard */),$(eval $(call T,$(d:/=))))\n")
        self.put_all({"a/name": "a/x", "a/x": "x\n", "a/z": "z\n"})
        self.assertEqual(self.tool("kati-build", "--port").status, 0)
        self.assertEqual(self.read("a/out"), "x\na\n")
        self.put_all({"b/name": "b/y", "b/y": "y\n"})
        self.ninja()
        self.assertEqual(self.read("b/out"), "y\nb\n")
        self.put("a/name", "a/z")
        self.ninja()
        self.assertEqual(self.read("a/out"), "z\na\n")
        self.assertIn("no work to do", self.ninja())

    def test_a_fault_tells_of_the_template(self):
        self.put("Makefile", "all: p\ninclude t.mk\nadd = $(eval $(call PROG,$1))\n$(call add,p)\nq .WAIT: ;\n")
        for form, number, words in (("$(1): q .WAIT", "E22", "use order-only prerequisites: a: | b"),
                                    ("$(1): lib.a(q)", "E20", "make the archive from its objects")):
            self.put("t.mk", f"define PROG\n{form}\n\techo $$@\nendef\n")
            told = f"t.mk:2: PROG, which Makefile:4 evaluates, has {form} [{number}] {words}"
            ran = self.tool("kati-port", "--write", "Makefile")
            self.assertEqual(ran.status, 1, ran.all)
            self.assertIn("Makefile:4: *** refused ", ran.said)
            self.assertIn(told, ran.said)
            self.assertIn(told, self.tool("kati-build", "--port").said)

    def test_a_second_port_changes_nothing(self):
        self.put("Makefile", "define T\n$1: F = $1\n$1: ; echo $$(F) $$(wildcard *.c) > $$@\nendef\nall: a\n"
                             "$(eval $(call T,a))\n")
        self.assertEqual(self.tool("kati-port", "--write", "Makefile").status, 0)
        before = self.read("Makefile")
        ran = self.tool("kati-port", "--write", "Makefile")
        self.assertIn("kati takes it as it is", ran.out, ran.all)
        self.assertEqual(self.read("Makefile"), before)


@needs("kati", "kati-asked", "make", "ninja")
class Names(Tree):
    """Makefiles in another folder, by a whole path, and links."""

    def setUp(self):
        super().setUp()
        self.text = "V := $(shell echo 1)\nout:\n\techo $(V) > out\n"

    def made_by_port(self, *words):
        """What kati-build --port builds from nothing."""
        ran = self.tool("kati-build", "--port", *words)
        self.assertEqual(ran.status, 0, ran.all)
        self.assertEqual(self.read("out"), "1\n")
        (self.top / "out").unlink()
        return ran

    def written(self, *words):
        """What kati-port --write says."""
        ran = self.tool("kati-port", "--write", *words)
        self.assertEqual(ran.status, 0, ran.all)
        self.assertIn("kati's commands are make's\n", ran.out)

    def check_by_make(self, *words, folder="."):
        """make builds as before, where it is run in this folder."""
        ran = self.run_in("make", "-C", folder, "--no-print-directory", "-n", *words)
        self.assertEqual(ran.all, "echo 1 > out\n")

    def test_a_makefile_in_a_folder(self):
        self.put("sub/x.mk", self.text)
        self.made_by_port("-f", "sub/x.mk")
        self.written("sub/x.mk")
        self.check_by_make("-f", "sub/x.mk")
        self.check_by_make("-f", "x.mk", folder="sub")
        ran = self.tool("kati-build", "--builtin", "-f", "sub/x.mk")
        self.assertEqual((ran.status, self.read("out")), (0, "1\n"), ran.all)
        before = self.read("sub/x.mk")
        self.written("sub/x.mk")
        self.assertEqual(self.read("sub/x.mk"), before)

    def test_a_makefile_in_a_folder_with_a_blank_above(self):
        self.put("a b/sub/x.mk", self.text)
        ran = self.run_in("env", "-C", "a b", self.tool_path("kati-port"), "--write", "sub/x.mk")
        self.assertIn("kati's commands are make's\n", ran.out, ran.all)
        self.check_by_make("-f", "sub/x.mk", folder="a b")
        self.check_by_make("-f", "x.mk", folder="a b/sub")

    def test_a_makefile_by_its_whole_path(self):
        self.put("Makefile", self.text)
        self.made_by_port("-f", str(self.top / "Makefile"))
        self.written(str(self.top / "Makefile"))
        self.check_by_make()
        self.check_by_make("-f", str(self.top / "Makefile"))

    def test_a_link_that_leads_within(self):
        self.put("mk/Makefile.linux", self.text)
        for leads in ("mk/Makefile.linux", str(self.top / "mk/Makefile.linux")):
            (self.top / "Makefile").symlink_to(leads)
            self.made_by_port()
            self.written("Makefile")
            self.check_by_make()
            self.assertEqual(os.readlink(self.top / "Makefile"), leads)
            self.put("mk/Makefile.linux", self.text)
            (self.top / "Makefile").unlink()

    def test_a_link_that_leads_out(self):
        other = self.top.parent / "other"
        other.mkdir()
        (other / "M").write_text(self.text)
        for leads in ("../other/M", str(other / "M")):
            (self.top / "Makefile").symlink_to(leads)
            self.made_by_port()
            ran = self.tool("kati-port", "--write", "Makefile")
            self.assertEqual(ran.status, 1, ran.all)
            self.assertIn(f"it is a link to {other / 'M'}, which others may read", ran.said)
            (self.top / "Makefile").unlink()
        self.assertEqual((other / "M").read_text(), self.text)
        self.assertEqual(tree_of(self.top), {})

    def test_lines_that_end_with_a_carriage_return(self):
        (self.top / "Makefile").write_bytes(self.text.replace("\n", "\r\n").encode())
        self.made_by_port()
