"""Trees that are edited at random: after each edit plain ninja brings about what a build from nothing would, and the
next run has nothing to do.

The seed is fixed. KATI_RANDOM_TREES says how many trees are tried, and KATI_RANDOM_SEED which."""
import os
import random

from edited_trees import EditedTree
from support import needs

TREES = int(os.environ.get("KATI_RANDOM_TREES", "3"))
SEED = int(os.environ.get("KATI_RANDOM_SEED", "2"))
EDITS = 8
NAMES = ["a", "b", "c"]
HEADERS = ["h0.h", "h1.h"]

# A compiler that copies its source and the headers that this names, and writes dependencies as cc -MMD does.
COMPILER = """\
#!/bin/sh
# compile SOURCE OBJECT FLAGS
headers=$(sed -n 's/^#include //p' "$1")
cat "$1" $headers > "$2.tmp" || exit 1
echo "$3" >> "$2.tmp"
mv "$2.tmp" "$2"
echo "$2: $1" $headers > "${2%.o}.d"
"""
MAKEFILE = """\
FLAGS = {flags}
OBJECTS = {objects}
include rules.mk
-include conf/local.mk
ifeq ($(EXTRA),1)
OBJECTS += gen.o
endif
prog: $(OBJECTS)
	cat $(OBJECTS) > $@
gen.c: gen.txt
	cp gen.txt $@
"""
COMPILE = "sh ./cc.sh $< $@ '$(FLAGS) {kind}' # -MMD -c -o $@"
RULES = {kind: f"%.o: {source}\n\t{COMPILE.format(kind=kind)}\n"
         for kind, source in (("plain", "%.c"), ("sub", "sub/%.c"), ("other", "%.s"), ("above", "../up/%.c"))}


class Edits:
    """A tree's state, of which the files follow, and the edits of it."""

    def __init__(self, chance, has_list):
        self.chance, self.has_list, self.counter = chance, has_list, 0
        self.flags, self.objects, self.extra, self.fault = "one", list(NAMES), None, False
        self.order = self.some_order()
        self.headers = {name: "0" for name in HEADERS}
        self.sources = {name: self.source() for name in [*(f"{one}.c" for one in NAMES), "sub/other.c"]}
        self.generated = "gen"

    def number(self):
        self.counter += 1
        return str(self.counter)

    def some_order(self):
        """The rules in some order, mostly with the one for sources of a folder beside this one."""
        order = self.chance.sample(list(RULES), len(RULES))
        return order if self.chance.random() < 0.7 else [kind for kind in order if kind != "above"]

    def source(self):
        """A source's text: a number, and the headers that it includes."""
        named = self.chance.sample(list(self.headers), self.chance.randint(0, len(self.headers)))
        return "".join(f"#include {name}\n" for name in named) + f"text {self.number()}\n"

    def files(self):
        """The files of the tree, by name."""
        makefile = MAKEFILE.format(flags=self.flags, objects=" ".join(f"{name}.o" for name in self.objects))
        found = {"Makefile": makefile + ("endif\n" if self.fault else ""), "cc.sh": COMPILER,
                 "rules.mk": "".join(RULES[kind] for kind in self.order), "gen.txt": self.generated + "\n",
                 **self.sources}
        found.update({name: f"header {text}\n" for name, text in self.headers.items()})
        if self.extra is not None:
            found["conf/local.mk"] = f"EXTRA = {self.extra}\n"
        if self.has_list:
            found["list.txt"] = "".join(f"{name}\n" for name in sorted(found) if not name.endswith(".mk"))
        return found

    def edit(self):
        """Changes one thing; answers what."""
        self.fault = False
        one = self.chance.choice([self.edit_source, self.edit_header, self.edit_flags, self.edit_objects,
                                  self.edit_order, self.edit_include, self.edit_include, self.edit_rival,
                                  self.edit_rival, self.edit_generated, self.edit_fault, self.edit_nothing])
        one()
        return one.__name__

    def edit_source(self):
        self.sources[self.chance.choice(list(self.sources))] = self.source()

    def edit_header(self):
        self.headers[self.chance.choice(HEADERS)] = self.number()

    def edit_flags(self):
        self.flags = "flags " + self.number()

    def edit_objects(self):
        self.objects = self.chance.sample(NAMES, self.chance.randint(1, len(NAMES)))

    def edit_order(self):
        self.order = self.some_order()

    def edit_include(self):
        self.extra = self.chance.choice([one for one in (None, "0", "1") if one != self.extra])

    def edit_rival(self):
        """A source of another rule for the same object comes or goes."""
        name = self.chance.choice(["sub/{}.c", "{}.s", "../up/{}.c"]).format(self.chance.choice(NAMES))
        if self.sources.pop(name, None) is None:
            self.sources[name] = self.source()

    def edit_generated(self):
        self.generated = self.number()

    def edit_fault(self):
        self.fault = True

    def edit_nothing(self):
        pass


@needs("kati", "ninja", "make")
class RandomEdits(EditedTree):
    """What ninja makes of them, beside what make makes of a new tree."""

    WORDS = ["--deps", "--no-ninja"]

    def after_edit(self, state, is_faulty):
        """Compares what plain ninja does after an edit."""
        ran = self.run_in("ninja")
        if is_faulty:
            self.assertNotEqual(ran.status, 0)
            self.assertIn("*** stray endif [E11]", ran.all)
            self.assertEqual(self.read("prog"), self.built)
            return
        self.assertEqual(ran.status, 0, ran.all)
        self.built = self.read("prog")
        status, said, made = self.from_nothing(state.files(), "-s", "-r", "-R")
        self.assertEqual(status, 0, said)
        self.assertEqual(self.built, made["prog"].decode())
        self.assertEqual(self.made_anew(self.ninja), [])
        self.assertEqual(self.ninja(), "ninja: no work to do.\n")

    def one_tree(self, seed, *words):
        """Edits a tree, and compares after each edit."""
        state, done = Edits(random.Random(seed), "--files-from" in words), []
        self.begin()
        self.lay(state.files())
        self.assertEqual(self.tool("kati-build", *self.WORDS, *words).status, 0)
        with self.subTest(seed=seed, edits=done):
            self.after_edit(state, False)
            for _ in range(EDITS):
                self.let_time_pass()
                done.append(state.edit())
                self.lay(state.files())
                self.after_edit(state, state.fault)

    def test_ninja_alone_brings_about_what_a_build_from_nothing_would(self):
        for number in range(TREES):
            seed = SEED * 1000 + number
            if number % 3 == 0:
                self.one_tree(seed)
            elif number % 3 == 1:
                # Without kati-asked the includes are a guess.
                with self.without_asked():
                    self.one_tree(seed)
            else:
                self.one_tree(seed, "--files-from", "list.txt")
