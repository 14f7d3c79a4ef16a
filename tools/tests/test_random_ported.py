"""Trees that lean on what kati refuses, built by `kati-build --port` and edited at random: after each edit a plain
or in some trees kati-build, gives the bytes that make gives from nothing at the same path, and the next run has nothing
to do.

The seed is fixed. KATI_RANDOM_TREES says how many trees are tried, and KATI_RANDOM_SEED which."""
import os
import random
import re

from edited_trees import EditedTree
from support import needs
from tree_parts import PARTS

TREES = int(os.environ.get("KATI_RANDOM_TREES", "2"))
SEED = int(os.environ.get("KATI_RANDOM_SEED", "5"))
EDITS = 6
HOLE = re.compile(r"\{(?:headers (\w+)|([\w /]+(?:\|[\w /]+)+))?\}")


class PortedState:
    """Some parts, of which the files of the tree follow, and the edits of them."""

    def __init__(self, chance):
        self.chance, self.counter, self.is_old = chance, 0, False
        self.parts = {name: PARTS[name] for name in chance.sample(sorted(PARTS), chance.randint(2, 5))}
        self.templates = {name: text for part in self.parts.values() for name, text in part.files.items()}
        self.known = {name: text for part in self.parts.values()
                      for name, text in [*part.files.items(), *part.more.items()]}
        self.kept = {name for part in self.parts.values() for name in part.kept}
        self.is_restless = any(part.is_restless for part in self.parts.values())
        self.is_included = chance.random() < 0.3
        self.texts = {}
        for name in self.templates:
            self.texts[name] = self.filled(self.templates[name])
        self.lines = {name: self.filled(part.lines) for name, part in self.parts.items()}
        self.before = {}

    def hole(self, found):
        """What stands in a hole of a template now."""
        folder, words = found.groups()
        if folder:
            headers = sorted(name for name in self.texts if re.fullmatch(rf"{folder}/\w+\.h", name))
            named = self.chance.sample(headers, self.chance.randint(0, len(headers)))
            return "".join(f'#include "{os.path.basename(name)}"\n' for name in named)
        if words:
            return self.chance.choice(words.split("|"))
        self.counter += 1
        return str(self.counter)

    def filled(self, template):
        """A template with all that is in its holes."""
        return HOLE.sub(self.hole, template)

    def files(self):
        """The files of the tree, by name."""
        rules = "".join(re.sub("^    ", "\t", lines, flags=re.MULTILINE) for lines in self.lines.values())
        goals = "all: " + " ".join(part.targets for part in self.parts.values()) + "\n"
        if self.is_included:
            return {"Makefile": f"{goals}include rules/own.mk\n", "rules/own.mk": rules, **self.texts}
        return {"Makefile": goals + rules, **self.texts}

    def edit(self):
        """Changes one thing; answers what."""
        self.is_old = False
        choices = [(self.change, sorted(self.texts)), (self.change, sorted(self.texts)),
                   (self.take_away, sorted(set(self.texts) - self.kept)),
                   (self.bring, sorted(set(self.known) - set(self.texts))),
                   (self.bring_back, sorted(set(self.before) - set(self.texts))),
                   (self.change_lines, sorted(name for name, part in self.parts.items() if "{" in part.lines)),
                   (self.nothing, ["it"])]
        do, names = self.chance.choice([(do, names) for do, names in choices if names])
        name = self.chance.choice(names)
        do(name)
        return f"{do.__name__} {name}"

    def change(self, name):
        self.texts[name] = self.filled(self.known[name])

    bring = change

    def take_away(self, name):
        self.before[name] = self.texts.pop(name)

    def bring_back(self, name):
        """A file that was there comes back as it was, with its old date."""
        self.texts[name], self.is_old = self.before[name], True

    def change_lines(self, name):
        """One number of a part of the makefile is another."""
        lines = self.filled(self.parts[name].lines)
        self.lines[name] = lines

    def nothing(self, name):
        pass


@needs("kati", "kati-asked", "ninja", "make", "cc")
class RandomPorted(EditedTree):
    """What ninja makes of them, beside what make makes from nothing."""

    def build(self, *call):
        """What a run said; it must end well and say nothing of a difference to make."""
        ran = self.run_in(*call)
        self.assertEqual(ran.status, 0, ran.all)
        self.assertNotIn("commands differ", ran.all)
        return ran.all

    def after_edit(self, state, call):
        """Compares what a run does after an edit with what make does; where make has a fault, only that the tools have
        none of their own."""
        self.let_time_pass()
        files = state.files()
        status, said, made = self.from_nothing(files, "-s")
        if status:
            ran = self.run_in(*call)
            self.assertNotRegex(ran.all, "Traceback|a fault of")
            return
        self.build(*call)
        there = {name: (self.top / name).read_bytes() for name in made if (self.top / name).is_file()}
        self.assertEqual(there, made, said)
        said = []
        self.assertEqual(self.made_anew(lambda: said.append(self.build(*call))), [])
        if not state.is_restless:
            self.assertIn("ninja: no work to do.", said[0])

    def one_tree(self, seed):
        """Edits a tree, and compares after each edit."""
        chance = random.Random(seed)
        state, done = PortedState(chance), []
        build = [self.tool_path("kati-build"), "--port"]
        call = build if chance.random() < 0.25 else ["ninja"]
        self.begin()
        self.lay(state.files())
        with self.subTest(seed=seed, parts=sorted(state.parts), by=str(call[-1]), edits=done):
            self.build(*build)
            self.after_edit(state, call)
            for _ in range(EDITS):
                self.let_time_pass()
                done.append(state.edit())
                self.lay(state.files(), state.is_old)
                self.after_edit(state, call)

    def test_ninja_brings_about_what_make_does_from_nothing(self):
        for seed in range(SEED * 1000, SEED * 1000 + TREES):
            self.one_tree(seed)
