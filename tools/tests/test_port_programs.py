"""scripts/port_programs.py: made-up programs that kati-build --port builds as make, and others."""
from support import TOP, Tree, needs

SCRIPT = TOP / "scripts/port_programs.py"
STEPS = ("built", "nothing", "header", "source", "object", "gone", "macro", "new source")
PROGRAM = {
    "Makefile": "SRCS := $(wildcard *.c)\nall: prog date.txt\nprog: $(SRCS:.c=.o)\n\t$(CC) -o $@ $^\n"
                "%.o: %.c\n\t$(CC) -MMD -c -o $@ $<\ndate.txt: ; date +%N > $@\n-include $(SRCS:.c=.d)\n",
    "main.c": '#include "a.h"\nint main(void) { return A; }\n', "a.h": "#define A 0\n"}


@needs("kati", "kati-asked", "make", "ninja", "cc")
class PortPrograms(Tree):
    """What it says of small programs."""

    def script(self, *words, status):
        """What it says, which must end with this status."""
        ran = self.run_in(SCRIPT, *words)
        self.assertEqual(ran.status, status, ran.all)
        return ran.all

    def test_a_program_that_is_as_by_make(self):
        self.put_all({f"one/{name}": text for name, text in PROGRAM.items()})
        self.put("list.txt", "one all  # all of it\n")
        before = sorted(self.top.rglob("*"))
        self.assertEqual(self.script("--list", "list.txt", ".", status=0), "one: 3 files, as make\n1 of 1 as make\n")
        self.assertEqual(sorted(self.top.rglob("*")), before)

    def test_what_an_inner_make_leaves_by_another_word_is_as_make(self):
        self.put_all({"one/Makefile": "all: ; $(MAKE) -C sub\n", "one/sub/Makefile": "main.o: main.c\n",
                      "one/sub/main.c": "int main(void) { return 0; }\n"})
        self.assertEqual(self.script("one", status=0), "one: 1 files, as make\n1 of 1 as make\n")

    def test_a_recipe_that_fails_where_its_link_stands_fails_by_make_too(self):
        self.put_all({"one/Makefile": "link: main.c\n\tln -s newer.txt link\n",
                      "one/main.c": "int main(void) { return 0; }\n", "one/newer.txt": ""})
        self.assertEqual(self.script("one", status=0),
                         "one: 1 files, as make; both fail: source, new source, macro\n1 of 1 as make\n")

    def test_one_that_is_not_and_one_that_make_does_not_build(self):
        # For kati $? is all prerequisites.
        self.put_all({"one/Makefile": "log: main.c a.h\n\techo $? > $@\n", "one/main.c": '#include "a.h"\n',
                      "one/a.h": "", "two/Makefile": "all: ; @echo no; false\n"})
        said = self.script("one", "two", status=1)
        self.assertRegex(said, r"^one: 1 files, header: other log; source: other log\n"
                               r"two: make fails: make: \*\*\* .*\n0 of 2 as make\n$")

    def test_wrong_usage_and_help(self):
        self.assertIn("port_programs.py: no folder absent", self.script("absent", status=64))
        self.assertIn("port_programs.py: --list wants one folder", self.script("--list", SCRIPT, ".", ".", status=64))
        self.script(status=64)
        said = self.script("--help", status=0)
        self.assertEqual([word for word in (*STEPS, "--list", "exit status:", "examples:") if word not in said], [])
