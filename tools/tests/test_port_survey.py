"""scripts/port_survey.py, on small trees."""
from support import TOP, Tree, needs

SURVEY = TOP / "scripts/port_survey.py"


@needs("kati", "make")
class Survey(Tree):
    def setUp(self):
        super().setUp()
        self.put("one/Makefile", "all: ; echo one\n")
        self.put("two/src/makefile", "N := $(shell echo 1)\n.PHONY:: all\nall: ; echo $(N)\n")
        self.put("three/Makefile", "all: absent ; echo\n")
        self.put("four/Makefile", ".ONESHELL:\nall: ; echo\n")
        self.put("five/Makefile", "N := $(shell echo 1)\nall: FORCE ; echo $(N) $?\nFORCE:\n")
        self.put("six/Makefile", "all: ; echo six\n")
        self.put("six/configure.ac", "")

    def survey(self, *words):
        ran = self.run_in("python3", SURVEY, *words)
        self.assertEqual(ran.status, 0, ran.all)
        return ran.out

    def test_each_makefile_has_a_line_and_there_is_a_table(self):
        lines = self.survey(self.top).split("\n")
        self.assertEqual([line.split(", ")[0] for line in lines[:5]], ["five/Makefile: ported", "four/Makefile: stuck",
                                                                      "one/Makefile: same as it is",
                                                                      "three/Makefile: make fails",
                                                                      "two/src/makefile: same"])
        table = [line.rsplit(None, 1) for line in lines[5:] if line]
        self.assertEqual([number for _, number in table], ["5", "4", "1", "3", "2", "0", "2"])

    def test_a_list_of_makefiles(self):
        self.assertEqual(self.survey("--only-list", self.top).split(),
                         ["five/Makefile", "four/Makefile", "one/Makefile", "three/Makefile", "two/src/makefile"])
        self.put("list.txt", "one/Makefile\n")
        self.assertEqual(self.survey("--list", self.top / "list.txt", self.top).split("\n")[0].split(", ")[0],
                         "one/Makefile: same as it is")
