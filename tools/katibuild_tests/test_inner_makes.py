"""Inner makes share the jobs of a build."""
from __future__ import annotations

import os
import unittest

from trees import Tree

MAKEFILE = """\
all: a b c d
a b c d: ; $(MAKE) -C sub T=$@ V='$(V)'
.PHONY: a b c d
"""
INNER = """\
J := $(T)1 $(T)2 $(T)3
all: $(J)
$(J): ; echo + >> ../log; sleep 0.3; echo - >> ../log; echo '$(V) $(W)' $(MAKELEVEL) > $@
"""
FLAGS = "MAKEFLAGS += -rR --no-print-directory\nall: ; $(MAKE) -C sub\n"
OF_FLAGS = "all: ; @echo '$(filter-out -j% --jobserver%,$(MAKEFLAGS))' $(origin CC) $(.SUFFIXES) > flags\n"
KILLS = "all: ; kill -9 `ps -o ppid= -p $$PPID`\n"


class InnerMakes(Tree):
    """A makefile with four inner makes of three jobs each."""

    def setUp(self):
        super().setUp()
        self.put({"Makefile": MAKEFILE, "sub/Makefile": INNER})

    def most(self):
        """How many jobs ran at once, and how many in all."""
        running, most, count = 0, 0, 0
        for mark in self.read("log").split():
            running += 1 if mark == "+" else -1
            most, count = max(most, running), count + (mark == "+")
        return most, count

    def test_jobs_are_shared(self):
        for jobs in (1, 3):
            self.put({"log": ""})
            self.sh("rm -f sub/?[123]")
            ran = self.build("V=its  x", "W=a b", KATI_JOBS=str(jobs))
            self.assertEqual(0, ran.status, ran.said)
            most, count = self.most()
            self.assertEqual(12, count)
            self.assertLessEqual(most, jobs)
            self.assertGreaterEqual(most, min(jobs, 2))
        self.assertEqual("its  x a b 1\n", self.read("sub/a1"))

    def test_the_jobs_of_the_command_line(self):
        self.put({"log": ""})
        ran = self.build("-j1")
        self.assertEqual((0, (1, 12)), (ran.status, self.most()), ran.said)

    def test_without_flock(self):
        programs = self.top.parent / "bin"
        programs.mkdir()
        for folder in os.environ["PATH"].split(":"):
            for name in os.listdir(folder) if os.path.isdir(folder) else ():
                if name != "flock" and not (programs / name).is_symlink():
                    (programs / name).symlink_to(os.path.join(folder, name))
        self.put({"log": ""})
        ran = self.build(PATH=str(programs), KATI_JOBS="2")
        self.assertEqual((0, 12), (ran.status, self.most()[1]), ran.said)

    def test_without_a_number_of_jobs(self):
        self.put({"log": ""})
        ran = self.build(KATI_JOBS="no")
        self.assertEqual((0, 12), (ran.status, self.most()[1]), ran.said)

    def test_the_flags_of_the_makefile(self):
        self.put({"Makefile": FLAGS, "sub/Makefile": OF_FLAGS})
        found = [(build().status, self.read("sub/flags")) for build in (self.make, self.build, self.ninja)]
        self.assertIn("rR --no-print-directory undefined\n", found[0][1])
        self.assertEqual([(0, found[0][1])] * 3, found)

    def test_a_killed_make_takes_no_job_away(self):
        self.put({"sub/Makefile": KILLS})
        self.assertNotEqual(0, self.build(KATI_JOBS="2").status)
        self.put({"sub/Makefile": INNER, "log": ""})
        ran = self.build(KATI_JOBS="2")
        self.assertEqual((0, 12), (ran.status, self.most()[1]), ran.said)

    def test_another_file_in_the_place_of_the_jobs(self):
        self.put({"log": "", ".kati/jobs": "x"})
        ran = self.build(KATI_JOBS="2")
        self.assertEqual((0, 12), (ran.status, self.most()[1]), ran.said)


if __name__ == "__main__":
    unittest.main()
