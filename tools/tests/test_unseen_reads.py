"""A port names the calls of `shell` of which it isn't seen what they read."""
import unittest

from support import Tree, needs

from kati_tools.port import unseen_reads

SEEN = ("cat version.txt 2>/dev/null", "echo 1 | tee n.h", "sed 's/<(x)>/y/' < a", "cd .. && pwd", "LC_ALL=C sort x",
        "for f in a b; do cat $f; done", "echo \"$(cat n)\" more", "echo `cat n` more", "wc -l < version.txt",
        "if test -f a; then echo b; fi", "git status --short | wc -l", "[ -f x ] && echo y || echo z",
        "echo 'it''s' $((1+2)) a", "ls *.c 2>&1", "X=1", "")
UNSEEN = ("uname -s", "date +%F", "echo `uname`", "echo $(cat `which cc`)", "./version.sh", "X=1 ./x", "sh version.sh",
          "command -v cc", "cat a | python3 b.py", "echo '", "test -f a && cc -dumpversion", "ls | xargs wc")
TOLD = "what these read isn't seen, so that --values alone asks for them again: "


class Commands(unittest.TestCase):
    """What is known of commands by their text."""

    def test_commands(self):
        self.assertEqual([one for one in SEEN if unseen_reads.is_unseen(one)], [])
        self.assertEqual([one for one in UNSEEN if not unseen_reads.is_unseen(one)], [])


@needs("kati", "kati-asked", "make", "ninja")
class Told(Tree):
    """What a port says."""

    def test_values_that_are_not_asked_for_again(self):
        self.put_all({"Makefile": "N := $(shell ./n.sh) $(shell cat n)\nM != ./n.sh 2\nall: ; echo $(N) $(M) "
                                  "$(shell uname -s | tr A-Z a-z) > out\n", "n": "1\n"})
        self.put_all({"n.sh": "#!/bin/sh\ncat hidden\n", "hidden": "1\n"})
        (self.top / "n.sh").chmod(0o755)
        calls = f"{TOLD}$(shell ./n.sh), $(shell uname -s | tr A-Z a-z), $(shell ./n.sh 2)\n"
        self.assertIn(f"kati-build: {calls}", self.tool("kati-build", "--port").said)
        self.assertEqual(self.tool("kati-port", "--write", "--diff", "Makefile").said.count(f"Makefile: {calls}"), 1)
        self.put("hidden", "2\n")
        self.assertNotIn("asked again", self.tool("kati-build", "--port").said)
        self.assertEqual(self.tool("kati-build", "--port", "--values").status, 0)
        self.assertTrue(self.read("out").startswith("2 1 2 "), self.read("out"))

    def test_a_port_that_hangs_on_files_alone(self):
        self.put_all({"Makefile": "N := $(shell cat n) $(wildcard *.c)\nall: ; echo $(N) > out\n", "n": "1\n"})
        self.assertEqual(self.tool("kati-port", "--write", "Makefile").out.count(TOLD), 0)


if __name__ == "__main__":
    unittest.main()
