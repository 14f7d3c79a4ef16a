"""What kati-build keeps in .kati: options, files that are saved while make runs, killed runs, and hostile content."""
from __future__ import annotations

import os
import re
import shutil
import signal
import subprocess
import time
import unittest

from trees import BUILD, LONG, QUIET, READ, Ran, Tree

FILES = {"Makefile": "prog: m.o\n\tcc -o $@ $^\n%.o: %.c\n\tcc -MMD -c -o $@ $<\n-include $(wildcard *.d)\n",
         "m.c": "#include \"h.h\"\nint main(void){return H;}\n", "h.h": "#define H 3\n"}
SLOW = "V := $(shell sleep %s; cat ver)\nprog:\n\techo $(V) > $@\n"


class Keep(Tree):
    """Each test in a tree of its own."""

    def start(self, *words):
        """kati-build, running."""
        return subprocess.Popen([*BUILD, *words], cwd=self.top, env=QUIET, stdin=subprocess.DEVNULL,
                                stdout=subprocess.PIPE, stderr=subprocess.STDOUT, start_new_session=True)

    def wait_for(self, condition):
        """Waits until something holds."""
        until = time.monotonic() + LONG
        while not condition():
            self.assertLess(time.monotonic(), until, "it never came to be")
            time.sleep(0.01)

    # -- options

    def test_anew_rebuilds_everything(self):
        self.put(FILES)
        self.build()
        before = os.stat(self.top / "m.o").st_mtime_ns
        ran = self.build("--anew")
        self.assertEqual((0, True), (ran.status, ran.has_work), ran.said)
        self.assertLess(before, os.stat(self.top / "m.o").st_mtime_ns)
        self.assertFalse(self.build().has_work)

    def test_anew_leaves_sources_without_inputs_alone(self):
        self.put({"Makefile": "prog: c.h\n\tcp c.h prog\nc.h: ; cp def.h c.h\n", "def.h": "def\n", "c.h": "mine\n"})
        self.build()
        self.build("--anew")
        self.assertEqual("mine\n", self.read("c.h"))

    def test_remove(self):
        self.put(FILES)
        self.build()
        self.assertEqual(0, self.build("--remove").status)
        self.assertEqual({*FILES, "m.o", "m.d", "prog"}, set(os.listdir(self.top)))
        self.assertEqual(0, self.build("--remove").status)

    def test_remove_leaves_a_foreign_build_file(self):
        self.put({"build.ninja": "# mine\n"})
        self.assertEqual(64, self.build("--remove").status)
        self.assertEqual("# mine\n", self.read("build.ninja"))

    def test_why(self):
        self.put({**FILES, "Makefile": "X := $(shell date)\n" + FILES["Makefile"]})
        self.assertEqual(2, self.build("--why").status)
        self.build()
        ran = self.build("--why")
        for text in ("Makefile", "m.d", "`date`", "up to date"):
            self.assertIn(text, ran.said)
        self.put({"k.c": ""})
        self.assertIn("this folder has k.c", self.build("--why").said)

    def test_why_lists_newer_prerequisites(self):
        """`$?`, also where a variable names it through another, is listed with its place."""
        for recipe, is_listed in (("echo $?", True), ("$(call new,$@)", True), ("echo $^ $(call old)", False)):
            self.put({"Makefile": f"any = $(filter-out F,$?)\nnew = echo $(any)\nold = $<\nout: in\n\t{recipe}\n",
                      "in": ""})
            self.build()
            self.assertEqual(is_listed, "Makefile:5: '$?' in the recipe of 'out'" in self.build("--why").said, recipe)

    def test_no_ninja(self):
        self.put(FILES)
        self.assertEqual(0, self.build("--no-ninja").status)
        self.assertFalse((self.top / "prog").exists())
        self.assertEqual(0, self.ninja().status)
        self.assertTrue((self.top / "prog").exists())

    def test_jobs_and_arguments_of_ninja(self):
        self.put(FILES)
        ran = self.build("-j1", "--", "-v")
        self.assertIn("/bin/sh -c", ran.said)

    def test_another_makefile(self):
        self.put({"a.mk": "out: ; echo a > $@\n", "b.mk": "out: ; echo b > $@\n"})
        for name in ("a", "b"):
            self.build("-f", f"{name}.mk")
            self.assertEqual(f"{name}\n", self.read("out"))
        self.sh("rm out")
        self.assertEqual(0, self.ninja().status)
        self.assertEqual("b\n", self.read("out"))

    # -- faults

    def test_a_fault_keeps_the_build_of_before(self):
        self.put(FILES)
        self.build()
        before = self.contents(), self.read("build.ninja")
        for fault in ("prog: m.o\n\tcc\n  else\n", "all: absent\n", "include absent.mk\n"):
            with self.subTest(fault):
                self.put({"Makefile": fault})
                ran = self.build()
                self.assertEqual(2, ran.status, ran.said)
                self.assertRegex(ran.said, r"Makefile:\d+: |No rule to make target 'absent")
                ran = self.ninja()
                self.assertNotEqual(0, ran.status)
                self.put(FILES)
                self.assertEqual(before, (self.contents(), self.read("build.ninja")))

    def test_a_fault_of_the_tools(self):
        self.put({**FILES, "kati": "#!/bin/sh\nexit 9\n"})
        (self.top / "kati").chmod(0o755)
        ran = self.build(KATI=str(self.top / "kati"))
        self.assertEqual(70, ran.status, ran.said)
        self.assertFalse((self.top / "build.ninja").exists())
        self.assertEqual([], os.listdir(self.top / ".kati/hidden"))

    def test_programs_that_are_absent(self):
        self.put(FILES)
        for name in ("KATI", "NINJA", "MAKE_PROGRAM"):
            with self.subTest(name):
                ran = self.build(**{name: "/no/such/program"})
                self.assertEqual(3, ran.status, ran.said)
                self.assertIn(name, ran.said)

    def test_a_failed_command(self):
        self.put({"Makefile": "prog: a\n\tcp a prog; false\n", "a": "1\n"})
        self.assertEqual(1, self.build().status)
        self.assertEqual(1, self.build().status)

    def test_closed_and_full_streams(self):
        self.put({"Makefile": "out: a\n\tcp a out\n", "a": "1\n"})
        command = " ".join(BUILD)
        for streams, words, status in ((">&-", "", 0), ("2>&-", "", 0), ("<&- >&- 2>&-", "", 0), (">&-", "--why", 3),
                                       ("> /dev/full", "--why", 3), ("2>/dev/full", "", 0)):
            with self.subTest(streams=streams, words=words):
                self.sh("rm -f out")
                ran = Ran(["sh", "-c", f"{command} {words} {streams}"], self.top)
                self.assertEqual((status, ""), (ran.status, "".join(re.findall("Traceback.*", ran.said))), ran.said)
                self.assertEqual(None if words else "1\n", self.read("out"))

    def test_terminated_while_ninja_runs(self):
        self.put({"Makefile": "out: a\n\techo > out\na:\n\ttouch begun; sleep 2; echo > a\n"})
        running = self.start()
        self.wait_for(lambda: (self.top / "begun").exists())
        running.send_signal(signal.SIGTERM)
        running.communicate(timeout=LONG)
        self.assertEqual(130, running.returncode)
        time.sleep(2.5)
        self.assertFalse((self.top / "out").exists())

    # -- while make runs

    def test_a_file_that_is_saved_while_make_reads(self):
        for wait in (0.1, 0.4, 0.7, 1.0, 1.2, 1.5, 2.0):
            with self.subTest(wait):
                self.setUp()
                self.put({"Makefile": SLOW % 0.5, "ver": "1\n"})
                running = self.start()
                self.wait_for(lambda: (self.top / ".kati/lock").exists())
                time.sleep(wait)
                self.put({"ver": "2\n"})
                said = running.communicate(timeout=LONG)[0].decode()
                self.assertEqual(0, running.returncode, said)
                self.build()
                self.assertEqual("2\n", self.read("prog"), said)

    def test_a_file_that_each_reading_writes(self):
        self.put({"Makefile": "X := $(shell date +%N > stamp; cat stamp)\nprog: a\n\tcp a prog\n", "a": "1\n"})
        ran = self.build()
        self.assertEqual(0, ran.status, ran.said)
        self.assertIn("stamp", self.build("--why").said.partition("each reading writes")[2])
        ran = self.build()
        self.assertEqual((0, []), (ran.status, ran.reasons), ran.said)

    def test_two_runs_at_once(self):
        self.put({"Makefile": SLOW % 0.5, "ver": "1\n"})
        first, second = self.start(), self.start()
        said = [one.communicate(timeout=LONG)[0].decode() for one in (first, second)]
        self.assertEqual([0, 0], [first.returncode, second.returncode], said)
        self.assertEqual("1\n", self.read("prog"))

    def test_one_build_waits_for_the_other(self):
        self.put({"Makefile": "prog: always\n\techo begun >> log; sleep 0.5; echo ended >> log\nalways:\n"})
        for one in [self.start(), self.start()]:
            self.assertEqual(0, one.wait(timeout=LONG))
            one.stdout.close()
        self.assertEqual("begun\nended\n" * 2, self.read("log"))

    def test_a_recipe_that_calls_kati_build_does_not_wait_for_itself(self):
        self.put({"Makefile": f"prog:\n\t{' '.join(BUILD)} inner && cp inner prog\ninner:\n\techo 1 > inner\n"})
        self.assertEqual(0, self.build().status)
        self.assertEqual("1\n", self.read("prog"))

    def test_recipes_have_makes_environment(self):
        self.put({"Makefile": "prog:\n\tenv | grep -v '^MAKE\\|^MFLAGS' | sort > prog\n"})
        self.sh("make")
        by_make = self.read("prog")
        self.sh("rm prog")
        self.assertEqual(0, self.build().status)
        self.assertEqual(by_make, self.read("prog"))

    def test_killed_while_files_are_hidden(self):
        self.put(FILES)
        self.build()
        self.put({"Makefile": "V := $(shell sleep 1)\n" + FILES["Makefile"]})
        for number in (signal.SIGKILL, signal.SIGTERM, signal.SIGINT):
            with self.subTest(number):
                self.sh("echo '# x' >> Makefile")
                running = self.start()
                self.wait_for(lambda: not (self.top / "m.d").exists())
                running.send_signal(number)
                if number == signal.SIGKILL:
                    os.killpg(running.pid, number)
                running.communicate(timeout=LONG)
                if number != signal.SIGKILL:
                    self.assertEqual(130, running.returncode)
                    self.assertTrue((self.top / "m.d").exists())
                self.put({"h.h": f"#define H {4 + number}\n"})
                ran = self.build()
                self.assertEqual(0, ran.status, ran.said)
                self.assertTrue((self.top / "m.d").exists())
                ended = subprocess.run([self.top / "prog"], check=False).returncode
                self.assertEqual(4 + number, ended)

    def test_remove_restores_hidden_files(self):
        self.put(FILES)
        self.build()
        self.sh("cp m.d .kati/hidden/0; rm m.d; echo '[\"m.d\"]' > .kati/hidden/list")
        self.assertEqual(0, self.build("--remove").status)
        self.assertEqual("m.o: m.c h.h\n", self.read("m.d"))

    def test_ninja_restores_hidden_files(self):
        self.put(FILES)
        self.build()
        self.sh("cp -p m.d .kati/hidden/0; rm m.d; echo '[\"m.d\"]' > .kati/hidden/list")
        ran = self.ninja()
        self.assertEqual(0, ran.status, ran.said)
        self.assertEqual("m.o: m.c h.h\n", self.read("m.d"))

    # -- hostile content

    def test_a_link_in_the_place_of_the_folder(self):
        self.put({**FILES, "../other/x": "1\n"})
        (self.top / ".kati").symlink_to("../other")
        self.assertEqual(0, self.build().status)
        self.assertEqual(["x"], os.listdir(self.top.parent / "other"))

    def test_links_below_the_folder(self):
        self.put({**FILES, "../victim": "safe\n", ".kati/": None})
        for name in ("graph", "statements", "record", "lock", "watched", "stat", "run", "hidden", "times", ".gitignore",
                     "graph.new", "building"):
            with self.subTest(name):
                self.sh("rm -rf .kati build.ninja; mkdir .kati")
                (self.top / ".kati" / name).symlink_to("../../victim")
                ran = self.build()
                self.assertIn(ran.status, (0, 3), ran.said)
                self.assertEqual("safe\n", (self.top.parent / "victim").read_text())

    def test_emptied_and_deleted_files_of_its_own(self):
        self.put(FILES)
        for name in (".kati/statements", ".kati/graph", ".kati/record", ".kati/watched", ".kati/stat", "build.ninja"):
            for edit in (f": > {name}", f"rm {name}"):
                for build in (self.ninja, self.build) if name != "build.ninja" else (self.build,):
                    with self.subTest(edit=edit, by=build.__name__):
                        self.build()
                        self.put({"h.h": f"#define H {(time.time_ns() // 1000) % 200}\n"})
                        self.sh(edit)
                        ran = build()
                        if ran.status == 0:
                            self.assertFalse(self.build().has_work, ran.said)
                            self.assertIn("up to date", self.make().said, ran.said)
                        else:
                            self.assertIn("error", ran.said)

    def test_a_ninja_with_another_log_is_refused(self):
        other = self.top.parent / "ninja"
        other.write_text(f"#!/bin/sh\n{shutil.which('ninja')} \"$@\" || exit\nfor one in .ninja_log .kati/.ninja_log; "
                         "do [ ! -e $one ] || sed -i '1s/v[0-9]*/v99/' $one; done\n")
        other.chmod(0o755)
        self.put({"Makefile": "all: a c.h\na: s ; echo >> log; cp s a\nc.h: ; echo >> log; touch c.h\n", "s": "1\n",
                  "c.h": "mine\n", "a": "shipped\n"})
        for edit in ("true", "touch s"):
            self.sh(edit)
            before = self.contents()
            ran = self.build(NINJA=str(other))
            self.assertEqual(3, ran.status, ran.said)
            self.assertIn(f"{other} writes a log that kati-build does not know\nhelp: ", ran.said)
            self.assertEqual((before, None), (self.contents(), self.read("build.ninja")))
        self.assertEqual(0, self.build().status)
        self.assertEqual(("mine\n", "\n"), (self.read("c.h"), self.read("log")))

    def test_scripts_that_are_gone(self):
        self.put({"Makefile": "export X = 1\nprog: a\n\techo $$X > $@\n", "a": ""})
        self.build()
        self.sh("rm -rf .kati/run; touch a")
        self.assertEqual(0, self.build().status)
        self.assertEqual("1\n", self.read("prog"))

    def test_a_build_that_never_settles(self):
        self.put({"Makefile": "X := $(wildcard *.x)\nall:\n\t@touch $(words $(X)).x\n"})
        ran = self.build()
        self.assertEqual(0, ran.status, ran.said)
        self.assertLessEqual(len(ran.reasons), 3)

    def test_damaged_records(self):
        self.put(FILES)
        for text in ("", "{}", "[]", "{\"format\": 1}", "{\"format\": 99}", "\\0", "null"):
            with self.subTest(text):
                self.build()
                self.sh(f"printf '%s' '{text}' > .kati/record")
                ran = self.build()
                self.assertEqual(0, ran.status, ran.said)
                self.assertNotIn("Traceback", ran.said)

    def test_a_copied_tree_builds_itself(self):
        self.put(FILES)
        self.build()
        self.sh("cp -a . ../copy; cd ../copy; echo '#define H 9' > h.h")
        copy, self.top = self.top.parent / "copy", self.top
        ran = subprocess.run(["ninja"], cwd=copy, env=QUIET, stdout=subprocess.PIPE, check=False)
        self.assertEqual(0, ran.returncode, ran.stdout)
        self.assertEqual(9, subprocess.run([copy / "prog"], check=False).returncode)
        self.assertEqual(3, subprocess.run([self.top / "prog"], check=False).returncode)

    def test_the_reason_is_one_line(self):
        self.put(FILES)
        self.build()
        self.sh("mkdir 'sub\nfolder'; echo > \"$(printf 'sub\\nfolder/\\033[31m.c')\"")
        ran = self.build()
        self.assertEqual(1, ran.said.count(READ))
        self.assertNotIn("\033", ran.said)


if __name__ == "__main__":
    unittest.main()
