"""Runs that are ended by a signal, at whatever step: what stays, what is said, and the status."""
import ctypes
import os
import signal
import subprocess
import sys
import tempfile

from support import LONG, TOOLS, Tree, needs, without_at_work

from kati_tools.base import interrupting, programs, scratch
from kati_tools.port import write_command, writing

ENDING = (signal.SIGINT, signal.SIGTERM, signal.SIGHUP)


def as_begun_by_a_person():
    """Has the signals do what they do at a terminal, also where the tests were begun to ignore some of them."""
    for number in ENDING:
        signal.signal(number, signal.SIG_DFL)


def at_step(wanted, number, call):
    """Makes a call, and has a signal come before the line of the tools that is run as the `wanted` one."""
    steps = 0

    def step(frame, event, _):
        nonlocal steps
        is_theirs = "kati_tools" in frame.f_code.co_filename or "contextlib" in frame.f_code.co_filename
        if event == "line" and is_theirs:
            steps += 1
            if steps == wanted:
                os.kill(os.getpid(), number)
        return step

    sys.settrace(step)
    try:
        return call()
    finally:
        sys.settrace(None)


def ended(log, call):
    """The status of a tool that makes this call, and what it says, by a file for that; in a process of its own."""
    pid = os.fork()
    if not pid:
        # The child, which never goes back into the tests.
        status = 99
        try:
            os.dup2(os.open(log, os.O_WRONLY | os.O_CREAT | os.O_TRUNC, 0o666), 2)
            sys.stderr = open(2, "w", closefd=False)
            as_begun_by_a_person()
            interrupting.end_as_interrupted()
            status = programs.ending("tool", call)
        finally:
            os._exit(status)
    return os.waitpid(pid, 0)[1] >> 8, log.read_text()


class Steps(Tree):
    """A signal before each line of what makes files and takes them away; each in a process of its own."""

    def all_steps(self, call, check):
        """Has a signal come at the first step, the second one, and so on until the call ends before it comes; `check`
        gets the status and what was said."""
        statuses, wanted = [], 0
        while not statuses or statuses[-1]:
            wanted += 1
            status, said = ended(self.top.parent / "said", lambda: at_step(wanted, ENDING[wanted % 3], call))
            with self.subTest(wanted):
                self.assertIn(status, (0, 130), said)
                check(status, said)
            statuses.append(status)
        self.assertGreater(len(statuses), 20)

    def test_a_scratch_folder(self):
        room = self.top / "rooms"
        room.mkdir()

        def call():
            tempfile.tempdir = str(room)
            with scratch.room("tried-") as path:
                os.mkdir(os.path.join(path, "folder"))
                os.chmod(os.path.join(path, "folder"), 0o500)
            return 0

        def check(status, said):
            self.assertEqual((os.listdir(room), said), ([], "tool: interrupted\n" if status else ""))

        self.all_steps(call, check)

    def test_the_writing_of_files(self):
        def call():
            with write_command.telling_of_files() as writings:
                writings.append(writing.Writing({str(self.top / name): "after\n" for name in ("a", "b")}))
                writings[0].write()
            return 0

        def check(status, said):
            texts = [self.read(name) for name in ("a", "b")]
            self.assertIn(texts, (["before\n"] * 2, ["after\n"] * 2))
            told = ["the files are changed"] if texts[0] == "after\n" else ["no file was changed", "interrupted"]
            # At the first steps it isn't known yet that files may be changed, and nothing is said of them.
            lines = {f"tool: interrupted; {one}\n".replace("interrupted; interrupted", "interrupted") for one in told}
            self.assertIn(said, lines if status else {""})
            self.assertEqual(sorted(os.listdir(self.top)), ["a", "b"])
            self.put_all({"a": "before\n", "b": "before\n"})

        self.put_all({"a": "before\n", "b": "before\n"})
        self.all_steps(call, check)


class Together(Tree):
    """Signals of which Python hears at once."""

    def test_one_counts(self):
        def call():
            signal.pthread_sigmask(signal.SIG_BLOCK, ENDING)
            for number in ENDING:
                os.kill(os.getpid(), number)
            # By the library of C, as signals come: without a look by Python at those that came.
            ctypes.CDLL(None).pthread_sigmask(signal.SIG_SETMASK, bytes(128), None)
            return 0

        self.assertEqual(ended(self.top.parent / "said", call), (130, "tool: interrupted\n"))


@needs("kati", "ninja", "make")
class Tools(Tree):
    """Whole tools."""

    SLOW = "V := $(shell touch {top}/begun; sleep 60)\nout: ; echo $(V) > out\n"

    def started(self, *words):
        """A tool that runs, whose scratch folders stand in a folder of their own."""
        self.room = self.top.parent / "scratch"
        self.room.mkdir(exist_ok=True)
        return subprocess.Popen([TOOLS / words[0], *words[1:]], cwd=self.top, stdin=subprocess.DEVNULL,
                                env={**os.environ, "TMPDIR": str(self.room)}, stdout=subprocess.PIPE,
                                stderr=subprocess.STDOUT,
                                preexec_fn=as_begun_by_a_person)

    def test_nothing_stays_where_make_is_asked(self):
        begun = self.top.parent / "begun"
        makefile = self.SLOW.format(top=self.top.parent)
        for_make = f"ifdef MAKE_VERSION\n{makefile}else\nout: ; echo > out\nendif\n"
        for words, text, number in ((["kati-compare"], for_make, signal.SIGTERM),
                                    (["kati-port", "--macros", "Makefile"], makefile, signal.SIGTERM),
                                    (["kati-port", "--write", "Makefile"], makefile, signal.SIGHUP),
                                    (["kati-build", "--port"], makefile, signal.SIGINT)):
            with self.subTest(words):
                self.put("Makefile", text)
                running = self.started(*words)
                self.wait_for(begun.exists)
                running.send_signal(number)
                said = running.communicate(timeout=LONG)[0].decode()
                self.assertEqual(running.returncode, 130, said)
                self.assertTrue(without_at_work(said).startswith(f"{words[0]}: interrupted"), said)
                self.assertEqual((os.listdir(self.room), os.listdir(self.top)), ([], ["Makefile"]))
                begun.unlink()

    def test_ninja_ends_with_kati_build(self):
        pid = self.top.parent / "pid"
        for number in ENDING:
            with self.subTest(number):
                self.put("Makefile", f"out: ; echo $$PPID > {pid}.new; mv {pid}.new {pid}; sleep 60; echo > out\n")
                running = self.started("kati-build")
                self.wait_for(pid.exists)
                running.send_signal(number)
                said = running.communicate(timeout=LONG)[0].decode()
                self.assertIn("interrupted by user", said)
                self.assertIn(running.returncode, (2, 130))
                with self.assertRaises(ProcessLookupError):
                    os.kill(int(pid.read_text()), 0)
                pid.unlink()

    def test_a_program_that_a_signal_ends(self):
        self.put("Makefile", "out: ; echo > out\n")
        ran = self.tool("kati-build", **self.around("kill -11 $$"))
        self.assertEqual(ran.status, 70, ran.all)
        self.assertRegex(ran.said, r"^kati-build: \S+ was ended by signal 11\n$")
        ran = self.tool("kati-build", NINJA=self.program("ninja", "kill -9 $$"))
        self.assertEqual((ran.status, ran.said), (1, "kati-build: ninja was ended by signal 9\n"))


@needs("kati", "ninja", "make")
class Outputs(Tree):
    """Standard output that is closed, or takes nothing."""

    def by_shell(self, line):
        """A line of bash by which a tool runs; it says the status."""
        return self.run_in("bash", "-c", f"PATH={TOOLS}:$PATH; {line}; echo \"status ${{PIPESTATUS[0]}}\" >&2")

    def test_each_tool(self):
        closed, full = "Bad file descriptor", "No space left on device"
        for line, told in (("kati-port --help >&-", f"kati-port: standard output: {closed}"),
                           ("kati-build --help > /dev/full", f"kati-build: standard output: {full}"),
                           ("kati-compare > /dev/full", f"kati-compare: standard output: {full}"),
                           ("kati-port Makefile >&-", f"kati-port: standard output: {closed}"),
                           ("kati-port --write --diff Makefile > /dev/full", f"kati-port: standard output: {full}")):
            with self.subTest(line):
                self.put("Makefile", "V := $(shell echo 1)\nout:\n\techo $(V) > out\n" if "--write" in line
                         else "out: ; echo > out\n")
                self.assertEqual(self.by_shell(line).said, f"{told}\nstatus 3\n")

    def test_it_is_said_where_files_are_changed(self):
        self.put("Makefile", "V := $(shell echo 1)\nout:\n\techo $(V) > out\n")
        said = self.by_shell("kati-port --write Makefile >&-").said
        told = "kati-port: standard output: Bad file descriptor; the files are changed\nstatus 3\n"
        self.assertEqual(said, told)
        self.assertIn("kati-values.mk", self.read("Makefile"))

    def test_kati_build(self):
        self.put("Makefile", "out: ; echo > out\n")
        self.assertEqual(self.by_shell("kati-build --no-ninja >&-").said, "status 0\n")
        self.assertEqual(self.by_shell("kati-build >&- 2>&-; echo ok >&2").said[:3], "ok\n")
        (self.top / "out").unlink()
        # Its reader is gone before ninja says anything.
        self.put("Makefile", f"out: ; until test -e {self.top.parent}/gone; do sleep 0.01; done; echo > out\n")
        said = self.by_shell(f"kati-build | (exec <&-; touch {self.top.parent}/gone)").said
        self.assertEqual(said, "kati-build: ninja was ended by signal 13, as its output was closed\nstatus 3\n")
