"""What SECURITY.md says of the programs where memory, the stack or a file doesn't end as usual, tried on them."""
import os
import signal
import subprocess

from support import LONG, Tree, kati, kati_asked, needs

DEEP = 395


@needs("kati")
class Limits(Tree):
    """Runs in little memory, and on files that don't end."""

    def limited(self, kilobytes, *words):
        """The program's status with so much memory, negative where a signal ended it, and its standard error."""
        ran = subprocess.run(["bash", "-c", f"ulimit -v {kilobytes}; exec \"$0\" \"$@\"", kati(), *words], cwd=self.top,
                             stdin=subprocess.DEVNULL, stdout=subprocess.PIPE, stderr=subprocess.PIPE, timeout=LONG)
        return ran.returncode, ran.stdout.decode(), ran.stderr.decode()

    def test_a_growth_that_meets_the_limit_is_status_4(self):
        self.put("Makefile", "".join(f"V{number} := {'x' * 65536}\n" for number in range(200)) + "all: ; echo\n")
        self.assertEqual(self.limited(8000), (4, "", "kati: no memory\n"))

    def test_a_stack_that_meets_the_limit_is_a_signal(self):
        self.put("Makefile", f"A = {'$(if a,' * DEEP}x{')' * DEEP}\nall: ; echo $(A)\n")
        self.assertEqual(self.limited("unlimited", "--depth", "400")[0], 0)
        # Between what is too little for the loader, as it is told by the shell, and what is enough.
        found = [self.limited(kilobytes, "--depth", "400")[0] for kilobytes in range(2000, 8000, 250)]
        self.assertLessEqual(set(found), {-signal.SIGSEGV, 0, 4, 127})
        if found[0] == 127 and found[-1] == 0:
            self.assertIn(-signal.SIGSEGV, found)

    def test_an_open_that_never_returns(self):
        os.mkfifo(self.top / "pipe")
        self.put("Makefile", "-include pipe\nall: ; echo\n")
        ran = self.run_in("timeout", "0.3", kati())
        self.assertEqual((ran.status, ran.all), (124, ""))
        # It ends as soon as the open and the reads do.
        running = subprocess.Popen([kati()], cwd=self.top, stdin=subprocess.DEVNULL, stdout=subprocess.PIPE)
        (self.top / "pipe").write_text("A = 1\n")
        self.assertIn("build all", running.communicate(timeout=LONG)[0].decode())
        self.assertEqual(running.returncode, 0)

    @needs("kati-asked")
    def test_what_is_written_after_a_fault(self):
        self.put("Makefile", "endif\n")
        for program, told in ((kati(), ""), (kati_asked(), "\0makefile\nMakefile\n")):
            ran = self.run_in(program)
            self.assertEqual((ran.status, ran.out), (2, told))
