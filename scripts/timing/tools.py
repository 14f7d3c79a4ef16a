"""Commands that scripts/times.py times, and the folders that they run in."""
import os
import resource
import signal
import subprocess
import threading
import time

MEGABYTE = 2**20
LIST = "files.txt"


class Tool:
    """A command, with the least time and the most memory that its runs took."""

    def __init__(self, name, words, stack):
        self.name, self.words, self.stack = name, words, stack
        self.seconds, self.bytes, self.status = None, 0, None
        self.before = None

    def next_size(self):
        """Forgets the runs, except their time, from which growth is computed, and that a run did not end."""
        self.before, self.seconds, self.bytes = self.seconds, None, 0
        self.status = "no end" if self.status == "no end" else None

    def run(self, folder, limit, notes=None):
        """One run in a folder. Its output goes to a file in `notes`, or else next to the makefile."""
        if self.status == "no end":
            return
        notes = notes or folder
        note = notes / "memory.txt"
        words = ["/usr/bin/time", "-q", "-f", "%M", "-o", str(note), *self.words]
        with open(notes / f"{self.name}.out", "wb") as out:
            start = time.perf_counter()
            process = subprocess.Popen(words, cwd=folder, stdin=subprocess.DEVNULL, stdout=out,
                                       stderr=subprocess.DEVNULL, start_new_session=True, preexec_fn=self.take_stack)
            # A wait with a limit of its own looks only every 50 milliseconds.
            ends = threading.Timer(limit, os.killpg, (process.pid, signal.SIGKILL))
            ends.start()
            status = process.wait()
            seconds = time.perf_counter() - start
            ends.cancel()
        if seconds >= limit:
            self.status, self.seconds = "no end", None
            return
        self.status = status
        self.seconds = seconds if self.seconds is None else min(self.seconds, seconds)
        self.bytes = max(self.bytes, int(note.read_text().split()[-1]) * 1024)

    def take_stack(self):
        resource.setrlimit(resource.RLIMIT_STACK, (self.stack, resource.getrlimit(resource.RLIMIT_STACK)[1]))

    def told(self):
        """Milliseconds and megabytes, with the status if it is not 0."""
        if self.seconds is None:
            return str(self.status or "-")
        failed = f", status {self.status}" if self.status else ""
        return f"{self.seconds * 1000:,.0f} ({self.bytes / MEGABYTE:.0f}){failed}"

    def growth(self):
        return "" if self.before is None or self.seconds is None else f"{self.seconds / self.before:.1f}"


def write(folder, files, sources):
    """Writes the files, an empty file for each source, and the list of the sources; answers the bytes of the
    makefiles."""
    for name, text in {**files, **dict.fromkeys(sources, ""), LIST: "\n".join([*sources, ""])}.items():
        (folder / name).parent.mkdir(parents=True, exist_ok=True)
        (folder / name).write_text(text)
    return sum(len(text) for text in files.values())


def run_all(found, folder, asked, notes=None):
    """Runs the tools in turn. A tool that took long is not run again: its next runs would tell nothing new."""
    for number in range(asked.runs):
        for tool in found:
            if number == 0 or tool.seconds is not None and tool.seconds < asked.seconds / 10:
                tool.run(folder, asked.seconds, notes)


def ratio(one, other, part):
    values = getattr(one, part), getattr(other, part)
    return f"{values[0] / values[1]:.2f}" if all(values) else "-"
