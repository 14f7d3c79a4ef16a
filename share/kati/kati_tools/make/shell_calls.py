"""The calls of $(shell ..) of a makefile that make is asked about several times: each is run once, and answered from
what it wrote then.

The shell that make is given for them counts the calls of one text in a run of make, and keeps what each wrote; in the
next run the same call has the same answer. As by make, what a call leaves in the background is waited for where it has
the call's output, and not else."""
import functools
import os
import shlex
import shutil

from ..base import files
from ..base.programs import bytes_of

# What stands in such a shell before what it does for recipes: make reads what $(shell ..) prints from a pipe, and
# leaves its own output, which is a file, to recipes. Its variables have names that the environment hasn't, as what it
# runs would have their values. A text that was run before has a number, which the table of the texts of its length
# tells; no program is run to answer it, since that takes longer than most calls.
ANSWERING = """\
if test -p /dev/stdout; then
    test -e {new}/count || exec {shell} "$@"
    kati_text="$*" kati_number= kati_count=0
    test ! -e {kept}/texts-${{#kati_text}} || . {kept}/texts-${{#kati_text}}
    if test -n "$kati_number"; then
        test ! -e {now}/$kati_number || read kati_count < {now}/$kati_number
        echo $((kati_count + 1)) > {now}/$kati_number
        test ! -e {kept}/$kati_number-$kati_count || . {kept}/$kati_number-$kati_count
    fi
    read kati_count < {new}/count
    echo $((kati_count + 1)) > {new}/count
    kati_told=$({shell} "$@"; echo "/$?")
    kati_status=${{kati_told##*/}} kati_told=${{kati_told%/*}}
    printf '%s\\0' "${{#kati_text}}" "$kati_text" "$kati_told" $kati_status > {new}/$kati_count
    printf %s "$kati_told"
    exit $kati_status
fi
"""


class Calls:
    """The calls that were run while make was asked, in the folder `room`: what this run of make asked for, what all
    before it wrote, and what is new."""

    def __init__(self, room):
        self.now, self.kept, self.new = (os.path.join(room, f"calls-{name}") for name in ("now", "kept", "new"))
        # The number of each text, with the lengths as the shell has them; and how often each has been run.
        self.numbers, self.counts = {}, {}
        # The texts that are run each time that make is asked.
        self.each_time = set()

    def answering(self, shell):
        """The lines of a shell that answers calls by another shell."""
        now, kept, new = map(shlex.quote, (self.now, self.kept, self.new))
        return ANSWERING.format(shell=shell, now=now, kept=kept, new=new).rstrip("\n")

    def begin(self):
        """Keeps what is new, and counts from the beginning, for a new run of make."""
        new = [call for call in self.told() if call[1] not in self.each_time]
        for folder in (self.now, self.new):
            shutil.rmtree(folder, ignore_errors=True)
            os.makedirs(folder)
        os.makedirs(self.kept, exist_ok=True)
        for call in new:
            self.keep(*call)
        for length in {call[0] for call in new}:
            self.write_table(length)
        files.write(os.path.join(self.new, "count"), b"0\n")

    def told(self):
        """The calls of the last run that are new, in their order: the length, the text, what each wrote, and its
        status."""
        count = int(files.read(os.path.join(self.new, "count")) or 0)
        for number in range(count):
            text = files.read(os.path.join(self.new, str(number)))
            if text is not None and text.count("\0") == 4:
                yield text.split("\0")[:4]

    def texts(self):
        """The texts of all calls that were run, since they were last forgotten."""
        return {text for _, text in self.numbers} | {text for _, text, _, _ in self.told()} | self.each_time

    def keep(self, length, text, output, status):
        """Keeps what a call wrote, as lines of a shell that write it."""
        number = self.numbers.setdefault((length, text), len(self.numbers))
        count = self.counts.get(number, 0)
        self.counts[number] = count + 1
        files.write(os.path.join(self.kept, f"{number}-{count}"),
                    bytes_of(f"printf %s {shlex.quote(output)}\nexit {status}\n"))

    def write_table(self, length):
        """Writes the table of the texts of a length."""
        lines = [f"{shlex.quote(text)}) kati_number={number};;\n"
                 for (other, text), number in self.numbers.items() if other == length]
        files.write(os.path.join(self.kept, f"texts-{length}"),
                    bytes_of(f"case $kati_text in\n{''.join(lines)}esac\n"))

    def run_each_time(self, texts):
        """Has the calls of these texts run each time that make is asked, as what they write is taken away before."""
        self.each_time.update(texts)
        for length, text in [one for one in self.numbers if one[1] in self.each_time]:
            self.counts.pop(self.numbers.pop((length, text)))
            self.write_table(length)

    def forget(self):
        """Has each call run once more, as where a file has changed that it may read."""
        self.numbers.clear()
        self.counts.clear()
        for folder in (self.kept, self.new):
            shutil.rmtree(folder, ignore_errors=True)


@functools.lru_cache(None)
def of_room(room):
    """The calls in a folder."""
    return Calls(room)
