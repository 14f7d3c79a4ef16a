"""What a port of kati-build came from, and whether all of that is as it was: then so is the port."""
import functools
import hashlib
import json
import os

from ..base import files
from ..build import translating
from . import watched
from ..base.programs import Stop, bytes_of, find_kati, own_sources

FOLDER, RECORD = "ported", "ported.json"


@functools.lru_cache(None)
def sum_of_tools(kati):
    """What tells these tools, and kati, from others, which may port otherwise; a run has the same all along."""
    found = hashlib.sha256()
    for path in own_sources():
        found.update(bytes_of(f"{os.path.basename(path)}\0{files.read(path)}\0"))
    program = os.stat(find_kati(kati))
    return f"{found.hexdigest()} {program.st_size} {program.st_mtime_ns}"


def place_of_port():
    """The folder that a port is for."""
    return os.path.realpath(".")


class Record:
    """What a port came from, and what it wrote, in the folder `room`."""

    # What a kept one has, with the types.
    FORM = {"words": list, "place": str, "tools": str, "watched": dict, "written": dict, "folder": str, "report": list,
            "taken": list}

    def __init__(self, asked, room):
        self.asked, self.room, self.path = asked, room, os.path.join(room, RECORD)
        self.makefile = asked.makefile or translating.default_makefile()
        if self.makefile is None:
            raise Stop("no makefile", 2)

    def words(self):
        """The makefile and the words of the command line."""
        return [self.makefile, *self.asked.words]

    def has_these_words(self, kept):
        """Whether a kept record is for these words."""
        return (kept["words"], kept.get("depth")) == (self.words(), self.asked.depth)

    def given(self):
        """What a port is for: the makefile, the words, the folder and the tools."""
        return {"words": self.words(), "depth": self.asked.depth,
                "place": place_of_port(), "tools": sum_of_tools(self.asked.kati)}

    def kept(self):
        """The record as it is kept; None where there is none of this form."""
        try:
            found = json.loads(files.read(self.path) or "null")
        except ValueError:
            return None
        is_right = isinstance(found, dict) and all(isinstance(found.get(key), one) for key, one in self.FORM.items())
        return found if is_right and {"differing", "difference"} <= set(found) else None

    def keep(self, record):
        """Keeps a record."""
        files.keep(self.path, json.dumps(record, indent=1) + "\n", self.room)

    def changed(self, kept, are_tools_as_noted=False):
        """What to say of the first thing that isn't as it was, None where all is; `are_tools_as_noted` says that these
        tools and kati are known to be those of the port, which reading them all tells else."""
        if kept["place"] != place_of_port():
            return f"this folder was {kept['place']}"
        if not self.has_these_words(kept):
            return "other words are given"
        if not are_tools_as_noted and kept["tools"] != sum_of_tools(self.asked.kati):
            return "kati or these tools are others"
        for name, total in kept["written"].items():
            if watched.sum_of(os.path.join(self.room, FOLDER, name)) != total:
                return f"{os.path.join(self.room, FOLDER, name)} isn't as it was written"
        return watched.first_changed(kept["watched"])
