"""compile_commands.json: each compilation without the shell that kati puts round it, for editors and their kin."""
import hashlib
import json
import os

from ..base import files, own_files
from ..make import shell_text
from . import header_dependencies

NAME = "compile_commands.json"


def entries(found):
    """An entry for each command of the statements that compiles one source."""
    for statement in found:
        for piece in shell_text.pieces(statement.command or "") or []:
            for words in shell_text.simple_commands(piece.text):
                sources = header_dependencies.sources_of(words)
                if "-c" in words and len(sources) == 1:
                    yield {"directory": os.getcwd(), "file": sources[0], "arguments": words,
                           "output": statement.outputs[0]}


def text(found):
    """The text of the file."""
    told = json.dumps(list(entries(found)), indent=1, ensure_ascii=False)
    return told.encode("utf-8", "surrogateescape").decode("utf-8", "replace") + "\n"


def sum_of(written):
    """The sum of the file with this text, as a line."""
    return hashlib.sha256(written.encode("utf-8", "surrogateescape")).hexdigest() + "\n"


def keep(found, room):
    """Writes the file where it is another, and its sum into kati-build's folder."""
    written = text(found)
    files.keep(NAME, written, room)
    files.keep(os.path.join(room, own_files.COMMANDS), sum_of(written), room)


def is_own(path, room):
    """Whether this file is the one that kati-build wrote for its folder `room`."""
    noted = os.path.join(room, own_files.COMMANDS)
    return os.path.isfile(path) and os.path.isfile(noted) and files.read(noted) == sum_of(files.read(path))
