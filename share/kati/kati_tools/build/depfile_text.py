"""What a file of header dependencies says, as Ninja and make read it."""
import re

from ..base import files
from ..base.programs import text_of
from . import top_file

# A colon with a blank or nothing behind it ends the targets.
RULE = re.compile(r"((?:\\.|[^:\\]|:(?=\S))*):(?:\s|$)(.*)")
WORD = re.compile(r"(?:\\[ #\\]|[^\s])+")
ESCAPED = re.compile(r"\\([ #])")

# Files of header dependencies that makefiles include, by how their names end.
NAMED = re.compile(r"\.(d|dep|P|Po|Plo|pp)$|(^|/)\.?depend[^/]*$")


def is_named_as_one(path):
    """Whether a file has the name of one of header dependencies."""
    return bool(NAMED.search(path))


def names(text):
    """The names of a part of a rule, as Ninja has them."""
    return top_file.plain([ESCAPED.sub(r"\1", word).replace("$$", "$") for word in WORD.findall(text)])


def rules(path):
    """The rules of a file, each its targets and what these are made from; none where it can't be read."""
    text = text_of(files.content(path) or b"").replace("\\\n", " ")
    found = (RULE.match(line) for line in text.split("\n"))
    return [(names(one.group(1)), names(one.group(2))) for one in found if one]

