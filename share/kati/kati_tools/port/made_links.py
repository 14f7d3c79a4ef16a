"""`ln -s` without `-f`, which fails where its link stands: once what it leads to is another one, make ends with a
fault, and takes the link for made when it is run again; ninja runs what has failed until it ends well, and runs it at
first also where make has built."""
import os
import re

from ..build import comparing
from . import command_reads, taken_away

SYMBOLIC, FORCING = re.compile(r"-\w*s\w*|--symbolic"), re.compile(r"-\w*f\w*|--force")
# So many names are told.
MOST = 3


def links_once(text, names):
    """Whether a command is such an `ln`, for a link of one of these names."""
    found = command_reads.simple_commands(text)
    if len(found) != 1 or found[0].program != "ln" or len(found[0].operands()) != 2:
        return False
    words = found[0].words
    return os.path.normpath(found[0].operands()[1]) in names and any(map(SYMBOLIC.fullmatch, words)) \
        and not any(map(FORCING.fullmatch, words))


def told(translation):
    """A line for all statements that have such a command, and may have it run again."""
    found = []
    for one in translation.statements:
        texts = comparing.unwrapped(one.command) if one.inputs and "ln -" in (one.command or "") else ()
        if any(links_once(text, one.outputs) for text in texts if "ln -" in text) \
                and not set(taken_away.removed_by(one.command)).intersection(one.outputs):
            found += one.outputs
    if found:
        more = f" and {len(found) - MOST} more" if len(found) > MOST else ""
        yield (f"{' '.join(found[:MOST])}{more}: ln -s fails where the link stands, for make and ninja, and ninja has "
               "no end of it until the link is taken away; write ln -sf")
