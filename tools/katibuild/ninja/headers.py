"""Header dependencies: an include that compilers write is the depfile of a statement."""
from __future__ import annotations

import re
from typing import Iterator, Mapping, Optional

from ..base.files import ninja_name, text_of
from .text import Block, NinjaText

LARGEST = 1 << 22                # bytes; no compiler writes a longer depfile
RULE = re.compile(r"([^\s:=#$%\\]+)\s*:(?![:=])((?:[^=:;$#\\]|\\.|\$\$)*)$")


def target_of(data: bytes) -> Optional[str]:
    """The one target with prerequisites of a file that holds nothing but rules without recipes; else None. Targets
    without prerequisites are the headers of `-MP`."""
    if len(data) > LARGEST:
        return None
    target = None
    for line in text_of(data).replace("\\\n", " ").split("\n"):
        if not line.strip() or line.startswith("#"):
            continue
        found = None if line.startswith("\t") else RULE.match(line.rstrip())
        if not found or found.group(2).strip() and target is not None:
            return None
        if found.group(2).strip():
            target = found.group(1)
    return None if target is None else ninja_name(target)


def blocks(text: NinjaText, found: Mapping[str, str]) -> Iterator[Block]:
    """`depfile` for each output that has one; never `deps = gcc`, by which Ninja would remove the file, and make then
    call a stale program up to date."""
    for one in text.statements:
        if not one.is_phony and one.outputs[0] in found:
            yield Block(one.line, (("depfile", found[one.outputs[0]]),))
