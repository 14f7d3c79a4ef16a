"""What `--why` prints: what a build depends on, and what nobody can see to have changed."""
from __future__ import annotations

from typing import Iterable, Iterator, List

from .record import BuildRecord
from .stale import changes

MOST = 12   # names in a line


def lines(record: BuildRecord) -> Iterator[str]:
    """The lines for a record."""
    depends = record.dependencies
    found = changes(record).reasons
    yield f"the makefile is read again now: {found[0].text}" if found else "the makefile is up to date"
    yield from part("files", [name for name, state in depends.files.items() if state is not None])
    yield from part("files that do not exist", [name for name, state in depends.files.items() if state is None])
    yield from part("names in folders", [name for name, state in depends.folders.items() if state is not None])
    yield from part("variables", [name for name, value in depends.environment.items() if value is not None])
    yield from part("unset variables", [name for name, value in depends.environment.items() if value is None])
    yield from part("git", depends.git)
    yield from part("depfiles that make does not see", record.hidden)
    yield from part("includes that make remakes", record.made_includes)
    yield from part("files that each reading writes", record.written_while_read)
    yield from part("products that make opens, without effect", record.without_effect)
    yield from part("what Ninja does otherwise than make", record.differences, is_long=True)
    yield from part("what nobody can see", [*depends.unseen, "variables that scripts read, the network, the clock, "
                                            "and versions of programs"], is_long=True)


def part(title: str, names: Iterable[str], is_long: bool = False) -> List[str]:
    """A title with its names below, several in a line unless they are sentences; nothing for no names."""
    found = list(names)
    if not found:
        return []
    step = 1 if is_long else MOST
    return [f"{title}:", *(f"  {' '.join(found[at:at + step])}" for at in range(0, len(found), step))]
