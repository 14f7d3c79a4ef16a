"""What is remembered of a translation: `.kati/record`."""
from __future__ import annotations

import json
from typing import Any, Dict, Mapping, NamedTuple, Optional, Tuple

from ..base import files
from .request import Request

FORMAT = 1   # another number in the file counts as no record


class FileState(NamedTuple):
    """Times are nanoseconds; `changed` is ctime; `size` is in bytes."""

    modified: int
    changed: int
    size: int
    inode: int
    sha256: str


class FolderState(NamedTuple):
    """`names` are those that count, each of a folder with `/`, each of a link with ` -> ` and what the link holds."""

    modified: int
    changed: int
    inode: int
    names: Tuple[str, ...]


class Dependencies(NamedTuple):
    """What make's answer depends on. None stands for absent."""

    files: Mapping[str, Optional[FileState]]
    folders: Mapping[str, Optional[FolderState]]
    environment: Mapping[str, Optional[str]]
    git: Mapping[str, str]                       # by command: the SHA-256 of what it prints
    apart: Tuple[str, ...] = ()                  # depfiles, whose names do not count
    shown: Tuple[str, ...] = ()                  # hidden folders whose names count
    kinds: Tuple[Tuple[str, str], ...] = ()      # folder and suffix of hidden names that count
    is_all_shown: bool = False                   # a call lists hidden names, as `find` does
    literal: Tuple[str, ...] = ()                # hidden names that a makefile or a call has
    timed: Tuple[str, ...] = ()                  # what makefiles are made from: make remakes them for a time alone
    unseen: Tuple[str, ...] = ()                 # what may change unseen, for `--why`
    wildcards: Tuple[str, ...] = ()              # words of `$(wildcard ..)`: a depfile that fits may be included


class BuildRecord(NamedTuple):
    """Everything that a later run needs to know of this one."""

    request: Request
    dependencies: Dependencies
    outputs: Tuple[str, ...] = ()
    hidden: Mapping[str, str] = {}               # include that is hidden from make: the output whose depfile it is
    visible: Tuple[str, ...] = ()                # includes that look like depfiles, and that the graph needs
    absent_includes: Tuple[str, ...] = ()
    seen_outputs: Tuple[str, ...] = ()           # of all readings of this folder so far
    separated: Tuple[str, ...] = ()              # targets that are not joined again
    left_alone: Tuple[str, ...] = ()             # text files that make would leave alone, and that Ninja never made
    written_while_read: Tuple[str, ...] = ()     # files that each reading writes
    without_effect: Tuple[str, ...] = ()         # products that reading opened, and that changed no graph
    made_includes: Tuple[str, ...] = ()          # includes that make remakes
    graph_sha256: str = ""
    ninja_sha256: str = ""                       # of build.ninja
    differences: Tuple[str, ...] = ()
    tools_sha256: str = ""
    format: int = FORMAT


def load(path: str) -> Optional[BuildRecord]:
    """The record of a file; None if the file is absent, of another format, or not a record."""
    data = files.read(path)
    if data is None:
        return None
    try:
        given = json.loads(files.text_of(data))
        return record_of(given) if given["format"] == FORMAT else None
    except (ValueError, TypeError, KeyError, AttributeError):
        return None


def record_of(given: Dict[str, Any]) -> BuildRecord:
    """The record that JSON holds; lists become tuples."""
    request, depends = Request(*map(tupled, given.pop("request"))), given.pop("dependencies")
    depends["files"] = {name: FileState(*state) if state else None for name, state in depends["files"].items()}
    depends["folders"] = {name: FolderState(*state[:3], tuple(state[3])) if state else None
                          for name, state in depends["folders"].items()}
    dependencies = Dependencies(**{name: tupled(value) for name, value in depends.items()})
    return BuildRecord(request, dependencies, **{name: tupled(value) for name, value in given.items()})


def tupled(value: Any) -> Any:
    """A list as a tuple, also within; other values as they are."""
    return tuple(map(tupled, value)) if isinstance(value, list) else value


def save(path: str, record: BuildRecord) -> None:
    """Writes the record."""
    given = {**record._asdict(), "request": list(record.request), "dependencies": record.dependencies._asdict()}
    files.replace(path, json.dumps(given, ensure_ascii=False, separators=(",", ":")).encode("utf-8", "surrogateescape"))
